//! `verify`, and the same check in `show --plan` and `plot --answer`: what is not the answer of the plan is refused.
mod common;
use common::{folder, hex, run_in, Done, Folder};
use std::fs;
use std::path::PathBuf;

/// A belt that wears, worked out by hand: levels 31 and 42 leave 1 and 2, the change costs 50.
const TEXT: &str = "grid 0 to 79\nstate new start end\nstate worn start end\nedge new -> new stay\nedge worn -> worn stay\n\
                    edge new -> worn up 6 penalty 50\nlabel 2 to 5 changes 1\nreadings 31 30 31 42 43 42 41 42\n";
const ANSWER: &str = "81 0008 0000000000000035  82 0008 0001 0003 00 001F FF  82 0008 0004 0008 01 002A 02";
/// A plan of one reading that has no segmentation: it starts in state 0 and has to end in state 1.
const NO_PLAN: &str = "01 0004 0000 0006  02 0003 02 01 02  03 0006 00 00 00 0000 00  05 0002 0001";

/// A folder with belt.txt, belt.plan and an answer file.
fn belt(test: &str, answer: &str) -> Folder {
    let folder = folder(test);
    fs::write(folder.join("belt.txt"), TEXT).expect("file");
    fs::write(folder.join("belt.answer"), hex(answer)).expect("file");
    let done = run_in(&folder, &["make", "belt.txt", "-o", "belt.plan"], b"");
    assert_eq!((done.status, done.err.as_str()), (0, ""));
    folder
}

fn verify(folder: &PathBuf) -> Done {
    run_in(folder, &["verify", "belt.plan", "belt.answer"], b"")
}

#[test]
fn the_answer() {
    let folder = belt("verified", ANSWER);
    let done = verify(&folder);
    assert_eq!((done.status, done.err.as_str()), (0, ""));
    assert_eq!(done.text(), "belt.answer is the answer of belt.plan: cost 53, 2 runs\n");
    let done = run_in(
        &folder,
        &["verify", "-", "belt.answer"],
        &fs::read(folder.join("belt.plan")).expect("plan"),
    );
    assert_eq!(done.text(), "belt.answer is the answer of standard input: cost 53, 2 runs\n");
    let done = run_in(&folder, &["verify", "belt.plan", "-"], &hex(ANSWER));
    assert_eq!(done.text(), "standard input is the answer of belt.plan: cost 53, 2 runs\n");
}

/// A plan that is refused has an answer file too.
#[test]
fn the_answer_is_a_refusal() {
    let folder = belt("verified_refusal", "83 0001 10");
    fs::write(folder.join("belt.plan"), hex(NO_PLAN)).expect("file");
    let done = verify(&folder);
    assert_eq!((done.status, done.err.as_str()), (0, ""));
    let cause = "no segmentation ends in a state in which a record may end (refusal 16)";
    assert_eq!(done.text(), format!("belt.answer is the answer of belt.plan: {cause}\n"));
    let done = run_in(&folder, &["plot", "belt.plan", "--answer", "belt.answer"], b"");
    assert_eq!(
        (done.status, done.out.len(), done.err),
        (1, 0, format!("belt.plan: nothing to draw: {cause}\n"))
    );
    fs::write(folder.join("belt.plan"), hex("01 0004 0009 0000")).expect("file");
    fs::write(folder.join("belt.answer"), hex("83 0001 04")).expect("file");
    assert_eq!(
        verify(&folder).text(),
        "belt.answer is the answer of belt.plan: hi 0 is below lo 9 (refusal 4)\n"
    );
}

/// Each forged answer with the first difference, and what is wrong in the answer by itself.
const FORGED: [(&str, &str, &str); 13] = [
    (
        "81 0008 0000000000000035  82 0008 0001 0003 00 001F FF  82 0008 0004 0008 01 0020 02",
        "run 2: the level is 32, the search finds 42",
        "run 2 rises from 31 to 32, but edge 2 (0 -> 1, up 6) asks for a rise of 6 or more",
    ),
    (
        "81 0008 0000000000000034  82 0008 0001 0003 00 001F FF  82 0008 0004 0008 01 002A 02",
        "the cost is 52, the search finds 53",
        "its runs cost 53, not 52",
    ),
    // Another segmentation with its own right cost: level 43 leaves 7, where 42 leaves 2.
    (
        "81 0008 000000000000003A  82 0008 0001 0003 00 001F FF  82 0008 0004 0008 01 002B 02",
        "the cost is 58, the search finds 53",
        "",
    ),
    (
        "81 0008 0000000000000035  82 0008 0001 0002 00 001F FF  82 0008 0003 0008 01 002A 02",
        "run 1: the last reading is 2, the search finds 3",
        "its runs cost 174, not 53",
    ),
    (
        "81 0008 0000000000000035  82 0008 0001 0003 01 001F FF  82 0008 0004 0008 01 002A 02",
        "run 1: the state is 1, the search finds 0",
        "run 2 is entered by edge 2 (0 -> 1, up 6), but comes from state 1 to state 1",
    ),
    (
        "81 0008 0000000000000035  82 0008 0001 0003 00 001F FF  82 0008 0004 0008 01 002A 03",
        "run 2: the edge is 3, the search finds 2",
        "run 2 is entered by edge 3, but the plan has 3 edges, counted from 0",
    ),
    (
        "81 0008 0000000000000035  82 0008 0001 0003 00 001F FF  82 0008 0004 0008 01 0050 02",
        "run 2: the level is 80, the search finds 42",
        "run 2 has level 80, but the grid goes from 0 to 79",
    ),
    (
        "81 0008 0000000000000035  82 0008 0001 0003 00 001F FF  82 0008 0004 0008 02 002A 02",
        "run 2: the state is 2, the search finds 1",
        "run 2 has state 2, but the plan has 2 states",
    ),
    (
        "81 0008 0000000000000035  82 0008 0001 0003 00 001F FF  82 0008 0004 0007 01 002A 02",
        "run 2: the last reading is 7, the search finds 8",
        "the answer has 7 readings, but belt.plan has 8",
    ),
    (
        "81 0008 0000000000000035  82 0008 0001 0008 00 0025 FF",
        "it has 1 run, the search finds 2 runs",
        "label 1 (readings 2 to 5, 1 change) does not hold: the runs have 0 changes there",
    ),
    (
        "81 0008 0000000000000035  82 0008 0001 0001 00 001F FF  82 0008 0002 0003 00 001F 00  82 0008 0004 0008 01 002A 02",
        "it has 3 runs, the search finds 2 runs",
        "run 2 is entered by edge 0 (0 -> 0, stay), so runs 1 and 2 would be one",
    ),
    (
        "83 0001 10",
        "it holds refusal 16: no segmentation is allowed by this plan, the search finds 2 runs at cost 53",
        "",
    ),
    (
        "83 0001 0D",
        "it holds refusal 13: a label goes on after the last reading, the search finds 2 runs at cost 53",
        "",
    ),
];

#[test]
fn forged_answers() {
    for (answer, difference, fault) in FORGED {
        let folder = belt("forged", answer);
        let mut message = format!("belt.answer: not the answer of belt.plan: {difference}\n");
        if !fault.is_empty() {
            message += &format!("belt.answer: {fault}\n");
        }
        let done = verify(&folder);
        assert_eq!((done.status, done.out.len(), done.err), (1, 0, message.clone()), "{answer}");
        let done = run_in(&folder, &["show", "belt.answer", "--plan", "belt.plan"], b"");
        assert_eq!((done.status, done.out.len(), done.err), (1, 0, message.clone()), "{answer}");
        let done = run_in(&folder, &["plot", "belt.plan", "--answer", "belt.answer", "-o", "out.svg"], b"");
        assert_eq!((done.status, done.out.len(), done.err), (1, 0, message.clone()), "{answer}");
        assert!(!folder.join("out.svg").exists(), "{answer}");
        // The text has its readings, so that its plan is searched as well.
        let done = run_in(&folder, &["show", "belt.answer", "--text", "belt.txt", "--format", "json"], b"");
        assert_eq!((done.status, done.out.len()), (1, 0), "{answer}");
        let start = format!("belt.answer: not the answer of belt.txt: {difference}\n");
        assert!(done.err.starts_with(&start), "{answer}: {}", done.err);
    }
}

/// A rise of 1 is not shown as "up 6", with names either.
#[test]
fn rules_with_names() {
    let folder = belt("forged_names", FORGED[0].0);
    let rule = "belt.answer: run 2 rises from 31 to 32, but edge 2 (new -> worn, up 6) asks for a rise of 6 or more\n";
    for args in [
        &["show", "belt.answer", "--plan", "belt.plan", "--text", "belt.txt"][..],
        &["show", "belt.answer", "--text", "belt.txt"],
        &["plot", "belt.plan", "--answer", "belt.answer", "--text", "belt.txt"],
    ] {
        let done = run_in(&folder, args, b"");
        assert_eq!((done.status, done.out.len()), (1, 0), "{args:?}");
        assert!(done.err.contains(rule), "{args:?}: {}", done.err);
        // Beside a text alone the answer may be that of another record.
        assert_eq!(
            done.err.contains("give its plan file with --plan"),
            args.len() == 4,
            "{args:?}: {}",
            done.err
        );
    }
}

/// The right answer of another record with as many readings keeps every rule, but is not this record's.
#[test]
fn answer_of_another_record() {
    let folder = belt("other_record", ANSWER);
    fs::write(folder.join("other.txt"), TEXT.replace("readings 31 30 31 42", "readings 31 30 31 41")).expect("file");
    assert_eq!(run_in(&folder, &["make", "other.txt", "-o", "other.plan"], b"").status, 0);
    assert_eq!(run_in(&folder, &["run", "other.plan", "-o", "belt.answer"], b"").status, 0);
    assert_eq!(run_in(&folder, &["verify", "other.plan", "belt.answer"], b"").status, 0);
    let message = "belt.answer: not the answer of belt.plan: the cost is 54, the search finds 53\nbelt.answer: its runs cost 53, not 54\n";
    for args in [
        &["verify", "belt.plan", "belt.answer"][..],
        &["show", "belt.answer", "--plan", "belt.plan"],
        &["plot", "belt.plan", "--answer", "belt.answer"],
    ] {
        let done = run_in(&folder, args, b"");
        assert_eq!((done.status, done.out.len(), done.err.as_str()), (1, 0, message), "{args:?}");
    }
}

/// Among equal costs and as many changes the order decides: with readings 3 and 4, level 3 comes before level 4.
#[test]
fn equal_costs() {
    let folder = belt("equal_costs", "81 0008 0000000000000001  82 0008 0001 0002 00 0004 FF");
    fs::write(folder.join("belt.plan"), hex(common::PAPER_PLAN)).expect("file");
    let done = verify(&folder);
    let lines = "belt.answer: not the answer of belt.plan: run 1: the level is 4, the search finds 3\n\
                 belt.answer: its runs cost the same with as many changes, but others come first in the order among these\n";
    assert_eq!((done.status, done.err.as_str()), (1, lines));
}

/// Among equal costs fewer changes come first: the toy data have one, two and three at cost 3.
#[test]
fn equal_costs_with_more_changes() {
    let [first, second, third, last] = [
        "0001 0001 00 0002 FF",
        "0002 0002 00 0001 01",
        "0003 0003 00 0000 01",
        "0004 0004 00 0004 01",
    ];
    for (runs, changes) in [
        (&[first, "0002 0003 00 0000 01", last][..], "2 changes"),
        (&[first, second, third, last], "3 changes"),
    ] {
        let answer: String = runs.iter().map(|run| format!("  82 0008 {run}")).collect();
        let folder = belt("more_changes", &format!("81 0008 0000000000000003{answer}"));
        fs::write(folder.join("toy.txt"), common::cost_lists::A).expect("file");
        assert_eq!(run_in(&folder, &["make", "toy.txt", "-o", "belt.plan"], b"").status, 0);
        let done = verify(&folder);
        let lines = format!(
            "belt.answer: not the answer of belt.plan: it has {} runs, the search finds 2 runs\n\
             belt.answer: its runs cost the same with {changes}, but among equal costs fewer come first, and the search finds 1 change\n",
            runs.len()
        );
        assert_eq!((done.status, done.err), (1, lines));
    }
}

#[test]
fn runs_where_the_search_is_refused() {
    let folder = belt("refused_search", "81 0008 0000000000000000  82 0008 0001 0001 00 0001 FF");
    fs::write(folder.join("belt.plan"), hex(NO_PLAN)).expect("file");
    let why = "the search is refused: no segmentation ends in a state in which a record may end (refusal 16)";
    let lines = format!(
        "belt.answer: not the answer of belt.plan: it has 1 run at cost 0, {why}\nbelt.answer: run 1 has state 0, in which no record may end\n"
    );
    assert_eq!(verify(&folder).err, lines);
    fs::write(folder.join("belt.answer"), hex("83 0001 0D")).expect("file");
    let held = "it holds refusal 13: a label goes on after the last reading";
    assert_eq!(
        verify(&folder).err,
        format!(
            "belt.answer: not the answer of belt.plan: {held}, {}\n",
            why.replace("refused:", "refused otherwise:")
        )
    );
}

#[test]
fn wrong_files_and_usage() {
    let folder = belt("wrong_files", ANSWER);
    fs::write(folder.join("empty"), b"").expect("file");
    let cases: [(&[&str], i32, &str); 9] = [
        (
            &["belt.answer", "belt.plan"],
            1,
            "belt.plan: not a good answer file: it looks like a plan file",
        ),
        (
            &["belt.answer", "belt.answer"],
            1,
            "belt.answer: not a good plan file: it looks like an answer file",
        ),
        (&["belt.txt", "belt.answer"], 1, "belt.txt: not a good plan file: it looks like a text"),
        (&["belt.plan", "empty"], 1, "empty: not a good answer file: the file is empty (refusal 1)"),
        (&["belt.plan", "missing"], 2, "yeldaski: cannot read 'missing'"),
        (
            &["belt.plan"],
            2,
            "yeldaski: verify: expected two files, PLANFILE and ANSWERFILE, found 1",
        ),
        (&[], 2, "yeldaski: verify: expected two files, PLANFILE and ANSWERFILE, found 0"),
        (&["a", "b", "c"], 2, "yeldaski: verify: 2 words at most beside the options"),
        (&["-", "-"], 2, "yeldaski: standard input is asked for twice"),
    ];
    for (args, status, words) in cases {
        let done = run_in(&folder, &[&["verify"], args].concat(), b"");
        assert_eq!((done.status, done.out.len()), (status, 0), "{args:?}: {}", done.err);
        assert!(done.err.starts_with(words), "{args:?}: {}", done.err);
    }
}

/// What is changed in the text, and how the plan file then differs.
const OTHER_TEXTS: [(&str, &str, &str); 14] = [
    (
        EXCHANGED[0],
        EXCHANGED[1],
        "edge 0 is '1 (new) -> 1 (new)' in the text and '0 (worn) -> 0 (worn)' in the file",
    ),
    ("0 to 79", "0 to 80", "the grid is '0 to 80' in the text and '0 to 79' in the file"),
    ("state worn", "state third\nstate worn", "the text has 3 states and the file 2"),
    (
        "new start end",
        "new end",
        "state 0 (new) is marked 'start' in the file and not in the text",
    ),
    (
        "worn start end",
        "worn start",
        "state 1 (worn) is marked 'end' in the file and not in the text",
    ),
    ("up 6", "up 4", "edge 2 is 'up 4' in the text and 'up 6' in the file"),
    ("up 6", "abs 6", "edge 2 is 'abs 6' in the text and 'up 6' in the file"),
    (
        "penalty 50",
        "penalty 100",
        "edge 2 is 'penalty 100' in the text and 'penalty 50' in the file",
    ),
    (
        "edge new -> worn",
        "edge worn -> new",
        "edge 2 is '1 (worn) -> 0 (new)' in the text and '0 (new) -> 1 (worn)' in the file",
    ),
    ("label", "edge worn -> new any penalty 0\nlabel", "the text has 4 edges and the file 3"),
    (
        "2 to 5",
        "2 to 6",
        "label 1 is 'readings 2 to 6, 1 change' in the text and 'readings 2 to 5, 1 change' in the file",
    ),
    (
        "changes 1",
        "one up",
        "label 1 is 'readings 2 to 5, one up' in the text and 'readings 2 to 5, 1 change' in the file",
    ),
    (
        "changes 1",
        "changes 0",
        "label 1 is 'readings 2 to 5, no change' in the text and 'readings 2 to 5, 1 change' in the file",
    ),
    ("label 2 to 5 changes 1\n", "", "the text has 0 labels and the file 1"),
];

/// Two `state` lines exchanged: every state has the other's number.
const EXCHANGED: [&str; 2] = ["state new start end\nstate worn start end", "state worn start end\nstate new start end"];

/// A text that is not the one of the plan file gives no names.
#[test]
fn text_of_another_plan() {
    let folder = belt("other_text", ANSWER);
    for (old, new, words) in OTHER_TEXTS {
        assert!(TEXT.contains(old));
        fs::write(folder.join("belt.txt"), TEXT.replace(old, new)).expect("file");
        let message = format!("belt.txt is not the text of belt.plan: {words}\n");
        for args in [
            &["show", "belt.answer", "--plan", "belt.plan", "--text", "belt.txt"][..],
            &["plot", "belt.plan", "--text", "belt.txt"],
            &["plot", "belt.plan", "--answer", "belt.answer", "--text", "belt.txt"],
        ] {
            let done = run_in(&folder, args, b"");
            assert_eq!((done.status, done.out.len(), done.err.as_str()), (1, 0, message.as_str()), "{args:?}");
        }
    }
}

/// Of a plan file that cannot be read an answer may hold another refusal; that difference is said.
#[test]
fn another_refusal() {
    let folder = belt("another_refusal", ANSWER);
    let plan = fs::read(folder.join("belt.plan")).expect("plan");
    fs::write(folder.join("belt.plan"), &plan[..plan.len() - 1]).expect("file");
    fs::write(folder.join("belt.answer"), hex("83 0001 10")).expect("file");
    let done = run_in(&folder, &["verify", "belt.plan", "belt.answer"], b"");
    assert_eq!((done.status, done.out.len()), (1, 0));
    assert!(
        done.err.starts_with("belt.answer: not the answer of belt.plan: it holds refusal 16: "),
        "{}",
        done.err
    );
    assert!(
        done.err.contains("the search is refused otherwise: ") && done.err.ends_with("(refusal 1)\n"),
        "{}",
        done.err
    );
}

/// The plan file of another record has the same names, so other readings in the text are only told. The answer is that of the plan file.
#[test]
fn text_with_another_record() {
    let folder = belt("other_readings", ANSWER);
    for (old, new, words) in [
        ("31 30 31", "31 30 32", "reading 3 is 32 in the text and 31 in the file"),
        ("41 42", "41", "the text has 7 readings and the file 8"),
    ] {
        fs::write(folder.join("belt.txt"), TEXT.replace(old, new)).expect("file");
        let message = format!("belt.plan: made with another record than belt.txt names: {words}\n");
        for args in [
            &["show", "belt.answer", "--plan", "belt.plan", "--text", "belt.txt"][..],
            &["plot", "belt.plan", "--answer", "belt.answer", "--text", "belt.txt"],
        ] {
            let done = run_in(&folder, args, b"");
            assert_eq!((done.status, done.err.as_str()), (0, message.as_str()), "{args:?}");
            assert!(done.text().contains("worn"), "{args:?}");
        }
    }
}

/// Exchanged names are noticed without the plan file as well, since the search then finds another answer; and without readings by the rules.
#[test]
fn exchanged_names() {
    let folder = belt("exchanged", ANSWER);
    let text = TEXT.replace(EXCHANGED[0], EXCHANGED[1]);
    let cases = [
        (text.clone(), "not the answer of belt.txt: run 1: the state is 0, the search finds 1\n"),
        (
            text.replace("readings 31 30 31 42 43 42 41 42", "readings from gone.csv"),
            "not an answer of belt.txt: run 2 is entered by edge 2 (new -> worn, up 6), but comes from state 0 (worn) to state 1 (new)\n",
        ),
    ];
    for (text, words) in cases {
        fs::write(folder.join("belt.txt"), text).expect("file");
        let done = run_in(&folder, &["show", "belt.answer", "--text", "belt.txt"], b"");
        assert_eq!((done.status, done.out.len()), (1, 0));
        assert!(done.err.starts_with(&format!("belt.answer: {words}")), "{}", done.err);
    }
}

/// Readings of the text that cannot be had are not compared: the plan file has them.
#[test]
fn text_without_its_readings() {
    let folder = belt("gone_readings", ANSWER);
    fs::write(
        folder.join("belt.txt"),
        TEXT.replace("readings 31 30 31 42 43 42 41 42", "readings from gone.csv"),
    )
    .expect("file");
    let done = run_in(&folder, &["show", "belt.answer", "--plan", "belt.plan", "--text", "belt.txt"], b"");
    assert_eq!((done.status, done.err.as_str()), (0, ""));
    assert!(done.text().ends_with("2 (new -> worn, up 6)\n"));
}
