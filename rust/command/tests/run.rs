//! `run` and `show`: the examples of the scope paper, and refusals.
mod common;
use common::{folder, hex, run, run_in, segment, PAPER_ANSWER, PAPER_PLAN};
use std::fs;

#[test]
fn example_of_the_paper() {
    let done = run(&["run"], &hex(PAPER_PLAN));
    assert_eq!((done.status, done.err.as_str(), done.out), (0, "", hex(PAPER_ANSWER)));
}

#[test]
fn files_and_standard_streams() {
    let folder = folder("streams");
    fs::write(folder.join("p"), hex(PAPER_PLAN)).expect("file");
    assert_eq!(run_in(&folder, &["run", "p"], b"").out, hex(PAPER_ANSWER));
    assert_eq!(run_in(&folder, &["run", "-", "-o", "-"], &hex(PAPER_PLAN)).out, hex(PAPER_ANSWER));
    for output in [vec!["-o", "a"], vec!["-oa"], vec!["--output", "a"], vec!["--output=a"]] {
        let done = run_in(&folder, &[vec!["run", "p"], output].concat(), b"");
        assert_eq!((done.status, done.out.len()), (0, 0));
        assert_eq!(fs::read(folder.join("a")).expect("answer"), hex(PAPER_ANSWER));
        fs::remove_file(folder.join("a")).expect("answer");
    }
}

/// Text to plan file to answer file to CSV, of which first, last, state, level, edge and total cost are kept.
fn answer(text: &str) -> String {
    let plan = run(&["make"], text.as_bytes());
    assert_eq!(plan.status, 0, "{}", plan.err);
    let done = run(&["show", "--format", "csv"], &run(&["run"], &plan.out).out);
    let csv = done.text();
    let kept = |line: &str| {
        let cells: Vec<&str> = line.split(',').collect();
        [1, 2, 3, 5, 6, 14].map(|column| cells[column]).join(",") + "\n"
    };
    let header = "first,last,state,level,edge,total_cost\n";
    let rows: String = csv.lines().map(kept).collect();
    rows.strip_prefix(header).expect("the columns").to_string()
}

/// Plan A of the paper, as a text: one state, stay and any.
fn text_a(grid: &str, class: u8, labels: &str, readings: &str) -> String {
    format!("grid {grid}\nstate s start end\nedge s -> s stay\nedge s -> s any class {class}\n{labels}\nreadings {readings}\n")
}

fn a(grid: &str, class: u8, labels: &str, readings: &str) -> String {
    answer(&text_a(grid, class, labels, readings))
}

/// Plan B of the paper, as a text: up from state 0 to state 1, down back.
fn text_b(gap: u16, labels: &str) -> String {
    format!(
        "grid 0 to 6\nstate s start end\nstate t\nedge s->s stay\nedge t->t stay\nedge s->t up {gap} class 1\nedge t->s down 0 class 0\n\
         {labels}readings 1 5 5 1\n"
    )
}

fn b(gap: u16) -> String {
    answer(&text_b(gap, ""))
}

/// Rows are first, last, state, level, edge, cost, as the paper's section of examples gives them.
#[test]
fn examples_of_the_paper() {
    let toy = "2 1 0 4";
    // Ticket 6: two and three changes cost 3 as well.
    assert_eq!(a("0 to 4", 1, "", toy), "1,3,0,1,,3\n4,4,0,4,1,3\n");
    assert_eq!(a("0 to 4", 4, "", toy), "1,4,0,2,,9\n");
    assert_eq!(a("0 to 4", 1, "label 1 to 4 changes 0", toy), "1,4,0,2,,9\n");
    assert_eq!(a("0 to 4", 1, "label 2 to 3 changes 1", toy), "1,2,0,1,,3\n3,3,0,0,1,3\n4,4,0,4,1,3\n");
    assert_eq!(a("-9 to 0", 4, "", "-3 -4"), "1,2,0,-4,,1\n");
    assert_eq!(a("0 to 9", 0, "", "3 3"), "1,2,0,3,,0\n");
    let swapped = "grid 0 to 9\nstate s start end\nedge s -> s any class 0\nedge s -> s stay\nreadings 3 3\n";
    assert_eq!(answer(swapped), "1,2,0,3,,0\n");
    assert_eq!(b(0), "1,1,0,1,,1\n2,3,1,5,2,1\n4,4,0,1,3,1\n");
    assert_eq!(b(5), "1,1,0,0,,2\n2,3,1,5,2,2\n4,4,0,1,3,2\n");
    assert_eq!(b(7), "1,4,0,3,,16\n");
}

/// The examples of ticket 4: kind any has to move the level, so that a change that is asked for costs 1, and on one level there is none.
#[test]
fn examples_of_kind_any() {
    let label = "label 1 to 2 changes 1";
    assert_eq!(a("0 to 9", 0, label, "3 3"), "1,1,0,3,,1\n2,2,0,2,1,1\n");
    assert_eq!(a("3 to 4", 0, label, "3 3"), "1,1,0,4,,1\n2,2,0,3,1,1\n");
    let one = text_a("3 to 3", 0, label, "3 3");
    let alone = one.replace("edge s -> s stay\n", "").replace(label, "");
    for (text, words) in [
        (
            one.clone(),
            "label 1 (readings 1 to 2, 1 change) cannot hold: the grid has one level, and every change of this plan needs another",
        ),
        (alone.clone(), "the grid has one level, and every change of this plan needs another"),
        (
            alone.replace("any class 0", "up 2 class 0"),
            "the edges allow no chain of 2 readings; is a stay missing, or the grid too narrow for a change?",
        ),
        (
            "grid 32767 to 32767\nstate new start\nstate worn end\nedge new -> new stay\nedge worn -> worn stay\nedge new -> worn any penalty 5\n\
             readings 3 3 3\n"
                .to_string(),
            "the grid has one level, and every change of this plan needs another",
        ),
        (
            "grid 3 to 3\nstate new start\nstate worn end\nedge new -> new stay\nedge worn -> worn stay\nedge worn -> new any penalty 5\n\
             readings 3 3 3\n"
                .to_string(),
            "no segmentation ends in a state in which a record may end",
        ),
        // A second change, that no level suits either.
        (
            one.replace("class 0", "class 0\nedge s -> s up 1 class 0"),
            "label 1 (readings 1 to 2, 1 change) cannot hold: the grid has one level, and every change of this plan needs another",
        ),
        // A stay alone is no change at all.
        (
            one.replace("edge s -> s any class 0\n", ""),
            "label 1 (readings 1 to 2, 1 change) cannot hold; possible there: no change",
        ),
    ] {
        refused_with_16(&text, words);
    }
    let level = one.replace("class 0", "class 0\nedge s -> s abs 0 class 0");
    assert_eq!(answer(&level), "1,1,0,3,,0\n2,2,0,3,2,0\n");
}

fn refused_with_16(text: &str, words: &str) {
    let done = run(&["run"], &run(&["make"], text.as_bytes()).out);
    assert_eq!((done.status, done.out), (1, hex("83 0001 10")), "{text}");
    assert_eq!(done.err, format!("standard input: {words} (refusal 16)\n"));
}

/// The examples of ticket 2: labels of several changes, of one up and of one down.
#[test]
fn examples_of_labels() {
    let toy = "2 1 0 4";
    let four = "1,1,0,2,,3\n2,2,0,1,1,3\n3,3,0,0,1,3\n4,4,0,4,1,3\n";
    assert_eq!(a("0 to 4", 1, "label 1 to 4 changes 3", toy), four);
    let hump = text_b(0, "label 1 to 2 one up\nlabel 3 to 4 one down\n");
    assert_eq!(answer(&hump), "1,1,0,1,,1\n2,3,1,5,2,1\n4,4,0,1,3,1\n");
    assert_eq!(answer(&text_b(0, "label 2 to 3 one up\n")), "1,2,0,3,,9\n3,3,1,5,2,9\n4,4,0,1,3,9\n");
    let rise = text_b(0, "label 1 to 4 one up\n");
    assert_eq!(answer(&rise.replace("state t", "state t end")), "1,1,0,1,,12\n2,4,1,4,2,12\n");
    let a_with = |label: &str| format!("grid 0 to 4\nstate s start end\nedge s -> s stay\nedge s -> s any class 1\n{label}\nreadings {toy}\n");
    for (text, words) in [
        (
            a_with("label 1 to 4 changes 7"),
            "label 1 (readings 1 to 4, 7 changes) cannot hold: there is room for 3 changes",
        ),
        (
            a_with("label 1 to 4 one up"),
            "label 1 (readings 1 to 4, one up) cannot hold: no edge has the kind up",
        ),
        // It starts and ends in the lower state, so whatever rises falls again.
        (
            rise,
            "label 1 (readings 1 to 4, one up) cannot hold; possible there: no change, 2 changes",
        ),
    ] {
        refused_with_16(&text, words);
    }
}

#[test]
fn refused_plans_have_answer_files() {
    let cases = [
        ("", 1, "not a good plan file: the file is empty (refusal 1)"),
        (
            "00",
            1,
            "not a good plan file: the header should have 3 bytes, but the file ends after 1 of them (refusal 1); 'yeldaski check' says where",
        ),
        ("55 0000", 2, "tag 55 stands where tag 01 (grid) is due (refusal 2)"),
        (
            "01 0004 0009 0000",
            4,
            "not a good plan file: hi 0 is below lo 9 (refusal 4); 'yeldaski check' says where",
        ),
        // One reading in state 0, but the record must end in state 1.
        (
            "01 0004 0000 0006  02 0003 02 01 02  03 0006 00 00 00 0000 00  05 0002 0001",
            16,
            "standard input: no segmentation ends in a state in which a record may end (refusal 16)",
        ),
        // A label to reading 3 in a record of two.
        (
            "01 0004 0000 0009  02 0003 01 01 01  04 0005 0001 0003 01  05 0004 0003 0004",
            13,
            "standard input: label 1 (readings 1 to 3, 1 change) goes on after the last reading, 2 (refusal 13)",
        ),
    ];
    for (plan, number, words) in cases {
        let done = run(&["run"], &hex(plan));
        assert_eq!((done.status, done.out), (1, vec![0x83, 0, 1, number]), "{plan}");
        assert!(done.err.contains(words), "{}", done.err);
        assert!(!done.err.contains("point"), "{}", done.err);
    }
}

/// A grid of 1,024 levels needs 196,608 words, more than the program `segment` lends.
#[test]
fn workspace_as_large_as_needed() {
    let plan = "01 0004 8000 83FF  02 0003 01 01 01  03 0006 00 00 00 0000 00  05 0004 8000 8002";
    assert_eq!(
        run(&["run"], &hex(plan)).out,
        hex("81 0008 0000000000000002  82 0008 0001 0002 00 8001 FF")
    );
}

/// The program `segment` has words for 40 states times levels, and `check` says of a plan that it has not.
#[test]
fn what_the_program_has_words_for() {
    // A stay in state 0 alone: 3 and 4 cost 1 at level 3, as in the paper's example.
    let plan = |hi: u8, states: u8| {
        hex(&format!(
            "01 0004 0000 {hi:04X}  02 0003 {states:02X} 01 01  03 0006 00 00 00 0000 00  05 0004 0003 0004"
        ))
    };
    for (hi, states) in [(39, 1), (19, 2), (9, 4), (4, 8)] {
        let (fits, more) = (plan(hi, states), plan(hi + 1, states));
        assert_eq!((segment(&fits), segment(&more)), (hex(PAPER_ANSWER), hex("83 0001 0E")), "{states}");
        assert_eq!([&fits, &more].map(|plan| run(&["run"], plan).out), [hex(PAPER_ANSWER), hex(PAPER_ANSWER)]);
        let said = [&fits, &more].map(|plan| run(&["check"], plan).text());
        assert!(said[0].contains("\n  workspace of a search: 7680 words\n"), "{}", said[0]);
        let words = 7680 + 192 * usize::from(states);
        let more = format!("\n  workspace of a search: {words} words, more than the 7680 of the program segment\n");
        assert!(said[1].contains(&more), "{}", said[1]);
    }
}

#[test]
fn a_full_record() {
    let text = format!(
        "grid 0 to 1\nstate s start end\nedge s -> s any penalty 0\nreadings {}\n",
        "0 1 ".repeat(2048)
    );
    let plan = run(&["make"], text.as_bytes());
    let answer = run(&["run"], &plan.out);
    assert_eq!((answer.status, answer.out.len()), (0, 11 + 11 * 4096));
    assert_eq!(answer.out[..22], hex("81 0008 0000000000000000  82 0008 0001 0001 00 0000 FF"));
    assert_eq!(answer.out[11 * 4096..], hex("82 0008 1000 1000 00 0001 00"));
}

/// A belt that wears, worked out by hand: levels 31 and 42 leave 1 and 2, the change costs 50.
#[test]
fn a_belt() {
    let text = "grid 30 to 49\nstate new start end\nstate worn end\nedge new -> new stay\nedge worn -> worn stay\nedge new -> worn up 6 penalty 50\n\
                readings 31 30 31 42 43 42 41 42\n";
    let plan = "01 0004 001E 0031  02 0003 02 01 03  03 0006 00 00 00 0000 00  03 0006 01 01 00 0000 00  03 0006 00 01 02 0006 06
                05 0010 001F 001E 001F 002A 002B 002A 0029 002A";
    let answer = "81 0008 0000000000000035  82 0008 0001 0003 00 001F FF  82 0008 0004 0008 01 002A 02";
    assert_eq!(run(&["make"], text.as_bytes()).out, hex(plan));
    assert_eq!(run(&["run"], &hex(plan)).out, hex(answer));
}

/// A pad that leaks for two readings, worked out by hand. Level 23 all along costs 29; with the label a leak is needed, and 22, 26, 22 leave 1 each
/// beside two penalties of 20.
#[test]
fn a_pad_with_a_label() {
    let text = "grid 20 to 39\nstate tight start end\nstate leaking end\nedge tight -> tight stay\nedge leaking -> leaking stay\n\
                edge tight -> leaking up 3 penalty 20\nedge leaking -> tight down 3 penalty 20\nlabel 3 to 5 one up\n\
                readings 22 23 22 26 27 22 22 23\n";
    let plan = "01 0004 0014 0027  02 0003 02 01 03  03 0006 00 00 00 0000 00  03 0006 01 01 00 0000 00  03 0006 00 01 02 0003 05
                03 0006 01 00 03 0003 05  04 0005 0003 0005 08  05 0010 0016 0017 0016 001A 001B 0016 0016 0017";
    let label = "04 0005 0003 0005 08";
    let answer = "81 0008 000000000000002B  82 0008 0001 0003 00 0016 FF  82 0008 0004 0005 01 001A 02  82 0008 0006 0008 00 0016 03";
    assert_eq!(run(&["make"], text.as_bytes()).out, hex(plan));
    assert_eq!(run(&["run"], &hex(plan)).out, hex(answer));
    let without = "81 0008 000000000000001D  82 0008 0001 0008 00 0017 FF";
    assert_eq!(run(&["run"], &hex(&plan.replace(label, ""))).out, hex(without));
}
