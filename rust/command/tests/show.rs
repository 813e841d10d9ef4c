//! `show`: tables, CSV and JSON of answer files typed by hand.
mod common;
use common::{folder, hex, run, run_in, PAPER_ANSWER, PAPER_PLAN};
use std::fs;
use std::process::Command;

/// Cost 300; readings 1 to 2 at -5 in state 0, then edge 2 to 7 in state 1.
const TWO_RUNS: &str = "81 0008 000000000000012C  82 0008 0001 0002 00 FFFB FF  82 0008 0003 0010 01 0007 02";

fn shown(args: &[&str], answer: &str) -> String {
    let done = run(&[&["show"], args].concat(), &hex(answer));
    assert_eq!((done.status, done.err.as_str()), (0, ""));
    done.text()
}

const COLUMNS: &str = "run,first,last,state,state_name,level,edge,from,from_name,to,to_name,kind,gap,penalty,total_cost,refusal,sentence\n";

#[test]
fn numbers_without_a_plan() {
    let table = "cost 300\n\nrun  first  last  state  level  edge\n  1      1     2  0         -5  start\n  2      3    16  1          7  2\n";
    assert_eq!(shown(&[], TWO_RUNS), table);
    assert_eq!(shown(&["--format", "table"], TWO_RUNS), table);
    let rows = "1,1,2,0,,-5,,,,,,,,,300,,\n2,3,16,1,,7,2,,,,,,,,300,,\n";
    assert_eq!(shown(&["--format=csv"], TWO_RUNS), format!("{COLUMNS}{rows}"));
    let unknown = "\"from\": null, \"from_name\": null, \"to\": null, \"to_name\": null, \"kind\": null, \"gap\": null, \"penalty\": null";
    let json = format!(
        "{{\n  \"record\": null,\n  \"cost\": 300,\n  \"refusal\": null,\n  \"sentence\": null,\n  \"runs\": [\n    \
         {{\"run\": 1, \"first\": 1, \"last\": 2, \"state\": 0, \"state_name\": null, \"level\": -5, \"edge\": null, {unknown}}},\n    \
         {{\"run\": 2, \"first\": 3, \"last\": 16, \"state\": 1, \"state_name\": null, \"level\": 7, \"edge\": 2, {unknown}}}\n  ]\n}}\n"
    );
    assert_eq!(shown(&["--format", "json"], TWO_RUNS), json);
}

/// Readings 1 to 2 are -5, readings 3 to 16 are 7, so the runs of TWO_RUNS leave no distance and cost the penalty of the rise.
fn plan_text(first: &str) -> String {
    format!(
        "grid -9 to 9\nstate {first} start\nstate worn end\nedge {first} -> {first} stay\nedge worn -> worn stay\n\
         edge {first} -> worn up 3 penalty 5\nreadings -5 -5{}\n",
        " 7".repeat(14)
    )
}

/// TWO_RUNS with the cost that plan_text gives.
fn answer() -> Vec<u8> {
    hex(&TWO_RUNS.replace("012C", "0005"))
}

/// Where a text stands, its readings are searched; no line on standard error says that anything was left out.
#[test]
fn names_from_a_plan_text() {
    let folder = folder("names");
    fs::write(folder.join("a"), answer()).expect("file");
    let show = |first: &str, format: &str| {
        fs::write(folder.join("plan.txt"), plan_text(first)).expect("file");
        let done = run_in(&folder, &["show", "a", "--text", "plan.txt", "--format", format], b"");
        assert_eq!((done.status, done.err.as_str()), (0, ""));
        done.text()
    };
    let table = show("new", "table");
    let rows: Vec<&str> = table.lines().skip(3).collect();
    assert_eq!(
        rows,
        [
            "  1      1     2  new       -5  start",
            "  2      3    16  worn       7  2 (new -> worn, up 3)"
        ]
    );
    assert_eq!(
        show("\"new, \"", "csv"),
        format!("{COLUMNS}1,1,2,0,\"new, \",-5,,,,,,,,,5,,\n2,3,16,1,worn,7,2,0,\"new, \",1,worn,up,3,5,5,,\n")
    );
    let json = show("back\\slash", "json");
    assert!(json.contains("\"state\": 0, \"state_name\": \"back\\\\slash\", \"level\": -5"), "{json}");
    let edge =
        "\"edge\": 2, \"from\": 0, \"from_name\": \"back\\\\slash\", \"to\": 1, \"to_name\": \"worn\", \"kind\": \"up\", \"gap\": 3, \"penalty\": 5}";
    assert!(json.contains(edge), "{json}");
}

/// With a plan file alone the edges are known, but no names.
#[test]
fn numbers_from_a_plan_file() {
    let folder = folder("numbers");
    fs::write(folder.join("a"), answer()).expect("file");
    fs::write(folder.join("p"), run(&["make"], plan_text("new").as_bytes()).out).expect("file");
    let show = |format: &str| {
        let done = run_in(&folder, &["show", "a", "--plan", "p", "--format", format], b"");
        assert_eq!((done.status, done.err.as_str()), (0, ""));
        done.text()
    };
    assert!(
        show("table").ends_with("  2      3    16  1          7  2 (0 -> 1, up 3)\n"),
        "{}",
        show("table")
    );
    assert_eq!(show("csv"), format!("{COLUMNS}1,1,2,0,,-5,,,,,,,,,5,,\n2,3,16,1,,7,2,0,,1,,up,3,5,5,,\n"));
}

/// The readings are in a file that is gone: the rules of the plan are judged, and what is not is said in one line.
#[test]
fn a_text_without_its_readings() {
    let folder = folder("without_readings");
    fs::write(folder.join("a"), answer()).expect("file");
    let text = |readings: &str| {
        let whole = plan_text("new");
        let (front, _) = whole.split_once("readings").expect("readings");
        fs::write(folder.join("plan.txt"), format!("{front}readings {readings}\n")).expect("file");
    };
    let reasons = [
        ("from gone.csv", "cannot be had (plan.txt:7: cannot read 'gone.csv'"),
        ("from -", "since the text takes its readings from standard input: "),
    ];
    for (readings, why) in reasons {
        text(readings);
        let done = run_in(&folder, &["show", "a", "--text", "plan.txt"], b"7\n");
        assert_eq!(done.status, 0, "{}", done.err);
        assert!(done.text().contains("2 (new -> worn, up 3)"));
        let start = "a: states, edges, gaps and labels agree with plan.txt; the cost and that nothing is cheaper were not checked, since the ";
        assert!(done.err.starts_with(start) && done.err.contains(why), "{}", done.err);
        assert!(
            done.err.ends_with(": give the plan file with --plan\n") && done.err.lines().count() == 1,
            "{}",
            done.err
        );
    }
    fs::write(folder.join("a"), hex(&TWO_RUNS.replace("0007 02", "FFFD 02"))).expect("file");
    let done = run_in(&folder, &["show", "a", "--text", "plan.txt"], b"");
    assert_eq!((done.status, done.out.len()), (1, 0));
    assert_eq!(
        done.err,
        "a: not an answer of plan.txt: run 2 rises from -5 to -3, but edge 2 (new -> worn, up 3) asks for a rise of 3 or more\n"
    );
    fs::write(folder.join("a"), hex("83 0001 10")).expect("file");
    let done = run_in(&folder, &["show", "a", "--text", "plan.txt"], b"");
    assert_eq!(
        (done.status, done.text().as_str()),
        (1, "refusal 16: no segmentation is allowed by this plan\n")
    );
    assert!(done.err.starts_with("a: the refusal was not checked, since "), "{}", done.err);
}

/// Names of another plan would mislead. Readings from standard input are not had, so here the rules alone refuse.
#[test]
fn a_wrong_plan_is_told() {
    let folder = folder("wrong_plan");
    fs::write(folder.join("a"), hex(TWO_RUNS)).expect("file");
    let whole = plan_text("new");
    let text = whole.split_once("readings").expect("readings").0.to_string() + "readings from -\n";
    let cases = [
        (text.replace("-9 to 9", "-4 to 9"), "run 1 has level -5, but the grid goes from -4 to 9"),
        (
            text.replace("edge worn -> worn stay\n", ""),
            "run 2 is entered by edge 2, but the plan has 2 edges, counted from 0",
        ),
        (
            text.replace("new -> worn up", "worn -> new up"),
            "run 2 is entered by edge 2 (worn -> new, up 3), but comes from state 0 (new) to state 1 (worn)",
        ),
        (
            text.replace("edge worn -> worn stay", "edge worn -> worn any penalty 0"),
            "run 2 has 14 readings, but state 1 (worn) has no stay to itself",
        ),
        (
            text.replace("new start", "new").replace("worn end", "worn start end"),
            "run 1 has state 0 (new), in which no record may start",
        ),
        (
            text.replace("new start", "new start end").replace("worn end", "worn"),
            "run 2 has state 1 (worn), in which no record may end",
        ),
        (
            text.replace("readings", "label 3 to 9 changes 1\nreadings"),
            "label 1 (readings 3 to 9, 1 change) does not hold: the runs have 0 changes there",
        ),
        (
            text.replace("readings", "label 1 to 3 one up\nlabel 3 to 9 changes 0\nlabel 9 to 16 one up\nreadings"),
            "label 3 (readings 9 to 16, one up) does not hold: the runs have 0 changes there",
        ),
        (
            text.replace("readings", "label 2 to 3 one down\nreadings"),
            "label 1 (readings 2 to 3, one down) does not hold: the runs have 1 change there, of kind up",
        ),
        (
            "grid -9 to 9\nstate s start end\nedge s -> s stay\nreadings from -\n".to_string(),
            "run 2 has state 1, but the plan has 1 state",
        ),
    ];
    for (text, words) in cases {
        fs::write(folder.join("plan.txt"), &text).expect("file");
        let done = run_in(&folder, &["show", "a", "--text", "plan.txt"], b"");
        assert_eq!((done.status, done.out.len()), (1, 0), "{text}");
        assert_eq!(done.err, format!("a: not an answer of plan.txt: {words}\n"), "{text}");
    }
    fs::write(folder.join("plan.txt"), whole.replace("up 3", "up 2000")).expect("file");
    let done = run_in(&folder, &["show", "a", "--text", "plan.txt"], b"");
    assert_eq!((done.status, done.out.len()), (1, 0));
    assert!(done.err.contains("the gap 2000 is above 1023 (refusal 6)"), "{}", done.err);
}

#[test]
fn a_refusal() {
    let done = run(&["show"], &hex("83 0001 09"));
    assert_eq!((done.status, done.text().as_str()), (1, "refusal 9: a record has 1 to 4096 readings\n"));
    let done = run(&["show", "--format", "csv"], &hex("83 0001 09"));
    assert_eq!(done.text(), format!("{COLUMNS},,,,,,,,,,,,,,,9,a record has 1 to 4096 readings\n"));
    let done = run(&["show", "--format", "json"], &hex("83 0001 09"));
    assert_eq!(
        done.text(),
        "{\n  \"record\": null,\n  \"cost\": null,\n  \"refusal\": 9,\n  \"sentence\": \"a record has 1 to 4096 readings\",\n  \"runs\": []\n}\n"
    );
    for number in 1..=17 {
        let done = run(&["show"], &[0x83, 0, 1, number]);
        assert!(done.status == 1 && done.text().starts_with(&format!("refusal {number}: ")));
        assert!(!done.text().contains("point"), "{}", done.text());
    }
}

/// With the plan file the cause of a refusal is known; a plan file that cannot be read has an answer file too.
#[test]
fn a_refusal_with_its_plan() {
    let folder = folder("refusal_with_plan");
    let cases = [
        (
            "01 0004 0000 0006  02 0003 02 01 02  03 0006 00 00 00 0000 00  05 0002 0001",
            "refusal 16: no segmentation ends in a state in which a record may end\n",
        ),
        ("01 0004 0009 0000", "refusal 4: hi 0 is below lo 9\n"),
    ];
    for (plan, shown) in cases {
        fs::write(folder.join("p"), hex(plan)).expect("file");
        assert_eq!(run_in(&folder, &["run", "p", "-o", "a"], b"").status, 1);
        let done = run_in(&folder, &["show", "a", "--plan", "p"], b"");
        assert_eq!((done.status, done.text().as_str(), done.err.as_str()), (1, shown, ""));
    }
}

/// Python's own modules read what is written, as parsers that know nothing of this program. Names that a text can hold come back unchanged.
#[test]
fn other_parsers() {
    const SCRIPT: &str = "import sys, csv, json, io\n\
        data = sys.stdin.buffer.read().decode('utf-8')\n\
        if sys.argv[1] == 'json':\n    \
            rows = json.loads(data)['runs']\n\
        else:\n    \
            rows = list(csv.DictReader(io.StringIO(data, newline='')))\n\
        for row in rows:\n    \
            assert list(row)[:14] == 'run first last state state_name level edge from from_name to to_name kind gap penalty'.split()\n    \
            print(row['state_name'].encode('utf-8').hex(), (row['from_name'] or '').encode('utf-8').hex(), row['penalty'] or '-')\n";
    let folder = folder("parsers");
    fs::write(folder.join("a"), answer()).expect("file");
    for name in ["back\\slash", "a, b", "\u{e4}\u{3b2}\u{4e2d}\u{1f980}", "'single'", "\\u0041", "=1+1"] {
        fs::write(folder.join("plan.txt"), plan_text(&format!("\"{name}\""))).expect("file");
        let digits: String = name.bytes().map(|byte| format!("{byte:02x}")).collect();
        for format in ["json", "csv"] {
            let done = run_in(&folder, &["show", "a", "--text", "plan.txt", "--format", format, "-o", "out"], b"");
            assert_eq!((done.status, done.err.as_str()), (0, ""), "{name}");
            let out = fs::File::open(folder.join("out")).expect("output");
            let python = Command::new("python3")
                .args(["-c", SCRIPT, format])
                .stdin(out)
                .output()
                .expect("python3 starts");
            assert!(python.status.success(), "{}", String::from_utf8_lossy(&python.stderr));
            let read = String::from_utf8(python.stdout).expect("digits").replace('\r', "");
            assert_eq!(read, format!("{digits}  -\n776f726e {digits} 5\n"), "{name} {format}");
        }
    }
}

#[test]
fn other_files_are_told() {
    let cases = [
        (hex(PAPER_PLAN), "looks like a plan file"),
        (b"grid 0 to 9\n".to_vec(), "looks like a text"),
        (vec![], "is empty"),
    ];
    for (file, words) in cases {
        let done = run(&["show"], &file);
        assert_eq!((done.status, done.out.len()), (1, 0));
        assert!(done.err.contains(words), "{}", done.err);
    }
    let cut = &hex(PAPER_ANSWER)[..15];
    let done = run(&["show"], cut);
    assert_eq!(
        done.err,
        "standard input: not a good answer file: the body should have 8 bytes, but the file ends after 1 of them (refusal 1); 'yeldaski check' says where\n"
    );
}

#[test]
fn round_trip() {
    let folder = folder("round_trip");
    fs::write(
        folder.join("plan.txt"),
        "grid 0 to 9\nstate on start end\nedge on -> on stay\nedge on -> on up 4 penalty 1\nreadings 2 2 8 8\n",
    )
    .expect("file");
    assert_eq!(run_in(&folder, &["make", "plan.txt", "-o", "p"], b"").status, 0);
    assert_eq!(run_in(&folder, &["run", "p", "-o", "a"], b"").status, 0);
    let done = run_in(&folder, &["show", "a", "--text", "plan.txt", "-o", "table"], b"");
    assert_eq!((done.status, done.out.len()), (0, 0));
    let table = fs::read_to_string(folder.join("table")).expect("table");
    assert!(table.starts_with("cost 1\n"), "{table}");
    assert!(
        table.ends_with("  1      1     2  on         2  start\n  2      3     4  on         8  1 (on -> on, up 4)\n"),
        "{table}"
    );
}
