//! `find`: records to answers in one step, alone and by the folder.
mod common;
use common::{folder, hex, put, python, run_in, Folder, PAPER_PLAN};
use std::fs;
use std::path::PathBuf;

const TEXT: &str = "grid 0 to 79\nstate new start end\nstate worn end\nedge new -> new stay\nedge worn -> worn stay\n\
                    edge new -> worn up 6 penalty 50\n";
const RECORD: &str = "31\n30\n31\n42\n43\n42\n41\n42\n";
/// Worked out by hand in the README: the squares add up to 3, the change costs 50.
const TABLE: &str =
    "cost 53\n\nrun  first  last  state  level  edge\n  1      1     3  new       31  start\n  2      4     8  worn      42  2 (new -> worn, up 6)\n";

fn start(test: &str) -> Folder {
    let folder = folder(test);
    put(&folder, "belt.txt", TEXT);
    put(&folder, "day.csv", RECORD);
    folder
}

fn table(folder: &PathBuf, args: &[&str], input: &[u8]) -> String {
    let done = run_in(folder, &[&["find"], args].concat(), input);
    assert_eq!((done.status, done.err.as_str()), (0, ""), "{args:?}");
    done.text()
}

#[test]
fn every_sort_of_record() {
    let folder = start("sorts");
    put(&folder, "own.txt", &format!("{TEXT}readings from day.csv\n"));
    put(&folder, "inline.txt", &format!("{TEXT}readings 31 30 31 42 43 42 41 42\n"));
    put(
        &folder,
        "named.csv",
        &format!("time;current\n{}", RECORD.lines().map(|z| format!("1,5;{z}\n")).collect::<String>()),
    );
    put(
        &folder,
        "digits.csv",
        &format!("7,2024\n{}", RECORD.lines().map(|z| format!("9,{z}\n")).collect::<String>()),
    );
    put(&folder, "column.txt", &format!("{TEXT}readings from somewhere.csv column current\n"));
    put(&folder, "tenths.txt", &format!("{TEXT}scale 10\n"));
    put(&folder, "tenths.csv", "3.1\n3\n3.1\n4.2\n4.3\n4.2\n4.1\n4.2\n");
    assert_eq!(run_in(&folder, &["make", "own.txt", "-o", "day.plan"], b"").status, 0);
    let cases: [&[&str]; 12] = [
        &["own.txt"],
        &["inline.txt"],
        &["belt.txt", "day.csv"],
        &["inline.txt", "day.csv"],
        &["belt.txt", "day.plan"],
        &["belt.txt", "-"],
        &["belt.txt", "named.csv", "--column", "current"],
        &["belt.txt", "named.csv", "--column=2", "--header"],
        &["column.txt", "named.csv"],
        &["belt.txt", "digits.csv", "--column", "\"2024\""],
        &["tenths.txt", "tenths.csv"],
        &["tenths.txt", "day.plan"],
    ];
    for args in cases {
        assert_eq!(table(&folder, args, RECORD.as_bytes()), TABLE, "{args:?}");
    }
    assert_eq!(table(&folder, &["-", "day.csv"], TEXT.as_bytes()), TABLE);
}

/// The bytes of `find --format answer` are those of `make` and `run`, for answers and for refusals.
#[test]
fn same_answer_bytes_as_run() {
    let folder = folder("same_bytes");
    let texts = [
        format!("{TEXT}readings 31 30 31 42 43 42 41 42\n"),
        format!("{TEXT}label 2 to 3 changes 1\nreadings 31 30 31 42\n"),
        format!("{TEXT}readings 5\n").replace("state new start end\nstate worn end", "state new start\nstate worn end"),
        format!("{TEXT}label 1 to 9 changes 0\nreadings 31 30\n"),
    ];
    for (number, text) in texts.iter().enumerate() {
        put(&folder, "t.txt", text);
        run_in(&folder, &["make", "t.txt", "-o", "p"], b"");
        let ran = run_in(&folder, &["run", "p"], b"");
        let found = run_in(&folder, &["find", "t.txt", "--format", "answer"], b"");
        assert_eq!((found.status, &found.out), (ran.status, &ran.out), "{text}");
        assert_eq!(found.out[0], [0x81, 0x81, 0x83, 0x83][number]);
        assert_eq!(found.status, [0, 0, 1, 1][number]);
    }
}

/// What `find` answers for a record can be kept and verified: `make` writes the plan file of the same record.
#[test]
fn the_plan_file_of_a_record() {
    let folder = start("kept");
    put(&folder, "named.csv", &format!("current\n{RECORD}"));
    put(&folder, "long.csv", &"31\n".repeat(4097));
    assert_eq!(
        run_in(&folder, &["make", "belt.txt", "named.csv", "--column", "1", "--header", "-o", "p"], b"").status,
        0
    );
    assert_eq!(
        run_in(&folder, &["find", "belt.txt", "day.csv", "--format", "answer", "-o", "a"], b"").status,
        0
    );
    let done = run_in(&folder, &["verify", "p", "a"], b"");
    assert_eq!((done.status, done.text().as_str()), (0, "a is the answer of p: cost 53, 2 runs\n"));
    let done = run_in(&folder, &["make", "belt.txt", "long.csv", "-o", "p"], b"");
    assert_eq!(done.status, 1);
    assert!(done.err.starts_with("long.csv: 4097 readings, at most 4096: split"), "{}", done.err);
}

/// The text says of its own file that it has a header. Of a record nobody has said so: a number in its first line is asked about.
#[test]
fn a_header_that_is_assumed() {
    let folder = start("assumed");
    put(&folder, "by_number.txt", &format!("{TEXT}readings from a.csv column 1 header\n"));
    put(&folder, "by_name.txt", &format!("{TEXT}readings from a.csv column current\n"));
    put(&folder, "named.csv", "current,x\n31,30\n30,31\n");
    put(&folder, "digits.csv", "1,2024\n31,30\n30,31\n");
    for (index, cell) in ["\u{2212}5", "31 mA", "NaN", "", "0x1F", "n/a", "31"].iter().enumerate() {
        put(&folder, &format!("odd{index}.csv"), &format!("{cell},x\n31,y\n"));
    }
    let count = |args: &[&str]| {
        let done = run_in(&folder, &[&["find"], args].concat(), b"");
        match done.status {
            0 => done
                .text()
                .lines()
                .last()
                .and_then(|line| line.split_whitespace().nth(2)?.parse::<usize>().ok()),
            _ => {
                assert!(done.err.contains("(or --header, --no-header)"), "{args:?}: {}", done.err);
                None
            }
        }
    };
    for (text, record, options, readings) in [
        ("by_number.txt", "named.csv", &[][..], Some(2)),
        ("by_number.txt", "digits.csv", &[], None),
        ("by_number.txt", "digits.csv", &["--header"], Some(2)),
        ("by_number.txt", "digits.csv", &["--no-header"], Some(3)),
        ("by_number.txt", "digits.csv", &["--column", "2"], None),
        ("by_number.txt", "digits.csv", &["--column", "2", "--header"], Some(2)),
        ("by_name.txt", "named.csv", &["--column", "2"], Some(2)),
        ("by_name.txt", "digits.csv", &["--column", "2"], None),
        ("by_name.txt", "digits.csv", &["--column", "\"2024\""], Some(2)),
        ("belt.txt", "digits.csv", &["--column", "2"], Some(3)),
    ] {
        assert_eq!(count(&[&[text, record], options].concat()), readings, "{text} {record} {options:?}");
    }
    for index in 0..7 {
        assert_eq!(count(&["by_number.txt", &format!("odd{index}.csv")]), None, "{index}");
    }
    let done = run_in(&folder, &["find", "by_name.txt", "named.csv", "--no-header"], b"");
    assert!(done.status == 2 && done.err.contains("a column by name needs a header"), "{}", done.err);
}

/// Labels say what was seen in one record; that they hold for others is said, and they can be left out.
#[test]
fn labels_of_another_record() {
    let folder = start("labels");
    put(&folder, "label.txt", &format!("{TEXT}label 1 to 3 changes 1\nreadings 31 42\n"));
    put(&folder, "flat.csv", "31\n31\n31\n");
    for (command, applied) in [("find", "2 ("), ("make", "")] {
        let done = run_in(&folder, &[command, "label.txt", "flat.csv"], b"");
        assert_eq!(
            (done.status, done.err.as_str()),
            (0, "label.txt: its labels (1) hold for every record here; --no-labels leaves them out\n")
        );
        assert!(String::from_utf8_lossy(&done.out).contains(applied), "{command}");
        let free = run_in(&folder, &[command, "label.txt", "flat.csv", "--no-labels"], b"");
        assert_eq!((free.status, free.err.as_str()), (0, ""));
        assert!(free.out != done.out, "{command}");
    }
    let bare = run_in(&folder, &["find", "belt.txt", "flat.csv"], b"");
    assert_eq!(run_in(&folder, &["find", "label.txt", "flat.csv", "--no-labels"], b"").out, bare.out);
    // Labels of a text without readings of its own are meant for the record.
    put(&folder, "meant.txt", &format!("{TEXT}label 1 to 3 changes 1\n"));
    assert_eq!(run_in(&folder, &["find", "meant.txt", "flat.csv"], b"").err, "");
    assert!(run_in(&folder, &["find", "meant.txt", "flat.csv", "day.csv"], b"")
        .err
        .contains("--no-labels"));
}

/// Two files that the text reads in different ways say nothing of a third.
#[test]
fn two_ways_to_read() {
    let folder = start("two_ways");
    put(
        &folder,
        "two.txt",
        &format!("{TEXT}readings from a.csv column 1\nreadings from b.csv column 2\n"),
    );
    put(&folder, "b.csv", "1,42\n2,43\n");
    for command in ["find", "make"] {
        let done = run_in(&folder, &[command, "two.txt", "b.csv"], b"");
        assert_eq!((done.status, done.out.len()), (2, 0), "{command}");
        assert!(done.err.contains("reads its files in different ways; say --column"), "{}", done.err);
    }
    assert_eq!(run_in(&folder, &["find", "two.txt", "b.csv", "--column", "2"], b"").status, 0);
    // Its own readings are those of both: the squares add up to 1 + 1, the change costs 50.
    put(&folder, "a.csv", "31,7\n30,7\n");
    let table = table(&folder, &["two.txt"], b"");
    assert!(
        table.starts_with("cost 52\n") && table.ends_with("  2      3     4  worn      42  2 (new -> worn, up 6)\n"),
        "{table}"
    );
}

/// Readings outside the grid are allowed, but where most are, something else was meant.
#[test]
fn readings_off_the_grid_are_told() {
    let folder = start("off_the_grid");
    put(&folder, "scaled.txt", &format!("{TEXT}scale 10\n"));
    let done = run_in(&folder, &["find", "scaled.txt", "day.csv"], b"");
    assert_eq!(done.status, 0);
    assert!(
        done.err.starts_with("day.csv: warning: 8 of 8 readings lie outside the grid 0 to 79"),
        "{}",
        done.err
    );
    put(&folder, "half.csv", "31\n80\n");
    put(&folder, "more.csv", "31\n80\n-1\n");
    let done = run_in(&folder, &["find", "belt.txt", "half.csv", "more.csv"], b"");
    assert!(
        done.err.starts_with("more.csv: warning: 2 of 3 readings") && done.err.ends_with("2 records: 2 answered, 0 refused\n"),
        "{}",
        done.err
    );
    let done = run_in(&folder, &["make", "belt.txt", "more.csv"], b"");
    assert!(
        done.status == 0 && done.err.starts_with("more.csv: warning: 2 of 3 readings"),
        "{}",
        done.err
    );
}

/// An option that nothing would come of is refused.
#[test]
fn options_without_use() {
    let folder = start("without_use");
    put(&folder, "own.txt", &format!("{TEXT}readings 31\n"));
    for (args, words) in [
        (&["find", "own.txt", "--column", "a"][..], "--column is about a RECORD"),
        (&["find", "own.txt", "--header"], "--header is about a RECORD"),
        (&["make", "own.txt", "--header"], "--header is about a RECORD"),
        (&["find", "own.txt", "--title", "a"], "--title is about a picture; add --plot"),
        (&["find", "own.txt", "--size", "800x400"], "--size is about a picture"),
    ] {
        let done = run_in(&folder, args, b"");
        assert_eq!((done.status, done.out.len()), (2, 0), "{args:?}");
        assert!(done.err.contains(words), "{args:?}: {}", done.err);
    }
}

#[test]
fn a_refused_record() {
    let folder = start("refused");
    put(&folder, "long.csv", &"31\n".repeat(4097));
    put(&folder, "longest.csv", &"31\n".repeat(4096));
    put(&folder, "huge.csv", &"31\n".repeat(70_000));
    put(&folder, "none.csv", "");
    put(&folder, "label.txt", &format!("{TEXT}label 2 to 9 changes 1\n"));
    put(&folder, "end.txt", &TEXT.replace("start end", "start"));
    put(&folder, "one.csv", "31\n");
    let cases = [
        (
            "belt.txt",
            "long.csv",
            "long.csv: 4097 readings, at most 4096: split the record",
            "(refusal 9)",
        ),
        (
            "belt.txt",
            "huge.csv",
            "huge.csv: 70000 readings, at most 4096: split the record",
            "(refusal 9)",
        ),
        ("belt.txt", "none.csv", "none.csv: ", "(refusal 9)"),
        (
            "label.txt",
            "day.csv",
            "day.csv: label 1 (readings 2 to 9, 1 change) goes on after the last reading, 8; see label.txt:7",
            "(refusal 13)",
        ),
        (
            "end.txt",
            "one.csv",
            "one.csv: no segmentation ends in a state in which a record may end",
            "(refusal 16)",
        ),
    ];
    for (text, record, words, number) in cases {
        let done = run_in(&folder, &["find", text, record], b"");
        assert_eq!((done.status, done.out.len()), (1, 0), "{record}");
        assert!(
            done.err.starts_with(words) && done.err.ends_with(&format!("{number}\n")),
            "{record}: {}",
            done.err
        );
    }
    assert_eq!(run_in(&folder, &["find", "belt.txt", "longest.csv"], b"").status, 0);
    put(&folder, "bad.csv", "31\n3l\n");
    let json = run_in(&folder, &["find", "belt.txt", "bad.csv", "--format", "json"], b"");
    let said = python(
        "import json,sys; r = json.load(sys.stdin)['records'][0]; print(r['record'], r['refusal'], r['sentence'][:9])",
        &json.out,
    );
    assert_eq!((json.status, said.as_str()), (1, "bad.csv None bad.csv:2\n"));
    let json = run_in(&folder, &["find", "belt.txt", "long.csv", "--format", "json"], b"");
    assert_eq!(json.status, 1);
    let said = python(
        "import json,sys; r = json.load(sys.stdin)['records'][0]; print(r['record'], r['refusal'], r['cost'], r['runs'])",
        &json.out,
    );
    assert_eq!(said, "long.csv 9 None []\n");
}

/// A wrong plan is told once, at its line, and not for each record.
#[test]
fn a_refused_plan() {
    let folder = start("refused_plan");
    put(&folder, "gap.txt", &TEXT.replace("up 6", "up 2000"));
    put(&folder, "b.csv", RECORD);
    let done = run_in(&folder, &["find", "gap.txt", "day.csv", "b.csv"], b"");
    assert_eq!((done.status, done.out.len()), (1, 0));
    assert!(done.err.starts_with("gap.txt:6: the gap 2000 is above 1023 (refusal 6)"), "{}", done.err);
    let done = run_in(&folder, &["find", "belt.txt"], b"");
    assert_eq!(done.status, 1);
    assert!(done.err.contains("no record is named"), "{}", done.err);
}

fn many(test: &str) -> Folder {
    let folder = start(test);
    fs::create_dir(folder.join("all")).expect("folder");
    for day in 0..7 {
        put(&folder, &format!("all/day{day}.csv"), &RECORD.replace("43", &format!("{}", 43 + day)));
    }
    put(&folder, "all/bad.csv", "31\n3l\n");
    put(&folder, "all/long.csv", &"31\n".repeat(5000));
    put(&folder, "all/notes.md", "31\n");
    folder
}

/// What lies in a folder and is not searched is named; a link to nothing is a record that fails.
#[test]
fn what_a_folder_leaves_out() {
    let folder = start("left_out");
    fs::create_dir_all(folder.join("rec/sub")).expect("folder");
    put(&folder, "rec/a.csv", RECORD);
    put(&folder, "rec/.hidden.csv", RECORD);
    std::os::unix::fs::symlink("nowhere", folder.join("rec/b.csv")).expect("link");
    let done = run_in(&folder, &["find", "belt.txt", "rec"], b"");
    assert_eq!(done.status, 2);
    assert!(
        done.err.contains("not hidden: '.hidden.csv', 'sub'\n") && done.err.ends_with("2 records: 1 answered, 0 refused, 1 failed\n"),
        "{}",
        done.err
    );
}

#[test]
fn a_folder_of_records() {
    let folder = many("folder");
    let done = run_in(&folder, &["find", "belt.txt", "all", "day.csv"], b"");
    assert_eq!(done.status, 1);
    let err: Vec<&str> = done.err.lines().collect();
    assert_eq!(err.len(), 2, "{}", done.err);
    assert!(
        err[0].starts_with("all: left out, since a record here is a file that ends in .csv") && err[0].ends_with("'notes.md'"),
        "{}",
        err[0]
    );
    assert_eq!(err[1], "10 records: 8 answered, 1 refused (9: 1), 1 failed");
    let out = done.text();
    let blocks: Vec<&str> = out.split("\n\n\n").collect();
    assert_eq!(out.matches("cost ").count(), 8);
    assert!(
        blocks[0].starts_with("all/bad.csv\n") && out.contains("all/bad.csv:2: expected a reading"),
        "{out}"
    );
    assert!(out.ends_with(&format!("day.csv\n{TABLE}\n")), "{out}");
    let names: Vec<&str> = out.lines().filter(|line| line.ends_with(".csv")).collect();
    let expected = ["bad", "day0", "day1", "day2", "day3", "day4", "day5", "day6", "long"].map(|name| format!("all/{name}.csv"));
    assert_eq!(names[..9], expected);
}

#[test]
fn the_same_output_with_any_number_of_jobs() {
    let folder = many("jobs");
    for format in ["table", "csv", "json"] {
        let outputs = ["1", "2", "5", "99"].map(|jobs| run_in(&folder, &["find", "belt.txt", "all", "--format", format, "--jobs", jobs], b""));
        for done in &outputs {
            assert_eq!((done.status, &done.out, &done.err), (1, &outputs[0].out, &outputs[0].err));
        }
    }
    let done = run_in(&folder, &["find", "belt.txt", "all", "--jobs", "0"], b"");
    assert_eq!(done.status, 2);
}

/// Python reads what was written, and finds every record with its runs, refusal or message.
#[test]
fn csv_and_json_of_a_folder() {
    let folder = many("exports");
    let json = run_in(&folder, &["find", "belt.txt", "all", "--format", "json"], b"");
    let script = "import json,sys\nfor r in json.load(sys.stdin)['records']:\n  \
                  print(r['record'], r['cost'], r['refusal'], [(x['first'], x['state_name'], x['level'], x['edge'], x['kind'], x['penalty']) for x in r['runs']])";
    let said = python(script, &json.out);
    assert!(
        said.contains("all/day0.csv 53 None [(1, 'new', 31, None, None, None), (4, 'worn', 42, 2, 'up', 50)]\n"),
        "{said}"
    );
    assert!(
        said.contains("all/bad.csv None None []\n") && said.contains("all/long.csv None 9 []\n"),
        "{said}"
    );
    assert_eq!(said.lines().count(), 9);
    let csv = run_in(&folder, &["find", "belt.txt", "all", "--format", "csv"], b"");
    let script = "import csv,sys\nrows = list(csv.DictReader(sys.stdin))\nprint(len(rows), len({tuple(r) for r in rows}))\n\
                  for r in rows: print(r['record'], r['run'], r['state_name'], r['edge'], r['gap'], r['total_cost'], r['refusal'])";
    let said = python(script, &csv.out);
    assert!(said.starts_with("16 1\n"), "{said}");
    assert!(
        said.contains("all/day0.csv 2 worn 2 6 53 \n") && said.contains("all/long.csv      9\n"),
        "{said}"
    );
}

/// Names of the text come out whole, whatever stands in them.
#[test]
fn odd_names_in_json_and_csv() {
    let folder = start("odd_names");
    let name = "a\rb\t'c',\\d;é";
    put(&folder, "odd.txt", &TEXT.replace("new", &format!("\"{name}\"")));
    for (format, script) in [
        (
            "json",
            "import json,sys; print(ascii(json.load(sys.stdin)['records'][0]['runs'][0]['state_name']))",
        ),
        (
            "csv",
            "import csv,sys,io; t = io.StringIO(sys.stdin.buffer.read().decode(), newline=''); print(ascii(next(csv.DictReader(t))['state_name']))",
        ),
    ] {
        let done = run_in(&folder, &["find", "odd.txt", "day.csv", "--format", format], b"");
        assert_eq!(done.status, 0, "{}", done.err);
        assert_eq!(
            python(script, &done.out),
            python(&format!("print(ascii({name:?}))").replace("\\u{e9}", "\\u00e9"), b""),
            "{format}"
        );
    }
}

#[test]
fn pictures() {
    let folder = many("find_pictures");
    assert_eq!(
        table(&folder, &["belt.txt", "day.csv", "--plot", "day.svg", "--title", "Monday"], b""),
        TABLE
    );
    let svg = fs::read_to_string(folder.join("day.svg")).expect("picture");
    assert!(svg.contains(">Monday<") && svg.contains("worn"), "{svg}");
    // Levels are readings times the scale, and the axis says so.
    put(
        &folder,
        "tenths.txt",
        &format!("{}scale 10\nreadings 31.5 31.6\n", TEXT.replace("79", "790")),
    );
    assert_eq!(
        run_in(&folder, &["find", "tenths.txt", "--plot", "tenths.svg", "--unit", "A"], b"").status,
        0
    );
    assert!(fs::read_to_string(folder.join("tenths.svg"))
        .expect("picture")
        .contains(">current × 10 (A)<"));
    let done = run_in(&folder, &["find", "belt.txt", "all", "--plot", "drawn/here"], b"");
    assert_eq!(done.status, 1);
    let mut names: Vec<String> = fs::read_dir(folder.join("drawn/here"))
        .expect("folder")
        .map(|entry| entry.expect("entry").file_name().to_string_lossy().into_owned())
        .collect();
    names.sort();
    assert_eq!(
        names,
        ["day0.svg", "day1.svg", "day2.svg", "day3.svg", "day4.svg", "day5.svg", "day6.svg"]
    );
    put(&folder, "linked", "");
    std::os::unix::fs::symlink("linked", folder.join("link.svg")).expect("link");
    for (args, words) in [
        (&["belt.txt", "all", "--plot", "day.svg"][..], "'day.svg' is a file"),
        (&["belt.txt", "day.csv", "./day.csv", "--plot", "drawn"], "would both be drawn to"),
        (&["belt.txt", "all", "--format", "answer"], "takes one record"),
        (
            &["belt.txt", "day.csv", "--plot", "./x", "-o", "drawn/../x"],
            "would both be written to './x'",
        ),
        (&["belt.txt", "empty"], "cannot read 'empty'"),
        (&["belt.txt", "day.csv", "--plot", "-"], "--plot has to name a file or a folder"),
        (&["belt.txt", "day.csv", "--plot", "/dev/stdout"], "--plot has to name a file or a folder"),
        (
            &["belt.txt", "day.csv", "--plot", "link.svg", "-o", "linked"],
            "would both be written to 'link.svg'",
        ),
        (&[], "a plan text is missing"),
        (&["-", "-"], "standard input is asked for twice"),
        (&["belt.txt", "day.csv", "--column", "0"], "--column"),
    ] {
        let done = run_in(&folder, &[&["find"], args].concat(), b"");
        assert_eq!((done.status, done.out.len()), (2, 0), "{args:?}: {}", done.err);
        assert!(done.err.contains(words), "{args:?}: {}", done.err);
    }
    // A folder is one also for a single record: of a folder of records, and where it is there already.
    fs::create_dir(folder.join("single")).expect("folder");
    put(&folder, "single/day.csv", RECORD);
    assert_eq!(run_in(&folder, &["find", "belt.txt", "single", "--plot", "alone"], b"").status, 0);
    assert_eq!(run_in(&folder, &["find", "belt.txt", "day.csv", "--plot", "single"], b"").status, 0);
    put(&folder, "own.txt", &format!("{TEXT}readings 31 42\n"));
    assert_eq!(run_in(&folder, &["find", "own.txt", "--plot", "single"], b"").status, 0);
    assert!(folder.join("alone/day.svg").is_file() && folder.join("single/day.svg").is_file() && folder.join("single/own.svg").is_file());
    // Nothing is made for a call that is refused.
    put(&folder, "bad.txt", &TEXT.replace("up 6", "up 2000"));
    assert_eq!(run_in(&folder, &["find", "bad.txt", "all", "--plot", "never"], b"").status, 1);
    assert!(!folder.join("never").exists());
    fs::create_dir(folder.join("bare")).expect("folder");
    let done = run_in(&folder, &["find", "belt.txt", "bare"], b"");
    assert!(done.status == 2 && done.err.contains("the folder 'bare' has no record"), "{}", done.err);
}

/// A record named like the text, an answer file and a plan file that is cut are told apart.
#[test]
fn files_that_are_no_records() {
    let folder = start("no_records");
    fs::write(folder.join("cut.plan"), &hex(PAPER_PLAN)[..20]).expect("file");
    fs::write(folder.join("a.answer"), hex("83 0001 10")).expect("file");
    for (record, words) in [
        ("cut.plan", "not a good plan file"),
        ("a.answer", "looks like an answer file"),
        ("belt.txt", "belt.txt:1: "),
        ("missing.csv", "cannot read 'missing.csv'"),
    ] {
        let done = run_in(&folder, &["find", "belt.txt", record], b"");
        assert_eq!(done.out.len(), 0, "{record}");
        assert!(done.status > 0 && done.err.contains(words), "{record}: {}", done.err);
    }
}

/// On a terminal a line says how far it is; python lends one.
#[test]
fn progress_on_a_terminal() {
    let folder = many("progress");
    let script = format!(
        "import os, pty\nos.chdir({:?})\npty.spawn([{:?}, 'find', 'belt.txt', 'all', '-o', 'out'])",
        folder.to_string_lossy(),
        env!("CARGO_BIN_EXE_yeldaski")
    );
    let said = python(&script, b"");
    assert!(
        said.contains("1 of 9 records") && said.contains("9 of 9 records, 2 without an answer"),
        "{said}"
    );
    let piped = run_in(&folder, &["find", "belt.txt", "all", "-o", "out"], b"");
    assert!(!piped.err.contains("of 9 records"), "{}", piped.err);
}
