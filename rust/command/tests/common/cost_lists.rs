//! What the tests of `table` and `windows` share, the two commands that give a list of costs.
use super::{folder, hex, put, python, run_in, Done, Folder};
use std::fs;
use std::path::{Path, PathBuf};

/// Example A of the scope paper with class 1, and its record.
pub const A: &str = "grid 0 to 4\nstate s start end\nedge s -> s stay\nedge s -> s any penalty 1\nreadings 2 1 0 4\n";
/// Example B, and its record.
pub const B: &str = "grid 0 to 6\nstate a start end\nstate b\nedge a -> a stay\nedge b -> b stay\nedge a -> b up 0 penalty 1\n\
                     edge b -> a down 0 penalty 0\nreadings 1 5 5 1\n";
/// Two states and changes of several kinds, so that costs depend on more than the sum of what is near.
pub const BELT: &str = "grid 0 to 30\nstate new start end\nstate worn end\nedge new -> new stay\nedge worn -> worn stay\n\
                        edge new -> worn up 3 penalty 20\nedge worn -> new down 2 penalty 10\n";
/// The record of example B as a file.
pub const DAY: &str = "1\n5\n5\n1\n";

/// A folder with the plans above, example B with another end set, and more files.
pub fn start(test: &str, more: &[(&str, &str)]) -> Folder {
    let folder = folder(test);
    for (name, text) in [("a.txt", A), ("b.txt", B), ("belt.txt", BELT)].iter().chain(more) {
        put(&folder, name, text);
    }
    put(&folder, "b_end.txt", &B.replace("start end", "start").replace("state b", "state b end"));
    folder
}

/// A good call without a message.
pub fn shown(folder: &PathBuf, command: &str, args: &[&str]) -> String {
    let done = run_in(folder, &[&[command], args].concat(), b"");
    assert_eq!((done.status, done.messages().as_str()), (0, ""), "{args:?}");
    done.text()
}

/// Numbers that look like chance, but are the same in every run.
pub fn rough(count: usize, most: u32) -> Vec<i16> {
    let mut seed = 7_u32;
    let mut next = || {
        seed = seed.wrapping_mul(1664525).wrapping_add(1013904223);
        (seed >> 16) % (most + 1)
    };
    (0..count).map(|_| next() as i16).collect()
}

pub fn lines(readings: &[i16]) -> String {
    readings.iter().map(|reading| format!("{reading}\n")).collect()
}

/// Example B and its record in every sort of file, for `SORTS` and for others.
pub fn put_sorts(folder: &PathBuf) {
    put(folder, "bare.txt", &B.replace("readings 1 5 5 1\n", ""));
    put(
        folder,
        "file.txt",
        &B.replace("readings 1 5 5 1", "readings from named.csv column current"),
    );
    put(folder, "tenths.txt", &B.replace("readings 1 5 5 1", "scale 10\ndecimal comma"));
    put(folder, "tenths.csv", "0,1\n0,5\n0,5\n0,1\n");
    put(folder, "day.csv", DAY);
    put(folder, "named.csv", "time,current\n9,1\n9,5\n9,5\n9,1\n");
    for (text, plan) in [("b.txt", "b.plan"), ("a.txt", "a.plan")] {
        assert_eq!(run_in(folder, &["make", text, "-o", plan], b"").status, 0);
    }
}

/// Ways to name example B and its record.
pub const SORTS: [&[&str]; 7] = [
    &["b.txt"],
    &["b.plan"],
    &["file.txt"],
    &["bare.txt", "day.csv"],
    &["b.txt", "b.plan"],
    &["bare.txt", "named.csv", "--column", "2", "--header"],
    &["tenths.txt", "b.plan"],
];

/// The record or the plan on standard input.
pub fn from_input(folder: &PathBuf, command: &str, options: &[&str], csv: &str) {
    for (args, input) in [(["bare.txt", "-"], DAY), (["-", "day.csv"], B)] {
        let done = run_in(folder, &[&[command], &args[..], options].concat(), input.as_bytes());
        assert_eq!((done.status, done.text().as_str()), (0, csv), "{args:?}");
    }
}

/// The words of a call, its status, and what it says.
pub type Case<'a> = (&'a [&'a str], i32, &'a str);

/// Each call ends with its status, without output and with its words in the message.
pub fn refuses(call: impl Fn(&[&str]) -> Done, cases: &[Case]) {
    for (args, status, words) in cases {
        let done = call(args);
        assert_eq!((done.status, done.out.len()), (*status, 0), "{args:?}: {}", done.err);
        assert!(done.err.contains(words), "{args:?}: {}", done.err);
    }
}

/// Files for `WRONG`; the answer file holds this refusal.
pub fn put_wrong(folder: &Path, refusal: u8) {
    put(folder, "gap.txt", &BELT.replace("up 3", "up 2000"));
    put(folder, "bad.csv", "1\n5\n5l\n");
    put(folder, "half.csv", "1\n5.5\n");
    fs::write(folder.join("cut.plan"), hex("01 0004 0000")).expect("file");
    fs::write(folder.join("an.answer"), [0x83, 0, 1, refusal]).expect("file");
    fs::create_dir(folder.join("all")).expect("folder");
}

/// Plans, records and options that both commands refuse.
pub const WRONG: [Case; 12] = [
    (&["gap.txt", "day.csv"], 1, "gap.txt:6: the gap 2000 is above 1023 (refusal 6)"),
    (&["b.txt", "bad.csv"], 1, "bad.csv:3: expected a reading"),
    (&["cut.plan"], 1, "cut.plan: not a good plan file: "),
    (&["an.answer"], 1, "looks like an answer file"),
    (&["b.txt", "an.answer"], 1, "looks like an answer file"),
    (&["missing.txt"], 2, "cannot read 'missing.txt'"),
    (&["b.txt", "missing.csv"], 2, "cannot read 'missing.csv'"),
    (&["b.txt", "all"], 2, "cannot read 'all'"),
    (&["-", "-"], 2, "standard input is asked for twice"),
    (&["b.txt", "--column", "a"], 2, "--column is about a RECORD"),
    (&["b.txt", "--title", "a"], 2, "--title is about a picture; add --plot"),
    (&["b.txt", "--format", "answer"], 2, "expected --format table or csv or json"),
];

/// Outputs that would overwrite an input or each other, or that cannot be written: nothing is. `both` is said of two outputs in one file.
pub fn refuses_outputs(folder: &Path, call: impl Fn(&[&str]) -> Done, both: &str) {
    put(folder, "day.csv", DAY);
    put(folder, "file.txt", &B.replace("readings 1 5 5 1", "readings from day.csv"));
    refuses(
        call,
        &[
            (&["b.txt", "day.csv", "-o", "day.csv"], 2, "'day.csv' is also an input"),
            (&["b.txt", "day.csv", "-o", "./b.txt"], 2, "'./b.txt' is also an input"),
            (&["b.txt", "day.csv", "--plot", "day.csv"], 2, "'day.csv' is also an input"),
            (&["file.txt", "b_end.txt", "-o", "day.csv"], 2, "'day.csv' is also an input"),
            (&["b.txt", "--plot", "x", "-o", "./x"], 2, both),
            (&["b.txt", "--plot", "-"], 2, "--plot has to name a file or a folder"),
            (&["b.txt", "--plot", "x.svg", "--size", "10x10"], 2, "--size: expected"),
            (&["b.txt", "-o", "no/folder"], 2, "cannot write 'no/folder'"),
        ],
    );
    assert_eq!(fs::read_to_string(folder.join("day.csv")).expect("record"), DAY);
    assert!(!folder.join("x").exists() && !folder.join("x.svg").exists());
}

/// What python prints of the JSON that each call writes: the names in its record `r`, then what a script says of it. There are a record whose name
/// has to be quoted, and one with a slip.
pub fn json(folder: &Path, call: impl Fn(&[&str]) -> Done, script: &str, names: &str, cases: &[Case]) {
    put(folder, "d,\"1.csv", DAY);
    put(folder, "bad.csv", "1\n5l\n");
    let script = format!("import json,sys\nr, = json.load(sys.stdin)['records']\nprint(list(r))\n{script}");
    for (args, status, said) in cases {
        let done = call(&[args, &["--format", "json"][..]].concat());
        assert_eq!((done.status, python(&script, &done.out)), (*status, format!("{names}{said}")), "{args:?}");
    }
}

/// What a script says of the picture `p.svg`, read by another XML parser: it finds `root`, the `name` before every tag, and where the frame is.
pub fn picture(folder: &Path, script: &str) -> String {
    let head = "
import sys, xml.etree.ElementTree as tree
root = tree.fromstring(sys.stdin.buffer.read())
name = '{http://www.w3.org/2000/svg}'
frame = next(e for e in root.iter(name + 'rect') if e.get('fill') == 'none')
x, y, w, h = [float(frame.get(k)) for k in ('x', 'y', 'width', 'height')]
";
    let svg = fs::read(folder.join("p.svg")).expect("picture");
    python(&format!("{head}{script}"), &svg)
}
