//! Options, exit statuses and files that cannot be used.
mod common;
use common::{folder, hex, program, run, run_in, PAPER_PLAN};
use std::process::Stdio;

const COMMANDS: [&str; 5] = ["make", "run", "show", "check", "plot"];

#[test]
fn help_and_version() {
    for args in [
        &["--help"][..],
        &["-h"],
        &["make", "--help"],
        &["run", "-h"],
        &["show", "--help"],
        &["check", "x", "--help"],
        &["plot", "--help"],
        &["windows", "--help"],
        &["table", "--help"],
    ] {
        let done = run(args, b"");
        assert_eq!((done.status, done.err.as_str()), (0, ""), "{args:?}");
        assert!(done.text().contains("Usage: yeldaski "), "{args:?}");
    }
    for option in ["--version", "-V"] {
        assert_eq!(run(&[option], b"").text(), "yeldaski 0.1.0\n");
    }
}

/// The example in the help text can be used as it stands.
#[test]
fn the_example_of_the_help() {
    let help = run(&["make", "--help"], b"").text();
    let (_, example) = help.split_once("Example:\n").expect("an example");
    let done = run(&["make"], example.replace("from belt.csv column current", "3 4").as_bytes());
    let bytes =
        "01 0004 0000 004F  02 0003 02 01 03  03 0006 00 00 00 0000 00  03 0006 01 01 00 0000 00  03 0006 00 01 02 0008 09  05 0004 0003 0004";
    assert_eq!((done.status, done.out), (0, hex(bytes)), "{}", done.err);
}

#[test]
fn wrong_usage() {
    let cases: [(&[&str], &str); 13] = [
        (&[], "a command is missing"),
        (&["--"], "a command is missing"),
        (&["-V", "x"], "unexpected word 'x'"),
        (&["mke"], "unknown command 'mke'"),
        (&["--verbose"], "unknown option '--verbose'"),
        (&["make", "--plan", "x"], "unknown option '--plan'"),
        (&["run", "-x"], "unknown option '-x'"),
        (&["run", "a", "b"], "one word at most beside the options, but 'a' and 'b' are given"),
        (
            &["run", "--", "-a", "-b"],
            "one word at most beside the options, but '-a' and '-b' are given",
        ),
        (&["run", "-o"], "option '-o' needs a value"),
        (&["run", "-o", "a", "--output", "b"], "option --output is given twice"),
        (&["show", "--format", "xml"], "expected --format table or csv or json, found 'xml'"),
        (&["show", "--text", "-"], "standard input is asked for twice"),
    ];
    for (args, words) in cases {
        let done = run(args, b"");
        assert_eq!((done.status, done.out.len()), (2, 0), "{args:?}");
        assert!(done.err.starts_with("yeldaski: ") && done.err.contains(words), "{args:?}: {}", done.err);
    }
}

#[test]
fn files_that_cannot_be_used() {
    let folder = folder("files");
    for command in COMMANDS {
        let done = run_in(&folder, &[command, "missing"], b"");
        assert_eq!(done.status, 2, "{command}");
        assert!(done.err.starts_with("yeldaski: cannot read 'missing': "), "{}", done.err);
        assert_eq!(run_in(&folder, &[command, "."], b"").status, 2, "{command}: a folder");
    }
    let done = run_in(&folder, &["run", "-o", "no/folder"], &hex(PAPER_PLAN));
    assert_eq!(done.status, 2);
    assert!(done.err.starts_with("yeldaski: cannot write 'no/folder': "), "{}", done.err);
}

/// Rubbish of any kind and length is refused, never more than that.
#[test]
fn rubbish() {
    let mut seed = 1u32;
    let mut byte = || {
        seed = seed.wrapping_mul(1664525).wrapping_add(1013904223);
        (seed >> 24) as u8
    };
    let mut files: Vec<Vec<u8>> = [1, 2, 3, 100, 70_000]
        .iter()
        .map(|length| (0..*length).map(|_| byte()).collect())
        .collect();
    files.push(vec![0; 2_000_000]);
    files.push(b"\"\n".repeat(1000));
    files.push("grid \u{1F980} to ->\n#".as_bytes().to_vec());
    for file in &files {
        for command in COMMANDS {
            let done = run(&[command], file);
            assert_eq!(done.status, 1, "{command}: {} bytes", file.len());
        }
    }
}

#[test]
fn standard_error_that_is_closed() {
    let mut command = program();
    let mut child = command
        .args(["check", "--wrong"])
        .stdin(Stdio::null())
        .stdout(Stdio::null())
        .stderr(Stdio::piped())
        .spawn()
        .expect("program");
    drop(child.stderr.take());
    assert_eq!(child.wait().expect("status").code(), Some(2));
}

#[test]
fn a_full_disk() {
    let Ok(full) = std::fs::File::options().write(true).open("/dev/full") else {
        return;
    };
    let output = program().arg("--help").stdout(full).output().expect("program");
    assert_eq!(output.status.code(), Some(2));
    assert!(String::from_utf8_lossy(&output.stderr).contains("cannot write 'standard output'"));
}
