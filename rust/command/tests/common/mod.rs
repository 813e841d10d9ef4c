//! Runs the built program.
#![allow(dead_code)]

pub mod cost_lists;

use std::fs;
use std::io::Write;
use std::ops::Deref;
use std::path::{Path, PathBuf};
use std::process::{Command, Output, Stdio};

pub struct Done {
    pub status: i32,
    pub out: Vec<u8>,
    pub err: String,
}

impl Done {
    pub fn text(&self) -> String {
        String::from_utf8(self.out.clone()).expect("output in UTF-8")
    }

    /// The messages but for the warning of readings outside the grid, which many a test does not care for.
    pub fn messages(&self) -> String {
        let others = self.err.lines().filter(|line| !line.contains("lie outside the grid"));
        others.map(|line| format!("{line}\n")).collect()
    }
}

pub fn program() -> Command {
    Command::new(env!("CARGO_BIN_EXE_yeldaski"))
}

/// A folder that goes with its test: `rt ci` refuses the links that some tests make, wherever they stand in the repository.
pub struct Folder(PathBuf);

impl Deref for Folder {
    type Target = PathBuf;

    fn deref(&self) -> &PathBuf {
        &self.0
    }
}

impl AsRef<Path> for Folder {
    fn as_ref(&self) -> &Path {
        &self.0
    }
}

impl Drop for Folder {
    fn drop(&mut self) {
        let _ = fs::remove_dir_all(&self.0);
    }
}

/// An empty folder of its own for a test.
pub fn folder(test: &str) -> Folder {
    let folder = PathBuf::from(env!("CARGO_TARGET_TMPDIR")).join(test);
    let _ = fs::remove_dir_all(&folder);
    fs::create_dir_all(&folder).expect("folder");
    Folder(folder)
}

pub fn put(folder: &Path, name: &str, content: &str) {
    fs::write(folder.join(name), content).expect("file");
}

/// Runs a command with an input on standard input.
fn fed(command: &mut Command, input: &[u8]) -> Output {
    let mut child = command
        .stdin(Stdio::piped())
        .stdout(Stdio::piped())
        .stderr(Stdio::piped())
        .spawn()
        .expect("a program that starts");
    let mut stdin = child.stdin.take().expect("stdin");
    let input = input.to_vec();
    // The program may stop before it has read everything.
    let writer = std::thread::spawn(move || drop(stdin.write_all(&input)));
    let output = child.wait_with_output().expect("output");
    writer.join().expect("writer");
    output
}

/// Runs the program in a folder, with an input on standard input. No test may see a panic.
pub fn run_in(folder: &PathBuf, args: &[&str], input: &[u8]) -> Done {
    let output = fed(program().args(args).current_dir(folder), input);
    let err = String::from_utf8(output.stderr).expect("messages in UTF-8");
    assert!(!err.contains("panicked"), "{args:?}: {err}");
    Done {
        status: output.status.code().expect("exit status"),
        out: output.stdout,
        err,
    }
}

pub fn run(args: &[&str], input: &[u8]) -> Done {
    run_in(&PathBuf::from(env!("CARGO_TARGET_TMPDIR")), args, input)
}

/// What the proved program `segment` writes: the one that `rt` made last, or the one that `tools/build` kept.
pub fn segment(plan_file: &[u8]) -> Vec<u8> {
    let paths = ["../../crates/segment/out/segment", "../target/proved/segment"].map(|path| PathBuf::from(env!("CARGO_MANIFEST_DIR")).join(path));
    let program = paths.into_iter().find(|path| path.exists());
    let output = fed(&mut Command::new(program.expect("segment; run in crates/segment: rt run")), plan_file);
    assert!(output.status.success());
    output.stdout
}

/// What python prints for a script that reads an input: an independent reader of what the program writes. Without python3 the test fails.
pub fn python(script: &str, input: &[u8]) -> String {
    let output = fed(Command::new("python3").args(["-c", script]), input);
    assert!(output.status.success(), "{script}: {}", String::from_utf8_lossy(&output.stderr));
    String::from_utf8(output.stdout).expect("text")
}

/// Bytes from hexadecimal digits; blanks do not count.
pub fn hex(digits: &str) -> Vec<u8> {
    let digits: Vec<u32> = digits
        .chars()
        .filter(|c| !c.is_whitespace())
        .map(|c| c.to_digit(16).expect("digit"))
        .collect();
    digits.chunks(2).map(|pair| (pair[0] * 16 + pair[1]) as u8).collect()
}

/// The whole example of the scope paper: plan file and answer file.
pub const PAPER_PLAN: &str = "01 0004 0000 0009  02 0003 01 01 01  03 0006 00 00 00 0000 00  03 0006 00 00 01 0000 04  05 0004 0003 0004";
pub const PAPER_ANSWER: &str = "81 0008 0000000000000001  82 0008 0001 0002 00 0003 FF";
