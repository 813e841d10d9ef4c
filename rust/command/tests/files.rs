//! Outputs: no input is written over, and no file is left half written.
mod common;
use common::{folder, hex, run_in, Folder, PAPER_ANSWER, PAPER_PLAN};
use std::fs;
use std::os::unix::fs::{symlink, PermissionsExt};

const TEXT: &str = "grid 0 to 9\nstate only start end\nedge only -> only stay\nedge only -> only any penalty 10\nreadings from r.csv\n";

fn inputs(test: &str) -> Folder {
    let folder = folder(test);
    fs::write(folder.join("t.txt"), TEXT).expect("file");
    fs::write(folder.join("r.csv"), "3\n4\n").expect("file");
    fs::write(folder.join("p"), hex(PAPER_PLAN)).expect("file");
    fs::write(folder.join("a"), hex(PAPER_ANSWER)).expect("file");
    fs::create_dir(folder.join("inner")).expect("folder");
    symlink("../t.txt", folder.join("inner/link")).expect("link");
    folder
}

#[test]
fn an_input_is_not_written_over() {
    let folder = inputs("inputs");
    fs::write(folder.join("mon.csv"), "3\n4\n5\n").expect("file");
    let cases: [&[&str]; 16] = [
        &["make", "t.txt", "-o", "t.txt"],
        &["make", "t.txt", "-o", "r.csv"],
        &["make", "t.txt", "-o", "./inner/../t.txt"],
        &["make", "t.txt", "-o", "inner/link"],
        &["run", "p", "-o", "p"],
        &["show", "a", "-o", "a"],
        &["show", "a", "--plan", "p", "-o", "p"],
        &["show", "a", "--text", "t.txt", "-o", "t.txt"],
        &["check", "p", "-o", "p"],
        &["plot", "p", "-o", "p"],
        &["plot", "p", "--answer", "a", "-o", "a"],
        &["find", "t.txt", "-o", "r.csv"],
        &["find", "t.txt", "r.csv", "--plot", "r.csv"],
        &["find", "t.txt", "p", "-o", "r.csv"],
        &["make", "t.txt", "mon.csv", "-o", "r.csv"],
        &["plot", "p", "--text", "t.txt", "-o", "r.csv"],
    ];
    for args in cases {
        let done = run_in(&folder, args, b"");
        assert_eq!((done.status, done.out.len()), (2, 0), "{args:?}: {}", done.err);
        assert!(done.err.contains("is also an input, which would be lost"), "{args:?}: {}", done.err);
    }
    assert_eq!(fs::read_to_string(folder.join("t.txt")).expect("text"), TEXT);
    assert_eq!(fs::read_to_string(folder.join("r.csv")).expect("text"), "3\n4\n");
    assert_eq!(fs::read(folder.join("p")).expect("plan"), hex(PAPER_PLAN));
    assert_eq!(fs::read(folder.join("a")).expect("answer"), hex(PAPER_ANSWER));
}

/// A link stays a link to the new content, permissions stay, and no other file remains.
#[test]
fn an_output_is_replaced_as_a_whole() {
    let folder = inputs("replaced");
    fs::write(folder.join("old"), "former content").expect("file");
    fs::set_permissions(folder.join("old"), fs::Permissions::from_mode(0o640)).expect("permissions");
    symlink("old", folder.join("to_old")).expect("link");
    assert_eq!(run_in(&folder, &["make", "t.txt", "-o", "to_old"], b"").status, 0);
    assert_eq!(fs::read(folder.join("old")).expect("plan"), hex(PAPER_PLAN));
    assert_eq!(fs::metadata(folder.join("old")).expect("old").permissions().mode() & 0o777, 0o640);
    assert!(fs::symlink_metadata(folder.join("to_old")).expect("link").is_symlink());
    let mut names: Vec<String> = fs::read_dir(&folder)
        .expect("folder")
        .map(|entry| entry.expect("entry").file_name().to_string_lossy().into_owned())
        .collect();
    names.sort();
    assert_eq!(names, ["a", "inner", "old", "p", "r.csv", "t.txt", "to_old"]);
}

/// Where the new content cannot be written whole, the former one stays and nothing else is left behind.
#[test]
fn a_write_that_fails_leaves_the_former_file() {
    let folder = inputs("fails");
    fs::write(folder.join("old"), "former content").expect("file");
    // The largest file that the shell allows here is 0 blocks, so the temporary file cannot be filled.
    let script = format!("ulimit -f 0; trap '' XFSZ; exec '{}' make t.txt -o old", env!("CARGO_BIN_EXE_yeldaski"));
    let output = std::process::Command::new("bash")
        .args(["-c", &script])
        .current_dir(&folder)
        .output()
        .expect("bash");
    assert_eq!(output.status.code(), Some(2), "{}", String::from_utf8_lossy(&output.stderr));
    assert_eq!(fs::read_to_string(folder.join("old")).expect("old"), "former content");
    assert_eq!(fs::read_dir(&folder).expect("folder").count(), 6);
}

/// A link to nothing makes what it names, a file that may not be written stays, and a long name is no obstacle.
#[test]
fn odd_outputs() {
    let folder = inputs("odd_outputs");
    symlink("new", folder.join("to_new")).expect("link");
    assert_eq!(run_in(&folder, &["make", "t.txt", "-o", "to_new"], b"").status, 0);
    assert_eq!(fs::read(folder.join("new")).expect("plan"), hex(PAPER_PLAN));
    assert!(fs::symlink_metadata(folder.join("to_new")).expect("link").is_symlink());
    fs::write(folder.join("kept"), "kept").expect("file");
    fs::set_permissions(folder.join("kept"), fs::Permissions::from_mode(0o444)).expect("permissions");
    assert_eq!(run_in(&folder, &["make", "t.txt", "-o", "kept"], b"").status, 2);
    assert_eq!(fs::read_to_string(folder.join("kept")).expect("kept"), "kept");
    let long = "n".repeat(255);
    assert_eq!(run_in(&folder, &["make", "t.txt", "-o", &long], b"").status, 0);
    assert_eq!(fs::read(folder.join(&long)).expect("plan"), hex(PAPER_PLAN));
}

/// The names of standard output as a file are standard output: what others write to the same file stays.
#[test]
fn standard_output_by_name() {
    let folder = inputs("by_name");
    for name in ["/dev/stdout", "/dev/fd/1", "/proc/self/fd/1", "-"] {
        let program = env!("CARGO_BIN_EXE_yeldaski");
        let script = format!("{{ echo before; '{program}' find t.txt -o {name}; echo after; }} >log; '{program}' find t.txt -o {name} >>log");
        assert!(std::process::Command::new("bash")
            .args(["-c", &script])
            .current_dir(&folder)
            .status()
            .expect("bash")
            .success());
        let log = fs::read_to_string(folder.join("log")).expect("log");
        assert!(log.starts_with("before\ncost 1\n") && log.contains("\nafter\ncost 1\n"), "{name}: {log}");
    }
}

#[test]
fn what_is_no_file_is_written_to() {
    let folder = inputs("devices");
    assert_eq!(run_in(&folder, &["make", "t.txt", "-o", "/dev/stdout"], b"").out, hex(PAPER_PLAN));
    assert_eq!(run_in(&folder, &["make", "t.txt", "-o", "/dev/null"], b"").status, 0);
    assert_eq!(run_in(&folder, &["make", "t.txt", "-o", "inner"], b"").status, 2);
}
