//! `./example` and `./install` as a new user meets them, with stand-ins for `rt` and `cargo` that say what they were asked for. The copies stand
//! outside the repository, whose check wants every Rattle file below it in a listed crate.

use std::fs;
use std::io::{BufRead, BufReader, Read};
use std::os::unix::fs::{symlink, PermissionsExt};
use std::path::{Path, PathBuf};
use std::process::{Command, Output, Stdio};

/// What the scripts call beside `rt` and `cargo`.
const TOOLS: &str = "bash cat chmod cmp cp cut dirname env find grep install mkdir printf realpath rm sed sha256sum sleep sort tail tee touch xargs";

/// The stand-in for `rt`: its steps leave what the real one leaves. It fails, or waits for a file, where the test has put a file that says so.
const RT: &str = r#"#!/usr/bin/env bash
crate=${PWD##*/}
cd "$(dirname "$0")/.."
echo "rt $* in $crate" >>calls
[ "$1" = version ] && { [ -e dumb ] && exit 3; echo kit-1; exit; }
echo "rt: first proved (1 s)"
echo "library: loaded"
while [ -e wait ]; do sleep 0.05; done
[ -e change ] && echo "fn changed" >crates/plan/src/lib
[ -e killed ] && { echo "no memory left"; exit 137; }
if [ -e broken ]; then
    echo "crates/plan/proofs/Proof.antt:33:54: error: two types differ"
    echo "rt: plan NOT PROVED (exit 1, 4 s)"
    echo "rt: finder NOT PROVED: its dependency plan is not proved"
    exit 1
fi
mkdir -p "crates/$crate/out"
touch "crates/$crate/out/lib$crate.a"
printf '#!/usr/bin/env bash\ncat ANSWER\n' >"crates/$crate/out/$crate"
chmod +x "crates/$crate/out/$crate"
"#;

/// The stand-in for `cargo`: the command is the one under test.
const CARGO: &str = r#"#!/usr/bin/env bash
echo "cargo $*" >>calls
[ -n "${CARGO_TARGET_DIR:-}" ] && echo "with a folder" >>calls
mkdir -p rust/target/release
cp COMMAND rust/target/release/yeldaski
"#;

/// A copy of what the scripts need, in a folder of its own that goes with the test.
struct Copy {
    folder: PathBuf,
}

impl Drop for Copy {
    fn drop(&mut self) {
        let _ = fs::remove_dir_all(&self.folder);
    }
}

fn repository() -> PathBuf {
    PathBuf::from(env!("CARGO_MANIFEST_DIR")).join("../..")
}

fn put(path: &Path, content: &str) {
    fs::create_dir_all(path.parent().expect("a folder")).expect("folder");
    fs::write(path, content).expect("file");
    fs::set_permissions(path, fs::Permissions::from_mode(0o755)).expect("permissions");
}

impl Copy {
    fn new(test: &str) -> Copy {
        let folder = std::env::temp_dir().join(format!("yeldaski-{}-{test}", std::process::id()));
        let copy = Copy { folder };
        for name in [
            "example",
            "install",
            "tools/build",
            "crates.txt",
            "examples/belt.plan",
            "examples/belt.txt",
            "examples/belt.csv",
        ] {
            let target = copy.folder.join(name);
            fs::create_dir_all(target.parent().expect("a folder")).expect("folder");
            fs::copy(repository().join(name), target).expect("copy");
        }
        for name in ["plan", "segment", "finder_c"] {
            put(&copy.folder.join("crates").join(name).join("src/lib"), "fn plan\n");
        }
        put(
            &copy.folder.join("bin/rt"),
            &RT.replace("ANSWER", &repository().join("examples/belt.answer").to_string_lossy()),
        );
        put(&copy.folder.join("bin/cargo"), &CARGO.replace("COMMAND", env!("CARGO_BIN_EXE_yeldaski")));
        let path = std::env::var_os("PATH").expect("PATH");
        for tool in TOOLS.split(' ') {
            let found = std::env::split_paths(&path).map(|folder| folder.join(tool)).find(|path| path.exists());
            symlink(found.expect(tool), copy.folder.join("bin").join(tool)).expect("link");
        }
        copy
    }

    fn command(&self, script: &str) -> Command {
        let mut command = Command::new(self.folder.join(script));
        command
            .env("PATH", self.folder.join("bin"))
            .env("HOME", self.folder.join("home"))
            .env_remove("CARGO_TARGET_DIR");
        command
    }

    fn done(&self, script: &str) -> (Output, String, String) {
        let output = self.command(script).output().expect("script");
        let text = |bytes: &[u8]| String::from_utf8(bytes.to_vec()).expect("text");
        let (out, err) = (text(&output.stdout), text(&output.stderr));
        (output, out, err)
    }

    /// What `rt` and `cargo` were asked for since the last time this was asked.
    fn calls(&self) -> String {
        let path = self.folder.join("calls");
        let calls = fs::read_to_string(&path).unwrap_or_default();
        let _ = fs::remove_file(path);
        calls
    }
}

fn shows_the_table(out: &str) {
    assert!(out.starts_with("cost 1634\n\nrun  first  last  state  level  edge\n"), "{out}");
    assert!(out.ends_with("2 (new -> worn, up 6)\n"), "{out}");
}

#[test]
fn only_what_changed_is_proved_again() {
    let copy = Copy::new("twice");
    let (_, out, err) = copy.done("example");
    shows_the_table(&out);
    assert!(
        err.starts_with("Proving the program segment and the library") && err.contains("minutes"),
        "{err}"
    );
    let calls = copy.calls();
    assert!(calls.contains("rt run in segment\n") && calls.contains("rt lib in finder_c\n"), "{calls}");

    let (_, out, err) = copy.done("example");
    shows_the_table(&out);
    assert!(err.contains("proved already"), "{err}");
    assert!(!copy.calls().contains("rt run"));

    // What `rt` made may be removed, which is no change of a source.
    for name in ["segment", "finder_c"] {
        fs::remove_dir_all(copy.folder.join("crates").join(name).join("out")).expect("removed");
    }
    shows_the_table(&copy.done("example").1);
    assert!(!copy.calls().contains("rt run"));

    put(&copy.folder.join("crates/plan/src/lib"), "fn other\n");
    copy.done("example");
    assert!(copy.calls().contains("rt run in segment\n"));
}

/// A library that was made by hand from other sources in between is not taken for the one that was kept.
#[test]
fn what_was_made_in_between_is_noticed() {
    let copy = Copy::new("between");
    copy.done("example");
    copy.calls();
    fs::write(copy.folder.join("crates/finder_c/out/libfinder_c.a"), "other").expect("library");
    let (_, out, _) = copy.done("example");
    shows_the_table(&out);
    assert!(copy.calls().contains("rt lib in finder_c\n"));
}

#[test]
fn sources_that_change_meanwhile() {
    let copy = Copy::new("meanwhile");
    put(&copy.folder.join("change"), "");
    let (output, out, err) = copy.done("example");
    assert_eq!((output.status.code(), out.as_str()), (Some(1), ""));
    assert!(err.ends_with("The sources have changed while they were proved; run it again.\n"), "{err}");
    fs::remove_file(copy.folder.join("change")).expect("removed");
    shows_the_table(&copy.done("example").1);
}

/// The first line and that of the first crate are there while `rt` is still at work, though the output goes to a pipe.
#[test]
fn lines_come_as_they_happen() {
    let copy = Copy::new("lines");
    put(&copy.folder.join("wait"), "");
    let mut child = copy
        .command("example")
        .stdout(Stdio::piped())
        .stderr(Stdio::piped())
        .spawn()
        .expect("script");
    let mut err = BufReader::new(child.stderr.take().expect("stderr")).lines();
    let mut line = || err.next().expect("a line").expect("text");
    assert!(line().starts_with("Proving "));
    assert_eq!(line(), "  first proved (1 s)");
    assert!(child.try_wait().expect("state").is_none(), "the script waits for rt");
    fs::remove_file(copy.folder.join("wait")).expect("removed");
    let mut out = String::new();
    child.stdout.take().expect("stdout").read_to_string(&mut out).expect("text");
    shows_the_table(&out);
    assert!(child.wait().expect("status").success());
}

#[test]
fn what_is_missing_is_named() {
    for (tool, words) in [("rt", "rt is missing"), ("cargo", "cargo is missing")] {
        let copy = Copy::new(&format!("without_{tool}"));
        fs::remove_file(copy.folder.join("bin").join(tool)).expect("removed");
        let (output, out, err) = copy.done("example");
        assert_eq!((output.status.code(), out.as_str()), (Some(1), ""));
        assert!(err.starts_with(words) && err.contains("PATH"), "{err}");
    }
}

#[test]
fn a_failed_proof_says_why() {
    let copy = Copy::new("broken");
    put(&copy.folder.join("broken"), "");
    let (output, out, err) = copy.done("example");
    assert_eq!((output.status.code(), out.as_str()), (Some(1), ""));
    assert!(
        err.contains("FAILED: rt run segment\n") && err.contains("Proof.antt:33:54: error: two types differ"),
        "{err}"
    );
    assert!(
        err.ends_with("The whole log: rust/target/build.log\n") && !err.contains("its dependency"),
        "{err}"
    );
    let log = fs::read_to_string(copy.folder.join("rust/target/build.log")).expect("log");
    assert!(log.contains("library: loaded\n"));
    // The next run proves again.
    fs::remove_file(copy.folder.join("broken")).expect("removed");
    shows_the_table(&copy.done("example").1);
}

/// A failure that nobody calls an error is shown by its last lines, and one of `rt version` is told as well.
#[test]
fn other_failures() {
    let copy = Copy::new("killed");
    put(&copy.folder.join("killed"), "");
    let (output, _, err) = copy.done("example");
    assert!(
        output.status.code() == Some(1) && err.contains("\nno memory left\nThe whole log: "),
        "{err}"
    );
    put(&copy.folder.join("dumb"), "");
    let (output, _, err) = copy.done("example");
    assert!(output.status.code() == Some(1) && err.starts_with("rt does not answer"), "{err}");
}

#[test]
fn with_a_target_folder_of_cargo() {
    let copy = Copy::new("target_folder");
    let output = copy
        .command("example")
        .env("CARGO_TARGET_DIR", copy.folder.join("elsewhere"))
        .output()
        .expect("script");
    shows_the_table(&String::from_utf8_lossy(&output.stdout));
    let calls = copy.calls();
    assert!(calls.contains("--target-dir rust/target") && calls.contains("with a folder"), "{calls}");
}

#[test]
fn installed_below_a_folder() {
    let copy = Copy::new("installed");
    let (output, out, err) = copy.done("install");
    assert!(output.status.success(), "{err}");
    let local = copy.folder.join("home/.local");
    assert!(out.contains("is not on the PATH; add this line"), "{out}");
    let version = Command::new(local.join("bin/yeldaski")).arg("-V").output().expect("installed");
    assert_eq!(version.stdout, b"yeldaski 0.1.0\n");
    for name in [
        "man/man1/yeldaski.1",
        "bash-completion/completions/yeldaski",
        "zsh/site-functions/_yeldaski",
    ] {
        assert!(fs::metadata(local.join("share").join(name)).expect(name).len() > 1000, "{name}");
    }
    let output = copy.command("install").arg("--help").output().expect("script");
    assert!(output.status.code() == Some(2) && output.stderr.starts_with(b"Usage: ./install"));
    let output = copy.command("install").arg(copy.folder.join("other")).output().expect("script");
    assert!(output.status.success() && copy.folder.join("other/bin/yeldaski").exists());
}
