//! A C program that includes the header and links the library.
use std::path::Path;
use std::process::Command;

const EXPECTED: &str = "\
most words: 1572864, of a table: 51904512
readings: refusal 0, cost 0, count 2
plan: refusal 0, cost 0, count 38
same: 1
point: refusal 0, cost 4, count 0
search: refusal 0, cost 1, count 1
answer: refusal 0, cost 0, count 22
810008000000000000000182000800010002000003FF
read: refusal 0, held 0, cost 1, count 1, level 3
refusal: refusal 0, cost 0, count 4
read: refusal 0, held 16, cost 0, count 0
segment: refusal 0, cost 0, count 22
810008000000000000000182000800010002000003FF
windows: refusal 19, cost 0, count 0
7 8 9
windows: refusal 0, cost 0, count 2
0 0 9
windows: refusal 0, cost 0, count 1
1 8 9
windows: refusal 19, cost 0, count 0
7 8 9
table: refusal 0, cost 0, count 1
1 8 9 10
table: refusal 0, cost 0, count 2
1 10 9 10
table: refusal 0, cost 0, count 3
1 10 none 10
table: refusal 14, cost 0, count 0
7 8 9 10
table: refusal 20, cost 0, count 0
7 8 9 10
none: 1 1 1 1 1 1 17 15 15 15 9 15 9 14 15 9 14 9 14 15 9 14 15 15
read: refusal 1, held 0, cost 0, count 0
segment: refusal 0, cost 0, count 4
8300010F
";

#[test]
fn example_in_c() {
    let package = Path::new(env!("CARGO_MANIFEST_DIR"));
    let root = package.join("../..");
    let program = Path::new(env!("CARGO_TARGET_TMPDIR")).join("example");
    let built = Command::new("cc")
        .args(["-std=c99", "-Wall", "-Wextra", "-pedantic", "-Werror", "-I"])
        .arg(root.join("include"))
        .arg(package.join("tests/example.c"))
        .arg(env!("LIBFINDER"))
        .arg("-o")
        .arg(&program)
        .status()
        .expect("cc runs");
    assert!(built.success());
    let output = Command::new(&program).output().expect("the program runs");
    assert!(output.status.success());
    assert_eq!(String::from_utf8_lossy(&output.stdout), EXPECTED);
}
