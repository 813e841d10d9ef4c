//! The examples are made again from their texts and compared byte for byte. The stored answer files equal those of the second program, which
//! shares no code with the library; the stored pictures have no such source and only show that nothing has moved.
mod common;
use common::{folder, hex, run_in, segment};
use std::fs;
use std::path::PathBuf;

const NAMES: [&str; 3] = ["belt", "pad", "board"];

fn examples() -> PathBuf {
    PathBuf::from(env!("CARGO_MANIFEST_DIR")).join("../../examples")
}

fn stored(name: &str) -> Vec<u8> {
    fs::read(examples().join(name)).expect("a stored file")
}

#[test]
fn made_again() {
    let folder = folder("examples");
    for name in NAMES {
        for ending in ["txt", "csv"] {
            fs::write(folder.join(format!("{name}.{ending}")), stored(&format!("{name}.{ending}"))).expect("file");
        }
        let [text, plan, answer, picture] = ["txt", "plan", "answer", "svg"].map(|ending| format!("{name}.{ending}"));
        for args in [
            vec!["make", &text, "-o", &plan],
            vec!["run", &plan, "-o", &answer],
            vec!["plot", &plan, "--answer", &answer, "--text", &text, "-o", &picture],
        ] {
            let done = run_in(&folder, &args, b"");
            assert_eq!((done.status, done.err.as_str()), (0, ""), "{args:?}");
        }
        for file in [&plan, &answer, &picture] {
            assert!(fs::read(folder.join(file)).expect("file") == stored(file), "{file} differs");
        }
    }
}

/// Which examples the program `segment` has words for is said in the README. An answer that it refuses is shown as such, with what to do.
#[test]
fn by_the_program() {
    assert_eq!(segment(&stored("belt.plan")), stored("belt.answer"));
    for name in ["pad", "board"] {
        let answer = segment(&stored(&format!("{name}.plan")));
        assert_eq!(answer, hex("83 0001 0E"), "{name}");
        let shown = run_in(&examples(), &["show"], &answer);
        assert!(shown.status == 1 && shown.text().contains("'yeldaski run'"), "{}", shown.text());
    }
}

/// The readings in the plan file are those of the CSV file, read here in another way.
#[test]
fn readings_are_those_of_the_csv_files() {
    for name in NAMES {
        let csv = String::from_utf8(stored(&format!("{name}.csv"))).expect("text");
        let numbers: Vec<i16> = csv.lines().filter_map(|line| line.rsplit([',', ';']).next()?.parse().ok()).collect();
        let bytes: Vec<u8> = numbers.iter().flat_map(|number| number.to_be_bytes()).collect();
        let plan = stored(&format!("{name}.plan"));
        assert!((60..=400).contains(&numbers.len()), "{name}");
        assert!(plan.ends_with(&bytes), "{name}");
    }
}

/// The tables in the README are what `show` writes.
#[test]
fn tables_in_the_readme() {
    let readme = String::from_utf8(stored("README.md")).expect("text");
    for name in NAMES {
        let done = run_in(&examples(), &["show", &format!("{name}.answer"), "--text", &format!("{name}.txt")], b"");
        assert_eq!(done.status, 0);
        assert!(readme.contains(&format!("```\n{}```", done.text())), "{name}: {}", done.text());
    }
}

fn part_of_the_readme(heading: &str) -> String {
    let readme = String::from_utf8(stored("../README.md")).expect("text");
    let (_, part) = readme.split_once(&format!("## {heading}\n")).expect("its part");
    part.split("\n## ").next().expect("its end").to_string()
}

/// The blocks of the README's part "Your own CSV" are a plan text, and two commands with what they show.
#[test]
fn first_steps_of_the_readme() {
    let readme = String::from_utf8(stored("../README.md")).expect("text");
    let part = readme
        .split("## Your own CSV")
        .nth(1)
        .expect("its part")
        .split("\n## ")
        .next()
        .expect("its end");
    let blocks: Vec<&str> = part.split("```\n").skip(1).step_by(2).collect();
    let [text, shown @ ..] = &blocks[..] else { panic!("no blocks") };
    assert_eq!(shown.len(), 2);
    let folder = folder("first_steps");
    fs::write(folder.join("belt.txt"), text).expect("file");
    fs::write(
        folder.join("monday.csv"),
        "time,current\n1,31\n2,30\n3,31\n4,42\n5,43\n6,42\n7,41\n8,42\n",
    )
    .expect("file");
    for block in shown {
        let (command, table) = block.split_once('\n').expect("a command and a table");
        let args: Vec<&str> = command.strip_prefix("$ yeldaski ").expect("a command").split(' ').collect();
        let done = run_in(&folder, &args, b"");
        assert_eq!((done.status, done.text().as_str()), (0, table), "{}", done.err);
    }
    assert!(folder.join("monday.svg").exists());
}

/// Every table and every line of bytes in the README's worked examples is what the command gives for the text above it.
#[test]
fn worked_examples_of_the_readme() {
    let part = part_of_the_readme("The files behind it");
    let blocks: Vec<&str> = part.split("```\n").skip(1).step_by(2).collect();
    let folder = folder("worked_examples");
    for text in blocks.iter().filter(|block| block.starts_with("grid ")) {
        fs::write(folder.join("t.txt"), text).expect("file");
        let done = run_in(&folder, &["find", "t.txt"], b"");
        assert!(blocks.contains(&done.text().as_str()), "{text}: {}", done.text());
        let answer = run_in(&folder, &["find", "t.txt", "--format", "answer"], b"").out;
        let plan = run_in(&folder, &["make", "t.txt"], b"").out;
        assert_eq!(segment(&plan), answer, "{text}");
        let digits = |bytes: &[u8]| bytes.iter().map(|byte| format!("{byte:02X}")).collect::<String>();
        // Words follow the bytes in a line after more blanks than stand between them.
        let bytes_of = |block: &&str| {
            block
                .lines()
                .map(|line| line.split("      ").next().unwrap_or("").replace(' ', ""))
                .collect::<String>()
        };
        assert!(blocks.iter().any(|block| bytes_of(block) == digits(&answer)), "{}", digits(&answer));
        // Of the second plan file the README names the fields that are new.
        let named: Vec<String> = part
            .split('`')
            .map(|word| word.replace(' ', ""))
            .filter(|word| word.starts_with("03") || word.starts_with("04"))
            .collect();
        let is_whole = blocks.iter().any(|block| bytes_of(block) == digits(&plan));
        assert!(
            is_whole || (named.len() == 2 && named.iter().all(|field| digits(&plan).contains(field))),
            "{}",
            digits(&plan)
        );
    }
    assert_eq!(blocks.iter().filter(|block| block.starts_with("grid ")).count(), 2);
}
