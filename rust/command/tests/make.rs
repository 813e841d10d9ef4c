//! `make`: bytes worked out by hand from the table of fields, and messages with line numbers.
mod common;
use common::{folder, hex, run, run_in, PAPER_ANSWER, PAPER_PLAN};
use std::fs;

const PAPER_TEXT: &str = "grid 0 to 9\nstate only start end\nedge only -> only stay\nedge only -> only any penalty 10\nreadings 3 4\n";

fn made(text: &str) -> Vec<u8> {
    let done = run(&["make"], text.as_bytes());
    assert_eq!((done.status, done.err.as_str()), (0, ""), "{text}");
    done.out
}

#[test]
fn example_of_the_paper() {
    assert_eq!(made(PAPER_TEXT), hex(PAPER_PLAN));
}

#[test]
fn every_kind_of_field() {
    let text = "
        # two states, negative grid
        grid -300 to -2            # lo FED4, hi FFFE
        state \"brand new\" start  # bit 0 of the start mask
        state worn start end
        edge \"brand new\"->worn up 5 penalty 50000
        edge worn -> \"brand new\" down 1023 class 9
        edge worn -> worn abs 258 penalty 0
        edge worn -> worn any class 0
        edge worn -> worn stay
        label 1 to 2 changes 0
        label 2 to 258 changes 1
        label 258 to 300 changes 7
        label 300 to 301 one up
        label 301 to 4096 one down
        readings -1 32767
        readings -32768
    ";
    let bytes = "01 0004 FED4 FFFE  02 0003 02 03 02
        03 0006 00 01 02 0005 0F  03 0006 01 00 03 03FF 09  03 0006 01 01 04 0102 00  03 0006 01 01 01 0000 00  03 0006 01 01 00 0000 00
        04 0005 0001 0002 00  04 0005 0002 0102 01  04 0005 0102 012C 07  04 0005 012C 012D 08  04 0005 012D 1000 09
        05 0006 FFFF 7FFF 8000";
    let done = run(&["make"], text.as_bytes());
    assert_eq!((done.status, done.out), (0, hex(bytes)));
    let warnings: Vec<&str> = done.err.lines().collect();
    let asked = [
        "readings 2 to 258, 1 change",
        "readings 258 to 300, 7 changes",
        "readings 300 to 301, one up",
        "readings 301 to 4096, one down",
    ];
    for (index, asked) in asked.iter().enumerate() {
        let words = format!("the label ({asked}) goes on after the last reading, 3, so a search will be refused (refusal 13)");
        assert_eq!(warnings[index], format!("standard input:{}: warning: {words}", 12 + index));
    }
}

#[test]
fn all_penalties_by_value_and_class() {
    let penalties = [0, 1, 2, 5, 10, 20, 50, 100, 200, 500, 1000, 2000, 5000, 10000, 20000, 50000];
    for (class, penalty) in penalties.iter().enumerate() {
        let by_value = made(&PAPER_TEXT.replace("penalty 10", &format!("penalty {penalty}")));
        assert_eq!(by_value[30], class as u8);
        assert_eq!(by_value, made(&PAPER_TEXT.replace("penalty 10", &format!("class {class}"))));
    }
}

#[test]
fn readings_from_files() {
    let folder = folder("readings_from_files");
    let files = [
        ("plain.csv", "3\n4\n", ""),
        ("crlf.csv", "# a comment\r\n3\r\n4\r\n\r\n", ""),
        ("named.csv", "time,\"motor, current\"\n1,3\n2,4\n", " column \"motor, current\""),
        ("mark.csv", "\u{feff}a;b\n3;1\n4;2\n", " column a"),
        ("commas.csv", "volt;amp\n1,5;3\n1,6;4\n", " column amp"),
        ("tabs.csv", "x\t3\ny\t 4 \n", " column 2"),
    ];
    for (name, content, column) in files {
        fs::write(folder.join(name), content).expect("file");
        let text = PAPER_TEXT.replace("readings 3 4", &format!("readings from {name}{column}"));
        fs::write(folder.join("plan.txt"), text).expect("file");
        let done = run_in(&folder, &["make", "plan.txt", "-o", "made.plan"], b"");
        assert_eq!((done.status, done.err.as_str()), (0, ""), "{name}");
        assert_eq!(fs::read(folder.join("made.plan")).expect("plan"), hex(PAPER_PLAN), "{name}");
    }
}

#[test]
fn readings_are_looked_for_beside_the_text() {
    let folder = folder("beside");
    fs::create_dir(folder.join("inner")).expect("folder");
    fs::write(folder.join("inner/z.csv"), "3\n4\n").expect("file");
    fs::write(folder.join("inner/plan.txt"), PAPER_TEXT.replace("readings 3 4", "readings from z.csv")).expect("file");
    assert_eq!(run_in(&folder, &["make", "inner/plan.txt"], b"").out, hex(PAPER_PLAN));
}

#[test]
fn readings_from_standard_input() {
    let folder = folder("standard_input");
    fs::create_dir(folder.join("inner")).expect("folder");
    let text = PAPER_TEXT.replace("readings 3 4", "readings from - column b");
    fs::write(folder.join("inner/plan.txt"), &text).expect("file");
    assert_eq!(run_in(&folder, &["make", "inner/plan.txt"], b"a,b\n1,3\n2,4\n").out, hex(PAPER_PLAN));
    fs::write(folder.join("twice.txt"), text.clone() + "readings from -\n").expect("file");
    for done in [run_in(&folder, &["make", "twice.txt"], b""), run_in(&folder, &["make"], text.as_bytes())] {
        assert_eq!(done.status, 2);
        assert!(done.err.contains("standard input is asked for twice"), "{}", done.err);
    }
}

/// Status, the line that the message must name, and words that must stand in it.
fn refused(text: &str, line: usize, words: &str) {
    let done = run(&["make"], text.as_bytes());
    assert_eq!((done.status, done.out.len()), (1, 0), "{text}");
    assert!(done.err.starts_with(&format!("standard input:{line}: ")), "{text}: {}", done.err);
    assert!(done.err.contains(words), "{text}: {}", done.err);
}

#[test]
fn errors_in_the_text() {
    let cases = [
        ("grid 0 to 9", "grid 0 9", 1, "expected 'to', found '9'"),
        ("grid 0 to 9", "grid 0 to", 1, "but the line ends"),
        ("grid 0 to 9", "grid 0 to 40000", 1, "from -32768 to 32767, found '40000'"),
        ("grid 0 to 9", "gird 0 to 9", 1, "scale, decimal, found 'gird'; did you mean 'grid'?"),
        ("readings 3 4", "readings 3\"1\" 4", 5, "a quotation mark inside a word"),
        ("state only", "state \"on\"ly", 2, "a quotation mark inside a word"),
        ("only stay", "only stay # a\redge only -> only up 1 penalty 1", 3, "neither LF nor CRLF"),
        ("only stay", "only stay\redge only -> only up 1 penalty 1", 3, "neither LF nor CRLF"),
        ("only stay", "only stay # a\u{2028}readings 5", 3, "neither LF nor CRLF"),
        ("start end", "start edn", 2, "expected 'start', 'end'"),
        ("start end", "start end\nstate only", 3, "given twice, first in line 2"),
        ("only stay", "other stay", 3, "('only'), found 'other'"),
        ("-> only stay", "only stay", 3, "expected '->'"),
        ("stay", "hover", 3, "a kind (stay, any, up, down, abs), found 'hover'"),
        ("stay", "up", 3, "the gap as a whole number from 0 to 1023"),
        ("stay", "up 70000 penalty 5", 3, "from 0 to 1023, found '70000'"),
        ("penalty 10", "penalty 11", 4, "one of the sixteen penalties (0, 1, 2, 5, 10,"),
        (" penalty 10", "", 4, "'penalty N' or 'class N'"),
        ("penalty 10", "penalty 10 10", 4, "expected the end of the line, found '10'"),
        ("readings 3 4", "readings 3 4.5", 5, "found '4.5'"),
        ("readings 3 4", "readings from z.csv column 0", 5, "counted from 1"),
        ("only start", "\"only start", 2, "not closed"),
    ];
    for (old, new, line, words) in cases {
        refused(&PAPER_TEXT.replacen(old, new, 1), line, words);
    }
}

/// The paper text with a label in its line 5.
fn with_label(words: &str) -> String {
    PAPER_TEXT.replace("readings", &format!("label 1 to 2 {words}\nreadings"))
}

/// What a label may ask for, in the file's numbers: 0 to 7 changes, 8 one up, 9 one down.
#[test]
fn labels() {
    let numbers = (0..=7).map(|count| (count, format!("changes {count}")));
    for (c, words) in numbers.chain([(8, "one up".to_string()), (9, "one down".to_string())]) {
        let file = made(&with_label(&words));
        assert_eq!(file[31..39], hex(&format!("04 0005 0001 0002 {c:02X}")), "{words}");
    }
}

#[test]
fn errors_in_a_label() {
    let asked = "expected 'changes', 'one up' or 'one down'";
    let kind = "expected 'up' or 'down' after 'one'";
    let count = "expected the number of changes as a whole number from 0 to 7";
    let end = "expected the end of the line";
    let form = "'label P to Q changes N', 'label P to Q one up' or 'label P to Q one down'";
    for (words, what) in [("", asked), ("one", kind), ("changes", count)] {
        refused(&with_label(words), 5, &format!("5: {what}, but the line ends; it should read {form}\n"));
    }
    for (words, what, found) in [
        ("change 1", asked, "'change'"),
        ("up", asked, "'up'"),
        ("8", asked, "'8'"),
        ("One up", asked, "'One'"),
        ("\"one\" up", asked, "'one' in quotation marks"),
        ("one change", kind, "'change'"),
        ("one \"up\"", kind, "'up' in quotation marks"),
        ("one up 6", end, "'6'"),
        ("one up down", end, "'down'"),
        ("changes 1 one up", end, "'one'"),
        ("changes up", count, "'up'"),
        ("changes -1", count, "'-1'"),
        ("changes 1.0", count, "'1.0'"),
        ("changes 8", count, "'8'"),
        ("changes 9", count, "'9'"),
        ("changes 10", count, "'10'"),
        ("changes 256", count, "'256'"),
    ] {
        refused(&with_label(words), 5, &format!("5: {what}, found {found}; the line should read {form}\n"));
    }
}

#[test]
fn missing_statements() {
    for statement in ["grid", "state", "readings"] {
        let kept: Vec<&str> = PAPER_TEXT
            .lines()
            .filter(|line| !line.starts_with(statement) && !line.starts_with("edge"))
            .collect();
        let done = run(&["make"], kept.join("\n").as_bytes());
        assert_eq!(done.status, 1);
        assert!(done.err.contains(&format!("no line '{statement}'")), "{}", done.err);
    }
}

/// The numbers are those that the paper gives for the field; each stands with the line that made it.
#[test]
fn refusals_of_the_reader() {
    let long = |count: usize| format!("readings {}", "1 ".repeat(count));
    let edges: String = (0..33).map(|i| format!("edge only -> only up {i} penalty 0\n")).collect();
    let states: String = (0..9).map(|i| format!("state s{i} start end\n")).collect();
    let labels: String = (1..66).map(|i| format!("label {i} to {} changes 0\n", i + 1)).collect();
    let cases = [
        ("grid 0 to 9", "grid 9 to 0", 1, "(refusal 4)\n"),
        ("grid 0 to 9", "grid 0 to 1024", 1, "(refusal 4)\n"),
        ("start end", "start", 2, "(refusal 5)\n"),
        ("start end", "end", 2, "no state is marked 'start'"),
        ("start end\n", &format!("start end\n{states}"), 10, "(refusal 5)\n"),
        ("stay", "stay 5", 3, "(refusal 6)\n"),
        ("stay", "up 1024 penalty 5", 3, "(refusal 6)\n"),
        ("stay", "up 2000 penalty 5", 3, "3: the gap 2000 is above 1023 (refusal 6)\n"),
        ("penalty 10", "class 16", 4, "(refusal 6)\n"),
        ("edge only -> only any penalty 10", &edges, 5, "(refusal 7)\n"),
        ("any penalty 10", "stay penalty 10", 4, "line 3 has these two states"),
        ("readings", "label 0 to 2 changes 1\nreadings", 5, "(refusal 8)\n"),
        ("readings", "label 2 to 2 one up\nreadings", 5, "(refusal 8)\n"),
        ("readings", "label 2 to 4097 changes 7\nreadings", 5, "(refusal 8)\n"),
        ("readings", &format!("{labels}readings"), 69, "(refusal 10)\n"),
        (
            "readings",
            "label 1 to 3 changes 2\nlabel 2 to 4 one down\nreadings",
            6,
            "6: it (readings 2 to 4, one down) starts before the label before it (readings 1 to 3, 2 changes) ends (refusal 12)\n",
        ),
        (
            "readings 3 4",
            &long(4097),
            5,
            "5: 4097 readings, at most 4096: split the record into parts of at most 4096 readings; each is searched by itself",
        ),
        ("readings 3 4", &long(40000), 5, "5: 40000 readings, at most 4096"),
        // Twice this number is 2 more than a length field can hold.
        ("readings 3 4", &long(32769), 5, "5: 32769 readings, at most 4096"),
    ];
    for (old, new, line, words) in cases {
        refused(&PAPER_TEXT.replacen(old, new, 1), line, words);
    }
    assert_eq!(
        made(&PAPER_TEXT.replacen("readings 3 4", &long(4096), 1)).len(),
        7 + 6 + 9 + 9 + 3 + 2 * 4096
    );
}

#[test]
fn edge_33() {
    let states: String = (0..8).map(|i| format!("state s{i} start end\n")).collect();
    let edge = |i: usize| format!("edge s{} -> s{} stay\n", i / 8, i % 8);
    let text = |count: usize| format!("grid 0 to 9\n{states}{}readings 1\n", (0..count).map(edge).collect::<String>());
    assert_eq!(made(&text(32)).len(), 7 + 6 + 32 * 9 + 5);
    refused(&text(33), 42, "(refusal 10)\n");
}

#[test]
fn errors_in_a_csv_file() {
    let folder = folder("csv_errors");
    let cases = [
        ("a,b\n1,2\nx,4\n", "column a", "z.csv:3: expected a reading", "found 'x'"),
        (
            "a,b\n1,2\n3\n",
            "column b",
            "z.csv:3: expected 2 columns as in line 1, found 1",
            "is the line cut?",
        ),
        ("a,b\n1,2\n", "column c", "z.csv:1: expected a column named 'c'", "'a', 'b'"),
        ("a,b\n1,2\n", "column 1", "z.csv:1: expected a reading", "choose the column by its name"),
        ("1,2\n", "", "z.csv:1: expected one number a line, found 2 columns", ""),
        ("1\n\n2\n", "", "z.csv:2: expected a reading, but the line is empty", ""),
        ("1\n32768\n", "", "z.csv:2: expected a reading", "found '32768'"),
        ("a\n", "column a", "plan.txt:5: there are no readings", "(refusal 9)"),
    ];
    for (content, column, start, words) in cases {
        fs::write(folder.join("z.csv"), content).expect("file");
        fs::write(folder.join("plan.txt"), PAPER_TEXT.replace("3 4", &format!("from z.csv {column}"))).expect("file");
        let done = run_in(&folder, &["make", "plan.txt"], b"");
        assert_eq!((done.status, done.out.len()), (1, 0), "{content}");
        assert!(done.err.starts_with(start) && done.err.contains(words), "{content}: {}", done.err);
    }
    fs::remove_file(folder.join("z.csv")).expect("file");
    let done = run_in(&folder, &["make", "plan.txt"], b"");
    assert_eq!(done.status, 2);
    assert!(done.err.starts_with("plan.txt:5: cannot read 'z.csv'"), "{}", done.err);
}

#[test]
fn other_files_are_no_texts() {
    let plan = "; this looks like a plan file, which is made already\n";
    let answer = "; this looks like an answer file\n";
    let cases = [
        // A plan file whose bytes are UTF-8, and one whose bytes are not.
        (hex(PAPER_PLAN), "1: expected a plan text in UTF-8, found other bytes", plan),
        (hex(&PAPER_PLAN.replace("0003 0004", "0A03 FFFE")), "1: expected a plan text", plan),
        (hex(PAPER_ANSWER), "1: expected a plan text", answer),
        (b"grid 0 to 9\nstate a\0\n".to_vec(), "2: expected a plan text", "found other bytes\n"),
        (b"\x1f\x8b\x08".to_vec(), "1: not UTF-8 (byte 0x8B)", "; save the file as UTF-8\n"),
    ];
    for (file, start, end) in cases {
        let done = run(&["make"], &file);
        assert_eq!((done.status, done.out.len()), (1, 0), "{}", done.err);
        let start = format!("standard input:{start}");
        assert!(done.err.starts_with(&start) && done.err.ends_with(end), "{}", done.err);
    }
}

/// Latin-1 names would become other names, and UTF-16 is no sequence of lines at all.
#[test]
fn texts_in_other_encodings() {
    let text = PAPER_TEXT.replace("only", "caf\u{e9}");
    assert_eq!(made(&format!("\u{feff}{text}")), hex(PAPER_PLAN));
    let latin: Vec<u8> = text.chars().map(|c| c as u8).collect();
    let message = "standard input:2: not UTF-8 (byte 0xE9); save the file as UTF-8\n";
    assert_eq!(run(&["make"], &latin).err, message);
    let little: Vec<u8> = text.encode_utf16().flat_map(u16::to_le_bytes).collect();
    let big: Vec<u8> = text.encode_utf16().flat_map(u16::to_be_bytes).collect();
    for bytes in [&little, &big, &[&[0xFF, 0xFE], &little[..]].concat(), &[&[0xFE, 0xFF], &big[..]].concat()] {
        let done = run(&["make"], bytes);
        let message = "standard input:1: this is UTF-16, not UTF-8; save the file as UTF-8\n";
        assert_eq!((done.status, done.err.as_str()), (1, message));
    }
}

/// What stands in quotation marks is a name, whatever it reads like; what does not may be a keyword.
#[test]
fn names_and_keywords() {
    for name in [
        "a#b",
        "\"a b\"",
        "\"#\"",
        "\"->\"",
        "start",
        "\"start\"",
        "\"end\"",
        "stay",
        "a-b",
        "\"2024\"",
    ] {
        let text = PAPER_TEXT.replace("only", name).replace("4\n", "4 # the rest is # a comment\n#\n");
        assert_eq!(made(&text), hex(PAPER_PLAN), "{name}");
    }
    // Both states are there, so that 'a#b' is not 'a' with a comment after it.
    let two = "grid 0 to 9\nstate a start end\nstate a#b start end\nedge a#b -> a stay\nreadings 3\n";
    assert_eq!(made(two)[13..22], hex("03 0006 01 00 00 0000 00"));
    let cases = [
        ("state only", "state \"\"", 2, "a state needs a name"),
        ("state only", "state ->", 2, "expected the state's name, found '->'"),
        ("state only", "state # only", 2, "expected the state's name, but the line ends"),
        ("only start", "only \"start\"", 2, "found 'start' in quotation marks"),
        ("-> only stay", "\"->\" only stay", 3, "expected '->', found '->' in quotation marks"),
        ("only stay", "only \"stay\"", 3, "found 'stay' in quotation marks"),
        ("grid", "\"grid\"", 1, "found 'grid' in quotation marks"),
        ("readings 3", "readings \"from\" 3", 5, "expected a reading"),
        ("readings", "reading", 5, "found 'reading'; did you mean 'readings'?"),
        ("readings", "draw", 5, "found 'draw'\n"),
    ];
    for (old, new, line, words) in cases {
        refused(&PAPER_TEXT.replacen(old, new, 1), line, words);
    }
}

#[test]
fn scaled_readings_in_the_text() {
    for readings in [
        "scale 100\nreadings 0.03 0.04",
        "readings 0.03 4e-2\nscale 100",
        "readings 0.030\nscale 100\nreadings +0.04",
        // The comma is for files; the text itself keeps the point.
        "decimal comma\nreadings 0.03 0.04\nscale 100",
        "scale 1\nreadings 3.0 4",
        "scale 1000000\nreadings 0.000003 4e-6",
    ] {
        assert_eq!(made(&PAPER_TEXT.replace("readings 3 4", readings)), hex(PAPER_PLAN), "{readings}");
    }
    let cases = [
        ("readings 3 4.5", 5, "found '4.5'; for decimals add the line 'scale 10' to the plan text"),
        ("readings 31.0", 5, "add the line 'scale 1' to the plan text"),
        ("readings 3,5 4", 5, "a point is the decimal sign"),
        ("readings 3, 4", 5, "blanks stand between readings"),
        ("readings form z.csv", 5, "found 'form'; the line should read 'readings N N ...'"),
        ("readings 31.55\nscale 10", 5, "31.55 times 10 is not whole; 'scale 100' would do"),
        ("scale 10\nreadings 1 4000.5", 6, "4000.5 times 10 is 40005, above 32767"),
        ("scale 10\nreadings -4e3", 6, "-4e3 times 10 is -40000, below -32768"),
        ("scale 10\nreadings 3,5", 6, "a point is the decimal sign"),
        ("scale 0", 5, "the scale as a whole number from 1 to 1000000, found '0'"),
        ("scale 1000001", 5, "from 1 to 1000000"),
        ("scale 1.5", 5, "from 1 to 1000000"),
        ("scale", 5, "but the line ends"),
        ("scale 1 2", 5, "expected the end of the line, found '2'"),
        ("scale 1\nscale 1", 6, "the scale is given twice, first in line 5"),
        ("decimal", 5, "expected 'comma', but the line ends"),
        ("decimal point", 5, "expected 'comma', found 'point'"),
        ("decimal comma\ndecimal comma", 6, "'decimal comma' is given twice, first in line 5"),
        (
            "readings from z.csv header header",
            5,
            "expected 'column', 'header', 'no-header' or the end of the line",
        ),
        ("readings from z.csv column a column b", 5, "or the end of the line, found 'column'"),
        ("readings from z.csv column a no-header", 5, "by name needs a header"),
        ("readings from z.csv column", 5, "a column's name or number, but the line ends"),
    ];
    for (readings, line, words) in cases {
        refused(&PAPER_TEXT.replace("readings 3 4", readings), line, words);
    }
}

/// A text without readings is a good text for 'show' and 'plot', which need names only, but no plan.
#[test]
fn texts_without_readings() {
    let folder = folder("without_readings");
    let text = PAPER_TEXT.replace("readings 3 4\n", "");
    fs::write(folder.join("plan.txt"), text).expect("file");
    fs::write(folder.join("z.answer"), hex(PAPER_ANSWER)).expect("file");
    let shown = run_in(&folder, &["show", "z.answer", "--text", "plan.txt"], b"");
    assert_eq!(shown.status, 0);
    assert!(shown.err.contains("since the text has no readings"), "{}", shown.err);
    assert!(shown.text().contains("only"), "{}", shown.text());
    let done = run_in(&folder, &["make", "plan.txt"], b"");
    assert_eq!(done.status, 1);
    assert!(
        done.err
            .starts_with("plan.txt: the text has no line 'readings'; expected 'readings N N ...'"),
        "{}",
        done.err
    );
}
