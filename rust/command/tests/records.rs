//! Records in CSV files: what is read, what is refused, and where the message points to.
mod common;
use common::{folder, run_in, Done};
use std::fs;
use std::path::PathBuf;
use std::process::Command;

/// Runs `make` on a text whose readings come from a file with this content.
fn make(folder: &PathBuf, content: &[u8], source: &str, lines: &str) -> Done {
    let text = format!("grid 0 to 9\nstate a start end\nedge a -> a stay\nreadings from z.csv {source}\n{lines}\n");
    fs::write(folder.join("plan.txt"), text).expect("file");
    fs::write(folder.join("z.csv"), content).expect("file");
    run_in(folder, &["make", "plan.txt"], b"")
}

/// The readings in a plan file: the last field, after 7 bytes of grid, 6 of states and 9 of the edge.
fn readings(plan: &[u8]) -> Vec<i16> {
    assert_eq!(plan[22], 5);
    plan[25..].chunks(2).map(|pair| i16::from_be_bytes([pair[0], pair[1]])).collect()
}

fn check_good(test: &str, cases: &[(&str, &str, &str, &[i16])]) {
    let folder = folder(test);
    for (content, source, lines, due) in cases {
        let done = make(&folder, content.as_bytes(), source, lines);
        assert_eq!((done.status, done.messages().as_str()), (0, ""), "{content:?} {source} {lines}");
        assert_eq!(readings(&done.out), *due, "{content:?} {source} {lines}");
    }
}

/// Content, source, further lines, and what the message starts with and holds.
fn check_refused(test: &str, cases: &[(&str, &str, &str, &str, &str)]) {
    let folder = folder(test);
    for (content, source, lines, start, words) in cases {
        let done = make(&folder, content.as_bytes(), source, lines);
        assert_eq!((done.status, done.out.len()), (1, 0), "{content:?} {source} {lines}: {}", done.err);
        let good = done.err.starts_with(&format!("z.csv{start}")) && done.err.contains(words);
        assert!(good, "{content:?} {source} {lines}: {}", done.err);
    }
}

#[test]
fn quoted_cells() {
    check_good(
        "quoted_cells",
        &[
            ("current,note\n31,\"a\n42,b\"\n30,c", "column current", "", &[31, 30]),
            ("current,note\r\n31,\"a\r\n42,b\"\r\n30,c\r\n\r\n", "column current", "", &[31, 30]),
            ("note,current\n\"\n\n\",31\n\"#\n#\",30\n", "column current", "", &[31, 30]),
            ("\"31\"\n\"-30\"\r\n\"+29\"", "", "", &[31, -30, 29]),
            ("\"31\"\r", "", "", &[31]),
            ("\"say \"\"a,b\"\"\",n\n1,2\n", "column n", "", &[2]),
            ("\"\"\"\",n\n1,2\n", "column n", "", &[2]),
            ("\"a\nb\",n\n1,2\n", "column 2 header", "", &[2]),
            // The separators of the first record are in quotation marks, so they separate nothing.
            ("\"a;b\",n\n1,2\n", "column n", "", &[2]),
            ("\"a\tb;\nc;d\",n\n1,2\n", "column n", "", &[2]),
            ("\"a,b\";n\n\"1,5\";2\n", "column n", "", &[2]),
            (" 31 \n\t30\n\" 29 \"\n", "", "", &[31, 30, 29]),
            ("\"#\",n\n\"#1\",2\n", "column n", "", &[2]),
        ],
    );
}

#[test]
fn misplaced_quotation_marks() {
    let inside = "a quotation mark inside a cell";
    let advice = "put the whole cell in quotation marks and double the marks inside";
    let opened = "a quotation mark \" is opened but not closed";
    check_refused(
        "misplaced_marks",
        &[
            ("3\"1\n", "", "", &format!(":1: {inside}"), advice),
            ("30\n3\"\"1\n", "", "", &format!(":2: {inside}"), advice),
            ("31\"\n", "", "", &format!(":1: {inside}"), advice),
            (
                "a\n \"31\"\n",
                "column a",
                "",
                ":2: blanks stand between a quotation mark",
                "take them away",
            ),
            (
                "\"a\" ,b\n31,1\n",
                "column a",
                "",
                ":1: blanks stand between a quotation mark",
                "take them away",
            ),
            ("\"3\"1\n", "", "", &format!(":1: {inside}, with text after it"), advice),
            ("\"3\" ,1\n", "column 1", "", ":1: blanks stand between a quotation mark", ""),
            ("a,b\n\"x\ny\"z,1\n", "column b", "", &format!(":3: {inside}, with text after it"), advice),
            ("\"31\n", "", "", &format!(":1: {opened}"), ""),
            ("a,b\n1,\"x\ny\"\n2,\"z\n\n\n3,4\n", "column a", "", &format!(":4: {opened}"), ""),
            ("31\n\"", "", "", &format!(":2: {opened}"), ""),
            ("31\n30\"", "", "", &format!(":2: {inside}"), ""),
        ],
    );
}

/// Lines are counted over the whole file: comments, and line breaks inside cells.
#[test]
fn lines_in_messages() {
    check_refused(
        "lines_in_messages",
        &[
            (
                "# a\n# \"b\na,b\n\"x\n\ny\",1\nz,w\n",
                "column b",
                "",
                ":7: expected a reading",
                "found 'w'",
            ),
            ("31\n# a\n\n30\n", "", "", ":3: expected a reading, but the line is empty", ""),
            ("31\n \t \n30\n", "", "", ":2: expected a reading, but the line is empty", ""),
            ("\n31\n", "", "", ":1: expected a reading, but the line is empty", ""),
            (
                "\na\n31\n",
                "column a",
                "",
                ":1: expected the names of the columns, but the line is empty",
                "",
            ),
            ("", "column a", "", ": the file is empty", ""),
            ("# only a comment\n\n", "header", "", ": the file is empty", ""),
        ],
    );
}

/// In a file with columns a line that begins with '#' may be data, and dropping it would lose a reading.
#[test]
fn comments() {
    check_good(
        "comments",
        &[
            ("# a, b\n#\n31\n# c\n30\n#", "", "", &[31, 30]),
            ("# a; b\ncurrent\n# c\n31\n", "header", "", &[31]),
            ("# a\n# b\n\nn,m\n\"#1\",31\n2,30\n", "column m", "", &[31, 30]),
            ("31\n\n# the end\n\n", "", "", &[31]),
            // A preamble is no record where it has no number in the column.
            ("# logger 2, line 7\n# started, 2024\ntime,current\n1,31\n", "column current", "", &[31]),
            ("# logger 2, line 7\ntime,current\n1,31\n", "column 2 header", "", &[31]),
            ("# rate,10\ntime,current\n1,31\n", "column 2 header", "", &[31]),
            ("#time,current\n1,31\n2,30\n", "column 2", "", &[31, 30]),
        ],
    );
    check_refused(
        "comments_refused",
        &[
            (
                "a,b\n1,2\n# c\n3,4\n",
                "column a",
                "",
                ":3: a line that begins with '#' may be a comment or data",
                "",
            ),
            (
                "2,30\n#x,31\n",
                "column 2",
                "",
                ":2: a line that begins with '#' may be a comment or data",
                "",
            ),
            (
                "#\"day\",\"current\"\n1,31\n2,30\n",
                "column 2 header",
                "",
                ":1: a line that begins with '#'",
                "",
            ),
            (
                "# day current\n1,31\n2,30\n",
                "column 2 header",
                "",
                ":1: a line that begins with '#'",
                "",
            ),
            ("#1,31,\n2,30\n", "column 2", "", ":1: a line that begins with '#'", ""),
            // Above the first record a comment that has the form of a record may be the header or a reading.
            (
                "# a\n#x,31\n2,30\n",
                "column 2",
                "",
                ":2: a line that begins with '#'",
                "take the '#' away",
            ),
            (
                "#time,current\n0,31\n1,30\n",
                "column 2 header",
                "",
                ":1: a line that begins with '#'",
                "",
            ),
            (
                "#time,current\n0,31\n1,30\n",
                "column current",
                "",
                ":2: expected a column named",
                "line 1 has it, but begins with '#'",
            ),
            ("# current\n31\n30\n", "header", "", ":1: a line that begins with '#'", ""),
        ],
    );
}

/// Every record has as many cells as the first one: a cut line and a decimal comma show in their number.
#[test]
fn cells_of_a_record() {
    check_good(
        "as_many_cells",
        &[
            ("time,current\n1,31,\n2,30,,\n", "column current", "", &[31, 30]),
            ("time,current,\n1,31,\n2,30,\n", "column current", "", &[31, 30]),
            ("1,31,\n2,30,a\n", "column 2", "", &[31, 30]),
            (",current\n1,31\n2,30\n", "column current", "", &[31, 30]),
        ],
    );
    check_refused(
        "other_cells",
        &[
            (
                "time,current,temp\n1,31,20\n2,30,21\n3,4",
                "column current",
                "",
                ":4: expected 3 columns as in line 1, found 2",
                "is the line cut?",
            ),
            (
                "time,current,\n1,31,5,\n",
                "column current",
                "",
                ":2: expected 2 columns as in line 1, found 4",
                "if a comma is a decimal sign here",
            ),
            (
                "a title\ntime,current\n1,31\n",
                "column 2 header",
                "",
                ":2: expected 1 columns as in line 1, found 2",
                "begin it with '#'",
            ),
        ],
    );
}

/// More that a wrong number of cells can mean.
#[test]
fn cells_of_other_numbers() {
    let comma = "if a comma is a decimal sign here";
    check_refused(
        "other_numbers",
        &[
            (
                "day,current,\n1,31,5\n2,30,5\n",
                "column current",
                "",
                ":2: expected 2 columns as in line 1, found 3",
                comma,
            ),
            ("1,31\n,2,\n", "column 2", "", ":2: expected 2 columns as in line 1, found 3", ""),
            (
                "current\n31,5\n31,9\n",
                "column current",
                "",
                ":2: expected one number a line",
                "the lines 'decimal comma' and 'scale 10'",
            ),
            (
                "current\n31,5\n31,9\n",
                "column 1 header",
                "",
                ":2: expected one number a line",
                "the lines 'decimal comma' and 'scale 10'",
            ),
            (
                "t,c\n1,\"31,5\"\n",
                "column c",
                "",
                ":2: expected a reading",
                "with a decimal comma, columns have to be separated by semicolons",
            ),
            ("31\n30\n\n# note\r42\r43\n", "", "", ":4: a line end here is neither LF nor CRLF", ""),
        ],
    );
}

/// A first line that may be names or a reading is asked about, unless the text has said it.
#[test]
fn names_or_readings() {
    let ask = "may be a reading or the name of its column; say 'header' or 'no-header'";
    check_refused(
        "names_or_readings",
        &[
            (",0\n0,31\n1,30\n", "column 2", "", ":1: ", ask),
            ("time,1,2\n0,31,50\n", "column 2", "", ":1: ", ask),
        ],
    );
    check_good(
        "names_and_readings",
        &[
            (",0\n0,31\n1,30\n", "column 2 header", "", &[31, 30]),
            (",0\n0,31\n1,30\n", "column \"0\"", "", &[31, 30]),
            ("a,31\nb,30\n", "column 2", "", &[31, 30]),
            ("0\n31\n", "column 1", "", &[0, 31]),
        ],
    );
}

/// Another line end than LF or CRLF joins two lines, of which one would be lost.
#[test]
fn other_line_ends() {
    let message = "a line end here is neither LF nor CRLF";
    check_refused(
        "other_line_ends",
        &[
            ("31,40\r30,41\r31,40\r", "column 1", "", ":1: ", message),
            ("31\r30\r42\r", "", "", ":1: ", message),
            ("# logger\r31\n30\n42\n", "", "", ":1: ", message),
            ("31\n# logger\u{2028}30\n42\n", "", "", ":2: ", message),
            ("\"day\"\r\"1\"\r", "column day", "", ":1: ", message),
        ],
    );
    check_good(
        "usual_line_ends",
        &[("31\r\n30\r", "", "", &[31, 30]), ("a,b\r\n\"x\ry\",31\r\n", "column b", "", &[31])],
    );
}

#[test]
fn columns_and_headers() {
    check_good(
        "columns_and_headers",
        &[
            ("time,2024\n1,31\n2,30\n", "column \"2024\"", "", &[31, 30]),
            ("time,2024\n1,31\n2,30\n", "column 2 no-header", "", &[2024, 31, 30]),
            ("noon,31\n13:00,30\n", "column 2", "", &[31, 30]),
            ("time,2024\n1,31\n2,30\n", "column 2 header", "", &[31, 30]),
            ("time,2024\n1,31\n2,30\n", "header column 2", "", &[31, 30]),
            ("time,2024\n1,31\n2,30\n", "column \"2024\" header", "", &[31, 30]),
            ("a,a\n1,31\n2,30\n", "column 2 header", "", &[31, 30]),
            ("current\n31\n30\n", "header", "", &[31, 30]),
            ("current\n31\n30\n", "column current", "", &[31, 30]),
            ("\"column\";header\n1;31\n", "column \"header\"", "", &[31]),
            ("+1,b\n31,2\n", "column +1", "", &[31]),
        ],
    );
}

#[test]
fn columns_that_are_not_there() {
    let hint = "add 'header' (or --header), or choose the column by its name";
    check_refused(
        "columns_refused",
        &[
            ("current\n31\n", "", "", ":1: expected a reading", hint),
            ("a,b\n1,2\n", "column 2", "", ":1: expected a reading", hint),
            (
                "a,b\n1,2\n",
                "header",
                "",
                ":1: expected one number a line, found 2 columns",
                "'column NAME'",
            ),
            (
                "a,b,a\n1,2,3\n",
                "column a",
                "",
                ":1: the first line names 2 columns 'a' (1, 3)",
                "'column NUMBER header'",
            ),
            ("a,b\n1,2\n", "column \"1\"", "", ":1: expected a column named '1'", "found 'a', 'b'"),
            ("a,b\n1,2\n", "column 3 header", "", ":2: expected at least 3 columns, found 2", ""),
            (
                "time,current\n1,31,5\n",
                "column current",
                "",
                ":2: expected 2 columns as in line 1, found 3",
                "",
            ),
            ("1,31\n2,31,5\n", "column 2", "", ":2: expected 2 columns as in line 1, found 3", ""),
        ],
    );
}

#[test]
fn hints_about_columns() {
    let folder = folder("columns_hint");
    // Where the first line is a number, or was said to be a header, it is not taken for names.
    for (content, source) in [("31.5\n", ""), ("40000\n", ""), ("a\nb\n", "header"), ("a,b\nc,1\n", "column a")] {
        let done = make(&folder, content.as_bytes(), source, "");
        assert!(done.status == 1 && !done.err.contains("'header'"), "{content:?}: {}", done.err);
    }
    for number in ["0", "00", "99999999999999999999999"] {
        let done = make(&folder, b"1\n", &format!("column {number}"), "");
        let start = format!("plan.txt:4: expected a column's name, or its number counted from 1, found '{number}'");
        assert!(done.status == 1 && done.err.starts_with(&start), "{}", done.err);
    }
}

/// `31,5` is one number or two columns. The message says how to choose.
#[test]
fn decimal_commas_refused() {
    let either = "if '31,5' is one number with a decimal comma, add the lines 'decimal comma' and 'scale 10' to the plan text \
                  (readings are then times 10, so grid and gaps have to be given times 10, penalties times 100); if it is two columns, choose one with 'column 1' or 'column 2'";
    check_refused(
        "decimal_commas_refused",
        &[
            ("31,5\n30,0\n", "", "", ":1: expected one number a line, found 2 columns", either),
            (
                "31\n-31,5\n+30,25\n",
                "",
                "",
                ":2: expected one number",
                "'scale 100' to the plan text (readings are then times 100",
            ),
            ("a\n31,5\n", "header", "", ":2: expected one number", either),
            (
                "a,5\n",
                "",
                "",
                ":1: expected one number",
                "choose one with 'column NAME' or 'column NUMBER'",
            ),
            (
                "31,-5\n",
                "",
                "",
                ":1: expected one number",
                "choose one with 'column NAME' or 'column NUMBER'",
            ),
            (
                "31;5\n",
                "",
                "",
                ":1: expected one number",
                "choose one with 'column NAME' or 'column NUMBER'",
            ),
            (
                "1,2,3\n",
                "",
                "",
                ":1: expected one number",
                "found 3 columns; if a comma is a decimal sign here, have the record written with decimal points",
            ),
            ("\"31,5\"\n", "", "", ":1: expected a reading", "the lines 'decimal comma' and 'scale 10'"),
            (
                "a;b\n1;31,5\n",
                "column b",
                "",
                ":2: expected a reading",
                "the lines 'decimal comma' and 'scale 10'",
            ),
            (
                "31,5\n",
                "",
                "decimal comma",
                ":1: expected a reading",
                "the line 'scale 10' to the plan text",
            ),
            (
                "31,5\n31.5\n",
                "",
                "decimal comma\nscale 10",
                ":2: expected a reading",
                "a point is no decimal sign",
            ),
            (
                "a,b\n1,2\n",
                "column a",
                "decimal comma",
                ":1: expected a column named 'a'",
                "with 'decimal comma' semicolons or tabs separate columns",
            ),
            (
                "\"31,5\",\"a\"\n",
                "column 1",
                "decimal comma",
                ":1: a quotation mark",
                "semicolons or tabs separate columns",
            ),
        ],
    );
}

/// What the messages of the test above advise.
#[test]
fn decimal_commas() {
    check_good(
        "decimal_commas",
        &[
            ("31,5\n30,0\n", "", "decimal comma\nscale 10", &[315, 300]),
            ("31\n-31,5\n+30,25\n", "", "decimal comma\nscale 100", &[3100, -3150, 3025]),
            ("31,5\n30,0\n", "column 1", "", &[31, 30]),
            ("31,5\n30,0\n", "column 2", "", &[5, 0]),
            ("a\n31,5\n", "header", "scale 10\ndecimal comma", &[315]),
            ("\"31,5\"\n", "", "decimal comma\nscale 10", &[315]),
            ("a;b\n1;31,5\n", "column b", "decimal comma\nscale 10", &[315]),
            ("a\tb\n1\t31,5\n", "column 2 header", "decimal comma\nscale 10", &[315]),
            ("31\n30\n", "", "decimal comma", &[31, 30]),
        ],
    );
}

#[test]
fn scales() {
    check_good(
        "scales",
        &[
            ("3.15\n3.2\n-0.0\n3\n1e1\n", "", "scale 100", &[315, 320, 0, 300, 1000]),
            ("t,c\n1,0.25\n2,-8191.75\n", "column c", "scale 4", &[1, -32767]),
            ("3276.7\n-3276.8\n", "", "scale 10", &[32767, -32768]),
            ("31.0\n3e1\n", "", "scale 1", &[31, 30]),
        ],
    );
    let long = format!("{}.5\n", "9".repeat(500));
    check_refused(
        "scales_refused",
        &[
            ("31.5\n", "", "", ":1: expected a reading, a whole number", "'scale 10' to the plan text"),
            ("31.0\n", "", "", ":1: expected a reading, a whole number", "'scale 1' to the plan text"),
            (
                "31\n3e1\n",
                "",
                "",
                ":2: expected a reading, a whole number",
                "'scale 1' to the plan text",
            ),
            (
                "31.5\n31.55\n",
                "",
                "scale 10",
                ":2: 31.55 times 10 is not whole; 'scale 100' would do",
                "",
            ),
            ("4000.5\n", "", "scale 10", ":1: 4000.5 times 10 is 40005, above 32767", ""),
            ("-3276.9\n", "", "scale 10", ":1: -3276.9 times 10 is -32769, below -32768", ""),
            (
                "x\n",
                "",
                "scale 10",
                ":1: expected a reading, a number such as 31.5, found 'x'",
                "add 'header'",
            ),
            (&long, "", "scale 10", ":1: 9999", "... times 10 is above 32767\n"),
        ],
    );
}

/// A wrong guess would change the names, so nothing is guessed.
#[test]
fn other_encodings() {
    let folder = folder("other_encodings");
    let content = "zeit,stromst\u{e4}rke\n1,31\n";
    let latin: Vec<u8> = content.chars().map(|c| c as u8).collect();
    let late = [b"zeit,note\n1,\"a\nb\"\n2,".to_vec(), latin.clone()].concat();
    for (bytes, line) in [(latin, 1), (late, 4)] {
        for source in ["column 2 header", "column \"stromst\u{fffd}rke\"", "column zeit"] {
            let done = make(&folder, &bytes, source, "");
            let message = format!("z.csv:{line}: not UTF-8 (byte 0xE4); save the file as UTF-8\n");
            assert_eq!((done.status, done.err), (1, message));
        }
    }
    let little: Vec<u8> = content.encode_utf16().flat_map(u16::to_le_bytes).collect();
    let big: Vec<u8> = content.encode_utf16().flat_map(u16::to_be_bytes).collect();
    for bytes in [&little, &big, &[&[0xFF, 0xFE], &little[..]].concat(), &[&[0xFE, 0xFF], &big[..]].concat()] {
        let done = make(&folder, bytes, "column 2 header", "");
        let message = "z.csv:1: this is UTF-16, not UTF-8; save the file as UTF-8\n";
        assert_eq!((done.status, done.err.as_str()), (1, message));
    }
    let done = make(&folder, format!("\u{feff}{content}").as_bytes(), "column stromst\u{e4}rke", "");
    assert_eq!((done.status, readings(&done.out)), (0, vec![31]));
}

/// Writes files with Python's csv module, with everything in the other cells that needs quotation marks, and prints how it reads them again.
const PYTHON: &str = r##"
import csv, random, sys
pieces = ['"', '""', '\n', '\r\n', ',', ';', '\t', '#', ' ', 'a', '\u00e9', '7', "'"]
text = lambda: ''.join(random.choice(pieces) for _ in range(random.randrange(6)))
for seed in range(int(sys.argv[1])):
    random.seed(seed)
    form = {'delimiter': ',;\t'[seed % 3], 'lineterminator': ['\n', '\r\n'][seed // 3 % 2]}
    rows = [['x' + text(), 'current', 'y' + text()]]
    rows += [['x' + text(), str(random.randint(-32768, 32767)), 'y' + text()] for _ in range(40)]
    with open(f'{seed}.csv', 'w', newline='', encoding='utf-8') as file:
        # The names are all in quotation marks, since a name with another separator would be ambiguous without.
        csv.writer(file, quoting=csv.QUOTE_ALL, **form).writerow(rows[0])
        csv.writer(file, quoting=[csv.QUOTE_MINIMAL, csv.QUOTE_ALL][seed // 6 % 2], **form).writerows(rows[1:])
    with open(f'{seed}.csv', newline='', encoding='utf-8') as file:
        again = list(csv.reader(file, delimiter=form['delimiter'], strict=True))
    assert again == rows
    print(' '.join(row[1] for row in again[1:]))
"##;

/// The readings are those that Python's csv module reads from the same files.
#[test]
fn same_as_python() {
    const FILES: usize = 60;
    let folder = folder("same_as_python");
    let output = Command::new("python3")
        .args(["-c", PYTHON, &FILES.to_string()])
        .current_dir(&folder)
        .output()
        .expect("python3 has to be there for this test");
    assert!(output.status.success(), "{}", String::from_utf8_lossy(&output.stderr));
    let printed = String::from_utf8(output.stdout).expect("text");
    assert_eq!(printed.lines().count(), FILES);
    let mut breaks = 0;
    for (seed, line) in printed.lines().enumerate() {
        let due: Vec<i16> = line.split_whitespace().map(|word| word.parse().expect("a reading")).collect();
        let content = fs::read(folder.join(format!("{seed}.csv"))).expect("file");
        breaks += content.iter().filter(|byte| **byte == b'\n').count() - 41;
        for source in ["column current", "column 2 header"] {
            let done = make(&folder, &content, source, "");
            assert_eq!((done.status, done.messages().as_str()), (0, ""), "file {seed}, {source}");
            assert_eq!((readings(&done.out), due.len()), (due.clone(), 40), "file {seed}, {source}");
        }
    }
    assert!(breaks > 500, "{breaks} line breaks inside cells");
}
