//! Answers as a table, as CSV and as JSON.
use crate::answer::{Answer, Run};
use crate::check::counted;
use crate::failure::{numbered, sentence};
use crate::outline::{in_line, Outline};
use crate::plan::{Edge, KINDS};

/// One answer to be shown: of which record (none for an answer file), and its runs or why there are none.
pub struct Item {
    pub record: Option<String>,
    pub answer: Answer,
    /// Why the answer is a refusal, where that is known.
    pub cause: Option<String>,
}

impl Item {
    /// The cause of a refusal where it is known, else the short sentence of its number; nothing for runs.
    pub fn sentence(&self) -> &str {
        match (&self.answer, &self.cause) {
            (Answer::Runs { .. }, _) => "",
            (_, Some(cause)) => cause,
            (Answer::Refused(refusal), None) => sentence(*refusal),
        }
    }
}

/// The cost and a line for each run, in columns.
pub fn table(item: &Item, outline: &Outline) -> String {
    let (cost, runs) = match &item.answer {
        Answer::Refused(refusal) => return format!("refusal {}: {}\n", refusal.0, in_line(item.sentence())),
        Answer::Runs { cost, runs } => (cost, runs),
    };
    let mut rows = vec![["run", "first", "last", "state", "level", "edge"].map(str::to_string)];
    for (index, run) in runs.iter().enumerate() {
        let [number, first, last] = [index + 1, run.first, run.last].map(|number| number.to_string());
        let edge = run.edge.map_or("start".to_string(), |edge| outline.edge_words(edge));
        rows.push([number, first, last, outline.word(run.state), run.level.to_string(), edge]);
    }
    let width = |column: usize| rows.iter().map(|row| row[column].chars().count()).max().unwrap_or(0);
    let [run, first, last, state, level] = [0, 1, 2, 3, 4].map(width);
    let mut shown = format!("cost {cost}\n\n");
    for [a, b, c, d, e, f] in &rows {
        shown += &format!("{a:>run$}  {b:>first$}  {c:>last$}  {d:<state$}  {e:>level$}  {f}\n");
    }
    shown
}

/// What CSV and JSON say of a run: the same names and values, in the same order.
const COLUMNS: [&str; 14] = [
    "run",
    "first",
    "last",
    "state",
    "state_name",
    "level",
    "edge",
    "from",
    "from_name",
    "to",
    "to_name",
    "kind",
    "gap",
    "penalty",
];

/// A value that CSV and JSON write each in its own way.
enum Value {
    Unknown,
    Number(i64),
    Text(String),
}

impl Value {
    fn number(number: Option<impl Into<i64>>) -> Value {
        number.map_or(Value::Unknown, |number| Value::Number(number.into()))
    }

    fn text(text: Option<&str>) -> Value {
        text.map_or(Value::Unknown, |text| Value::Text(text.to_string()))
    }

    fn csv(&self) -> String {
        match self {
            Value::Unknown => String::new(),
            Value::Number(number) => number.to_string(),
            Value::Text(text) => csv_cell(text),
        }
    }

    fn json(&self) -> String {
        match self {
            Value::Unknown => "null".to_string(),
            Value::Number(number) => number.to_string(),
            Value::Text(text) => json_text(text),
        }
    }
}

/// The values of a run under the names of COLUMNS. Numbers and names have columns of their own; a first run has no edge.
fn values(index: usize, run: &Run, outline: &Outline) -> [Value; 14] {
    let edge = run.edge.and_then(|number| outline.edge(number));
    let has_gap = |edge: &&Edge| edge.kind >= 2;
    [
        Value::Number(index as i64 + 1),
        Value::Number(run.first as i64),
        Value::Number(run.last as i64),
        Value::Number(run.state.into()),
        Value::text(outline.name(run.state)),
        Value::Number(run.level.into()),
        Value::number(run.edge),
        Value::number(edge.map(|edge| edge.from)),
        Value::text(edge.and_then(|edge| outline.name(edge.from))),
        Value::number(edge.map(|edge| edge.to)),
        Value::text(edge.and_then(|edge| outline.name(edge.to))),
        Value::text(edge.and_then(|edge| KINDS.get(usize::from(edge.kind)).copied())),
        Value::number(edge.filter(has_gap).map(|edge| edge.gap)),
        Value::number(edge.map(Edge::penalty)),
    ]
}

pub fn csv_header(with_record: bool) -> String {
    let record = if with_record { "record," } else { "" };
    format!("{record}{},total_cost,refusal,sentence\n", COLUMNS.join(","))
}

/// A row for each run, or one row for a refusal. The cost belongs to the whole record and so stands in every row, under a name that says so.
pub fn csv_rows(item: &Item, outline: &Outline, with_record: bool) -> String {
    let record = match with_record {
        true => csv_cell(item.record.as_deref().unwrap_or("")) + ",",
        false => String::new(),
    };
    match &item.answer {
        Answer::Refused(refusal) => {
            let empty = ",".repeat(COLUMNS.len() + 1);
            format!("{record}{empty}{},{}\n", refusal.0, csv_cell(item.sentence()))
        }
        Answer::Runs { cost, runs } => {
            let row = |(index, run): (usize, &Run)| {
                let cells = values(index, run, outline).map(|value| value.csv());
                format!("{record}{},{cost},,\n", cells.join(","))
            };
            runs.iter().enumerate().map(row).collect()
        }
    }
}

/// The row of a record that failed before a search, as one that cannot be read: its name and the message.
pub fn csv_failed(record: &str, message: &str) -> String {
    let empty = ",".repeat(COLUMNS.len() + 2);
    format!("{},{empty}{}\n", csv_cell(record), csv_cell(message))
}

/// A cell by RFC 4180: in quotation marks where it holds what would end it.
fn csv_cell(text: &str) -> String {
    match text.contains([',', '"', '\r', '\n']) {
        true => format!("\"{}\"", text.replace('"', "\"\"")),
        false => text.to_string(),
    }
}

/// One object, each of its lines indented by so many blanks, without a line end after it. A run stands in a line of its own.
pub fn json_object(item: &Item, outline: &Outline, indent: usize) -> String {
    let record = Value::text(item.record.as_deref()).json();
    let (cost, refusal, sentence, runs) = match &item.answer {
        Answer::Refused(refusal) => ("null".to_string(), refusal.0.to_string(), json_text(item.sentence()), &[][..]),
        Answer::Runs { cost, runs } => (cost.to_string(), "null".to_string(), "null".to_string(), &runs[..]),
    };
    let object = |(index, run): (usize, &Run)| {
        let pairs = COLUMNS.iter().zip(values(index, run, outline));
        let members: Vec<String> = pairs.map(|(name, value)| format!("\"{name}\": {}", value.json())).collect();
        format!("{{{}}}", members.join(", "))
    };
    let objects: Vec<String> = runs.iter().enumerate().map(object).collect();
    json_members([record, cost, refusal, sentence], &objects, indent)
}

/// The object of such a record.
pub fn json_failed(record: &str, message: &str, indent: usize) -> String {
    let null = || "null".to_string();
    json_members([json_text(record), null(), null(), json_text(message)], &[], indent)
}

fn json_members([record, cost, refusal, sentence]: [String; 4], runs: &[String], indent: usize) -> String {
    let blanks = " ".repeat(indent);
    let list = match runs {
        [] => "[]".to_string(),
        runs => format!("[\n{blanks}    {}\n{blanks}  ]", runs.join(&format!(",\n{blanks}    "))),
    };
    let members = [
        ("record", record),
        ("cost", cost),
        ("refusal", refusal),
        ("sentence", sentence),
        ("runs", list),
    ];
    let lines = members.map(|(name, value)| format!("{blanks}  \"{name}\": {value}"));
    format!("{blanks}{{\n{}\n{blanks}}}", lines.join(",\n"))
}

/// An object with the list `records`, as `find` writes one, with one record of these members.
pub fn json_one_record(members: &[(&str, String)]) -> String {
    let lines: Vec<String> = members.iter().map(|(name, value)| format!("      \"{name}\": {value}")).collect();
    format!("{{\n  \"records\": [\n    {{\n{}\n    }}\n  ]\n}}\n", lines.join(",\n"))
}

/// The members of a record's list, each in a line of its own.
pub fn json_list(objects: &[String]) -> String {
    match objects {
        [] => "[]".to_string(),
        objects => format!("[\n        {}\n      ]", objects.join(",\n        ")),
    }
}

/// A number, or null where there is none.
pub fn json_number(number: Option<impl ToString>) -> String {
    number.map_or("null".to_string(), |number| number.to_string())
}

pub fn json_text(text: &str) -> String {
    let escaped = |c: char| match c {
        '"' => "\\\"".to_string(),
        '\\' => "\\\\".to_string(),
        // Not all of these have to be escaped, but none of them should reach a terminal.
        c if c.is_control() => format!("\\u{:04x}", c as u32),
        c => c.to_string(),
    };
    format!("\"{}\"", text.chars().map(escaped).collect::<String>())
}

/// `cost 53, 2 runs`, or the cause of the refusal with its number.
pub fn summary(item: &Item) -> String {
    match &item.answer {
        Answer::Runs { cost, runs } => format!("cost {cost}, {}", counted(runs.len(), "run")),
        Answer::Refused(refusal) => numbered(item.sentence(), *refusal),
    }
}

#[cfg(test)]
mod tests {
    use super::*;
    use crate::outline::Known;
    use std::io::Write;
    use std::process::{Command, Stdio};
    use yeldaski::Refusal;

    /// What may disturb: control characters, quotation marks, backslashes, separators, letters of several bytes. Not U+0000, which some versions of
    /// python's csv refuse.
    fn names() -> Vec<String> {
        let control: String = (1..0x20).chain(0x7F..0xA0).filter_map(char::from_u32).collect();
        vec![
            "carriage\rreturn".to_string(),
            "line\r\nend\n".to_string(),
            "tab\there".to_string(),
            "\"quoted\"".to_string(),
            "back\\slash\\".to_string(),
            "a,b;c".to_string(),
            "\u{e4}\u{3b2}\u{4e2d}\u{1f980}\u{2028}".to_string(),
            control,
        ]
    }

    /// A run in each of the eight states; edge i leads from state i to the next with kind i of five.
    fn sample() -> (Item, Outline) {
        let edges: Vec<Edge> = (0..7).map(|i| sample_edge(i, i % 5)).collect();
        let runs = (0..8).map(|i| Run {
            first: usize::from(i) + 1,
            last: usize::from(i) + 1,
            state: i,
            level: -5,
            edge: i.checked_sub(1),
        });
        let answer = Answer::Runs {
            cost: u64::MAX,
            runs: runs.collect(),
        };
        let known = Known {
            source: "plan".to_string(),
            names: names(),
            edges,
        };
        let record = Some("r,1 \"a\"\r.csv".to_string());
        let item = Item { record, answer, cause: None };
        (item, Outline { plan: Some(known) })
    }

    fn sample_edge(from: u8, kind: u8) -> Edge {
        Edge {
            from,
            to: from + 1,
            kind,
            gap: if kind >= 2 { 1023 } else { 0 },
            class: 15,
        }
    }

    fn refusal(cause: Option<&str>) -> Item {
        Item {
            record: Some("two".to_string()),
            answer: Answer::Refused(Refusal(16)),
            cause: cause.map(str::to_string),
        }
    }

    /// Python's own modules read what is written here: parsers that know nothing of this program. They write the rows with every text in
    /// hexadecimal digits.
    fn python(format: &str, text: &str) -> String {
        const SCRIPT: &str = "import sys, csv, json, io\n\
            data = sys.stdin.buffer.read().decode('utf-8')\n\
            hexed = lambda cell: str(cell).encode('utf-8').hex()\n\
            if sys.argv[1] == 'csv':\n    \
                rows = list(csv.DictReader(io.StringIO(data, newline=''), strict=True))\n    \
                assert all(None not in row for row in rows)\n\
            else:\n    \
                rows = []\n    \
                for item in json.loads(data):\n        \
                    assert list(item) == ['record', 'cost', 'refusal', 'sentence', 'runs']\n        \
                    about = dict(total_cost=item['cost'], refusal=item['refusal'], sentence=item['sentence'])\n        \
                    rows += [dict(record=item['record'], **run, **about) for run in item['runs'] or [{}]]\n\
            for row in rows:\n    \
                print(' '.join(name + '=' + hexed(cell) for name, cell in row.items() if cell not in (None, '')))\n";
        let mut child = Command::new("python3")
            .args(["-c", SCRIPT, format])
            .stdin(Stdio::piped())
            .stdout(Stdio::piped())
            .spawn()
            .expect("python3 starts");
        let mut stdin = child.stdin.take().expect("stdin");
        stdin.write_all(text.as_bytes()).expect("python3 reads");
        drop(stdin);
        let output = child.wait_with_output().expect("python3 ends");
        assert!(output.status.success(), "python3 refuses the {format}: {text}");
        String::from_utf8(output.stdout).expect("digits").replace('\r', "")
    }

    fn hexed(text: &str) -> String {
        text.bytes().map(|byte| format!("{byte:02x}")).collect()
    }

    /// The rows that python should find, written down from the sample and not from what was exported.
    fn expected() -> String {
        let names = names();
        let row = |i: usize| {
            let mut cells = vec![("record", "r,1 \"a\"\r.csv".to_string())];
            let number = (i + 1).to_string();
            cells.extend(["run", "first", "last"].map(|name| (name, number.clone())));
            cells.extend([("state", i.to_string()), ("state_name", names[i].clone()), ("level", "-5".to_string())]);
            if i > 0 {
                let kind = ["stay", "any", "up", "down", "abs"][(i - 1) % 5];
                cells.extend([
                    ("edge", (i - 1).to_string()),
                    ("from", (i - 1).to_string()),
                    ("from_name", names[i - 1].clone()),
                ]);
                cells.extend([("to", i.to_string()), ("to_name", names[i].clone()), ("kind", kind.to_string())]);
                cells.extend((kind != "stay" && kind != "any").then(|| ("gap", "1023".to_string())));
                cells.push(("penalty", "50000".to_string()));
            }
            cells.push(("total_cost", u64::MAX.to_string()));
            line(&cells)
        };
        let refused = [("record", "two"), ("refusal", "16"), ("sentence", "a \"cause\", with\n all")].map(|(name, cell)| (name, cell.to_string()));
        (0..8).map(row).collect::<String>() + &line(&refused)
    }

    fn line(cells: &[(&str, String)]) -> String {
        let words: Vec<String> = cells.iter().map(|(name, cell)| format!("{name}={}", hexed(cell))).collect();
        words.join(" ") + "\n"
    }

    #[test]
    fn csv_by_another_parser() {
        let (item, outline) = sample();
        let refused = refusal(Some("a \"cause\", with\n all"));
        let csv = csv_header(true) + &csv_rows(&item, &outline, true) + &csv_rows(&refused, &outline, true);
        assert_eq!(python("csv", &csv), expected());
    }

    #[test]
    fn json_by_another_parser() {
        let (item, outline) = sample();
        let refused = refusal(Some("a \"cause\", with\n all"));
        let json = [item, refused].map(|item| json_object(&item, &outline, 2)).join(",\n");
        assert!(!json.contains(|c: char| c.is_control() && c != '\n'), "{json:?}");
        assert_eq!(python("json", &format!("[\n{json}\n]\n")), expected());
        assert_eq!(json_text("\0\u{7f}\u{80}\u{9f}\u{a0}"), "\"\\u0000\\u007f\\u0080\\u009f\u{a0}\"");
    }

    /// Every run has its line, and no control character is left in it.
    #[test]
    fn names_in_a_table() {
        let (item, outline) = sample();
        let shown = table(&item, &outline);
        assert_eq!(shown.lines().count(), 2 + 1 + 8);
        assert!(!shown.contains(|c: char| c.is_control() && c != '\n'), "{shown:?}");
        for words in [
            "  carriage\\rreturn  ",
            "  line\\r\\nend\\n  ",
            "  \"quoted\"  ",
            "  back\\slash\\  ",
            "  \u{e4}\u{3b2}\u{4e2d}\u{1f980}\\u{2028}  ",
            "0 (carriage\\rreturn -> line\\r\\nend\\n, stay)",
            "2 (tab\\there -> \"quoted\", up 1023)",
        ] {
            assert!(shown.contains(words), "{words}: {shown}");
        }
    }

    #[test]
    fn refusals() {
        let outline = Outline::default();
        assert_eq!(table(&refusal(None), &outline), "refusal 16: no segmentation is allowed by this plan\n");
        assert_eq!(table(&refusal(Some("why")), &outline), "refusal 16: why\n");
        assert_eq!(
            csv_rows(&refusal(None), &outline, false),
            ",,,,,,,,,,,,,,,16,no segmentation is allowed by this plan\n"
        );
        let json = "  {\n    \"record\": \"two\",\n    \"cost\": null,\n    \"refusal\": 16,\n    \"sentence\": \"why\",\n    \"runs\": []\n  }";
        assert_eq!(json_object(&refusal(Some("why")), &outline, 2), json);
        assert_eq!(
            [refusal(Some("why")), sample().0].map(|item| summary(&item)),
            ["why (refusal 16)".to_string(), format!("cost {}, 8 runs", u64::MAX)]
        );
    }
}
