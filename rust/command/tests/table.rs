//! `table`: the least cost for each number of changes.
mod common;
use common::cost_lists::{self, Case, A, BELT, DAY, SORTS, WRONG};
use common::cost_lists::{from_input, json, lines, picture, put_sorts, put_wrong, refuses, refuses_outputs, rough};
use common::{program, put, python, run_in, Done, Folder};
use std::fs;
use std::path::PathBuf;
use std::process::Command;

/// The pad of the README without penalties.
const PAD: &str = "grid 20 to 39\nstate tight start end\nstate leaking end\nedge tight -> tight stay\nedge leaking -> leaking stay\n\
                   edge tight -> leaking up 3 penalty 0\nedge leaking -> tight down 3 penalty 0\nreadings 22 23 22 26 27 22 22 23\n";

fn start(test: &str) -> Folder {
    cost_lists::start(&format!("table_{test}"), &[("pad.txt", PAD), ("day.csv", DAY)])
}

fn table(folder: &PathBuf, args: &[&str]) -> Done {
    run_in(folder, &[&["table"], args].concat(), b"")
}

fn shown(folder: &PathBuf, args: &[&str]) -> String {
    cost_lists::shown(folder, "table", args)
}

/// The costs from CSV, whatever is said beside; steps and the mark have to agree with them.
fn costs(folder: &PathBuf, args: &[&str]) -> Vec<Option<u64>> {
    let done = table(folder, &[args, &["--format", "csv"]].concat());
    assert_eq!(done.status, 0, "{args:?}: {}", done.err);
    let csv = done.text();
    let mut lines = csv.lines();
    assert_eq!(lines.next(), Some("changes,cost,step,least"));
    let rows: Vec<Vec<&str>> = lines.map(|line| line.split(',').collect()).collect();
    let costs: Vec<Option<u64>> = rows.iter().map(|row| row[1].parse().ok()).collect();
    let least = costs.iter().flatten().min();
    let first = costs.iter().position(|cost| cost.is_some() && cost.as_ref() == least);
    let mut before: Option<u64> = None;
    for (changes, row) in rows.iter().enumerate() {
        let step = before.and_then(|before| Some((costs[changes]? as i64 - before as i64).to_string()));
        let mark = if first == Some(changes) { "1" } else { "0" };
        assert_eq!(
            (row[0], row[2], row[3]),
            (&*changes.to_string(), &*step.unwrap_or_default(), mark),
            "{csv}"
        );
        before = costs[changes].or(before);
    }
    costs
}

/// The costs of one allowed number of changes after the other, with -1 for none.
fn some(costs: &[i64]) -> Vec<Option<u64>> {
    costs.iter().map(|cost| u64::try_from(*cost).ok()).collect()
}

/// The examples of the ticket and others, worked out by the second program.
#[test]
fn the_examples() {
    let folder = start("examples");
    for (name, label) in [("one.txt", "label 2 to 3 changes 1\n"), ("three.txt", "label 1 to 4 changes 3\n")] {
        put(&folder, name, &format!("{A}{label}"));
    }
    for (args, expected) in [
        (["a.txt", "--changes", "0"], &[9][..]),
        (["a.txt", "--changes", "4"], &[9, 3, 3, 3, -1]),
        (["one.txt", "--changes", "4"], &[-1, 10, 3, 3, -1]),
        (["three.txt", "--changes", "3"], &[-1, -1, -1, 3]),
        (["three.txt", "--changes", "1"], &[-1, -1]),
        (["b.txt", "--changes", "4"], &[16, -1, 1, -1, -1]),
        (["b_end.txt", "--changes", "4"], &[-1, 12, -1, 10, -1]),
        (["pad.txt", "--changes", "7"], &[29, 28, 3, 5, 5, 7, 13, 37]),
    ] {
        assert_eq!(costs(&folder, &args), some(expected), "{args:?}");
    }
    put(&folder, "short.csv", "3\n");
    let done = table(&folder, &["b_end.txt", "short.csv"]);
    let words = "short.csv: no segmentation ends in a state in which a record may end (refusal 16)\n";
    assert_eq!((done.status, done.out.len(), done.err.as_str()), (1, 0, words));
}

/// A label over the whole record asks for exactly so many changes, and `find` then gives the cost of that line.
#[test]
fn each_line_as_a_search_with_a_label() {
    let folder = start("label_each");
    put(&folder, "long.csv", &lines(&rough(300, 30)));
    let found = costs(&folder, &["belt.txt", "long.csv", "--changes", "7"]);
    assert!(found.iter().all(Option::is_some), "{found:?}");
    for (changes, cost) in found.into_iter().flatten().enumerate() {
        put(&folder, "asked.txt", &format!("{BELT}label 1 to 300 changes {changes}\n"));
        let answer = run_in(&folder, &["find", "asked.txt", "long.csv"], b"").text();
        assert!(answer.starts_with(&format!("cost {cost}\n")), "{changes} changes, {cost}: {answer}");
    }
}

/// The plan as a text or as a plan file, the record as everything that `find` reads, and K said or left out.
#[test]
fn every_sort_of_plan_and_record() {
    let folder = start("sorts");
    put_sorts(&folder);
    put(&folder, "12", DAY);
    let own: [&[&str]; 5] = [
        &["b.txt", "--changes", "3"],
        &["b.plan", "--changes", "03"],
        &["bare.txt", "12"],
        &["b.plan", "day.csv", "--changes", "3"],
        &["tenths.txt", "tenths.csv", "--changes", "3"],
    ];
    for args in SORTS.into_iter().chain(own) {
        assert_eq!(costs(&folder, args), some(&[16, -1, 1, -1]), "{args:?}");
    }
    assert_eq!(costs(&folder, &["b.txt", "a.plan"]), some(&[9, -1, 10, -1]));
    let csv = "changes,cost,step,least\n0,16,,1\n1,,,0\n";
    from_input(&folder, "table", &["--changes=1", "--format=csv"], csv);
}

/// A line for each number of changes, readable, with none in words and a mark at the least cost.
#[test]
fn the_table() {
    let folder = start("table");
    let whole = "0 to 4 changes in 4 readings: least cost 3 with 1 change\n\nchanges  cost  step\n      0     9\n      1     3    -6  least\n      \
                 2     3     0\n      3     3     0\n      4  none\n";
    assert_eq!(shown(&folder, &["a.txt", "--changes", "4"]), whole);
    assert_eq!(shown(&folder, &["a.txt", "--changes", "4", "--format", "table", "-o", "out"]), "");
    assert_eq!(fs::read_to_string(folder.join("out")).expect("file"), whole);
    // The step leads over the lines without a cost.
    let pairs = "0 to 3 changes in 4 readings: least cost 1 with 2 changes\n\nchanges  cost  step\n      0    16\n      1  none\n      \
                 2     1   -15  least\n      3  none\n";
    assert_eq!(shown(&folder, &["b.txt"]), pairs);
    put(&folder, "dear.txt", &A.replace("penalty 1", "penalty 10"));
    let rising = "0 to 3 changes in 4 readings: least cost 9 with 0 changes\n\nchanges  cost  step\n      0     9        least\n      \
                  1    12    +3\n      2    21    +9\n      3    30    +9\n";
    assert_eq!(shown(&folder, &["dear.txt"]), rising);
}

/// Without K as many changes as the record has boundaries, and no more than 32.
#[test]
fn without_a_k() {
    let folder = start("default");
    for (readings, count) in [(1, 1), (2, 2), (32, 32), (33, 33), (34, 33), (200, 33)] {
        put(&folder, "record.csv", &lines(&rough(readings, 30)));
        assert_eq!(costs(&folder, &["belt.txt", "record.csv"]).len(), count, "{readings} readings");
    }
    assert_eq!(costs(&folder, &["a.txt"]), some(&[9, 3, 3, 3]));
    // More than there can be are asked for.
    assert_eq!(costs(&folder, &["a.txt", "--changes", "32"])[4..], [None; 29]);
}

/// The line that is marked has the cost and the number of changes of the answer, also where several lines cost the same.
#[test]
fn the_least_is_the_answer() {
    let folder = start("answer");
    let mut tied = 0;
    for number in 0..24 {
        let (kind, penalty) = (["any", "up 0", "abs 1"][number / 3 % 3], number % 3);
        let text = format!("grid 0 to 4\nstate s start end\nedge s -> s {kind} penalty {penalty}\nedge s -> s stay\n");
        put(&folder, "ties.txt", &text);
        let readings: Vec<i16> = rough(40, 4)[number..number + 12].to_vec();
        put(&folder, "ties.csv", &lines(&readings));
        let found = costs(&folder, &["ties.txt", "ties.csv"]);
        let least = found.iter().flatten().min().expect("a cost");
        let first = found.iter().position(|cost| cost.as_ref() == Some(least)).expect("a line");
        tied += u32::from(found.iter().flatten().filter(|cost| *cost == least).count() > 1);
        let answer = run_in(&folder, &["find", "ties.txt", "ties.csv"], b"").text();
        // After the cost, an empty line and the names of the columns: one run more than changes.
        let head = format!("cost {least}\n");
        assert!(
            answer.starts_with(&head) && answer.lines().count() == 3 + first + 1,
            "{found:?} {readings:?} {answer}"
        );
    }
    assert!(tied > 5, "{tied}");
}

/// What the table does not show is said: that more changes cost less.
#[test]
fn cheaper_with_more_changes() {
    let folder = start("more");
    put(&folder, "three.txt", &format!("{A}label 1 to 4 changes 3\n"));
    for (args, note) in [
        (
            ["a.txt", "--changes", "0"],
            "a.txt: the answer of a search has 1 change, more than the table, and costs 3\n",
        ),
        (["a.txt", "--changes", "1"], ""),
        (
            ["b.txt", "--changes", "1"],
            "b.txt: the answer of a search has 2 changes, more than the table, and costs 1\n",
        ),
        (["b.txt", "--changes", "2"], ""),
        (
            ["three.txt", "--changes", "2"],
            "three.txt: the answer of a search has 3 changes, more than the table, and costs 3\n",
        ),
    ] {
        for format in ["table", "csv", "json"] {
            let done = table(&folder, &[&args[..], &["--format", format]].concat());
            assert_eq!((done.status, done.err.as_str()), (0, note), "{args:?}");
        }
    }
    let none = table(&folder, &["three.txt", "--changes", "1"]).text();
    assert!(
        none.starts_with("0 to 1 changes in 4 readings: no allowed segmentation has so few\n"),
        "{none}"
    );
}

#[test]
fn numbers_of_changes_that_are_refused() {
    let folder = start("refused");
    for k in ["33", "34", "100", "4294967296", "18446744073709551615"] {
        let done = table(&folder, &["a.txt", "--changes", k]);
        let words = format!("a.txt: a table for {k} changes: choose --changes from 0 to 32 (refusal 20)\n");
        assert_eq!((done.status, done.out.len(), done.err), (1, 0, words));
    }
    assert_eq!(costs(&folder, &["a.txt", "--changes", "32"]).len(), 33);
    for k in ["x", "2.5", "-1", "", " 3", "99999999999999999999999"] {
        let done = table(&folder, &["a.txt", &format!("--changes={k}")]);
        let words = format!("yeldaski: table: --changes: expected a whole number from 0 to 32, found '{k}'\n");
        assert_eq!((done.status, done.out.len(), done.err), (2, 0, words));
    }
}

/// 9 before 13 before 20, as one call over the whole record has them, each at its place and with its cause.
#[test]
fn records_and_labels_that_are_refused() {
    let folder = start("order");
    put(&folder, "long.csv", &"3\n".repeat(4097));
    put(&folder, "none.csv", "");
    put(&folder, "late.txt", &format!("{A}label 2 to 9 changes 1\n"));
    put(&folder, "hard.txt", &format!("{A}label 1 to 3 changes 0\nlabel 3 to 4 one up\n"));
    for name in ["late", "hard"] {
        let make = ["make", &format!("{name}.txt"), "-o", &format!("{name}.plan")];
        assert_eq!(run_in(&folder, &make, b"").status, 0);
    }
    let late = "label 1 (readings 2 to 9, 1 change) goes on after the last reading, 4";
    let hard = "label 2 (readings 3 to 4, one up) cannot hold: no edge has the kind up";
    for (args, words) in [
        (
            &["late.txt", "long.csv", "--changes", "33"][..],
            "long.csv: 4097 readings, at most 4096: split the record".to_string(),
        ),
        (
            &["late.txt", "none.csv", "--changes", "33"],
            "none.csv: there are no readings, at least 1 is due (refusal 9)\n".to_string(),
        ),
        (
            &["late.txt", "--changes", "33"],
            format!("late.txt: {late}; see late.txt:6 (refusal 13)\n"),
        ),
        (&["late.plan"], format!("late.plan: {late} (refusal 13)\n")),
        (
            &["hard.txt", "--changes", "33"],
            "hard.txt: a table for 33 changes: choose --changes from 0 to 32 (refusal 20)\n".to_string(),
        ),
        (
            &["hard.txt", "--changes", "2"],
            format!("hard.txt: {hard}; see hard.txt:7 (refusal 16)\n"),
        ),
        (&["hard.plan"], format!("hard.plan: {hard} (refusal 16)\n")),
    ] {
        let done = table(&folder, args);
        let said: String = done
            .err
            .lines()
            .filter(|line| !line.contains("its labels"))
            .map(|line| format!("{line}\n"))
            .collect();
        assert_eq!((done.status, done.out.len()), (1, 0), "{args:?}: {}", done.err);
        assert!(said.starts_with(&words), "{args:?}: {said}");
    }
}

/// The labels of a plan hold for another record too, which is said, and can be left out.
#[test]
fn labels() {
    let folder = start("labels");
    put(&folder, "label.txt", &format!("{A}label 2 to 3 changes 1\n"));
    put(
        &folder,
        "bare.txt",
        &fs::read_to_string(folder.join("label.txt"))
            .expect("text")
            .replace("readings 2 1 0 4\n", ""),
    );
    put(&folder, "toy.csv", "2\n1\n0\n4\n");
    assert_eq!(run_in(&folder, &["make", "label.txt", "-o", "label.plan"], b"").status, 0);
    for plan in ["label.txt", "label.plan"] {
        assert_eq!(
            shown(&folder, &[plan, "--format", "csv"]),
            "changes,cost,step,least\n0,,,0\n1,10,,0\n2,3,-7,1\n3,3,0,0\n"
        );
        for args in [&[plan, "--no-labels"][..], &[plan, "toy.csv", "--no-labels"]] {
            assert_eq!(
                shown(&folder, &[args, &["--format", "csv"]].concat()),
                "changes,cost,step,least\n0,9,,0\n1,3,-6,1\n2,3,0,0\n3,3,0,0\n"
            );
        }
        let done = table(&folder, &[plan, "toy.csv"]);
        let note = format!("{plan}: its labels (1) hold for the record here; --no-labels leaves them out\n");
        assert_eq!((done.status, done.err), (0, note));
    }
    shown(&folder, &["bare.txt", "toy.csv"]);
}

#[test]
fn plans_and_records_that_are_wrong() {
    let folder = start("wrong");
    put_wrong(&folder, 20);
    put(&folder, "far.csv", "1\n500\n500\n");
    refuses(|args| table(&folder, args), &WRONG);
    refuses(
        |args| table(&folder, args),
        &[
            (&["belt.txt"], 1, "no record is named: yeldaski table PLAN RECORD [--changes K]"),
            (&["b.txt", "day.csv", "3"], 2, "2 words at most"),
            (&[], 2, "table: a plan is missing"),
        ],
    );
    assert_eq!(run_in(&folder, &["make", "b.txt", "-o", "b.plan"], b"").status, 0);
    let done = table(&folder, &["b.plan", "half.csv"]);
    assert!(
        done.status == 1 && done.err.ends_with("name the plan text in its place\n"),
        "{}",
        done.err
    );
    let done = table(&folder, &["b.txt", "far.csv"]);
    let warning = "far.csv: warning: 2 of 3 readings lie outside the grid 0 to 6";
    assert!(done.status == 0 && done.err.starts_with(warning), "{}", done.err);
    // An answer file may hold the number; 'check' and 'show' say what it means.
    for command in ["check", "show"] {
        let done = run_in(&folder, &[command, "an.answer"], b"");
        assert!(done.text().contains("a table has at most 32 changes"), "{}", done.text());
    }
}

/// Python reads what was written.
#[test]
fn csv_and_json() {
    let folder = start("exports");
    let script = "print(r['record'], r['readings'], r['most'], r['refusal'], (r['sentence'] or '')[:18], r['cost'], r['least'])\n\
                  print([(x['changes'], x['cost'], x['step']) for x in r['table']])";
    let names = "['record', 'readings', 'most', 'refusal', 'sentence', 'cost', 'least', 'table']\n";
    let cases: [Case; 5] = [
        (
            &["b.txt", "d,\"1.csv", "--changes", "2"],
            0,
            "d,\"1.csv 4 2 None  1 2\n[(0, 16, None), (1, None, None), (2, 1, -15)]\n",
        ),
        (&["b_end.txt", "--changes", "0"], 0, "b_end.txt 4 0 None  10 None\n[(0, None, None)]\n"),
        (&["b.txt", "--changes", "33"], 1, "b.txt 4 33 20 a table for 33 cha None None\n[]\n"),
        (&["b.txt", "bad.csv"], 1, "bad.csv None None None bad.csv:2: expecte None None\n[]\n"),
        (
            &["b.txt", "bad.csv", "--changes", "5"],
            1,
            "bad.csv None 5 None bad.csv:2: expecte None None\n[]\n",
        ),
    ];
    json(&folder, |args| table(&folder, args), script, names, &cases);
    let csv = shown(&folder, &["b.txt", "--changes", "2", "--format", "csv"]);
    let script = "import csv,sys\nfor r in csv.DictReader(sys.stdin, strict=True): print(list(r.values()))";
    assert_eq!(
        python(script, csv.as_bytes()),
        "['0', '16', '', '0']\n['1', '', '', '0']\n['2', '1', '-15', '1']\n"
    );
}

/// The lines and the dots: at which part of the width, and how high up, each stands.
const PICTURE: &str = "
paths = [e for e in root.iter(name + 'path') if e.get('stroke-linecap')]
points = lambda d: [tuple(map(float, pair.split())) for pair in d[1:].split('L')]
lines = [points(e.get('d')) for e in paths if e.get('stroke-linejoin')]
dots = [(points(e.get('d')[:-2])[0], e.find(name + 'title').text) for e in paths if not e.get('stroke-linejoin')]
for (a, b), _ in dots: assert x <= a <= x + w and y <= b < y + h - 2, 'on the frame or beyond it'
mark = [e for e in root.iter(name + 'path') if e.get('d').endswith('z')]
numbers = [(round((float(e.get('x')) - x) / w, 3), e.text) for e in root.iter(name + 'text') if e.get('text-anchor') == 'middle' and e.text.isdigit()]
print([round((a - x) / w, 3) for (a, _), _ in dots])
print([title for _, title in dots])
print([len(line) for line in lines], all(p in [d for d, _ in dots] for line in lines for p in line))
print([e.find(name + 'title').text for e in mark])
print(numbers)
print(root.find(name + 'title').text)
print([e.text for e in root.iter(name + 'text')][-2:])
heights = [b for (_, b), _ in dots]
costs = [int(t.split()[-1]) for _, t in dots]
assert all((a < b) == (c > d) and (a == b) == (c == d) for a, c in zip(heights, costs) for b, d in zip(heights, costs)), 'not by cost'
";

fn drawn(folder: &PathBuf, args: &[&str]) -> String {
    let done = table(folder, &[args, &["--plot", "p.svg"]].concat());
    assert_eq!(done.status, 0, "{}", done.err);
    picture(folder, PICTURE)
}

/// A dot for each cost, a line between neighbours, a gap where there is none, a mark at the least.
#[test]
fn pictures() {
    let folder = start("pictures");
    assert_eq!(
        drawn(&folder, &["a.txt", "--changes", "4"]),
        "[0.1, 0.3, 0.5, 0.7]\n['0 changes, cost 9', '1 change, cost 3', '2 changes, cost 3', '3 changes, cost 3']\n[4] True\n\
         ['least: 1 change, cost 3']\n[(0.1, '0'), (0.3, '1'), (0.5, '2'), (0.7, '3'), (0.9, '4')]\n\
         0 to 4 changes in 4 readings: least cost 3 with 1 change\n['changes', 'cost']\n"
    );
    // Two dots with gaps about them, and no line.
    let said = drawn(&folder, &["b.txt", "--title", "An arm", "--unit", "A"]);
    assert!(said.starts_with("[0.125, 0.625]\n['0 changes, cost 16', '2 changes, cost 1']\n[] True\n['least: 2 changes, cost 1']\n"));
    assert!(said.ends_with("An arm\n['changes', 'cost (A²)']\n"), "{said}");
    // A gap between two lines: one change leads to an end, or three, of which the last may be followed by one more.
    let ways = [("s", "t"), ("s", "u"), ("u", "v"), ("v", "w"), ("w", "x")];
    let ways = ways.map(|(from, to)| format!("edge {from} -> {to} up 0 penalty 1\n")).concat();
    let states = "state s start end\nstate t end\nstate u\nstate v\nstate w end\nstate x end\n";
    let stays: String = ["s", "t", "w", "x"].map(|state| format!("edge {state} -> {state} stay\n")).concat();
    put(&folder, "gap.txt", &format!("grid 0 to 6\n{states}{stays}{ways}readings 0 1 2 3 4 5\n"));
    let said = drawn(&folder, &["gap.txt"]);
    assert!(said.starts_with("[0.083, 0.25, 0.583, 0.75]\n"), "{said}");
    assert_eq!(said.lines().nth(2), Some("[2, 2] True"), "{said}");
    // One number of changes, and none at all.
    let said = drawn(&folder, &["a.txt", "--changes", "0"]);
    assert!(
        said.starts_with("[0.5]\n['0 changes, cost 9']\n[] True\n['least: 0 changes, cost 9']\n[(0.5, '0')]\n"),
        "{said}"
    );
    put(&folder, "three.txt", &format!("{A}label 1 to 4 changes 3\n"));
    let said = drawn(&folder, &["three.txt", "--changes", "1"]);
    let none = "[]\n[]\n[] True\n[]\n[(0.25, '0'), (0.75, '1')]\n0 to 1 changes in 4 readings: no allowed segmentation has so few\n";
    assert!(said.starts_with(none), "{said}");
    // Costs are squares of readings that were multiplied by the scale.
    put(&folder, "tenths.txt", &A.replace("readings 2 1 0 4", "scale 10\nreadings 0.2 0.1 0 0.4"));
    assert!(drawn(&folder, &["tenths.txt", "--unit", "A"]).ends_with("'cost × 100 (A²)']\n"));
}

/// The most lines, in every size of picture: no two numbers of the axis on one place, and the last one is no more than 32.
#[test]
fn many_changes_in_a_picture() {
    let folder = start("many");
    put(&folder, "long.csv", &lines(&rough(400, 30)));
    for size in ["400x300", "1200x540", "4000x3000"] {
        let said = drawn(&folder, &["belt.txt", "long.csv", "--size", size]);
        let line = |number: usize| said.lines().nth(number).expect("a line");
        assert_eq!(line(2), "[33] True", "{size}");
        let numbers: Vec<u32> = line(4)
            .split('\'')
            .skip(1)
            .step_by(2)
            .map(|number| number.parse().expect("a number"))
            .collect();
        assert!(
            numbers.len() >= 2 && numbers[0] == 0 && numbers.windows(2).all(|pair| pair[0] < pair[1]),
            "{size}: {numbers:?}"
        );
        assert!(numbers.last().is_some_and(|last| (20..=32).contains(last)), "{size}: {numbers:?}");
    }
}

#[test]
fn outputs() {
    let folder = start("outputs");
    let both = "table: the picture and the costs would both be written to 'x'";
    refuses_outputs(&folder, |args| table(&folder, args), both);
    fs::create_dir(folder.join("drawn")).expect("folder");
    shown(&folder, &["b.txt", "day.csv", "--plot", "drawn"]);
    assert!(folder.join("drawn/day.svg").is_file());
    // A refused call leaves what is there.
    put(&folder, "out.csv", "old");
    assert_eq!(
        table(
            &folder,
            &["b.txt", "--changes", "33", "--format", "csv", "-o", "out.csv", "--plot", "out.svg"]
        )
        .status,
        1
    );
    assert_eq!(fs::read_to_string(folder.join("out.csv")).expect("file"), "old");
    assert!(!folder.join("out.svg").exists());
}

/// The largest plans need 415 MB. Where they cannot be had that is said, and a smaller K is answered.
#[test]
fn memory_that_cannot_be_had() {
    let folder = start("memory");
    let states: String = (0..8).map(|s| format!("state s{s} start end\nedge s{s} -> s{s} stay\n")).collect();
    put(
        &folder,
        "large.txt",
        &format!("grid 0 to 1023\n{states}edge s0 -> s1 up 5 penalty 1\nreadings 3 9 9\n"),
    );
    let limited = |k: &str| {
        let call = format!("ulimit -v 300000; exec {:?} table large.txt --changes {k}", program().get_program());
        let output = Command::new("bash").args(["-c", &call]).current_dir(&folder).output().expect("bash");
        (output.status.code(), String::from_utf8(output.stderr).expect("text"), output.stdout.len())
    };
    let words = "yeldaski: table: 415 MB of memory cannot be had, which 8 states, 1024 levels and 32 changes need; a smaller --changes needs less\n";
    assert_eq!(limited("32"), (Some(2), words.to_string(), 0));
    let (status, message, length) = limited("1");
    assert_eq!((status, message.as_str(), length > 0), (Some(0), "", true));
    assert_eq!(costs(&folder, &["large.txt", "--changes", "2"]), some(&[24, 1, -1]));
}

/// What the README shows of the pad is what comes out, and the penalties that it names have the answers that it tells.
#[test]
fn how_to_choose_a_penalty() {
    let folder = start("readme");
    let readme = include_str!("../../../README.md");
    let whole = shown(&folder, &["pad.txt", "--changes", "4"]);
    assert!(readme.contains(&format!("$ yeldaski table pad.txt --changes 4\n{whole}```\n")), "{whole}");
    for (penalty, cost, changes) in [(10, 23, 2), (20, 29, 0)] {
        put(&folder, "priced.txt", &PAD.replace("penalty 0", &format!("penalty {penalty}")));
        let found = costs(&folder, &["priced.txt"]);
        let least = (0..8).min_by_key(|changes| found[*changes]);
        assert_eq!((least, found[changes]), (Some(changes), Some(cost)), "{penalty}");
        let answer = run_in(&folder, &["find", "priced.txt"], b"").text();
        assert!(
            answer.starts_with(&format!("cost {cost}\n")) && answer.lines().count() == 4 + changes,
            "{answer}"
        );
    }
}

/// The help says how it is called, and its examples can be used as they stand.
#[test]
fn the_help() {
    let folder = start("help");
    let help = run_in(&folder, &["help", "table"], b"").text();
    assert!(
        help.starts_with("Give the least cost for each number of changes.\n\nUsage: yeldaski table PLAN [RECORD] [--changes K] [OPTIONS]\n"),
        "{help}"
    );
    put(&folder, "monday.csv", "current,time\n3,1\n9,2\n9,3\n");
    put(&folder, "belt.txt", &format!("{BELT}readings 3 9 9\n"));
    assert_eq!(run_in(&folder, &["make", "belt.txt", "-o", "belt.plan"], b"").status, 0);
    let examples = help
        .split_once("Example:\n")
        .expect("examples")
        .1
        .split("\n\n")
        .next()
        .expect("their lines");
    for line in examples.lines() {
        let words: Vec<&str> = line.split_whitespace().skip(1).collect();
        let done = run_in(&folder, &words, b"");
        assert_eq!((done.status, done.err.as_str()), (0, ""), "{line}");
    }
    assert!(folder.join("monday.svg").is_file() && folder.join("costs.csv").is_file());
}
