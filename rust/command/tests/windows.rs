//! `windows`: the least cost of every stretch of a long record.
mod common;
use common::cost_lists::{self, Case, A, SORTS, WRONG};
use common::cost_lists::{from_input, json, lines, picture, put_sorts, put_wrong, refuses, refuses_outputs, rough};
use common::{put, python, run_in, Done, Folder};
use std::fs;
use std::os::unix::fs::symlink;
use std::path::PathBuf;

/// One state and one level: each cost is the sum of the squares of the readings.
const ZERO: &str = "grid 0 to 0\nstate s start end\nedge s -> s stay\n";

fn start(test: &str) -> Folder {
    cost_lists::start(&format!("windows_{test}"), &[("zero.txt", ZERO)])
}

fn windows(folder: &PathBuf, args: &[&str]) -> Done {
    run_in(folder, &[&["windows"], args].concat(), b"")
}

fn shown(folder: &PathBuf, args: &[&str]) -> String {
    cost_lists::shown(folder, "windows", args)
}

/// The costs, from CSV whose first two columns have to be those of a window of `w`.
fn costs(folder: &PathBuf, w: usize, args: &[&str]) -> Vec<u64> {
    let csv = shown(folder, &[args, &["--format", "csv", "--window", &w.to_string()]].concat());
    let mut lines = csv.lines();
    assert_eq!(lines.next(), Some("start,last,cost"));
    let cost = |(index, line): (usize, &str)| {
        let (place, cost) = line.rsplit_once(',').expect("three cells");
        assert_eq!(place, format!("{},{}", index + 1, index + w), "{args:?}");
        cost.parse().expect("a cost")
    };
    lines.enumerate().map(cost).collect()
}

/// The examples worked out by hand: A with w from 1 to 4, B with its end set and with another one.
#[test]
fn the_examples() {
    let folder = start("examples");
    for (text, w, expected) in [
        ("a.txt", 1, &[0, 0, 0, 0][..]),
        ("a.txt", 2, &[1, 1, 1]),
        ("a.txt", 3, &[2, 2]),
        ("a.txt", 4, &[3]),
        ("b.txt", 2, &[8, 0, 8]),
        ("b_end.txt", 2, &[1, 1, 9]),
    ] {
        assert_eq!(costs(&folder, w, &[text]), expected, "{text} {w}");
    }
    let done = windows(&folder, &["b_end.txt", "--window", "1"]);
    let words = "b_end.txt: stretches of 1 reading: no segmentation ends in a state in which a record may end (refusal 16)\n";
    assert_eq!((done.status, done.out.len(), done.err.as_str()), (1, 0, words));
}

/// The plan as a text or as a plan file, and the record as everything that `find` reads.
#[test]
fn every_sort_of_plan_and_record() {
    let folder = start("sorts");
    put_sorts(&folder);
    let own: [&[&str]; 4] = [
        &["b.plan", "day.csv"],
        &["b.plan", "named.csv", "--column", "current"],
        &["file.txt", "named.csv"],
        &["tenths.txt", "tenths.csv"],
    ];
    for args in SORTS.into_iter().chain(own) {
        assert_eq!(costs(&folder, 2, args), [8, 0, 8], "{args:?}");
    }
    assert_eq!(costs(&folder, 2, &["b.txt", "a.plan"]), [1, 1, 8]);
    let csv = "start,last,cost\n1,2,8\n2,3,0\n3,4,8\n";
    from_input(&folder, "windows", &["-w2", "--format=csv"], csv);
}

/// Small enough to be read: how many, the cheapest, and the dearest without overlap.
#[test]
fn the_table() {
    let folder = start("table");
    let table = "3 stretches of 2 readings, median cost 8\n\nstretch    start  last  cost\ncheapest       2     3     0\n\
                 dearest 1      1     2     8\ndearest 2      3     4     8\n";
    assert_eq!(shown(&folder, &["b.txt", "--window", "2"]), table);
    assert_eq!(shown(&folder, &["b.txt", "--window", "2", "--format", "table", "-o", "out"]), "");
    assert_eq!(fs::read_to_string(folder.join("out")).expect("file"), table);
    put(&folder, "long.csv", &lines(&rough(5000, 9)));
    let long = shown(&folder, &["zero.txt", "long.csv", "--window", "10"]);
    assert!(long.starts_with("4991 stretches of 10 readings, median cost "), "{long}");
    assert_eq!(long.lines().count(), 2 + 1 + 1 + 10, "{long}");
    let flat = shown(&folder, &["a.txt", "--window", "1"]);
    assert!(flat.ends_with("cheapest       1     1     0\ndearest 1      1     1     0\n"), "{flat}");
}

/// Every stretch of a record that is cut into several parts costs what a search of it alone gives, at the seams as elsewhere.
#[test]
fn each_stretch_as_a_search_of_it_alone() {
    let folder = start("seams");
    let readings = rough(4300, 30);
    put(&folder, "long.csv", &lines(&readings));
    put(&folder, "short.csv", &lines(&readings[..1040]));
    assert_eq!(run_in(&folder, &["make", "belt.txt", "short.csv", "-o", "p"], b"").status, 0);
    let file = fs::read(folder.join("p")).expect("plan file");
    let (mut workspace, mut runs) = (vec![0; yeldaski::work_words(2, 31)], vec![0; 5 * 1024]);
    let mut alone = |part: &[i16]| yeldaski::search(&file, part, &mut workspace, &mut runs).expect("an answer").cost;
    for (record, count, w, jobs) in [("long.csv", 4300, 1, "1"), ("long.csv", 4300, 50, "3"), ("short.csv", 1040, 1024, "2")] {
        let found = costs(&folder, w, &["belt.txt", record, "--jobs", jobs]);
        let expected: Vec<u64> = readings[..count].windows(w).map(&mut alone).collect();
        assert!(found == expected, "{record} {w}");
    }
    // `find` says the same of a stretch across the first seam, which is before the stretch at 82: 4096 / 50 is 81.
    put(&folder, "part.csv", &lines(&readings[81..131]));
    let table = run_in(&folder, &["find", "belt.txt", "part.csv"], b"").text();
    let cost = costs(&folder, 50, &["belt.txt", "long.csv"])[81];
    assert!(table.starts_with(&format!("cost {cost}\n")), "{table}");
}

#[test]
fn the_same_output_with_any_number_of_jobs() {
    let folder = start("jobs");
    put(&folder, "long.csv", &lines(&rough(2000, 30)));
    for format in ["table", "csv", "json"] {
        let args = ["belt.txt", "long.csv", "--window", "40", "--format", format, "--plot", "p.svg"];
        let outputs = ["1", "2", "5", "99"].map(|jobs| {
            let out = shown(&folder, &[&args[..], &["--jobs", jobs]].concat());
            (out, fs::read(folder.join("p.svg")).expect("picture"))
        });
        assert!(outputs.iter().all(|output| *output == outputs[0]), "{format}");
    }
    for jobs in ["1", "5"] {
        let done = windows(&folder, &["b_end.txt", "long.csv", "--window", "1", "--jobs", jobs]);
        assert!(done.status == 1 && done.err.ends_with("(refusal 16)\n"), "{}", done.err);
    }
    assert_eq!(windows(&folder, &["b.txt", "--window", "1", "--jobs", "0"]).status, 2);
}

/// The limits are those of one call over the whole record, though each part of it would be short enough.
#[test]
fn the_longest_record() {
    let folder = start("longest");
    put(&folder, "longest.csv", &"3\n".repeat(65_535));
    put(&folder, "longer.csv", &"3\n".repeat(65_536));
    for w in [1, 2] {
        let found = costs(&folder, w, &["zero.txt", "longest.csv", "--jobs", "2"]);
        assert!(found.len() == 65_536 - w && found.iter().all(|cost| *cost == 9 * w as u64), "{w}");
    }
    let done = windows(&folder, &["zero.txt", "longer.csv", "--window", "2"]);
    let words = "longer.csv: 65536 readings, at most 65535 for a moving window: split the record into parts that overlap by 1 reading, ";
    assert_eq!((done.status, done.out.len()), (1, 0));
    assert!(done.err.starts_with(words) && done.err.ends_with("(refusal 9)\n"), "{}", done.err);
    // No advice to overlap by more than a window can have.
    for w in ["0", "5000", "18446744073709551615"] {
        let done = windows(&folder, &["zero.txt", "longer.csv", "--window", w]);
        let words = "parts that overlap by one reading less than the window has, which is 1 to 1024, so that no stretch is lost (refusal 9)\n";
        assert!(done.status == 1 && done.err.ends_with(words), "{w}: {}", done.err);
    }
    // The next refusals in the order are not reached.
    put(&folder, "label.txt", &format!("{ZERO}label 1 to 2 changes 0\n"));
    for args in [["label.txt", "longer.csv"], ["label.txt", "none.csv"]] {
        put(&folder, "none.csv", "");
        let done = windows(&folder, &[&args[..], &["--window", "0"]].concat());
        assert!(done.status == 1 && done.err.ends_with("(refusal 9)\n"), "{}", done.err);
    }
    // What 'find' refuses as too long is pointed here, as far as it helps.
    for (args, helps) in [
        (["find", "zero.txt", "longest.csv"], true),
        (["make", "zero.txt", "longest.csv"], true),
        (["find", "zero.txt", "longer.csv"], false),
        (["find", "zero.txt", "none.csv"], false),
    ] {
        let done = run_in(&folder, &args, b"");
        assert!(done.status == 1 && done.err.ends_with("(refusal 9)\n"), "{}", done.err);
        assert_eq!(done.err.contains("'yeldaski windows'"), helps, "{}", done.err);
    }
}

#[test]
fn windows_that_are_refused() {
    let folder = start("refused");
    put(&folder, "long.csv", &"3\n".repeat(2000));
    for (record, w, words) in [
        (
            None,
            "5",
            "a.txt: a window of 5 readings, but the record has 4: choose --window from 1 to 4 (refusal 19)\n",
        ),
        (None, "0", "a.txt: a window of 0 readings: choose --window from 1 to 4 (refusal 19)\n"),
        (
            Some("long.csv"),
            "0",
            "long.csv: a window of 0 readings: choose --window from 1 to 1024 (refusal 19)\n",
        ),
        (
            Some("long.csv"),
            "1025",
            "long.csv: a window of 1025 readings: choose --window from 1 to 1024 (refusal 19)\n",
        ),
        (
            Some("long.csv"),
            "4000000000",
            "long.csv: a window of 4000000000 readings: choose --window from 1 to 1024 (refusal 19)\n",
        ),
    ] {
        let args: Vec<&str> = ["a.txt"].into_iter().chain(record).chain(["--window", w]).collect();
        let done = windows(&folder, &args);
        assert_eq!((done.status, done.out.len(), done.err.as_str()), (1, 0, words), "{w}");
    }
    assert_eq!(costs(&folder, 1024, &["a.txt", "long.csv"]).len(), 977);
    for w in ["x", "-1", "2.5", "", "99999999999999999999999"] {
        let done = windows(&folder, &["a.txt", &format!("--window={w}")]);
        assert_eq!((done.status, done.out.len()), (2, 0), "{w}");
        assert!(
            done.err.contains("--window: expected a whole number from 1 to 1024, found "),
            "{w}: {}",
            done.err
        );
    }
}

/// Labels are refused at their line, and left out on request, in a text and in a plan file.
#[test]
fn labels() {
    let folder = start("labels");
    put(&folder, "label.txt", &format!("{A}label 1 to 3 changes 0\n"));
    assert_eq!(run_in(&folder, &["make", "label.txt", "-o", "label.plan"], b"").status, 0);
    let words = "a moving window takes a plan without labels: --no-labels leaves them out (refusal 18)\n";
    for (plan, place) in [("label.txt", "label.txt:6"), ("label.plan", "label.plan")] {
        // 18 comes before 19.
        for w in ["2", "9"] {
            let done = windows(&folder, &[plan, "--window", w]);
            assert_eq!((done.status, done.err), (1, format!("{place}: {words}")));
        }
        assert_eq!(costs(&folder, 2, &[plan, "--no-labels"]), [1, 1, 1]);
    }
    assert_eq!(costs(&folder, 2, &["a.txt", "--no-labels"]), [1, 1, 1]);
}

#[test]
fn plans_and_records_that_are_wrong() {
    let folder = start("wrong");
    put_wrong(&folder, 16);
    put(&folder, "day.csv", "1\n5\n");
    let call = |args: &[&str]| windows(&folder, &[args, &["--window", "2"]].concat());
    refuses(call, &WRONG);
    refuses(
        call,
        &[
            (&["belt.txt"], 1, "no record is named: yeldaski windows PLAN RECORD --window W"),
            (&["b.txt", "day.csv", "day.csv"], 2, "2 words at most"),
            (&[], 2, "windows: a plan is missing"),
        ],
    );
    assert_eq!(run_in(&folder, &["make", "b.txt", "-o", "b.plan"], b"").status, 0);
    for (plan, record, helps) in [("b.plan", "half.csv", true), ("b.txt", "half.csv", false), ("b.plan", "bad.csv", false)] {
        let done = windows(&folder, &[plan, record, "-w2"]);
        let hint = "; a plan file has no such lines; for them name the plan text in its place\n";
        assert_eq!((done.status, done.err.ends_with(hint)), (1, helps), "{plan} {record}: {}", done.err);
    }
    let done = windows(&folder, &["b.txt"]);
    assert!(done.status == 2 && done.err.contains("say with --window"), "{}", done.err);
    let done = run_in(&folder, &["windows", "zero.txt", "day.csv", "-w", "1"], b"");
    assert!(
        done.status == 0 && done.err.starts_with("day.csv: warning: 2 of 2 readings lie outside the grid 0 to 0"),
        "{}",
        done.err
    );
}

/// Python reads what was written.
#[test]
fn csv_and_json() {
    let folder = start("exports");
    let script = "print(r['record'], r['readings'], r['window'], r['refusal'], (r['sentence'] or '')[:18])\n\
                  print([(x['start'], x['last'], x['cost']) for x in r['stretches']])";
    let names = "['record', 'readings', 'window', 'refusal', 'sentence', 'stretches']\n";
    let cases: [Case; 4] = [
        (
            &["b.txt", "d,\"1.csv", "-w2"],
            0,
            "d,\"1.csv 4 2 None \n[(1, 2, 8), (2, 3, 0), (3, 4, 8)]\n",
        ),
        (&["b.txt", "-w4"], 0, "b.txt 4 4 None \n[(1, 4, 1)]\n"),
        (&["b.txt", "-w5"], 1, "b.txt 4 5 19 a window of 5 read\n[]\n"),
        (&["b.txt", "bad.csv", "-w1"], 1, "bad.csv None 1 None bad.csv:2: expecte\n[]\n"),
    ];
    json(&folder, |args| windows(&folder, args), script, names, &cases);
    let csv = shown(&folder, &["b.txt", "-w2", "--format", "csv"]);
    let script = "import csv,sys\nfor r in csv.DictReader(sys.stdin, strict=True): print(r)";
    let first = "{'start': '1', 'last': '2', 'cost': '8'}\n";
    assert!(python(script, csv.as_bytes()).starts_with(first));
}

/// The points of the line, and the texts.
const PICTURE: &str = "
line = next(e for e in root.iter(name + 'path') if e.get('stroke-linejoin'))
points = [tuple(map(float, pair.split())) for pair in line.get('d')[1:].split('L')]
xs, ys = zip(*points)
assert all(a <= b for a, b in zip(xs, xs[1:])), 'not in order'
assert x <= min(xs) and max(xs) <= x + w and y <= min(ys) and max(ys) < y + h - 2, 'on the frame or beyond it'
top = min(points, key=lambda p: p[1])
print(len(points), round((top[0] - x) / w, 2), sum(v < y + h / 2 for v in ys))
print(root.find(name + 'title').text)
print([e.text for e in root.iter(name + 'text')][-2:])
";

fn drawn(folder: &PathBuf, args: &[&str]) -> (usize, String) {
    shown(folder, &[args, &["--plot", "p.svg"]].concat());
    let svg = fs::read(folder.join("p.svg")).expect("picture");
    (svg.len(), picture(folder, PICTURE))
}

#[test]
fn pictures() {
    let folder = start("pictures");
    let (_, said) = drawn(&folder, &["b_end.txt", "-w2"]);
    let title = "3 stretches of 2 readings: cost 1 to 9, dearest from reading 3 to 4\n";
    assert_eq!(said, format!("3 0.83 1\n{title}['first reading of the stretch', 'cost']\n"));
    let (_, said) = drawn(&folder, &["a.txt", "-w4", "--title", "An arm", "--unit", "A"]);
    assert_eq!(said, "1 0.5 0\nAn arm\n['first reading of the stretch', 'cost (A²)']\n");
    // Costs are squares of readings that were multiplied by the scale.
    put(&folder, "tenths.txt", &format!("{ZERO}scale 10\nreadings 0.1 0.5 200\n"));
    let (_, said) = drawn(&folder, &["tenths.txt", "-w1", "--unit", "A"]);
    assert!(said.ends_with("'cost × 100 (A²)']\n"), "{said}");
    // A single peak among the most stretches, in every size of picture: at a third of the record.
    let mut readings = rough(65_535, 1);
    readings[21_845] = 100;
    put(&folder, "peak.csv", &lines(&readings));
    for size in ["400x300", "1200x540", "4000x3000"] {
        let (length, said) = drawn(&folder, &["zero.txt", "peak.csv", "-w1", "--size", size]);
        assert!(length < 300_000, "{size}: {length}");
        let (points, rest) = said.split_once(' ').expect("numbers");
        assert!(points.parse::<usize>().is_ok_and(|points| points > 500), "{size}: {points}");
        assert!(
            rest.starts_with("0.33 1\n65535 stretches of 1 reading: cost 0 to 10000, dearest from reading 21846 to 21846\n"),
            "{size}: {said}"
        );
    }
}

/// Numbers of many digits stand beside the frame, not in it and not outside the picture.
#[test]
fn great_costs_in_a_picture() {
    let folder = start("great");
    put(&folder, "great.txt", &ZERO.replace("0 to 0", "-32768 to -32768"));
    put(&folder, "great.csv", &lines(&[32767; 1030]));
    put(&folder, "step.csv", &lines(&[vec![32767; 1030], vec![32766; 3]].concat()));
    for (record, least) in [("great.csv", "4397912294400"), ("step.csv", "4397911901193")] {
        let args = ["great.txt", record, "-w", "1024", "--plot", "p.svg"];
        let done = windows(&folder, &args);
        assert_eq!(done.status, 0, "{}", done.err);
        assert!(done.text().contains(least), "{}", done.text());
        let script = "ticks = [e for e in root.iter(name + 'text') if e.get('text-anchor') == 'end']\n\
                      assert len(ticks) >= 2, 'no numbers'\n\
                      for e in ticks: assert 20 < float(e.get('x')) - 8 * len(e.text) and float(e.get('x')) < x, e.text";
        picture(&folder, script);
    }
}

#[test]
fn outputs() {
    let folder = start("outputs");
    let call = |args: &[&str]| windows(&folder, &[args, &["-w2"]].concat());
    refuses_outputs(&folder, call, "would both be written to 'x'");
    fs::create_dir(folder.join("drawn")).expect("folder");
    shown(&folder, &["b.txt", "day.csv", "-w2", "--plot", "drawn"]);
    assert!(folder.join("drawn/day.svg").is_file());
    // A refused record leaves what is there.
    put(&folder, "out.csv", "old");
    assert_eq!(windows(&folder, &["b.txt", "-w9", "--format", "csv", "-o", "out.csv"]).status, 1);
    assert_eq!(fs::read_to_string(folder.join("out.csv")).expect("file"), "old");
}

/// What takes long is not begun where its output has no place.
#[test]
fn outputs_without_a_place() {
    let folder = start("places");
    fs::create_dir(folder.join("drawn")).expect("folder");
    let names = || fs::read_dir(&folder).expect("folder").count();
    let before = names();
    // The second plan would be refused by the search.
    for (args, words) in [
        (&["b.txt", "-w2", "--plot", "no/x.svg"][..], "cannot write 'no/x.svg': "),
        (&["b_end.txt", "-w1", "-o", "no/x.csv"], "cannot write 'no/x.csv': "),
        (&["b_end.txt", "-w1", "-o", "drawn"], "cannot write 'drawn': "),
        (&["b_end.txt", "-w1", "-o", ""], "cannot write '': "),
    ] {
        let done = windows(&folder, args);
        assert_eq!((done.status, done.out.len()), (2, 0), "{args:?}: {}", done.err);
        assert!(done.err.contains(words), "{args:?}: {}", done.err);
    }
    assert_eq!(windows(&folder, &["b_end.txt", "-w1", "-o", "x.csv", "--plot", "x.svg"]).status, 1);
    assert_eq!(names(), before);
    // The pipe that the test reads messages from, under names that are links to no file.
    symlink("/dev/fd/2", folder.join("pipe")).expect("link");
    for output in ["/dev/stderr", "/dev/fd/2", "pipe"] {
        let done = windows(&folder, &["b.txt", "-w2", "-o", output]);
        assert!(
            done.status == 0 && done.err.starts_with("3 stretches of 2 readings"),
            "{output}: {}",
            done.err
        );
    }
}

/// A link to nothing leads to what it names, so that the other output would be lost.
#[test]
fn outputs_through_a_link() {
    let folder = start("links");
    symlink("next", folder.join("link")).expect("link");
    symlink("x", folder.join("next")).expect("link");
    for (output, picture) in [("link", "x"), ("x", "link"), ("next", "./link")] {
        let done = windows(&folder, &["b.txt", "-w2", "-o", output, "--plot", picture]);
        let words = format!("would both be written to '{picture}'");
        assert!(done.status == 2 && done.err.contains(&words), "{output} {picture}: {}", done.err);
    }
    assert!(!folder.join("x").exists());
    shown(&folder, &["b.txt", "-w2", "-o", "link"]);
    assert!(folder.join("x").is_file() && folder.join("link").is_symlink());
    symlink("round", folder.join("round")).expect("link");
    let done = windows(&folder, &["b.txt", "-w2", "-o", "round"]);
    assert!(done.status == 2 && done.err.contains("cannot write 'round': "), "{}", done.err);
}

/// On a terminal a line says how far it is; python lends one.
#[test]
fn progress_on_a_terminal() {
    let folder = start("progress");
    put(&folder, "long.csv", &lines(&rough(1000, 30)));
    let script = format!(
        "import os, pty\nos.chdir({:?})\npty.spawn([{:?}, 'windows', 'belt.txt', 'long.csv', '-w', '100', '-o', 'out'])",
        folder.to_string_lossy(),
        env!("CARGO_BIN_EXE_yeldaski")
    );
    let said = python(&script, b"");
    assert!(
        said.contains("\r\x1b[K40 of 901 stretches") && said.contains("\r\x1b[K901 of 901 stretches\r"),
        "{said:?}"
    );
    let piped = windows(&folder, &["belt.txt", "long.csv", "-w", "100", "-o", "out"]);
    assert_eq!((piped.status, piped.err.as_str()), (0, ""));
}
