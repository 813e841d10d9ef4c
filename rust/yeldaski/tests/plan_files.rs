//! Plan files: what the reader refuses, alike in every call that takes one, and reading and writing them.
mod common;
use common::*;

fn patched(at: usize, value: u8) -> Vec<u8> {
    let mut file = plan_a(0, 4, 1).file(&[3, 4]);
    file[at] = value;
    file
}

fn joined(parts: &[&[u8]]) -> Vec<u8> {
    parts.concat()
}

/// Where the fields of plan A's file start.
const STATES: usize = 7;
const EDGE_1: usize = 22;
const READINGS: usize = 31;

/// Broken plan files with the number that the reader gives, the earlier number where two conditions hold.
fn broken() -> Vec<(u8, Vec<u8>)> {
    let a = plan_a(0, 4, 1);
    let whole = a.file(&[3, 4]);
    let head = a.head();
    let mut all = vec![];
    // 1: every cut file; also one or two bytes after the readings
    all.extend((0..whole.len()).map(|n| (1, whole[..n].to_vec())));
    all.push((1, joined(&[&whole, &[5]])));
    all.push((1, joined(&[&whole, &[0, 0]])));
    // 2: a tag that may not stand there, before its length is looked at
    all.push((2, patched(0, 2)));
    all.push((2, patched(STATES, 1)));
    all.push((2, patched(READINGS, 6)));
    all.push((2, joined(&[&whole, &[5, 9, 9]])));
    let late_edge = joined(&[&a.clone().label(1, 2, 0).head(), &field(3, &[0, 0, 2, 0, 0, 0]), &field(5, &[0, 1])]);
    all.push((2, late_edge));
    // 3: wrong length, before a cut body
    all.push((3, patched(2, 5)));
    all.push((3, patched(STATES + 2, 4)));
    all.push((3, patched(EDGE_1 + 2, 7)));
    all.push((3, joined(&[&head, &[4, 0, 4]])));
    all.push((3, joined(&[&head, &[5, 255, 255]])));
    // 4: hi below lo, grid too wide
    all.push((4, plan_a(1, 0, 1).file(&[0])));
    all.push((4, plan_a(i16::MIN, i16::MAX, 1).file(&[0])));
    all.push((4, plan_a(-1, 1_023, 1).file(&[0])));
    all.extend(broken_states());
    all.extend(broken_edges());
    all.extend(broken_labels());
    // 9: no readings, or too many, before a cut body
    all.push((9, a.file(&[])));
    all.push((9, a.file(&vec![0; 4_097])));
    all.push((9, joined(&[&head, &[5, 32, 2]])));
    all
}

fn broken_states() -> Vec<(u8, Vec<u8>)> {
    let cases = [[0, 1, 1], [9, 1, 1], [1, 0, 1], [1, 1, 0], [1, 2, 1], [1, 1, 3], [7, 128, 1]];
    cases.iter().map(|c| (5, Plan::new(0, 4, c[0], c[1], c[2]).file(&[0]))).collect()
}

/// So many edges, each from a state to itself: the five kinds in state 0, then in state 1, and so on.
fn many_edges(count: u8) -> Plan {
    (0..count).fold(Plan::new(0, 4, 8, 1, 1), |plan, i| plan.edge(i / 5, i / 5, i % 5, 0, 0))
}

fn broken_edges() -> Vec<(u8, Vec<u8>)> {
    let a = plan_a(0, 4, 1);
    let six = [
        (1, 0, 2, 0, 0),
        (0, 1, 2, 0, 0),
        (0, 0, 5, 0, 0),
        (0, 0, 255, 0, 0),
        (0, 0, 2, 1_024, 0),
        (0, 0, 2, 65_535, 0),
    ];
    let more = [(0, 0, 0, 1, 0), (0, 0, 1, 1_023, 0), (0, 0, 2, 0, 16)];
    let mut all: Vec<(u8, Vec<u8>)> = six
        .iter()
        .chain(&more)
        .map(|e| (6, a.clone().edge(e.0, e.1, e.2, e.3, e.4).file(&[0])))
        .collect();
    // 7: the same states and kind again, whatever the gap and class
    all.push((7, a.clone().edge(0, 0, ANY, 0, 9).file(&[0])));
    all.push((7, a.edge(0, 0, UP, 1, 0).edge(0, 0, UP, 2, 0).file(&[0])));
    // 10: a 33rd edge, before 6 and 7
    all.push((10, many_edges(33).file(&[0])));
    all.push((10, many_edges(32).edge(9, 9, 9, 0, 0).file(&[0])));
    all.push((10, many_edges(32).edge(0, 0, 0, 0, 0).file(&[0])));
    all
}

fn many_labels(count: u16) -> Plan {
    (1..=count).fold(plan_a(0, 4, 1), |plan, p| plan.label(p, p + 1, 0))
}

fn broken_labels() -> Vec<(u8, Vec<u8>)> {
    let a = plan_a(0, 4, 1);
    let eight = [
        (0, 1, 0),
        (2, 2, 0),
        (3, 2, 0),
        (1, 4_097, 0),
        (1, 2, 10),
        (1, 2, 11),
        (1, 2, 128),
        (1, 2, 255),
    ];
    let mut all: Vec<(u8, Vec<u8>)> = eight.iter().map(|l| (8, a.clone().label(l.0, l.1, l.2).file(&[0]))).collect();
    // 12: starts before the earlier label's q, after 8
    all.push((12, a.clone().label(1, 4, 0).label(3, 5, 0).file(&[0])));
    all.push((8, a.label(1, 4, 0).label(3, 5, 10).file(&[0])));
    // 10: a 65th label, before 8 and 12
    all.push((10, many_labels(65).file(&[0])));
    all.push((10, many_labels(64).label(0, 0, 9).file(&[0])));
    all
}

#[test]
fn every_call_refuses_a_broken_file_alike() {
    for (number, file) in broken() {
        assert_eq!(read_plan(&file, 4_096), Err(number), "{file:02X?}");
        assert_eq!(write_plan(&file, &[1], 20_000), Err(number), "{file:02X?}");
        assert_eq!(search(&file, &[1], 0, 500, 50), Err(number), "{file:02X?}");
        assert_eq!(point(&file, &[1], 0, 0, 0, 500), Err(number), "{file:02X?}");
        assert_eq!(windows(&file, &[1], 1, 0, 500, 50), Err(number), "{file:02X?}");
        assert_eq!(table(&file, &[1], 1, 0, 500, 50), Err(number), "{file:02X?}");
        // no refusal of the call itself comes first
        assert_eq!(read_plan(&file, 0), Err(number));
        assert_eq!(write_plan(&file, &[], 0), Err(number));
        assert_eq!(search(&file, &[], 0, 0, 0), Err(number));
        assert_eq!(point(&file, &[], 9, -1, 0, 0), Err(number));
        assert_eq!(windows(&file, &[], 0, 0, 0, 0), Err(number));
        assert_eq!(table(&file, &[], 33, 0, 0, 0), Err(number));
    }
}

#[test]
fn broken_files_show_every_number_of_the_reader() {
    let mut numbers: Vec<u8> = broken().iter().map(|b| b.0).collect();
    numbers.sort_unstable();
    numbers.dedup();
    assert_eq!(numbers, [1, 2, 3, 4, 5, 6, 7, 8, 9, 10, 12]);
}

/// The largest plan: 8 states, 32 edges, 64 labels, 4,096 readings, and the ends of all ranges.
fn largest() -> (Plan, Vec<i16>) {
    let mut plan = many_edges(30).edge(7, 0, ABS, 1_023, 15).edge(0, 7, DOWN, 1_023, 15);
    (plan.lo, plan.hi, plan.start, plan.end) = (i16::MIN, i16::MIN + 1_023, 255, 255);
    for p in 1..64 {
        plan = plan.label(p, p + 1, (p % 10) as u8);
    }
    let readings = (0..4_096).map(|i| (i * 16 - 32_768) as i16).collect();
    (plan.label(4_095, 4_096, 9), readings)
}

#[test]
fn reading() {
    let (plan, readings) = largest();
    for (file, readings) in [(plan.file(&readings), readings), (plan_b(3, 1).file(&[-1, 0, 256]), vec![-1, 0, 256])] {
        let n = readings.len();
        assert_eq!(read_plan(&file, n).as_ref(), Ok(&readings));
        assert_eq!(read_plan(&file, n + 3), Ok(readings));
        assert_eq!(read_plan(&file, n - 1), Err(15));
        assert_eq!(read_plan(&file, 0), Err(15));
    }
}

#[test]
fn writing() {
    let (plan, readings) = largest();
    for (plan, readings) in [(plan, readings), (plan_b(3, 1), vec![-1, 0, 256])] {
        let (short, whole) = (plan.file(&[7]), plan.file(&readings));
        let size = whole.len();
        assert_eq!(write_plan(&short, &readings, size).as_ref(), Ok(&whole));
        assert_eq!(write_plan(&short, &readings, size + 3).as_ref(), Ok(&whole));
        assert_eq!(write_plan(&whole, &[7], size), Ok(short));
        // 9 comes before 15
        assert_eq!(write_plan(&whole, &readings, size - 1), Err(15));
        assert_eq!(write_plan(&whole, &readings, 0), Err(15));
        assert_eq!(write_plan(&whole, &[], 0), Err(9));
        assert_eq!(write_plan(&whole, &[], size), Err(9));
        assert_eq!(write_plan(&whole, &vec![0; 4_097], 0), Err(9));
    }
}
