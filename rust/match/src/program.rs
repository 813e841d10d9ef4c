//! The program `segment` itself, at the limits of what it lends. What it has to write comes from the oracle.
use crate::files::{put_field, segment, SEGMENT_ROOM, SEGMENT_WORDS};
use crate::RULES;
use std::io::Write;
use std::path::Path;
use std::process::{ChildStdin, Command, Stdio};
use std::time::Duration;

/// What the program writes when its standard input is fed so.
fn written(feed: impl FnOnce(ChildStdin) + Send + 'static) -> Vec<u8> {
    // As with the library: the one that `rt` made last, or, where that was removed, the one that `tools/build` kept.
    let program = ["../../crates/segment/out/segment", "../target/proved/segment"]
        .map(|path| Path::new(env!("CARGO_MANIFEST_DIR")).join(path))
        .into_iter()
        .find(|path| path.exists())
        .expect("the program is missing; run in crates/segment: rt run");
    let mut child = Command::new(program)
        .stdin(Stdio::piped())
        .stdout(Stdio::piped())
        .spawn()
        .expect("the program starts");
    let stdin = child.stdin.take().expect("its standard input");
    let feeder = std::thread::spawn(move || feed(stdin));
    let output = child.wait_with_output().expect("the program ends");
    feeder.join().expect("the feeder ends");
    assert!(output.status.success());
    output.stdout
}

/// The oracle's answer, which the program writes too.
fn answer(file: &[u8]) -> Vec<u8> {
    let said = segment(RULES, file, SEGMENT_WORDS, SEGMENT_ROOM);
    let input = file.to_vec();
    // The program reads no more than its buffer holds, so the pipe may break.
    let wrote = written(move |mut stdin| drop(stdin.write_all(&input)));
    let same = wrote.iter().zip(&said).take_while(|(a, b)| a == b).count();
    assert!(
        wrote == said,
        "{} bytes in, {} bytes out, the oracle has {}; the first {same} are equal",
        file.len(),
        wrote.len(),
        said.len()
    );
    said
}

fn refusal(number: u8) -> Vec<u8> {
    vec![0x83, 0, 1, number]
}

fn runs(answer: &[u8]) -> usize {
    assert_eq!(answer[0], 0x81);
    (answer.len() - 11) / 11
}

const STAY: u8 = 0;
const ANY: u8 = 1;
const UP: u8 = 2;
const DOWN: u8 = 3;

/// A plan on so many states, all of them in both masks, and levels from -3 on. Each state has an edge of each of these kinds, a stay to itself and
/// any other to the next state.
fn plan(states: u8, levels: i16, kinds: &[u8]) -> Vec<u8> {
    let mut file = vec![];
    let (lo, hi) = ((-3i16).to_be_bytes(), (levels - 4).to_be_bytes());
    put_field(&mut file, 0x01, &[lo[0], lo[1], hi[0], hi[1]]);
    let all = (0xFFu16 >> (8 - states)) as u8;
    put_field(&mut file, 0x02, &[states, all, all]);
    for &kind in kinds {
        for from in 0..states {
            let to = if kind == STAY { from } else { (from + 1) % states };
            put_field(&mut file, 0x03, &[from, to, kind, 0, 0, kind]);
        }
    }
    file
}

fn with_readings(mut file: Vec<u8>, readings: &[i16]) -> Vec<u8> {
    let body: Vec<u8> = readings.iter().flat_map(|z| z.to_be_bytes()).collect();
    put_field(&mut file, 0x05, &body);
    file
}

/// Readings that go up and down by steps of many sizes.
fn record(n: usize) -> Vec<i16> {
    (0..n).map(|i| (i * i % 37) as i16 - 8).collect()
}

#[test]
fn states_times_levels() {
    for (states, levels) in [(1, 40), (2, 20), (5, 8), (8, 5)] {
        assert!(runs(&answer(&with_readings(plan(states, levels, &[STAY, ANY]), &record(60)))) > 10);
    }
    for (states, levels) in [(1, 41), (2, 21), (6, 7), (8, 6)] {
        assert_eq!(answer(&with_readings(plan(states, levels, &[STAY, ANY]), &record(60))), refusal(14));
    }
}

/// As many states and levels as there is room for, with a label of each c over 20 boundaries.
#[test]
fn labels() {
    let of = |c| {
        let mut file = plan(2, 20, &[STAY, ANY, UP, DOWN]);
        put_field(&mut file, 0x04, &[0, 20, 0, 40, c]);
        answer(&with_readings(file, &record(60)))
    };
    let found: Vec<Vec<u8>> = (0..10).map(of).collect();
    for (c, answer) in found.iter().enumerate() {
        assert!(runs(answer) > 10);
        assert!(!found[..c].contains(answer), "c = {c} makes no difference");
    }
    for c in [10, 11, 255] {
        assert_eq!(of(c), refusal(8));
    }
}

#[test]
fn readings() {
    let of = |levels, n| answer(&with_readings(plan(1, levels, &[STAY, ANY]), &record(n)));
    assert!(runs(&of(30, 3_200)) > 1_000);
    assert_eq!(of(30, 3_201), refusal(15));
    assert_eq!(of(30, 4_096), refusal(15));
    // 14 comes before 15: the readings have room, the run numbers have not
    assert_eq!(of(41, 4_096), refusal(14));
    assert_eq!(of(41, 4_097), refusal(9));
    assert_eq!(of(30, 0), refusal(9));
}

/// Without a stay every reading is a run.
#[test]
fn as_many_runs_as_there_is_room_for() {
    for (states, levels) in [(1, 40), (8, 5)] {
        let file = with_readings(plan(states, levels, &[ANY]), &record(3_200));
        assert_eq!(runs(&answer(&file)), 3_200);
    }
}

/// The longest plan file has 9,008 bytes, and a field behind its readings is judged by three more.
#[test]
fn files_longer_than_a_plan() {
    let mut longest = plan(8, 5, &[STAY, ANY, UP, DOWN]);
    for p in 1..=64u8 {
        put_field(&mut longest, 0x04, &[0, p, 0, p + 1, p % 10]);
    }
    let longest = with_readings(longest, &record(4_096));
    assert_eq!(longest.len(), 9_008);
    assert_eq!(answer(&longest), refusal(15));
    let short = with_readings(plan(1, 10, &[STAY]), &record(5));
    assert_eq!(runs(&answer(&short)), 1);
    for file in [&longest, &short] {
        for (more, number) in [(1, 1), (2, 1), (3, 2), (65_536, 2), (300_000, 2)] {
            for tag in [0x05, 0x77] {
                assert_eq!(answer(&[&file[..], &vec![tag; more]].concat()), refusal(number));
            }
        }
    }
    // whatever stands at the end of the program's buffer
    for length in 65_534..65_539 {
        let file = [&short[..], &vec![0x05; length - short.len()]].concat();
        assert_eq!(answer(&file), refusal(2));
    }
}

#[test]
fn no_file() {
    assert_eq!(answer(&[]), refusal(1));
    assert_eq!(answer(&[0x01, 0]), refusal(1));
}

#[test]
fn one_byte_at_a_time() {
    let file = with_readings(plan(2, 10, &[STAY, ANY]), &record(9));
    let said = answer(&file);
    let wrote = written(move |mut stdin| {
        for byte in file {
            stdin.write_all(&[byte]).expect("the program reads on");
            std::thread::sleep(Duration::from_millis(1));
        }
    });
    assert_eq!(wrote, said);
}
