//! Answer files, read and written.
mod common;
use common::*;

fn run_field(first: u16, last: u16, state: u8, level: i16, edge: u8) -> Vec<u8> {
    let (f, l, m) = (first.to_be_bytes(), last.to_be_bytes(), level.to_be_bytes());
    field(0x82, &[f[0], f[1], l[0], l[1], state, m[0], m[1], edge])
}

/// The longest answer: 4,096 runs, with the ends of all ranges.
fn longest() -> (u64, Vec<i32>, Vec<u8>) {
    let cost = u64::MAX - 5;
    let (mut numbers, mut file) = (vec![], field(0x81, &cost.to_be_bytes()));
    for i in 1..=4_096u16 {
        let (state, level) = ((i % 8) as u8, (i as i32 * 16 - 32_769) as i16);
        let edge = if i == 1 { 255 } else { (i % 32) as u8 };
        numbers.extend([i as i32, i as i32, state as i32, level as i32, edge as i32]);
        file.extend(run_field(i, i, state, level, edge));
    }
    (cost, numbers, file)
}

#[test]
fn reading_and_writing_runs() {
    let short = (
        1,
        vec![1, 2, 0, 3, 255],
        [field(0x81, &[0, 0, 0, 0, 0, 0, 0, 1]), run_field(1, 2, 0, 3, 255)].concat(),
    );
    for (cost, numbers, file) in [short, longest()] {
        let (room, size) = (numbers.len(), file.len());
        assert_eq!(read_answer(&file, room), Ok(Ok((cost, numbers.clone()))));
        assert_eq!(read_answer(&file, room + 6), Ok(Ok((cost, numbers.clone()))));
        assert_eq!(read_answer(&file, room - 1), Err(15));
        assert_eq!(read_answer(&file, 0), Err(15));
        assert_eq!(write_answer(cost, &numbers, size).as_ref(), Ok(&file));
        assert_eq!(write_answer(cost, &numbers, size + 5).as_ref(), Ok(&file));
        assert_eq!(write_answer(cost, &numbers, size - 1), Err(15));
        assert_eq!(write_answer(cost, &numbers, 0), Err(15));
    }
}

#[test]
fn reading_and_writing_refusals() {
    for number in 0..=255 {
        let file = field(0x83, &[number]);
        if (1..=20).contains(&number) {
            assert_eq!(write_refusal(number, 4).as_ref(), Ok(&file));
            assert_eq!(write_refusal(number, 9).as_ref(), Ok(&file));
            assert_eq!(write_refusal(number, 3), Err(15));
            assert_eq!(write_refusal(number, 0), Err(15));
            assert_eq!(read_answer(&file, 0), Ok(Err(number)));
            assert_eq!(read_answer(&file, 9), Ok(Err(number)));
        } else {
            // 17 comes before 15
            assert_eq!(write_refusal(number, 0), Err(17));
            assert_eq!(write_refusal(number, 9), Err(17));
            assert_eq!(read_answer(&file, 9), Err(17));
        }
    }
}

#[test]
fn reader_refuses_in_order() {
    let cost = field(0x81, &[0; 8]);
    let first = run_field(1, 2, 0, 3, 255);
    let whole = [&cost[..], &first].concat();
    let held = field(0x83, &[16]);
    // 1: every cut file, one or two bytes after a field
    for n in 0..whole.len() {
        assert_eq!(read_answer(&whole[..n], 9), Err(1));
    }
    for tail in [&[0x82][..], &[0x82, 0], &[0], &[0, 0]] {
        assert_eq!(read_answer(&[&whole, tail].concat(), 0), Err(1));
        assert_eq!(read_answer(&[&held, tail].concat(), 0), Err(1));
    }
    // 2: no such tag there, before its length
    let after = [&[0x81, 9, 9][..], &[0x83, 9, 9], &[0x05, 9, 9], &[0x80, 9, 9]];
    for tail in after {
        assert_eq!(read_answer(&[&whole, tail].concat(), 0), Err(2));
        assert_eq!(read_answer(&[&held, tail].concat(), 0), Err(2));
    }
    assert_eq!(read_answer(&[&held[..], &[0x82, 9, 9]].concat(), 0), Err(2));
    assert_eq!(read_answer(&first, 9), Err(2));
    // 3: wrong length, before a cut body
    for cut in [&[0x81, 0, 7][..], &[0x81, 1, 8], &[0x83, 0, 2], &[0x83, 0, 0]] {
        assert_eq!(read_answer(cut, 0), Err(3));
    }
    assert_eq!(read_answer(&[&cost[..], &[0x82, 0, 9]].concat(), 0), Err(3));
    // a refused field ends the reading: 17 before what stands behind it
    assert_eq!(read_answer(&[&cost[..], &run_field(2, 2, 0, 3, 255), &[9]].concat(), 0), Err(17));
    assert_eq!(read_answer(&[&field(0x83, &[21])[..], &[9]].concat(), 0), Err(17));
    // and the end of the file before 15
    assert_eq!(read_answer(&[&whole[..], &[0x82, 0]].concat(), 0), Err(1));
}

/// Run numbers that 17 refuses in reading and in writing.
fn wrong_runs() -> Vec<[i32; 10]> {
    let good = [1, 2, 0, 3, 255, 3, 4, 7, -3, 31];
    let changes = [
        (0, 0),
        (0, 2),
        (1, 0),
        (5, 2),
        (5, 4),
        (6, 2),
        (6, 4_097),
        (2, 8),
        (7, 255),
        (4, 0),
        (4, 254),
        (9, 32),
        (9, 255),
    ];
    changes
        .map(|(at, value)| {
            let mut numbers = good;
            numbers[at] = value;
            numbers
        })
        .to_vec()
}

#[test]
fn runs_that_do_not_fit() {
    for n in wrong_runs() {
        let fields = [0, 5].map(|i| run_field(n[i] as u16, n[i + 1] as u16, n[i + 2] as u8, n[i + 3] as i16, n[i + 4] as u8));
        let file = [field(0x81, &[0; 8]), fields.concat()].concat();
        assert_eq!(read_answer(&file, 10), Err(17), "{n:?}");
        // 17 comes before 15
        assert_eq!(read_answer(&file, 0), Err(17), "{n:?}");
        assert_eq!(write_answer(1, &n, 50), Err(17), "{n:?}");
        assert_eq!(write_answer(1, &n, 0), Err(17), "{n:?}");
    }
}

/// What only a list of numbers can have wrong: no runs, a part of a run, numbers that no field could hold.
#[test]
fn lists_that_do_not_fit() {
    let good = [1, 2, 0, 3, 255, 3, 4, 7, -3, 31];
    assert!(write_answer(1, &good, 50).is_ok());
    for length in [0, 1, 4, 6, 9] {
        assert_eq!(write_answer(1, &good[..length], 0), Err(17));
        assert_eq!(write_answer(1, &good[..length], 50), Err(17));
    }
    let wide = [
        (3, 32_768),
        (3, -32_769),
        (8, i32::MAX),
        (8, i32::MIN),
        (0, 65_537),
        (1, 65_538),
        (2, 256),
        (2, -1),
        (4, 511),
        (9, 287),
        (9, -1),
    ];
    for (at, value) in wide {
        let mut numbers = good;
        numbers[at] = value;
        assert_eq!(write_answer(1, &numbers, 50), Err(17), "{at} {value}");
    }
}
