//! The moving window: its examples, its refusals in their order, and what it leaves in the lent lists.
mod common;
use common::*;

/// The costs, the same with exactly sized and with larger buffers; with a list one too short it is 15, where there are costs or none is allowed.
fn costs(plan: &Plan, record: &[i16], w: usize) -> Result<Vec<u64>, u8> {
    let (file, words) = (plan.file(&[0]), plan.words());
    let starts = (record.len() + 1).saturating_sub(w);
    let exact = windows(&file, record, w, words, words, starts);
    assert_eq!(windows(&file, record, w, words, words + 7, starts + 9), exact);
    if matches!(exact, Ok(_) | Err(16)) {
        assert_eq!(windows(&file, record, w, words, words, starts - 1), Err(15));
    }
    exact
}

/// The costs of all parts by searches of their own.
fn by_searches(plan: &Plan, record: &[i16], w: usize) -> Result<Vec<u64>, u8> {
    let (file, words) = (plan.file(&[0]), plan.words());
    let searched = |part| search(&file, part, words, words, 5 * w).map(|found| found.0);
    record.windows(w).map(searched).collect()
}

#[test]
fn toy_data() {
    let a = plan_a(0, 4, 1);
    assert_eq!(costs(&a, &TOY, 1), Ok(vec![0, 0, 0, 0]));
    assert_eq!(costs(&a, &TOY, 2), Ok(vec![1, 1, 1]));
    assert_eq!(costs(&a, &TOY, 3), Ok(vec![2, 2]));
    assert_eq!(costs(&a, &TOY, 4), Ok(vec![3]));
    assert_eq!(costs(&a, &TOY, 5), Err(19));
}

#[test]
fn up_and_down() {
    assert_eq!(costs(&plan_b(1, 0), &HUMPS, 2), Ok(vec![8, 0, 8]));
    assert_eq!(costs(&plan_b(2, 0), &HUMPS, 2), Ok(vec![1, 1, 9]));
    // each part starts in state 0, so that one of a single reading cannot end in state 1
    assert_eq!(costs(&plan_b(2, 0), &HUMPS, 1), Err(16));
}

/// A part starts anew: nothing of the readings before it counts, and its first state is in the start set.
#[test]
fn parts_by_searches_of_their_own() {
    let record: Vec<i16> = (0..90).map(|i| (i * i * 7 % 41 - 27) as i16).collect();
    for plan in [mixed(-20), plan_a(-25, 9, 5), plan_a(-12, -12, 2)] {
        for w in [1, 2, 7, 64, 89, 90] {
            let parts = by_searches(&plan, &record, w);
            assert!(parts.as_ref().is_ok_and(|parts| parts.len() == 91 - w));
            assert_eq!(costs(&plan, &record, w), parts, "w {w}");
        }
    }
}

/// What can be wrong with a call, in the order of the refusals; 1 stands for all numbers of the plan reader.
const ORDER: [u8; 7] = [1, 9, 18, 19, 14, 15, 16];

/// A call with these things wrong.
fn with_wrong(wrong: &Wrong) -> Result<Vec<u64>, u8> {
    let (has, other) = (|number| wrong.has(number), wrong.other);
    let (n, w) = (if other { 1_030 } else { 6 }, 3);
    let mut plan = wrong.plan();
    if has(18) {
        // also a label that reaches past the record is 18
        plan = plan.label(1, if other { 4_096 } else { 2 }, 0);
    }
    let wrong_w = if other { 1_025 } else { n + 1 };
    let width = if has(19) { wrong_w } else { w };
    let words = if !has(14) { WORDS_B } else { (WORDS_B - 1) * usize::from(other) };
    let room = if !has(15) { n - w + 1 } else { (n - w) * usize::from(other) };
    windows(&wrong.file(&plan), &wrong.record(n, 65_536), width, WORDS_B, words, room)
}

#[test]
fn refuses_in_order() {
    earliest_refusal(&ORDER, with_wrong, |other| vec![1; if other { 1_028 } else { 4 }]);
}

/// Every w that is refused, with a record that is long enough for all that could be taken for a smaller one.
#[test]
fn widths() {
    let plan = plan_a(0, 4, 1);
    let (file, words) = (plan.file(&[0]), plan.words());
    let record = vec![1; 1_030];
    let wide = [
        1_025,
        1_026,
        1_030,
        1_031,
        65_535,
        65_536,
        65_537,
        (1 << 32) + 1,
        (1 << 63) + 1,
        usize::MAX,
    ];
    for w in [0].into_iter().chain(wide) {
        for (lent, room) in [(words, 1_040), (words, 0), (0, 1_040), (0, 0)] {
            assert_eq!(windows(&file, &record, w, words, lent, room), Err(19), "{w}");
        }
    }
    assert_eq!(costs(&plan, &record, 1_024), Ok(vec![0; 7]));
    assert_eq!(costs(&plan, &record[..1_024], 1_024), Ok(vec![0]));
    assert_eq!(windows(&file, &record[..1_023], 1_024, words, words, 9), Err(19));
    assert_eq!(windows(&file, &record[..1], 2, words, words, 9), Err(19));
}

/// Readings around the grid -3..3, all different from their neighbours.
fn long_record(n: usize) -> Vec<i16> {
    (0..n).map(|i| (i * 7 % 19) as i16 - 9).collect()
}

#[test]
fn longest_record() {
    let record = long_record(65_536);
    // without a stay the level is chosen for each reading, at a penalty of 2 between two of them
    let plan = Plan::new(-3, 3, 1, 1, 1).edge(0, 0, ANY, 0, 2);
    let losses: Vec<u64> = record.iter().map(|z| u64::from(z.unsigned_abs().saturating_sub(3)).pow(2)).collect();
    for w in [1, 2, 3] {
        let wanted: Vec<u64> = losses[..65_535]
            .windows(w)
            .map(|part| part.iter().sum::<u64>() + 2 * (w as u64 - 1))
            .collect();
        // no `assert_eq`: it would print all of them
        assert!(costs(&plan, &record[..65_535], w) == Ok(wanted), "w {w}");
        assert_eq!(costs(&plan, &record, w), Err(9));
    }
    assert_eq!(
        windows(&plan.file(&[0]), &record[..65_535], 1_025, plan.words(), plan.words(), 65_535),
        Err(19)
    );
}

/// The widest part at both ends of the 16-bit numbers: its cost is 1,024 times the largest square, and one reading less far off shows in all
/// parts that have it.
#[test]
fn largest_numbers() {
    let plan = plan_a(i16::MIN, i16::MIN, 15);
    let square = |z: i64| ((z + 32_768) * (z + 32_768)) as u64;
    let mut record = vec![i16::MAX; 1_030];
    assert_eq!(costs(&plan, &record, 1_024), Ok(vec![1_024 * square(32_767); 7]));
    record[2] = i16::MIN + 5;
    let (with, without) = (1_023 * square(32_767) + 25, 1_024 * square(32_767));
    assert_eq!(
        costs(&plan, &record, 1_024),
        Ok(vec![with, with, with, without, without, without, without])
    );
}

/// The readings in the file are not looked at.
#[test]
fn readings_of_the_file_do_not_count() {
    let plan = plan_a(0, 4, 1);
    for of_file in [vec![4], vec![4, 4, 0], vec![-1; 4_096]] {
        let found = windows(&plan.file(&of_file), &TOY, 2, plan.words(), plan.words(), 3);
        assert_eq!(found, Ok(vec![1, 1, 1]));
    }
}

/// 16 for every part or for none. The list stays and the workspace is cleared, which `windows` looks at.
#[test]
fn no_allowed_segmentation() {
    let no_edge = Plan::new(0, 6, 1, 1, 1);
    assert_eq!(costs(&no_edge, &HUMPS, 1), Ok(vec![0; 4]));
    for w in 2..=4 {
        assert_eq!(costs(&no_edge, &HUMPS, w), Err(16));
    }
    for w in 1..=4 {
        assert_eq!(costs(&plan_b(2, 7), &HUMPS, w), Err(16));
    }
}
