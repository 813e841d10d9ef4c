//! Search and cost at a point: their own refusals, in their order, and rules that the examples do not show.
mod common;
use common::*;

fn toy() -> Vec<u8> {
    plan_a(0, 4, 1).file(&[0])
}

#[test]
fn words_of_the_workspace() {
    assert_eq!((yeldaski::work_words(1, 5), yeldaski::work_words(8, 1_024)), (WORDS_A, 1_572_864));
    // never fewer than are asked for, whatever the numbers
    for (states, levels) in [(usize::MAX, 1), (2, usize::MAX), (1 << 32, 1 << 32), (usize::MAX / CELL + 1, 1)] {
        assert_eq!(yeldaski::work_words(states, levels), usize::MAX);
    }
    assert_eq!(yeldaski::work_words(0, usize::MAX), 0);
}

#[test]
fn search_refuses_in_order() {
    let long = vec![0; 4_097];
    let labelled = plan_a(0, 4, 1).label(1, 4, 0).file(&[0]);
    // 9: none, too many; before 13, 14 and 15
    assert_eq!(search(&labelled, &[], WORDS_A, 0, 0), Err(9));
    assert_eq!(search(&labelled, &long, WORDS_A, 0, 0), Err(9));
    // 13: a label past the record; before 14 and 15
    assert_eq!(search(&labelled, &[0; 3], WORDS_A, 0, 0), Err(13));
    assert_eq!(search(&labelled, &[0; 4], WORDS_A, WORDS_A, 20), Ok((0, vec![1, 4, 0, 0, 255])));
    // 14: one word too few; before 15
    assert_eq!(search(&toy(), &[0; 3], WORDS_A, WORDS_A - 1, 14), Err(14));
    assert_eq!(search(&toy(), &[0; 3], WORDS_A, 0, 15), Err(14));
    // 15: one number too few, though one run would do; before 16
    assert_eq!(search(&toy(), &[0; 3], WORDS_A, WORDS_A, 14), Err(15));
    assert_eq!(search(&plan_b(2, 0).file(&[0]), &[0], WORDS_B, WORDS_B, 4), Err(15));
    // 16
    assert_eq!(search(&plan_b(2, 0).file(&[0]), &[0], WORDS_B, WORDS_B + 3, 6), Err(16));
}

#[test]
fn point_refuses_in_order() {
    let long = vec![0; 4_097];
    // 9, before the state
    assert_eq!(point(&toy(), &[], 9, 9, WORDS_A, 0), Err(9));
    assert_eq!(point(&toy(), &long, 9, 9, WORDS_A, 0), Err(9));
    // 5: state, before the level
    assert_eq!(point(&toy(), &[2], 1, 9, WORDS_A, 0), Err(5));
    assert_eq!(point(&toy(), &[2], 255, 0, WORDS_A, WORDS_A), Err(5));
    // 4: level, before the workspace
    for level in [-1, 5, i16::MIN, i16::MAX] {
        assert_eq!(point(&toy(), &[2], 0, level, WORDS_A, 0), Err(4));
    }
    // 14, before 16
    let b = plan_b(1, 0).file(&[0]);
    assert_eq!(point(&b, &[2], 1, 0, WORDS_B, WORDS_B - 1), Err(14));
    // 16: state 1 is not in the start set
    assert_eq!(point(&b, &[2], 1, 0, WORDS_B, WORDS_B), Err(16));
    assert_eq!(point(&b, &[2], 0, 0, WORDS_B, WORDS_B), Ok(4));
}

/// The end set is ignored, and a label counts only as far as the readings go.
#[test]
fn point_inside_a_label() {
    let ends_in_1 = plan_b(2, 0).file(&[0]);
    assert_eq!(point(&ends_in_1, &[3], 0, 3, WORDS_B, WORDS_B), Ok(0));
    // boundary 1 lies in the label, which allows no change: both readings at level 0
    let none = plan_a(0, 4, 1).label(1, 4, 0).file(&[0]);
    assert_eq!(point(&none, &[2, 1], 0, 0, WORDS_A, WORDS_A), Ok(4 + 1));
    // it allows one: cheaper with a change of penalty 1
    let one = plan_a(0, 4, 1).label(1, 4, 1).file(&[0]);
    assert_eq!(point(&one, &[2, 1], 0, 0, WORDS_A, WORDS_A), Ok(2));
    // and closed at reading 2 it asks for exactly one, from another level
    let closed = plan_a(0, 4, 1).label(1, 2, 1).file(&[0]);
    assert_eq!(point(&closed, &[1, 1], 0, 1, WORDS_A, WORDS_A), Ok(1 + 1));
}

/// Inside an open label of several changes at most so many have happened, though as many cannot be reached any more; a closed one has exactly so many.
#[test]
fn point_inside_a_label_of_several_changes() {
    let at_0 = |q: u16, c: u8, readings: &[i16]| point(&plan_a(0, 4, 1).label(1, q, c).file(&[0]), readings, 0, 0, WORDS_A, WORDS_A);
    // With one change 4, 0 and 4 share a level and leave 11 at least, with two 0 and 4 do and leave 8; with three nothing is left.
    let jumps = [Ok(32), Ok(12), Ok(10), Ok(3)];
    // Each change leads to another level, and the last one to 0: with one or two of them one reading is 1 off, with three two are.
    let flat = [Ok(0), Ok(1 + 1), Ok(2 + 1), Ok(3 + 2)];
    for c in 0..=7 {
        let most = usize::from(c.min(3));
        assert_eq!(at_0(5, c, &[4, 0, 4, 0]), jumps[most], "{c}");
        assert_eq!(at_0(5, c, &[0, 0, 0, 0]), flat[0], "{c}");
        let exactly = |costs: [Result<u64, u8>; 4]| if c <= 3 { costs[most] } else { Err(16) };
        assert_eq!(at_0(4, c, &[4, 0, 4, 0]), exactly(jumps), "{c}");
        assert_eq!(at_0(4, c, &[0, 0, 0, 0]), exactly(flat), "{c}");
    }
}

/// Inside an open label 8 or 9 at most one change has happened, and it has that kind.
#[test]
fn point_inside_a_label_of_one_kind() {
    // state 1 is reached by the up, so that the down is a second change
    let b = |c: u8| plan_b(1, 0).label(1, 9, c).file(&[0]);
    let at = |c: u8, readings: &[i16], state: u8, level: i16| point(&b(c), readings, state, level, WORDS_B, WORDS_B);
    for c in [8, 9] {
        assert_eq!(at(c, &[1], 0, 1), Ok(0));
        assert_eq!(at(c, &[1, 5], 0, 1), Ok(16));
    }
    assert_eq!(at(8, &[1, 5], 1, 5), Ok(1));
    assert_eq!(at(9, &[1, 5], 1, 5), Err(16));
    assert_eq!(at(8, &[1, 5, 1], 0, 1), Ok(16));
    assert_eq!(at(8, &[1, 5, 1], 1, 1), Ok(17));
    // from state 1 on, the down alone
    let mut from_1 = plan_b(1, 0);
    from_1.start = 2;
    let from_1 = |c: u8| from_1.clone().label(1, 9, c).file(&[0]);
    assert_eq!(point(&from_1(9), &[5, 1], 0, 1, WORDS_B, WORDS_B), Ok(0));
    assert_eq!(point(&from_1(8), &[5, 1], 0, 1, WORDS_B, WORDS_B), Err(16));
    // closed at the second reading they ask for exactly one
    let closed = |c: u8, state: u8| point(&plan_b(1, 0).label(1, 2, c).file(&[0]), &[1, 5], state, 5, WORDS_B, WORDS_B);
    assert_eq!(
        [closed(8, 0), closed(8, 1), closed(9, 0), closed(9, 1)],
        [Err(16), Ok(1), Err(16), Err(16)]
    );
    // any and abs are neither up nor down, whichever way the level goes
    for kind in [ANY, ABS] {
        let plan = Plan::new(0, 4, 1, 1, 1).edge(0, 0, STAY, 0, 0).edge(0, 0, kind, 0, 0);
        for c in [8, 9] {
            let file = plan.clone().label(1, 9, c).file(&[0]);
            assert_eq!(point(&file, &[0, 4], 0, 4, WORDS_A, WORDS_A), Ok(16));
            assert_eq!(point(&file, &[4, 0], 0, 0, WORDS_A, WORDS_A), Ok(16));
        }
    }
}

/// The readings in the file are not looked at, and the record may be longer or shorter than they are.
#[test]
fn readings_of_the_file_do_not_count() {
    let file = plan_a(0, 4, 1).file(&[4, 4, 4]);
    assert_eq!(search(&file, &[2], WORDS_A, WORDS_A, 5), Ok((0, vec![1, 1, 0, 2, 255])));
    assert_eq!(point(&file, &[2], 0, 0, WORDS_A, WORDS_A), Ok(4));
}

#[test]
fn longest_record() {
    let mut readings = vec![-20_000; 4_096];
    readings[2_000..].fill(-19_990);
    let plan = plan_a(-20_001, -19_989, 2);
    let runs = vec![1, 2_000, 0, -20_000, 255, 2_001, 4_096, 0, -19_990, 1];
    assert_eq!(search(&plan.file(&[0]), &readings, plan.words(), plan.words(), 5 * 4_096), Ok((2, runs)));
}

/// Both ends of the 16-bit levels, and readings off the grid: the cost is 4,096 times the largest square.
#[test]
fn largest_numbers() {
    let plan = plan_a(i16::MIN, i16::MIN, 15);
    let cost = 4_096 * 65_535u64 * 65_535;
    let readings = vec![i16::MAX; 4_096];
    let runs = vec![1, 4_096, 0, -32_768, 255];
    assert_eq!(search(&plan.file(&[0]), &readings, CELL, CELL, 5 * 4_096), Ok((cost, runs)));
    assert_eq!(point(&plan.file(&[0]), &readings, 0, i16::MIN, CELL, CELL), Ok(cost));
}
