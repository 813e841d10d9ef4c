//! The examples of the scope paper, with exactly sized and with larger buffers.
mod common;
use common::*;

/// Cost and run numbers by a search, the same with exactly sized and with larger buffers.
fn found(plan: &Plan, readings: &[i16]) -> Searched {
    let file = plan.file(&[0]);
    let (words, room) = (plan.words(), 5 * readings.len());
    let exact = search(&file, readings, words, words, room);
    assert_eq!(search(&file, readings, words, words + 7, room + 9), exact);
    exact
}

/// A run in state 0: first, last, level, edge.
fn run(first: i32, last: i32, level: i32, edge: i32) -> [i32; 5] {
    [first, last, 0, level, edge]
}

#[test]
fn toy_data() {
    assert_eq!(found(&plan_a(0, 4, 1), &TOY), Ok((3, [run(1, 3, 1, 255), run(4, 4, 4, 1)].concat())));
    assert_eq!(found(&plan_a(0, 4, 4), &TOY), Ok((9, run(1, 4, 2, 255).to_vec())));
}

#[test]
fn toy_data_with_labels() {
    assert_eq!(found(&plan_a(0, 4, 1).label(1, 4, 0), &TOY), Ok((9, run(1, 4, 2, 255).to_vec())));
    let three = [run(1, 2, 1, 255), run(3, 3, 0, 1), run(4, 4, 4, 1)].concat();
    assert_eq!(found(&plan_a(0, 4, 1).label(2, 3, 1), &TOY), Ok((3, three)));
}

/// Plan B on 1, 5, 5, 1 with these labels.
fn humps(end: u8, labels: &[(u16, u16, u8)]) -> Searched {
    let plan = labels.iter().fold(plan_b(end, 0), |plan, (p, q, c)| plan.label(*p, *q, *c));
    found(&plan, &[1, 5, 5, 1])
}

/// Ticket 2: several changes, one up, one down.
#[test]
fn labels_of_several_changes_and_of_one_kind() {
    let four = [run(1, 1, 2, 255), run(2, 2, 1, 1), run(3, 3, 0, 1), run(4, 4, 4, 1)].concat();
    assert_eq!(found(&plan_a(0, 4, 1).label(1, 4, 3), &TOY), Ok((3, four)));
    for c in [4, 7, 8, 9] {
        // there are three boundaries, and no edge goes up or down
        assert_eq!(found(&plan_a(0, 4, 1).label(1, 4, c), &TOY), Err(16), "{c}");
    }
    let hump = vec![1, 1, 0, 1, 255, 2, 3, 1, 5, 2, 4, 4, 0, 1, 3];
    assert_eq!(humps(1, &[(1, 2, 8), (3, 4, 9)]), Ok((1, hump)));
    assert_eq!(humps(1, &[(2, 3, 8)]), Ok((9, vec![1, 2, 0, 3, 255, 3, 3, 1, 5, 2, 4, 4, 0, 1, 3])));
    assert_eq!(humps(1, &[(1, 4, 8)]), Err(16));
    assert_eq!(humps(3, &[(1, 4, 8)]), Ok((12, vec![1, 1, 0, 1, 255, 2, 4, 1, 4, 2])));
    assert_eq!(humps(3, &[(1, 4, 9)]), Err(16));
}

#[test]
fn cost_at_a_point() {
    let plan = plan_a(0, 4, 1);
    assert_eq!(point(&plan.file(&[0]), &TOY[..2], 0, 0, plan.words(), plan.words()), Ok(2));
    assert_eq!(point(&plan.file(&[0]), &TOY[..2], 0, 0, plan.words(), plan.words() + 5), Ok(2));
}

#[test]
fn negative_levels() {
    assert_eq!(found(&plan_a(-9, 0, 4), &[-3, -4]), Ok((1, run(1, 2, -4, 255).to_vec())));
}

#[test]
fn lower_edge_first_among_equal_costs() {
    assert_eq!(found(&plan_a(0, 9, 0), &[3, 3]), Ok((0, run(1, 2, 3, 255).to_vec())));
    let swapped = Plan::new(0, 9, 1, 1, 1).edge(0, 0, ANY, 0, 0).edge(0, 0, STAY, 0, 0);
    assert_eq!(found(&swapped, &[3, 3]), Ok((0, run(1, 2, 3, 255).to_vec())));
    for kinds in [[UP, ABS], [ABS, UP]] {
        let changes = Plan::new(0, 9, 1, 1, 1).edge(0, 0, kinds[0], 0, 0).edge(0, 0, kinds[1], 0, 0);
        assert_eq!(found(&changes, &[3, 3]), Ok((0, [run(1, 1, 3, 255), run(2, 2, 3, 0)].concat())));
    }
}

/// Ticket 6: among equal costs fewer changes come before a lower edge, a lower last state and a lower last level. One, two and three changes of the toy
/// data cost the same, and a label says which.
#[test]
fn fewer_changes_win_a_tie() {
    let lower_edge = Plan::new(0, 9, 1, 1, 1).edge(0, 0, UP, 0, 0).edge(0, 0, STAY, 0, 0);
    assert_eq!(found(&lower_edge, &[3, 3]), Ok((0, run(1, 2, 3, 255).to_vec())));
    let lower_state = Plan::new(0, 9, 2, 3, 3).edge(0, 0, UP, 0, 0).edge(1, 1, STAY, 0, 0);
    assert_eq!(found(&lower_state, &[3, 3]), Ok((0, vec![1, 2, 1, 3, 255])));
    assert_eq!(found(&plan_a(0, 4, 1), &[1, 1, 0]), Ok((1, run(1, 3, 1, 255).to_vec())));
    // a stay between two states is no change
    let stay = plan_b(2, 0).edge(0, 1, STAY, 0, 1);
    assert_eq!(found(&stay, &[3, 3]), Ok((1, vec![1, 1, 0, 3, 255, 2, 2, 1, 3, 4])));
    for (c, runs) in [
        (1, vec![run(1, 3, 1, 255), run(4, 4, 4, 1)]),
        (2, vec![run(1, 1, 2, 255), run(2, 3, 0, 1), run(4, 4, 4, 1)]),
        (3, vec![run(1, 1, 2, 255), run(2, 2, 1, 1), run(3, 3, 0, 1), run(4, 4, 4, 1)]),
    ] {
        assert_eq!(found(&plan_a(0, 4, 1).label(1, 4, c), &TOY), Ok((3, runs.concat())), "{c}");
    }
}

/// Kind any leads to another level, so a change that a label asks for costs 1 where both readings are equal, and one level leaves none.
#[test]
fn kind_any_moves_the_level() {
    let asked = |lo, hi| plan_a(lo, hi, 0).label(1, 2, 1);
    assert_eq!(found(&asked(0, 9), &[3, 3]), Ok((1, [run(1, 1, 3, 255), run(2, 2, 2, 1)].concat())));
    assert_eq!(found(&asked(3, 4), &[3, 3]), Ok((1, [run(1, 1, 4, 255), run(2, 2, 3, 1)].concat())));
    assert_eq!(found(&asked(3, 3), &[3, 3]), Err(16));
    for (lo, hi, cost) in [(0, 9, Ok(1)), (3, 4, Ok(1)), (3, 3, Err(16))] {
        let plan = asked(lo, hi);
        assert_eq!(point(&plan.file(&[0]), &[3, 3], 0, 3, plan.words(), plan.words()), cost, "{lo} to {hi}");
    }
}

/// The other changes keep the level where their gap is 0.
#[test]
fn other_kinds_may_keep_the_level() {
    for kind in [UP, DOWN, ABS] {
        let plan = Plan::new(3, 3, 1, 1, 1).edge(0, 0, STAY, 0, 0).edge(0, 0, kind, 0, 0).label(1, 2, 1);
        assert_eq!(
            found(&plan, &[3, 3]),
            Ok((0, [run(1, 1, 3, 255), run(2, 2, 3, 1)].concat())),
            "kind {kind}"
        );
    }
}

#[test]
fn up_and_down() {
    let humps = [1, 5, 5, 1];
    let runs = vec![1, 1, 0, 1, 255, 2, 3, 1, 5, 2, 4, 4, 0, 1, 3];
    assert_eq!(found(&plan_b(1, 0), &humps), Ok((1, runs)));
    let (cost, runs) = found(&plan_b(1, 5), &humps).unwrap();
    assert_eq!((cost, runs[3]), (2, 0));
    assert_eq!(found(&plan_b(1, 7), &humps), Ok((16, run(1, 4, 3, 255).to_vec())));
}

#[test]
fn no_allowed_segmentation() {
    assert_eq!(found(&plan_b(2, 0), &[3]), Err(16));
}

#[test]
fn widest_grid() {
    assert_eq!(found(&plan_a(0, 1023, 0), &[1023]), Ok((0, run(1, 1, 1023, 255).to_vec())));
    assert_eq!(read_plan(&plan_a(0, 1024, 0).file(&[0]), 1), Err(4));
}

#[test]
fn whole_file() {
    let plan = [
        0x01, 0, 4, 0, 0, 0, 9, 0x02, 0, 3, 1, 1, 1, 0x03, 0, 6, 0, 0, 0, 0, 0, 0, 0x03, 0, 6, 0, 0, 1, 0, 0, 4, 0x05, 0, 4, 0, 3, 0, 4,
    ];
    let answer = vec![0x81, 0, 8, 0, 0, 0, 0, 0, 0, 0, 1, 0x82, 0, 8, 0, 1, 0, 2, 0, 0, 3, 0xFF];
    let readings = read_plan(&plan, 2).unwrap();
    assert_eq!(readings, [3, 4]);
    let (cost, runs) = search(&plan, &readings, CELL * 10, 7_680, 16_000).unwrap();
    assert_eq!(write_answer(cost, &runs, 22), Ok(answer));
}
