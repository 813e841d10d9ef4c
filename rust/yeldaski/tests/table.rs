//! The costs for each number of changes: the examples, the refusals in their order, and what the call leaves in the lent lists.
mod common;
use common::*;

/// Stands where no segmentation has that many changes.
const NONE: u64 = u64::MAX;
/// The most changes that a table may be asked for.
const MOST: usize = 32;

/// The costs, the same with exactly sized and with larger buffers; with a workspace one too short it is 14, with a list one too short 15, where there
/// are costs or none is allowed.
fn costs(plan: &Plan, readings: &[i16], most: usize) -> Result<Vec<u64>, u8> {
    let (file, words) = (plan.file(&[0]), plan.table_words(most));
    let exact = table(&file, readings, most, words, words, most + 1);
    assert_eq!(table(&file, readings, most, words, words + 7, most + 10), exact);
    if matches!(exact, Ok(_) | Err(16)) {
        assert_eq!(table(&file, readings, most, words, words - 1, most + 1), Err(14));
        assert_eq!(table(&file, readings, most, words, words, most), Err(15));
    }
    exact
}

#[test]
fn toy_data() {
    let a = plan_a(0, 4, 1);
    let whole = [9, 3, 3, 3, NONE];
    for most in 0..5 {
        assert_eq!(costs(&a, &TOY, most), Ok(whole[..=most].to_vec()));
    }
    assert_eq!(costs(&a, &TOY, MOST), Ok([&whole[..], &[NONE; 28]].concat()));
    assert_eq!(costs(&a, &TOY, 33), Err(20));
    assert_eq!(costs(&plan_a(0, 4, 4), &TOY, 3), Ok(vec![9, 12, 21, 30]));
}

/// A label shuts out numbers of changes, and a change inside it counts as any other.
#[test]
fn toy_data_with_labels() {
    let asked = |p, q, c| plan_a(0, 4, 1).label(p, q, c);
    assert_eq!(costs(&asked(2, 3, 1), &TOY, 4), Ok(vec![NONE, 10, 3, 3, NONE]));
    assert_eq!(costs(&asked(1, 4, 0), &TOY, 3), Ok(vec![9, NONE, NONE, NONE]));
    assert_eq!(costs(&asked(1, 4, 3), &TOY, 3), Ok(vec![NONE, NONE, NONE, 3]));
    // only more changes than are asked for: no refusal
    assert_eq!(costs(&asked(1, 4, 3), &TOY, 1), Ok(vec![NONE, NONE]));
    assert_eq!(costs(&asked(1, 4, 3), &TOY, 0), Ok(vec![NONE]));
    for most in [0, 3, MOST] {
        assert_eq!(costs(&asked(1, 4, 4), &TOY, most), Err(16));
    }
}

#[test]
fn up_and_down() {
    for (end, gap, wanted) in [
        (1, 0, [16, NONE, 1, NONE, NONE]),
        (1, 5, [16, NONE, 2, NONE, NONE]),
        (1, 7, [16, NONE, NONE, NONE, NONE]),
        (2, 0, [NONE, 12, NONE, 10, NONE]),
        (2, 5, [NONE, 18, NONE, 44, NONE]),
        (3, 0, [16, 12, 1, 10, NONE]),
    ] {
        assert_eq!(costs(&plan_b(end, gap), &HUMPS, 4), Ok(wanted.to_vec()), "end {end}, gap {gap}");
    }
    assert_eq!(costs(&plan_b(2, 0), &[3], 2), Err(16));
    assert_eq!(costs(&plan_b(2, 7), &HUMPS, 4), Err(16));
    assert_eq!(costs(&plan_b(3, 0).label(1, 4, 8), &HUMPS, 4), Ok(vec![NONE, 12, NONE, NONE, NONE]));
    let both = plan_b(1, 0).label(1, 2, 8).label(3, 4, 9);
    assert_eq!(costs(&both, &HUMPS, 4), Ok(vec![NONE, NONE, 1, NONE, NONE]));
}

/// A stay is no change, also between two states, and its penalty counts.
#[test]
fn stays() {
    let plan = Plan::new(0, 4, 2, 1, 2).edge(0, 0, STAY, 0, 2).edge(0, 1, STAY, 0, 3);
    let plan = plan.edge(1, 1, STAY, 0, 0).edge(1, 1, ANY, 0, 1);
    assert_eq!(costs(&plan, &TOY, 3), Ok(vec![14, 8, 8, NONE]));
}

/// Kind any leads to another level; the other changes may keep it where their gap is 0, and are changes all the same.
#[test]
fn changes_at_equal_levels() {
    assert_eq!(costs(&plan_a(0, 9, 0), &[3, 3], 1), Ok(vec![0, 1]));
    assert_eq!(costs(&plan_a(3, 3, 0), &[3, 3], 1), Ok(vec![0, NONE]));
    for kind in [UP, DOWN, ABS] {
        let plan = Plan::new(3, 3, 1, 1, 1).edge(0, 0, STAY, 0, 0).edge(0, 0, kind, 0, 2);
        assert_eq!(costs(&plan, &[3, 3, 3], 3), Ok(vec![0, 2, 4, NONE]), "kind {kind}");
    }
}

/// With a stay between two states, too.
fn mixed() -> Plan {
    common::mixed(-9).edge(2, 1, STAY, 0, 3)
}

fn rough(n: usize) -> Vec<i16> {
    (0..n as i32).map(|i| (i * i * 7 % 23 - 12) as i16).collect()
}

/// A label over the whole record asks for exactly c changes, up to 7, so that a search with it finds entry c.
#[test]
fn entries_by_searches_with_a_label() {
    for (plan, n) in [(mixed(), 40), (mixed(), 3), (plan_a(-9, 6, 5), 60), (plan_b(3, 2), 12), (plan_b(2, 7), 8)] {
        let (readings, words) = (rough(n), plan.words());
        let entry = |c| search(&plan.clone().label(1, n as u16, c).file(&[0]), &readings, words, words, 5 * n).map(|found| found.0);
        let wanted: Vec<u64> = (0..8).map(|c| entry(c).unwrap_or(NONE)).collect();
        let found = costs(&plan, &readings, 7);
        match wanted.iter().all(|cost| *cost == NONE) {
            true => assert_eq!(found, Err(16)),
            false => assert_eq!(found, Ok(wanted), "{n} readings"),
        }
    }
}

/// The smallest entry is the cost of the search where its answer has at most K changes; otherwise no entry is cheaper.
#[test]
fn smallest_entry() {
    for plan in [mixed(), mixed().label(3, 9, 2).label(9, 20, 1), plan_a(-9, 6, 2), plan_a(-9, 6, 6)] {
        let (readings, words) = (rough(30), plan.words());
        let (cost, runs) = search(&plan.file(&[0]), &readings, words, words, 150).expect("an answer");
        let kind = |edge: i32| plan.edges[edge as usize * 9 + 5];
        let changes = runs.chunks(5).skip(1).filter(|run| kind(run[4]) != STAY).count();
        for most in [0, 1, 2, 3, 5, 8, 13, 21, MOST] {
            let least = costs(&plan, &readings, most).expect("a table").into_iter().min().expect("an entry");
            assert!(least == cost || most < changes && least > cost, "{changes} changes, K = {most}");
        }
    }
}

/// What can be wrong with a call, in the order of the refusals; 1 stands for all numbers of the plan reader.
const ORDER: [u8; 7] = [1, 9, 13, 20, 14, 15, 16];

/// A call with these things wrong.
fn with_wrong(wrong: &Wrong) -> Result<Vec<u64>, u8> {
    let (has, other) = (|number| wrong.has(number), wrong.other);
    let mut plan = wrong.plan();
    if has(13) {
        plan = plan.label(1, if other { 4_096 } else { 7 }, 1);
    }
    let wrong_most = if other { usize::MAX } else { 33 };
    let most = if has(20) { wrong_most } else { 2 };
    let need = 3 * WORDS_B;
    // as much as a search needs is too little
    let words = if !has(14) { need } else { [WORDS_B, need - 1][usize::from(other)] };
    let room = if !has(15) { 3 } else { 2 * usize::from(other) };
    table(&wrong.file(&plan), &wrong.record(6, 4_097), most, need, words, room)
}

#[test]
fn refuses_in_order() {
    // the record ends in state 1, so that the number of changes is odd, and one of them may keep the level
    earliest_refusal(&ORDER, with_wrong, |_| vec![NONE, 1, NONE]);
}

/// Every K that is refused, also where adding one to it or multiplying by it would not fit.
#[test]
fn numbers_of_changes() {
    let plan = plan_a(0, 4, 1);
    let (file, words) = (plan.file(&[0]), plan.table_words(33));
    for most in [
        33,
        34,
        64,
        255,
        256,
        65_535,
        65_536,
        (1 << 32) - 1,
        1 << 32,
        (1 << 32) + 4,
        1 << 63,
        usize::MAX - 1,
        usize::MAX,
    ] {
        for (lent, room) in [(words, 40), (words, 0), (0, 40), (0, 0)] {
            assert_eq!(table(&file, &TOY, most, words, lent, room), Err(20), "{most}");
        }
    }
    assert_eq!(costs(&plan, &TOY, MOST).map(|costs| costs.len()), Ok(33));
}

/// Words for the largest plan and the longest table, and for what no plan has.
#[test]
fn words() {
    assert_eq!(yeldaski::table_words(1, 5, 0), WORDS_A);
    assert_eq!(yeldaski::table_words(2, 7, 4), 5 * WORDS_B);
    assert_eq!(yeldaski::table_words(8, 1_024, 32), 51_904_512);
    assert_eq!(yeldaski::table_words(8, 1_024, usize::MAX), usize::MAX);
    assert_eq!(yeldaski::table_words(usize::MAX, 2, 3), usize::MAX);
}

/// The longest record: with equal readings each change costs its penalty alone.
#[test]
fn longest_record() {
    let plan = Plan::new(-3, 3, 1, 1, 1).edge(0, 0, STAY, 0, 0).edge(0, 0, UP, 0, 3);
    let readings = vec![2; 4_097];
    let wanted: Vec<u64> = (0..=32).map(|k| 5 * k).collect();
    assert_eq!(costs(&plan, &readings[..4_096], MOST), Ok(wanted));
    assert_eq!(costs(&plan, &readings, MOST), Err(9));
    // a label may end with the record, and not after it
    let first = plan.clone().label(1, 4_096, 0);
    assert_eq!(costs(&first, &readings[..4_096], 2), Ok(vec![0, NONE, NONE]));
    assert_eq!(costs(&first, &readings[..4_095], 2), Err(13));
}

/// Without a stay every boundary is a change, so that a record of n readings has n - 1 of them and no other number.
#[test]
fn a_change_at_every_boundary() {
    let plan = Plan::new(0, 4, 1, 1, 1).edge(0, 0, ABS, 0, 1);
    for n in [1, 2, 3, 32, 33, 34, 35, 200] {
        let readings: Vec<i16> = (0..n as i16).map(|i| i * 3 % 5).collect();
        for most in [0, 1, 31, MOST] {
            let entry = |k: usize| if k == n - 1 { k as u64 } else { NONE };
            assert_eq!(
                costs(&plan, &readings, most),
                Ok((0..=most).map(entry).collect()),
                "{n} readings, K = {most}"
            );
        }
    }
}

/// The largest costs: 4,096 times the largest square, and the dearest changes.
#[test]
fn largest_numbers() {
    let plan = Plan::new(i16::MIN, i16::MIN, 1, 1, 1).edge(0, 0, STAY, 0, 15).edge(0, 0, ABS, 0, 15);
    let losses = 4_096 * 65_535 * 65_535 + 4_095 * 50_000;
    assert_eq!(costs(&plan, &[i16::MAX; 4_096], 2), Ok(vec![losses; 3]));
    let free = Plan::new(i16::MIN, i16::MIN, 1, 1, 1).edge(0, 0, STAY, 0, 0).edge(0, 0, ABS, 0, 15);
    let wanted: Vec<u64> = (0..=32).map(|k| 4_096 * 65_535 * 65_535 + 50_000 * k).collect();
    assert_eq!(costs(&free, &[i16::MAX; 4_096], MOST), Ok(wanted));
}

/// The largest plan, of 8 states and 1,024 levels, and the longest table: a ladder with a state for each level of the record.
#[test]
fn largest_workspace() {
    let mut plan = Plan::new(0, 1_023, 8, 1, 255);
    for s in 0..8 {
        plan = plan.edge(s, s, STAY, 0, 0);
    }
    for s in 0..7 {
        plan = plan.edge(s, s + 1, UP, 100, 1);
    }
    let readings: Vec<i16> = (0..16).map(|i| i / 2 * 100).collect();
    let words = plan.table_words(MOST);
    let found = table(&plan.file(&[0]), &readings, MOST, words, words, 33).expect("a table");
    // without a change level 350, 50, 150, 250 and 350 away from four readings each
    assert_eq!(found[0], 4 * (2_500 + 22_500 + 62_500 + 122_500));
    assert!(found[..8].windows(2).all(|pair| pair[1] < pair[0]), "{found:?}");
    assert_eq!(found[7..], [&[7][..], &[NONE; 25]].concat());
}

/// The readings in the file are not looked at.
#[test]
fn readings_of_the_file_do_not_count() {
    let plan = plan_a(0, 4, 1);
    for of_file in [vec![4], vec![4, 4, 0], vec![-1; 4_096]] {
        let words = plan.table_words(4);
        let found = table(&plan.file(&of_file), &TOY, 4, words, words, 5);
        assert_eq!(found, Ok(vec![9, 3, 3, 3, NONE]));
    }
}

/// 16 only where there is no segmentation at all. The list stays and the workspace is cleared, which `table` looks at.
#[test]
fn no_allowed_segmentation() {
    let no_edge = Plan::new(0, 6, 1, 1, 1);
    for most in [0, 1, MOST] {
        let entries = [&[0][..], &vec![NONE; most]].concat();
        assert_eq!(costs(&no_edge, &[5], most), Ok(entries));
        assert_eq!(costs(&no_edge, &HUMPS, most), Err(16));
        assert_eq!(costs(&plan_b(2, 7), &HUMPS, most), Err(16));
        // two changes in a row are the least that leads from state 0 to state 2
        let far = Plan::new(0, 6, 3, 1, 4).edge(0, 1, UP, 0, 0).edge(1, 2, UP, 0, 0);
        assert_eq!(costs(&far, &HUMPS[..2], most), Err(16));
        let found = costs(&far, &HUMPS[..3], most).expect("a table");
        assert!(found
            .iter()
            .enumerate()
            .all(|(k, cost)| (k == 2) == (*cost == 0) && (k == 2 || *cost == NONE)));
    }
}
