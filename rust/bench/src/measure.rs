//! Three programmes on one case: first their answers compared, then their times.
use crate::cases::Case;
use crate::model::Answer;
use crate::search::Stats;
use crate::{clock, dense, search};
use std::hint::black_box;

/// Least times in milliseconds.
#[derive(Clone, Copy)]
pub struct Times {
    pub proved: f64,
    pub rust: f64,
    pub dense: f64,
}

impl Times {
    pub const NONE: Times = Times {
        proved: f64::MAX,
        rust: f64::MAX,
        dense: f64::MAX,
    };
}

pub struct Measured {
    pub name: String,
    pub stats: Stats,
    /// Steps forward of a whole search, in records.
    pub passes: f64,
    pub whole: Times,
    pub cost: Times,
}

struct Buffers {
    file: Vec<u8>,
    workspace: Vec<u64>,
    runs: Vec<i32>,
}

impl Buffers {
    fn of(case: &Case) -> Buffers {
        Buffers {
            file: case.plan.file(),
            workspace: vec![0; yeldaski::work_words(case.plan.states, case.plan.levels())],
            runs: vec![0; 5 * case.readings.len()],
        }
    }
}

/// Calls, and keeps the time where it is the least.
pub fn time<R>(least: &mut f64, call: impl FnOnce() -> R) {
    let start = clock::now();
    black_box(call());
    *least = least.min((clock::now() - start).as_secs_f64() * 1e3);
}

/// Runs all calls in turn, so that a busy moment of the machine does not fall on one of them only, and keeps the least time of each.
pub fn measure(case: &Case, repeats: usize) -> Measured {
    let (plan, z) = (&case.plan, &case.readings[..]);
    let mut b = Buffers::of(case);
    let (answer, steps) = check(case, &mut b);
    let end = answer.runs[answer.runs.len() - 1];
    let (state, level) = (end.state, end.level);
    let (mut whole, mut cost) = (Times::NONE, Times::NONE);
    for _ in 0..repeats {
        time(&mut whole.proved, || yeldaski::search(&b.file, z, &mut b.workspace, &mut b.runs));
        time(&mut whole.rust, || search::search(&mut b.workspace, plan, z));
        time(&mut whole.dense, || dense::search(plan, z));
        time(&mut cost.proved, || {
            yeldaski::point(&b.file, z, state as u8, level as i16, &mut b.workspace)
        });
        time(&mut cost.rust, || search::point(&mut b.workspace, plan, z, state, level));
        time(&mut cost.dense, || dense::cost(plan, z));
    }
    let stats = search::stats(&mut b.workspace, plan, z);
    Measured {
        name: case.name.clone(),
        stats,
        passes: steps as f64 / z.len() as f64,
        whole,
        cost,
    }
}

/// All give the same cost, and the searches the same runs; the answer, and the steps forward of the search in Rust.
fn check(case: &Case, b: &mut Buffers) -> (Answer, usize) {
    let (plan, z, name) = (&case.plan, &case.readings[..], &case.name);
    let found = yeldaski::search(&b.file, z, &mut b.workspace, &mut b.runs).expect("an allowed segmentation");
    let (answer, steps) = search::search(&mut b.workspace, plan, z);
    let answer = answer.expect("an allowed segmentation");
    let numbers = answer
        .runs
        .iter()
        .flat_map(|r| [r.first as i32, r.last as i32, r.state as i32, r.level as i32, r.edge as i32]);
    assert_eq!(found.cost, answer.cost as u64, "{name}");
    assert_eq!(b.runs[..5 * found.runs], numbers.collect::<Vec<i32>>(), "{name}");
    assert_eq!(dense::search(plan, z).as_ref(), Some(&answer), "{name}");
    assert_eq!(dense::cost(plan, z), Some(answer.cost), "{name}");
    let end = answer.runs[answer.runs.len() - 1];
    assert_eq!(
        yeldaski::point(&b.file, z, end.state as u8, end.level as i16, &mut b.workspace),
        Ok(found.cost),
        "{name}"
    );
    assert_eq!(
        search::point(&mut b.workspace, plan, z, end.state, end.level),
        Some(answer.cost),
        "{name}"
    );
    (answer, steps)
}

#[cfg(test)]
mod tests {
    use super::*;
    use crate::graphs::{ring, trace, with_labels};

    /// The programmes agree on the whole record, and on the cost at each point on the way: inside open labels, at their ends and between them.
    #[test]
    fn labels_of_every_c() {
        let (n, levels) = (160, 24);
        for c in 0..=9 {
            let case = Case {
                name: format!("labels of c = {c}"),
                plan: with_labels(ring(levels, 3, 2, 2), n, &[c]),
                readings: trace(n, levels),
            };
            let mut b = Buffers::of(&case);
            check(&case, &mut b);
            for t in 1..n {
                let z = &case.readings[..t];
                let proved = yeldaski::point(&b.file, z, 1, 0, &mut b.workspace);
                let rust = search::point(&mut b.workspace, &case.plan, z, 1, 0);
                assert_eq!(proved.ok(), rust.map(|cost| cost as u64), "{} after {t} readings", case.name);
            }
        }
    }
}
