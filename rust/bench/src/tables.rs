//! The costs for each number of changes: first those of three programmes compared, then their times and that of one pass over the record.
use crate::cases::{Case, Tabled};
use crate::measure::{time, Times};
use crate::{dense, search};

/// Least times in milliseconds.
pub struct Table {
    pub name: String,
    pub times: Times,
    /// `yeldaski_point`, which goes forward over the record once, as often as the table has entries.
    pub passes: f64,
}

/// Runs the calls in turn, as with the searches, and keeps the least time of each.
pub fn measure(tabled: &Tabled, repeats: usize) -> Table {
    let (most, Case { plan, readings, name }) = (tabled.most, &tabled.case);
    let (file, z) = (plan.file(), &readings[..]);
    let mut workspace = vec![0; yeldaski::table_words(plan.states, plan.levels(), most)];
    let mut costs = vec![0; most + 1];
    assert_eq!(yeldaski::table(&file, z, most, &mut workspace, &mut costs), Ok(most + 1), "{name}");
    assert_eq!(costs, entries(&dense::table(plan, z, most)), "{name}");
    assert_eq!(costs, entries(&search::table(&mut workspace, plan, z, most)), "{name}");
    let answer = search::search(&mut workspace, plan, z).0.expect("an allowed segmentation");
    let end = answer.runs[answer.runs.len() - 1];
    let (state, level) = (end.state as u8, end.level as i16);
    let (mut times, mut pass) = (Times::NONE, f64::MAX);
    for _ in 0..repeats {
        time(&mut times.proved, || yeldaski::table(&file, z, most, &mut workspace, &mut costs));
        time(&mut times.rust, || search::table(&mut workspace, plan, z, most));
        time(&mut times.dense, || dense::table(plan, z, most));
        time(&mut pass, || yeldaski::point(&file, z, state, level, &mut workspace));
    }
    Table {
        name: name.clone(),
        times,
        passes: pass * (most + 1) as f64,
    }
}

/// As the library writes them, with the largest number for none.
fn entries(costs: &[Option<i64>]) -> Vec<u64> {
    costs.iter().map(|cost| cost.map_or(u64::MAX, |cost| cost as u64)).collect()
}

#[cfg(test)]
mod tests {
    use super::*;
    use crate::graphs::{belt, ring, trace, with_labels};
    use crate::model::Plan;

    /// The programmes give the same table, with labels of every c and with more entries than there are changes.
    #[test]
    fn labels_of_every_c() {
        let (n, levels) = (96, 24);
        let plans = (0..=9).map(|c| with_labels(ring(levels, 3, 2, 2), n, &[c, 0]));
        for plan in plans.chain([belt(levels, 5, 3), ring(levels, 4, 2, 2)]) {
            for n in [1, 20, n] {
                same_table(&plan, &trace(n, levels));
            }
        }
    }

    fn same_table(plan: &Plan, z: &[i16]) {
        for most in [0, 1, 7, 32] {
            let mut workspace = vec![9; yeldaski::table_words(plan.states, plan.levels(), most)];
            let mut costs = vec![7; most + 1];
            let dense = entries(&dense::table(plan, z, most));
            assert_eq!(entries(&search::table(&mut workspace, plan, z, most)), dense);
            match yeldaski::table(&plan.file(), z, most, &mut workspace, &mut costs) {
                Ok(_) => assert_eq!(costs, dense),
                // a label reaches past the record, or none is allowed
                Err(refusal) => assert!(refusal.0 == 13 || dense.iter().all(|cost| *cost == u64::MAX)),
            }
        }
    }
}
