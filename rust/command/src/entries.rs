//! The costs for each number of changes, as a table, as CSV and as JSON.
use crate::check::counted;
use crate::costs::Formats;
use crate::export::{json_list, json_number};
use crate::picture::Look;
use crate::table_picture::table_picture;

/// The least costs of a record with 0, 1, .. changes; none where no allowed segmentation has that many.
pub struct Entries {
    pub readings: usize,
    pub costs: Vec<Option<u64>>,
    /// What the answer of a search costs, which may have more changes than the table.
    pub answer: u64,
}

/// The cost for one number of changes.
#[derive(Debug, Clone, Copy, PartialEq, Eq)]
pub struct Entry {
    pub changes: usize,
    pub cost: Option<u64>,
    /// How much more it costs than the nearest entry before it that has a cost. In many plans every other number of changes has none.
    pub step: Option<i128>,
}

impl Entries {
    /// The proved library has the largest number where there is no cost.
    pub fn new(readings: usize, costs: &[u64], answer: u64) -> Entries {
        let cost = |cost: &u64| Some(*cost).filter(|cost| *cost != u64::MAX);
        Entries {
            readings,
            costs: costs.iter().map(cost).collect(),
            answer,
        }
    }

    pub fn entries(&self) -> impl Iterator<Item = Entry> + '_ {
        let mut before = None;
        self.costs.iter().enumerate().map(move |(changes, cost)| {
            let step = |before| cost.map(|cost| i128::from(cost) - i128::from(before));
            let step = before.and_then(step);
            before = cost.or(before);
            Entry { changes, cost: *cost, step }
        })
    }

    /// The entry of least cost, and of equal ones that with the fewest changes; none where there is no cost.
    pub fn least(&self) -> Option<(usize, u64)> {
        let costs = self.costs.iter().enumerate().filter_map(|(changes, cost)| Some((changes, (*cost)?)));
        costs.min_by_key(|(_, cost)| *cost)
    }

    /// `0 to 3 changes in 4 readings: least cost 3 with 1 change`
    pub fn summary(&self) -> String {
        let numbers = match self.costs.len() {
            1 => "0 changes".to_string(),
            count => format!("0 to {} changes", count - 1),
        };
        let least = match self.least() {
            Some((changes, cost)) => format!("least cost {cost} with {}", counted(changes, "change")),
            None => "no allowed segmentation has so few".to_string(),
        };
        format!("{numbers} in {}: {least}", counted(self.readings, "reading"))
    }
}

impl Formats for Entries {
    fn table(&self) -> String {
        let least = self.least().map(|(changes, _)| changes);
        let mut rows = vec![["changes", "cost", "step", ""].map(str::to_string)];
        for Entry { changes, cost, step } in self.entries() {
            let cost = cost.map_or("none".to_string(), |cost| cost.to_string());
            let step = step.map_or(String::new(), |step| if step > 0 { format!("+{step}") } else { step.to_string() });
            let mark = if least == Some(changes) { "least" } else { "" };
            rows.push([changes.to_string(), cost, step, mark.to_string()]);
        }
        let width = |column: usize| rows.iter().map(|row| row[column].len()).max().unwrap_or(0);
        let [changes, cost, step] = [0, 1, 2].map(width);
        let mut shown = format!("{}\n\n", self.summary());
        for [a, b, c, d] in &rows {
            let line = format!("{a:>changes$}  {b:>cost$}  {c:>step$}  {d}");
            shown += &format!("{}\n", line.trim_end());
        }
        shown
    }

    fn csv(&self) -> String {
        let least = self.least().map(|(changes, _)| changes);
        let row = |Entry { changes, cost, step }: Entry| {
            let cost = cost.map_or(String::new(), |cost| cost.to_string());
            let step = step.map_or(String::new(), |step| step.to_string());
            format!("{changes},{cost},{step},{}\n", u8::from(least == Some(changes)))
        };
        "changes,cost,step,least\n".to_string() + &self.entries().map(row).collect::<String>()
    }

    fn members(found: Option<&Entries>) -> Vec<(&'static str, String)> {
        let object = |Entry { changes, cost, step }: Entry| {
            let (cost, step) = (json_number(cost), json_number(step));
            format!("{{\"changes\": {changes}, \"cost\": {cost}, \"step\": {step}}}")
        };
        let objects: Vec<String> = found.into_iter().flat_map(Entries::entries).map(object).collect();
        let least = found.and_then(Entries::least).map(|(changes, _)| changes);
        vec![
            ("cost", json_number(found.map(|entries| entries.answer))),
            ("least", json_number(least)),
            ("table", json_list(&objects)),
        ]
    }

    fn picture(&self, look: &Look) -> String {
        table_picture(self, look)
    }
}

#[cfg(test)]
mod tests {
    use super::*;

    fn entries(costs: &[Option<u64>]) -> Entries {
        Entries {
            readings: 4,
            costs: costs.to_vec(),
            answer: 0,
        }
    }

    /// Only the largest number stands for none.
    #[test]
    fn none_is_the_largest_number() {
        let read = Entries::new(4, &[0, u64::MAX, u64::MAX - 1], 0);
        assert_eq!(read.costs, [Some(0), None, Some(u64::MAX - 1)]);
    }

    /// A step leads over entries without a cost, and the first cost has none before it.
    #[test]
    fn steps() {
        let steps = |costs: &[Option<u64>]| entries(costs).entries().map(|entry| entry.step).collect::<Vec<_>>();
        assert_eq!(steps(&[Some(9), Some(3), Some(3), Some(8)]), [None, Some(-6), Some(0), Some(5)]);
        assert_eq!(steps(&[None, Some(16), None, Some(1), None]), [None, None, None, Some(-15), None]);
        assert_eq!(steps(&[Some(u64::MAX - 1), Some(0)]), [None, Some(1 - i128::from(u64::MAX))]);
        assert_eq!(steps(&[None, None]), [None, None]);
    }

    #[test]
    fn fewest_changes_of_equal_costs() {
        assert_eq!(entries(&[Some(9), Some(3), Some(3)]).least(), Some((1, 3)));
        assert_eq!(entries(&[None, Some(10), Some(3), None]).least(), Some((2, 3)));
        assert_eq!(entries(&[None]).least(), None);
    }

    #[test]
    fn one_and_many() {
        assert_eq!(entries(&[Some(9)]).summary(), "0 changes in 4 readings: least cost 9 with 0 changes");
        assert_eq!(
            entries(&[Some(9), Some(3)]).summary(),
            "0 to 1 changes in 4 readings: least cost 3 with 1 change"
        );
        assert_eq!(
            entries(&[None, None]).summary(),
            "0 to 1 changes in 4 readings: no allowed segmentation has so few"
        );
    }
}
