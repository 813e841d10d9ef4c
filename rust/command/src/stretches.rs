//! The costs of the stretches of a record, as a table, as CSV and as JSON.
use crate::check::counted;
use crate::cost_picture::cost_picture;
use crate::costs::Formats;
use crate::export::json_list;
use crate::picture::Look;
use std::cmp::Reverse;

/// So many of the dearest stretches are named in a table.
const NAMED: usize = 10;

/// The costs of all stretches of a record, in order of their start.
pub struct Costs {
    pub window: usize,
    pub costs: Vec<u64>,
}

/// Readings are counted from 1.
#[derive(Debug, Clone, Copy, PartialEq, Eq)]
pub struct Stretch {
    pub start: usize,
    pub last: usize,
    pub cost: u64,
}

impl Costs {
    pub fn stretches(&self) -> impl Iterator<Item = Stretch> + '_ {
        let stretch = |(index, cost): (usize, &u64)| Stretch {
            start: index + 1,
            last: index + self.window,
            cost: *cost,
        };
        self.costs.iter().enumerate().map(stretch)
    }

    /// The cheapest stretch, and the first of equal ones. There is always a stretch: no record without one is accepted.
    pub fn cheapest(&self) -> Option<Stretch> {
        self.stretches().min_by_key(|stretch| stretch.cost)
    }

    /// The dearest stretches of which no two share a reading: from the dearest on, and the first of equal ones. After the first only those that cost
    /// more than the cheapest one, since the others are nothing to look at.
    pub fn dearest(&self, most: usize) -> Vec<Stretch> {
        let least = self.cheapest().map_or(0, |stretch| stretch.cost);
        let mut sorted: Vec<Stretch> = self.stretches().collect();
        sorted.sort_by_key(|stretch| Reverse(stretch.cost));
        let mut chosen: Vec<Stretch> = Vec::new();
        for stretch in sorted {
            let is_dear = chosen.is_empty() || stretch.cost > least;
            if chosen.len() == most || !is_dear {
                break;
            }
            if chosen.iter().all(|other| stretch.last < other.start || other.last < stretch.start) {
                chosen.push(stretch);
            }
        }
        chosen
    }

    /// The lower one where two stand in the middle, so that it is the cost of a stretch.
    fn median(&self) -> u64 {
        let mut sorted = self.costs.clone();
        sorted.sort_unstable();
        sorted.get(sorted.len().saturating_sub(1) / 2).copied().unwrap_or(0)
    }

    /// `937 stretches of 64 readings`
    pub fn counted(&self) -> String {
        let stretches = if self.costs.len() == 1 { "stretch" } else { "stretches" };
        format!("{} {stretches} of {}", self.costs.len(), counted(self.window, "reading"))
    }
}

impl Formats for Costs {
    /// What there is to see in it at a glance: tens of thousands of lines are for programs.
    fn table(&self) -> String {
        let row = |name: String, stretch: Stretch| [name, stretch.start.to_string(), stretch.last.to_string(), stretch.cost.to_string()];
        let mut rows = vec![["stretch", "start", "last", "cost"].map(str::to_string)];
        rows.extend(self.cheapest().map(|stretch| row("cheapest".to_string(), stretch)));
        let dearest = self.dearest(NAMED).into_iter().enumerate();
        rows.extend(dearest.map(|(index, stretch)| row(format!("dearest {}", index + 1), stretch)));
        let width = |column: usize| rows.iter().map(|row| row[column].len()).max().unwrap_or(0);
        let [name, start, last, cost] = [0, 1, 2, 3].map(width);
        let mut shown = format!("{}, median cost {}\n\n", self.counted(), self.median());
        for [a, b, c, d] in &rows {
            shown += &format!("{a:<name$}  {b:>start$}  {c:>last$}  {d:>cost$}\n");
        }
        shown
    }

    fn csv(&self) -> String {
        let row = |Stretch { start, last, cost }: Stretch| format!("{start},{last},{cost}\n");
        "start,last,cost\n".to_string() + &self.stretches().map(row).collect::<String>()
    }

    fn members(found: Option<&Costs>) -> Vec<(&'static str, String)> {
        let object = |Stretch { start, last, cost }: Stretch| format!("{{\"start\": {start}, \"last\": {last}, \"cost\": {cost}}}");
        let objects: Vec<String> = found.into_iter().flat_map(Costs::stretches).map(object).collect();
        vec![("stretches", json_list(&objects))]
    }

    fn picture(&self, look: &Look) -> String {
        cost_picture(self, look)
    }
}

#[cfg(test)]
mod tests {
    use super::*;

    fn costs(window: usize, costs: &[u64]) -> Costs {
        let costs = costs.to_vec();
        Costs { window, costs }
    }

    fn starts(stretches: &[Stretch]) -> Vec<usize> {
        stretches.iter().map(|stretch| stretch.start).collect()
    }

    #[test]
    fn the_dearest_without_overlap() {
        assert_eq!(starts(&costs(1, &[0, 3, 0, 5, 3]).dearest(10)), [4, 2, 5]);
        assert_eq!(starts(&costs(1, &[0, 3, 0, 5, 3]).dearest(2)), [4, 2]);
        // Stretches at 3 and 5 share readings with the one at 4; the next free one to the left starts at 2, to the right at 6.
        assert_eq!(starts(&costs(2, &[1, 7, 8, 9, 8, 7, 1]).dearest(10)), [4, 2, 6]);
        assert_eq!(starts(&costs(3, &[4, 4, 4]).dearest(10)), [1]);
        assert_eq!(costs(3, &[4, 4, 4]).dearest(10)[0].last, 3);
    }

    #[test]
    fn a_median_is_a_cost() {
        for (all, median) in [(&[7][..], 7), (&[9, 1], 1), (&[9, 1, 5], 5), (&[8, 2, 6, 4], 4)] {
            assert_eq!(costs(1, all).median(), median, "{all:?}");
        }
    }

    #[test]
    fn one_and_many() {
        assert_eq!(costs(1, &[0]).counted(), "1 stretch of 1 reading");
        assert_eq!(costs(2, &[0, 0]).counted(), "2 stretches of 2 readings");
    }
}
