//! How often each call was asked, and what it gave.
use crate::plan::{Plan, STAY};
use crate::search::{Found, Path};
use crate::tables::MOST;
use std::collections::BTreeMap;
use std::fmt;

#[derive(Default)]
struct Count {
    answered: u64,
    refused: BTreeMap<u8, u64>,
}

/// Every c that a label may have.
const CS: usize = 10;

/// Labels in answers that were compared, by their c.
#[derive(Default)]
pub struct Labels {
    /// Costs at a point inside the open label.
    pub open: [u64; CS],
    /// Segmentations found by a search, once for each label of the plan.
    pub searched: [u64; CS],
    /// Files refused with 8 for a c above 9.
    pub refused: u64,
}

impl Labels {
    /// What never occurred.
    pub fn missing(&self) -> Vec<String> {
        let mut missing = vec![];
        for c in 0..CS {
            if self.open[c] == 0 {
                missing.push(format!("a point inside an open label of c = {c}"));
            }
            if self.searched[c] == 0 {
                missing.push(format!("a search with a label of c = {c}"));
            }
        }
        if self.refused == 0 {
            missing.push("a label of c above 9".into());
        }
        missing
    }
}

impl fmt::Display for Labels {
    fn fmt(&self, f: &mut fmt::Formatter<'_>) -> fmt::Result {
        for (name, counts) in [("open at a point", &self.open), ("in a search", &self.searched)] {
            let counts: Vec<String> = counts.iter().enumerate().map(|(c, times)| format!("{c}: {times}")).collect();
            writeln!(f, "labels {name}, by c {}", counts.join(" "))?;
        }
        writeln!(f, "labels of c above 9, refused {}", self.refused)
    }
}

/// Answers that were compared and that the rule before ticket 4, by which kind any could keep the level, would not give.
#[derive(Default)]
pub struct Moves {
    pub searches: u64,
    /// Searches among them without a segmentation.
    pub refused: u64,
    pub points: u64,
    pub windows: u64,
}

impl Moves {
    fn named(&self) -> [(&'static str, u64); 4] {
        [
            ("searches", self.searches),
            ("searches without a segmentation", self.refused),
            ("points", self.points),
            ("windows", self.windows),
        ]
    }

    /// What never occurred.
    pub fn missing(&self) -> Vec<String> {
        let missing = self.named().into_iter().filter(|(_, times)| *times == 0);
        missing
            .map(|(name, _)| format!("{name} with another answer than before ticket 4"))
            .collect()
    }
}

impl fmt::Display for Moves {
    fn fmt(&self, f: &mut fmt::Formatter<'_>) -> fmt::Result {
        let counts: Vec<String> = self.named().iter().map(|(name, times)| format!("{name} {times}")).collect();
        writeln!(
            f,
            "with another answer than before ticket 4 (kind any moves the level): {}",
            counts.join(", ")
        )
    }
}

/// Searches that were compared and that have another answer than before ticket 6: of equal cost, with fewer changes.
#[derive(Default)]
pub struct Ties {
    searches: u64,
    /// Those that end in another state or at another level.
    ends: u64,
    /// Those of plans with labels.
    labelled: u64,
    /// Those with two or more changes fewer.
    several: u64,
    /// All that were asked by both rules and have an answer.
    asked: u64,
}

/// How many changes a segmentation has.
fn changes(plan: &Plan, path: &Path) -> usize {
    let change = |edge: &&u8| plan.edges[usize::from(**edge)].kind != STAY;
    path.edges.iter().filter(change).count()
}

impl Ties {
    pub fn add(&mut self, plan: &Plan, before: &Found, now: &Found) {
        self.asked += 1;
        if before.runs == now.runs {
            return;
        }
        let [more, fewest] = [before, now].map(|found| changes(plan, &found.path));
        assert!(before.cost == now.cost && more > fewest, "the oracle's two rules");
        let end = |path: &Path| (path.states.last().copied(), path.levels.last().copied());
        self.searches += 1;
        self.ends += u64::from(end(&before.path) != end(&now.path));
        self.labelled += u64::from(!plan.labels.is_empty());
        self.several += u64::from(more > fewest + 1);
    }

    fn named(&self) -> [(&'static str, u64); 4] {
        [
            ("searches", self.searches),
            ("with another end", self.ends),
            ("with labels", self.labelled),
            ("with several changes fewer", self.several),
        ]
    }

    /// What never occurred.
    pub fn missing(&self) -> Vec<String> {
        let missing = self.named().into_iter().filter(|(_, times)| *times == 0);
        missing.map(|(name, _)| format!("ties that fewer changes decide: {name}")).collect()
    }
}

impl fmt::Display for Ties {
    fn fmt(&self, f: &mut fmt::Formatter<'_>) -> fmt::Result {
        let counts: Vec<String> = self.named().iter().map(|(name, times)| format!("{name} {times}")).collect();
        writeln!(
            f,
            "with another answer than before ticket 6 (fewer changes win a tie), of {} searches asked by both rules: {}",
            self.asked,
            counts.join(", ")
        )
    }
}

/// Tables that were compared.
pub struct Tables {
    /// By their K, from 0 to 32.
    tables: [u64; MOST + 1],
    entries: u64,
    /// Entries for which there is no segmentation.
    none: u64,
    /// Tables of which that is every entry: only more changes are allowed.
    all_none: u64,
    /// Labels of the plans of these tables, by their c.
    labels: [u64; CS],
}

impl Default for Tables {
    fn default() -> Tables {
        Tables {
            tables: [0; MOST + 1],
            entries: 0,
            none: 0,
            all_none: 0,
            labels: [0; CS],
        }
    }
}

impl Tables {
    pub fn add(&mut self, costs: &[u64], plan: &Plan) {
        let none = costs.iter().filter(|cost| **cost == u64::MAX).count();
        self.tables[costs.len() - 1] += 1;
        self.entries += costs.len() as u64;
        self.none += none as u64;
        self.all_none += u64::from(none == costs.len());
        for label in &plan.labels {
            self.labels[label.code as usize] += 1;
        }
    }

    /// What never occurred.
    pub fn missing(&self) -> Vec<String> {
        let by_k = self.tables.iter().enumerate().map(|(k, times)| (*times, format!("a table of K = {k}")));
        let by_c = self
            .labels
            .iter()
            .enumerate()
            .map(|(c, times)| (*times, format!("a table with a label of c = {c}")));
        let sorts = [
            (self.entries - self.none, "an entry of a table with a cost".to_string()),
            (self.none, "an entry of a table without a segmentation".to_string()),
            (self.all_none, "a table without a segmentation in any entry".to_string()),
        ];
        let missing = by_k.chain(by_c).chain(sorts).filter(|(times, _)| *times == 0);
        missing.map(|(_, name)| name).collect()
    }
}

impl fmt::Display for Tables {
    fn fmt(&self, f: &mut fmt::Formatter<'_>) -> fmt::Result {
        let Tables {
            tables,
            entries,
            none,
            all_none,
            labels,
        } = self;
        writeln!(
            f,
            "tables {}, entries {entries}, of them without a segmentation {none}, tables of such entries alone {all_none}",
            tables.iter().sum::<u64>()
        )?;
        for (name, counts) in [("tables by K", &tables[..]), ("labels in a table, by c", labels)] {
            let counts: Vec<String> = counts.iter().enumerate().map(|(number, times)| format!("{number}: {times}")).collect();
            writeln!(f, "{name} {}", counts.join(" "))?;
        }
        Ok(())
    }
}

/// Refusals that a long run has to meet in tables.
const OF_TABLES: [u8; 6] = [9, 13, 14, 15, 16, 20];

#[derive(Default)]
pub struct Tally {
    pub labels: Labels,
    pub moves: Moves,
    pub ties: Ties,
    pub tables: Tables,
    cases: BTreeMap<&'static str, u64>,
    calls: BTreeMap<&'static str, Count>,
}

impl Tally {
    pub fn case(&mut self, profile: &'static str) {
        *self.cases.entry(profile).or_default() += 1;
    }

    /// What never occurred.
    pub fn missing(&self) -> Vec<String> {
        let refused = |number: &u8| self.calls.get("table").is_some_and(|count| count.refused.contains_key(number));
        let unmet = OF_TABLES.iter().filter(|number| !refused(number));
        let refusals = unmet.map(|number| format!("a table refused with {number}")).collect();
        [
            self.labels.missing(),
            self.moves.missing(),
            self.ties.missing(),
            self.tables.missing(),
            refusals,
        ]
        .concat()
    }

    /// One comparison more; 0 stands for an answer.
    pub fn call(&mut self, name: &'static str, refusal: u8) {
        let count = self.calls.entry(name).or_default();
        match refusal {
            0 => count.answered += 1,
            number => *count.refused.entry(number).or_default() += 1,
        }
    }
}

impl fmt::Display for Tally {
    fn fmt(&self, f: &mut fmt::Formatter<'_>) -> fmt::Result {
        let mut all = 0;
        for (name, count) in &self.calls {
            write!(f, "{name:13} answered {:6}, refused", count.answered)?;
            for (number, times) in &count.refused {
                write!(f, " {number}: {times}")?;
            }
            writeln!(f)?;
            all += count.answered + count.refused.values().sum::<u64>();
        }
        write!(f, "{}{}{}{}", self.labels, self.moves, self.ties, self.tables)?;
        let cases: Vec<String> = self.cases.iter().map(|(name, times)| format!("{name} {times}")).collect();
        write!(
            f,
            "{} cases ({}), {all} answers compared, all equal",
            self.cases.values().sum::<u64>(),
            cases.join(", ")
        )
    }
}

#[cfg(test)]
mod tests {
    use super::*;
    use crate::rules::Rules;
    use crate::search::{self, Record};
    use crate::{plan, RULES};

    #[test]
    fn what_never_occurred_is_named() {
        let mut labels = Labels {
            open: [1; CS],
            searched: [1; CS],
            refused: 1,
        };
        assert!(labels.missing().is_empty());
        labels.open[7] = 0;
        assert_eq!(labels.missing(), ["a point inside an open label of c = 7"]);
        labels.searched[9] = 0;
        labels.refused = 0;
        assert_eq!(labels.missing().len(), 3);
        let moves = Moves {
            searches: 2,
            refused: 1,
            points: 0,
            windows: 1,
        };
        assert_eq!(moves.missing(), ["points with another answer than before ticket 4"]);
        let ties = Ties {
            searches: 2,
            ends: 1,
            labelled: 0,
            several: 1,
            asked: 9,
        };
        assert_eq!(ties.missing(), ["ties that fewer changes decide: with labels"]);
        let mut all = Tally {
            labels,
            moves,
            ties,
            tables: every_table(),
            ..Tally::default()
        };
        OF_TABLES.iter().for_each(|number| all.call("table", *number));
        assert_eq!(all.missing().len(), 5);
    }

    /// What is counted of the toy data: one change in place of two, at the same end.
    #[test]
    fn a_tie_is_counted() {
        let mut plan = plan::open(RULES, 1, 0, 4, 1, 1, 1).expect("a grid");
        for (kind, class) in [(plan::STAY, 0), (plan::ANY, 1)] {
            let (from, to, gap) = (0, 0, 0);
            plan::add_edge(RULES, &mut plan, &plan::Edge { from, to, kind, gap, class }).expect("an edge");
        }
        plan::seal(RULES, &mut plan, false).expect("sealing");
        let found = |tickets| search::search(Rules { tickets }, &plan, &Record::plain(&[2, 1, 0, 4]), 960, 20).expect("an answer");
        let mut ties = Ties::default();
        ties.add(&plan, &found(5), &found(6));
        ties.add(&plan, &found(6), &found(6));
        assert_eq!((ties.asked, ties.searches, ties.ends, ties.labelled, ties.several), (2, 1, 0, 0, 0));
    }

    fn every_table() -> Tables {
        Tables {
            tables: [1; MOST + 1],
            entries: 9,
            none: 3,
            all_none: 1,
            labels: [1; CS],
        }
    }

    #[test]
    fn tables_that_never_occurred_are_named() {
        assert!(every_table().missing().is_empty());
        let mut tables = every_table();
        tables.tables[32] = 0;
        tables.labels[9] = 0;
        tables.all_none = 0;
        assert_eq!(
            tables.missing(),
            [
                "a table of K = 32",
                "a table with a label of c = 9",
                "a table without a segmentation in any entry"
            ]
        );
        let mut tally = Tally::default();
        [9, 13, 14, 16, 20].iter().for_each(|number| tally.call("table", *number));
        tally.call("search", 15);
        assert!(tally.missing().ends_with(&["a table refused with 15".to_string()]));
    }

    /// What is counted of one table.
    #[test]
    fn a_table_is_counted() {
        let mut plan = plan::open(RULES, 1, 0, 4, 1, 1, 1).expect("a grid");
        plan::add_label(RULES, &mut plan, 1, 3, 8).expect("a label");
        let mut tables = Tables::default();
        tables.add(&[u64::MAX, 7, u64::MAX], &plan);
        tables.add(&[u64::MAX], &plan);
        assert_eq!((tables.tables[0], tables.tables[2], tables.labels[8]), (1, 1, 2));
        assert_eq!((tables.entries, tables.none, tables.all_none), (4, 3, 1));
    }
}
