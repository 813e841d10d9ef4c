//! `table`: the least cost for each number of changes, from the proved library.
use crate::answer::{self, Run};
use crate::cause;
use crate::check::counted;
use crate::costs::{self, whole_number, Answered, Unanswered};
use crate::entries::Entries;
use crate::failure::{usage, Failure};
use crate::given::{Given, Words};
use crate::make;
use crate::outline::in_line;
use crate::plan::MAX_CHANGES;
use crate::records;
use crate::rules;
use shared::options::Args;
use yeldaski::Refusal;

/// A table over a plan and its record.
struct Task<'a> {
    given: Given<'a>,
    /// K, where it is said.
    most: Option<usize>,
}

pub fn act(args: &Args) -> Result<u8, Failure> {
    let words = Words::of(args, "table", "table PLAN RECORD [--changes K]")?;
    let most = whole_number(args, "table", "changes", [0, MAX_CHANGES])?;
    let task = Task {
        given: Given::read(args, words)?,
        most,
    };
    let asked = |count: Option<usize>| ("most", most.or(count.map(|count| task.most(count))));
    costs::act(args, &task.given, asked, |readings| task.entries(readings))
}

impl Task<'_> {
    /// K, or as many changes as there may be: between so many readings, and in a table.
    fn most(&self, readings: usize) -> usize {
        self.most.unwrap_or(MAX_CHANGES.min(readings.saturating_sub(1)))
    }

    fn entries(&self, readings: Vec<i16>) -> Result<Answered<Entries>, Unanswered> {
        if self.given.lends_labels() {
            records::say_labels(&self.given.name, self.given.plan.labels.len(), "the record");
        }
        let (file, most) = (&self.given.file, self.most(readings.len()));
        let because = |refusal| self.refused(&readings, refusal);
        // Lent nothing, the library says what it would refuse before it asks for a workspace; 14 is that nothing else is wrong so far.
        match yeldaski::table(file, &readings, most, &mut [], &mut []) {
            Err(refusal) if refusal != Refusal(14) => return Err(because(refusal)),
            _ => {}
        }
        let mut workspace = self.workspace(most)?;
        let mut costs = vec![0; most + 1];
        yeldaski::table(file, &readings, most, &mut workspace, &mut costs).map_err(because)?;
        let (cost, runs) = answer::search(&self.given.file_with(&readings)).map_err(because)?;
        let entries = Entries::new(readings.len(), &costs, cost);
        let notes = self
            .more_changes(&entries, &runs)
            .into_iter()
            .chain(self.given.far_off(readings))
            .collect();
        Ok(Answered { costs: entries, notes })
    }

    /// The smallest entry is what the answer of a search costs, unless that has more changes than the table.
    fn more_changes(&self, entries: &Entries, runs: &[Run]) -> Option<String> {
        let cost = entries.answer;
        if entries.least().is_some_and(|(_, least)| least == cost) {
            return None;
        }
        let changes = counted(rules::changes(&self.given.plan, runs), "change");
        Some(format!("the answer of a search has {changes}, more than the table, and costs {cost}"))
    }

    /// Exactly as many words as are needed, up to 415 MB, which a small machine may not have.
    fn workspace(&self, most: usize) -> Result<Vec<u64>, Failure> {
        let plan = &self.given.plan;
        let words = plan.table_words(most);
        let mut workspace = Vec::new();
        if workspace.try_reserve_exact(words).is_err() {
            return Err(usage(format!(
                "table: {} MB of memory cannot be had, which {} states, {} levels and {} need; a smaller --changes needs less",
                (8 * words + 500_000) / 1_000_000,
                plan.states,
                plan.levels(),
                counted(most, "change")
            )));
        }
        workspace.resize(words, 0);
        Ok(workspace)
    }

    /// A refusal with the file that it is about, its cause and what can be done.
    fn refused(&self, readings: &[i16], refusal: Refusal) -> Unanswered {
        let (given, most) = (&self.given, self.most(readings.len()));
        let cause = make::search_cause(given.text.as_ref(), &given.file_with(readings), refusal);
        let sentence = cause.unwrap_or_else(|| cause::of_table(readings.len(), most, refusal));
        Unanswered::refused(&in_line(given.record_name()), sentence, refusal)
    }
}
