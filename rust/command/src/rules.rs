//! The rules of the model, judged on the runs of an answer. The search has no part in this.
use crate::answer::Run;
use crate::check::counted;
use crate::label::Label;
use crate::outline::Outline;
use crate::plan::{Edge, Plan, KINDS};
use std::cmp::Ordering;

/// The first rule that the runs break, in words. That they follow each other from reading 1 on is seen to by the answer reader. A plan without
/// readings is one whose record is not known.
pub fn broken(plan: &Plan, outline: &Outline, runs: &[Run]) -> Option<String> {
    let rules = Rules { plan, outline };
    let before = [None].into_iter().chain(runs.iter().map(Some));
    let pairs = runs.iter().zip(before).enumerate();
    let run = |(index, (run, before)): (usize, (&Run, Option<&Run>))| {
        let why = rules.run(index + 1, run, before)?;
        Some(format!("run {} {why}", index + 1))
    };
    rules
        .count(runs)
        .or_else(|| pairs.into_iter().find_map(run))
        .or_else(|| rules.end(runs))
        .or_else(|| rules.labels(runs))
}

struct Rules<'a> {
    plan: &'a Plan,
    outline: &'a Outline,
}

impl Rules<'_> {
    fn count(&self, runs: &[Run]) -> Option<String> {
        let (has, due) = (runs.last().map_or(0, |run| run.last), self.plan.readings.len());
        let source = self.outline.plan.as_ref().map_or("the plan", |known| &known.source);
        (due > 0 && has != due).then(|| format!("the answer has {has} readings, but {source} has {due}"))
    }

    fn run(&self, number: usize, run: &Run, before: Option<&Run>) -> Option<String> {
        let plan = self.plan;
        if run.state >= plan.states {
            return Some(format!(
                "has state {}, but the plan has {}",
                run.state,
                counted(usize::from(plan.states), "state")
            ));
        }
        if !(plan.lo..=plan.hi).contains(&run.level) {
            return Some(format!("has level {}, but the grid goes from {} to {}", run.level, plan.lo, plan.hi));
        }
        let entered = match (before, run.edge) {
            (None, _) if plan.start >> run.state & 1 == 0 => Some(format!("has {}, in which no record may start", self.state(run.state))),
            (Some(before), Some(edge)) => self.entry(number, before, run, edge),
            _ => None,
        };
        entered.or_else(|| self.length(run))
    }

    /// The edge that enters a run: it leads from state to state, its kind permits the levels, and it does not join the two runs to one.
    fn entry(&self, number: usize, before: &Run, run: &Run, edge_number: u8) -> Option<String> {
        let Some(edge) = self.plan.edges.get(usize::from(edge_number)) else {
            let edges = counted(self.plan.edges.len(), "edge");
            return Some(format!("is entered by edge {edge_number}, but the plan has {edges}, counted from 0"));
        };
        let words = format!("edge {}", self.outline.edge_words(edge_number));
        if (edge.from, edge.to) != (before.state, run.state) {
            let [from, to] = [before.state, run.state].map(|state| self.state(state));
            return Some(format!("is entered by {words}, but comes from {from} to {to}"));
        }
        if !permits(edge, before.level, run.level) {
            return Some(format!("{}, but {words} asks for {}", moved(before.level, run.level), asked(edge)));
        }
        let joined = edge.kind == 0 && edge.from == edge.to;
        joined.then(|| format!("is entered by {words}, so runs {} and {number} would be one", number - 1))
    }

    fn length(&self, run: &Run) -> Option<String> {
        let readings = run.last - run.first + 1;
        let lasting = readings == 1 || self.plan.own_stay(run.state).is_some();
        (!lasting).then(|| format!("has {readings} readings, but {} has no stay to itself", self.state(run.state)))
    }

    fn end(&self, runs: &[Run]) -> Option<String> {
        let run = runs.last()?;
        let allowed = self.plan.end >> run.state & 1 == 1;
        (!allowed).then(|| format!("run {} has {}, in which no record may end", runs.len(), self.state(run.state)))
    }

    fn labels(&self, runs: &[Run]) -> Option<String> {
        let readings = runs.last().map_or(0, |run| run.last);
        let judge = |(index, label): (usize, &Label)| {
            let number = index + 1;
            if let Some(beyond) = label.beyond(readings) {
                return Some(format!("label {number} {beyond}"));
            }
            let window = usize::from(label.p)..usize::from(label.q);
            let inside = runs.iter().filter(|run| window.contains(&(run.first - 1)));
            let kinds: Vec<u8> = inside.filter_map(|run| self.change(run)).map(|edge| edge.kind).collect();
            let there = found(label, &kinds);
            (!label.holds(&kinds)).then(|| format!("label {number} ({}) does not hold: the runs have {there}", label.text()))
        };
        self.plan.labels.iter().enumerate().find_map(judge)
    }

    /// The edge at the boundary before a run, where it is a change.
    fn change(&self, run: &Run) -> Option<&Edge> {
        let edge = run.edge.and_then(|number| self.plan.edges.get(usize::from(number)));
        edge.filter(|edge| edge.is_change())
    }

    fn state(&self, number: u8) -> String {
        match self.outline.name(number) {
            Some(_) => format!("state {number} ({})", self.outline.word(number)),
            None => format!("state {number}"),
        }
    }
}

/// How many changes there are between the readings of a label, with the kind of a single one where the label asks for a kind.
fn found(label: &Label, kinds: &[u8]) -> String {
    let changes = counted(kinds.len(), "change");
    match (label.kind(), kinds) {
        (Some(_), [kind]) => format!("{changes} there, of kind {}", KINDS[usize::from(*kind)]),
        _ => format!("{changes} there"),
    }
}

/// Whether the kind of an edge permits two levels, the earlier one first.
pub fn permits(edge: &Edge, from: i16, to: i16) -> bool {
    let (rise, gap) = (i32::from(to) - i32::from(from), i32::from(edge.gap));
    match edge.kind {
        0 => rise == 0,
        1 => rise != 0,
        2 => rise >= gap,
        3 => -rise >= gap,
        _ => rise.abs() >= gap,
    }
}

fn moved(from: i16, to: i16) -> String {
    match from.cmp(&to) {
        Ordering::Less => format!("rises from {from} to {to}"),
        Ordering::Equal => format!("stays at {to}"),
        Ordering::Greater => format!("falls from {from} to {to}"),
    }
}

fn asked(edge: &Edge) -> String {
    match edge.kind {
        0 => "the same level".to_string(),
        1 => "another level".to_string(),
        2 => format!("a rise of {} or more", edge.gap),
        3 => format!("a fall of {} or more", edge.gap),
        _ => format!("a rise or fall of {} or more", edge.gap),
    }
}

/// How many changes the runs have. Each one starts a run; a stay to another state starts one too and is none.
pub fn changes(plan: &Plan, runs: &[Run]) -> usize {
    let edge = |run: &Run| plan.edges.get(usize::from(run.edge?));
    runs.iter().filter_map(edge).filter(|edge| edge.is_change()).count()
}

/// What the runs cost: the squared distances of the readings from the levels, and the penalty of the edge at every boundary.
pub fn cost(plan: &Plan, readings: &[i16], runs: &[Run]) -> u64 {
    let cost_of = |run: &Run| {
        let part = readings.get(run.first - 1..run.last.min(readings.len())).unwrap_or(&[]);
        let distance = |reading: &i16| i64::from(i32::from(*reading) - i32::from(run.level)).unsigned_abs();
        let squares: u64 = part.iter().map(|reading| distance(reading).pow(2)).sum();
        let penalty = |edge: Option<&Edge>| edge.map_or(0, |edge| u64::from(edge.penalty()));
        let entry = penalty(run.edge.and_then(|number| plan.edges.get(usize::from(number))));
        squares + entry + (run.last - run.first) as u64 * penalty(plan.own_stay(run.state))
    };
    runs.iter().map(cost_of).sum()
}

#[cfg(test)]
mod tests {
    use super::*;
    use crate::answer;
    use shared::fields;

    fn edge(from: u8, to: u8, kind: u8, gap: u16, class: u8) -> Edge {
        Edge { from, to, kind, gap, class }
    }

    /// Grid 0 to 79; state 0 starts, state 1 ends, state 2 does neither. Stays of 1 and 2; edge 2 up 6 from 0 to 1, edge 3 down 6 back, edge 4 stay
    /// from 1 to 0, edge 5 any and edge 6 abs 3 within state 0, edges 7 and 8 to state 2 and back.
    fn plan() -> Plan {
        Plan {
            lo: 0,
            hi: 79,
            states: 3,
            start: 1,
            end: 2,
            edges: vec![
                edge(0, 0, 0, 0, 1),
                edge(1, 1, 0, 0, 2),
                edge(0, 1, 2, 6, 6),
                edge(1, 0, 3, 6, 5),
                edge(1, 0, 0, 0, 4),
                edge(0, 0, 1, 0, 3),
                edge(0, 0, 4, 3, 3),
                edge(0, 2, 1, 0, 0),
                edge(2, 1, 1, 0, 0),
            ],
            labels: Vec::new(),
            readings: Vec::new(),
        }
    }

    /// A run as (last reading, state, level, edge); it starts right after the one before.
    type Short = (usize, u8, i16, u8);

    fn runs(list: &[Short]) -> Vec<Run> {
        let mut first = 1;
        let mut run = |(index, (last, state, level, edge)): (usize, &Short)| {
            let run = Run {
                first,
                last: *last,
                state: *state,
                level: *level,
                edge: (index > 0).then_some(*edge),
            };
            first = last + 1;
            run
        };
        list.iter().enumerate().map(&mut run).collect()
    }

    fn judged(plan: &Plan, list: &[Short]) -> Option<String> {
        broken(plan, &Outline::default(), &runs(list))
    }

    #[test]
    fn kept_rules() {
        let good: [&[Short]; 5] = [
            &[(3, 0, 31, 255), (8, 1, 42, 2)],
            &[(3, 0, 0, 255), (8, 1, 6, 2)],
            &[(1, 0, 79, 255), (2, 0, 78, 5), (3, 0, 75, 6), (4, 0, 78, 6), (5, 2, 0, 7), (6, 1, 79, 8)],
            &[(1, 0, 10, 255), (2, 1, 16, 2), (3, 0, 10, 3), (4, 1, 16, 2), (5, 0, 16, 4), (6, 1, 22, 2)],
            &[(4096, 0, 0, 255), (4097, 1, 79, 2)],
        ];
        for list in good {
            assert_eq!(judged(&plan(), list), None, "{list:?}");
        }
    }

    /// Each rule broken by as little as possible: a gap by one, a level by one, a state by one.
    const BROKEN: [(&[Short], &str); 20] = [
        (&[(3, 3, 31, 255)], "run 1 has state 3, but the plan has 3 states"),
        (&[(3, 0, 80, 255)], "run 1 has level 80, but the grid goes from 0 to 79"),
        (&[(3, 0, -1, 255)], "run 1 has level -1, but the grid goes from 0 to 79"),
        (&[(3, 1, 31, 255)], "run 1 has state 1, in which no record may start"),
        (&[(3, 0, 31, 255)], "run 1 has state 0, in which no record may end"),
        (
            &[(3, 0, 31, 255), (8, 1, 36, 2)],
            "run 2 rises from 31 to 36, but edge 2 asks for a rise of 6 or more",
        ),
        (
            &[(3, 0, 31, 255), (8, 1, 25, 2)],
            "run 2 falls from 31 to 25, but edge 2 asks for a rise of 6 or more",
        ),
        (
            &[(3, 0, 31, 255), (8, 1, 42, 9)],
            "run 2 is entered by edge 9, but the plan has 9 edges, counted from 0",
        ),
        (
            &[(3, 0, 31, 255), (8, 1, 42, 3)],
            "run 2 is entered by edge 3, but comes from state 0 to state 1",
        ),
        (
            &[(3, 0, 31, 255), (8, 1, 42, 8)],
            "run 2 is entered by edge 8, but comes from state 0 to state 1",
        ),
        (
            &[(3, 0, 31, 255), (8, 0, 31, 0)],
            "run 2 is entered by edge 0, so runs 1 and 2 would be one",
        ),
        (
            &[(3, 0, 31, 255), (8, 0, 32, 0)],
            "run 2 rises from 31 to 32, but edge 0 asks for the same level",
        ),
        (&[(3, 0, 31, 255), (8, 0, 31, 5)], "run 2 stays at 31, but edge 5 asks for another level"),
        (&[(3, 0, 31, 255), (4, 2, 31, 7)], "run 2 stays at 31, but edge 7 asks for another level"),
        (
            &[(3, 0, 31, 255), (8, 0, 33, 6)],
            "run 2 rises from 31 to 33, but edge 6 asks for a rise or fall of 3 or more",
        ),
        (
            &[(3, 0, 31, 255), (8, 0, 29, 6)],
            "run 2 falls from 31 to 29, but edge 6 asks for a rise or fall of 3 or more",
        ),
        (
            &[(3, 0, 31, 255), (5, 2, 30, 7)],
            "run 2 has 2 readings, but state 2 has no stay to itself",
        ),
        (
            &[(1, 0, 9, 255), (2, 1, 15, 2), (3, 0, 10, 3)],
            "run 3 falls from 15 to 10, but edge 3 asks for a fall of 6 or more",
        ),
        (
            &[(1, 0, 9, 255), (2, 1, 15, 2), (3, 0, 14, 4)],
            "run 3 falls from 15 to 14, but edge 4 asks for the same level",
        ),
        (
            &[(1, 0, 9, 255), (2, 1, 15, 2), (3, 0, 15, 4)],
            "run 3 has state 0, in which no record may end",
        ),
    ];

    #[test]
    fn broken_rules() {
        for (list, words) in BROKEN {
            assert_eq!(judged(&plan(), list).as_deref(), Some(words), "{list:?}");
        }
    }

    /// A change before reading 4 is boundary 3: it counts for p up to 3 and q from 4 on. A stay to another state is no change.
    #[test]
    fn labels_and_their_ends() {
        let one = [(3, 0, 31, 255), (8, 1, 42, 2)];
        let stay = [(1, 0, 9, 255), (2, 1, 15, 2), (5, 0, 15, 4), (8, 1, 21, 2)];
        for (p, q, count) in [(3, 4, 1), (1, 8, 1), (1, 3, 0), (4, 8, 0), (2, 4, 1), (3, 5, 1)] {
            assert_eq!(judged(&label(p, q, count), &one), None, "{p} {q} {count}");
            let changes = if count == 1 { "1 change" } else { "0 changes" };
            let other = if count == 1 { "no change" } else { "1 change" };
            let words = format!("label 1 (readings {p} to {q}, {other}) does not hold: the runs have {changes} there");
            assert_eq!(judged(&label(p, q, 1 - count), &one), Some(words));
        }
        assert_eq!(judged(&label(2, 3, 0), &stay), None);
        assert!(judged(&label(1, 6, 1), &stay).is_some_and(|words| words.ends_with("the runs have 2 changes there")));
        let words = "label 1 (readings 8 to 9, no change) goes on after the last reading, 8";
        assert_eq!(judged(&label(8, 9, 0), &one).as_deref(), Some(words));
    }

    fn label(p: u16, q: u16, c: u8) -> Plan {
        Plan {
            labels: vec![Label { p, q, c }],
            ..plan()
        }
    }

    /// Boundaries 1 and 3 are up, 2 is down, 6 a stay to the other state.
    const UPS: [Short; 5] = [(1, 0, 9, 255), (2, 1, 15, 2), (3, 0, 9, 3), (6, 1, 15, 2), (7, 0, 15, 4)];
    /// Boundary 1 is any, 3 is abs: both rise, but neither is of kind up. 5 is up.
    const RISES: [Short; 4] = [(1, 0, 9, 255), (3, 0, 20, 5), (5, 0, 30, 6), (7, 1, 40, 2)];

    #[test]
    fn labels_of_several_changes_and_of_one_kind() {
        let ends_in_0 = |p, q, c| Plan { end: 3, ..label(p, q, c) };
        for (p, q, c) in [(1, 2, 8), (2, 3, 9), (3, 4, 8), (3, 7, 8), (1, 3, 2), (1, 4, 3), (1, 7, 3), (4, 7, 0)] {
            assert_eq!(judged(&ends_in_0(p, q, c), &UPS), None, "{p} {q} {c}");
        }
        for (p, q, c) in [(1, 6, 3), (1, 4, 2), (5, 6, 8), (4, 6, 8), (2, 4, 1)] {
            assert_eq!(judged(&label(p, q, c), &RISES), None, "{p} {q} {c}");
        }
        let broken: [(&[Short], _, &str, &str); 9] = [
            (&UPS, (1, 2, 9), "one down", "1 change there, of kind up"),
            (&UPS, (2, 3, 8), "one up", "1 change there, of kind down"),
            // One of them is of the kind, but no other change may stand beside it.
            (&UPS, (1, 3, 8), "one up", "2 changes there"),
            (&UPS, (2, 4, 9), "one down", "2 changes there"),
            (&UPS, (4, 7, 8), "one up", "0 changes there"),
            (&UPS, (1, 4, 7), "7 changes", "3 changes there"),
            (&UPS, (1, 2, 2), "2 changes", "1 change there"),
            (&RISES, (1, 2, 8), "one up", "1 change there, of kind any"),
            (&RISES, (3, 4, 8), "one up", "1 change there, of kind abs"),
        ];
        for (list, (p, q, c), asks, there) in broken {
            let words = format!("label 1 (readings {p} to {q}, {asks}) does not hold: the runs have {there}");
            assert_eq!(judged(&ends_in_0(p, q, c), list), Some(words));
        }
    }

    #[test]
    fn number_of_readings() {
        let known = Plan {
            readings: vec![31; 7],
            ..plan()
        };
        let words = "the answer has 8 readings, but the plan has 7";
        assert_eq!(judged(&known, &[(3, 0, 31, 255), (8, 1, 42, 2)]).as_deref(), Some(words));
    }

    /// Up, down, a stay to the other state, up; and a run by an edge that the plan does not have.
    #[test]
    fn numbers_of_changes() {
        assert_eq!(changes(&plan(), &runs(&[(3, 0, 31, 255)])), 0);
        let four = [(1, 0, 9, 255), (2, 1, 15, 2), (3, 0, 9, 3), (4, 1, 15, 2), (5, 0, 15, 4), (6, 1, 21, 2)];
        assert_eq!(changes(&plan(), &runs(&four)), 4);
        assert_eq!(changes(&plan(), &runs(&[(1, 0, 9, 255), (2, 0, 9, 9)])), 0);
    }

    /// Worked out by hand: squares 0 + 1 + 0 and 0 + 1 + 0 + 1 + 0, stays of 1 twice and of 2 four times, the rise 50.
    #[test]
    fn costs() {
        let readings = [31, 30, 31, 42, 43, 42, 41, 42];
        assert_eq!(cost(&plan(), &readings, &runs(&[(3, 0, 31, 255), (8, 1, 42, 2)])), 1 + 2 + 2 + 8 + 50);
        assert_eq!(cost(&plan(), &[5], &runs(&[(1, 0, 2, 255)])), 9);
        // One reading a run has no stay: the entering edges of 50, 20 and 10 alone.
        let short = runs(&[(1, 0, 10, 255), (2, 1, 16, 2), (3, 0, 10, 3), (4, 1, 16, 2), (5, 0, 16, 4)]);
        assert_eq!(cost(&plan(), &[10, 16, 10, 16, 16], &short), 50 + 20 + 50 + 10);
        // The farthest reading and level there are: 65535 apart.
        let far = [i16::MIN; 4096];
        assert_eq!(cost(&plan(), &far, &runs(&[(4096, 1, i16::MAX, 255)])), 4096 * 65535 * 65535 + 4095 * 2);
    }

    /// Numbers from a fixed sequence.
    struct Numbers(u32);

    impl Numbers {
        fn below(&mut self, limit: u16) -> u16 {
            self.0 = self.0.wrapping_mul(1664525).wrapping_add(1013904223);
            (self.0 >> 16) as u16 % limit
        }

        /// A plan file of three states, up to twelve edges, one label and seven readings.
        fn plan_file(&mut self) -> Vec<u8> {
            let [start, end] = [0, 1].map(|_| 1 + self.below(7) as u8);
            let mut file = [fields::grid(-3, 4), fields::states(3, start, end)].concat();
            for number in 0..12 {
                let (from, to) = (number % 3, self.below(3) as u8);
                let kind = if from == to && number < 6 { 0 } else { self.below(5) as u8 };
                let gap = if kind >= 2 { self.below(5) } else { 0 };
                let edge = fields::edge(from, to, kind, gap, self.below(5) as u8);
                // An edge that is there already would be refused.
                let whole = [&file[..], &edge, &fields::readings(&[0])].concat();
                file.extend(if Plan::read(&whole).is_ok() { edge } else { Vec::new() });
            }
            let p = 1 + self.below(3);
            let c = [0, 1, 2, 3, 8, 9][usize::from(self.below(6))];
            file.extend(fields::label(p, p + 1 + self.below(3), c));
            let readings: Vec<i16> = (0..7).map(|_| self.below(10) as i16 - 4).collect();
            file.extend(fields::readings(&readings));
            file
        }
    }

    /// The search and these rules share no code, so each is a test of the other: what is found breaks no rule and costs what it states.
    #[test]
    fn answers_of_the_search() {
        let mut numbers = Numbers(1);
        let mut refused = 0;
        for _ in 0..2000 {
            let file = numbers.plan_file();
            let plan = Plan::read(&file).expect("a good plan");
            match answer::search(&file) {
                Ok((least, runs)) => {
                    assert_eq!(broken(&plan, &Outline::default(), &runs), None, "{plan:?} {runs:?}");
                    assert_eq!(cost(&plan, &plan.readings, &runs), least, "{plan:?} {runs:?}");
                }
                Err(refusal) => {
                    assert_eq!(refusal.0, 16, "{plan:?}");
                    refused += 1;
                }
            }
        }
        assert!((10..1000).contains(&refused), "{refused}");
    }
}
