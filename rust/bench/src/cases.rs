//! What is measured.
use crate::graphs::*;
use crate::model::Plan;

pub struct Case {
    pub name: String,
    pub plan: Plan,
    pub readings: Vec<i16>,
}

/// Readings of the longest record.
pub const LONGEST: usize = 4_096;

fn traced(name: &str, plan: Plan, n: usize) -> Case {
    let readings = trace(n, plan.levels() as i64);
    Case {
        name: format!("{name}, L = {}", plan.levels()),
        plan,
        readings,
    }
}

/// A class that suits the noise on this grid.
fn class_for(levels: i64) -> usize {
    match levels {
        0..=127 => 5,
        128..=511 => 8,
        _ => 12,
    }
}

/// The usual graphs on motor current.
pub fn usual() -> Vec<Case> {
    let mut cases = vec![];
    for levels in [80, 256, 1_024] {
        let (class, g) = (class_for(levels), levels / 16);
        let mut add = |name: &str, plan: Plan| cases.push(traced(name, plan, LONGEST));
        add("any", any(levels, class));
        add("any, class 2", any(levels, 2));
        let labels = |plan: Plan, cs: &[usize]| with_labels(plan, LONGEST, cs);
        add("any, 16 labels", labels(any(levels, class), &[0, 1]));
        add("any, 16 labels of 3 changes", labels(any(levels, class), &[3]));
        add("up-down", up_down(levels, class));
        add("up-down, 16 labels up, down", labels(up_down(levels, class), &[8, 9]));
        add("up-down, class 0", up_down(levels, 0));
        add("belt, 3 states", belt(levels, class, g));
        add("ring, 4 states", ring(levels, 4, class, g));
        add("ring, 8 states", ring(levels, 8, class, g));
        add("abs, 8 states, 32 edges", full_abs(levels, g));
    }
    cases
}

/// A moving window of w readings over a record.
pub struct Moving {
    pub case: Case,
    pub w: usize,
}

impl Moving {
    fn of(mut case: Case, w: usize) -> Moving {
        case.name += &format!(", w = {w}");
        Moving { case, w }
    }

    /// How many parts of w readings the record has.
    pub fn parts(&self) -> usize {
        self.case.readings.len() + 1 - self.w
    }
}

/// Readings that one call hands to the search, times the edges of the plan: so many that a call takes some tenths of a second at most.
const HANDED: usize = 400_000;

/// Two widths on the usual graphs, labels aside, over as much of the record as is quick; and one whole long record.
pub fn moving() -> Vec<Moving> {
    let mut all = vec![];
    for case in usual().iter().filter(|case| case.plan.labels.is_empty()) {
        for w in [64, 1_024] {
            let parts = HANDED / case.plan.edges.len() / w;
            let readings = case.readings[..LONGEST.min(parts + w - 1)].to_vec();
            let (name, plan) = (case.name.clone(), case.plan.clone());
            all.push(Moving::of(Case { name, plan, readings }, w));
        }
    }
    all.push(Moving::of(traced("any, 65,535 readings", any(80, class_for(80)), 65_535), 64));
    all
}

/// A table of the costs for 0 to `most` changes over a record.
pub struct Tabled {
    pub case: Case,
    pub most: usize,
}

/// Readings of a record for a table: few enough that the dense programme takes some tenths of a second.
pub const TABLED: usize = 1_024;

/// Tables of one entry, of some and of the most, on some of the usual graphs.
pub fn tabled() -> Vec<Tabled> {
    let mut all = vec![];
    for levels in [80, 256, 1_024] {
        let (class, g) = (class_for(levels), levels / 16);
        for (name, plan) in [
            ("any", any(levels, class)),
            ("any, class 2", any(levels, 2)),
            ("any, 16 labels", with_labels(any(levels, class), TABLED, &[0, 1])),
            ("up-down", up_down(levels, class)),
            ("belt, 3 states", belt(levels, class, g)),
            ("ring, 4 states", ring(levels, 4, class, g)),
        ] {
            for most in [0, 8, 32] {
                let mut case = traced(name, plan.clone(), TABLED);
                case.name += &format!(", K = {most}");
                all.push(Tabled { case, most });
            }
        }
    }
    all
}

/// Records in plan files that are only read.
pub struct Decoding {
    pub name: &'static str,
    pub records: Vec<Vec<i16>>,
}

impl Decoding {
    /// The usual plan of one state, with each record.
    pub fn files(&self) -> Vec<Vec<u8>> {
        let plan = any(80, class_for(80));
        self.records.iter().map(|readings| plan.file_with(readings)).collect()
    }
}

/// So many records that a processor cannot learn their signs by heart.
const RECORDS: usize = 64;

/// Current around zero, where the sign of a reading says nothing about that of the next one, and the same without signs.
pub fn decoding() -> Vec<Decoding> {
    let readings = around_zero(RECORDS * LONGEST);
    let above: Vec<i16> = readings.iter().map(|z| z.abs()).collect();
    let case = |name, readings: Vec<i16>| Decoding {
        name,
        records: readings.chunks(LONGEST).map(<[_]>::to_vec).collect(),
    };
    vec![case("around zero, random signs", readings), case("around zero, one sign", above)]
}

/// Graphs and records that make many pieces.
pub fn worst() -> Vec<Case> {
    let levels = 1_024;
    let up = |name: &str, plan: Plan| Case {
        name: name.into(),
        plan,
        readings: ramp(LONGEST, levels),
    };
    vec![
        up("monotone, ramp, L = 1024", monotone(levels)),
        up("32 edges up, gap 1, ramp, L = 1024", full_up(levels, 1)),
        traced("32 edges up, gap 64, trace", full_up(levels, 64), LONGEST),
    ]
}

/// One of n, L and S grows, the others stay.
pub fn growing() -> Vec<Case> {
    let mut cases = vec![];
    for n in [512, 1_024, 2_048, 4_096] {
        let mut case = traced("belt", belt(256, 8, 16), n);
        case.name = format!("n = {n} (belt, L = 256)");
        cases.push(case);
    }
    for levels in [64, 128, 256, 512, 1_024] {
        let mut case = traced("belt", belt(levels, class_for(levels), levels / 16), LONGEST);
        case.name = format!("L = {levels} (belt, n = 4096)");
        cases.push(case);
    }
    for states in [2, 4, 6, 8] {
        let mut case = traced("ring", ring(256, states, 8, 16), LONGEST);
        case.name = format!("S = {states} (ring, L = 256, n = 4096)");
        cases.push(case);
    }
    cases
}
