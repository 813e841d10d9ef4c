//! Plans as plain data, and what the labels make of the count of changes at a boundary.
use shared::{fields, PENALTIES};

#[derive(Clone, Copy, Debug, PartialEq)]
pub enum Kind {
    Stay,
    Any,
    Up(i64),
    Down(i64),
    Abs(i64),
}

impl Kind {
    /// How many changes it is: a stay is none.
    #[inline(always)]
    pub fn changes(self) -> i64 {
        i64::from(self != Kind::Stay)
    }
}

#[derive(Clone, Copy, Debug)]
pub struct Edge {
    pub from: usize,
    pub to: usize,
    pub kind: Kind,
    pub class: usize,
}

/// What c asks for at boundaries p to q - 1: up to 7 exactly so many changes, 8 exactly one change, which goes up, 9 exactly one, which goes down.
#[derive(Clone, Copy, Debug)]
pub struct Label {
    pub p: usize,
    pub q: usize,
    pub c: usize,
}

/// The most counts of changes that are kept apart inside an open label: 0 to 7.
pub const COUNTS: usize = 8;

/// How many changes a label of c needs.
fn need(c: usize) -> usize {
    match c {
        8 | 9 => 1,
        _ => c,
    }
}

/// What this kind of edge adds to the count inside a label of c: 2, so more than is ever allowed, for a change of another kind than 8 or 9 ask for.
#[inline(always)]
fn counts_as(c: usize, kind: Kind) -> usize {
    match (c, kind) {
        (_, Kind::Stay) => 0,
        (8, Kind::Up(_)) | (9, Kind::Down(_)) => 1,
        (8 | 9, _) => 2,
        _ => 1,
    }
}

#[derive(Clone, Debug)]
pub struct Plan {
    pub lo: i64,
    pub hi: i64,
    pub states: usize,
    pub start: u8,
    pub end: u8,
    pub edges: Vec<Edge>,
    pub labels: Vec<Label>,
}

impl Edge {
    pub fn penalty(&self) -> i64 {
        i64::from(PENALTIES[self.class])
    }
}

impl Plan {
    pub fn levels(&self) -> usize {
        (self.hi - self.lo + 1) as usize
    }

    /// The bytes of a plan file, with one reading.
    pub fn file(&self) -> Vec<u8> {
        self.file_with(&[0])
    }

    /// The bytes of a plan file with these readings.
    pub fn file_with(&self, readings: &[i16]) -> Vec<u8> {
        let mut file = fields::grid(self.lo as i16, self.hi as i16);
        file.extend(fields::states(self.states as u8, self.start, self.end));
        for e in &self.edges {
            let (kind, gap) = match e.kind {
                Kind::Stay => (0, 0),
                Kind::Any => (1, 0),
                Kind::Up(gap) => (2, gap),
                Kind::Down(gap) => (3, gap),
                Kind::Abs(gap) => (4, gap),
            };
            file.extend(fields::edge(e.from as u8, e.to as u8, kind, gap as u16, e.class as u8));
        }
        for l in &self.labels {
            file.extend(fields::label(l.p as u16, l.q as u16, l.c as u8));
        }
        file.extend(fields::readings(readings));
        file
    }
}

/// How a boundary treats the count of changes inside a label, with the label's c.
#[derive(Clone, Copy, Debug, PartialEq)]
pub enum Mode {
    Free,
    Inside(usize),
    Closes(usize),
}

pub fn mode_at(plan: &Plan, boundary: usize) -> Mode {
    match plan.labels.iter().find(|l| l.p <= boundary && boundary < l.q) {
        None => Mode::Free,
        Some(l) if boundary + 1 == l.q => Mode::Closes(l.c),
        Some(l) => Mode::Inside(l.c),
    }
}

/// How many counts of changes are kept apart after t readings: up to what the label at the next boundary asks for.
pub fn counts_at(plan: &Plan, t: usize) -> usize {
    match mode_at(plan, t) {
        Mode::Free => 1,
        Mode::Inside(c) | Mode::Closes(c) => need(c) + 1,
    }
}

/// The count before a boundary from which count `k` after it is reached over this kind of edge.
#[inline(always)]
pub fn count_before(mode: Mode, k: usize, kind: Kind) -> Option<usize> {
    match mode {
        Mode::Free if k == 0 => Some(0),
        Mode::Inside(c) if k <= need(c) => k.checked_sub(counts_as(c, kind)),
        Mode::Closes(c) if k == 0 => need(c).checked_sub(counts_as(c, kind)),
        _ => None,
    }
}

/// One run; readings are counted from 1, and edge 255 stands for the first run.
#[derive(Clone, Copy, Debug, PartialEq)]
pub struct Run {
    pub first: usize,
    pub last: usize,
    pub state: usize,
    pub level: i64,
    pub edge: usize,
}

impl Run {
    /// A run up to the reading `last`, its first reading and its edge not found yet: those of a first run.
    pub fn ending(last: usize, state: usize, level: i64) -> Run {
        Run {
            first: 1,
            last,
            state,
            level,
            edge: 255,
        }
    }
}

#[derive(Clone, Debug, PartialEq)]
pub struct Answer {
    pub cost: i64,
    pub runs: Vec<Run>,
}
