//! Plans for the tests, and the calls on dirty buffers with their content checked after every call.
#![allow(dead_code)]

use std::fmt::Debug;
use yeldaski::{Answer, Refusal};

pub const STAY: u8 = 0;
pub const ANY: u8 = 1;
pub const UP: u8 = 2;
pub const DOWN: u8 = 3;
pub const ABS: u8 = 4;

/// Words of workspace for each state and level, by ticket 2.
pub const CELL: usize = 192;
/// Those of plan A on the grid 0..4, and of plan B, which has two states and seven levels.
pub const WORDS_A: usize = CELL * 5;
pub const WORDS_B: usize = CELL * 14;

/// A field of a plan file or an answer file.
pub fn field(tag: u8, body: &[u8]) -> Vec<u8> {
    let length = (body.len() as u16).to_be_bytes();
    [&[tag, length[0], length[1]], body].concat()
}

/// A plan by its fields. Nothing is checked here.
#[derive(Clone)]
pub struct Plan {
    pub lo: i16,
    pub hi: i16,
    pub states: u8,
    pub start: u8,
    pub end: u8,
    pub edges: Vec<u8>,
    pub labels: Vec<u8>,
}

impl Plan {
    pub fn new(lo: i16, hi: i16, states: u8, start: u8, end: u8) -> Plan {
        Plan {
            lo,
            hi,
            states,
            start,
            end,
            edges: vec![],
            labels: vec![],
        }
    }

    pub fn edge(mut self, from: u8, to: u8, kind: u8, gap: u16, class: u8) -> Plan {
        let gap = gap.to_be_bytes();
        self.edges.extend(field(3, &[from, to, kind, gap[0], gap[1], class]));
        self
    }

    pub fn label(mut self, p: u16, q: u16, c: u8) -> Plan {
        let (p, q) = (p.to_be_bytes(), q.to_be_bytes());
        self.labels.extend(field(4, &[p[0], p[1], q[0], q[1], c]));
        self
    }

    /// Grid, states, edges and labels.
    pub fn head(&self) -> Vec<u8> {
        let (lo, hi) = (self.lo.to_be_bytes(), self.hi.to_be_bytes());
        let grid = field(1, &[lo[0], lo[1], hi[0], hi[1]]);
        let states = field(2, &[self.states, self.start, self.end]);
        [grid, states, self.edges.clone(), self.labels.clone()].concat()
    }

    pub fn file(&self, readings: &[i16]) -> Vec<u8> {
        let body: Vec<u8> = readings.iter().flat_map(|z| z.to_be_bytes()).collect();
        [self.head(), field(5, &body)].concat()
    }

    pub fn words(&self) -> usize {
        yeldaski::work_words(self.states as usize, self.levels())
    }

    pub fn table_words(&self, most: usize) -> usize {
        yeldaski::table_words(self.states as usize, self.levels(), most)
    }

    fn levels(&self) -> usize {
        (self.hi as i32 - self.lo as i32 + 1) as usize
    }
}

/// The records of the scope paper for plan A and plan B.
pub const TOY: [i16; 4] = [2, 1, 0, 4];
pub const HUMPS: [i16; 4] = [1, 5, 5, 1];

/// Plan A of the scope paper: one state, a stay edge and an edge of kind any.
pub fn plan_a(lo: i16, hi: i16, class: u8) -> Plan {
    Plan::new(lo, hi, 1, 1, 1).edge(0, 0, STAY, 0, 0).edge(0, 0, ANY, 0, class)
}

/// Plan B of the scope paper, on the grid 0..6: up from state 0 to 1, down from 1 to 0.
pub fn plan_b(end: u8, gap: u16) -> Plan {
    let stays = Plan::new(0, 6, 2, 1, end).edge(0, 0, STAY, 0, 0).edge(1, 1, STAY, 0, 0);
    stays.edge(0, 1, UP, gap, 1).edge(1, 0, DOWN, 0, 0)
}

/// States and edges of every kind, on the grid from `lo` to 6.
pub fn mixed(lo: i16) -> Plan {
    let stays = Plan::new(lo, 6, 3, 5, 6)
        .edge(0, 0, STAY, 0, 0)
        .edge(1, 1, STAY, 0, 0)
        .edge(2, 2, STAY, 0, 1);
    stays
        .edge(0, 1, UP, 3, 4)
        .edge(1, 2, ABS, 5, 5)
        .edge(2, 0, DOWN, 2, 6)
        .edge(0, 2, ANY, 0, 7)
}

/// What is wrong with a call that gives a list of costs.
pub struct Wrong<'a> {
    /// The refusals in their order; 1 stands for all numbers of the plan reader.
    order: &'a [u8],
    /// Bit i is the i-th of the order.
    bits: usize,
    /// Takes the second way in which each but 1 and 16 can come about.
    pub other: bool,
}

impl Wrong<'_> {
    pub fn has(&self, number: u8) -> bool {
        self.bits >> self.order.iter().position(|n| *n == number).expect("a number") & 1 == 1
    }

    /// A record of n readings, or for 9 of none or of too many.
    pub fn record(&self, n: usize, too_many: usize) -> Vec<i16> {
        match (self.has(9), self.other) {
            (false, _) => vec![3; n],
            (true, false) => vec![],
            (true, true) => vec![3; too_many],
        }
    }

    pub fn plan(&self) -> Plan {
        // no level of the grid 0..6 is 7 above another, so that state 1 is out of reach
        plan_b(2, if self.has(16) { 7 } else { 0 })
    }

    pub fn file(&self, plan: &Plan) -> Vec<u8> {
        let mut file = plan.file(&[0]);
        file.truncate(file.len() - usize::from(self.has(1)));
        file
    }
}

/// Whatever is wrong, the earliest number of the order is given. With nothing wrong these are the costs, for each `other`.
pub fn earliest_refusal(order: &[u8], call: impl Fn(&Wrong) -> Result<Vec<u64>, u8>, costs: impl Fn(bool) -> Vec<u64>) {
    for bits in 0..1 << order.len() {
        for other in [false, true] {
            let wrong = Wrong { order, bits, other };
            let first = order.iter().enumerate().find(|(i, _)| bits >> i & 1 == 1);
            let expected = first.map_or_else(|| Ok(costs(other)), |(_, number)| Err(*number));
            assert_eq!(call(&wrong), expected, "{bits:07b} {other}");
        }
    }
}

/// Numbers that can fill a buffer.
pub trait Number: Copy + PartialEq + Debug {
    fn of(word: u64) -> Self;
}

macro_rules! numbers {
    ($($t:ty)*) => { $(impl Number for $t { fn of(word: u64) -> $t { word as $t } })* };
}
numbers!(u8 i16 i32 u64);

/// What stands at place i before a call: never 0, and different from place to place.
fn dirt<T: Number>(i: usize) -> T {
    T::of((i as u64 + 1).wrapping_mul(0x9E37_79B9_7F4A_7C15) | 1)
}

pub fn dirty<T: Number>(length: usize) -> Vec<T> {
    (0..length).map(dirt).collect()
}

/// The buffer is untouched from this place on.
fn kept_from<T: Number>(buffer: &[T], from: usize) {
    let before: Vec<T> = (from..buffer.len()).map(dirt).collect();
    assert_eq!(buffer[from..], before);
}

/// The first `need` words are zero, the others untouched.
fn cleared(workspace: &[u64], need: usize) {
    assert!(workspace[..need].iter().all(|w| *w == 0));
    kept_from(workspace, need);
}

pub type Searched = Result<(u64, Vec<i32>), u8>;

/// A search with so many words and run numbers lent; `need` is `CELL` times S times L.
pub fn search(file: &[u8], readings: &[i16], need: usize, words: usize, room: usize) -> Searched {
    let (mut workspace, mut runs) = (dirty(words), dirty(room));
    let result = yeldaski::search(file, readings, &mut workspace, &mut runs);
    cleared(&workspace, if matches!(result, Ok(_) | Err(Refusal(16))) { need } else { 0 });
    let filled = result.map_or(0, |found| 5 * found.runs);
    kept_from(&runs, filled);
    runs.truncate(filled);
    result.map(|found| (found.cost, runs)).map_err(|r| r.0)
}

pub fn point(file: &[u8], readings: &[i16], state: u8, level: i16, need: usize, words: usize) -> Result<u64, u8> {
    let mut workspace = dirty(words);
    let result = yeldaski::point(file, readings, state, level, &mut workspace);
    cleared(&workspace, if matches!(result, Ok(_) | Err(Refusal(16))) { need } else { 0 });
    result.map_err(|r| r.0)
}

/// A moving window with so many words and costs lent; `need` as above.
pub fn windows(file: &[u8], record: &[i16], w: usize, need: usize, words: usize, room: usize) -> Result<Vec<u64>, u8> {
    costs(need, words, room, |workspace, costs| yeldaski::windows(file, record, w, workspace, costs))
}

/// A table for 0 to `most` changes with so many words and costs lent; `need` is that of a search times `most` + 1.
pub fn table(file: &[u8], readings: &[i16], most: usize, need: usize, words: usize, room: usize) -> Result<Vec<u64>, u8> {
    costs(need, words, room, |workspace, costs| {
        yeldaski::table(file, readings, most, workspace, costs)
    })
}

/// A call that is lent a workspace and a list of costs.
fn costs(need: usize, words: usize, room: usize, call: impl FnOnce(&mut [u64], &mut [u64]) -> Result<usize, Refusal>) -> Result<Vec<u64>, u8> {
    let mut workspace = dirty(words);
    let mut refusal = None;
    let costs = filled(room, |costs| {
        let result = call(&mut workspace, costs);
        refusal = result.err();
        result
    });
    cleared(&workspace, if matches!(refusal, None | Some(Refusal(16))) { need } else { 0 });
    costs
}

pub fn read_plan(file: &[u8], room: usize) -> Result<Vec<i16>, u8> {
    filled(room, |readings| yeldaski::read_plan(file, readings))
}

pub fn write_plan(file: &[u8], readings: &[i16], room: usize) -> Result<Vec<u8>, u8> {
    filled(room, |out| yeldaski::write_plan(file, readings, out))
}

pub fn write_answer(cost: u64, runs: &[i32], room: usize) -> Result<Vec<u8>, u8> {
    filled(room, |out| yeldaski::write_answer(cost, runs, out))
}

pub fn write_refusal(number: u8, room: usize) -> Result<Vec<u8>, u8> {
    filled(room, |out| yeldaski::write_refusal(number, out))
}

/// A call that fills the front of a buffer, or leaves all of it.
fn filled<T: Number>(room: usize, call: impl FnOnce(&mut [T]) -> Result<usize, Refusal>) -> Result<Vec<T>, u8> {
    let mut buffer = dirty(room);
    let result = call(&mut buffer);
    kept_from(&buffer, result.unwrap_or(0));
    buffer.truncate(result.unwrap_or(0));
    result.map(|_| buffer).map_err(|r| r.0)
}

/// What an answer file holds: cost and run numbers, or the refusal as the inner error; the outer error is why it was not read.
pub fn read_answer(file: &[u8], room: usize) -> Result<Searched, u8> {
    let mut runs = dirty(room);
    let result = yeldaski::read_answer(file, &mut runs);
    let numbers = if let Ok(Answer::Runs { count, .. }) = result { 5 * count } else { 0 };
    kept_from(&runs, numbers);
    runs.truncate(numbers);
    match result {
        Err(refusal) => Err(refusal.0),
        Ok(Answer::Refused(refusal)) => Ok(Err(refusal.0)),
        Ok(Answer::Runs { cost, .. }) => Ok(Ok((cost, runs))),
    }
}

/// What a whole `segment` gave, and the readings and run numbers that it left.
pub struct Segmented {
    pub answer: Result<Vec<u8>, u8>,
    pub readings: Vec<i16>,
    pub numbers: Vec<i32>,
}

/// Lengths of the buffers that `segment` is lent.
#[derive(Clone, Copy)]
pub struct Lengths {
    pub readings: usize,
    pub words: usize,
    pub numbers: usize,
    pub out: usize,
}

/// `segment`, with what should be filled in each buffer: so many readings, words cleared and run numbers.
pub fn segment(file: &[u8], lent: Lengths, readings_filled: usize, cleared_words: usize, numbers_filled: usize) -> Segmented {
    let (mut readings, mut workspace, mut numbers) = (dirty(lent.readings), dirty(lent.words), dirty(lent.numbers));
    let answer = filled(lent.out, |out| yeldaski::segment(file, &mut readings, &mut workspace, &mut numbers, out));
    kept_from(&readings, readings_filled);
    cleared(&workspace, cleared_words);
    kept_from(&numbers, numbers_filled);
    readings.truncate(readings_filled);
    numbers.truncate(numbers_filled);
    Segmented { answer, readings, numbers }
}
