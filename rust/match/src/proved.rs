//! The calls of the proved library on random buffers, with the content of every buffer checked afterwards.
use crate::lent::{Lent, Number};
use crate::rng::Rng;
use yeldaski::{Answer, Refusal};

/// What a call gave, as bytes that can be compared, or its refusal.
pub type Outcome = Result<Vec<u8>, u8>;

/// A call with all that it is given. `need` is 192 S L, for a table (K + 1) times as much.
#[derive(Clone)]
pub enum Call {
    Segment {
        room: usize,
        left: Left,
    },
    Search {
        readings: Vec<i16>,
        need: usize,
        words: usize,
        room: usize,
    },
    Point {
        readings: Vec<i16>,
        state: u8,
        level: i16,
        need: usize,
        words: usize,
    },
    Windows {
        record: Vec<i16>,
        w: usize,
        need: usize,
        words: usize,
        room: usize,
    },
    Table {
        readings: Vec<i16>,
        most: usize,
        need: usize,
        words: usize,
        room: usize,
    },
    ReadPlan {
        room: usize,
    },
    WritePlan {
        readings: Vec<i16>,
        room: usize,
    },
    ReadAnswer {
        room: usize,
    },
    WriteAnswer {
        cost: u64,
        numbers: Vec<i32>,
        room: usize,
    },
    WriteRefusal {
        number: u8,
        room: usize,
    },
}

/// What a whole `segment` should leave in the other buffers: readings, run numbers, how many words are zero.
#[derive(Clone, Default)]
pub struct Left {
    pub readings: Vec<i16>,
    pub numbers: Vec<i32>,
    pub cleared: usize,
}

/// A result, and which buffer does not hold what it should.
pub struct Seen {
    pub outcome: Outcome,
    pub fault: Option<&'static str>,
}

/// What the program `segment` lends.
const WORDS: usize = 7_680;
const NUMBERS: usize = 16_000;

impl Call {
    pub fn name(&self) -> &'static str {
        match self {
            Call::Segment { .. } => "segment",
            Call::Search { .. } => "search",
            Call::Point { .. } => "point",
            Call::Windows { .. } => "windows",
            Call::Table { .. } => "table",
            Call::ReadPlan { .. } => "read plan",
            Call::WritePlan { .. } => "write plan",
            Call::ReadAnswer { .. } => "read answer",
            Call::WriteAnswer { .. } => "write answer",
            Call::WriteRefusal { .. } => "write refusal",
        }
    }

    pub fn ask(&self, rng: &mut Rng, file: &[u8]) -> Seen {
        match self {
            Call::Segment { room, left } => segment(rng, file, *room, left),
            Call::Search { readings, need, words, room } => search(rng, file, readings, *need, *words, *room),
            Call::Point {
                readings,
                state,
                level,
                need,
                words,
            } => point(rng, file, readings, *state, *level, *need, *words),
            Call::Windows {
                record,
                w,
                need,
                words,
                room,
            } => costs(rng, *need, *words, *room, |workspace, costs| {
                yeldaski::windows(file, record, *w, workspace, costs)
            }),
            Call::Table {
                readings,
                most,
                need,
                words,
                room,
            } => costs(rng, *need, *words, *room, |workspace, costs| {
                yeldaski::table(file, readings, *most, workspace, costs)
            }),
            Call::ReadPlan { room } => filled(rng, *room, |out| yeldaski::read_plan(file, out), |z: i16| z.to_be_bytes().to_vec()),
            Call::WritePlan { readings, room } => filled(rng, *room, |out| yeldaski::write_plan(file, readings, out), |b| vec![b]),
            Call::ReadAnswer { room } => read_answer(rng, file, *room),
            Call::WriteAnswer { cost, numbers, room } => filled(rng, *room, |out| yeldaski::write_answer(*cost, numbers, out), |b| vec![b]),
            Call::WriteRefusal { number, room } => filled(rng, *room, |out| yeldaski::write_refusal(*number, out), |b| vec![b]),
        }
    }
}

/// Cost and run numbers as bytes.
pub fn found_bytes(cost: u64, numbers: &[i32]) -> Vec<u8> {
    let numbers = numbers.iter().flat_map(|n| n.to_be_bytes());
    cost.to_be_bytes().into_iter().chain(numbers).collect()
}

/// After success and after 16 the first `need` words are zero; other words, and after other refusals all, are as before.
fn cleared(workspace: &Lent<u64>, refusal: Option<Refusal>, need: usize) -> bool {
    match refusal {
        None | Some(Refusal(16)) => workspace.holds(&vec![0; need]),
        Some(_) => workspace.holds(&[]),
    }
}

fn search(rng: &mut Rng, file: &[u8], readings: &[i16], need: usize, words: usize, room: usize) -> Seen {
    let mut workspace = Lent::new(rng, words);
    let mut runs: Lent<i32> = Lent::new(rng, room);
    let result = yeldaski::search(file, readings, &mut workspace.now, &mut runs.now);
    let numbers = runs.now[..result.map_or(0, |found| 5 * found.runs)].to_vec();
    let mut fault = (!cleared(&workspace, result.err(), need)).then_some("workspace");
    if !runs.holds(&numbers) {
        fault = Some("runs");
    }
    Seen {
        outcome: result.map(|found| found_bytes(found.cost, &numbers)).map_err(|r| r.0),
        fault,
    }
}

fn point(rng: &mut Rng, file: &[u8], readings: &[i16], state: u8, level: i16, need: usize, words: usize) -> Seen {
    let mut workspace = Lent::new(rng, words);
    let result = yeldaski::point(file, readings, state, level, &mut workspace.now);
    let fault = (!cleared(&workspace, result.err(), need)).then_some("workspace");
    let outcome = result.map(|cost| cost.to_be_bytes().to_vec()).map_err(|r| r.0);
    Seen { outcome, fault }
}

/// A call that is lent a workspace and a list of costs.
fn costs(rng: &mut Rng, need: usize, words: usize, room: usize, call: impl FnOnce(&mut [u64], &mut [u64]) -> Result<usize, Refusal>) -> Seen {
    let mut workspace = Lent::new(rng, words);
    let mut refusal = None;
    let ask = |costs: &mut [u64]| {
        let result = call(&mut workspace.now, costs);
        refusal = result.err();
        result
    };
    let mut seen = filled(rng, room, ask, |cost| cost.to_be_bytes().to_vec());
    if !cleared(&workspace, refusal, need) {
        seen.fault = Some("workspace");
    }
    seen
}

/// A call that fills the front of one buffer, or leaves all of it.
fn filled<T: Number>(rng: &mut Rng, room: usize, call: impl FnOnce(&mut [T]) -> Result<usize, Refusal>, bytes: fn(T) -> Vec<u8>) -> Seen {
    let mut out: Lent<T> = Lent::new(rng, room);
    let result = call(&mut out.now);
    let front = out.now[..result.unwrap_or(0)].to_vec();
    let fault = (!out.holds(&front)).then_some("output");
    Seen {
        outcome: result.map(|_| front.into_iter().flat_map(bytes).collect()).map_err(|r| r.0),
        fault,
    }
}

fn read_answer(rng: &mut Rng, file: &[u8], room: usize) -> Seen {
    let mut runs: Lent<i32> = Lent::new(rng, room);
    let result = yeldaski::read_answer(file, &mut runs.now);
    let (outcome, count) = match result {
        Ok(Answer::Runs { cost, count }) => (Ok(found_bytes(cost, &runs.now[..5 * count])), count),
        Ok(Answer::Refused(held)) => (Ok(vec![held.0]), 0),
        Err(refusal) => (Err(refusal.0), 0),
    };
    let fault = (!runs.holds(&runs.now[..5 * count])).then_some("runs");
    Seen { outcome, fault }
}

fn segment(rng: &mut Rng, file: &[u8], room: usize, left: &Left) -> Seen {
    let mut readings = Lent::new(rng, 4_096);
    let mut workspace = Lent::new(rng, WORDS);
    let mut runs = Lent::new(rng, NUMBERS);
    let mut out: Lent<u8> = Lent::new(rng, room);
    let result = yeldaski::segment(file, &mut readings.now, &mut workspace.now, &mut runs.now, &mut out.now);
    let answer = out.now[..result.unwrap_or(0)].to_vec();
    let mut fault = None;
    for (holds, name) in [
        (readings.holds(&left.readings), "readings"),
        (workspace.holds(&vec![0; left.cleared]), "workspace"),
        (runs.holds(&left.numbers), "runs"),
        (out.holds(&answer), "output"),
    ] {
        fault = if holds { fault } else { Some(name) };
    }
    Seen {
        outcome: result.map(|_| answer).map_err(|r| r.0),
        fault,
    }
}
