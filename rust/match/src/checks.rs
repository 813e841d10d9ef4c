//! The questions of a case: each goes to both programs.
use crate::cases::{self, Profile};
use crate::files::{self, Reply};
use crate::plan::{Label, Plan};
use crate::proved::{found_bytes, Call, Left, Outcome, Seen};
use crate::rng::Rng;
use crate::rules::Rules;
use crate::search::{self, Record, Run};
use crate::tally::Tally;
use crate::{tables, windows, RULES};

/// Two answers that are not the same, or a buffer with wrong content.
pub struct Difference {
    pub file: Vec<u8>,
    pub call: Call,
    pub proved: Seen,
    pub oracle: Outcome,
}

pub struct Asker {
    pub tally: Tally,
}

pub type Checked = Result<(), Box<Difference>>;

impl Asker {
    pub fn new() -> Asker {
        Asker { tally: Tally::default() }
    }

    /// Asks the proved library and compares.
    pub fn ask(&mut self, rng: &mut Rng, file: &[u8], call: Call, oracle: Outcome) -> Checked {
        let proved = call.ask(rng, file);
        self.tally.call(call.name(), shown_refusal(&call, &oracle));
        if agree(&proved, &oracle) {
            return Ok(());
        }
        Err(Box::new(Difference {
            file: file.to_vec(),
            call,
            proved,
            oracle,
        }))
    }
}

fn agree(proved: &Seen, oracle: &Outcome) -> bool {
    proved.outcome == *oracle && proved.fault.is_none()
}

/// The refusal that counts in the tally: an answer file may hold it.
fn shown_refusal(call: &Call, outcome: &Outcome) -> u8 {
    match (call, outcome) {
        (_, Err(number)) => *number,
        (Call::Segment { .. }, Ok(bytes)) if bytes[0] == 0x83 => bytes[3],
        _ => 0,
    }
}

pub fn run_case(asker: &mut Asker, rng: &mut Rng, profile: Profile, case: u64) -> Checked {
    let file = cases::file(rng, profile, case);
    if profile.is_reply() {
        return reply_case(asker, rng, &file);
    }
    let read = files::read_plan(RULES, &file);
    whole_segment(asker, rng, &file, &read)?;
    match read {
        Ok((plan, record)) => sound_plan(asker, rng, &file, &plan, &record.readings, profile),
        Err(number) => {
            // only the c of a label is ever wrong there
            asker.tally.labels.refused += u64::from(profile == Profile::Labelled);
            broken_plan(asker, rng, &file, number)
        }
    }
}

/// A buffer's length: as needed, one too short, longer, or none.
pub fn room(rng: &mut Rng, needed: usize) -> usize {
    match rng.below(8) {
        0 => needed.saturating_sub(1),
        1 => needed + rng.range(1, 9) as usize,
        2 if rng.one_in(4) => 0,
        _ => needed,
    }
}

/// Bytes that fit into a buffer, or 15.
fn fit(bytes: Vec<u8>, room: usize, needed: usize) -> Outcome {
    if room < needed {
        Err(15)
    } else {
        Ok(bytes)
    }
}

fn numbers_of(runs: &[Run]) -> Vec<i32> {
    runs.iter()
        .flat_map(|r| [r.first as i32, r.last as i32, r.state as i32, r.level as i32, r.edge as i32])
        .collect()
}

pub fn need_of(plan: &Plan) -> usize {
    RULES.words_per_cell() as usize * plan.states as usize * plan.levels()
}

/// The whole program `segment`: its answer, and what it leaves in the buffers.
fn whole_segment(asker: &mut Asker, rng: &mut Rng, file: &[u8], read: &Result<(Plan, Record), u8>) -> Checked {
    let answer = files::segment(RULES, file, files::SEGMENT_WORDS, files::SEGMENT_ROOM);
    let mut left = Left::default();
    if let Ok((plan, record)) = read {
        left.readings = record.readings.clone();
        match files::read_answer(RULES, &answer, u64::MAX).expect("the oracle's own answer") {
            Reply::Found { runs, .. } => (left.numbers, left.cleared) = (numbers_of(&runs), need_of(plan)),
            Reply::Refused(16) => left.cleared = need_of(plan),
            Reply::Refused(_) => {}
        }
    }
    let size = answer.len();
    let room = room(rng, size);
    asker.ask(rng, file, Call::Segment { room, left }, fit(answer, room, size))
}

/// Calls on a file that the reader refuses: all give its number.
fn broken_plan(asker: &mut Asker, rng: &mut Rng, file: &[u8], number: u8) -> Checked {
    let readings: Vec<i16> = (0..rng.below(4)).map(|_| rng.next() as i16).collect();
    let (words, room) = (rng.below(600) as usize, rng.below(60) as usize);
    let (state, level) = (rng.below(9) as u8, rng.next() as i16);
    let calls = [
        Call::ReadPlan { room },
        Call::WritePlan {
            readings: readings.clone(),
            room: 10 * room,
        },
        Call::Search {
            readings: readings.clone(),
            need: 0,
            words,
            room,
        },
        Call::Point {
            readings: readings.clone(),
            state,
            level,
            need: 0,
            words,
        },
        Call::Windows {
            w: windows::width(rng, readings.len()),
            record: readings.clone(),
            need: 0,
            words,
            room,
        },
        Call::Table {
            readings,
            most: tables::number_of_changes(rng),
            need: 0,
            words,
            room,
        },
    ];
    for call in calls {
        asker.ask(rng, file, call, Err(number))?;
    }
    Ok(())
}

fn sound_plan(asker: &mut Asker, rng: &mut Rng, file: &[u8], plan: &Plan, readings: &[i16], profile: Profile) -> Checked {
    let n = readings.len();
    let lent = room(rng, n);
    let bytes = readings.iter().flat_map(|z| z.to_be_bytes()).collect();
    asker.ask(rng, file, Call::ReadPlan { room: lent }, fit(bytes, lent, n))?;
    write_plan(asker, rng, file, plan, readings)?;
    // The oracle's time sets how long the part of the record may be that is searched again.
    let most = (3_000_000 / cases::effort(plan, 1)) as usize;
    if profile == Profile::Large {
        let (words, room) = (need_of(plan), 5 * n);
        searched(asker, rng, file, plan, readings.to_vec(), words, room)?;
    } else {
        let part = part(rng, readings, if profile == Profile::Wide { n } else { most });
        let (words, room) = (room(rng, need_of(plan)), room(rng, 5 * part.len()));
        searched(asker, rng, file, plan, part, words, room)?;
    }
    for _ in 0..2 {
        let part = part(rng, readings, 10 * most);
        point(asker, rng, file, plan, part)?;
    }
    if profile == Profile::Labelled {
        open_points(asker, rng, file, plan, readings)?;
    }
    windows::ask(asker, rng, file, plan, readings, profile)?;
    for _ in 0..2 {
        tables::ask(asker, rng, file, plan, readings, profile)?;
    }
    Ok(())
}

/// The record, a part from its start, no reading, or more readings than there may be.
pub fn part(rng: &mut Rng, readings: &[i16], most: usize) -> Vec<i16> {
    let n = readings.len();
    match rng.below(12) {
        0 if rng.one_in(3) => vec![],
        0 if rng.one_in(6) => vec![0; 4_097],
        1..=6 if n <= most => readings.to_vec(),
        _ => readings[..rng.range(1, n.min(most.max(1)) as i64) as usize].to_vec(),
    }
}

fn write_plan(asker: &mut Asker, rng: &mut Rng, file: &[u8], plan: &Plan, readings: &[i16]) -> Checked {
    let readings = part(rng, readings, usize::MAX);
    let whole = files::write_plan(RULES, plan, &Record::plain(&readings), u64::MAX);
    let size = whole.as_ref().map_or(20, |bytes| bytes.len());
    let room = room(rng, size);
    let oracle = whole.and_then(|bytes| fit(bytes, room, size));
    asker.ask(rng, file, Call::WritePlan { readings, room }, oracle)
}

/// So few steps of the oracle that it can be asked by the rules before a ticket as well.
const QUICK: u64 = 100_000;

/// Whether an answer is another than before ticket 4, by which kind any moves the level, as far as that takes few steps.
pub fn moved<T: PartialEq>(plan: &Plan, n: usize, answer: impl Fn(Rules) -> T) -> bool {
    cases::effort(plan, n) <= QUICK && answer(Rules { tickets: 3 }) != answer(Rules { tickets: 4 })
}

fn searched(asker: &mut Asker, rng: &mut Rng, file: &[u8], plan: &Plan, readings: Vec<i16>, words: usize, room: usize) -> Checked {
    let need = need_of(plan);
    let answer = |rules| search::search(rules, plan, &Record::plain(&readings), words as u64, room as u64);
    let found = answer(RULES);
    if moved(plan, readings.len(), answer) {
        asker.tally.moves.searches += 1;
        asker.tally.moves.refused += u64::from(found.is_err());
    }
    if cases::effort(plan, readings.len()) <= QUICK {
        if let (Ok(before), Ok(found)) = (answer(Rules { tickets: 5 }), &found) {
            asker.tally.ties.add(plan, &before, found);
        }
    }
    if found.is_ok() {
        for label in &plan.labels {
            asker.tally.labels.searched[label.code as usize] += 1;
        }
    }
    let oracle = found.map(|found| found_bytes(found.cost, &numbers_of(&found.runs)));
    asker.ask(rng, file, Call::Search { readings, need, words, room }, oracle)
}

/// Inside each label, after any of the readings between its ends, more often a late one: before it there may have been more changes.
fn open_points(asker: &mut Asker, rng: &mut Rng, file: &[u8], plan: &Plan, readings: &[i16]) -> Checked {
    for label in &plan.labels {
        let (first, last) = (label.p as i64 + 1, (label.q as i64 - 1).min(readings.len() as i64));
        if first <= last {
            let n = rng.range(first, last).max(rng.range(first, last)) as usize;
            point(asker, rng, file, plan, readings[..n].to_vec())?;
        }
    }
    Ok(())
}

/// The label that is open after n readings.
fn open_label(plan: &Plan, n: usize) -> Option<&Label> {
    plan.labels.iter().find(|label| (label.p as usize) < n && n < label.q as usize)
}

/// A cost at a point, now and then of a state or level that there is not.
fn point(asker: &mut Asker, rng: &mut Rng, file: &[u8], plan: &Plan, readings: Vec<i16>) -> Checked {
    let need = need_of(plan);
    let words = room(rng, need);
    let state = if rng.one_in(12) { rng.below(256) } else { rng.below(plan.states as u64) } as u8;
    let (lo, hi) = (plan.lo as i64, plan.hi as i64);
    let level = match rng.below(12) {
        0 => rng.next() as i16,
        1 => (lo - 1).max(-32_768) as i16,
        2 => (hi + 1).min(32_767) as i16,
        _ => rng.range(lo, hi) as i16,
    };
    let answer = |rules| search::point(rules, plan, &Record::plain(&readings), state as u64, level as i64, words as u64);
    let cost = answer(RULES);
    asker.tally.moves.points += u64::from(moved(plan, readings.len(), answer));
    if let (Ok(_), Some(label)) = (cost, open_label(plan, readings.len())) {
        asker.tally.labels.open[label.code as usize] += 1;
    }
    let oracle = cost.map(|cost| cost.to_be_bytes().to_vec());
    asker.ask(
        rng,
        file,
        Call::Point {
            readings,
            state,
            level,
            need,
            words,
        },
        oracle,
    )
}

/// An answer file read, and what it holds written again, also with numbers changed.
fn reply_case(asker: &mut Asker, rng: &mut Rng, file: &[u8]) -> Checked {
    let reply = files::read_answer(RULES, file, u64::MAX);
    let (oracle, needed) = match &reply {
        Ok(Reply::Found { cost, runs }) => (Ok(found_bytes(*cost, &numbers_of(runs))), 5 * runs.len()),
        Ok(Reply::Refused(number)) => (Ok(vec![*number]), 0),
        Err(number) => (Err(*number), 20),
    };
    let lent = room(rng, needed);
    let oracle = oracle.and_then(|bytes| fit(bytes, lent, if reply.is_ok() { needed } else { 0 }));
    asker.ask(rng, file, Call::ReadAnswer { room: lent }, oracle)?;
    if let Ok(Reply::Found { cost, runs }) = reply {
        write_answer(asker, rng, cost, numbers_of(&runs))?;
        let changed = changed(rng, numbers_of(&runs));
        write_answer(asker, rng, u64::MAX - cost, changed)?;
    }
    let number = if rng.one_in(2) { rng.below(22) } else { rng.below(256) } as u8;
    let whole = files::write_answer(RULES, &Reply::Refused(number), u64::MAX);
    let room = room(rng, 4);
    asker.ask(rng, &[], Call::WriteRefusal { number, room }, whole.and_then(|bytes| fit(bytes, room, 4)))
}

/// Run numbers with one of them changed or some left out.
fn changed(rng: &mut Rng, mut numbers: Vec<i32>) -> Vec<i32> {
    let at = rng.below(numbers.len() as u64) as usize;
    match rng.below(4) {
        0 => {
            numbers[at] = rng.pick(&[
                -32_769, -32_768, -1, 0, 1, 7, 8, 31, 32, 254, 255, 256, 4_096, 4_097, 32_767, 32_768, 65_537,
            ])
        }
        1 => numbers[at] += rng.pick(&[-1, 1, 256, 65_536]),
        2 => numbers[at] = rng.next() as i32,
        _ => numbers.truncate(at),
    }
    numbers
}

fn write_answer(asker: &mut Asker, rng: &mut Rng, cost: u64, numbers: Vec<i32>) -> Checked {
    let whole = match runs_of(&numbers) {
        Some(runs) => files::write_answer(RULES, &Reply::Found { cost, runs }, u64::MAX),
        // The scope paper: such lists are 17. The oracle's runs cannot hold them.
        None => Err(17),
    };
    let size = whole.as_ref().map_or(20, |bytes| bytes.len());
    let room = room(rng, size);
    let oracle = whole.and_then(|bytes| fit(bytes, room, size));
    asker.ask(rng, &[], Call::WriteAnswer { cost, numbers, room }, oracle)
}

/// The runs of a list of numbers, where the fields of an answer file can hold them.
fn runs_of(numbers: &[i32]) -> Option<Vec<Run>> {
    if !numbers.len().is_multiple_of(5) {
        return None;
    }
    let run = |n: &[i32]| {
        Some(Run {
            first: n[0].try_into().ok()?,
            last: n[1].try_into().ok()?,
            state: n[2].try_into().ok()?,
            level: n[3].try_into().ok()?,
            edge: n[4].try_into().ok()?,
        })
    };
    numbers.chunks(5).map(run).collect()
}

#[cfg(test)]
mod tests {
    use super::*;

    /// A plan file, with the readings 3 and 4.
    const PLAN: [u8; 38] = [
        1, 0, 4, 0, 0, 0, 9, 2, 0, 3, 1, 1, 1, 3, 0, 6, 0, 0, 0, 0, 0, 0, 3, 0, 6, 0, 0, 1, 0, 0, 4, 5, 0, 4, 0, 3, 0, 4,
    ];

    /// A call whose oracle answer is changed must be found.
    fn difference_of(call: &Call, oracle: Outcome) -> Option<Box<Difference>> {
        Asker::new().ask(&mut Rng::new(3), &PLAN, call.clone(), oracle).err()
    }

    fn every_change_is_found(call: Call, oracle: Vec<u8>) {
        assert!(difference_of(&call, Ok(oracle.clone())).is_none());
        for at in 0..oracle.len() {
            let mut flipped = oracle.clone();
            flipped[at] ^= 1;
            assert!(difference_of(&call, Ok(flipped)).is_some());
        }
        assert!(difference_of(&call, Ok(oracle[8..].to_vec())).is_some());
        assert!(difference_of(&call, Err(16)).is_some());
    }

    #[test]
    fn a_changed_answer_is_a_difference() {
        let plan = files::read_plan(RULES, &PLAN).expect("a plan").0;
        let record = Record::plain(&[3, 4, 6]);
        let (readings, need, words) = (record.readings.clone(), 1_920, 1_925);
        let found = search::search(RULES, &plan, &record, 1_920, 15).expect("an answer");
        let call = Call::Search {
            readings: readings.clone(),
            need,
            words,
            room: 17,
        };
        every_change_is_found(call, found_bytes(found.cost, &numbers_of(&found.runs)));
        let costs = search::window(RULES, &plan, &record, 2, 1_920, 2).expect("costs");
        let call = Call::Windows {
            record: readings.clone(),
            w: 2,
            need,
            words,
            room: 3,
        };
        every_change_is_found(call, windows::cost_bytes(&costs));
        let costs = search::table(RULES, &plan, &record, 3, 7_680, 4).expect("costs");
        assert!(costs[2] < u64::MAX && costs[3] == u64::MAX);
        let call = Call::Table {
            readings,
            most: 3,
            need: 7_680,
            words: 7_690,
            room: 6,
        };
        every_change_is_found(call, windows::cost_bytes(&costs));
    }
}
