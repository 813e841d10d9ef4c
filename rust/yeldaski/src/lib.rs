//! Safe calls of the proved change finder.
//!
//! A plan comes as the bytes of a plan file. All memory is lent by the caller: nothing is allocated, and buffers may hold anything before a call.
//! Each call says what its buffers hold afterwards. Files and refusal numbers are those of the scope paper; the orders below are the order in
//! which a call tests for them.
#![deny(unsafe_code)]

#[allow(unsafe_code)]
mod calls;
mod refusal;

pub use refusal::Refusal;

/// What a search found: the cost, and how many runs it wrote (five numbers each).
#[derive(Debug, Clone, Copy, PartialEq, Eq)]
pub struct Found {
    pub cost: u64,
    pub runs: usize,
}

/// What an answer file holds: a cost and runs, or the number of a refusal.
#[derive(Debug, Clone, Copy, PartialEq, Eq)]
pub enum Answer {
    Runs { cost: u64, count: usize },
    Refused(Refusal),
}

/// The words of 64 bits that a search, a cost at a point or a moving window needs for so many states (1 to 8) and levels (1 to 1,024). A product that
/// does not fit gives `usize::MAX`, which is more than can be lent.
pub fn work_words(states: usize, levels: usize) -> usize {
    states.saturating_mul(levels).saturating_mul(192)
}

/// The words of 64 bits that a table for 0 to `most` changes needs: as many as [`work_words`] for each number of changes.
pub fn table_words(states: usize, levels: usize, most: usize) -> usize {
    work_words(states, levels).saturating_mul(most.saturating_add(1))
}

/// Decodes the readings of a plan file to the front of `readings` and gives their number.
///
/// Refusals: those of the plan reader, then 15 where `readings` is too short. The rest of `readings`, and on refusal all of it, stays.
pub fn read_plan(file: &[u8], readings: &mut [i16]) -> Result<usize, Refusal> {
    counted(calls::read_plan(file, readings))
}

/// Writes the plan of `file` with other readings as a plan file to the front of `out` and gives the number of bytes.
///
/// Refusals: those of the plan reader, then 9, 15. The rest of `out`, and on refusal all of it, stays.
pub fn write_plan(file: &[u8], readings: &[i16], out: &mut [u8]) -> Result<usize, Refusal> {
    counted(calls::write_plan(file, readings, out))
}

/// Searches the cheapest segmentation of `readings` that the plan of `file` allows. The readings in the file are not looked at.
///
/// Among equal costs the one with the fewest changes comes first: a change is a boundary with an edge of kind 1 to 4, inside labels and outside of
/// them. Among those with as many it is the one with the lowest state at the last reading, then the lowest level there, then, going back boundary by
/// boundary, the lowest edge and the lowest level before it.
///
/// A run is five numbers: first reading, last reading, state, level, edge that enters it (255 for the first run). Runs fill the front of `runs`;
/// the rest, and on refusal all of it, stays. Refusals: those of the plan reader, then 9, 13, 14, 15 (`runs` under 5 numbers a reading), 16.
/// After success or 16 the first [`work_words`] of `workspace` are zero and the others untouched; after other refusals all are untouched.
pub fn search(file: &[u8], readings: &[i16], workspace: &mut [u64], runs: &mut [i32]) -> Result<Found, Refusal> {
    let o = calls::search(file, readings, workspace, runs);
    accepted(o.refusal)?;
    Ok(Found { cost: o.cost, runs: o.count })
}

/// The least cost of the segmentations of `readings` that end in the named state at the named level. The end set is ignored. Of the labels
/// (p, q, c) those with q up to the last reading hold; one that is still open there (p before it, q behind it) allows at most c changes so far for c up
/// to 7, and at most one for 8 and 9, which then has kind 2 (up) or 3 (down); later ones are ignored.
///
/// Refusals: those of the plan reader, then 9, 5 (state), 4 (level), 14, 16. `workspace` afterwards is as with [`search`].
pub fn point(file: &[u8], readings: &[i16], state: u8, level: i16, workspace: &mut [u64]) -> Result<u64, Refusal> {
    let o = calls::point(file, readings, state, level, workspace);
    accepted(o.refusal)?;
    Ok(o.cost)
}

/// The least cost of every stretch of `w` readings of a long record: that of a search over the stretch alone. The readings in the file are not
/// looked at.
///
/// With n readings in `record`, the costs of the stretches that start at reading 1, 2, .. n − w + 1 go to the front of `costs` in this order, and
/// their number is given; the rest of `costs`, and on refusal all of it, stays. Every stretch is searched anew, so wide windows over a long record
/// take minutes.
///
/// Refusals: those of the plan reader, then 9 (here: no readings or more than 65,535), 18 (a plan with labels), 19 (a `w` of 0, above 1,024 or above
/// the record), 14, 15 (`costs` under n − w + 1 numbers), 16 (no stretch has an allowed segmentation: without labels all of them have one or none
/// has). `workspace` afterwards is as with [`search`].
pub fn windows(file: &[u8], record: &[i16], w: usize, workspace: &mut [u64], costs: &mut [u64]) -> Result<usize, Refusal> {
    counted(calls::windows(file, record, w, workspace, costs))
}

/// The costs for each number of changes: for k from 0 to `most` the least cost among the segmentations of `readings` that the plan of `file` allows
/// and that have exactly k changes, penalties included, and `u64::MAX` where there is none. A change is a boundary with an edge of kind 1 to 4,
/// inside labels and outside of them. The readings in the file are not looked at.
///
/// The numbers for 0, 1, .. `most` changes go to the front of `costs` in this order, and their count, `most` + 1, is given; the rest of `costs`, and
/// on refusal all of it, stays. The smallest of them is the cost that [`search`] gives wherever its answer has at most `most` changes.
///
/// Refusals: those of the plan reader, then 9, 13, 20 (`most` above 32), 14 (`workspace` under [`table_words`]), 15 (`costs` under `most` + 1
/// numbers), 16 (no segmentation is allowed with any number of changes; where every allowed one has more than `most`, all numbers are `u64::MAX` and
/// nothing is refused). After success or 16 the first [`table_words`] of `workspace` are zero and the others untouched; after other refusals all are
/// untouched.
pub fn table(file: &[u8], readings: &[i16], most: usize, workspace: &mut [u64], costs: &mut [u64]) -> Result<usize, Refusal> {
    counted(calls::table(file, readings, most, workspace, costs))
}

/// Reads an answer file; the runs' numbers, five a run, go to the front of `runs`.
///
/// Refusals: those of the answer reader to the end of the file, then 15 where `runs` is too short. The rest of `runs`, and on refusal or where the
/// file holds a refusal all of it, stays.
pub fn read_answer(file: &[u8], runs: &mut [i32]) -> Result<Answer, Refusal> {
    let r = calls::read_answer(file, runs);
    accepted(r.refusal)?;
    if r.held != 0 {
        return Ok(Answer::Refused(Refusal(r.held)));
    }
    Ok(Answer::Runs {
        cost: r.cost,
        count: r.count,
    })
}

/// Writes an answer file with a cost and runs, five numbers each, to the front of `out` and gives the number of bytes.
///
/// Refusals: 17, 15. The rest of `out`, and on refusal all of it, stays.
pub fn write_answer(cost: u64, runs: &[i32], out: &mut [u8]) -> Result<usize, Refusal> {
    counted(calls::write_answer(cost, runs, out))
}

/// Writes an answer file that holds a refusal to the front of `out` and gives the number of bytes.
///
/// Refusals: 17 (no refusal number), 15. The rest of `out`, and on refusal all of it, stays.
pub fn write_refusal(number: u8, out: &mut [u8]) -> Result<usize, Refusal> {
    counted(calls::write_refusal(number, out))
}

/// Plan file in, answer file out: decodes the readings, searches, and writes the runs or the refusal met to the front of `out`.
///
/// The only refusal is 15 where `out` is too short for the answer, found after the other buffers were used; the answer file itself may hold another
/// one. The rest of `out`, and on refusal all of it, stays. The other buffers are left as [`read_plan`] and [`search`] leave them; where reading the
/// plan or decoding the readings is refused, they stay.
pub fn segment(file: &[u8], readings: &mut [i16], workspace: &mut [u64], runs: &mut [i32], out: &mut [u8]) -> Result<usize, Refusal> {
    counted(calls::segment(file, readings, workspace, runs, out))
}

fn accepted(refusal: u8) -> Result<(), Refusal> {
    match refusal {
        0 => Ok(()),
        number => Err(Refusal(number)),
    }
}

fn counted(o: calls::Outcome) -> Result<usize, Refusal> {
    accepted(o.refusal)?;
    Ok(o.count)
}
