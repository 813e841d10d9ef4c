//! Answers: made by the proved search, and read from answer files.
use crate::plan::{Plan, MAX_READINGS};
use yeldaski::Refusal;

/// An answer file has a field of 11 bytes for the cost and one for each run.
const LONGEST_ANSWER: usize = 11 * (MAX_READINGS + 1);

#[derive(Debug, Clone, Copy, PartialEq, Eq)]
pub struct Run {
    pub first: usize,
    pub last: usize,
    pub state: u8,
    pub level: i16,
    /// The edge that enters the run; none for the first one.
    pub edge: Option<u8>,
}

#[derive(Debug, Clone, PartialEq, Eq)]
pub enum Answer {
    Runs { cost: u64, runs: Vec<Run> },
    Refused(Refusal),
}

/// What an answer file holds.
pub fn read(file: &[u8]) -> Result<Answer, Refusal> {
    let mut numbers = vec![0; 5 * MAX_READINGS];
    Ok(match yeldaski::read_answer(file, &mut numbers)? {
        yeldaski::Answer::Refused(refusal) => Answer::Refused(refusal),
        yeldaski::Answer::Runs { cost, count } => Answer::Runs {
            cost,
            runs: runs(&numbers[..5 * count]),
        },
    })
}

fn runs(numbers: &[i32]) -> Vec<Run> {
    let run = |(index, five): (usize, &[i32])| Run {
        first: five[0] as usize,
        last: five[1] as usize,
        state: five[2] as u8,
        level: five[3] as i16,
        edge: (index > 0).then_some(five[4] as u8),
    };
    numbers.chunks_exact(5).enumerate().map(run).collect()
}

/// Plan file in, answer file out, in one proved call that is lent as much as the plan needs. The answer file may hold a refusal.
pub fn segment(file: &[u8]) -> Result<Vec<u8>, Refusal> {
    // A plan that the reader refuses needs no workspace.
    let words = Plan::read(file).map_or(0, |plan| plan.work_words());
    let (mut readings, mut numbers) = (vec![0; MAX_READINGS], vec![0; 5 * MAX_READINGS]);
    let (mut workspace, mut out) = (vec![0; words], vec![0; LONGEST_ANSWER]);
    let length = yeldaski::segment(file, &mut readings, &mut workspace, &mut numbers, &mut out)?;
    out.truncate(length);
    Ok(out)
}

/// Cost and runs of a plan file, or the refusal.
pub fn search(file: &[u8]) -> Result<(u64, Vec<Run>), Refusal> {
    match read(&segment(file)?)? {
        Answer::Runs { cost, runs } => Ok((cost, runs)),
        Answer::Refused(refusal) => Err(refusal),
    }
}
