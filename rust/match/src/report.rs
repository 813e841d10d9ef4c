//! A difference, shown with a file that reproduces it.
use crate::cases::Profile;
use crate::checks::Difference;
use crate::files;
use crate::proved::{Call, Outcome};
use crate::search::Record;
use crate::RULES;

fn hexadecimal(bytes: &[u8]) -> String {
    bytes.iter().map(|b| format!("{b:02X}")).collect()
}

/// How many bytes of an answer are shown: the moving window may give half a million.
const SHOWN: usize = 1_000;

/// The answer; of a long one the bytes about the first difference, before which `same` are equal.
fn answer(outcome: &Outcome, same: usize) -> String {
    match outcome {
        Ok(bytes) if bytes.len() <= SHOWN => format!("answer {}", hexadecimal(bytes)),
        Ok(bytes) => {
            let from = same.saturating_sub(16);
            let to = bytes.len().min(from + SHOWN);
            format!(
                "answer of {} bytes, after the first {from}: {}",
                bytes.len(),
                hexadecimal(&bytes[from..to])
            )
        }
        Err(number) => format!("refusal {number}"),
    }
}

/// How many bytes of two answers are equal, up to their first difference.
fn equal_bytes(one: &Outcome, other: &Outcome) -> usize {
    match (one, other) {
        (Ok(one), Ok(other)) => one.iter().zip(other).take_while(|(a, b)| a == b).count(),
        _ => 0,
    }
}

/// What was asked, beside the file.
fn question(call: &Call) -> String {
    let n = |readings: &[i16]| format!("{} readings", readings.len());
    let rest = match call {
        Call::Segment { room, .. } => format!("{room} bytes lent"),
        Call::Search { readings, words, room, .. } => format!("{}, {words} words and {room} run numbers lent", n(readings)),
        Call::Point {
            readings,
            state,
            level,
            words,
            ..
        } => {
            format!("{}, state {state}, level {level}, {words} words lent", n(readings))
        }
        Call::Windows { record, w, words, room, .. } => format!("{}, w {w}, {words} words and {room} costs lent", n(record)),
        Call::Table {
            readings, most, words, room, ..
        } => format!("{}, K {most}, {words} words and {room} costs lent", n(readings)),
        Call::ReadPlan { room } => format!("{room} readings lent"),
        Call::WritePlan { readings, room } => format!("{}, {room} bytes lent", n(readings)),
        Call::ReadAnswer { room } => format!("{room} run numbers lent"),
        Call::WriteAnswer { cost, numbers, room } => format!("cost {cost}, numbers {numbers:?}, {room} bytes lent"),
        Call::WriteRefusal { number, room } => format!("number {number}, {room} bytes lent"),
    };
    format!("{}: {rest}", call.name())
}

/// The file of the case; where the call has readings of its own, the plan with those, unless they are more than a plan file holds.
fn file_of(difference: &Difference) -> Vec<u8> {
    let readings = match &difference.call {
        Call::Search { readings, .. } | Call::Point { readings, .. } | Call::Table { readings, .. } => readings,
        Call::Windows { record: readings, .. } | Call::WritePlan { readings, .. } => readings,
        _ => return difference.file.clone(),
    };
    let with_them = |plan| files::write_plan(RULES, &plan, &Record::plain(readings), u64::MAX);
    let file = files::read_plan(RULES, &difference.file).and_then(|(plan, _)| with_them(plan));
    file.unwrap_or_else(|_| difference.file.clone())
}

/// `alone`: the profile was asked for.
pub fn show(difference: &Difference, seed: u64, case: u64, profile: Profile, alone: bool) {
    let ending = if profile.is_reply() { "answer" } else { "plan" };
    let name = format!("match-{seed}-{case}.{ending}");
    let file = file_of(difference);
    match std::fs::write(&name, &file) {
        Ok(()) => println!("difference in case {case}, profile {}; its file is {name}", profile.name()),
        Err(error) => println!(
            "difference in case {case}; {name} could not be written: {error}\nfile    {}",
            hexadecimal(&file)
        ),
    }
    println!("asked   {}", question(&difference.call));
    let same = equal_bytes(&difference.proved.outcome, &difference.oracle);
    println!("proved  {}", answer(&difference.proved.outcome, same));
    println!("oracle  {}", answer(&difference.oracle, same));
    if let Some(buffer) = difference.proved.fault {
        println!("the buffer for {buffer} does not hold what it should");
    }
    let profile = if alone {
        format!(" --profile '{}'", profile.name())
    } else {
        String::new()
    };
    println!("again   match --seed {seed} --only {case}{profile}");
}
