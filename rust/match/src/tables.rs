//! The costs for each number of changes, asked of both programs.
use crate::cases::{self, Profile};
use crate::checks::{need_of, part, room, Asker, Checked};
use crate::plan::Plan;
use crate::proved::Call;
use crate::rng::Rng;
use crate::search::{self, Record};
use crate::windows::{cost_bytes, record};
use crate::RULES;

/// The most changes that a table may have.
pub const MOST: usize = 32;
/// The oracle's steps for one table: so many that it takes some hundredths of a second.
const STEPS: u64 = 1_500_000;
/// The same for the longest record, which is rare.
const LONG_STEPS: u64 = 20_000_000;
/// Words of a workspace that are made and compared in some hundredths of a second.
const WORDS: usize = 2_000_000;

/// One table over the readings of the file, a part of them, or a record made of them.
pub fn ask(asker: &mut Asker, rng: &mut Rng, file: &[u8], plan: &Plan, readings: &[i16], profile: Profile) -> Checked {
    let most = most(rng, plan);
    let readings = asked_readings(rng, plan, readings, profile, most);
    // a K that is refused needs nothing, but it could be taken for one that does
    let entries = if most > MOST {
        (MOST + 2).min(1 + WORDS / need_of(plan))
    } else {
        most + 1
    };
    let need = need_of(plan) * entries;
    let words = if rng.one_in(16) { need_of(plan) } else { room(rng, need) };
    let room = room(rng, most.min(MOST + 1) + 1);
    let costs = search::table(RULES, plan, &Record::plain(&readings), most as u64, words as u64, room as u64);
    if let Ok(costs) = &costs {
        asker.tally.tables.add(costs, plan);
    }
    let call = Call::Table {
        readings,
        most,
        need,
        words,
        room,
    };
    asker.ask(rng, file, call, costs.map(|costs| cost_bytes(&costs)))
}

/// K for a plan: where that needs a large workspace mostly a smaller one.
fn most(rng: &mut Rng, plan: &Plan) -> usize {
    let most = number_of_changes(rng);
    if most > MOST || rng.one_in(40) {
        return most;
    }
    most.min(WORDS / need_of(plan))
}

/// K: any that a table may have, more often a small one or the largest, and some that are refused.
pub fn number_of_changes(rng: &mut Rng) -> usize {
    match rng.below(12) {
        0 => rng.pick(&[33, 33, 33, 34, 64, 256, 65_536, (1 << 32) + 1, usize::MAX - 1, usize::MAX]),
        1 => MOST,
        2..=4 => rng.range(0, 6) as usize,
        _ => rng.range(0, MOST as i64) as usize,
    }
}

/// As many readings as the oracle can take: those of the file or a part of them, or a record made of them that is mostly long enough for all labels
/// and often for more than K changes.
fn asked_readings(rng: &mut Rng, plan: &Plan, readings: &[i16], profile: Profile, most: usize) -> Vec<i16> {
    let budget = if profile == Profile::Long { LONG_STEPS } else { STEPS };
    let lists = (most.min(MOST) as u64 + 1) * counts(plan);
    let longest = (budget / (cases::effort(plan, 1) * lists)).clamp(1, 4_096) as i64;
    if profile == Profile::Long && longest == 4_096 {
        let n = rng.pick(&[4_095, 4_096, 4_096, 4_097]);
        return record(rng, plan, readings, n);
    }
    if rng.one_in(3) {
        return part(rng, readings, longest as usize);
    }
    let mut n = rng.range(1, longest.min(60)).max(rng.range(1, longest.min(60)));
    let ends = plan.labels.last().map_or(0, |label| i64::from(label.q));
    if n < ends && ends <= longest && !rng.one_in(6) {
        n = ends + rng.range(0, (longest - ends).min(5));
    }
    record(rng, plan, readings, n as usize)
}

/// The most counts of changes that are told apart inside a label.
fn counts(plan: &Plan) -> u64 {
    let need = |code: u8| if code > 7 { 1 } else { u64::from(code) };
    1 + plan.labels.iter().map(|label| need(label.code)).max().unwrap_or(0)
}
