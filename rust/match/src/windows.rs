//! The moving window, asked of both programs.
use crate::cases::{self, Profile};
use crate::checks::{moved, need_of, room, Asker, Checked};
use crate::files;
use crate::plan::Plan;
use crate::proved::Call;
use crate::rng::Rng;
use crate::search::{self, Record};
use crate::RULES;

/// One moving window over a record made of the readings of the file.
pub fn ask(asker: &mut Asker, rng: &mut Rng, file: &[u8], plan: &Plan, readings: &[i16], profile: Profile) -> Checked {
    let (file, plan) = asked_plan(rng, file, plan);
    let (n, w) = if profile == Profile::Long { longest(rng) } else { lengths(rng, &plan) };
    let record = record(rng, &plan, readings, n);
    let need = need_of(&plan);
    let words = room(rng, need);
    let room = room(rng, (n + 1).saturating_sub(w));
    let answer = |rules| search::window(rules, &plan, &Record::plain(&record), w as u64, words as u64, room as u64);
    let costs = answer(RULES);
    asker.tally.moves.windows += u64::from(moved(&plan, n.saturating_mul(w).min(1_000_000), answer));
    let call = Call::Windows {
        record,
        w,
        need,
        words,
        room,
    };
    asker.ask(rng, &file, call, costs.map(|costs| cost_bytes(&costs)))
}

pub fn cost_bytes(costs: &[u64]) -> Vec<u8> {
    costs.iter().flat_map(|cost| cost.to_be_bytes()).collect()
}

/// A plan with labels is 18, so that most are asked about without their labels.
fn asked_plan(rng: &mut Rng, file: &[u8], plan: &Plan) -> (Vec<u8>, Plan) {
    let mut plan = plan.clone();
    if plan.labels.is_empty() || rng.one_in(5) {
        return (file.to_vec(), plan);
    }
    plan.labels.clear();
    let bare = files::write_plan(RULES, &plan, &Record::plain(&[0]), u64::MAX).expect("a plan file");
    (bare, plan)
}

/// As many readings as there may be, or one more.
fn longest(rng: &mut Rng) -> (usize, usize) {
    let w = if rng.one_in(6) {
        rng.pick(&[0, 1_025, 65_535, 65_537])
    } else {
        rng.range(1, 3) as usize
    };
    (rng.pick(&[65_535, 65_535, 65_535, 65_536]), w)
}

/// How many readings, and the width: usually up to 40 readings, fewer where the oracle takes long.
fn lengths(rng: &mut Rng, plan: &Plan) -> (usize, usize) {
    let steps = cases::effort(plan, 1);
    if steps <= 5_000 && rng.one_in(30) {
        return wide(rng, steps);
    }
    // n readings have at most n / 2 parts of n / 2 readings
    let most = (4 * 3_000_000 / steps).isqrt().clamp(1, 40) as i64;
    let n = if rng.one_in(40) { 0 } else { rng.range(1, most).max(rng.range(1, most)) } as usize;
    (n, width(rng, n))
}

/// A wide window, half of the time about the greatest width, and a record that it fits into some times or, rarely, not at all.
fn wide(rng: &mut Rng, steps: u64) -> (usize, usize) {
    let w = if rng.one_in(2) { rng.range(1_021, 1_025) } else { rng.range(41, 1_024) };
    let most = (20_000_000 / (steps * w as u64)).clamp(1, 40) as i64;
    (if rng.one_in(10) { w - 1 } else { w + rng.range(0, most) } as usize, w as usize)
}

/// A width for so many readings, some that are refused among them.
pub fn width(rng: &mut Rng, n: usize) -> usize {
    match rng.below(12) {
        0 => rng.pick(&[0, n + 1, 1_024, 1_025, 65_537, (1 << 32) + 1, usize::MAX]),
        1 => n,
        2 => 1,
        3..=7 => rng.range(1, 5) as usize,
        _ => rng.range(1, n.max(1) as i64) as usize,
    }
}

/// The readings of the file from any of them on, again from its first after its last, with other ones near the grid between them.
pub fn record(rng: &mut Rng, plan: &Plan, readings: &[i16], n: usize) -> Vec<i16> {
    let start = rng.below(readings.len() as u64) as usize;
    let near = |z: i64| z.clamp(-32_768, 32_767) as i16;
    let (lo, hi) = (plan.lo as i64, plan.hi as i64);
    let again = readings.iter().cycle().skip(start).take(n);
    again.map(|z| if rng.one_in(6) { near(rng.range(lo - 2, hi + 2)) } else { *z }).collect()
}
