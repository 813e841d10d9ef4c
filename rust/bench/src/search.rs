//! The search: forward to the last reading, then back boundary by boundary, with layers made again from saved ones.
use crate::layer::*;
use crate::list::*;
use crate::model::*;
use crate::piece::*;
use crate::saved::*;

/// The pieces of one pass forward: of all functions, how many functions, and the most in one.
#[derive(Clone, Copy, Debug, Default)]
pub struct Stats {
    pub pieces: usize,
    pub functions: usize,
    pub most: usize,
}

/// The layer after `time` readings stands at `cur`.
struct Walk<'a> {
    time: usize,
    cur: usize,
    other: usize,
    saved: &'a mut Saved,
    steps: usize,
}

/// At the first reading, with nothing saved.
fn begin<'a>(ws: &mut [u64], fr: Frame, plan: &Plan, z: &[i16], saved: &'a mut Saved) -> Walk<'a> {
    // the words of all lists, which are read and written without index checks
    assert!(fr.words() <= ws.len());
    first_layer(ws, fr, plan, 0, z[0] as i64);
    saved.empty(fr.saved());
    Walk {
        time: 1,
        cur: 0,
        other: fr.layer_words(),
        saved,
        steps: 0,
    }
}

fn step(ws: &mut [u64], fr: Frame, plan: &Plan, z: &[i16], wk: &mut Walk) {
    next_layer(ws, fr, plan, wk.time, Sources::one(wk.cur), wk.other, z[wk.time] as i64);
    std::mem::swap(&mut wk.cur, &mut wk.other);
    wk.time += 1;
    wk.steps += 1;
}

/// Forward to t, with layers saved on the way in at most so many slots.
fn advance(ws: &mut [u64], fr: Frame, plan: &Plan, z: &[i16], wk: &mut Walk, t: usize, slots: usize) {
    let mut save_at = next_save(wk.time, t, free_slots(ws, fr, plan, wk.saved, wk.cur, wk.time, slots));
    while wk.time < t {
        step(ws, fr, plan, z, wk);
        if wk.time == save_at && wk.time < t {
            save(ws, fr, plan, wk.saved, wk.cur, wk.time);
            save_at = next_save(wk.time, t, free_slots(ws, fr, plan, wk.saved, wk.cur, wk.time, slots));
        }
    }
}

/// Back to t: from the last layer saved that is not later, and forward again.
fn rewind(ws: &mut [u64], fr: Frame, plan: &Plan, z: &[i16], wk: &mut Walk, t: usize) {
    while wk.saved.count > 0 && wk.saved.time[wk.saved.count - 1] > t {
        wk.saved.count -= 1;
    }
    if wk.saved.count > 0 {
        load(ws, fr, plan, wk.saved, wk.cur);
        wk.time = wk.saved.time[wk.saved.count - 1];
    } else {
        first_layer(ws, fr, plan, wk.cur, z[0] as i64);
        wk.time = 1;
    }
    advance(ws, fr, plan, z, wk, t, SLOTS);
}

/// A point of a segmentation: count, state, level, and its least cost.
#[derive(Clone, Copy, Debug)]
struct Point {
    k: usize,
    s: usize,
    level: i64,
    least: Cost,
}

/// The cheapest end in the layer at cur: fewest changes, then lowest state, then lowest level.
fn best_end(ws: &[u64], fr: Frame, plan: &Plan, cur: usize) -> Point {
    let mut best = Point {
        k: 0,
        s: 0,
        level: fr.lo,
        least: Cost::NONE,
    };
    for s in 0..fr.states {
        if plan.end >> s & 1 == 1 {
            let low = least_in(ws, fr.list(cur, 0, s), fr.lo, fr.hi, fr.lo);
            if low.least.before(best.least) {
                best = Point {
                    k: 0,
                    s,
                    level: low.level,
                    least: low.least,
                };
            }
        }
    }
    best
}

/// The least of f over the levels from which the kind permits m.
fn least_before(ws: &[u64], fr: Frame, kind: Kind, f: usize, m: i64) -> Low {
    let (lo, hi) = (fr.lo, fr.hi);
    match kind {
        Kind::Stay => least_in(ws, f, m, m, lo),
        Kind::Any => least_beside(ws, fr, f, m, 1),
        Kind::Up(g) => least_in(ws, f, lo, m - g, lo),
        Kind::Down(g) => least_in(ws, f, m + g, hi, lo),
        Kind::Abs(g) => least_beside(ws, fr, f, m, g),
    }
}

/// The least of f over the levels at least g from m.
fn least_beside(ws: &[u64], fr: Frame, f: usize, m: i64, g: i64) -> Low {
    let below = least_in(ws, f, fr.lo, m - g, fr.lo);
    let above = least_in(ws, f, m + g, fr.hi, fr.lo);
    if above.least.before(below.least) {
        above
    } else {
        below
    }
}

/// The step back over a boundary into the layer at cur: the first edge that meets the wanted cost and changes, at its lowest level.
fn step_back(ws: &[u64], fr: Frame, plan: &Plan, boundary: usize, cur: usize, pt: Point, want: Cost) -> (usize, Point) {
    let mode = mode_at(plan, boundary);
    for (n, e) in plan.edges.iter().enumerate() {
        if e.to == pt.s {
            if let Some(k) = count_before(mode, pt.k, e.kind) {
                let low = least_before(ws, fr, e.kind, fr.list(cur, k, e.from), pt.level);
                if low.least.value < NONE && low.least.plus(added(e)) == want {
                    return (
                        n,
                        Point {
                            k,
                            s: e.from,
                            level: low.level,
                            least: low.least,
                        },
                    );
                }
            }
        }
    }
    unreachable!("some edge meets the cost")
}

fn forward<'a>(ws: &mut [u64], fr: Frame, plan: &Plan, z: &[i16], saved: &'a mut Saved, slots: usize) -> Walk<'a> {
    let mut wk = begin(ws, fr, plan, z, saved);
    advance(ws, fr, plan, z, &mut wk, z.len(), slots);
    wk
}

/// Cost at a point after all of z; the workspace is cleared, as the proved call does.
pub fn point(ws: &mut [u64], plan: &Plan, z: &[i16], s: usize, m: i64) -> Option<i64> {
    let fr = Frame::of(plan);
    let mut saved = Saved::new();
    let wk = forward(ws, fr, plan, z, &mut saved, 0);
    let costs = (0..counts_at(plan, z.len())).map(|k| cost_at(ws, fr.list(wk.cur, k, s), m).value);
    let least = costs.min().filter(|cost| *cost < NONE);
    ws.fill(0);
    least
}

/// The least cost of each part of w readings, by a pass forward for each; the workspace is cleared at the end, as the proved call does.
pub fn windows(ws: &mut [u64], plan: &Plan, z: &[i16], w: usize) -> Vec<i64> {
    let fr = Frame::of(plan);
    let mut saved = Saved::new();
    let costs = z.windows(w).map(|part| {
        let wk = forward(ws, fr, plan, part, &mut saved, 0);
        best_end(ws, fr, plan, wk.cur).least.value
    });
    let costs = costs.collect();
    ws.fill(0);
    costs
}

/// The least cost for each number of changes up to `most`: a layer for each of them, from which stays lead to the same number and changes to the next.
/// The workspace is cleared, as the proved call does.
pub fn table(ws: &mut [u64], plan: &Plan, z: &[i16], most: usize) -> Vec<Option<i64>> {
    let fr = Frame::of_table(plan, most + 1);
    assert!(fr.words() <= ws.len());
    let size = fr.layer_words();
    let (mut cur, mut next) = (0, (most + 1) * size);
    first_layer(ws, fr, plan, cur, z[0] as i64);
    for (i, x) in z.iter().enumerate().skip(1) {
        for k in 0..=most.min(i) {
            let from = Sources {
                // after i readings there are at most i - 1 changes
                stays: (k < i).then_some(cur + k * size),
                changes: k.checked_sub(1).map(|before| cur + before * size),
            };
            next_layer(ws, fr, plan, i, from, next + k * size, *x as i64);
        }
        std::mem::swap(&mut cur, &mut next);
    }
    let cost = |k: usize| {
        (k < z.len())
            .then(|| best_end(ws, fr, plan, cur + k * size).least.value)
            .filter(|cost| *cost < NONE)
    };
    let costs = (0..=most).map(cost).collect();
    ws.fill(0);
    costs
}

/// The search; the workspace is cleared, as the proved call does. Also the steps forward that it took.
pub fn search(ws: &mut [u64], plan: &Plan, z: &[i16]) -> (Option<Answer>, usize) {
    let fr = Frame::of(plan);
    let mut saved = Saved::new();
    let mut wk = forward(ws, fr, plan, z, &mut saved, SLOTS);
    let end = best_end(ws, fr, plan, wk.cur);
    let answer = (end.least.value < NONE).then(|| Answer {
        cost: end.least.value,
        runs: way_back(ws, fr, plan, z, &mut wk, end),
    });
    ws.fill(0);
    (answer, wk.steps)
}

/// The runs, found last first and turned round in place.
fn way_back(ws: &mut [u64], fr: Frame, plan: &Plan, z: &[i16], wk: &mut Walk, end: Point) -> Vec<Run> {
    let mut runs = Vec::with_capacity(z.len());
    let mut run = Run::ending(z.len(), end.s, end.level);
    let mut pt = end;
    for i in (1..z.len()).rev() {
        rewind(ws, fr, plan, z, wk, i);
        let x = z[i] as i64;
        let want = Cost {
            value: pt.least.value - (x - pt.level) * (x - pt.level),
            ..pt.least
        };
        let (edge, before) = step_back(ws, fr, plan, i, wk.cur, pt, want);
        let e = plan.edges[edge];
        if e.kind != Kind::Stay || e.from != e.to {
            runs.push(Run { first: i + 1, edge, ..run });
            run = Run::ending(i, before.s, before.level);
        }
        pt = before;
    }
    runs.push(run);
    runs.reverse();
    runs
}

/// One pass forward with its pieces counted, functions that are none everywhere aside.
pub fn stats(ws: &mut [u64], plan: &Plan, z: &[i16]) -> Stats {
    let fr = Frame::of(plan);
    let mut saved = Saved::new();
    let mut wk = begin(ws, fr, plan, z, &mut saved);
    let mut stats = Stats::default();
    while wk.time < z.len() {
        step(ws, fr, plan, z, &mut wk);
        for j in 0..counts_at(plan, wk.time) * fr.states {
            let f = fr.list(wk.cur, 0, j);
            let n = length(ws, f, fr.hi) / P;
            if n > 1 || !piece(ws, f).is_none() {
                stats.pieces += n;
                stats.functions += 1;
                stats.most = stats.most.max(n);
            }
        }
    }
    stats
}

#[cfg(test)]
mod tests {
    use super::*;
    use crate::dense;
    use crate::graphs::{any, random, Rng};

    fn answer(plan: &Plan, z: &[i16]) -> Option<Answer> {
        let mut workspace = vec![9; Frame::of(plan).words()];
        search(&mut workspace, plan, z).0
    }

    /// The toy data of the papers: one, two and three changes cost 3, and the answer has one.
    #[test]
    fn fewer_changes_win_a_tie() {
        let plan = Plan { lo: 0, hi: 4, ..any(5, 1) };
        let run = |first, last, level, edge| Run {
            first,
            last,
            state: 0,
            level,
            edge,
        };
        let runs = vec![run(1, 3, 1, 255), run(4, 4, 4, 1)];
        assert_eq!(answer(&plan, &[2, 1, 0, 4]), Some(Answer { cost: 3, runs }));
    }

    /// Small grids and mostly one class, so that ties are the rule: the answers are those of the dense programme.
    #[test]
    fn ties() {
        let mut rng = Rng(20_771);
        let mut found = 0;
        for number in 0..4_000 {
            let (plan, z) = random(&mut rng);
            let wanted = dense::search(&plan, &z);
            assert_eq!(answer(&plan, &z), wanted, "number {number}: {plan:?}, {z:?}");
            found += usize::from(wanted.is_some());
        }
        assert!(found > 2_000, "{found}");
    }
}
