//! The dense programme that one would write instead: every level, the whole table in memory, plain loops that the compiler can vectorise.
use crate::model::*;
use crate::piece::NONE;

/// The table holds so many times the cost, plus the number of changes: of equal costs the one with fewer changes is the less. A record has fewer
/// changes than that, and its cost times that is below `NONE`.
const UNIT: i64 = ROOT * ROOT;
/// A distance times this has the loss times the unit as its square.
const ROOT: i64 = 64;

/// The cost that a value of the table stands for.
fn cost_of(value: i64) -> Option<i64> {
    (value < NONE).then_some(value / UNIT)
}

/// What an edge adds to it.
fn added(e: &Edge) -> i64 {
    UNIT * e.penalty() + e.kind.changes()
}

/// The least value, the index of a level that has it, and the least at the other levels.
#[derive(Clone, Copy, Default)]
struct Two {
    value: i64,
    at: usize,
    second: i64,
}

struct Dense<'a> {
    plan: &'a Plan,
    levels: usize,
    /// The most counts of changes that are told apart at a boundary; a row has room for so many.
    counts: usize,
    prefix: Vec<i64>,
    suffix: Vec<i64>,
    low: Vec<Two>,
    need_prefix: Vec<bool>,
    need_suffix: Vec<bool>,
    need_low: Vec<bool>,
}

impl<'a> Dense<'a> {
    fn new(plan: &'a Plan) -> Dense<'a> {
        let levels = plan.levels();
        let counts = plan.labels.iter().map(|l| counts_at(plan, l.p)).max().unwrap_or(1);
        let need =
            |test: fn(Kind) -> bool| -> Vec<bool> { (0..plan.states).map(|s| plan.edges.iter().any(|e| e.from == s && test(e.kind))).collect() };
        Dense {
            plan,
            levels,
            counts,
            prefix: vec![0; counts * plan.states * levels],
            suffix: vec![0; counts * plan.states * levels],
            low: vec![Two::default(); counts * plan.states],
            need_prefix: need(|k| matches!(k, Kind::Up(_) | Kind::Abs(_))),
            need_suffix: need(|k| matches!(k, Kind::Down(_) | Kind::Abs(_))),
            need_low: need(|k| k == Kind::Any),
        }
    }

    fn row(&self) -> usize {
        self.counts * self.plan.states * self.levels
    }

    fn first(&self, row: &mut [i64], x: i64) {
        row.fill(NONE);
        for s in 0..self.plan.states {
            if self.plan.start >> s & 1 == 1 {
                let f = &mut row[s * self.levels..(s + 1) * self.levels];
                f.fill(0);
                add_loss(f, x, self.plan.lo);
            }
        }
    }

    /// Running minima and least values of the row before, as far as some edge asks for them.
    fn prepare(&mut self, boundary: usize, cur: &[i64]) {
        for j in 0..counts_at(self.plan, boundary) * self.plan.states {
            let s = j % self.plan.states;
            let range = j * self.levels..(j + 1) * self.levels;
            let f = &cur[range.clone()];
            if self.need_prefix[s] {
                prefix(f, &mut self.prefix[range.clone()])
            }
            if self.need_suffix[s] {
                suffix(f, &mut self.suffix[range])
            }
            if self.need_low[s] {
                self.low[j] = two_least(f)
            }
        }
    }

    fn step(&mut self, boundary: usize, cur: &[i64], next: &mut [i64], x: i64) {
        self.prepare(boundary, cur);
        self.fill(boundary, cur, next, x);
    }

    /// The next row: stays lead there from the row `cur`, and changes from the one that was prepared.
    fn fill(&self, boundary: usize, cur: &[i64], next: &mut [i64], x: i64) {
        let (levels, states) = (self.levels, self.plan.states);
        let mode = mode_at(self.plan, boundary);
        for j in 0..counts_at(self.plan, boundary + 1) * states {
            let (k, s) = (j / states, j % states);
            let out = &mut next[j * levels..(j + 1) * levels];
            out.fill(NONE);
            for e in self.plan.edges.iter().filter(|e| e.to == s) {
                if let Some(before) = count_before(mode, k, e.kind) {
                    self.lower_by(out, cur, e, before * states + e.from);
                }
            }
            add_loss(out, x, self.plan.lo);
        }
    }

    /// The row so far, lowered where the edge from list j offers less.
    fn lower_by(&self, out: &mut [i64], cur: &[i64], e: &Edge, j: usize) {
        let range = j * self.levels..(j + 1) * self.levels;
        let by = added(e);
        match e.kind {
            Kind::Stay => lower(out, &cur[range], by),
            Kind::Any => lower_others(out, self.low[j], by),
            Kind::Up(g) => lower_up(out, &self.prefix[range], g as usize, by),
            Kind::Down(g) => lower_down(out, &self.suffix[range], g as usize, by),
            Kind::Abs(g) => {
                lower_up(out, &self.prefix[range.clone()], g as usize, by);
                lower_down(out, &self.suffix[range], g as usize, by);
            }
        }
    }
}

fn prefix(f: &[i64], out: &mut [i64]) {
    let mut least = NONE;
    for (o, v) in out.iter_mut().zip(f) {
        least = least.min(*v);
        *o = least;
    }
}

fn suffix(f: &[i64], out: &mut [i64]) {
    let mut least = NONE;
    for (o, v) in out.iter_mut().zip(f).rev() {
        least = least.min(*v);
        *o = least;
    }
}

fn lower(out: &mut [i64], f: &[i64], by: i64) {
    for (o, v) in out.iter_mut().zip(f) {
        *o = (*o).min(*v + by);
    }
}

fn least(f: &[i64]) -> i64 {
    f.iter().copied().fold(NONE, i64::min)
}

fn two_least(f: &[i64]) -> Two {
    let value = least(f);
    let at = f.iter().position(|v| *v == value).expect("a level");
    let second = least(&f[..at]).min(least(&f[at + 1..]));
    Two { value, at, second }
}

/// By the least at the other levels.
fn lower_others(out: &mut [i64], low: Two, by: i64) {
    let (below, rest) = out.split_at_mut(low.at);
    lower_constant(below, low.value + by);
    lower_constant(&mut rest[1..], low.value + by);
    rest[0] = rest[0].min(low.second + by);
}

fn lower_constant(out: &mut [i64], c: i64) {
    for o in out.iter_mut() {
        *o = (*o).min(c);
    }
}

fn lower_up(out: &mut [i64], prefix: &[i64], g: usize, by: i64) {
    if g < out.len() {
        let n = out.len() - g;
        lower(&mut out[g..], &prefix[..n], by);
    }
}

fn lower_down(out: &mut [i64], suffix: &[i64], g: usize, by: i64) {
    if g < out.len() {
        let n = out.len() - g;
        lower(&mut out[..n], &suffix[g..], by);
    }
}

/// Values from NONE up stay none: they are cut back to it.
fn add_loss(f: &mut [i64], x: i64, lo: i64) {
    let first = (ROOT * (x - lo)) as i32;
    for (i, o) in f.iter_mut().enumerate() {
        let d = i64::from(first - ROOT as i32 * i as i32); // it fits, and so the product vectorises
        *o = (*o + d * d).min(NONE);
    }
}

/// The least cost only, with two rows.
pub fn cost(plan: &Plan, z: &[i16]) -> Option<i64> {
    let mut d = Dense::new(plan);
    let (mut cur, mut next) = (vec![0; d.row()], vec![0; d.row()]);
    d.first(&mut cur, z[0] as i64);
    for (i, x) in z.iter().enumerate().skip(1) {
        d.step(i, &cur, &mut next, *x as i64);
        std::mem::swap(&mut cur, &mut next);
    }
    cost_of(best_end(plan, &cur).value)
}

/// The least cost for each number of changes up to `most`, with a row for each of them at two readings.
pub fn table(plan: &Plan, z: &[i16], most: usize) -> Vec<Option<i64>> {
    let mut d = Dense::new(plan);
    let row = d.row();
    // The row of k changes stands at k + 1, and none lead to the row before that of 0.
    let (mut cur, mut next) = (vec![NONE; (most + 2) * row], vec![NONE; (most + 2) * row]);
    d.first(&mut cur[row..2 * row], z[0] as i64);
    for (i, x) in z.iter().enumerate().skip(1) {
        for k in 0..=most.min(i) {
            d.prepare(i, &cur[k * row..(k + 1) * row]);
            let at = (k + 1) * row..(k + 2) * row;
            d.fill(i, &cur[at.clone()], &mut next[at], *x as i64);
        }
        std::mem::swap(&mut cur, &mut next);
    }
    cur[row..].chunks(row).map(|row| cost_of(best_end(plan, row).value)).collect()
}

/// The whole search with the whole table.
pub fn search(plan: &Plan, z: &[i16]) -> Option<Answer> {
    let mut d = Dense::new(plan);
    let row = d.row();
    let mut table = vec![0; z.len() * row];
    d.first(&mut table[..row], z[0] as i64);
    for i in 1..z.len() {
        let (before, rest) = table.split_at_mut(i * row);
        d.step(i, &before[(i - 1) * row..], &mut rest[..row], z[i] as i64);
    }
    let end = best_end(plan, &table[(z.len() - 1) * row..]);
    let runs = |cost| Answer {
        cost,
        runs: way_back(plan, z, &table, row, end),
    };
    cost_of(end.value).map(runs)
}

/// The cheapest end of a row: fewest changes, then lowest state, then lowest level.
fn best_end(plan: &Plan, row: &[i64]) -> Place {
    let levels = plan.levels();
    let mut best = Place {
        k: 0,
        s: 0,
        x: 0,
        value: NONE,
    };
    for s in (0..plan.states).filter(|s| plan.end >> s & 1 == 1) {
        let (value, x) = lowest(&row[s * levels..][..levels], 0, levels as i64 - 1);
        if value < best.value {
            best = Place { k: 0, s, x, value }
        }
    }
    best
}

/// The lowest of the least values from index a to b.
fn lowest(f: &[i64], a: i64, b: i64) -> (i64, i64) {
    let mut best = (NONE, 0);
    for x in a..=b {
        if f[x as usize] < best.0 {
            best = (f[x as usize], x)
        }
    }
    best
}

fn lowest_before(f: &[i64], kind: Kind, x: i64) -> (i64, i64) {
    let top = f.len() as i64 - 1;
    match kind {
        Kind::Stay => (f[x as usize], x),
        Kind::Any => lowest_beside(f, x, 1),
        Kind::Up(g) => lowest(f, 0, x - g),
        Kind::Down(g) => lowest(f, x + g, top),
        Kind::Abs(g) => lowest_beside(f, x, g),
    }
}

/// The lowest of the least values at the indices at least g from x.
fn lowest_beside(f: &[i64], x: i64, g: i64) -> (i64, i64) {
    let (below, above) = (lowest(f, 0, x - g), lowest(f, x + g, f.len() as i64 - 1));
    if above.0 < below.0 {
        above
    } else {
        below
    }
}

/// A place in the table: count, state, index of the level, and the value there.
#[derive(Clone, Copy)]
struct Place {
    k: usize,
    s: usize,
    x: i64,
    value: i64,
}

/// The first edge into `at` that meets the wanted value, and the place in the row before, at its lowest level.
fn step_back(plan: &Plan, mode: Mode, before: &[i64], at: Place, want: i64) -> (usize, Place) {
    let levels = plan.levels();
    for (number, e) in plan.edges.iter().enumerate().filter(|(_, e)| e.to == at.s) {
        if let Some(k) = count_before(mode, at.k, e.kind) {
            let f = &before[(k * plan.states + e.from) * levels..][..levels];
            let (value, x) = lowest_before(f, e.kind, at.x);
            if value < NONE && value + added(e) == want {
                return (number, Place { k, s: e.from, x, value });
            }
        }
    }
    unreachable!("some edge meets the value")
}

fn way_back(plan: &Plan, z: &[i16], table: &[i64], row: usize, end: Place) -> Vec<Run> {
    let mut at = end;
    let mut runs = vec![];
    let mut run = Run::ending(z.len(), at.s, plan.lo + at.x);
    for i in (1..z.len()).rev() {
        let distance = z[i] as i64 - plan.lo - at.x;
        let before = &table[(i - 1) * row..i * row];
        let (edge, place) = step_back(plan, mode_at(plan, i), before, at, at.value - UNIT * (distance * distance));
        let e = plan.edges[edge];
        if e.kind != Kind::Stay || e.from != e.to {
            runs.push(Run { first: i + 1, edge, ..run });
            run = Run::ending(i, place.s, plan.lo + place.x);
        }
        at = place;
    }
    runs.push(run);
    runs.reverse();
    runs
}
