//! A cost function as a list of pieces over lo..=hi. The piece that ends at hi is the last, so a list needs no count.
use crate::piece::*;

/// Words a piece.
pub const P: usize = 4;

/// Appends p to the list at `out`, whose next free word is `at`, or makes the last piece longer where the function is the same.
#[inline(always)]
fn append(ws: &mut [u64], out: usize, at: usize, p: Piece) -> usize {
    if at > out && piece(ws, at - P).same(p) {
        put_piece(ws, at - P, p);
        at
    } else {
        put_piece(ws, at, p);
        at + P
    }
}

/// Words of the list at f.
pub fn length(ws: &[u64], f: usize, hi: i64) -> usize {
    let mut i = f;
    while end_at(ws, i) < hi {
        i += P;
    }
    i + P - f
}

/// out: at each level what comes first of f and of g with what an edge adds.
pub fn least_of_two(ws: &mut [u64], f: usize, g: usize, by: Cost, out: usize, lo: i64, hi: i64) {
    let (mut i, mut j, mut at, mut a) = (f, g, out, lo);
    while a <= hi {
        let p = piece(ws, i);
        let q = piece(ws, j).raise(by);
        let b = p.end.min(q.end);
        at = least_on(ws, out, at, p, q, a, b);
        if p.end == b {
            i += P
        }
        if q.end == b {
            j += P
        }
        a = b + 1;
    }
}

/// Appends what comes first of p and q on a..=b, p where they are equal in cost and changes.
#[inline(always)]
fn least_on(ws: &mut [u64], out: usize, at: usize, p: Piece, q: Piece, a: i64, b: i64) -> usize {
    if p.is_none() {
        return append(ws, out, at, q.until(b));
    }
    // p comes first where p + late <= q, so q where q + 1 - late <= p
    let late = i64::from(q.k() < p.k());
    let (mut a, mut at) = (a, at);
    while a <= b {
        let d = p.minus(q, late);
        let (d, winner) = if d.at(a) <= 0 { (d, p) } else { (q.minus(p, 1 - late), q) };
        let s = if a == b { b } else { stop(d, a, b) };
        at = append(ws, out, at, winner.until(s));
        a = s + 1;
    }
    at
}

/// out: at each level the least of f there and below.
pub fn running_min(ws: &mut [u64], f: usize, out: usize, lo: i64, hi: i64) {
    let (mut at, mut best) = (out, Cost::NONE);
    let (mut i, mut a) = (f, lo);
    while a <= hi {
        let p = piece(ws, i);
        (at, best) = running_min_on(ws, out, at, best, p, a);
        a = p.end + 1;
        i += P;
    }
}

/// Appends the running minimum on a..=p.end, where p is in force and `best` the least so far.
#[inline(always)]
fn running_min_on(ws: &mut [u64], out: usize, at: usize, best: Cost, p: Piece, a: i64) -> (usize, Cost) {
    let v = p.lowest(a, p.end);
    let w = p.cost_at(v);
    // p comes first where it is below
    let limit = best.value + i64::from(p.k() < best.changes);
    if w.value >= limit {
        return (append(ws, out, at, constant(p.end, best)), best);
    }
    // p falls from a to v; from `c` on it is below
    let c = first_below(p, limit, a, v);
    let mut at = at;
    if c > a {
        at = append(ws, out, at, constant(c - 1, best));
    }
    // v is left to p: with a constant there its neighbours could not be joined, and staircases would be many times longer
    at = append(ws, out, at, p.until(v));
    if v < p.end {
        at = append(ws, out, at, constant(p.end, w));
    }
    (at, w)
}

/// p falls on a..=v and p(v) < best: the first level with p < best.
#[inline(always)]
fn first_below(p: Piece, best: i64, a: i64, v: i64) -> i64 {
    if p.at(a) < best {
        return a;
    }
    let (mut x, mut y) = (a, v);
    while y - x > 1 {
        let m = (x + y) >> 1;
        if p.at(m) < best {
            y = m
        } else {
            x = m
        }
    }
    y
}

/// out: at each level f of `gap` levels below, none where there is no such level.
pub fn shift(ws: &mut [u64], f: usize, gap: i64, out: usize, lo: i64, hi: i64) {
    let (mut i, mut at) = (f, out);
    let mut end = lo + gap - 1;
    if gap > 0 {
        at = append(ws, out, at, constant(end.min(hi), Cost::NONE));
    }
    while end < hi {
        let p = piece(ws, i);
        end = (p.end + gap).min(hi);
        at = append(ws, out, at, p.shift(gap).until(end));
        i += P;
    }
}

/// out: f of -m, a list on -hi ..= -lo.
pub fn mirror(ws: &mut [u64], f: usize, out: usize, lo: i64, hi: i64) {
    let mut i = f + length(ws, f, hi) - P;
    let mut at = out;
    while i > f {
        let p = piece(ws, i);
        let start = end_at(ws, i - P) + 1;
        put_piece(ws, at, p.mirror(-start));
        i -= P;
        at += P;
    }
    put_piece(ws, at, piece(ws, f).mirror(-lo));
}

/// out: f plus the loss of the reading x.
pub fn add_loss(ws: &mut [u64], f: usize, out: usize, x: i64, hi: i64) {
    let (mut i, mut at) = (f, out);
    loop {
        let p = piece(ws, i);
        put_piece(ws, at, p.with_loss(x));
        i += P;
        at += P;
        if p.end == hi {
            return;
        }
    }
}

pub fn write_constant(ws: &mut [u64], out: usize, c: Cost, hi: i64) {
    put_piece(ws, out, constant(hi, c));
}

/// out: the least everywhere but at its level, where it is the second least.
pub fn write_constant_but(ws: &mut [u64], out: usize, two: Two, lo: i64, hi: i64) {
    let mut at = out;
    if lo < two.level {
        at = append(ws, out, at, constant(two.level - 1, two.least));
    }
    at = append(ws, out, at, constant(two.level, two.second));
    if two.level < hi {
        append(ws, out, at, constant(hi, two.least));
    }
}

/// What f costs at the level m.
pub fn cost_at(ws: &[u64], f: usize, m: i64) -> Cost {
    let mut i = f;
    while end_at(ws, i) < m {
        i += P;
    }
    piece(ws, i).cost_at(m)
}

/// The least cost, a level that has it, and the least at the other levels.
#[derive(Clone, Copy, Debug)]
pub struct Two {
    pub least: Cost,
    pub level: i64,
    pub second: Cost,
}

/// The two least of f, in one pass; none where there is no other level.
pub fn two_least(ws: &[u64], f: usize, lo: i64, hi: i64) -> Two {
    let mut best = Two {
        least: Cost::NONE,
        level: lo,
        second: Cost::NONE,
    };
    let (mut i, mut a) = (f, lo);
    while a <= hi {
        let p = piece(ws, i);
        best = lower_two(best, p, a);
        a = p.end + 1;
        i += P;
    }
    best
}

/// The same with the levels a..=p.end, where p is in force: beside its least are the least of its other values.
#[inline(always)]
fn lower_two(best: Two, p: Piece, a: i64) -> Two {
    let v = p.lowest(a, p.end);
    let w = p.cost_at(v);
    if !w.before(best.least) {
        return Two {
            second: best.second.first(w),
            ..best
        };
    }
    let mut second = best.least;
    if a < v {
        second = second.first(p.cost_at(v - 1));
    }
    if v < p.end {
        second = second.first(p.cost_at(v + 1));
    }
    Two { least: w, level: v, second }
}

/// A cost and the lowest level that has it.
#[derive(Clone, Copy, Debug)]
pub struct Low {
    pub least: Cost,
    pub level: i64,
}

/// The least of f over from..=to, with its lowest level; none where there is no such level.
pub fn least_in(ws: &[u64], f: usize, from: i64, to: i64, lo: i64) -> Low {
    let mut best = Low {
        least: Cost::NONE,
        level: lo,
    };
    let (mut i, mut a) = (f, lo);
    while a <= to {
        let p = piece(ws, i);
        let (x, y) = (a.max(from), p.end.min(to));
        if x <= y {
            let v = p.lowest(x, y);
            let w = p.cost_at(v);
            if w.before(best.least) {
                best = Low { least: w, level: v };
            }
        }
        a = p.end + 1;
        i += P;
    }
    best
}
