//! Saved layers: a stack in the rest of the workspace, with a small table of times and places.
use crate::layer::*;
use crate::list::*;
use crate::model::*;

pub const SLOTS: usize = 1_024;

/// Entry i: the layer after `time[i]` readings in the words off[i] .. off[i + 1]. It stands in the frame of a call and is lent to every step.
pub struct Saved {
    pub count: usize,
    pub time: [usize; SLOTS],
    off: [usize; SLOTS + 1],
}

impl Saved {
    pub fn new() -> Saved {
        Saved {
            count: 0,
            time: [0; SLOTS],
            off: [0; SLOTS + 1],
        }
    }

    /// Nothing is saved, and the first layer goes to the words from `first` on.
    pub fn empty(&mut self, first: usize) {
        self.count = 0;
        self.off[0] = first;
    }
}

/// Words that the layer after t readings, at `cur`, takes when it is saved: only the pieces there are.
fn layer_length(ws: &[u64], fr: Frame, plan: &Plan, cur: usize, t: usize) -> usize {
    (0..counts_at(plan, t) * fr.states).map(|j| length(ws, fr.list(cur, 0, j), fr.hi)).sum()
}

/// Slots that are free of so many, later layers taken as large as the one at hand.
pub fn free_slots(ws: &[u64], fr: Frame, plan: &Plan, saved: &Saved, cur: usize, t: usize, slots: usize) -> usize {
    if slots <= saved.count {
        return 0;
    }
    let words = layer_length(ws, fr, plan, cur, t);
    let free = fr.words() - saved.off[saved.count];
    (free / (words + 1)).min(slots - saved.count)
}

/// Saves the layer at `cur` as that after t readings, where there is room.
pub fn save(ws: &mut [u64], fr: Frame, plan: &Plan, saved: &mut Saved, cur: usize, t: usize) {
    let at = saved.off[saved.count];
    if saved.count == SLOTS || at + layer_length(ws, fr, plan, cur, t) > fr.words() {
        return;
    }
    let mut to = at;
    for j in 0..counts_at(plan, t) * fr.states {
        to += copy_list(ws, fr.list(cur, 0, j), to, fr.hi);
    }
    saved.time[saved.count] = t;
    saved.count += 1;
    saved.off[saved.count] = to;
}

/// Puts the layer saved last at `cur`.
pub fn load(ws: &mut [u64], fr: Frame, plan: &Plan, saved: &Saved, cur: usize) {
    let mut from = saved.off[saved.count - 1];
    for j in 0..counts_at(plan, saved.time[saved.count - 1]) * fr.states {
        from += copy_list(ws, from, fr.list(cur, 0, j), fr.hi);
    }
}

/// Copies the list at f and gives its words.
fn copy_list(ws: &mut [u64], f: usize, to: usize, hi: i64) -> usize {
    let n = length(ws, f, hi);
    ws.copy_within(f..f + n, to);
    n
}

/// Where to save next on the way from a to t with c slots free; t where there is none.
pub fn next_save(a: usize, t: usize, c: usize) -> usize {
    let d = t - a;
    if d < 2 || c == 0 {
        return t;
    }
    let r = repeats(d, c + 1); // the layer of a itself counts as a slot
    a + (d * r / (c + 1 + r)).max(1)
}

/// The least r with binomial(c + r, r) >= d.
fn repeats(d: usize, c: usize) -> usize {
    let (mut r, mut b) = (0, 1);
    while b < d {
        r += 1;
        b = b * (c + r) / r;
    }
    r
}
