//! A layer: one list for each state and each count of changes that the label at the next boundary asks to keep apart, after some readings.
use crate::list::*;
use crate::model::*;
use crate::piece::*;

/// Where things stand in the workspace: two layers, for a table two for each number of changes, three lists for work, then the saved layers.
#[derive(Clone, Copy)]
pub struct Frame {
    pub lo: i64,
    pub hi: i64,
    pub states: usize,
    pub levels: usize,
    layers: usize,
}

impl Frame {
    pub fn of(plan: &Plan) -> Frame {
        Frame::of_table(plan, 1)
    }

    /// The frame of a table of so many entries.
    pub fn of_table(plan: &Plan, entries: usize) -> Frame {
        Frame {
            lo: plan.lo,
            hi: plan.hi,
            states: plan.states,
            levels: plan.levels(),
            layers: 2 * entries,
        }
    }

    pub fn layer_words(self) -> usize {
        COUNTS * self.states * P * self.levels
    }

    pub fn list(self, base: usize, k: usize, s: usize) -> usize {
        base + (k * self.states + s) * P * self.levels
    }

    fn temp(self, i: usize) -> usize {
        self.layers * self.layer_words() + i * P * self.levels
    }

    /// Where the saved layers begin.
    pub fn saved(self) -> usize {
        self.temp(3)
    }

    pub fn words(self) -> usize {
        96 * self.layers * self.states * self.levels
    }
}

/// The three lists for work: the least so far, and two free ones.
#[derive(Clone, Copy)]
struct Temps {
    acc: usize,
    one: usize,
    two: usize,
}

/// Before the first reading.
const START: Cost = Cost { value: 0, changes: 0 };

/// What an edge adds to a cost.
#[inline(always)]
pub fn added(e: &Edge) -> Cost {
    Cost {
        value: e.penalty(),
        changes: e.kind.changes(),
    }
}

/// The layer after the first reading x, at base.
pub fn first_layer(ws: &mut [u64], fr: Frame, plan: &Plan, base: usize, x: i64) {
    let acc = fr.temp(0);
    for s in 0..fr.states {
        let c = if plan.start >> s & 1 == 1 { START } else { Cost::NONE };
        write_constant(ws, acc, c, fr.hi);
        add_loss(ws, acc, fr.list(base, 0, s), x, fr.hi);
        for k in 1..counts_at(plan, 1) {
            write_constant(ws, fr.list(base, k, s), Cost::NONE, fr.hi);
        }
    }
}

/// The least so far and g with what the edge adds. `g` lies in `two` or in a layer.
fn take(ws: &mut [u64], fr: Frame, t: Temps, g: usize, by: Cost) -> Temps {
    least_of_two(ws, t.acc, g, by, t.one, fr.lo, fr.hi);
    Temps {
        acc: t.one,
        one: t.acc,
        two: t.two,
    }
}

/// The least so far with an edge from the list at f taken in.
fn take_edge(ws: &mut [u64], fr: Frame, t: Temps, e: &Edge, f: usize) -> Temps {
    let by = added(e);
    match e.kind {
        Kind::Stay => take(ws, fr, t, f, by),
        Kind::Any => take_any(ws, fr, t, f, by),
        Kind::Up(g) => take_up(ws, fr, t, f, g, by),
        Kind::Down(g) => take_down(ws, fr, t, f, g, by),
        Kind::Abs(g) => {
            let t = take_up(ws, fr, t, f, g, by);
            take_down(ws, fr, t, f, g, by)
        }
    }
}

/// The least at the other levels: the least of all, and at a level that has it the second least, unless the least so far does not come after it there.
fn take_any(ws: &mut [u64], fr: Frame, t: Temps, f: usize, by: Cost) -> Temps {
    let two = two_least(ws, f, fr.lo, fr.hi);
    if two.least.plus(by).before(cost_at(ws, t.acc, two.level)) {
        write_constant_but(ws, t.two, two, fr.lo, fr.hi);
    } else {
        write_constant(ws, t.two, two.least, fr.hi);
    }
    take(ws, fr, t, t.two, by)
}

fn take_up(ws: &mut [u64], fr: Frame, t: Temps, f: usize, gap: i64, by: Cost) -> Temps {
    running_min(ws, f, t.one, fr.lo, fr.hi);
    shift(ws, t.one, gap, t.two, fr.lo, fr.hi);
    take(ws, fr, t, t.two, by)
}

/// Down is up in the mirror.
fn take_down(ws: &mut [u64], fr: Frame, t: Temps, f: usize, gap: i64, by: Cost) -> Temps {
    mirror(ws, f, t.two, fr.lo, fr.hi);
    running_min(ws, t.two, t.one, -fr.hi, -fr.lo);
    shift(ws, t.one, gap, t.two, -fr.hi, -fr.lo);
    mirror(ws, t.two, t.one, -fr.hi, -fr.lo);
    let t = Temps {
        acc: t.acc,
        one: t.two,
        two: t.one,
    };
    take(ws, fr, t, t.two, by)
}

/// The layers that stays and changes lead from; none where nothing has so many changes.
#[derive(Clone, Copy)]
pub struct Sources {
    pub stays: Option<usize>,
    pub changes: Option<usize>,
}

impl Sources {
    /// In a search both lead from one layer.
    pub fn one(cur: usize) -> Sources {
        Sources {
            stays: Some(cur),
            changes: Some(cur),
        }
    }

    fn of(self, kind: Kind) -> Option<usize> {
        match kind {
            Kind::Stay => self.stays,
            _ => self.changes,
        }
    }
}

/// List (k, s) at dst over one boundary, then the loss of x.
#[allow(clippy::too_many_arguments)]
fn next_list(ws: &mut [u64], fr: Frame, plan: &Plan, mode: Mode, from: Sources, dst: usize, k: usize, s: usize, x: i64) {
    let mut t = Temps {
        acc: fr.temp(0),
        one: fr.temp(1),
        two: fr.temp(2),
    };
    write_constant(ws, t.acc, Cost::NONE, fr.hi);
    for e in &plan.edges {
        if e.to == s {
            if let (Some(before), Some(cur)) = (count_before(mode, k, e.kind), from.of(e.kind)) {
                t = take_edge(ws, fr, t, e, fr.list(cur, before, e.from));
            }
        }
    }
    add_loss(ws, t.acc, dst, x, fr.hi);
}

/// The layer at `next` after a boundary; x is the reading after the boundary.
pub fn next_layer(ws: &mut [u64], fr: Frame, plan: &Plan, boundary: usize, from: Sources, next: usize, x: i64) {
    let mode = mode_at(plan, boundary);
    for k in 0..counts_at(plan, boundary + 1) {
        for s in 0..fr.states {
            next_list(ws, fr, plan, mode, from, fr.list(next, k, s), k, s, x);
        }
    }
}
