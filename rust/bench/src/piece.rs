//! One piece of a cost function: a m² - 2 z m + c, after k changes, up to the level `end`. In the workspace a piece takes four words; a and k share one,
//! and stay together in it where neither is looked at: apart from each other they cost 4 % of the time.

/// The cost where no segmentation ends.
pub const NONE: i64 = 1 << 60;
/// Keeps stored numbers unsigned.
const BIAS: i64 = 1 << 40;

#[derive(Clone, Copy, Debug, PartialEq)]
pub struct Piece {
    pub end: i64,
    /// a and k: see `a` and `k`.
    both: i64,
    pub z: i64,
    pub c: i64,
}

/// The bits of `both` that a has; the number of changes is above them.
const CHANGE_BITS: u32 = 32;

/// A word without an index check, since the proved code runs without one too. A debug build checks it.
#[inline(always)]
fn get(ws: &[u64], i: usize) -> u64 {
    debug_assert!(i < ws.len());
    // Sound: all lists lie within the 192 S L words of the workspace; runs of the debug build bear it out.
    unsafe { *ws.get_unchecked(i) }
}

#[inline(always)]
fn put(ws: &mut [u64], i: usize, v: u64) {
    debug_assert!(i < ws.len());
    // Sound: as in `get`.
    unsafe { *ws.get_unchecked_mut(i) = v }
}

#[inline(always)]
pub fn end_at(ws: &[u64], at: usize) -> i64 {
    get(ws, at) as i64 - BIAS
}

#[inline(always)]
pub fn piece(ws: &[u64], at: usize) -> Piece {
    Piece {
        end: get(ws, at) as i64 - BIAS,
        both: get(ws, at + 1) as i64,
        z: get(ws, at + 2) as i64 - BIAS,
        c: get(ws, at + 3) as i64,
    }
}

#[inline(always)]
pub fn put_piece(ws: &mut [u64], at: usize, p: Piece) {
    put(ws, at, (p.end + BIAS) as u64);
    put(ws, at + 1, p.both as u64);
    put(ws, at + 2, (p.z + BIAS) as u64);
    put(ws, at + 3, p.c as u64);
}

#[inline(always)]
pub fn constant(end: i64, cost: Cost) -> Piece {
    Piece {
        end,
        both: cost.changes << CHANGE_BITS,
        z: 0,
        c: cost.value,
    }
}

/// A cost, and the number of changes of the segmentations that count: of those with this cost they have the fewest.
#[derive(Clone, Copy, Debug, PartialEq)]
pub struct Cost {
    pub value: i64,
    pub changes: i64,
}

impl Cost {
    pub const NONE: Cost = Cost { value: NONE, changes: 0 };

    /// Less, or equal with fewer changes. One comparison: two would be slower.
    #[inline(always)]
    pub fn before(self, o: Cost) -> bool {
        self.value < o.value + i64::from(self.changes < o.changes)
    }

    #[inline(always)]
    pub fn first(self, o: Cost) -> Cost {
        if o.before(self) {
            o
        } else {
            self
        }
    }

    #[inline(always)]
    pub fn plus(self, o: Cost) -> Cost {
        Cost {
            value: self.value + o.value,
            changes: self.changes + o.changes,
        }
    }
}

/// The difference of two pieces.
#[derive(Clone, Copy)]
pub struct Difference {
    a: i64,
    z: i64,
    c: i64,
}

impl Difference {
    #[inline(always)]
    pub fn at(self, m: i64) -> i64 {
        (self.a * m - 2 * self.z) * m + self.c
    }
}

fn floor_div(x: i64, y: i64) -> i64 {
    let q = x / y;
    if x % y != 0 && (x < 0) != (y < 0) {
        q - 1
    } else {
        q
    }
}

impl Piece {
    #[inline(always)]
    fn a(self) -> i64 {
        i64::from(self.both as u32)
    }

    /// The number of changes, 0 where it is none.
    #[inline(always)]
    pub fn k(self) -> i64 {
        self.both >> CHANGE_BITS
    }

    #[inline(always)]
    pub fn at(self, m: i64) -> i64 {
        (self.a() * m - 2 * self.z) * m + self.c
    }

    #[inline(always)]
    pub fn cost_at(self, m: i64) -> Cost {
        Cost {
            value: self.at(m),
            changes: self.k(),
        }
    }

    #[inline(always)]
    pub fn is_none(self) -> bool {
        self.c == NONE
    }

    #[inline(always)]
    pub fn until(self, end: i64) -> Piece {
        Piece { end, ..self }
    }

    /// The same function after as many changes, the end aside.
    #[inline(always)]
    pub fn same(self, o: Piece) -> bool {
        self.c == o.c && self.z == o.z && self.both == o.both
    }

    /// Plus what an edge adds; none stays none.
    #[inline(always)]
    pub fn raise(self, by: Cost) -> Piece {
        if self.is_none() {
            self
        } else {
            Piece {
                both: self.both + (by.changes << CHANGE_BITS),
                c: self.c + by.value,
                ..self
            }
        }
    }

    /// Plus (x - m)²; none stays none.
    #[inline(always)]
    pub fn with_loss(self, x: i64) -> Piece {
        if self.is_none() {
            self
        } else {
            Piece {
                end: self.end,
                both: self.both + 1,
                z: self.z + x,
                c: self.c + x * x,
            }
        }
    }

    /// The function of m - g.
    #[inline(always)]
    pub fn shift(self, g: i64) -> Piece {
        let step = self.a() * g;
        Piece {
            end: self.end + g,
            both: self.both,
            z: self.z + step,
            c: self.c + (2 * self.z + step) * g,
        }
    }

    /// The function of -m.
    #[inline(always)]
    pub fn mirror(self, end: i64) -> Piece {
        Piece { end, z: -self.z, ..self }
    }

    /// What it is more than o, and so much more.
    #[inline(always)]
    pub fn minus(self, o: Piece, more: i64) -> Difference {
        Difference {
            a: self.a() - o.a(),
            z: self.z - o.z,
            c: self.c - o.c + more,
        }
    }

    /// The lowest level from `from` to `to` at which it is least there.
    #[inline(always)]
    pub fn lowest(self, from: i64, to: i64) -> i64 {
        let a = self.a();
        if a == 0 || self.z <= a * from {
            return from;
        }
        if self.z >= a * to {
            return to;
        }
        // nearest level to z / a, the lower one at a half
        floor_div(2 * self.z + a - 1, 2 * a)
    }
}

/// d is at most 0 at a. A level of a..=b up to which it stays so: the last before d turns positive, or one from which d can only fall.
#[inline(always)]
pub fn stop(d: Difference, a: i64, b: i64) -> i64 {
    if d.a >= 0 {
        return if d.at(b) <= 0 { b } else { bisect(d, a, b) };
    }
    let peak = floor_div(d.z, d.a);
    if peak < a {
        return b;
    }
    let top = peak.min(b);
    if d.at(top) <= 0 {
        top
    } else {
        bisect(d, a, top)
    }
}

/// d(a) <= 0 < d(b), and d changes sign once between: the last level with d <= 0.
fn bisect(d: Difference, a: i64, b: i64) -> i64 {
    let (mut x, mut y) = (a, b);
    while y - x > 1 {
        let m = (x + y) >> 1; // rounded down, also below zero
        if d.at(m) <= 0 {
            x = m
        } else {
            y = m
        }
    }
    x
}
