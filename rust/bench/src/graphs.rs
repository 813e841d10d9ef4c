//! Plans and records: motor current as the finder meets it, and the worst that is known.
use crate::model::*;

/// A small generator (xorshift), so that the records are the same in every run.
pub struct Rng(pub u64);

impl Rng {
    fn next(&mut self) -> u64 {
        self.0 ^= self.0 << 13;
        self.0 ^= self.0 >> 7;
        self.0 ^= self.0 << 17;
        self.0.wrapping_mul(0x2545F4914F6CDD1D) >> 11
    }

    fn below(&mut self, n: i64) -> i64 {
        (self.next() % n as u64) as i64
    }

    /// About normal.
    fn noise(&mut self, deviation: f64) -> f64 {
        let sum: f64 = (0..12).map(|_| self.next() as f64 / (1u64 << 53) as f64).sum();
        (sum - 6.0) * deviation
    }
}

fn edge(from: usize, to: usize, kind: Kind, class: usize) -> Edge {
    Edge { from, to, kind, class }
}

/// Levels around 0, start in state 0, end in any.
fn plan(levels: i64, states: usize, edges: Vec<Edge>) -> Plan {
    let lo = -(levels / 2);
    Plan {
        lo,
        hi: lo + levels - 1,
        states,
        start: 1,
        end: ((1u16 << states) - 1) as u8,
        edges,
        labels: vec![],
    }
}

/// One state: stay, and any at a penalty.
pub fn any(levels: i64, class: usize) -> Plan {
    plan(levels, 1, vec![edge(0, 0, Kind::Stay, 0), edge(0, 0, Kind::Any, class)])
}

/// Two states: up at a penalty, down for nothing.
pub fn up_down(levels: i64, class: usize) -> Plan {
    let stays = vec![edge(0, 0, Kind::Stay, 0), edge(1, 1, Kind::Stay, 0)];
    plan(
        levels,
        2,
        [stays, vec![edge(0, 1, Kind::Up(0), class), edge(1, 0, Kind::Down(0), 0)]].concat(),
    )
}

/// Belt and pad: idle, lifted (up by at least g), pressed (up again), and back down.
pub fn belt(levels: i64, class: usize, g: i64) -> Plan {
    let stays = (0..3).map(|s| edge(s, s, Kind::Stay, 0)).collect();
    let steps = vec![
        edge(0, 1, Kind::Up(g), class),
        edge(1, 2, Kind::Up(g), class),
        edge(2, 1, Kind::Down(g), class),
        edge(1, 0, Kind::Down(g), class),
        edge(2, 0, Kind::Down(2 * g), class),
    ];
    plan(levels, 3, [stays, steps].concat())
}

/// A ring: stay, up to the next state, down to the one before, any to state 0.
pub fn ring(levels: i64, states: usize, class: usize, g: i64) -> Plan {
    let mut edges = vec![];
    for s in 0..states {
        edges.push(edge(s, s, Kind::Stay, 0));
        edges.push(edge(s, (s + 1) % states, Kind::Up(g), class));
        edges.push(edge(s, (s + states - 1) % states, Kind::Down(g), class));
        edges.push(edge(s, 0, Kind::Any, (class + 1).min(15)));
    }
    plan(levels, states, edges)
}

/// 8 states and 32 edges: stay, and abs from three other states for next to nothing.
pub fn full_abs(levels: i64, g: i64) -> Plan {
    let mut edges = vec![];
    for s in 0..8 {
        edges.push(edge(s, s, Kind::Stay, 0));
        edges.push(edge((s + 1) % 8, s, Kind::Abs(g), 0));
        edges.push(edge((s + 2) % 8, s, Kind::Abs(g + 1), 1));
        edges.push(edge((s + 3) % 8, s, Kind::Abs(g + 2), 0));
    }
    Plan {
        start: 255,
        ..plan(levels, 8, edges)
    }
}

/// Levels that never fall, for nothing: a ramp makes a piece of each level.
pub fn monotone(levels: i64) -> Plan {
    plan(levels, 1, vec![edge(0, 0, Kind::Up(0), 0)])
}

/// 8 states and 32 edges up for nothing.
pub fn full_up(levels: i64, g: i64) -> Plan {
    let gap = |d: usize| if d == 0 { 0 } else { g };
    let edges = (0..32).map(|i| edge((i / 4 + i % 4) % 8, i / 4, Kind::Up(gap(i % 4)), 0)).collect();
    Plan {
        start: 255,
        ..plan(levels, 8, edges)
    }
}

/// The plan with sixteen labels over n readings, which ask for these c by turns.
pub fn with_labels(mut plan: Plan, n: usize, cs: &[usize]) -> Plan {
    let q = n / 16;
    plan.labels = (0..16)
        .map(|i| Label {
            p: 1 + i * q,
            q: (i + 1) * q,
            c: cs[i % cs.len()],
        })
        .collect();
    plan
}

/// A small plan with edges of all kinds between its states, mostly of one class, and a record on its few levels: many segmentations cost the same.
#[cfg(test)]
pub fn random(rng: &mut Rng) -> (Plan, Vec<i16>) {
    let (states, levels, n) = (1 + rng.below(3) as usize, 1 + rng.below(7), 1 + rng.below(24));
    let (class, gap) = (rng.below(3) as usize, rng.below(3));
    let mut edges = vec![];
    for (from, to) in (0..states).flat_map(|from| (0..states).map(move |to| (from, to))) {
        let kinds = [Kind::Stay, Kind::Any, Kind::Up(gap), Kind::Down(gap), Kind::Abs(gap)];
        for kind in kinds.into_iter().filter(|kind| *kind == Kind::Stay && from == to || rng.below(3) == 0) {
            let class = if kind == Kind::Stay { 0 } else { class };
            edges.push(edge(from, to, kind, class));
        }
    }
    for i in (1..edges.len()).rev() {
        edges.swap(i, rng.below(i as i64 + 1) as usize);
    }
    let mut plan = plan(levels, states, edges);
    if rng.below(3) == 0 && n > 2 {
        let p = 1 + rng.below(n - 1) as usize;
        let q = p + 1 + rng.below(n - p as i64) as usize;
        let c = rng.below(10) as usize;
        plan.labels = vec![Label { p, q, c }];
    }
    let z = (0..n).map(|_| (plan.lo - 1 + rng.below(levels + 2)) as i16).collect();
    (plan, z)
}

/// Motor current: steps, humps and noise, within the grid.
pub fn trace(n: usize, levels: i64) -> Vec<i16> {
    let mut rng = Rng(12345 + levels as u64);
    let span = (levels / 2) as f64 * 0.98;
    let (mut level, mut hump, mut left) = (0.0, 0.0, 0);
    let mut readings = Vec::with_capacity(n);
    for _ in 0..n {
        if rng.below(120) == 0 {
            level = (rng.below(2001) - 1000) as f64 / 1000.0 * span * 0.7;
        }
        if left == 0 && rng.below(90) == 0 {
            left = 20 + rng.below(60);
            hump = span * 0.3 * (rng.below(1000) as f64 / 1000.0);
        }
        let mut value = level;
        if left > 0 {
            value += hump;
            left -= 1;
        }
        value += rng.noise(span / 25.0);
        readings.push(value.round().clamp(-span, span) as i16);
    }
    readings
}

pub fn ramp(n: usize, levels: i64) -> Vec<i16> {
    (0..n as i64).map(|t| ((levels - 1) * t / n as i64 - levels / 2) as i16).collect()
}

pub fn around_zero(n: usize) -> Vec<i16> {
    let mut rng = Rng(12345);
    (0..n).map(|_| rng.noise(20.0).round() as i16).collect()
}
