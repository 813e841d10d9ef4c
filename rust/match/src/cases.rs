//! Which file each case starts from.
use crate::gen::{self, Case, Size};
use crate::plan::{self, Edge, Plan};
use crate::rng::Rng;
use crate::search::Record;
use crate::{selftest, RULES};

#[derive(Clone, Copy, PartialEq)]
pub enum Profile {
    Tiny,
    Small,
    /// Labels of every c, and now and then one above 9.
    Labelled,
    /// Mostly edges of kind any, where the least cost before a change is often at the level itself.
    Any,
    /// Mostly one class for all changes, often 0, on few levels: many segmentations cost the same, with unlike numbers of changes.
    Ties,
    Program,
    Damaged,
    Mutated,
    Wide,
    Large,
    /// A tiny plan, for the moving window over the longest record.
    Long,
    Replies,
    MutatedReplies,
}

impl Profile {
    const ALL: [Profile; 13] = [
        Profile::Tiny,
        Profile::Small,
        Profile::Labelled,
        Profile::Any,
        Profile::Ties,
        Profile::Program,
        Profile::Damaged,
        Profile::Mutated,
        Profile::Wide,
        Profile::Large,
        Profile::Long,
        Profile::Replies,
        Profile::MutatedReplies,
    ];

    /// The profile of this name, or the names that there are.
    pub fn named(name: &str) -> Result<Profile, String> {
        let found = Profile::ALL.into_iter().find(|profile| profile.name() == name);
        found.ok_or_else(|| format!("there is no profile '{name}', only {}", Profile::ALL.map(Profile::name).join(", ")))
    }

    pub fn name(self) -> &'static str {
        match self {
            Profile::Tiny => "tiny",
            Profile::Small => "small",
            Profile::Labelled => "labelled",
            Profile::Any => "any",
            Profile::Ties => "ties",
            Profile::Program => "program",
            Profile::Damaged => "damaged",
            Profile::Mutated => "mutated",
            Profile::Wide => "wide",
            Profile::Large => "large",
            Profile::Long => "long",
            Profile::Replies => "replies",
            Profile::MutatedReplies => "mutated replies",
        }
    }

    pub fn is_reply(self) -> bool {
        matches!(self, Profile::Replies | Profile::MutatedReplies)
    }
}

/// The profiles take turns. The oracle is slow on long records and wide grids, so these are rare.
pub fn profile_of(case: u64) -> Profile {
    if case % 1_000 == 500 {
        return Profile::Large;
    }
    if case % 250 == 130 {
        return Profile::Long;
    }
    match case % 40 {
        0..=5 => Profile::Tiny,
        6..=7 => Profile::Any,
        8..=12 => Profile::Small,
        13..=15 => Profile::Labelled,
        16..=22 => Profile::Damaged,
        23..=26 => Profile::Ties,
        27..=30 => Profile::Mutated,
        31 => Profile::Any,
        32 => Profile::Program,
        33 | 34 => Profile::Wide,
        35..=37 => Profile::Replies,
        _ => Profile::MutatedReplies,
    }
}

/// A plan file or an answer file.
pub fn file(rng: &mut Rng, profile: Profile, case: u64) -> Vec<u8> {
    // which damage the oracle's generators do
    let damage = rng.below(gen::DAMAGES * 16);
    match profile {
        Profile::Tiny => selftest::tiny_case(rng, RULES, 400_000).file(RULES),
        Profile::Small => small(rng).file(RULES),
        Profile::Labelled => labelled_file(rng),
        Profile::Any => moving(rng).file(RULES),
        Profile::Ties => tied(rng).file(RULES),
        Profile::Program if rng.one_in(5) => special(rng).file(RULES),
        Profile::Program => gen::program_case(rng, RULES).file(RULES),
        Profile::Damaged => gen::damaged_file(rng, RULES, damage),
        Profile::Mutated => {
            let whole = small(rng).file(RULES);
            mutated(rng, whole)
        }
        Profile::Wide => wide(rng).file(RULES),
        Profile::Large => large(rng, case / 1_000).file(RULES),
        Profile::Long => tiniest(rng).file(RULES),
        Profile::Replies if rng.one_in(2) => gen::damaged_reply(rng, RULES, 0),
        Profile::Replies => gen::damaged_reply(rng, RULES, damage),
        Profile::MutatedReplies => {
            let whole = gen::damaged_reply(rng, RULES, 0);
            mutated(rng, whole)
        }
    }
}

/// So few states, levels and edges that the oracle searches all 65,535 parts of a record in some hundredths of a second.
fn tiniest(rng: &mut Rng) -> Case {
    let size = Size {
        n: 5,
        states: 2,
        levels: 3,
        edges: 4,
        cells: 6,
    };
    gen::random_case(rng, RULES, size)
}

fn special(rng: &mut Rng) -> Case {
    let which = rng.below(gen::SPECIALS as u64) as usize;
    gen::special_case(rng, RULES, which)
}

/// A small case, now and then one of the boundary cases that are not long records.
fn small(rng: &mut Rng) -> Case {
    if rng.one_in(5) {
        let which = rng.below(gen::SPECIALS as u64) as usize;
        return gen::special_case(rng, RULES, if (19..23).contains(&which) { 3 } else { which });
    }
    gen::small_case(rng, RULES)
}

/// A file with labels of every c; one in twelve is refused with 8 for the c of its last label alone.
fn labelled_file(rng: &mut Rng) -> Vec<u8> {
    let case = labelled(rng);
    let mut file = case.file(RULES);
    if rng.one_in(12) {
        // the last byte before the field of the readings
        let at = file.len() - 2 * case.record.readings.len() - 4;
        let any = rng.range(10, 255) as u8;
        file[at] = rng.pick(&[10, 10, 11, 128, 255, any]);
    }
    file
}

/// Few states and levels, and edges of all kinds, so that most labels can be kept and many of them change the answer.
fn labelled(rng: &mut Rng) -> Case {
    let states = rng.range(1, 4);
    let levels = rng.range(2, gen::segment_cells(RULES) / states);
    let lo = rng.range(-levels, 3);
    let (hi, all) = (lo + levels - 1, (1 << states) - 1);
    let mut whole = plan::open(RULES, 1, lo as i16, hi as i16, states as u8, all, all).expect("a grid");
    // where changes cost little, an open label often has as many as it allows
    let dearest = rng.range(0, 6);
    for state in 0..states as u8 {
        let next = (state + 1) % states as u8;
        for (from, to, kind) in [
            (state, state, plan::STAY),
            (state, next, plan::ANY),
            (state, next, plan::UP),
            (next, state, plan::DOWN),
            (state, next, plan::ABS),
        ] {
            let gap = if kind <= plan::ANY { 0 } else { rng.range(0, 2) as u16 };
            let class = if kind == plan::STAY { 0 } else { rng.range(0, dearest) as u8 };
            if !rng.one_in(6) {
                plan::add_edge(RULES, &mut whole, &Edge { from, to, kind, gap, class }).expect("an edge");
            }
        }
    }
    let n = rng.range(12, 60);
    add_labels(rng, &mut whole, n);
    plan::seal(RULES, &mut whole, false).expect("sealing");
    let readings = if rng.one_in(2) {
        gen::trace(rng, lo, hi, n)
    } else {
        (0..n).map(|_| rng.range(lo - 1, hi + 1) as i16).collect()
    };
    Case {
        plan: whole,
        record: Record::plain(&readings),
    }
}

/// Mostly edges of kind any, most of them for nothing, on grids of few levels and often of one or two, with readings that are mostly equal.
fn moving(rng: &mut Rng) -> Case {
    let states = rng.range(1, 3);
    let levels = rng.pick(&[1, 1, 2, 2, 2, 3, 5, 9]);
    let lo = rng.range(-levels, 2);
    let (hi, all) = (lo + levels - 1, (1 << states) - 1);
    let end = rng.range(1, all as i64) as u8;
    let mut whole = plan::open(RULES, 1, lo as i16, hi as i16, states as u8, all, end).expect("a grid");
    for edge in moving_edges(rng, states as u8) {
        plan::add_edge(RULES, &mut whole, &edge).expect("an edge");
    }
    let n = rng.range(1, 24);
    if rng.one_in(2) {
        add_labels(rng, &mut whole, n);
    }
    plan::seal(RULES, &mut whole, false).expect("sealing");
    let mut level = rng.range(lo, hi);
    let readings: Vec<i16> = (0..n)
        .map(|_| {
            if rng.one_in(6) {
                level = rng.range(lo - 1, hi + 1);
            }
            level as i16
        })
        .collect();
    Case {
        plan: whole,
        record: Record::plain(&readings),
    }
}

/// Edges between all states in any order: most of kind any, some stays, and now and then others, which may keep the level.
fn moving_edges(rng: &mut Rng, states: u8) -> Vec<Edge> {
    let other = u64::from(rng.one_in(3));
    let mut edges = vec![];
    for (from, to) in (0..states).flat_map(|from| (0..states).map(move |to| (from, to))) {
        for (kind, share) in [
            (plan::ANY, 5),
            (plan::STAY, 2),
            (plan::UP, other),
            (plan::DOWN, other),
            (plan::ABS, other),
        ] {
            if rng.below(6) < share {
                let class = if rng.one_in(4) { rng.range(1, 4) as u8 } else { 0 };
                let at = rng.below(edges.len() as u64 + 1) as usize;
                edges.insert(
                    at,
                    Edge {
                        from,
                        to,
                        kind,
                        gap: 0,
                        class,
                    },
                );
            }
        }
    }
    edges.truncate(32);
    edges
}

/// Changes that all cost the same, now and then one that does not, on grids of few levels; a stay costs nothing or as much as a change.
fn tied(rng: &mut Rng) -> Case {
    let states = rng.pick(&[1, 2, 2, 3, 3]);
    let levels = rng.pick(&[2, 3, 3, 4, 5, 6, 9, 13]);
    let lo = rng.range(-levels, 2);
    let (hi, all) = (lo + levels - 1, (1 << states) - 1);
    let mut mask = || if rng.one_in(2) { all as u8 } else { rng.range(1, all) as u8 };
    let (start, end) = (mask(), mask());
    let mut whole = plan::open(RULES, 1, lo as i16, hi as i16, states as u8, start, end).expect("a grid");
    for edge in tied_edges(rng, states as u8) {
        plan::add_edge(RULES, &mut whole, &edge).expect("an edge");
    }
    let n = rng.range(2, 30);
    if rng.one_in(3) {
        add_labels(rng, &mut whole, n);
    }
    plan::seal(RULES, &mut whole, false).expect("sealing");
    // small steps or any, at every reading or seldom
    let (mut level, small, often) = (rng.range(lo, hi), rng.one_in(2), rng.pick(&[1, 1, 2, 4]));
    let readings: Vec<i16> = (0..n)
        .map(|_| {
            if rng.one_in(often) {
                let far = if small { rng.range(level - 1, level + 1) } else { rng.range(lo, hi) };
                level = far.clamp(lo - 1, hi + 1);
            }
            level as i16
        })
        .collect();
    Case {
        plan: whole,
        record: Record::plain(&readings),
    }
}

/// Edges of all kinds between all states in any order, so that a change is often the lower edge.
fn tied_edges(rng: &mut Rng, states: u8) -> Vec<Edge> {
    let class = rng.pick(&[0, 0, 0, 1, 1, 2]);
    let stays = if rng.one_in(5) { class } else { 0 };
    let widest = rng.range(0, 2);
    let mut edges = vec![];
    for (from, to) in (0..states).flat_map(|from| (0..states).map(move |to| (from, to))) {
        for kind in [plan::STAY, plan::ANY, plan::UP, plan::DOWN, plan::ABS] {
            let share = if kind == plan::STAY && from == to { 7 } else { 3 };
            if rng.below(8) < share {
                let gap = if kind <= plan::ANY { 0 } else { rng.range(0, widest) as u16 };
                let class = match kind {
                    plan::STAY => stays,
                    _ if rng.one_in(12) => rng.range(0, 3) as u8,
                    _ => class,
                };
                let at = rng.below(edges.len() as u64 + 1) as usize;
                edges.insert(at, Edge { from, to, kind, gap, class });
            }
        }
    }
    edges.truncate(32);
    edges
}

/// Labels over n readings, often touching, with any c. Few ask for more changes than they have boundaries, and few last ones reach past the record.
fn add_labels(rng: &mut Rng, whole: &mut Plan, n: i64) {
    let end = if rng.one_in(12) { n + 5 } else { n };
    let mut p = rng.range(1, 4);
    while p < n {
        let q = (p + rng.range(1, 14)).min(end);
        let any = rng.range(0, 9);
        let c = if any <= 7 && !rng.one_in(8) { any.min(q - p) } else { any };
        plan::add_label(RULES, whole, p as u16, q as u16, c as u8).expect("a label");
        p = q + rng.pick(&[0, 0, 1, 3, 9]);
    }
}

/// Bytes set, inserted, removed or doubled at random places.
fn mutated(rng: &mut Rng, mut bytes: Vec<u8>) -> Vec<u8> {
    for _ in 0..rng.range(1, 4) {
        if bytes.is_empty() {
            break;
        }
        let at = rng.below(bytes.len() as u64) as usize;
        match rng.below(6) {
            0 => bytes[at] = rng.below(256) as u8,
            1 => bytes[at] ^= 1 << rng.below(8),
            2 => bytes[at] = bytes[at].wrapping_add(rng.pick(&[1, 255])),
            3 => bytes.insert(at, rng.pick(&[0, 1, 3, 4, 5, 255])),
            4 => drop(bytes.remove(at)),
            _ => {
                let end = (at + rng.range(1, 12) as usize).min(bytes.len());
                let part = bytes[at..end].to_vec();
                bytes.splice(at..at, part);
            }
        }
    }
    bytes
}

/// The steps that the oracle takes for one list of readings.
pub fn effort(plan: &Plan, n: usize) -> u64 {
    (n * plan.edges.len().max(1) * plan.levels() * plan.levels()) as u64
}

/// Any numbers of states, edges and levels, with as many readings as the oracle can take in some tenths of a second.
fn wide(rng: &mut Rng) -> Case {
    let levels = 1 << rng.range(2, 10);
    let edges = rng.range(1, 32);
    let n = (40_000_000 / (edges * levels * levels)).clamp(2, 4_096);
    gen::random_case(
        rng,
        RULES,
        Size {
            n,
            states: 8,
            levels,
            edges,
            cells: 8 * levels,
        },
    )
}

/// A usual plan on a long record and a wide grid, as far as some seconds of the oracle allow; one in twenty is both longest and widest.
fn large(rng: &mut Rng, number: u64) -> Case {
    let (levels, n) = match number % 20 {
        0 => (256, 4_096),
        1 => (1_024, 300),
        10 => (1_024, 4_096),
        _ => rng.pick(&[(128, 4_096), (512, 1_024), (300, 3_201)]),
    };
    let lo = rng.pick(&[-32_768, -512, 0, 31_744]);
    let kinds = rng.pick(&[[plan::ANY, plan::ANY], [plan::UP, plan::DOWN], [plan::ABS, plan::UP]]);
    let mut whole = plan::open(RULES, 1, lo as i16, (lo + levels - 1) as i16, 2, 1, 3).expect("a grid");
    for (from, to, kind, class) in [(0, 0, plan::STAY, 0), (1, 1, plan::STAY, 0), (0, 1, kinds[0], 9), (1, 0, kinds[1], 6)] {
        let gap = if kind <= plan::ANY { 0 } else { rng.range(0, levels / 4) as u16 };
        plan::add_edge(RULES, &mut whole, &Edge { from, to, kind, gap, class }).expect("an edge");
    }
    let one = if kinds == [plan::UP, plan::DOWN] { 8 } else { 1 };
    for (p, q, c) in [(10, 100, one), (100, 120, 0), (130, 170, rng.pick(&[2, 7]))] {
        plan::add_label(RULES, &mut whole, p, q, c).expect("a label");
    }
    plan::seal(RULES, &mut whole, false).expect("sealing");
    let readings = gen::trace(rng, lo, lo + levels - 1, n);
    Case {
        plan: whole,
        record: Record::plain(&readings),
    }
}
