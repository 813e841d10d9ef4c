//! A plan: grid, states, edges, labels and readings, and its bytes.
use crate::label::Label;
use shared::fields::{number, signed, walk, Field};
use shared::PENALTIES;
use yeldaski::Refusal;

pub const MAX_READINGS: usize = 4096;
/// The most readings of a record for a moving window, and of the window itself. These are for messages: the proved library judges both.
pub const MAX_RECORD: usize = 65_535;
pub const MAX_WINDOW: usize = 1024;
/// The most changes of a table, for messages too, and for how long a table is where nothing is said.
pub const MAX_CHANGES: usize = 32;

pub const KINDS: [&str; 5] = ["stay", "any", "up", "down", "abs"];
/// The two of them that a label can ask for.
pub const UP: u8 = 2;
pub const DOWN: u8 = 3;

#[derive(Debug, Clone, Copy, PartialEq, Eq)]
pub struct Edge {
    pub from: u8,
    pub to: u8,
    pub kind: u8,
    pub gap: u16,
    pub class: u8,
}

impl Edge {
    pub fn is_change(&self) -> bool {
        self.kind != 0
    }

    /// What the edge costs. The reader refuses classes above 15.
    pub fn penalty(&self) -> u32 {
        PENALTIES.get(usize::from(self.class)).copied().unwrap_or(0)
    }

    /// The kind by name, with the gap where it has one.
    pub fn kind_text(&self) -> String {
        match (KINDS.get(usize::from(self.kind)), self.kind) {
            (Some(name), 0 | 1) => name.to_string(),
            (Some(name), _) => format!("{name} {}", self.gap),
            (None, kind) => format!("kind {kind}"),
        }
    }
}

#[derive(Debug, Clone, PartialEq, Eq)]
pub struct Plan {
    pub lo: i16,
    pub hi: i16,
    pub states: u8,
    pub start: u8,
    pub end: u8,
    pub edges: Vec<Edge>,
    pub labels: Vec<Label>,
    pub readings: Vec<i16>,
}

impl Plan {
    /// The plan of a file. The proved reader decides whether there is one, and decodes the readings.
    pub fn read(file: &[u8]) -> Result<Plan, Refusal> {
        let mut readings = vec![0; MAX_READINGS];
        let count = yeldaski::read_plan(file, &mut readings)?;
        readings.truncate(count);
        let fields = walk(file);
        let bodies = |tag: u8| fields.iter().filter(move |field| field.tag == tag).map(|field| &file[field.body.clone()]);
        // A file that the reader accepts has one whole field 01 and one 02; the zeros below are never used.
        let grid = bodies(1).next().unwrap_or(&[0; 4]);
        let states = bodies(2).next().unwrap_or(&[0; 3]);
        Ok(Plan {
            lo: signed(&grid[..2]),
            hi: signed(&grid[2..]),
            states: states[0],
            start: states[1],
            end: states[2],
            edges: bodies(3).map(edge_of).collect(),
            labels: bodies(4).map(Label::of).collect(),
            readings,
        })
    }

    pub fn levels(&self) -> usize {
        (i32::from(self.hi) - i32::from(self.lo) + 1) as usize
    }

    /// The stay from a state to itself, which joins the readings of a run. There is at most one.
    pub fn own_stay(&self, state: u8) -> Option<&Edge> {
        self.edges.iter().find(|edge| (edge.from, edge.to, edge.kind) == (state, state, 0))
    }

    /// Where most readings lie outside the grid, which is allowed, a wrong unit or a wrong column is the likely cause.
    pub fn far_off(&self) -> Option<String> {
        let outside = self.readings.iter().filter(|reading| !(self.lo..=self.hi).contains(reading)).count();
        (2 * outside > self.readings.len()).then(|| {
            format!(
                "warning: {outside} of {} readings lie outside the grid {} to {}; are column, scale and grid meant so?",
                self.readings.len(),
                self.lo,
                self.hi
            )
        })
    }

    /// The words that a search of this plan has to be lent.
    pub fn work_words(&self) -> usize {
        yeldaski::work_words(usize::from(self.states), self.levels())
    }

    /// Those that a table for up to so many changes has to be lent.
    pub fn table_words(&self, most: usize) -> usize {
        yeldaski::table_words(usize::from(self.states), self.levels(), most)
    }
}

/// The edge of a body of six bytes.
pub fn edge_of(body: &[u8]) -> Edge {
    Edge {
        from: body[0],
        to: body[1],
        kind: body[2],
        gap: number(&body[3..5]) as u16,
        class: body[5],
    }
}

/// The file with some of its labels only, counted from 0.
pub fn with_labels(file: &[u8], keep: impl Fn(usize) -> bool) -> Vec<u8> {
    let (labels, others): (Vec<Field>, Vec<Field>) = walk(file).into_iter().partition(|field| field.tag == 4);
    let (readings, front): (Vec<Field>, Vec<Field>) = others.into_iter().partition(|field| field.tag == 5);
    let labels = labels.into_iter().enumerate().filter(|(index, _)| keep(*index)).map(|(_, field)| field);
    let kept = front.into_iter().chain(labels).chain(readings);
    kept.flat_map(|field| file[field.offset..field.end()].to_vec()).collect()
}

/// The file with another c in the label of this number, counted from 0.
pub fn with_c(file: &[u8], number: usize, c: u8) -> Vec<u8> {
    let mut copy = file.to_vec();
    if let Some(field) = walk(file).iter().filter(|field| field.tag == 4 && field.body.len() == 5).nth(number) {
        copy[field.body.end - 1] = c;
    }
    copy
}

/// The file with another grid.
pub fn with_grid(file: &[u8], lo: i16, hi: i16) -> Vec<u8> {
    let mut copy = file.to_vec();
    if let Some(field) = walk(file).iter().find(|field| field.tag == 1 && field.body.len() == 4) {
        copy[field.body.clone()].copy_from_slice(&[lo.to_be_bytes(), hi.to_be_bytes()].concat());
    }
    copy
}

/// The file with other start and end sets.
pub fn with_masks(file: &[u8], start: u8, end: u8) -> Vec<u8> {
    let mut copy = file.to_vec();
    if let Some(field) = walk(file).iter().find(|field| field.tag == 2 && field.body.len() == 3) {
        copy[field.body.start + 1] = start;
        copy[field.body.start + 2] = end;
    }
    copy
}
