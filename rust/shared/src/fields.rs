//! Fields of plan files and answer files: tag, length, body.
use std::ops::Range;

/// A field as its header announces it. A cut header has no length; a cut body ends before `length` bytes.
#[derive(Debug, Clone, PartialEq, Eq)]
pub struct Field {
    /// Where the field starts in the file.
    pub offset: usize,
    pub tag: u8,
    pub length: Option<usize>,
    /// The part of the body that the file holds.
    pub body: Range<usize>,
}

impl Field {
    pub fn end(&self) -> usize {
        self.body.end
    }
}

/// All fields of a file, by their headers alone. Nothing is judged here.
pub fn walk(file: &[u8]) -> Vec<Field> {
    let mut fields = Vec::new();
    let mut at = 0;
    while at < file.len() {
        let field = field_at(file, at);
        at = field.end();
        fields.push(field);
    }
    fields
}

fn field_at(file: &[u8], offset: usize) -> Field {
    let tag = file[offset];
    let start = offset + 3;
    if start > file.len() {
        return Field {
            offset,
            tag,
            length: None,
            body: file.len()..file.len(),
        };
    }
    let length = number(&file[offset + 1..start]) as usize;
    Field {
        offset,
        tag,
        length: Some(length),
        body: start..file.len().min(start + length),
    }
}

/// An unsigned number, high byte first.
pub fn number(bytes: &[u8]) -> u64 {
    bytes.iter().fold(0, |sum, byte| sum << 8 | u64::from(*byte))
}

/// A signed number of two bytes, high byte first.
pub fn signed(bytes: &[u8]) -> i16 {
    number(bytes) as u16 as i16
}

/// A whole field. Bodies of more than 65,535 bytes do not occur.
pub fn encode(tag: u8, body: &[u8]) -> Vec<u8> {
    let mut bytes = vec![tag];
    bytes.extend((body.len() as u16).to_be_bytes());
    bytes.extend(body);
    bytes
}

/// The grid, field 01.
pub fn grid(lo: i16, hi: i16) -> Vec<u8> {
    encode(0x01, &[lo.to_be_bytes(), hi.to_be_bytes()].concat())
}

/// The number of states with the start and end sets, field 02.
pub fn states(count: u8, start: u8, end: u8) -> Vec<u8> {
    encode(0x02, &[count, start, end])
}

/// An edge, field 03.
pub fn edge(from: u8, to: u8, kind: u8, gap: u16, class: u8) -> Vec<u8> {
    let gap = gap.to_be_bytes();
    encode(0x03, &[from, to, kind, gap[0], gap[1], class])
}

/// A label, field 04; `c` is a number of changes up to 7, 8 for one up, 9 for one down.
pub fn label(p: u16, q: u16, c: u8) -> Vec<u8> {
    let (p, q) = (p.to_be_bytes(), q.to_be_bytes());
    encode(0x04, &[p[0], p[1], q[0], q[1], c])
}

/// Readings, field 05. A length has two bytes, so the list is cut where it no longer fits; the reader refuses long before.
pub fn readings(readings: &[i16]) -> Vec<u8> {
    let fitting = &readings[..readings.len().min(usize::from(u16::MAX) / 2)];
    encode(0x05, &fitting.iter().flat_map(|reading| reading.to_be_bytes()).collect::<Vec<u8>>())
}

pub fn name(tag: u8) -> &'static str {
    match tag {
        0x01 => "grid",
        0x02 => "states",
        0x03 => "edge",
        0x04 => "label",
        0x05 => "readings",
        0x81 => "cost",
        0x82 => "run",
        0x83 => "refusal",
        _ => "unknown",
    }
}
