//! The numbered refusals and their sentences.
use std::fmt;

/// Why a call was refused: a number from 1 to 20.
#[derive(Debug, Clone, Copy, PartialEq, Eq)]
pub struct Refusal(pub u8);

impl fmt::Display for Refusal {
    fn fmt(&self, f: &mut fmt::Formatter<'_>) -> fmt::Result {
        write!(f, "refusal {}: {}", self.0, sentence(self.0))
    }
}

impl std::error::Error for Refusal {}

fn sentence(number: u8) -> &'static str {
    match number {
        1 => "header or body cut short, or the file ends where a field is due",
        2 => "a tag that may not stand there",
        3 => "wrong length for the tag (05: odd)",
        4 => "hi < lo, hi − lo above 1,023, or a named level off the grid",
        5 => "S not 1 to 8, an empty mask, a mask bit at or above S, or a named state not below S",
        6 => "edge state not below S, kind above 4, gap above 1,023 or set for kind 0 or 1, class above 15",
        7 => "same from, to and kind as an earlier edge",
        8 => "p = 0, q ≤ p, q above 4,096 or c above 9",
        9 => "no readings or more than 4,096 (for a moving window more than 65,535)",
        10 => "a 33rd edge or a 65th label",
        11 => {
            "an edge after a label, an addition or sealing after sealing, or a search, point, moving window, table or writing with an unsealed plan"
        }
        12 => "label starts before the earlier one's q",
        13 => "a label's q above n",
        14 => "workspace under 192 × S × L words of 64 bits (for a table K + 1 times as many), S the count of states, L = hi − lo + 1",
        15 => "a buffer under 5 × n run numbers (for the answer reader 5 a run read), or too short for the bytes, readings or costs to be written",
        16 => {
            "no allowed segmentation exists; for a cost at a point, none that it may count (the end set ignored) ends in the named state at \
             the named level"
        }
        17 => {
            "answer file: the first run doesn't start at 1, a run doesn't start right after the one before, last < first, last above 4,096, \
             state not 0 to 7, edge not 0 to 31 (255 is required in the first run and wrong later), or a refusal number not in the two lists; \
             in writing also no runs, fewer than five numbers a run, or a level outside 16-bit signed"
        }
        18 => "a moving window over a plan with labels",
        19 => "a window of 0 readings, of more than 1,024 or of more than the record has",
        20 => "a table for more than 32 changes",
        _ => "not a refusal of this library",
    }
}
