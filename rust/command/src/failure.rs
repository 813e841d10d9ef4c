//! Why the program stops, and with which exit status.
pub use shared::quoted;
use yeldaski::Refusal;

/// The content of an input is refused.
pub const REFUSED: u8 = 1;
/// Wrong usage, or a file that cannot be read or written.
pub const USAGE: u8 = 2;

#[derive(Debug)]
pub struct Failure {
    pub status: u8,
    pub message: String,
}

impl Failure {
    /// The message without the program's name in front, as a part of another one.
    pub fn reason(&self) -> &str {
        self.message.trim_start_matches("yeldaski: ")
    }
}

/// Messages about a content start with its file and line, as editors expect them.
pub fn refused(message: impl Into<String>) -> Failure {
    Failure {
        status: REFUSED,
        message: message.into(),
    }
}

pub fn usage(message: impl AsRef<str>) -> Failure {
    Failure {
        status: USAGE,
        message: format!("yeldaski: {}", message.as_ref()),
    }
}

/// A refusal with its cause first: what is wrong here, and then the number.
pub fn numbered(cause: &str, refusal: Refusal) -> String {
    format!("{cause} (refusal {})", refusal.0)
}

/// A short sentence for a refusal, for where no cause is known. Files and searches only: a cost at a point is not asked for here.
pub fn sentence(refusal: Refusal) -> &'static str {
    match refusal.0 {
        1 => "the file is cut short",
        2 => "a tag stands where it may not",
        3 => "a field has a wrong length",
        4 => "the grid is wrong: its end is below its start, or it has more than 1024 levels",
        5 => "the states are wrong: 1 to 8, with at least one to start and one to end in",
        6 => "an edge is wrong: its states, kind, gap or class",
        7 => "two edges have the same states and kind",
        8 => "a label is wrong: its readings or the changes that it asks for",
        9 => "a record has 1 to 4096 readings",
        10 => "there are more than 32 edges or 64 labels",
        11 => "the plan is not closed, or changed after it was",
        12 => "a label starts before the one before it ends",
        13 => "a label goes on after the last reading",
        14 => "the workspace is too small for this plan; 'segment' lends words for 40 states times levels, 'yeldaski run' as many as are needed",
        15 => "a buffer is too short for what should be written",
        16 => "no segmentation is allowed by this plan",
        17 => "a run or a refusal number of the answer is wrong",
        18 => "a moving window takes a plan without labels",
        19 => "a window has 1 to 1024 readings, and no more than the record",
        20 => "a table has at most 32 changes",
        _ => "not a refusal of this library",
    }
}
