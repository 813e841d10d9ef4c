//! What the programs of this workspace share: command lines, the sixteen penalties and the fields of files.
#![forbid(unsafe_code)]

pub mod fields;
pub mod options;
mod suggest;

pub use suggest::suggest;

/// The penalties of the classes 0 to 15.
pub const PENALTIES: [u32; 16] = [0, 1, 2, 5, 10, 20, 50, 100, 200, 500, 1000, 2000, 5000, 10000, 20000, 50000];

/// A word of an input as it may stand in a message: short, and without characters that disturb a terminal.
pub fn quoted(word: &str) -> String {
    const LONGEST: usize = 40;
    let start: String = word.chars().take(LONGEST).flat_map(char::escape_debug).collect();
    let dots = if word.chars().count() > LONGEST { "..." } else { "" };
    format!("'{start}{dots}'")
}
