//! A label: what a technician has seen between two readings, its words, and whether changes are what it asks for.
use crate::check::counted;
use crate::plan::{DOWN, UP};
use shared::fields::number;

/// The most changes that a label can ask for by number.
pub const MOST_CHANGES: u8 = 7;
/// The numbers in the file of the two that ask for one change and its kind.
pub const ONE_UP: u8 = 8;
pub const ONE_DOWN: u8 = 9;

#[derive(Debug, Clone, Copy, PartialEq, Eq)]
pub struct Label {
    pub p: u16,
    pub q: u16,
    /// What it asks for, as the file says it: so many changes, or `ONE_UP` or `ONE_DOWN`.
    pub c: u8,
}

impl Label {
    /// The label of a body of five bytes.
    pub fn of(body: &[u8]) -> Label {
        Label {
            p: number(&body[..2]) as u16,
            q: number(&body[2..4]) as u16,
            c: body[4],
        }
    }

    /// What it asks for, in words: `no change`, `3 changes`, `one up`. The reader refuses what has none.
    pub fn asks(&self) -> String {
        match self.c {
            0 => "no change".to_string(),
            ONE_UP => "one up".to_string(),
            ONE_DOWN => "one down".to_string(),
            count => counted(usize::from(count), "change"),
        }
    }

    /// `readings 3 to 5, one up`, for messages.
    pub fn text(&self) -> String {
        format!("readings {} to {}, {}", self.p, self.q, self.asks())
    }

    /// The kind that its one change has to have, where it asks for one.
    pub fn kind(&self) -> Option<u8> {
        match self.c {
            ONE_UP => Some(UP),
            ONE_DOWN => Some(DOWN),
            _ => None,
        }
    }

    /// Whether it holds where the changes between its readings have these kinds.
    pub fn holds(&self, kinds: &[u8]) -> bool {
        match self.kind() {
            Some(kind) => kinds == [kind],
            None => kinds.len() == usize::from(self.c),
        }
    }

    /// That it goes on after the last of so many readings, where it does.
    pub fn beyond(&self, readings: usize) -> Option<String> {
        let text = self.text();
        (usize::from(self.q) > readings).then(|| format!("({text}) goes on after the last reading, {readings}"))
    }
}

#[cfg(test)]
mod tests {
    use super::*;

    fn label(c: u8) -> Label {
        Label { p: 3, q: 5, c }
    }

    #[test]
    fn words() {
        for (c, words) in [
            (0, "no change"),
            (1, "1 change"),
            (2, "2 changes"),
            (7, "7 changes"),
            (8, "one up"),
            (9, "one down"),
        ] {
            assert_eq!(label(c).asks(), words);
            assert_eq!(label(c).text(), format!("readings 3 to 5, {words}"));
        }
    }

    /// By the ticket: up to 7 so many changes whatever their kinds, 8 exactly one and of kind 2, 9 exactly one and of kind 3.
    #[test]
    fn number_and_kind() {
        let lists: [&[u8]; 9] = [&[], &[1], &[2], &[3], &[4], &[2, 2], &[2, 3], &[3, 3], &[1, 2, 3, 4, 1, 2, 3]];
        for kinds in lists {
            for c in 0..=MOST_CHANGES {
                assert_eq!(label(c).holds(kinds), kinds.len() == usize::from(c), "{c} {kinds:?}");
            }
            assert_eq!(label(ONE_UP).holds(kinds), *kinds == [2], "{kinds:?}");
            assert_eq!(label(ONE_DOWN).holds(kinds), *kinds == [3], "{kinds:?}");
        }
    }
}
