//! A line on a terminal that says how far a call is, and about how long it still takes.
use crate::check::counted;
use std::io::{self, IsTerminal, Write};
use std::sync::Mutex;
use std::time::{Duration, Instant};

/// A line that changes faster cannot be read.
const SHORTEST: Duration = Duration::from_millis(100);

pub struct Progress {
    total: usize,
    shown: bool,
    began: Instant,
    state: Mutex<State>,
}

#[derive(Default)]
struct State {
    done: usize,
    /// How many records have no answer.
    unanswered: usize,
    shown_at: Option<Instant>,
}

impl Progress {
    pub fn new(total: usize) -> Progress {
        Progress {
            total,
            shown: total > 1 && io::stderr().is_terminal(),
            began: Instant::now(),
            state: Mutex::default(),
        }
    }

    /// One more record is done.
    pub fn step(&self, answered: bool) {
        self.advance(1, |state, total| {
            state.unanswered += usize::from(!answered);
            format!("{} of {total} records, {} without an answer", state.done, state.unanswered)
        });
    }

    /// So many more stretches are done.
    pub fn step_by(&self, stretches: usize) {
        self.advance(stretches, |state, total| format!("{} of {total} stretches", state.done));
    }

    /// The first line and the last one are always shown.
    fn advance(&self, count: usize, words: impl Fn(&mut State, usize) -> String) {
        let Ok(mut state) = self.state.lock() else { return };
        state.done += count;
        let line = words(&mut state, self.total);
        let is_due = state.done == self.total || state.shown_at.is_none_or(|at| at.elapsed() >= SHORTEST);
        if self.shown && is_due {
            let left = time_left(self.began.elapsed(), state.done, self.total);
            let _ = write!(io::stderr(), "\r\x1b[K{line}{left}");
            state.shown_at = Some(Instant::now());
        }
    }

    /// The line makes room for what follows.
    pub fn end(&self) {
        if self.shown {
            let _ = write!(io::stderr(), "\r\x1b[K");
        }
    }
}

/// `, about 3 minutes left`, as if the rest went as fast as what is done; nothing for less than a second.
fn time_left(passed: Duration, done: usize, total: usize) -> String {
    let seconds = passed.as_secs_f64() * (total - done) as f64 / done as f64;
    match seconds.round() as usize {
        0 => String::new(),
        seconds @ 1..=90 => format!(", about {} left", counted(seconds, "second")),
        seconds @ 91..=5400 => format!(", about {} left", counted((seconds + 30) / 60, "minute")),
        seconds => format!(", about {} left", counted((seconds + 1800) / 3600, "hour")),
    }
}

#[cfg(test)]
mod tests {
    use super::*;

    #[test]
    fn the_time_that_is_left() {
        let left = |seconds, done, total| time_left(Duration::from_secs(seconds), done, total);
        assert_eq!(left(10, 5, 5), "");
        assert_eq!(left(1, 9, 10), "");
        assert_eq!(left(9, 9, 10), ", about 1 second left");
        assert_eq!(left(60, 2, 5), ", about 90 seconds left");
        assert_eq!(left(100, 1, 2), ", about 2 minutes left");
        assert_eq!(left(60, 1, 91), ", about 90 minutes left");
        assert_eq!(left(60, 1, 121), ", about 2 hours left");
    }
}
