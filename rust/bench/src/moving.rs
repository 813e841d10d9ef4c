//! The moving window: first its costs compared, then its times and those of one pass over the record.
use crate::cases::{Case, Moving, LONGEST};
use crate::measure::time;
use crate::{dense, search};

/// Least times: milliseconds as taken, then nanoseconds a reading.
#[derive(Clone, Copy)]
pub struct Pair {
    pub proved: f64,
    pub rust: f64,
}

impl Pair {
    const NONE: Pair = Pair {
        proved: f64::MAX,
        rust: f64::MAX,
    };

    /// From milliseconds for so many readings.
    fn a_reading(self, readings: usize) -> Pair {
        let nanoseconds = |time: f64| time * 1e6 / readings as f64;
        Pair {
            proved: nanoseconds(self.proved),
            rust: nanoseconds(self.rust),
        }
    }
}

pub struct Moved {
    pub name: String,
    pub parts: usize,
    /// For each reading handed to a search: each part has w of them.
    pub window: Pair,
    /// One pass over the record.
    pub pass: Pair,
}

/// Runs the calls in turn, as with the searches, and keeps the least time of each.
pub fn measure(moving: &Moving, repeats: usize) -> Moved {
    let (w, Case { plan, readings, name }) = (moving.w, &moving.case);
    // a pass takes what a search takes
    let (z, record) = (&readings[..], &readings[..LONGEST.min(readings.len())]);
    let file = plan.file();
    let mut workspace = vec![0; yeldaski::work_words(plan.states, plan.levels())];
    let mut costs = vec![0; moving.parts()];
    check(moving, &file, &mut workspace, &mut costs);
    let answer = search::search(&mut workspace, plan, record).0.expect("an allowed segmentation");
    let end = answer.runs[answer.runs.len() - 1];
    let (state, level) = (end.state, end.level);
    let (mut window, mut pass) = (Pair::NONE, Pair::NONE);
    for _ in 0..repeats {
        time(&mut window.proved, || yeldaski::windows(&file, z, w, &mut workspace, &mut costs));
        time(&mut window.rust, || search::windows(&mut workspace, plan, z, w));
        time(&mut pass.proved, || {
            yeldaski::point(&file, record, state as u8, level as i16, &mut workspace)
        });
        time(&mut pass.rust, || search::point(&mut workspace, plan, record, state, level));
    }
    Moved {
        name: name.clone(),
        parts: moving.parts(),
        window: window.a_reading(moving.parts() * w),
        pass: pass.a_reading(record.len()),
    }
}

/// Each cost is that of the Rust version for its part, and those of the first and the last part are the dense programme's.
fn check(moving: &Moving, file: &[u8], workspace: &mut [u64], costs: &mut [u64]) {
    let (w, Case { plan, readings, name }) = (moving.w, &moving.case);
    assert_eq!(yeldaski::windows(file, readings, w, workspace, costs), Ok(moving.parts()), "{name}");
    let in_rust = search::windows(workspace, plan, readings, w);
    assert_eq!(in_rust.len(), costs.len(), "{name}");
    for (start, (cost, wanted)) in costs.iter().zip(in_rust).enumerate() {
        assert_eq!(*cost, wanted as u64, "{name}, start {start}");
    }
    for start in [0, moving.parts() - 1] {
        let dense = dense::cost(plan, &readings[start..start + w]);
        assert_eq!(Some(costs[start] as i64), dense, "{name}, start {start}");
    }
}
