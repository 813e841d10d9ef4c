//! Random and damaged files, answered by the proved library and by the oracle in one process, and compared byte for byte.
mod cases;
mod checks;
mod lent;
#[cfg(test)]
mod program;
mod proved;
mod report;
mod tables;
mod tally;
mod windows;

/// The oracle's sources, unchanged. Its modules name each other by `crate::`, so they stand at the root of this crate.
#[rustfmt::skip]
#[allow(dead_code, clippy::all)]
#[path = "../../oracle/src/brute.rs"]
mod brute;
#[rustfmt::skip]
#[allow(dead_code, clippy::all)]
#[path = "../../oracle/src/calls.rs"]
mod calls;
#[rustfmt::skip]
#[allow(dead_code, clippy::all)]
#[path = "../../oracle/src/extra.rs"]
mod extra;
#[rustfmt::skip]
#[allow(dead_code, clippy::all)]
#[path = "../../oracle/src/files.rs"]
mod files;
#[rustfmt::skip]
#[allow(dead_code, clippy::all)]
#[path = "../../oracle/src/gen.rs"]
mod gen;
#[rustfmt::skip]
#[allow(dead_code, clippy::all)]
#[path = "../../oracle/src/plan.rs"]
mod plan;
#[rustfmt::skip]
#[allow(dead_code, clippy::all)]
#[path = "../../oracle/src/rng.rs"]
mod rng;
#[rustfmt::skip]
#[allow(dead_code, clippy::all)]
#[path = "../../oracle/src/rules.rs"]
mod rules;
#[rustfmt::skip]
#[allow(dead_code, clippy::all)]
#[path = "../../oracle/src/search.rs"]
mod search;
#[rustfmt::skip]
#[allow(dead_code, clippy::all)]
#[path = "../../oracle/src/selftest.rs"]
mod selftest;

use cases::Profile;
use checks::Asker;
use rng::Rng;
use shared::options::{program, wrong, Args, Opt};
use std::process::ExitCode;
use std::time::{Duration, Instant};

/// The first six change requests are in force, of which five change answers: the moving window, the labels that say up, down or several, kind any,
/// which has to move the level, the table of costs for each number of changes, and fewer changes first among equal costs.
pub const RULES: rules::Rules = rules::Rules { tickets: 6 };

/// A run of so many cases has to meet labels of every c, answers in which kind any has to move the level, tables of every length and sort, and ties
/// that fewer changes decide.
const LONG_RUN: u64 = 2_000;

const OPTIONS: [Opt; 4] = [
    Opt::with("cases", "N", "how many cases (default 4000)"),
    Opt::with("seed", "S", "the seed of the random cases (default 1)"),
    Opt::with("only", "CASE", "the one case with this number, counted from 0"),
    Opt::with(
        "profile",
        "NAME",
        "cases of this profile alone, such as ties (without it all profiles by turns)",
    ),
];

struct Options {
    cases: u64,
    seed: u64,
    only: Option<u64>,
    profile: Option<Profile>,
}

impl Options {
    /// Whether so many cases of all profiles have to meet everything.
    fn is_long(&self) -> bool {
        self.cases >= LONG_RUN && self.only.is_none() && self.profile.is_none()
    }
}

fn main() -> ExitCode {
    let about = "Asks the proved library and the oracle the same questions and compares their answers byte for byte.";
    let end =
        "\nThe exit status is 0 where all answers are equal, 1 at the first difference or where a long run of all profiles has not met labels of \
               every c, answers in which kind any has to move the level, tables of every length and sort, and ties that fewer changes decide, 2 for \
               wrong options.\n";
    match program("match", about, &OPTIONS, end) {
        Ok(args) => options(&args).map_or_else(|message| wrong("match", &message), run),
        Err(status) => status,
    }
}

fn options(args: &Args) -> Result<Options, String> {
    let number = |name: &str, without: u64| args.number(name, 0, u64::MAX, without);
    Ok(Options {
        cases: number("cases", 4_000)?,
        seed: number("seed", 1)?,
        only: args.flag("only").then(|| number("only", 0)).transpose()?,
        profile: args.option("profile").map(Profile::named).transpose()?,
    })
}

fn run(options: Options) -> ExitCode {
    let mut asker = Asker::new();
    let numbers = match options.only {
        Some(case) => case..case + 1,
        None => 0..options.cases,
    };
    let mut shown = Instant::now();
    for case in numbers {
        // Each case has a generator of its own, so that it can be run alone.
        let mut rng = Rng::new(options.seed.wrapping_mul(0x1_0000_0001).wrapping_add(case));
        rng.next();
        let profile = options.profile.unwrap_or_else(|| cases::profile_of(case));
        asker.tally.case(profile.name());
        if let Err(difference) = checks::run_case(&mut asker, &mut rng, profile, case) {
            report::show(&difference, options.seed, case, profile, options.profile.is_some());
            return ExitCode::FAILURE;
        }
        if shown.elapsed() > Duration::from_secs(5) {
            eprintln!("{} of {} cases", case + 1, options.cases);
            shown = Instant::now();
        }
    }
    println!("{}", asker.tally);
    let missing = asker.tally.missing();
    if !options.is_long() || missing.is_empty() {
        return ExitCode::SUCCESS;
    }
    println!("never compared: {}", missing.join(", "));
    ExitCode::FAILURE
}
