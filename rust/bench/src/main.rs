//! The proved search against the same algorithm in Rust and against a dense programme, as ratios in one run.
mod cases;
mod clock;
mod decoding;
mod dense;
mod graphs;
mod layer;
mod list;
mod measure;
mod model;
mod moving;
mod page;
mod piece;
mod saved;
mod search;
mod tables;

use shared::options::{program, wrong, Opt};
use std::process::ExitCode;

const OPTIONS: [Opt; 4] = [
    Opt::with("repeats", "R", "runs of each call, of which the least time counts (default 5)"),
    Opt::flag("worst", "also the worst known records (longer)"),
    Opt::with("only", "TEXT", "only the cases with this text in their name, for a quick look"),
    Opt::with(
        "write",
        "PATH",
        "also writes the tables to a file, as a Markdown page; notes that the old page has are kept",
    ),
];

/// The heading of what is written by hand, at the end of the page.
const NOTES: &str = "\n## Notes\n";

/// The new tables, and the notes of the page that they replace.
fn with_notes(text: &str, path: &str) -> String {
    let old = std::fs::read_to_string(path).unwrap_or_default();
    let notes = old.find(NOTES).map_or("", |at| &old[at..]);
    format!("{text}{notes}")
}

/// Measures the cases with this text in their name.
fn measure_all<C, M>(cases: Vec<C>, only: &str, name: fn(&C) -> &str, measure: impl Fn(&C) -> M) -> Vec<M> {
    let measured = |case: &C| {
        eprintln!("{}", name(case));
        measure(case)
    };
    cases.iter().filter(|case| name(case).contains(only)).map(measured).collect()
}

fn main() -> ExitCode {
    let about = "Measures the proved search against the same algorithm in Rust and against a dense programme, and prints tables.";
    let args = match program("bench", about, &OPTIONS, "") {
        Ok(args) => args,
        Err(status) => return status,
    };
    let repeats = match args.number("repeats", 1, 1_000_000, 5) {
        Ok(repeats) => repeats as usize,
        Err(message) => return wrong("bench", &message),
    };
    match (args.option("only"), args.option("write")) {
        (Some(_), Some(_)) => wrong("bench", "--only leaves cases out, and the page that --write writes has all"),
        (only, page) => run(repeats, args.flag("worst"), only.unwrap_or(""), page),
    }
}

fn run(repeats: usize, with_worst: bool, only: &str, page: Option<&str>) -> ExitCode {
    let searches = |cases, repeats| measure_all(cases, only, |case: &cases::Case| &case.name, |case| measure::measure(case, repeats));
    let usual = searches(cases::usual(), repeats);
    let growing = searches(cases::growing(), repeats);
    let moving = measure_all(
        cases::moving(),
        only,
        |moving| &moving.case.name,
        |moving| moving::measure(moving, repeats),
    );
    let tables = measure_all(
        cases::tabled(),
        only,
        |tabled| &tabled.case.name,
        |tabled| tables::measure(tabled, repeats),
    );
    let decoding = measure_all(
        cases::decoding(),
        only,
        |decoding| decoding.name,
        |decoding| decoding::measure(decoding, repeats),
    );
    let worst = if with_worst { searches(cases::worst(), 1) } else { vec![] };
    let rows = page::Rows {
        usual,
        growing,
        worst,
        moving,
        tables,
        decoding,
    };
    let text = page::write(&rows);
    print!("{text}");
    if let Some(path) = page {
        if let Err(error) = std::fs::write(path, with_notes(&text, path)) {
            eprintln!("bench: {path}: {error}");
            return ExitCode::FAILURE;
        }
    }
    ExitCode::SUCCESS
}
