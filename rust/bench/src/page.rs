//! The tables, as a Markdown page.
use crate::decoding::Decoded;
use crate::measure::{Measured, Times};
use crate::moving::Moved;
use crate::tables::Table;

const TEXT: &str = "\
# Benchmark

The proved search, called through the static library, against two programmes in Rust:

- **Rust**: the same algorithm (cost functions as lists of pieces, saved layers in the same workspace), without index checks, as proved code
  runs without them.
- **dense**: a programme over all levels that keeps the whole table in memory and that the compiler vectorises.

Before each case was timed, all answers were compared: the same cost from every call, the same runs from every search. A time is processor time, the
least of several runs, the programmes by turns in one process. Times are milliseconds of one machine; the ratios are what can be compared.

- **whole search**: cost and runs of a record.
- **cost only**: `yeldaski_point` at the end of the cheapest segmentation, against one pass forward and the same look-up in Rust, and against the
  dense programme with two rows, which gives the least cost over all ends.
- **proved / Rust**: below 1 the proved code is faster. **dense / proved**: above 1 the proved code is faster.
- **pieces**: mean and most pieces of a cost function. **passes**: steps forward of a whole search divided by the readings. Both are counted in
  the Rust version.
- **moving window**: `yeldaski_windows`, against one pass forward for each part in Rust. Times are nanoseconds for each reading handed to a search: the
  time divided by parts × w. **pass**: one pass over the same record (of the long one its first 4,096 readings), as in cost only, divided by its readings.
- **costs for each number of changes**: `yeldaski_table` for 0 to K changes, against a pass forward in Rust with a layer for each number of changes, and
  against the dense programme with two rows for each of them. **K + 1 passes**: one pass over the same record, `yeldaski_point` as in cost only,
  multiplied by K + 1.
- **decoding**: `yeldaski_read_plan`, which reads the plan too, against two loops over the bytes of the readings in Rust: as one writes it, and with a
  test for the sign that the compiler cannot remove.
";

fn ratio(a: f64, b: f64) -> String {
    format!("{:.2}", a / b)
}

fn times(t: &Times) -> String {
    format!(
        "{:.2} | {:.2} | {:.2} | {} | {}",
        t.proved,
        t.rust,
        t.dense,
        ratio(t.proved, t.rust),
        ratio(t.dense, t.proved)
    )
}

/// The columns of one kind of call; nothing where there are no rows.
fn table(title: &str, first: &str, rows: &[Measured], of: fn(&Measured) -> &Times) -> String {
    if rows.is_empty() {
        return String::new();
    }
    let mut text = format!("\n## {title}\n\n| {first} | proved | Rust | dense | proved / Rust | dense / proved |\n|---|---|---|---|---|---|\n");
    for row in rows {
        text += &format!("| {} | {} |\n", row.name, times(of(row)));
    }
    text
}

fn windows(rows: &[Moved]) -> String {
    if rows.is_empty() {
        return String::new();
    }
    let mut text = String::from("\n## Moving window, nanoseconds for each reading handed to a search\n\n");
    text += "| case | parts | proved | Rust | pass, proved | pass, Rust | proved / Rust | proved / pass, proved | proved / pass, Rust |\n";
    text += "|---|---|---|---|---|---|---|---|---|\n";
    for Moved { name, parts, window, pass } in rows {
        let ratios = [window.rust, pass.proved, pass.rust].map(|time| ratio(window.proved, time)).join(" | ");
        let (w, p) = (window, pass);
        text += &format!(
            "| {name} | {parts} | {:.0} | {:.0} | {:.0} | {:.0} | {ratios} |\n",
            w.proved, w.rust, p.proved, p.rust
        );
    }
    text
}

fn tables(rows: &[Table]) -> String {
    if rows.is_empty() {
        return String::new();
    }
    let mut text = String::from("\n## Costs for each number of changes, n = 1,024\n\n");
    text += "| case | proved | Rust | dense | proved / Rust | dense / proved | K + 1 passes | proved / passes |\n";
    text += "|---|---|---|---|---|---|---|---|\n";
    for Table { name, times: t, passes } in rows {
        text += &format!("| {name} | {} | {passes:.2} | {} |\n", times(t), ratio(t.proved, *passes));
    }
    text
}

fn decoding(rows: &[Decoded]) -> String {
    if rows.is_empty() {
        return String::new();
    }
    let mut text = String::from("\n## Decoding 4,096 readings, nanoseconds for each reading\n\n");
    text += "| case | proved | Rust | Rust, testing | proved / Rust | testing / proved |\n|---|---|---|---|---|---|\n";
    for row in rows {
        let Decoded { name, proved, rust, testing } = row;
        let ratios = [ratio(*proved, *rust), ratio(*testing, *proved)].join(" | ");
        text += &format!("| {name} | {proved:.2} | {rust:.2} | {testing:.2} | {ratios} |\n");
    }
    text
}

fn pieces(rows: &[&Measured]) -> String {
    if rows.is_empty() {
        return String::new();
    }
    let mut text = String::from("\n## Pieces and passes\n\n| case | mean pieces | most pieces | passes |\n|---|---|---|---|\n");
    for row in rows {
        let mean = row.stats.pieces as f64 / row.stats.functions.max(1) as f64;
        text += &format!("| {} | {mean:.1} | {} | {:.2} |\n", row.name, row.stats.most, row.passes);
    }
    text
}

/// All that was measured.
pub struct Rows {
    pub usual: Vec<Measured>,
    pub growing: Vec<Measured>,
    pub worst: Vec<Measured>,
    pub moving: Vec<Moved>,
    pub tables: Vec<Table>,
    pub decoding: Vec<Decoded>,
}

pub fn write(rows: &Rows) -> String {
    let mut text = String::from(TEXT);
    text += &table("Whole search, n = 4,096", "case", &rows.usual, |row| &row.whole);
    text += &table("Cost only, n = 4,096", "case", &rows.usual, |row| &row.cost);
    text += &table("How a whole search grows", "case", &rows.growing, |row| &row.whole);
    text += &table("Worst known records, whole search, n = 4,096", "case", &rows.worst, |row| &row.whole);
    text += &windows(&rows.moving);
    text += &tables(&rows.tables);
    text += &decoding(&rows.decoding);
    let all: Vec<&Measured> = rows.usual.iter().chain(&rows.worst).collect();
    text + &pieces(&all)
}
