//! `check`: why a file is refused, or a summary of a good one.
use crate::answer::{self, Answer};
use crate::cause::{cause, of_search};
use crate::failure::{sentence, Failure, REFUSED};
use crate::locate::{agrees, hint, locate, Kind, Place};
use crate::plan::Plan;
use crate::streams::{read_binary, write};
use shared::fields::{self, walk};
use shared::options::Args;
use yeldaski::Refusal;

pub fn act(args: &Args) -> Result<u8, Failure> {
    let input = read_binary(args.file())?;
    let (status, lines) = report(&input.bytes);
    let text = format!("{}: {}\n", input.name, lines.join("\n  "));
    write(args.option("output"), text.as_bytes())?;
    Ok(status)
}

fn report(file: &[u8]) -> (u8, Vec<String>) {
    match Kind::of(file) {
        Kind::Answer => match answer::read(file) {
            Ok(answer) => (0, answer_lines(&answer)),
            Err(refusal) => (REFUSED, refused_lines(Kind::Answer, file, refusal)),
        },
        Kind::Plan => match (Plan::read(file), answer::search(file)) {
            (Ok(plan), Ok((cost, runs))) => (0, plan_lines(&plan, cost, runs.len())),
            (Ok(plan), Err(refusal)) => (REFUSED, search_lines(file, &plan, refusal)),
            (Err(refusal), _) => (REFUSED, refused_lines(Kind::Plan, file, refusal)),
        },
    }
}

fn refused_lines(kind: Kind, file: &[u8], refusal: Refusal) -> Vec<String> {
    let place = locate(kind, file, refusal);
    let title = match (kind, file) {
        (_, []) => "empty file, refused",
        (Kind::Plan, [1, ..]) => "plan file, refused",
        (Kind::Plan, _) => "neither a plan file, which begins with byte 01, nor an answer file, which begins with byte 81 or 83",
        (Kind::Answer, _) => "answer file, refused",
    };
    let mut lines = vec![title.to_string()];
    if agrees(kind, &place, refusal) {
        lines.extend(cause(kind, file, &place, refusal.0).map(|cause| format!("cause: {cause}")));
        lines.push(place_line(file, &place));
    } else {
        lines.push("the field could not be found".to_string());
    }
    lines.push(with_sentence(refusal));
    if !matches!(file, [] | [1, ..]) {
        lines.extend(hint(file, kind).map(str::to_string));
    }
    lines
}

fn place_line(file: &[u8], place: &Place) -> String {
    match place.field() {
        None => format!(
            "after field {}, at the end of the file, byte {} (0x{:X})",
            place.index,
            file.len(),
            file.len()
        ),
        Some(field) => {
            let which = match field.tag {
                3 => format!(" {}", place.earlier(3).count()),
                4 | 0x82 => format!(" {}", place.earlier(field.tag).count() + 1),
                _ => String::new(),
            };
            let (tag, name, offset) = (field.tag, fields::name(field.tag), field.offset);
            format!(
                "field {}, tag {tag:02X} ({name}{which}), at byte {offset} (0x{offset:X})",
                place.index + 1
            )
        }
    }
}

fn answer_lines(answer: &Answer) -> Vec<String> {
    let content = match answer {
        Answer::Runs { cost, runs } => {
            let readings = runs.last().map_or(0, |run| run.last);
            format!("cost {cost}, {} over {}", counted(runs.len(), "run"), counted(readings, "reading"))
        }
        Answer::Refused(refusal) => format!("holds {}", with_sentence(*refusal)),
    };
    vec!["answer file, good".to_string(), content]
}

fn plan_lines(plan: &Plan, cost: u64, runs: usize) -> Vec<String> {
    let (least, most) = (plan.readings.iter().min().unwrap_or(&0), plan.readings.iter().max().unwrap_or(&0));
    let [states, edges, labels] = [
        (usize::from(plan.states), "state"),
        (plan.edges.len(), "edge"),
        (plan.labels.len(), "label"),
    ]
    .map(|(count, what)| counted(count, what));
    let mut lines = vec![
        "plan file, good".to_string(),
        format!("grid {} to {}, {}", plan.lo, plan.hi, counted(plan.levels(), "level")),
        format!("{states}, {edges}, {labels}"),
    ];
    lines.extend(
        plan.labels
            .iter()
            .enumerate()
            .map(|(at, label)| format!("label {}: {}", at + 1, label.text())),
    );
    lines.extend([
        format!("{} from {least} to {most}", counted(plan.readings.len(), "reading")),
        workspace(plan.work_words()),
        format!("a search finds {} at cost {cost}", counted(runs, "run")),
    ]);
    lines
}

/// The workspace that a search needs. The program `segment` lends a fixed one, so it is said where that is too small.
fn workspace(words: usize) -> String {
    const OF_SEGMENT: usize = 7680;
    let more = if words > OF_SEGMENT {
        format!(", more than the {OF_SEGMENT} of the program segment")
    } else {
        String::new()
    };
    format!("workspace of a search: {words} words{more}")
}

pub fn counted(count: usize, what: &str) -> String {
    format!("{count} {what}{}", if count == 1 { "" } else { "s" })
}

/// A plan that can be read but not searched: why, and the field to blame where there is one.
fn search_lines(file: &[u8], plan: &Plan, refusal: Refusal) -> Vec<String> {
    let title = "plan file, good to read, but a search of it is refused";
    let (index, cause) = of_search(file, plan, refusal).unwrap_or((None, sentence(refusal).to_string()));
    let fields = walk(file);
    let place = index.map(|index| place_line(file, &Place { fields, index }));
    let mut lines = vec![title.to_string(), format!("cause: {cause}")];
    lines.extend(place);
    lines.push(with_sentence(refusal));
    lines
}

/// A refusal by its number and short sentence.
pub fn with_sentence(refusal: Refusal) -> String {
    format!("refusal {}: {}", refusal.0, sentence(refusal))
}
