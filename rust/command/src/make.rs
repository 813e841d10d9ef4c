//! `make`: a plan file from a plan text.
use crate::cause::{cause, of_record, of_search};
use crate::failure::{numbered, quoted, refused, sentence, Failure};
use crate::locate::{locate, Kind};
use crate::plan::{Edge, Plan};
use crate::records;
use crate::streams::{check_once, read_text, remember, say, write_binary};
use crate::text::{self, Source, Text};
use shared::fields;
use shared::options::Args;
use std::path::Path;
use yeldaski::Refusal;

pub fn act(args: &Args) -> Result<u8, Failure> {
    let record = args.files().get(1).map(String::as_str);
    records::check_options(args, record.is_some())?;
    if record.is_some() {
        check_once(&[args.file(), record])?;
    }
    let mut text = text::parse(&read_text(args.file())?)?;
    records::choose_labels(args, &mut text, usize::from(record.is_some()));
    files(&text, args.file()).iter().for_each(|path| remember(path));
    let readings = match record {
        Some(path) => records::readings(path, &records::layout(args, &text)?)?,
        None => readings(&text, args.file())?,
    };
    let file = bytes(&text, &readings);
    match (Kind::Plan.refusal(&file), record) {
        (None, _) => {}
        (Some(refusal @ Refusal(9)), Some(record)) => return Err(refused(format!("{record}: {}", numbered(&of_record(readings.len()), refusal)))),
        (Some(refusal), _) => return Err(at_line(&text, readings.len(), &file, refusal)),
    }
    warn_of_labels(&text, readings.len());
    if let Some(warning) = text.plan(readings).far_off() {
        say(&format!("{}: {warning}", record.unwrap_or(&text.name)));
    }
    write_binary(args.option("output"), &file)?;
    Ok(0)
}

/// The readings of all sources in turn. Files are looked for beside the text; `-` is standard input.
pub fn readings(text: &Text, text_path: Option<&str>) -> Result<Vec<i16>, Failure> {
    if text.sources.is_empty() {
        return Err(text::no_readings(&text.name));
    }
    let standard = |(_, source): &(usize, Source)| matches!(source, Source::File { path, .. } if path == "-").then_some(Some("-"));
    let inputs: Vec<Option<&str>> = [text_path].into_iter().chain(text.sources.iter().filter_map(standard)).collect();
    check_once(&inputs)?;
    let mut all = Vec::new();
    for (line, source) in &text.sources {
        match source {
            Source::Inline(readings) => all.extend(readings),
            Source::File { path, layout } => {
                let input = read_text(Some(&beside(text_path, path))).map_err(|failure| Failure {
                    message: format!("{}:{line}: {}", text.name, failure.reason()),
                    ..failure
                })?;
                all.extend(records::of_input(&input, layout)?);
            }
        }
    }
    Ok(all)
}

/// The files that a text names, whether or not they are read.
pub fn files(text: &Text, text_path: Option<&str>) -> Vec<String> {
    let file = |(_, source): &(usize, Source)| match source {
        Source::File { path, .. } => Some(beside(text_path, path)),
        Source::Inline(_) => None,
    };
    text.sources.iter().filter_map(file).collect()
}

fn beside(text_path: Option<&str>, path: &str) -> String {
    match text_path.and_then(|text_path| Path::new(text_path).parent()) {
        Some(folder) if path != "-" => folder.join(path).to_string_lossy().into_owned(),
        _ => path.to_string(),
    }
}

/// The plan file of a text and a record. Whether it is good is for the reader to say.
pub fn bytes(text: &Text, readings: &[i16]) -> Vec<u8> {
    let plan = text.plan(readings.to_vec());
    let mut file = fields::grid(plan.lo, plan.hi);
    file.extend(fields::states(plan.states, plan.start, plan.end));
    for edge in &plan.edges {
        file.extend(fields::edge(edge.from, edge.to, edge.kind, edge.gap, edge.class));
    }
    for label in &plan.labels {
        file.extend(fields::label(label.p, label.q, label.c));
    }
    file.extend(fields::readings(&plan.readings));
    file
}

/// Why a search of a plan file is refused, with the line of its text, if it has one, where that is a label's.
pub fn search_cause(text: Option<&Text>, file: &[u8], refusal: Refusal) -> Option<String> {
    let plan = Plan::read(file).ok()?;
    let (field, cause) = of_search(file, &plan, refusal)?;
    let label = |text: &Text| Some(text.labels.get(field?.checked_sub(2 + plan.edges.len())?)?.0);
    Some(match text.and_then(|text| Some((text, label(text)?))) {
        Some((text, line)) => format!("{cause}; see {}:{line}", text.name),
        None => cause,
    })
}

/// A refusal of the proved reader, with the line that made the refused field and the cause in the words of the text.
pub fn at_line(text: &Text, count: usize, file: &[u8], refusal: Refusal) -> Failure {
    let place = locate(Kind::Plan, file, refusal);
    let edges_end = 2 + text.edges.len();
    let labels_end = edges_end + text.labels.len();
    let line = match place.index {
        0 => Some(text.grid_line),
        1 => text.states.get(8).or(text.states.first()).map(|state| state.line),
        index if index < edges_end => Some(text.edges[index - 2].0),
        index if index < labels_end => Some(text.labels[index - edges_end].0),
        // A record may also be given beside a text without readings.
        _ => text.sources.first().map(|(line, _)| *line),
    };
    let cause = match refusal.0 {
        5 => states_cause(text),
        7 => same_edge(text, place.index.saturating_sub(2)),
        9 => Some(of_record(count)),
        10 if place.index < edges_end => Some("this is the 33rd edge, at most 32 are allowed".to_string()),
        10 => Some("this is the 65th label, at most 64 are allowed".to_string()),
        number => cause(Kind::Plan, file, &place, number),
    };
    let line = line.map_or(String::new(), |line| format!(":{line}"));
    let message = numbered(cause.as_deref().unwrap_or(sentence(refusal)), refusal);
    refused(format!("{}{line}: {message}", text.name))
}

fn same_edge(text: &Text, index: usize) -> Option<String> {
    let edge = text.edges.get(index)?.1;
    let same = |(_, other): &&(usize, Edge)| (other.from, other.to, other.kind) == (edge.from, edge.to, edge.kind);
    let line = text.edges.iter().find(same)?.0;
    Some(format!("line {line} has these two states and this kind already"))
}

/// Masks and S do not stand in the text, so their refusal is said in its words.
fn states_cause(text: &Text) -> Option<String> {
    if let Some(ninth) = text.states.get(8) {
        return Some(format!("state {} is the 9th, at most 8 are allowed", quoted(&ninth.name)));
    }
    let unmarked = |mark: &str| Some(format!("no state is marked '{mark}'"));
    match (text.states.iter().any(|state| state.start), text.states.iter().any(|state| state.end)) {
        (false, _) => unmarked("start"),
        (_, false) => unmarked("end"),
        _ => None,
    }
}

/// Such a plan file is good, and may be meant for a longer record, but its own readings cannot be searched.
pub fn warn_of_labels(text: &Text, count: usize) {
    for (line, beyond) in text.labels.iter().filter_map(|(line, label)| Some((line, label.beyond(count)?))) {
        let cause = format!("the label {beyond}, so a search will be refused");
        say(&format!("{}:{line}: warning: {}", text.name, numbered(&cause, Refusal(13))));
    }
}
