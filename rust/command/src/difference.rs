//! The first difference of two answers, and of a plan text and a plan file, in words.
use crate::answer::{Answer, Run};
use crate::check::{counted, with_sentence};
use crate::export::Item;
use crate::failure::numbered;
use crate::outline::Outline;
use crate::plan::{Edge, Plan};

/// How an answer differs from what a search has found. None where it does not.
pub fn answers(given: &Answer, found: &Item) -> Option<String> {
    if *given == found.answer {
        return None;
    }
    Some(match (given, &found.answer) {
        (Answer::Runs { cost, runs }, Answer::Runs { cost: least, runs: first }) => {
            if cost != least {
                return Some(format!("the cost is {cost}, the search finds {least}"));
            }
            runs_differ(runs, first)?
        }
        (Answer::Refused(refusal), Answer::Runs { cost, runs }) => {
            let runs = counted(runs.len(), "run");
            format!("it holds {}, the search finds {runs} at cost {cost}", with_sentence(*refusal))
        }
        (Answer::Runs { cost, runs }, Answer::Refused(refusal)) => {
            let (runs, why) = (counted(runs.len(), "run"), numbered(found.sentence(), *refusal));
            format!("it has {runs} at cost {cost}, the search is refused: {why}")
        }
        (Answer::Refused(refusal), Answer::Refused(other)) => {
            let why = numbered(found.sentence(), *other);
            format!("it holds {}, the search is refused otherwise: {why}", with_sentence(*refusal))
        }
    })
}

fn runs_differ(given: &[Run], found: &[Run]) -> Option<String> {
    if given.len() != found.len() {
        let [given, found] = [given, found].map(|runs| counted(runs.len(), "run"));
        return Some(format!("it has {given}, the search finds {found}"));
    }
    let number = given.iter().zip(found).position(|(given, found)| given != found)?;
    let fields = |run: &Run| {
        [
            ("first reading", run.first.to_string()),
            ("last reading", run.last.to_string()),
            ("state", run.state.to_string()),
            ("level", run.level.to_string()),
            ("edge", run.edge.map_or("none".to_string(), |edge| edge.to_string())),
        ]
    };
    let mut pairs = fields(&given[number]).into_iter().zip(fields(&found[number]));
    let ((name, here), (_, there)) = pairs.find(|(here, there)| here != there)?;
    Some(format!("run {}: the {name} is {here}, the search finds {there}", number + 1))
}

/// How the plan of a text differs from that of a file, but for the readings.
pub fn plans(text: &Plan, file: &Plan, outline: &Outline) -> Option<String> {
    let grid = |plan: &Plan| format!("{} to {}", plan.lo, plan.hi);
    let states = |plan: &Plan| usize::from(plan.states);
    unequal("the grid", grid(text), grid(file))
        .or_else(|| count_differs(states(text), states(file), "state"))
        .or_else(|| marks(text, file, outline))
        .or_else(|| edges(&text.edges, &file.edges, outline))
        .or_else(|| labels(text, file))
}

fn unequal(what: &str, text: String, file: String) -> Option<String> {
    (text != file).then(|| format!("{what} is '{text}' in the text and '{file}' in the file"))
}

fn count_differs(text: usize, file: usize, what: &str) -> Option<String> {
    (text != file).then(|| format!("the text has {} and the file {file}", counted(text, what)))
}

fn marks(text: &Plan, file: &Plan, outline: &Outline) -> Option<String> {
    let masks = [("start", text.start, file.start), ("end", text.end, file.end)];
    masks.into_iter().find_map(|(mark, text, file)| {
        let number = (0..8).find(|state| (text ^ file) >> state & 1 == 1)?;
        let (has, lacks) = if text >> number & 1 == 1 { ("text", "file") } else { ("file", "text") };
        let name = outline.word(number);
        Some(format!("state {number} ({name}) is marked '{mark}' in the {has} and not in the {lacks}"))
    })
}

fn edges(text: &[Edge], file: &[Edge], outline: &Outline) -> Option<String> {
    let parts = |edge: &Edge| {
        let state = |number: u8| match outline.name(number) {
            Some(_) => format!("{number} ({})", outline.word(number)),
            None => number.to_string(),
        };
        let states = format!("{} -> {}", state(edge.from), state(edge.to));
        [states, edge.kind_text(), format!("penalty {}", edge.penalty())]
    };
    let differs = |(number, (text, file)): (usize, (&Edge, &Edge))| {
        let mut pairs = parts(text).into_iter().zip(parts(file));
        pairs.find_map(|(text, file)| unequal(&format!("edge {number}"), text, file))
    };
    let mut pairs = text.iter().zip(file).enumerate();
    pairs.find_map(differs).or_else(|| count_differs(text.len(), file.len(), "edge"))
}

fn labels(text: &Plan, file: &Plan) -> Option<String> {
    let mut pairs = text.labels.iter().zip(&file.labels).enumerate();
    pairs
        .find_map(|(index, (text, file))| unequal(&format!("label {}", index + 1), text.text(), file.text()))
        .or_else(|| count_differs(text.labels.len(), file.labels.len(), "label"))
}

/// The same for the readings, where the text has them.
pub fn readings(text: &[i16], file: &[i16]) -> Option<String> {
    if text.is_empty() {
        return None;
    }
    let at = text.iter().zip(file).position(|(text, file)| text != file);
    let differs = at.map(|at| format!("reading {} is {} in the text and {} in the file", at + 1, text[at], file[at]));
    differs.or_else(|| count_differs(text.len(), file.len(), "reading"))
}
