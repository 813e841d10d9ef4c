//! What an answer is shown with: names of states and edges, as far as they are known.
use crate::cause;
use crate::difference;
use crate::failure::{numbered, refused, Failure};
use crate::make;
use crate::plan::{Edge, Plan};
use crate::streams::{read_text, remember, say};
use crate::text::{self, Source, Text};

#[derive(Default)]
pub struct Outline {
    /// Where a plan is known.
    pub plan: Option<Known>,
}

pub struct Known {
    /// Where the plan comes from, for messages.
    pub source: String,
    /// The names of the states; empty where only their numbers are known.
    pub names: Vec<String>,
    pub edges: Vec<Edge>,
}

impl Outline {
    pub fn of_text(text: &Text) -> Outline {
        Outline {
            plan: Some(Known {
                source: text.name.clone(),
                names: text.states.iter().map(|state| state.name.clone()).collect(),
                edges: text.edges.iter().map(|(_, edge)| *edge).collect(),
            }),
        }
    }

    /// The outline of a plan file, with names from a text where one is given. The text has to be one of this plan.
    pub fn of_plan(source: &str, plan: &Plan, named: Option<&Named>) -> Result<Outline, String> {
        let mut known = Known {
            source: source.to_string(),
            names: Vec::new(),
            edges: plan.edges.clone(),
        };
        if let Some(named) = named {
            let outline = Outline::of_text(&named.text);
            if let Some(what) = difference::plans(&named.plan, plan, &outline) {
                return Err(format!("{} is not the text of {source}: {what}", named.text.name));
            }
            // A plan file of the same text may have been made with another record, and names do not depend on that.
            if let Some(what) = difference::readings(&named.plan.readings, &plan.readings) {
                say(&format!("{source}: made with another record than {} names: {what}", named.text.name));
            }
            known.names = named.text.states.iter().map(|state| state.name.clone()).collect();
        }
        Ok(Outline { plan: Some(known) })
    }

    /// A state as pictures name it.
    pub fn state(&self, number: u8) -> String {
        match (self.name(number), &self.plan) {
            (Some(name), _) => name.to_string(),
            (None, Some(_)) => format!("state {number}"),
            (None, None) => number.to_string(),
        }
    }

    /// The name of a state, where it is known.
    pub fn name(&self, number: u8) -> Option<&str> {
        let known = self.plan.as_ref()?;
        known.names.get(usize::from(number)).map(String::as_str)
    }

    pub fn edge(&self, number: u8) -> Option<&Edge> {
        self.plan.as_ref().and_then(|plan| plan.edges.get(usize::from(number)))
    }

    /// A state as it may stand in a line: its name, or its number where there is none.
    pub fn word(&self, number: u8) -> String {
        self.name(number).map_or_else(|| number.to_string(), in_line)
    }

    /// `2 (new -> worn, up 6)`; the number alone where the edge is not known.
    pub fn edge_words(&self, number: u8) -> String {
        match self.edge(number) {
            Some(edge) => format!("{number} ({} -> {}, {})", self.word(edge.from), self.word(edge.to), edge.kind_text()),
            None => number.to_string(),
        }
    }
}

/// A text that neither breaks a line nor disturbs a terminal: control characters, and marks that turn the direction of writing, are escaped.
pub fn in_line(text: &str) -> String {
    let disturbs = |c: char| c.is_control() || matches!(c, '\u{2028}'..='\u{202e}' | '\u{2066}'..='\u{2069}');
    let escaped = |c: char| match disturbs(c) {
        true => c.escape_debug().to_string(),
        false => c.to_string(),
    };
    text.chars().map(escaped).collect()
}

/// A plan text given with `--text`, and the plan that it makes.
pub struct Named {
    pub text: Text,
    /// Without readings where they cannot be had.
    pub plan: Plan,
    /// The plan file that the text makes, or why its readings cannot be had.
    pub file: Result<Vec<u8>, String>,
}

impl Named {
    pub fn read(path: &str) -> Result<Named, Failure> {
        let text = text::parse(&read_text(Some(path))?)?;
        make::files(&text, Some(path)).iter().for_each(|path| remember(path));
        let readings = readings(&text, path);
        // One reading stands in for those that cannot be had, so that the reader judges the rest of the plan.
        let file = make::bytes(&text, readings.as_deref().unwrap_or(&[0]));
        let mut plan = Plan::read(&file).map_err(|refusal| {
            let why = numbered(&cause::words(&file, refusal), refusal);
            refused(format!(
                "{}: no plan file can be made from it: {why}; 'yeldaski make' says where",
                text.name
            ))
        })?;
        if readings.is_err() {
            plan.readings.clear();
        }
        let file = readings.map(|_| file);
        Ok(Named { text, plan, file })
    }
}

/// The readings of a text, or why they cannot be had. Standard input is left alone: it held the record when the plan file was made.
fn readings(text: &Text, path: &str) -> Result<Vec<i16>, String> {
    let standard = |(_, source): &(usize, Source)| matches!(source, Source::File { path, .. } if path == "-");
    if text.sources.is_empty() {
        return Err("the text has no readings".to_string());
    }
    if text.sources.iter().any(standard) {
        return Err("the text takes its readings from standard input".to_string());
    }
    make::readings(text, Some(path)).map_err(|failure| {
        let line = failure.message.lines().next().unwrap_or_default().to_string();
        format!("the readings of the text cannot be had ({line})")
    })
}

#[cfg(test)]
mod tests {
    use super::*;
    use crate::streams::Input;

    #[test]
    fn readings_of_a_text() {
        let bytes = b"grid 0 to 9\nstate s start end\nreadings 3 4\n".to_vec();
        let name = "plan.txt".to_string();
        let mut text = text::parse(&Input { name, bytes }).expect("a good text");
        assert_eq!(readings(&text, "plan.txt"), Ok(vec![3, 4]));
        text.sources.clear();
        assert_eq!(readings(&text, "plan.txt"), Err("the text has no readings".to_string()));
    }

    #[test]
    fn control_characters() {
        assert_eq!(
            in_line("a\r\n\tb\u{85}\u{1b}[1m \"\\' \u{e4}"),
            "a\\r\\n\\tb\\u{85}\\u{1b}[1m \"\\' \u{e4}"
        );
    }
}
