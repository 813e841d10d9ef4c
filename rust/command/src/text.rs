//! The plan text: one statement a line, `#` starts a comment.
use crate::csv::{Column, Header, Layout, Units};
use crate::decimal::{self, MAX_SCALE};
use crate::decode;
use crate::failure::{quoted, refused, Failure};
use crate::label::{Label, MOST_CHANGES, ONE_DOWN, ONE_UP};
use crate::plan::{Edge, Plan, KINDS, MAX_READINGS};
use crate::streams::Input;
use shared::options::did_you_mean;
use shared::PENALTIES;
use std::ops::RangeInclusive;

const GRID: &str = "grid LO to HI";
const STATE: &str = "state NAME [start] [end]";
const EDGE: &str = "edge FROM -> TO KIND [GAP] [penalty N | class N]";
/// Three forms, and two of the next; a message puts its own marks around them.
const LABEL: &str = "label P to Q changes N', 'label P to Q one up' or 'label P to Q one down";
const READINGS: &str = "readings N N ...' or 'readings from FILE [column NAME | column NUMBER] [header | no-header]";
const SCALE: &str = "scale N";
const DECIMAL: &str = "decimal comma";
const STATEMENTS: [&str; 7] = ["grid", "state", "edge", "label", "readings", "scale", "decimal"];

pub struct Text {
    /// The file's name, for messages.
    pub name: String,
    pub grid: (i16, i16),
    pub grid_line: usize,
    pub states: Vec<State>,
    /// Edges, labels and sources of readings, each with its line. There may be no source: `find` brings its own records.
    pub edges: Vec<(usize, Edge)>,
    pub labels: Vec<(usize, Label)>,
    pub sources: Vec<(usize, Source)>,
    pub units: Units,
}

pub struct State {
    pub line: usize,
    pub name: String,
    pub start: bool,
    pub end: bool,
}

pub enum Source {
    Inline(Vec<i16>),
    File { path: String, layout: Layout },
}

impl Text {
    /// How records given beside the text are read: as its 'readings from' lines say. Nothing where they say different things.
    pub fn layout(&self) -> Option<Layout> {
        let mut layouts = self.sources.iter().filter_map(|(_, source)| match source {
            Source::File { layout, .. } => Some(layout),
            Source::Inline(_) => None,
        });
        let usual = Layout {
            units: self.units,
            ..Layout::default()
        };
        let first = layouts.next().cloned().unwrap_or(usual);
        layouts.all(|layout| *layout == first).then_some(first)
    }

    pub fn plan(&self, readings: Vec<i16>) -> Plan {
        let mask = |marked: fn(&State) -> bool| {
            // A mask has room for 8 states; the reader refuses more.
            let states = self.states.iter().take(8).enumerate();
            states.fold(0, |mask, (index, state)| mask | u8::from(marked(state)) << index)
        };
        Plan {
            lo: self.grid.0,
            hi: self.grid.1,
            states: self.states.len().min(255) as u8,
            start: mask(|state| state.start),
            end: mask(|state| state.end),
            edges: self.edges.iter().map(|(_, edge)| *edge).collect(),
            labels: self.labels.iter().map(|(_, label)| *label).collect(),
            readings,
        }
    }
}

pub fn parse(input: &Input) -> Result<Text, Failure> {
    let content = decode(input)?;
    let mut draft = Draft::default();
    for (index, line) in content.lines().enumerate() {
        let at_line = |why: String| refused(format!("{}:{}: {why}", input.name, index + 1));
        let words = words(line).map_err(at_line)?;
        draft.take(index + 1, Words { words: &words, at: 0 }).map_err(at_line)?;
    }
    draft.finish(&input.name)
}

/// The refusal of a text that lacks a statement.
fn missing(name: &str, statement: &str, form: &str) -> Failure {
    refused(format!("{name}: the text has no line '{statement}'; expected '{form}'"))
}

pub fn no_readings(name: &str) -> Failure {
    missing(name, "readings", READINGS)
}

/// The text as UTF-8. Other files, as a plan file given by mistake, are told at the line where they stop to be text.
fn decode(input: &Input) -> Result<String, Failure> {
    let wrong = |line: usize, hint: &str| {
        let message = format!("{}:{line}: expected a plan text in UTF-8, found other bytes{hint}", input.name);
        Err(refused(message))
    };
    match input.bytes.first() {
        Some(1) => return wrong(1, "; this looks like a plan file, which is made already"),
        Some(0x81..=0x83) => return wrong(1, "; this looks like an answer file"),
        _ => {}
    }
    let text = decode::utf8(input)?;
    match text.find(|c: char| c.is_control() && !matches!(c, '\t' | '\r' | '\n')) {
        Some(at) => wrong(text[..at].matches('\n').count() + 1, ""),
        None => Ok(text),
    }
}

/// A word of a line. In quotation marks it is a name or a number, but no keyword.
#[derive(Clone, Copy)]
struct Word<'a> {
    text: &'a str,
    in_quotes: bool,
}

impl Word<'_> {
    fn is(self, keyword: &str) -> bool {
        !self.in_quotes && self.text == keyword
    }

    /// As it may stand in a message.
    fn shown(self) -> String {
        quoted(self.text) + if self.in_quotes { " in quotation marks" } else { "" }
    }
}

/// The words of a line. Quotation marks hold a word with blanks together; `->` is a word of its own; `#` starts a comment where a word begins.
fn words(line: &str) -> Result<Vec<Word<'_>>, String> {
    let mut words = Vec::new();
    let mut rest = after_blanks(line)?;
    while !rest.is_empty() && !rest.starts_with('#') {
        let in_quotes = rest.starts_with('"');
        let (text, end) = if in_quotes { quoted_word(rest)? } else { plain_word(rest)? };
        words.push(Word { text, in_quotes });
        rest = after_blanks(&rest[end..])?;
    }
    // What a comment hides is not read, so it may not go beyond its line.
    match rest.contains(LINE_BREAKS) {
        true => Err(decode::LINE_ENDS.to_string()),
        false => Ok(words),
    }
}

const LINE_BREAKS: [char; 3] = ['\r', '\u{2028}', '\u{2029}'];

fn after_blanks(text: &str) -> Result<&str, String> {
    let rest = text.trim_start();
    match text[..text.len() - rest.len()].contains(LINE_BREAKS) {
        true => Err(decode::LINE_ENDS.to_string()),
        false => Ok(rest),
    }
}

/// The word between two quotation marks, and where it ends.
fn quoted_word(rest: &str) -> Result<(&str, usize), String> {
    let inner = &rest[1..];
    let length = inner.find('"').ok_or("a quotation mark \" is opened but not closed")?;
    let after = &inner[length + 1..];
    match after.is_empty() || after.starts_with(char::is_whitespace) || after.starts_with("->") {
        true => Ok((&inner[..length], length + 2)),
        false => Err(GLUED.to_string()),
    }
}

/// A word up to a blank, an arrow or the end, and where it ends.
fn plain_word(rest: &str) -> Result<(&str, usize), String> {
    let blank = rest.find(|c: char| c.is_whitespace() || c == '"').unwrap_or(rest.len());
    let length = match rest[..blank].find("->") {
        Some(0) => 2,
        Some(arrow) => arrow,
        None if rest[blank..].starts_with('"') => return Err(GLUED.to_string()),
        None => blank,
    };
    Ok((&rest[..length], length))
}

const GLUED: &str = "a quotation mark inside a word; put the whole word in quotation marks";

/// What the lines so far have said.
#[derive(Default)]
struct Draft<'a> {
    grid: Option<(usize, i16, i16)>,
    states: Vec<State>,
    edges: Vec<(usize, Edge)>,
    labels: Vec<(usize, Label)>,
    sources: Vec<(usize, Given<'a>)>,
    scale: Option<(usize, u32)>,
    /// The line that says so.
    decimal_comma: Option<usize>,
}

/// A source of readings before the whole text is read: a line below may still give the scale.
enum Given<'a> {
    Inline(Vec<&'a str>),
    File { path: String, column: Option<Column>, header: Header },
}

impl<'a> Draft<'a> {
    fn take(&mut self, line: usize, mut words: Words<'a, '_>) -> Result<(), String> {
        let Some(statement) = words.next() else {
            return Ok(());
        };
        match statement.text {
            _ if statement.in_quotes => Err(unknown(statement)),
            "grid" => self.take_grid(line, &mut words),
            "state" => self.take_state(line, &mut words),
            "edge" => self.take_edge(line, &mut words),
            "label" => {
                self.labels.push((line, label(&mut words)?));
                Ok(())
            }
            "readings" => {
                self.sources.push((line, source(&mut words)?));
                Ok(())
            }
            "scale" => self.take_scale(line, &mut words),
            "decimal" => self.take_decimal(line, &mut words),
            _ => Err(unknown(statement)),
        }
    }

    fn take_grid(&mut self, line: usize, words: &mut Words) -> Result<(), String> {
        if let Some((earlier, ..)) = self.grid {
            return Err(format!("the grid is given twice, first in line {earlier}"));
        }
        let lo = words.level("LO", GRID)?;
        words.keyword("to", GRID)?;
        let hi = words.level("HI", GRID)?;
        self.grid = Some((line, lo, hi));
        words.finish(GRID)
    }

    fn take_scale(&mut self, line: usize, words: &mut Words) -> Result<(), String> {
        if let Some((earlier, _)) = self.scale {
            return Err(format!("the scale is given twice, first in line {earlier}"));
        }
        let range = 1..=i64::from(MAX_SCALE);
        let scale = words.number("the scale", range.clone(), range, SCALE)?;
        self.scale = Some((line, scale as u32));
        words.finish(SCALE)
    }

    fn take_decimal(&mut self, line: usize, words: &mut Words) -> Result<(), String> {
        if let Some(earlier) = self.decimal_comma {
            return Err(format!("'decimal comma' is given twice, first in line {earlier}"));
        }
        words.keyword("comma", DECIMAL)?;
        self.decimal_comma = Some(line);
        words.finish(DECIMAL)
    }

    fn take_state(&mut self, line: usize, words: &mut Words) -> Result<(), String> {
        let word = words.next().ok_or_else(|| ends("the state's name", STATE))?;
        if word.is("->") {
            return Err(expected("the state's name", word, STATE));
        }
        let name = word.text.to_string();
        if name.is_empty() {
            return Err("a state needs a name, found an empty one".to_string());
        }
        if let Some(earlier) = self.states.iter().find(|state| state.name == name) {
            return Err(format!("state {} is given twice, first in line {}", quoted(&name), earlier.line));
        }
        let mut state = State {
            line,
            name,
            start: false,
            end: false,
        };
        while let Some(word) = words.next() {
            match word {
                word if word.is("start") => state.start = true,
                word if word.is("end") => state.end = true,
                other => return Err(expected("'start', 'end' or the end of the line", other, STATE)),
            }
        }
        self.states.push(state);
        Ok(())
    }

    fn take_edge(&mut self, line: usize, words: &mut Words) -> Result<(), String> {
        let from = self.state(words.next())?;
        words.keyword("->", EDGE)?;
        let to = self.state(words.next())?;
        let (kind, gap) = kind(words)?;
        let class = match words.next() {
            Some(word) if word.is("penalty") => penalty_class(words.next())?,
            Some(word) if word.is("class") => words.number("the class", 0..=15, 0..=255, EDGE)? as u8,
            Some(other) => return Err(expected("'penalty N' or 'class N'", other, EDGE)),
            None if kind == 0 => 0,
            None => return Err(ends("'penalty N' or 'class N' (only a stay may do without, its penalty is then 0)", EDGE)),
        };
        self.edges.push((line, Edge { from, to, kind, gap, class }));
        words.finish(EDGE)
    }

    fn state(&self, word: Option<Word>) -> Result<u8, String> {
        let word = word.ok_or_else(|| ends("the name of a state", EDGE))?;
        match self.states.iter().position(|state| state.name == word.text && !word.is("->")) {
            // The reader refuses more than 8 states, so the number of a later one does not matter.
            Some(index) => Ok(index.min(255) as u8),
            None => {
                let known: Vec<String> = self.states.iter().map(|state| quoted(&state.name)).collect();
                let known = if known.is_empty() { "none".to_string() } else { known.join(", ") };
                Err(format!(
                    "expected the name of a state from a line above ({known}), found {}",
                    word.shown()
                ))
            }
        }
    }

    fn finish(self, name: &str) -> Result<Text, Failure> {
        let units = Units {
            scale: self.scale.map(|(_, scale)| scale),
            decimal_comma: self.decimal_comma.is_some(),
        };
        let sources = self.sources.into_iter().map(|(line, given)| match given.with(units) {
            Ok(source) => Ok((line, source)),
            Err(why) => Err(refused(format!("{name}:{line}: {why}"))),
        });
        let sources = sources.collect::<Result<_, Failure>>()?;
        let (grid_line, lo, hi) = self.grid.ok_or_else(|| missing(name, "grid", GRID))?;
        if self.states.is_empty() {
            return Err(missing(name, "state", STATE));
        }
        Ok(Text {
            name: name.to_string(),
            grid: (lo, hi),
            grid_line,
            states: self.states,
            edges: self.edges,
            labels: self.labels,
            sources,
            units,
        })
    }
}

impl Given<'_> {
    fn with(self, units: Units) -> Result<Source, String> {
        match self {
            Given::Inline(words) => {
                let readings = words.iter().map(|word| inline(word, units)).collect::<Result<_, String>>()?;
                Ok(Source::Inline(readings))
            }
            Given::File { path, column, header } => Ok(Source::File {
                path,
                layout: Layout { column, header, units },
            }),
        }
    }
}

/// A reading in the text itself, which has a decimal point also where the records have commas.
fn inline(word: &str, units: Units) -> Result<i16, String> {
    if word.contains(',') {
        return Err(format!(
            "expected a reading, found {}; in a plan text blanks stand between readings, and a point is the decimal sign",
            quoted(word)
        ));
    }
    let units = Units {
        decimal_comma: false,
        ..units
    };
    decimal::reading(word, units).map_err(|why| match decimal::is_number(word) {
        true => why,
        false => format!("{why}; the line should read '{READINGS}'"),
    })
}

fn unknown(statement: Word) -> String {
    let meant = did_you_mean(statement.text, STATEMENTS);
    format!(
        "expected a line that begins with {}, found {}{meant}",
        STATEMENTS.join(", "),
        statement.shown()
    )
}

fn kind(words: &mut Words) -> Result<(u8, u16), String> {
    let names = KINDS.join(", ");
    let word = words.next().ok_or_else(|| ends(&format!("a kind ({names})"), EDGE))?;
    let kind = KINDS
        .iter()
        .position(|name| word.is(name))
        .ok_or_else(|| expected(&format!("a kind ({names})"), word, EDGE))?;
    // A gap after stay or any is left to the reader to refuse.
    let has_gap = kind >= 2 || words.peek().is_some_and(|word| word.text.parse::<i64>().is_ok());
    let gap = if has_gap {
        words.number("the gap", 0..=1023, 0..=65535, EDGE)? as u16
    } else {
        0
    };
    Ok((kind as u8, gap))
}

fn penalty_class(word: Option<Word>) -> Result<u8, String> {
    let word = word.ok_or_else(|| ends("the penalty's value", EDGE))?;
    let value = word.text.parse::<u32>().ok();
    let class = PENALTIES.iter().position(|penalty| Some(*penalty) == value);
    let values: Vec<String> = PENALTIES.iter().map(u32::to_string).collect();
    class
        .map(|class| class as u8)
        .ok_or_else(|| format!("expected one of the sixteen penalties ({}), found {}", values.join(", "), word.shown()))
}

fn label(words: &mut Words) -> Result<Label, String> {
    let p = words.number("P", 1..=MAX_READINGS as i64 - 1, 0..=65535, LABEL)? as u16;
    words.keyword("to", LABEL)?;
    let q = words.number("Q", 2..=MAX_READINGS as i64, 0..=65535, LABEL)? as u16;
    let c = asked(words)?;
    words.finish(LABEL)?;
    Ok(Label { p, q, c })
}

/// What a label asks for. In the file 8 and 9 are one up and one down; after 'changes' they would read as eight and nine changes.
fn asked(words: &mut Words) -> Result<u8, String> {
    let what = "'changes', 'one up' or 'one down'";
    let word = words.next().ok_or_else(|| ends(what, LABEL))?;
    if word.is("changes") {
        let counts = 0..=i64::from(MOST_CHANGES);
        return Ok(words.number("the number of changes", counts.clone(), counts, LABEL)? as u8);
    }
    if !word.is("one") {
        return Err(expected(what, word, LABEL));
    }
    match words.next() {
        Some(word) if word.is("up") => Ok(ONE_UP),
        Some(word) if word.is("down") => Ok(ONE_DOWN),
        Some(word) => Err(expected("'up' or 'down' after 'one'", word, LABEL)),
        None => Err(ends("'up' or 'down' after 'one'", LABEL)),
    }
}

fn source<'a>(words: &mut Words<'a, '_>) -> Result<Given<'a>, String> {
    if words.peek().is_some_and(|word| word.is("from")) {
        words.next();
        return file(words);
    }
    let mut readings = Vec::new();
    while let Some(word) = words.next() {
        readings.push(word.text);
    }
    match readings.is_empty() {
        true => Err(ends("a reading or 'from'", READINGS)),
        false => Ok(Given::Inline(readings)),
    }
}

fn file<'a>(words: &mut Words<'a, '_>) -> Result<Given<'a>, String> {
    let path = words.next().ok_or_else(|| ends("a file name", READINGS))?.text.to_string();
    let (mut column, mut header) = (None, Header::Unsaid);
    while let Some(word) = words.next() {
        match word {
            word if word.is("column") && column.is_none() => {
                let word = words.next().ok_or_else(|| ends("a column's name or number", READINGS))?;
                column = Some(Column::of(word.text, word.in_quotes)?);
            }
            word if word.is("header") && header == Header::Unsaid => header = Header::Yes,
            word if word.is("no-header") && header == Header::Unsaid => header = Header::No,
            other => return Err(expected("'column', 'header', 'no-header' or the end of the line", other, READINGS)),
        }
    }
    if let (Some(Column::Name(name)), Header::No) = (&column, header) {
        return Err(format!("the column {} by name needs a header; choose it by number", quoted(name)));
    }
    Ok(Given::File { path, column, header })
}

fn expected(what: &str, found: Word, form: &str) -> String {
    format!("expected {what}, found {}; the line should read '{form}'", found.shown())
}

fn ends(what: &str, form: &str) -> String {
    format!("expected {what}, but the line ends; it should read '{form}'")
}

/// The words of a line, taken one after the other.
struct Words<'a, 'w> {
    words: &'w [Word<'a>],
    at: usize,
}

impl<'a> Words<'a, '_> {
    fn peek(&self) -> Option<Word<'a>> {
        self.words.get(self.at).copied()
    }

    fn next(&mut self) -> Option<Word<'a>> {
        let word = self.peek();
        self.at += 1;
        word
    }

    fn keyword(&mut self, keyword: &str, form: &str) -> Result<(), String> {
        match self.next() {
            Some(word) if word.is(keyword) => Ok(()),
            Some(word) => Err(expected(&quoted(keyword), word, form)),
            None => Err(ends(&quoted(keyword), form)),
        }
    }

    /// A whole number that fits its field. The message names the range that is allowed; the reader judges what fits the field.
    fn number(&mut self, what: &str, allowed: RangeInclusive<i64>, fitting: RangeInclusive<i64>, form: &str) -> Result<i64, String> {
        let what = format!("{what} as a whole number from {} to {}", allowed.start(), allowed.end());
        let word = self.next().ok_or_else(|| ends(&what, form))?;
        let value = word.text.parse().ok().filter(|value| fitting.contains(value));
        value.ok_or_else(|| expected(&what, word, form))
    }

    fn level(&mut self, what: &str, form: &str) -> Result<i16, String> {
        let range = i64::from(i16::MIN)..=i64::from(i16::MAX);
        Ok(self.number(what, range.clone(), range, form)? as i16)
    }

    fn finish(&mut self, form: &str) -> Result<(), String> {
        match self.next() {
            None => Ok(()),
            Some(word) => Err(expected("the end of the line", word, form)),
        }
    }
}

#[cfg(test)]
mod tests {
    use super::*;

    const START: &str = "grid -3 to 9\nstate a start\nstate b\nstate c start end\nedge a -> c up 5 class 3\nlabel 1 to 2 changes 1\n";

    fn text(lines: &str) -> Text {
        let bytes = format!("{START}{lines}").into_bytes();
        let name = "x".to_string();
        parse(&Input { name, bytes }).unwrap_or_else(|failure| panic!("{}", failure.message))
    }

    #[test]
    fn layout_of_records_beside_the_text() {
        let none = Layout::default();
        let units = Units {
            scale: Some(10),
            decimal_comma: true,
        };
        let column = Some(Column::Name("2".to_string()));
        for (lines, due) in [
            ("", none.clone()),
            ("readings 1 2\nreadings from z", none.clone()),
            ("scale 10\nreadings 1.5\ndecimal comma", Layout { units, ..none.clone() }),
            (
                "readings 1\nreadings from y column \"2\"\nreadings from z column \"2\"\nscale 10\ndecimal comma",
                Layout {
                    column,
                    units,
                    ..none.clone()
                },
            ),
            (
                "readings from y column 2 header",
                Layout {
                    column: Some(Column::Number(2)),
                    header: Header::Yes,
                    ..none
                },
            ),
        ] {
            assert_eq!(text(lines).layout(), Some(due), "{lines}");
        }
        // Two files that are read in different ways say nothing of a third.
        for other in ["column 1", "header", "column \"2\""] {
            assert_eq!(
                text(&format!("readings from y column 2\nreadings from z {other}")).layout(),
                None,
                "{other}"
            );
        }
    }

    #[test]
    fn plan_of_a_text() {
        let plan = text("").plan(vec![1, -2]);
        assert_eq!((plan.lo, plan.hi, plan.states, plan.start, plan.end), (-3, 9, 3, 0b101, 0b100));
        let edge = Edge {
            from: 0,
            to: 2,
            kind: 2,
            gap: 5,
            class: 3,
        };
        let label = Label { p: 1, q: 2, c: 1 };
        assert_eq!((plan.edges, plan.labels, plan.readings), (vec![edge], vec![label], vec![1, -2]));
        // Masks have room for 8 states; a ninth must not spill over.
        let many: String = (0..300).map(|i| format!("state s{i} start end\n")).collect();
        let plan = text(&many).plan(Vec::new());
        assert_eq!((plan.states, plan.start, plan.end), (255, 0b1111_1101, 0b1111_1100));
    }
}
