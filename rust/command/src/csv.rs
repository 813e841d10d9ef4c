//! Readings from a CSV file (RFC 4180), or from a file with one number a line.
pub use crate::decimal::Units;
use crate::decimal::{self, is_digits};
use crate::decode;
use crate::failure::{quoted, refused, Failure};
use crate::streams::Input;
use shared::options::did_you_mean;

#[derive(Debug, Clone, PartialEq, Eq)]
pub enum Column {
    /// Counted from 1.
    Number(usize),
    /// The first record holds the names.
    Name(String),
}

impl Column {
    /// Digits are a number, everything else is a name. Quotation marks make a name of digits, too.
    pub fn of(word: &str, in_quotes: bool) -> Result<Column, String> {
        if in_quotes || !is_digits(word) {
            return Ok(Column::Name(word.to_string()));
        }
        match word.parse() {
            Ok(number @ 1..) => Ok(Column::Number(number)),
            _ => Err(format!("expected a column's name, or its number counted from 1, found {}", quoted(word))),
        }
    }

    /// The same for a command line, where the shell takes quotation marks away unless they are part of the word.
    pub fn of_option(word: &str) -> Result<Column, String> {
        match word.strip_prefix('"').and_then(|word| word.strip_suffix('"')) {
            Some(name) => Column::of(name, true),
            None => Column::of(word, false),
        }
    }
}

/// How the readings of a record stand in a file, and what makes them whole numbers.
#[derive(Debug, Clone, Default, PartialEq, Eq)]
pub struct Layout {
    pub column: Option<Column>,
    pub header: Header,
    pub units: Units,
}

/// Whether the first record holds names. A column by name needs that it does.
#[derive(Debug, Clone, Copy, Default, PartialEq, Eq)]
pub enum Header {
    /// Nothing was said: there is none.
    #[default]
    Unsaid,
    No,
    Yes,
    /// Nothing was said of this file, but others that are read in the same way have one.
    Assumed,
}

const UNDO_COMMENT: &str = "a line that begins with '#' is a comment, but this one may be the names or a reading that is missing below: \
                            take the '#' away, or the whole line";
const DECIMAL_COMMA: &str = "if a comma is a decimal sign here, have the record written with decimal points, or with semicolons between its columns";
const LATE_COMMENT: &str =
    "a line that begins with '#' may be a comment or data; comments stand above the first record, data of that form in quotation marks";
const BLANKS: &str = "blanks stand between a quotation mark and the separator or line end; take them away";
const NO_SEPARATOR: &str = "; with 'decimal comma' semicolons or tabs separate columns";

/// A line, and what is wrong there.
type Wrong = (usize, String);

pub fn readings(input: &Input, layout: &Layout) -> Result<Vec<i16>, Failure> {
    let text = decode::utf8(input)?;
    let at_line = |(line, why): Wrong| refused(format!("{}:{line}: {why}", input.name));
    let table = Table::of(&text, layout).map_err(at_line)?;
    if table.has_header() && table.first.is_none() {
        return Err(refused(format!(
            "{}: the file is empty; expected a first line with the names of the columns",
            input.name
        )));
    }
    table.readings().map_err(at_line)
}

struct Record {
    /// The line where it starts, counted from 1.
    line: usize,
    /// Empty for a blank line.
    cells: Vec<String>,
}

/// A file of records. They are read one by one, since all cells of a long file would need many times its size.
struct Table<'a> {
    layout: &'a Layout,
    /// Stands at the first line, above the comments.
    top: Reader<'a>,
    /// Stands at the first record.
    start: Reader<'a>,
    first: Option<Record>,
}

impl<'a> Table<'a> {
    fn of(text: &'a str, layout: &'a Layout) -> Result<Table<'a>, Wrong> {
        let mut start = Reader {
            rest: text,
            line: 1,
            separator: None,
            // In a file with columns such a line may be data, as a name that begins with '#', and would be lost.
            comments: layout.column.is_none(),
        };
        let mut top = start.clone();
        start.skip_preamble()?;
        start.separator = separator(start.rest, layout.units);
        top.separator = start.separator;
        let first = start.clone().record()?;
        Ok(Table { layout, top, start, first })
    }

    /// The comments above the first record, as if they were records without the '#'.
    fn comments(&self) -> Vec<Record> {
        let mut reader = self.top.clone();
        let mut comments = Vec::new();
        while reader.line < self.start.line {
            let mut content = reader.clone();
            content.rest = reader.rest.trim_start_matches('#');
            let (line, cells) = (reader.line, content.cells().unwrap_or_default());
            comments.push(Record { line, cells });
            reader.skip_line();
        }
        comments
    }

    /// A comment above the first record may be a reading that was to be read, or the names that were asked for, so that a reading would be taken for
    /// them. A column that was found by its name leaves no doubt.
    fn check_comments(&self, place: usize) -> Result<(), Wrong> {
        let (Some(first), None | Some(Column::Number(_))) = (&self.first, &self.layout.column) else {
            return Ok(());
        };
        let is_number = |record: &Record| record.cells.get(place).is_some_and(|cell| decimal::is_number(cell));
        let doubtful = |comment: &&Record| match self.has_header() {
            true => is_number(first),
            false => comment.cells.len() > 1 && is_number(comment),
        };
        match self.comments().iter().find(doubtful) {
            Some(comment) => Err((comment.line, UNDO_COMMENT.to_string())),
            None => Ok(()),
        }
    }

    fn has_header(&self) -> bool {
        matches!(self.layout.header, Header::Yes | Header::Assumed) || matches!(self.layout.column, Some(Column::Name(_)))
    }

    fn readings(&self) -> Result<Vec<i16>, Wrong> {
        let place = self.place()?;
        self.check_comments(place)?;
        self.check_header(place)?;
        let mut reader = self.start.clone();
        if self.has_header() {
            reader.record()?;
        }
        let mut readings = Vec::new();
        while let Some(record) = reader.record()? {
            readings.push(self.reading(&record, place).map_err(|why| (record.line, why))?);
        }
        Ok(readings)
    }

    /// Where the column stands among the cells, counted from 0.
    fn place(&self) -> Result<usize, Wrong> {
        let header = self.first.as_ref().filter(|_| self.has_header());
        match (&self.layout.column, header) {
            (_, Some(header)) if header.cells.is_empty() => {
                Err((header.line, "expected the names of the columns, but the line is empty".to_string()))
            }
            (Some(Column::Name(name)), Some(header)) => self.place_of(name, &header.cells).map_err(|why| (header.line, why)),
            (None, Some(header)) if header.cells.len() > 1 => Err((header.line, self.several(header))),
            (Some(Column::Number(number)), _) => Ok(number - 1),
            _ => Ok(0),
        }
    }

    /// Where nobody has said it, the first record is a header if it can be nothing else, and a reading if it can be nothing else.
    fn check_header(&self, place: usize) -> Result<(), Wrong> {
        let Some(first) = &self.first else { return Ok(()) };
        let Some(cell) = first.cells.get(place) else { return Ok(()) };
        let doubtful = match (self.layout.header, &self.layout.column) {
            (Header::Assumed, _) => !is_name(cell) || first.cells.iter().any(|cell| decimal::is_number(cell)),
            (Header::Unsaid, Some(Column::Number(_))) => decimal::is_number(cell) && self.has_names_elsewhere(first),
            _ => false,
        };
        let say = "say 'header' or 'no-header' (or --header, --no-header)";
        match doubtful {
            true => Err((first.line, format!("{} may be a reading or the name of its column; {say}", quoted(cell)))),
            false => Ok(()),
        }
    }

    /// Whether a cell of the first record is no number where the next record has one.
    fn has_names_elsewhere(&self, first: &Record) -> bool {
        let mut reader = self.start.clone();
        let second = reader.record().and_then(|_| reader.record()).ok().flatten();
        let cells = second.map_or(Vec::new(), |second| second.cells);
        first
            .cells
            .iter()
            .zip(&cells)
            .any(|(name, cell)| !decimal::is_number(name) && decimal::is_number(cell))
    }

    fn place_of(&self, name: &str, header: &[String]) -> Result<usize, String> {
        let places: Vec<usize> = (0..header.len()).filter(|place| header[*place] == name).collect();
        match places[..] {
            [place] => Ok(place),
            [] => {
                let names: Vec<String> = header.iter().take(20).map(|name| quoted(name)).collect();
                let meant = did_you_mean(name, header.iter().map(String::as_str));
                let comment = self.comments().into_iter().find(|comment| comment.cells.iter().any(|cell| cell == name));
                let comment = comment.map_or(String::new(), |comment| {
                    format!("; line {} has it, but begins with '#': take that away", comment.line)
                });
                let (name, names, hint) = (quoted(name), names.join(", "), self.separated());
                Err(format!(
                    "expected a column named {name} in the first line, found {names}{hint}{meant}{comment}"
                ))
            }
            _ => {
                let numbers: Vec<String> = places.iter().take(20).map(|place| (place + 1).to_string()).collect();
                let (count, name, numbers) = (places.len(), quoted(name), numbers.join(", "));
                Err(format!(
                    "the first line names {count} columns {name} ({numbers}); choose one with 'column NUMBER header', or with --column NUMBER --header"
                ))
            }
        }
    }

    fn reading(&self, record: &Record, place: usize) -> Result<i16, String> {
        let count = record.cells.len();
        if count == 0 {
            return Err("expected a reading, but the line is empty".to_string());
        }
        let is_single = self.first.as_ref().is_some_and(|first| first.cells.len() == 1);
        if count > 1 && (self.layout.column.is_none() || (is_single && decimals(record).is_some())) {
            return Err(self.several(record));
        }
        let cell = self.check_width(record).and_then(|()| {
            let number = place + 1;
            let digits = if number > 9 {
                "; a name of digits stands in quotation marks"
            } else {
                ""
            };
            let found = record.cells.get(place);
            found.ok_or_else(|| format!("expected at least {number} columns, found {count}{}{digits}", self.separated()))
        })?;
        let read = decimal::reading(cell.trim(), self.layout.units);
        read.map_err(|why| why + self.comma_separates(record, cell) + self.header_hint(record, cell))
    }

    /// Every record has as many cells as the first one: in another the column may hold something else, because of a decimal comma or a cut line.
    /// Below names, separators may end a line, but nothing stands in a column without a name at their end.
    fn check_width(&self, record: &Record) -> Result<(), String> {
        let Some(first) = &self.first else { return Ok(()) };
        let filled = |record: &Record| record.cells.iter().rposition(|cell| !cell.is_empty()).map_or(0, |last| last + 1);
        let (width, count) = (first.cells.len(), record.cells.len());
        let fits = match self.has_header() {
            true => count >= width && filled(record) <= filled(first),
            false => count == width,
        };
        if fits {
            return Ok(());
        }
        let digits = self.start.separator == Some(',') && record.cells.iter().skip(filled(first)).any(|cell| is_digits(cell));
        let advice = match count < width {
            true => "is the line cut?",
            false if digits => DECIMAL_COMMA,
            false if width == 1 => "if the first line is a title, take it away or begin it with '#'",
            false => "a cell that holds the separator has to stand in quotation marks",
        };
        let width = if count < width { width } else { filled(first) };
        Err(format!(
            "expected {width} columns as in line {}, found {count}{}; {advice}",
            first.line,
            self.separated()
        ))
    }

    /// Which separator was found, where it was not a comma.
    fn separated(&self) -> &'static str {
        match self.start.separator {
            Some(';') => " (separated by semicolons)",
            Some('\t') => " (separated by tabs)",
            Some(_) => "",
            None => NO_SEPARATOR,
        }
    }

    /// With `decimal comma` a comma no longer separates, so that advice alone would not do here.
    fn comma_separates(&self, record: &Record, cell: &str) -> &'static str {
        match record.cells.len() > 1 && self.start.separator == Some(',') && cell.contains(',') {
            true => "; with a decimal comma, columns have to be separated by semicolons or tabs",
            false => "",
        }
    }

    /// More than one cell where no column was chosen.
    fn several(&self, record: &Record) -> String {
        let count = record.cells.len();
        let start = format!("expected one number a line, found {count} columns{}", self.separated());
        let choose = "choose one with 'column NAME' or 'column NUMBER' in the plan text, or with --column";
        let all_digits = record.cells.iter().all(|cell| is_whole(cell));
        match (self.start.separator, decimals(record)) {
            (Some(','), Some(_)) => format!(
                "{start}; if {} is one number with a decimal comma, {}; if it is two columns, choose one with 'column 1' or 'column 2' there, or with --column",
                quoted(&record.cells.join(",")),
                decimal::comma_advice(&record.cells.join(","), self.most_decimals(), self.layout.units)
            ),
            (Some(','), None) if all_digits => format!(
                "{start}; {DECIMAL_COMMA}; if not, {choose}"
            ),
            _ => format!("{start}; {choose}"),
        }
    }

    /// Over all records, so that advice holds to the end of the file.
    fn most_decimals(&self) -> usize {
        let mut reader = self.start.clone();
        let records = std::iter::from_fn(|| reader.record().ok()?.filter(|record| !record.cells.is_empty()));
        records.filter_map(|record| decimals(&record)).max().unwrap_or(0)
    }

    /// Only a word can be the name of a column that nobody told of.
    fn header_hint(&self, record: &Record, cell: &str) -> &'static str {
        let is_first = self.first.as_ref().is_some_and(|first| first.line == record.line);
        let is_word = is_name(cell.trim()) && !decimal::is_number(cell.trim());
        match is_first && is_word && self.layout.header != Header::No {
            true => "; if this line holds the names of the columns, add 'header' (or --header), or choose the column by its name",
            false => "",
        }
    }
}

/// Whether a cell can be the name of a column and no reading: it begins with a letter, and is no word for a missing value.
fn is_name(cell: &str) -> bool {
    const MISSING: [&str; 7] = ["nan", "na", "n/a", "null", "none", "inf", "infinity"];
    cell.starts_with(char::is_alphabetic) && !MISSING.contains(&&*cell.to_lowercase())
}

fn is_whole(cell: &str) -> bool {
    is_digits(cell.strip_prefix(['+', '-']).unwrap_or(cell))
}

/// How many digits stand after the comma, where a record of two cells may be one number with a decimal comma.
fn decimals(record: &Record) -> Option<usize> {
    match &record.cells[..] {
        [whole, fraction] if is_whole(whole) && is_digits(fraction) => Some(fraction.len()),
        _ => None,
    }
}

/// The separator of the first record. Semicolons and tabs go before commas, since a comma may also be a decimal sign.
fn separator(text: &str, units: Units) -> Option<char> {
    let mut outside = String::new();
    let mut inside = false;
    for c in text.chars() {
        match c {
            '"' => inside = !inside,
            '\n' if !inside => break,
            c if !inside => outside.push(c),
            _ => {}
        }
    }
    let found = [';', '\t'].into_iter().find(|c| outside.contains(*c));
    found.or((!units.decimal_comma).then_some(','))
}

/// Takes records from the front of a text.
#[derive(Clone)]
struct Reader<'a> {
    rest: &'a str,
    /// The line where the rest begins.
    line: usize,
    separator: Option<char>,
    /// Whether comments may stand between records.
    comments: bool,
}

impl Reader<'_> {
    /// Comments at the top of a file, and blank lines below them.
    fn skip_preamble(&mut self) -> Result<(), Wrong> {
        while self.rest.starts_with('#') {
            self.skip_comments()?;
            while !self.rest.is_empty() && self.is_blank_line() {
                self.skip_line();
            }
        }
        Ok(())
    }

    fn skip_comments(&mut self) -> Result<(), Wrong> {
        while self.rest.starts_with('#') {
            let line = self.rest.split('\n').next().unwrap_or_default();
            self.check_line_end(line)?;
            self.skip_line();
        }
        Ok(())
    }

    /// A part of a line that holds another line end than LF or CRLF is two lines to whoever wrote it.
    fn check_line_end(&self, part: &str) -> Result<(), Wrong> {
        let after = &self.rest[part.len()..];
        let is_end = after.is_empty() || after.starts_with('\n');
        let inner = if is_end { part.strip_suffix('\r').unwrap_or(part) } else { part };
        match inner.find(['\r', '\u{2028}', '\u{2029}']) {
            Some(_) => Err((self.line, decode::LINE_ENDS.to_string())),
            None => Ok(()),
        }
    }

    fn skip_line(&mut self) {
        self.rest = self.rest.split_once('\n').map_or("", |(_, rest)| rest);
        self.line += 1;
    }

    fn is_blank_line(&self) -> bool {
        let start = self.rest.trim_start_matches(|c: char| c.is_whitespace() && c != '\n');
        start.is_empty() || start.starts_with('\n')
    }

    /// Whether no record follows any more.
    fn is_at_end(&self) -> Result<bool, Wrong> {
        let mut ahead = self.clone();
        while !ahead.rest.is_empty() && ahead.is_blank_line() {
            ahead.skip_line();
            if self.comments {
                ahead.skip_comments()?;
            }
        }
        Ok(ahead.rest.is_empty())
    }

    /// The next record. Comments, and blank lines at the end, are none.
    fn record(&mut self) -> Result<Option<Record>, Wrong> {
        if self.comments {
            self.skip_comments()?;
        }
        if self.is_at_end()? {
            return Ok(None);
        }
        if self.rest.starts_with('#') {
            return Err((self.line, LATE_COMMENT.to_string()));
        }
        let line = self.line;
        let cells = if self.is_blank_line() { Vec::new() } else { self.cells()? };
        // What is left of the line is its end, or blank.
        self.skip_line();
        Ok(Some(Record { line, cells }))
    }

    fn cells(&mut self) -> Result<Vec<String>, Wrong> {
        let mut cells = vec![self.cell()?];
        while self.separator.is_some_and(|separator| self.rest.starts_with(separator)) {
            self.rest = &self.rest[1..];
            cells.push(self.cell()?);
        }
        Ok(cells)
    }

    /// A cell; what is left begins with the separator, a line break or the end.
    fn cell(&mut self) -> Result<String, Wrong> {
        if let Some(inner) = self.rest.strip_prefix('"') {
            self.rest = inner;
            let cell = self.rest_of_quoted()?;
            let after = self.rest.strip_prefix('\r').unwrap_or(self.rest);
            let next = self.rest.chars().next();
            let ends = after.is_empty() || after.starts_with('\n') || next == self.separator;
            return match next {
                _ if ends => Ok(cell),
                Some('\r' | '\u{2028}' | '\u{2029}') => Err((self.line, decode::LINE_ENDS.to_string())),
                _ if self.is_blank_up_to_the_end() => Err((self.line, BLANKS.to_string())),
                _ => Err(self.misplaced("with text after it")),
            };
        }
        let end = self.rest.find(|c| c == '\n' || Some(c) == self.separator).unwrap_or(self.rest.len());
        let (cell, rest) = self.rest.split_at(end);
        self.check_line_end(cell)?;
        if cell.trim_start().starts_with('"') {
            return Err((self.line, BLANKS.to_string()));
        }
        if cell.contains('"') {
            return Err(self.misplaced("which does not begin with one"));
        }
        self.rest = rest;
        Ok(cell.trim().to_string())
    }

    /// Whether nothing but blanks stands before the next separator or line end.
    fn is_blank_up_to_the_end(&self) -> bool {
        let after = self.rest.trim_start_matches([' ', '\t']);
        after.is_empty() || after.starts_with(['\r', '\n']) || after.chars().next() == self.separator
    }

    fn misplaced(&self, how: &str) -> Wrong {
        let advice = "put the whole cell in quotation marks and double the marks inside";
        let separators = if self.separator.is_none() { NO_SEPARATOR } else { "" };
        (self.line, format!("a quotation mark inside a cell, {how}: {advice}{separators}"))
    }

    /// The content of a cell whose first quotation mark is taken. Two marks stand for one; a single one ends the cell.
    fn rest_of_quoted(&mut self) -> Result<String, Wrong> {
        let opened = self.line;
        let mut cell = String::new();
        loop {
            let not_closed = || (opened, "a quotation mark \" is opened but not closed".to_string());
            let (part, rest) = self.rest.split_once('"').ok_or_else(not_closed)?;
            self.line += part.matches('\n').count();
            cell += part;
            match rest.strip_prefix('"') {
                Some(rest) => {
                    cell.push('"');
                    self.rest = rest;
                }
                None => {
                    self.rest = rest;
                    return Ok(cell);
                }
            }
        }
    }
}

#[cfg(test)]
mod tests {
    use super::*;

    #[test]
    fn columns() {
        let name = |name: &str| Ok(Column::Name(name.to_string()));
        let wrong = |word: &str| Err(format!("expected a column's name, or its number counted from 1, found '{word}'"));
        for (word, in_text, in_quotes, as_option) in [
            ("2", Ok(Column::Number(2)), name("2"), Ok(Column::Number(2))),
            ("0", wrong("0"), name("0"), wrong("0")),
            ("-1", name("-1"), name("-1"), name("-1")),
            ("a b", name("a b"), name("a b"), name("a b")),
            ("", name(""), name(""), name("")),
            ("\"2024\"", name("\"2024\""), name("\"2024\""), name("2024")),
            ("\"a\"b\"", name("\"a\"b\""), name("\"a\"b\""), name("a\"b")),
            ("\"", name("\""), name("\""), name("\"")),
        ] {
            let found = (Column::of(word, false), Column::of(word, true), Column::of_option(word));
            assert_eq!(found, (in_text, in_quotes, as_option), "{word}");
        }
    }
}
