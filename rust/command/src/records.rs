//! Records: which files they are, how they are read, and where their pictures go.
use crate::csv::{self, Column, Header, Layout};
use crate::failure::{quoted, refused, usage, Failure};
use crate::locate::{wrong_file, Kind};
use crate::outline::in_line;
use crate::plan::Plan;
use crate::streams::{is_out, read_text, say, Input};
use crate::text::Text;
use shared::options::Args;
use std::collections::HashMap;
use std::fs;
use std::path::{Path, PathBuf};

/// The endings of records in a folder; a file that is named itself may have any.
const ENDINGS: [&str; 5] = ["csv", "tsv", "txt", "dat", "plan"];

/// The records that the words name, in their order. A folder stands for its records by name, without the plan text itself.
pub fn records(words: &[String], text_path: &str) -> Result<Vec<String>, Failure> {
    let mut all = Vec::new();
    for word in words {
        match Path::new(word).is_dir() {
            true => all.extend(in_folder(word, text_path)?),
            false => all.push(word.clone()),
        }
    }
    Ok(all)
}

fn in_folder(folder: &str, text_path: &str) -> Result<Vec<String>, Failure> {
    let failed = |error: std::io::Error| usage(format!("cannot read {}: {error}", quoted(folder)));
    let text = fs::canonicalize(text_path).ok();
    let mut paths = Vec::new();
    for entry in fs::read_dir(folder).map_err(failed)? {
        paths.push(entry.map_err(failed)?.path());
    }
    paths.retain(|path| text.is_none() || fs::canonicalize(path).ok() != text);
    paths.sort();
    // A link to nothing fails later, as any record that cannot be read.
    let (taken, left): (Vec<PathBuf>, Vec<PathBuf>) = paths.into_iter().partition(|path| is_record(path));
    let kinds = format!("a record here is a file that ends in .{}, not hidden", ENDINGS.join(", ."));
    if taken.is_empty() {
        return Err(usage(format!("the folder {} has no record ({kinds})", quoted(folder))));
    }
    if !left.is_empty() {
        let names: Vec<String> = left.iter().take(5).map(|path| quoted(&name(path))).collect();
        let more = if left.len() > names.len() { ", ..." } else { "" };
        say(&format!("{}: left out, since {kinds}: {}{more}", in_line(folder), names.join(", ")));
    }
    Ok(taken.into_iter().map(|path| path.to_string_lossy().into_owned()).collect())
}

fn is_record(path: &Path) -> bool {
    let ending = path.extension().map(|ending| ending.to_string_lossy().to_lowercase());
    !path.is_dir() && !name(path).starts_with('.') && ending.is_some_and(|ending| ENDINGS.contains(&ending.as_str()))
}

fn name(path: &Path) -> String {
    path.file_name().unwrap_or_default().to_string_lossy().into_owned()
}

/// Options that nothing would come of are refused, since their user expects something of them.
pub fn check_options(args: &Args, has_record: bool) -> Result<(), Failure> {
    let given = |names: &[&'static str]| names.iter().copied().find(|name| args.flag(name));
    match (
        given(&["column", "header", "no-header"]),
        given(&["title", "unit", "size"]),
        args.flag("plot"),
    ) {
        (Some(name), _, _) if !has_record => Err(usage(format!(
            "--{name} is about a RECORD, and none is named; the text says how its own readings are read"
        ))),
        (_, Some(name), false) => Err(usage(format!("--{name} is about a picture; add --plot FILE"))),
        _ => Ok(()),
    }
}

/// Labels say what was seen in one record, so that they hold for others is said, and they can be left out.
pub fn choose_labels(args: &Args, text: &mut Text, records: usize) {
    if args.flag("no-labels") {
        text.labels.clear();
    }
    if !text.labels.is_empty() && records > 0 && (records > 1 || !text.sources.is_empty()) {
        say_labels(&text.name, text.labels.len(), "every record");
    }
}

/// Says that the labels of a plan hold here.
pub fn say_labels(plan: &str, count: usize, what: &str) {
    say(&format!("{plan}: its labels ({count}) hold for {what} here; --no-labels leaves them out"));
}

/// How a record is read: as the options say, and where they are silent, as the text reads its own.
pub fn layout(args: &Args, text: &Text) -> Result<Layout, Failure> {
    match (text.layout(), args.flag("column")) {
        (Some(layout), _) => of_options(args, layout),
        (None, true) => {
            let units = text.units;
            of_options(args, Layout { units, ..Layout::default() })
        }
        (None, false) => Err(usage(format!(
            "{} reads its files in different ways; say --column for the records",
            text.name
        ))),
    }
}

/// How a record is read: as the options say, and where they are silent, as a layout that was said of other files. A plan file says none.
pub fn of_options(args: &Args, mut layout: Layout) -> Result<Layout, Failure> {
    let column = args.option("column").map(Column::of_option).transpose();
    let column = column.map_err(|why| usage(format!("--column: {why}")))?;
    let by_name = |layout: &Layout| matches!(layout.column, Some(Column::Name(_)));
    // The text speaks of its own files, so of this record it is only assumed.
    let inherited = match layout.header {
        Header::Yes => Header::Assumed,
        _ if by_name(&layout) => Header::Assumed,
        header => header,
    };
    layout.column = column.or(layout.column);
    layout.header = match (args.flag("header"), args.flag("no-header")) {
        (true, true) => return Err(usage("--header and --no-header exclude each other")),
        (_, true) if by_name(&layout) => return Err(usage("a column by name needs a header; choose it by number with --no-header")),
        (_, true) => Header::No,
        (true, _) => Header::Yes,
        _ if by_name(&layout) => Header::Yes,
        _ => inherited,
    };
    Ok(layout)
}

pub fn readings(path: &str, layout: &Layout) -> Result<Vec<i16>, Failure> {
    of_input(&read_text(Some(path))?, layout)
}

/// The readings of a record: of a text, or of a plan file, where they are whole numbers of a grid already.
pub fn of_input(input: &Input, layout: &Layout) -> Result<Vec<i16>, Failure> {
    match input.bytes.first() {
        Some(1) => Plan::read(&input.bytes)
            .map(|plan| plan.readings)
            .map_err(|refusal| wrong_file(input, Kind::Plan, refusal)),
        Some(0x81..=0x83) => Err(refused(format!("{}: it looks like an answer file, which holds no readings", input.name))),
        _ => csv::readings(input, layout),
    }
}

/// Where the pictures of the records go.
pub struct Pictures {
    /// One for each record, or one for the text's own readings; none where nothing is to be drawn.
    pub paths: Vec<Option<String>>,
    /// Their folder, where the wish was one; it need not be there yet.
    pub folder: Option<String>,
}

/// A picture goes to the file that is named, or to a file for each record in the folder that is named: with several records, with a folder of
/// records, and where that folder is there already.
pub fn pictures(wish: Option<&str>, words: &[String], records: &[String], text_path: &str) -> Result<Pictures, Failure> {
    let count = records.len().max(1);
    let several = records.len() > 1 || words.iter().any(|word| Path::new(word).is_dir());
    let (paths, folder) = match wish {
        None => (vec![None; count], None),
        Some(wish) if is_out(wish) => {
            return Err(usage(
                "--plot has to name a file or a folder: a picture is not written to standard output",
            ));
        }
        Some(wish) if several && Path::new(wish).is_file() => {
            return Err(usage(format!("{} is a file; with several records --plot names a folder", quoted(wish))));
        }
        Some(wish) if several => (in_one_folder(wish, records)?, Some(wish.to_string())),
        Some(wish) if Path::new(wish).is_dir() => {
            let alone = records.first().map_or(text_path, String::as_str).to_string();
            (in_one_folder(wish, &[alone])?, None)
        }
        Some(wish) => (vec![Some(wish.to_string())], None),
    };
    Ok(Pictures { paths, folder })
}

fn in_one_folder(folder: &str, records: &[String]) -> Result<Vec<Option<String>>, Failure> {
    let mut taken: HashMap<String, &str> = HashMap::new();
    let mut all = Vec::new();
    for record in records {
        let stem = Path::new(record).file_stem().unwrap_or_default().to_string_lossy().into_owned();
        let picture = Path::new(folder).join(stem + ".svg").to_string_lossy().into_owned();
        if let Some(other) = taken.insert(picture.clone(), record) {
            let [other, record, picture] = [other, record, &picture].map(quoted);
            return Err(usage(format!(
                "{other} and {record} would both be drawn to {picture}; search them in two calls, with two folders"
            )));
        }
        all.push(Some(picture));
    }
    Ok(all)
}
