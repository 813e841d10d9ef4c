//! `find`: from records to answers in one step. Each record is searched with the plan of the text, so its answer cannot meet the names of another plan.
use crate::answer::{self, Answer, Run};
use crate::cause;
use crate::csv::Layout;
use crate::export::{self, Item};
use crate::failure::{numbered, quoted, refused, usage, Failure, REFUSED};
use crate::locate::Kind;
use crate::make;
use crate::outline::{in_line, Outline};
use crate::picture::{picture, Look};
use crate::plan::Plan;
use crate::progress::Progress;
use crate::records::{self, pictures, records, Pictures};
use crate::streams::{check_once, check_output, read_text, remember, same_place, say, write, write_binary};
use crate::text::{self, Text};
use shared::options::Args;
use std::collections::BTreeMap;
use std::fs;
use std::sync::atomic::{AtomicUsize, Ordering};
use std::sync::Mutex;
use yeldaski::Refusal;

/// What every record of a call is searched with.
struct Task<'a> {
    text: &'a Text,
    text_path: &'a str,
    /// How the records are read.
    layout: Layout,
    outline: Outline,
    look: Look,
    /// Without records the text's own readings are searched.
    records: Vec<String>,
    pictures: Pictures,
}

/// What came of a record that could be read: its answer file, and what that says.
struct Answered {
    file: Vec<u8>,
    item: Item,
    warning: Option<String>,
}

type Outcome = Result<Answered, Failure>;

pub fn act(args: &Args) -> Result<u8, Failure> {
    let Some((text_path, words)) = args.files().split_first() else {
        return Err(usage("find: a plan text is missing\nTry 'yeldaski help find'."));
    };
    let jobs = args.number("jobs", 1, 256, 1).map_err(|why| usage(format!("find: {why}")))?;
    records::check_options(args, !words.is_empty())?;
    let records = records(words, text_path)?;
    let inputs: Vec<Option<&str>> = [text_path].into_iter().chain(&records).map(|path| Some(path.as_str())).collect();
    check_once(&inputs)?;
    let mut text = text::parse(&read_text(Some(text_path))?)?;
    records::choose_labels(args, &mut text, records.len());
    let task = Task {
        text: &text,
        text_path,
        layout: match records.is_empty() {
            true => Layout::default(),
            false => records::layout(args, &text)?,
        },
        outline: Outline::of_text(&text),
        look: Look {
            scale: text.units.scale,
            ..Look::of(args)?
        },
        pictures: pictures(args.option("plot"), words, &records, text_path)?,
        records,
    };
    task.check(args)?;
    task.make_folder()?;
    let mut outcomes = task.search_all(jobs as usize);
    match outcomes.len() {
        1 => task.report_one(args, outcomes.remove(0)),
        _ => task.report_all(args, outcomes),
    }
}

impl Task<'_> {
    /// What can be refused before the first search.
    fn check(&self, args: &Args) -> Result<(), Failure> {
        if args.option("format") == Some("answer") && self.records.len() > 1 {
            return Err(usage("find: --format answer writes one answer file, so it takes one record"));
        }
        if self.records.is_empty() && self.text.sources.is_empty() {
            let why = "the text has no line 'readings', and no record is named: yeldaski find PLAN.txt RECORD";
            return Err(refused(format!("{}: {why}", self.text.name)));
        }
        // A plan that is wrong with every record is told once, at its line.
        let file = make::bytes(self.text, &[0]);
        if let Some(refusal) = Kind::Plan.refusal(&file) {
            return Err(make::at_line(self.text, 1, &file, refusal));
        }
        self.check_outputs(args.option("output"))
    }

    /// No output takes the place of a record, of a file that the text names, or of another output.
    fn check_outputs(&self, output: Option<&str>) -> Result<(), Failure> {
        self.records.iter().for_each(|path| remember(path));
        make::files(self.text, Some(self.text_path)).iter().for_each(|path| remember(path));
        let drawn: Vec<&str> = self.pictures.paths.iter().flatten().map(String::as_str).collect();
        drawn.iter().map(|path| Some(*path)).chain([output]).try_for_each(check_output)?;
        match drawn.iter().find(|path| output.is_some_and(|output| same_place(output, path))) {
            Some(path) => Err(usage(format!(
                "find: the picture and the answer would both be written to {}",
                quoted(path)
            ))),
            None => Ok(()),
        }
    }

    fn make_folder(&self) -> Result<(), Failure> {
        let Some(folder) = &self.pictures.folder else {
            return Ok(());
        };
        fs::create_dir_all(folder).map_err(|error| usage(format!("cannot make the folder {}: {error}", quoted(folder))))
    }

    /// The outcomes in the order of the records, whichever is ready first.
    fn search_all(&self, jobs: usize) -> Vec<Outcome> {
        let count = self.pictures.paths.len();
        let progress = Progress::new(count);
        let next = AtomicUsize::new(0);
        let done = Mutex::new(Vec::new());
        let work = || loop {
            let index = next.fetch_add(1, Ordering::Relaxed);
            if index >= count {
                return;
            }
            let outcome = self.search(index);
            progress.step(outcome.as_ref().is_ok_and(Answered::has_runs));
            done.lock().expect("no thread panics").push((index, outcome));
        };
        std::thread::scope(|scope| {
            for _ in 1..jobs.min(count) {
                scope.spawn(work);
            }
            work();
        });
        progress.end();
        let mut done = done.into_inner().expect("no thread panics");
        done.sort_by_key(|(index, _)| *index);
        done.into_iter().map(|(_, outcome)| outcome).collect()
    }

    /// The same bytes as `make` and `run` give, from one call of the proved library.
    fn search(&self, index: usize) -> Outcome {
        let name = self.name(index);
        let readings = self.readings(index)?;
        let plan_file = make::bytes(self.text, &readings);
        let unread = |refusal| refused(format!("{name}: {}", numbered("its answer cannot be read", refusal)));
        let file = answer::segment(&plan_file).map_err(unread)?;
        let answer = answer::read(&file).map_err(unread)?;
        let mut warning = None;
        let cause = match &answer {
            Answer::Runs { cost, runs } => {
                let plan = self.text.plan(readings);
                warning = plan.far_off().map(|warning| format!("{}: {warning}", in_line(name)));
                self.draw(index, &plan, *cost, runs)?;
                None
            }
            // The plan file has no room for a very long record, so the readings are counted here.
            Answer::Refused(Refusal(9)) => Some(cause::of_record(readings.len())),
            Answer::Refused(refusal) => make::search_cause(Some(self.text), &plan_file, *refusal),
        };
        let record = Some(name.to_string());
        Ok(Answered {
            file,
            item: Item { record, answer, cause },
            warning,
        })
    }

    fn name(&self, index: usize) -> &str {
        match self.records.get(index).map_or(self.text_path, String::as_str) {
            "-" => "standard input",
            path => path,
        }
    }

    fn readings(&self, index: usize) -> Result<Vec<i16>, Failure> {
        match self.records.get(index) {
            Some(path) => records::readings(path, &self.layout),
            None => make::readings(self.text, Some(self.text_path)),
        }
    }

    fn draw(&self, index: usize, plan: &Plan, cost: u64, runs: &[Run]) -> Result<(), Failure> {
        let Some(path) = &self.pictures.paths[index] else {
            return Ok(());
        };
        let drawn = picture(plan, &self.outline, cost, runs, &self.look);
        write(Some(path), drawn.as_bytes())
    }

    /// A failure or refusal of the one record is that of the call.
    fn report_one(&self, args: &Args, outcome: Outcome) -> Result<u8, Failure> {
        let output = args.option("output");
        if let Some("csv" | "json") = args.option("format") {
            let item = outcome.as_ref().map(|answered| &answered.item);
            write(output, self.shown(args, &[item]).as_bytes())?;
        }
        let Answered { file, item, warning } = outcome?;
        match (args.option("format"), &item.answer) {
            (Some("answer"), _) => write_binary(output, &file)?,
            (None | Some("table"), Answer::Runs { .. }) => write(output, export::table(&item, &self.outline).as_bytes())?,
            _ => {}
        }
        warning.iter().for_each(|warning| say(warning));
        match item.answer {
            Answer::Runs { .. } => Ok(0),
            Answer::Refused(refusal) => Err(refused(format!("{}: {}", in_line(self.name(0)), numbered(item.sentence(), refusal)))),
        }
    }

    /// One record's refusal does not stop the others; the status is that of the worst.
    fn report_all(&self, args: &Args, outcomes: Vec<Outcome>) -> Result<u8, Failure> {
        let status = |outcome: &Outcome| match outcome {
            Ok(answered) if answered.has_runs() => 0,
            Ok(_) => REFUSED,
            Err(failure) => failure.status,
        };
        let items: Vec<Result<&Item, &Failure>> = outcomes.iter().map(|outcome| outcome.as_ref().map(|answered| &answered.item)).collect();
        write(args.option("output"), self.shown(args, &items).as_bytes())?;
        outcomes.iter().flatten().filter_map(|answered| answered.warning.as_deref()).for_each(say);
        say(&summary(&items));
        Ok(outcomes.iter().map(status).max().unwrap_or(0))
    }

    fn shown(&self, args: &Args, items: &[Result<&Item, &Failure>]) -> String {
        let outline = &self.outline;
        let named = items.iter().enumerate().map(|(index, item)| (self.name(index), item));
        match args.option("format") {
            Some("csv") => {
                let rows = named.map(|(name, item)| match item {
                    Ok(item) => export::csv_rows(item, outline, true),
                    Err(failure) => export::csv_failed(name, failure.reason()),
                });
                export::csv_header(true) + &rows.collect::<String>()
            }
            Some("json") => {
                let objects = named.map(|(name, item)| match item {
                    Ok(item) => export::json_object(item, outline, 4),
                    Err(failure) => export::json_failed(name, failure.reason(), 4),
                });
                format!("{{\n  \"records\": [\n{}\n  ]\n}}\n", objects.collect::<Vec<String>>().join(",\n"))
            }
            _ => {
                let tables = named.map(|(name, item)| match item {
                    Ok(item) => format!("{}\n{}\n", in_line(name), export::table(item, outline)),
                    Err(failure) => format!("{}\nfailed: {}\n\n", in_line(name), failure.reason()),
                });
                tables.collect()
            }
        }
    }
}

impl Answered {
    fn has_runs(&self) -> bool {
        matches!(self.item.answer, Answer::Runs { .. })
    }
}

/// `12 records: 9 answered, 2 refused (9: 1, 16: 1), 1 failed`
fn summary(items: &[Result<&Item, &Failure>]) -> String {
    let failed = items.iter().filter(|item| item.is_err()).count();
    let mut numbers: BTreeMap<u8, usize> = BTreeMap::new();
    for item in items.iter().flatten() {
        if let Answer::Refused(refusal) = item.answer {
            *numbers.entry(refusal.0).or_default() += 1;
        }
    }
    let refused: usize = numbers.values().sum();
    let list: Vec<String> = numbers.iter().map(|(number, count)| format!("{number}: {count}")).collect();
    let by_number = if refused == 0 {
        String::new()
    } else {
        format!(" ({})", list.join(", "))
    };
    let others = if failed == 0 { String::new() } else { format!(", {failed} failed") };
    let answered = items.len() - failed - refused;
    format!("{} records: {answered} answered, {refused} refused{by_number}{others}", items.len())
}
