//! A plan and a record, as `windows` and `table` take them: a plan text or a plan file, and a record in the place of the plan's own readings.
use crate::csv::Layout;
use crate::failure::{quoted, refused, usage, Failure};
use crate::locate::{wrong_file, Kind};
use crate::make;
use crate::picture::Look;
use crate::plan::{with_labels, Plan};
use crate::records;
use crate::streams::{check_once, check_output, check_writable, read_text, remember, same_place, Input};
use crate::text::{self, Text};
use shared::options::Args;

pub struct Given<'a> {
    words: Words<'a>,
    /// The name of the plan.
    pub name: String,
    /// None for a plan file.
    pub text: Option<Text>,
    /// The bytes of a plan file. Its readings are not looked at.
    pub file: Vec<u8>,
    pub plan: Plan,
}

/// What a command is given by its words.
pub struct Words<'a> {
    /// The command itself, and how it is called with a record, for messages.
    command: &'static str,
    form: &'static str,
    plan: &'a str,
    /// Without one the readings of the plan are taken.
    record: Option<&'a str>,
}

impl<'a> Words<'a> {
    pub fn of(args: &'a Args, command: &'static str, form: &'static str) -> Result<Words<'a>, Failure> {
        let [plan, record @ ..] = args.files() else {
            return Err(usage(format!("{command}: a plan is missing\nTry 'yeldaski help {command}'.")));
        };
        Ok(Words {
            command,
            form,
            plan,
            record: record.first().map(String::as_str),
        })
    }
}

impl<'a> Given<'a> {
    /// Reads the plan. A plan file begins with byte 01, which no text does.
    pub fn read(args: &Args, words: Words<'a>) -> Result<Given<'a>, Failure> {
        records::check_options(args, words.record.is_some())?;
        let inputs: Vec<Option<&str>> = [words.plan].into_iter().chain(words.record).map(Some).collect();
        check_once(&inputs)?;
        let input = read_text(Some(words.plan))?;
        match input.bytes.first() {
            Some(1) => Given::of_file(args, words, input),
            _ => Given::of_text(args, words, text::parse(&input)?),
        }
    }

    fn of_text(args: &Args, words: Words<'a>, mut text: Text) -> Result<Given<'a>, Failure> {
        if args.flag("no-labels") {
            text.labels.clear();
        }
        make::files(&text, Some(words.plan)).iter().for_each(|path| remember(path));
        // One reading stands in for the record, so that the reader judges the rest of the plan.
        let file = make::bytes(&text, &[0]);
        let plan = Plan::read(&file).map_err(|refusal| make::at_line(&text, 1, &file, refusal))?;
        Ok(Given {
            words,
            name: text.name.clone(),
            text: Some(text),
            file,
            plan,
        })
    }

    fn of_file(args: &Args, words: Words<'a>, input: Input) -> Result<Given<'a>, Failure> {
        let mut plan = Plan::read(&input.bytes).map_err(|refusal| wrong_file(&input, Kind::Plan, refusal))?;
        let mut file = input.bytes;
        if args.flag("no-labels") {
            file = with_labels(&file, |_| false);
            plan.labels.clear();
        }
        Ok(Given {
            words,
            name: input.name,
            text: None,
            file,
            plan,
        })
    }

    /// How the record is read. A plan file says nothing of that.
    pub fn layout(&self, args: &Args) -> Result<Layout, Failure> {
        match (&self.text, self.words.record) {
            (Some(text), Some(_)) => records::layout(args, text),
            (Some(text), None) if text.sources.is_empty() => {
                let why = "the text has no line 'readings', and no record is named";
                Err(refused(format!("{}: {why}: yeldaski {}", self.name, self.words.form)))
            }
            _ => records::of_options(args, Layout::default()),
        }
    }

    pub fn look(&self, args: &Args) -> Result<Look, Failure> {
        Ok(Look {
            scale: self.text.as_ref().and_then(|text| text.units.scale),
            ..Look::of(args)?
        })
    }

    /// Where the picture goes; none where there is to be none.
    pub fn picture(&self, args: &Args) -> Result<Option<String>, Failure> {
        let record: Vec<String> = self.words.record.iter().map(|path| path.to_string()).collect();
        Ok(records::pictures(args.option("plot"), &record, &record, self.words.plan)?.paths.remove(0))
    }

    /// No output takes the place of an input, or of the other output. That one cannot be written is said before the search, not after it.
    pub fn check_outputs(&self, picture: Option<&str>, output: Option<&str>) -> Result<(), Failure> {
        self.words.record.iter().for_each(|path| remember(path));
        [picture, output].into_iter().try_for_each(check_output)?;
        match (picture, output) {
            (Some(picture), Some(output)) if same_place(output, picture) => Err(usage(format!(
                "{}: the picture and the costs would both be written to {}",
                self.words.command,
                quoted(picture)
            ))),
            _ => [picture, output].into_iter().try_for_each(check_writable),
        }
    }

    /// The name of the record.
    pub fn record_name(&self) -> &str {
        match self.words.record.unwrap_or(self.words.plan) {
            "-" => "standard input",
            path => path,
        }
    }

    pub fn readings(&self, layout: &Layout) -> Result<Vec<i16>, Failure> {
        match (self.words.record, &self.text) {
            (Some(path), Some(_)) => records::readings(path, layout),
            (Some(path), None) => records::readings(path, layout).map_err(beside_a_plan_file),
            (None, Some(text)) => make::readings(text, Some(self.words.plan)),
            (None, None) => Ok(self.plan.readings.clone()),
        }
    }

    /// Whether labels that were said of other readings are asked of this record.
    pub fn lends_labels(&self) -> bool {
        let has_own = self.text.as_ref().is_none_or(|text| !text.sources.is_empty());
        self.words.record.is_some() && has_own && !self.plan.labels.is_empty()
    }

    /// The plan file with these readings, where a plan file can hold them.
    pub fn file_with(&self, readings: &[i16]) -> Vec<u8> {
        let mut file = vec![0; self.file.len() + 2 * readings.len()];
        let length = yeldaski::write_plan(&self.file, readings, &mut file).unwrap_or(0);
        file.truncate(length);
        file
    }

    /// A warning where most readings lie outside the grid.
    pub fn far_off(&self, readings: Vec<i16>) -> Option<String> {
        let plan = Plan {
            readings,
            ..self.plan.clone()
        };
        plan.far_off()
    }
}

/// What is wrong in a record, where advice to add lines to the plan text helps only whoever has one.
fn beside_a_plan_file(failure: Failure) -> Failure {
    if !failure.message.contains("the plan text") {
        return failure;
    }
    let hint = "a plan file has no such lines; for them name the plan text in its place";
    Failure {
        message: format!("{}; {hint}", failure.message),
        ..failure
    }
}
