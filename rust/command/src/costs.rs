//! What the calls have in common that answer a plan and a record with costs, `windows` and `table`: from the words to what is written.
use crate::export::{json_number, json_one_record, json_text};
use crate::failure::{numbered, quoted, refused, usage, Failure};
use crate::given::Given;
use crate::outline::in_line;
use crate::picture::Look;
use crate::streams::{say, write};
use shared::options::Args;
use yeldaski::Refusal;

/// The costs of a record in every format.
pub trait Formats: Sized {
    fn table(&self) -> String;
    fn csv(&self) -> String;
    /// What only these costs have in JSON; a record without costs has the same names.
    fn members(found: Option<&Self>) -> Vec<(&'static str, String)>;
    fn picture(&self, look: &Look) -> String;
}

/// Costs, and what is to be said about them.
pub struct Answered<C> {
    pub costs: C,
    pub notes: Vec<String>,
}

/// Why a record has no costs: with the number of a refusal, or because it cannot be read.
pub struct Unanswered {
    refusal: Option<u8>,
    sentence: String,
    failure: Failure,
}

impl Unanswered {
    /// A refusal of what stands at a place, with its cause.
    pub fn refused(place: &str, sentence: String, refusal: Refusal) -> Unanswered {
        Unanswered {
            refusal: Some(refusal.0),
            failure: refused(format!("{place}: {}", numbered(&sentence, refusal))),
            sentence,
        }
    }
}

impl From<Failure> for Unanswered {
    fn from(failure: Failure) -> Unanswered {
        Unanswered {
            refusal: None,
            sentence: failure.reason().to_string(),
            failure,
        }
    }
}

/// The value of an option of a command as a whole number; none without the option. The range is for the message: every whole number is handed on to the
/// proved library, which judges it.
pub fn whole_number(args: &Args, command: &str, option: &str, [least, most]: [usize; 2]) -> Result<Option<usize>, Failure> {
    let number = |value: &str| {
        value.parse().map_err(|_| {
            let found = quoted(value);
            usage(format!(
                "{command}: --{option}: expected a whole number from {least} to {most}, found {found}"
            ))
        })
    };
    args.option(option).map(number).transpose()
}

/// Reads the record, has it answered and writes the answer. `asked` is what was asked for, as JSON says it: by name, and for how many readings, which a
/// record that cannot be read does not tell.
pub fn act<C: Formats>(
    args: &Args,
    given: &Given,
    asked: impl Fn(Option<usize>) -> (&'static str, Option<usize>),
    answer: impl FnOnce(Vec<i16>) -> Result<Answered<C>, Unanswered>,
) -> Result<u8, Failure> {
    let (output, format) = (args.option("output"), args.option("format"));
    let (look, picture, layout) = (given.look(args)?, given.picture(args)?, given.layout(args)?);
    given.check_outputs(picture.as_deref(), output)?;
    let readings = given.readings(&layout);
    let count = readings.as_ref().ok().map(Vec::len);
    let outcome = readings.map_err(Unanswered::from).and_then(answer);
    let (name, number) = asked(count);
    let front = [
        ("record", json_text(given.record_name())),
        ("readings", json_number(count)),
        (name, json_number(number)),
    ];
    let Answered { costs, notes } = match outcome {
        Ok(answered) => answered,
        Err(unanswered) => {
            if format == Some("json") {
                write(output, json::<C>(front, Err(&unanswered)).as_bytes())?;
            }
            return Err(unanswered.failure);
        }
    };
    let shown = match format {
        Some("csv") => costs.csv(),
        Some("json") => json(front, Ok(&costs)),
        _ => costs.table(),
    };
    // The costs come before the picture: they took long, and a picture can fail.
    write(output, shown.as_bytes())?;
    if let Some(path) = &picture {
        write(Some(path), costs.picture(&look).as_bytes())?;
    }
    notes.iter().for_each(|note| say(&format!("{}: {note}", in_line(given.record_name()))));
    Ok(0)
}

/// An object with the list `records`, as `find` writes one, with this record alone.
fn json<C: Formats>(front: [(&'static str, String); 3], outcome: Result<&C, &Unanswered>) -> String {
    let why = outcome.err();
    let refused = [
        ("refusal", json_number(why.and_then(|why| why.refusal))),
        ("sentence", why.map_or("null".to_string(), |why| json_text(&why.sentence))),
    ];
    let members: Vec<(&str, String)> = front.into_iter().chain(refused).chain(C::members(outcome.ok())).collect();
    json_one_record(&members)
}
