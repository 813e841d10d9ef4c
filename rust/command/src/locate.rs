//! Which field of a file a refusal is about.
use crate::answer;
use crate::cause::of_field;
use crate::failure::{numbered, refused, sentence, Failure};
use crate::plan::MAX_READINGS;
use crate::streams::Input;
use shared::fields::{walk, Field};
use yeldaski::Refusal;

#[derive(Debug, Clone, Copy, PartialEq, Eq)]
pub enum Kind {
    Plan,
    Answer,
}

impl Kind {
    /// What a file is meant to be, by its first tag.
    pub fn of(file: &[u8]) -> Kind {
        match file.first() {
            Some(0x81..=0x83) => Kind::Answer,
            _ => Kind::Plan,
        }
    }

    /// The proved reader's refusal of a file.
    pub fn refusal(self, file: &[u8]) -> Option<Refusal> {
        match self {
            Kind::Plan => yeldaski::read_plan(file, &mut [0; MAX_READINGS]).err(),
            Kind::Answer => answer::read(file).err(),
        }
    }
}

/// What a file looks like that is refused where one of `wanted` should be: a file of another sort is the likely cause.
pub fn hint(file: &[u8], wanted: Kind) -> Option<&'static str> {
    let printable = |byte: &u8| matches!(byte, b'\t' | b'\n' | b'\r' | b' '..=b'~');
    match (file, wanted) {
        ([], _) => Some("the file is empty"),
        ([0x81..=0x83, ..], Kind::Plan) => Some("it looks like an answer file, which 'yeldaski show' shows"),
        ([1, 0, 4, ..], Kind::Answer) => Some("it looks like a plan file, whose answer file 'yeldaski run' makes"),
        _ if file.iter().take(64).all(printable) => {
            Some("it looks like a text; 'yeldaski make' makes a plan file from a plan text, and --text takes one as it is")
        }
        _ => None,
    }
}

/// A file of another sort is told as such; otherwise the cause of the refusal comes first.
pub fn wrong_file(input: &Input, wanted: Kind, refusal: Refusal) -> Failure {
    let name = if wanted == Kind::Plan { "plan" } else { "answer" };
    let why = match hint(&input.bytes, wanted) {
        Some(hint) => numbered(hint, refusal),
        None => {
            let cause = of_field(wanted, &input.bytes, refusal).unwrap_or_else(|| sentence(refusal).to_string());
            format!("{}; 'yeldaski check' says where", numbered(&cause, refusal))
        }
    };
    refused(format!("{}: not a good {name} file: {why}", input.name))
}

/// The fields of a refused file, and the one that is refused (counted from 0). At the end of the file, where a field is due, it is one past the last.
pub struct Place {
    pub fields: Vec<Field>,
    pub index: usize,
}

impl Place {
    /// The refused field; none where the file ends and a field is due.
    pub fn field(&self) -> Option<&Field> {
        self.fields.get(self.index)
    }

    /// The fields of a tag before the refused one.
    pub fn earlier(&self, tag: u8) -> impl Iterator<Item = &Field> {
        self.fields[..self.index].iter().filter(move |field| field.tag == tag)
    }
}

/// A cut (1) is always at the end of the file. Any other number is the reader's answer from the refused field on: a file that ends before it is
/// good or cut, one that ends after it has the same number.
pub fn locate(kind: Kind, file: &[u8], refusal: Refusal) -> Place {
    let fields = walk(file);
    let index = match refusal.0 {
        1 => fields.len() - usize::from(fields.last().is_some_and(is_cut)),
        _ => fields.partition_point(|field| kind.refusal(&file[..field.end()]) != Some(refusal)),
    };
    Place { fields, index }
}

pub fn is_cut(field: &Field) -> bool {
    field.length != Some(field.body.len())
}

/// Whether the number can be about the located field: each tag has numbers of its own beside 1, 2 and 3.
pub fn agrees(kind: Kind, place: &Place, refusal: Refusal) -> bool {
    let Some(field) = place.field() else {
        return refusal.0 == 1;
    };
    let own: &[u8] = match (kind, field.tag) {
        (Kind::Plan, 1) => &[4],
        (Kind::Plan, 2) => &[5],
        (Kind::Plan, 3) => &[6, 7, 10],
        (Kind::Plan, 4) => &[8, 10, 12],
        (Kind::Plan, 5) => &[9],
        (Kind::Answer, 0x82 | 0x83) => &[17],
        _ => &[],
    };
    match refusal.0 {
        1 => is_cut(field),
        2 => true,
        3 => field.length.is_some(),
        9 => own.contains(&9),
        number => own.contains(&number) && !is_cut(field),
    }
}
