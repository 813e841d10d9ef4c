//! `run`: plan file in, answer file out.
use crate::answer::{self, Answer};
use crate::cause;
use crate::failure::{numbered, refused, Failure};
use crate::locate::{wrong_file, Kind};
use crate::streams::{read_binary, write_binary};
use shared::options::Args;

pub fn act(args: &Args) -> Result<u8, Failure> {
    let input = read_binary(args.file())?;
    let file = answer::segment(&input.bytes).map_err(|refusal| wrong_file(&input, Kind::Plan, refusal))?;
    write_binary(args.option("output"), &file)?;
    let because = |refusal| refused(format!("{}: {}", input.name, numbered(&cause::words(&input.bytes, refusal), refusal)));
    match (answer::read(&file), Kind::Plan.refusal(&input.bytes)) {
        (Ok(Answer::Runs { .. }), _) => Ok(0),
        (Ok(Answer::Refused(refusal)), Some(_)) => Err(wrong_file(&input, Kind::Plan, refusal)),
        (Ok(Answer::Refused(refusal)), None) | (Err(refusal), _) => Err(because(refusal)),
    }
}
