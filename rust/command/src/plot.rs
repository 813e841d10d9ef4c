//! `plot`: a plan file and its answer as a picture.
use crate::answer::{self, Answer, Run};
use crate::cause;
use crate::failure::{numbered, refused, Failure};
use crate::locate::{wrong_file, Kind};
use crate::outline::{Named, Outline};
use crate::picture::{picture, Look};
use crate::plan::Plan;
use crate::streams::{check_once, read_binary, write, Input};
use crate::verify::confirm;
use shared::options::Args;
use yeldaski::Refusal;

pub fn act(args: &Args) -> Result<u8, Failure> {
    let mut paths = vec![args.file()];
    paths.extend([args.option("answer"), args.option("text")].into_iter().filter(Option::is_some));
    check_once(&paths)?;
    let named = args.option("text").map(Named::read).transpose()?;
    let look = Look {
        scale: named.as_ref().and_then(|named| named.text.units.scale),
        ..Look::of(args)?
    };
    let input = read_binary(args.file())?;
    let plan = Plan::read(&input.bytes).map_err(|refusal| wrong_file(&input, Kind::Plan, refusal))?;
    let outline = Outline::of_plan(&input.name, &plan, named.as_ref()).map_err(refused)?;
    let (cost, runs) = cost_and_runs(&input, args.option("answer"), &outline)?;
    let picture = picture(&plan, &outline, cost, &runs, &look);
    write(args.option("output"), picture.as_bytes())?;
    Ok(0)
}

/// What to draw: the content of the answer file, which has to be the plan's, or what a search finds.
fn cost_and_runs(plan: &Input, answer_path: Option<&str>, outline: &Outline) -> Result<(u64, Vec<Run>), Failure> {
    let not_drawn = |refusal: Refusal| {
        let why = numbered(&cause::words(&plan.bytes, refusal), refusal);
        refused(format!("{}: nothing to draw: {why}", plan.name))
    };
    let Some(path) = answer_path else {
        return answer::search(&plan.bytes).map_err(not_drawn);
    };
    match confirm(plan, &read_binary(Some(path))?, outline)?.answer {
        Answer::Runs { cost, runs } => Ok((cost, runs)),
        Answer::Refused(refusal) => Err(not_drawn(refusal)),
    }
}
