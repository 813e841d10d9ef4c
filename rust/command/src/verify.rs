//! `verify`: whether an answer file is the answer of a plan file.
use crate::answer::{self, Answer, Run};
use crate::cause;
use crate::check::counted;
use crate::difference;
use crate::export::{summary, Item};
use crate::failure::{refused, usage, Failure};
use crate::locate::{hint, wrong_file, Kind};
use crate::outline::Outline;
use crate::plan::Plan;
use crate::rules;
use crate::streams::{check_once, read_binary, write, Input};
use shared::options::Args;

pub fn act(args: &Args) -> Result<u8, Failure> {
    let [plan, answer] = args.files() else {
        let count = args.files().len();
        return Err(usage(format!(
            "verify: expected two files, PLANFILE and ANSWERFILE, found {count}\nTry 'yeldaski help verify'."
        )));
    };
    check_once(&[Some(plan), Some(answer)])?;
    let (plan, answer) = (read_binary(Some(plan))?, read_binary(Some(answer))?);
    let item = confirm(&plan, &answer, &outline(&plan))?;
    let line = format!("{} is the answer of {}: {}\n", answer.name, plan.name, summary(&item));
    write(None, line.as_bytes())?;
    Ok(0)
}

/// The edges of a plan file, for messages; none where the file is refused.
fn outline(input: &Input) -> Outline {
    let plan = Plan::read(&input.bytes).ok();
    plan.and_then(|plan| Outline::of_plan(&input.name, &plan, None).ok()).unwrap_or_default()
}

pub fn read_answer(input: &Input) -> Result<Answer, Failure> {
    answer::read(&input.bytes).map_err(|refusal| wrong_file(input, Kind::Answer, refusal))
}

/// What an answer file holds, once a new search of its plan file has given the same bytes. Anything else is refused with the first difference.
pub fn confirm(plan: &Input, answer: &Input, outline: &Outline) -> Result<Item, Failure> {
    let given = read_answer(answer)?;
    let not_searched = |refusal| wrong_file(plan, Kind::Plan, refusal);
    let file = answer::segment(&plan.bytes).map_err(not_searched)?;
    let found = answer::read(&file).map_err(not_searched)?;
    let cause = match found {
        Answer::Runs { .. } => None,
        Answer::Refused(refusal) => cause::of_plan_file(&plan.bytes, refusal),
    };
    let found = Item {
        record: None,
        answer: found,
        cause,
    };
    if file == answer.bytes {
        return Ok(found);
    }
    let read = Plan::read(&plan.bytes);
    if let (Err(refusal), Some(_)) = (&read, hint(&plan.bytes, Kind::Plan)) {
        return Err(wrong_file(plan, Kind::Plan, *refusal));
    }
    let what = difference::answers(&given, &found).unwrap_or("the bytes of the two differ".to_string());
    let mut message = format!("{}: not the answer of {}: {what}", answer.name, plan.name);
    if let Some(why) = read.ok().and_then(|read| fault(&read, outline, &given, &found.answer)) {
        message += &format!("\n{}: {why}", answer.name);
    }
    Err(refused(message))
}

/// What is wrong in an answer by itself: a rule that its runs break, or a cost that is not theirs.
fn fault(plan: &Plan, outline: &Outline, given: &Answer, found: &Answer) -> Option<String> {
    let Answer::Runs { cost, runs } = given else {
        return None;
    };
    let true_cost = rules::cost(plan, &plan.readings, runs);
    match (rules::broken(plan, outline, runs), found) {
        (Some(rule), _) => Some(rule),
        (None, _) if true_cost != *cost => Some(format!("its runs cost {true_cost}, not {cost}")),
        (None, Answer::Runs { cost: least, runs: first }) if least == cost => Some(later(plan, runs, first)),
        _ => None,
    }
}

/// Why the runs that the search finds come before others that cost the same.
fn later(plan: &Plan, runs: &[Run], first: &[Run]) -> String {
    let [more, fewest] = [runs, first].map(|runs| rules::changes(plan, runs));
    if more == fewest {
        return "its runs cost the same with as many changes, but others come first in the order among these".to_string();
    }
    let [more, fewest] = [more, fewest].map(|changes| counted(changes, "change"));
    format!("its runs cost the same with {more}, but among equal costs fewer come first, and the search finds {fewest}")
}
