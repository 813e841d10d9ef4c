//! `show`: an answer as a table, CSV or JSON.
use crate::answer::Answer;
use crate::export::{csv_header, csv_rows, json_object, table, Item};
use crate::failure::{refused, Failure, REFUSED};
use crate::outline::{Named, Outline};
use crate::plan::Plan;
use crate::rules;
use crate::streams::{check_once, read_binary, say, write, Input};
use crate::verify::{confirm, read_answer};
use shared::options::Args;

pub fn act(args: &Args) -> Result<u8, Failure> {
    let given = [args.option("plan"), args.option("text")];
    let paths: Vec<Option<&str>> = [args.file()].into_iter().chain(given.into_iter().filter(Option::is_some)).collect();
    check_once(&paths)?;
    let named = args.option("text").map(Named::read).transpose()?;
    let plan = args.option("plan").map(|path| read_binary(Some(path))).transpose()?;
    let input = read_binary(args.file())?;
    let (item, outline) = match (&plan, &named) {
        (Some(plan), named) => by_plan(plan, named.as_ref(), &input)?,
        (None, Some(named)) => by_text(named, &input)?,
        (None, None) => (item(read_answer(&input)?), Outline::default()),
    };
    let shown = match args.option("format") {
        Some("csv") => csv_header(false) + &csv_rows(&item, &outline, false),
        Some("json") => json_object(&item, &outline, 0) + "\n",
        _ => table(&item, &outline),
    };
    write(args.option("output"), shown.as_bytes())?;
    Ok(match item.answer {
        Answer::Runs { .. } => 0,
        Answer::Refused(_) => REFUSED,
    })
}

fn item(answer: Answer) -> Item {
    Item {
        record: None,
        answer,
        cause: None,
    }
}

fn by_plan(plan: &Input, named: Option<&Named>, input: &Input) -> Result<(Item, Outline), Failure> {
    // A plan file that cannot be read may still have its answer file, which holds the refusal.
    let outline = match Plan::read(&plan.bytes) {
        Ok(read) => Outline::of_plan(&plan.name, &read, named).map_err(refused)?,
        Err(_) => Outline::default(),
    };
    Ok((confirm(plan, input, &outline)?, outline))
}

/// The text makes the plan file that the answer is judged by. Without its readings there is nothing to search, so only the rules are judged.
fn by_text(named: &Named, input: &Input) -> Result<(Item, Outline), Failure> {
    let (outline, name) = (Outline::of_text(&named.text), &named.text.name);
    let why = match &named.file {
        Ok(file) => {
            let plan = Input {
                name: name.clone(),
                bytes: file.clone(),
            };
            let confirmed = confirm(&plan, input, &outline).map_err(|failure| Failure {
                message: format!(
                    "{}\nFor the answer of another record than the text names, give its plan file with --plan.",
                    failure.message
                ),
                ..failure
            });
            return Ok((confirmed?, outline));
        }
        Err(why) => why,
    };
    let answer = read_answer(input)?;
    let checked = match &answer {
        Answer::Refused(_) => "the refusal was".to_string(),
        Answer::Runs { runs, .. } => {
            if let Some(rule) = rules::broken(&named.plan, &outline, runs) {
                return Err(refused(format!("{}: not an answer of {name}: {rule}", input.name)));
            }
            format!("states, edges, gaps and labels agree with {name}; the cost and that nothing is cheaper were")
        }
    };
    say(&format!(
        "{}: {checked} not checked, since {why}: give the plan file with --plan",
        input.name
    ));
    Ok((item(answer), outline))
}
