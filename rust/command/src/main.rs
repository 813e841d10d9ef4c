//! The program `yeldaski`: plan texts, plan files, answer files and pictures. Every answer comes from the proved library.
#![forbid(unsafe_code)]

mod answer;
mod cause;
mod check;
mod colours;
mod commands;
mod cost_picture;
mod costs;
mod csv;
mod decimal;
mod decode;
mod difference;
mod entries;
mod export;
mod failure;
mod find;
mod frame;
mod given;
mod help;
mod label;
mod locate;
mod make;
mod outline;
mod picture;
mod plan;
mod plot;
mod progress;
mod records;
mod rules;
mod run;
mod scale;
mod show;
mod streams;
mod stretches;
mod svg;
mod table;
mod table_picture;
mod text;
mod verify;
mod windows;

use commands::COMMON;
use failure::{quoted, usage, Failure};
use shared::options::parse;
use std::process::ExitCode;

const VERSION: &str = concat!("yeldaski ", env!("CARGO_PKG_VERSION"), "\n");

fn main() -> ExitCode {
    let words = std::env::args_os()
        .skip(1)
        .map(|word| word.into_string())
        .collect::<Result<Vec<String>, _>>();
    let result = match words {
        Ok(words) => act(words),
        Err(word) => Err(usage(format!("the argument {} is not in UTF-8", quoted(&word.to_string_lossy())))),
    };
    match result {
        Ok(status) => ExitCode::from(status),
        Err(failure) => {
            streams::say(&failure.message);
            ExitCode::from(failure.status)
        }
    }
}

fn act(words: Vec<String>) -> Result<u8, Failure> {
    let mut words = words.into_iter();
    let Some(first) = words.next() else {
        return Err(usage(format!("a command is missing\n\n{}", help::program().trim_end())));
    };
    if first.starts_with('-') {
        let hint = |why: String| usage(format!("{why}\nTry 'yeldaski help'."));
        let args = parse([first].into_iter().chain(words), &COMMON.each_ref(), 0).map_err(hint)?;
        return match (args.flag("help"), args.flag("version")) {
            (true, _) => print(help::program()),
            (_, true) => print(VERSION.to_string()),
            _ => Err(hint("a command is missing".to_string())),
        };
    }
    let command = commands::named(&first)?;
    let name = command.name;
    let args = parse(words, &command.all_options(), command.files).map_err(|why| usage(format!("{name}: {why}\nTry 'yeldaski help {name}'.")))?;
    match (args.flag("help"), args.flag("version")) {
        (true, _) => print(help::of(command)),
        (_, true) => print(VERSION.to_string()),
        _ => (command.act)(&args),
    }
}

fn print(text: String) -> Result<u8, Failure> {
    streams::write(None, text.as_bytes())?;
    Ok(0)
}
