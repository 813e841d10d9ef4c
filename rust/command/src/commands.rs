//! The commands of the program: the one source of parsing, help, man page and shell completion.
use crate::failure::{quoted, usage, Failure};
use crate::{check, find, help, make, plot, run, show, table, verify, windows};
use shared::options::{did_you_mean, Args, Opt, HELP};

pub struct Command {
    pub name: &'static str,
    /// One line, for the list of commands.
    pub about: &'static str,
    /// The words after the command's name.
    pub usage: &'static str,
    /// How many files it takes at most.
    pub files: usize,
    pub options: &'static [Opt],
    /// What its help says after the options.
    pub text: &'static str,
    pub act: fn(&Args) -> Result<u8, Failure>,
}

impl Command {
    /// The options of the command, and those that every command has.
    pub fn all_options(&self) -> Vec<&Opt> {
        self.options.iter().chain(&COMMON).collect()
    }
}

pub fn named(name: &str) -> Result<&'static Command, Failure> {
    let meant = did_you_mean(name, COMMANDS.iter().map(|command| command.name));
    let found = COMMANDS.iter().find(|command| command.name == name);
    found.ok_or_else(|| usage(format!("unknown command {}{meant}\nTry 'yeldaski help'.", quoted(name))))
}

pub const ABOUT: &str = "yeldaski finds the changes in a record of motor current.";
pub const TEXT: &str = include_str!("help/yeldaski.txt");

/// The options of the program itself and of every command.
pub const COMMON: [Opt; 2] = [HELP, Opt::flag("version", "the version").short('V')];

pub const FORMATS: [&str; 3] = ["table", "csv", "json"];

const OUTPUT: Opt = Opt::with("output", "FILE", "where to write (without it, or with -: standard output)").short('o');
const COLUMN: Opt = Opt::with(
    "column",
    "NAME",
    "the column of a record: its name, or its number from 1 on (a name of digits in quotation marks)",
);
const HEADER: Opt = Opt::flag(
    "header",
    "the first line of a record holds names, also where the column is chosen by number",
);
const NO_HEADER: Opt = Opt::flag(
    "no-header",
    "every line of a record is a reading, also where the text says 'header' of its own",
);
const NO_LABELS: Opt = Opt::flag("no-labels", "leave out the labels of the text, which may speak of its own record alone");
const TITLE: Opt = Opt::with("title", "TEXT", "the title of the picture");
const UNIT: Opt = Opt::with("unit", "TEXT", "the unit of the current, for the axis of the picture");
const SQUARED_UNIT: Opt = Opt::with(
    "unit",
    "TEXT",
    "the unit of the current; the axis of the picture names its square, as costs are squares",
);
const SIZE: Opt = Opt::with("size", "WxH", "width and height of the picture, as 800x400");

pub const COMMANDS: [Command; 12] = [
    Command {
        name: "find",
        about: "find the changes of records by a plan text, in one step",
        usage: "find PLAN.txt [RECORD ...] [OPTIONS]",
        files: usize::MAX,
        options: &[
            COLUMN,
            HEADER,
            NO_HEADER,
            NO_LABELS,
            Opt::with(
                "format",
                "FORMAT",
                "table (without the option), csv, json, or answer (the answer file itself, of one record)",
            )
            .among(&["table", "csv", "json", "answer"]),
            Opt::with(
                "plot",
                "FILE",
                "also draw the answer to this SVG file; with several records a folder, where each gets its own",
            ),
            TITLE,
            UNIT,
            SIZE,
            Opt::with("jobs", "N", "search so many records at a time (without it: 1)"),
            OUTPUT,
        ],
        text: include_str!("help/find.txt"),
        act: find::act,
    },
    Command {
        name: "windows",
        about: "give the least cost of every stretch of a long record",
        usage: "windows PLAN [RECORD] --window W [OPTIONS]",
        files: 2,
        options: &[
            Opt::with("window", "W", "how many readings a stretch has, 1 to 1024; has to be given").short('w'),
            COLUMN,
            HEADER,
            NO_HEADER,
            Opt::flag("no-labels", "leave out the labels of the plan, with which a moving window is refused"),
            Opt::with("format", "FORMAT", "table (without the option: a summary), csv or json (every stretch)").among(&FORMATS),
            Opt::with("plot", "FILE", "also draw the cost over the start of the stretch to this SVG file"),
            TITLE,
            SQUARED_UNIT,
            SIZE,
            Opt::with("jobs", "N", "search so many sections of the record at a time (without it: 1)"),
            OUTPUT,
        ],
        text: include_str!("help/windows.txt"),
        act: windows::act,
    },
    Command {
        name: "table",
        about: "give the least cost for each number of changes",
        usage: "table PLAN [RECORD] [--changes K] [OPTIONS]",
        files: 2,
        options: &[
            Opt::with(
                "changes",
                "K",
                "the most changes, 0 to 32 (without it: 32, or one less than there are readings where that is less)",
            ),
            COLUMN,
            HEADER,
            NO_HEADER,
            Opt::flag("no-labels", "leave out the labels of the plan, which may speak of its own record alone"),
            Opt::with("format", "FORMAT", "table (without the option), csv or json").among(&FORMATS),
            Opt::with("plot", "FILE", "also draw the cost over the number of changes to this SVG file"),
            TITLE,
            SQUARED_UNIT,
            SIZE,
            OUTPUT,
        ],
        text: include_str!("help/table.txt"),
        act: table::act,
    },
    Command {
        name: "make",
        about: "make a plan file from a plan text",
        usage: "make [PLAN.txt [RECORD]] [OPTIONS]",
        files: 2,
        options: &[COLUMN, HEADER, NO_HEADER, NO_LABELS, OUTPUT],
        text: include_str!("help/make.txt"),
        act: make::act,
    },
    Command {
        name: "run",
        about: "search a plan file: the cheapest segmentation, as an answer file",
        usage: "run [PLANFILE] [-o FILE]",
        files: 1,
        options: &[OUTPUT],
        text: include_str!("help/run.txt"),
        act: run::act,
    },
    Command {
        name: "show",
        about: "show an answer file as a table, CSV or JSON",
        usage: "show [ANSWERFILE] [--plan PLANFILE] [--text PLAN.txt] [OPTIONS]",
        files: 1,
        options: &[
            Opt::with(
                "plan",
                "PLANFILE",
                "the plan file of the answer: it is searched again, and another answer is refused",
            ),
            Opt::with(
                "text",
                "PLAN.txt",
                "the text that the plan was made from, for the names of states (the files hold numbers only)",
            ),
            Opt::with("format", "FORMAT", "table (without the option), csv or json").among(&FORMATS),
            OUTPUT,
        ],
        text: include_str!("help/show.txt"),
        act: show::act,
    },
    Command {
        name: "verify",
        about: "say whether an answer file is the answer of a plan file",
        usage: "verify PLANFILE ANSWERFILE",
        files: 2,
        options: &[],
        text: include_str!("help/verify.txt"),
        act: verify::act,
    },
    Command {
        name: "check",
        about: "say why a file is refused, or summarise a good one",
        usage: "check [FILE] [-o FILE]",
        files: 1,
        options: &[OUTPUT],
        text: include_str!("help/check.txt"),
        act: check::act,
    },
    Command {
        name: "plot",
        about: "draw readings, runs, changes and labels as an SVG picture",
        usage: "plot [PLANFILE] [--answer FILE] [--text PLAN.txt] [OPTIONS]",
        files: 1,
        options: &[
            Opt::with(
                "answer",
                "ANSWERFILE",
                "an answer file, which has to be the answer of the plan file (without it the plan file is searched)",
            ),
            Opt::with("text", "PLAN.txt", "the text that the plan was made from, for the names of states"),
            TITLE,
            UNIT,
            SIZE,
            OUTPUT,
        ],
        text: include_str!("help/plot.txt"),
        act: plot::act,
    },
    Command {
        name: "help",
        about: "show this text, or that of a command",
        usage: "help [COMMAND]",
        files: 1,
        options: &[],
        text: "",
        act: help::act,
    },
    Command {
        name: "man",
        about: "write the manual page",
        usage: "man [-o FILE]",
        files: 0,
        options: &[OUTPUT],
        text: include_str!("help/man.txt"),
        act: help::man,
    },
    Command {
        name: "completion",
        about: "write the completion of a shell, bash or zsh",
        usage: "completion SHELL [-o FILE]",
        files: 1,
        options: &[OUTPUT],
        text: include_str!("help/completion.txt"),
        act: help::completion,
    },
];
