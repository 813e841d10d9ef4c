//! The words of a command line. A program lists its options once; parsing, help and whatever else describes them use that list.
use crate::{quoted, suggest};
use std::process::ExitCode;

/// An option: its long name, a short letter, the name of its value and what it does.
pub struct Opt {
    pub long: &'static str,
    pub short: Option<char>,
    /// None for an option that takes no value.
    pub value: Option<&'static str>,
    /// The values to choose from; empty where every value may stand.
    pub choices: &'static [&'static str],
    pub about: &'static str,
}

impl Opt {
    pub const fn flag(long: &'static str, about: &'static str) -> Opt {
        Opt {
            long,
            short: None,
            value: None,
            choices: &[],
            about,
        }
    }

    pub const fn with(long: &'static str, value: &'static str, about: &'static str) -> Opt {
        Opt {
            long,
            short: None,
            value: Some(value),
            choices: &[],
            about,
        }
    }

    pub const fn short(self, letter: char) -> Opt {
        Opt { short: Some(letter), ..self }
    }

    pub const fn among(self, choices: &'static [&'static str]) -> Opt {
        Opt { choices, ..self }
    }

    /// `-o, --output FILE`, as help texts name it.
    pub fn form(&self) -> String {
        let short = self.short.map_or("    ".to_string(), |letter| format!("-{letter}, "));
        let value = self.value.map_or(String::new(), |value| format!(" {value}"));
        format!("{short}--{}{value}", self.long)
    }
}

pub const HELP: Opt = Opt::flag("help", "this text").short('h');

/// What the words of a command line say.
#[derive(Default, Debug)]
pub struct Args {
    files: Vec<String>,
    given: Vec<(&'static str, String)>,
}

impl Args {
    /// The words that are no options, in their order.
    pub fn files(&self) -> &[String] {
        &self.files
    }

    /// The first of them.
    pub fn file(&self) -> Option<&str> {
        self.files.first().map(String::as_str)
    }

    pub fn option(&self, long: &str) -> Option<&str> {
        self.given.iter().find(|(known, _)| *known == long).map(|(_, value)| value.as_str())
    }

    pub fn flag(&self, long: &str) -> bool {
        self.option(long).is_some()
    }

    /// The value of an option as a whole number within a range, or what holds without the option.
    pub fn number(&self, long: &str, least: u64, most: u64, without: u64) -> Result<u64, String> {
        let Some(value) = self.option(long) else {
            return Ok(without);
        };
        let number = value.parse().ok().filter(|number| (least..=most).contains(number));
        number.ok_or_else(|| match most {
            u64::MAX => format!("--{long}: expected a whole number from {least} on, found {}", quoted(value)),
            _ => format!("--{long}: expected a whole number from {least} to {most}, found {}", quoted(value)),
        })
    }

    fn set(&mut self, option: &Opt, value: String) -> Result<(), String> {
        if self.flag(option.long) {
            return Err(format!("option --{} is given twice", option.long));
        }
        if !option.choices.is_empty() && !option.choices.contains(&value.as_str()) {
            let meant = did_you_mean(&value, option.choices.iter().copied());
            return Err(format!(
                "expected --{} {}, found {}{meant}",
                option.long,
                option.choices.join(" or "),
                quoted(&value)
            ));
        }
        self.given.push((option.long, value));
        Ok(())
    }
}

/// Takes `--name value`, `--name=value`, `-n value`, `-nvalue`, and everything after `--` as no option. At most `most` other words may stand.
pub fn parse(words: impl IntoIterator<Item = String>, options: &[&Opt], most: usize) -> Result<Args, String> {
    let mut args = Args::default();
    let mut words = words.into_iter();
    let mut only_files = false;
    while let Some(word) = words.next() {
        if only_files || word == "-" || !word.starts_with('-') {
            args.files.push(word);
        } else if word == "--" {
            only_files = true;
        } else {
            let (option, joined) = named(options, &word)?;
            let value = match (option.value, joined) {
                (None, None) => String::new(),
                (None, Some(_)) => return Err(format!("option --{} takes no value", option.long)),
                (Some(_), joined) => joined
                    .or_else(|| words.next())
                    .ok_or_else(|| format!("option {} needs a value", quoted(&word)))?,
            };
            args.set(option, value)?;
        }
    }
    match args.files.get(most) {
        Some(word) if most == 0 => Err(format!("unexpected word {}", quoted(word))),
        Some(word) if most == 1 => Err(format!(
            "one word at most beside the options, but {} and {} are given",
            quoted(&args.files[0]),
            quoted(word)
        )),
        Some(word) => Err(format!("{most} words at most beside the options, but {} is one more", quoted(word))),
        None => Ok(args),
    }
}

/// The option that a word names, and the value where the word holds it.
fn named<'a>(options: &[&'a Opt], word: &str) -> Result<(&'a Opt, Option<String>), String> {
    if let Some(long) = word.strip_prefix("--") {
        let (name, value) = match long.split_once('=') {
            Some((name, value)) => (name, Some(value.to_string())),
            None => (long, None),
        };
        let found = options.iter().copied().find(|option| option.long == name);
        let forms: Vec<String> = options.iter().map(|option| format!("--{}", option.long)).collect();
        let meant = did_you_mean(&format!("--{name}"), forms.iter().map(String::as_str));
        return found
            .map(|option| (option, value))
            .ok_or_else(|| format!("unknown option {}{meant}", quoted(word)));
    }
    let mut letters = word.trim_start_matches('-').chars();
    let letter = letters.next();
    let rest = letters.as_str();
    let found = options.iter().copied().find(|option| option.short == letter);
    found
        .map(|option| (option, (!rest.is_empty()).then(|| rest.to_string())))
        .ok_or_else(|| format!("unknown option {}", quoted(word)))
}

/// `; did you mean 'plot'?` where a known word is near, and nothing otherwise.
pub fn did_you_mean<'a>(word: &str, known: impl IntoIterator<Item = &'a str>) -> String {
    suggest(word, known).map_or(String::new(), |name| format!("; did you mean {}?", quoted(name)))
}

/// The widest line of a help text.
const WIDTH: usize = 80;

/// The options as lines of a help text.
pub fn option_lines(options: &[&Opt]) -> String {
    let rows: Vec<(String, &str)> = options.iter().map(|option| (option.form(), option.about)).collect();
    two_columns(&rows)
}

/// Rows of a name and what it means, whose lines are broken at the width of a terminal.
pub fn two_columns(rows: &[(String, &str)]) -> String {
    let width = rows.iter().map(|(name, _)| name.len()).max().unwrap_or(0);
    let lines = |(name, about): &(String, &str)| {
        let mut lines = vec![String::new()];
        for word in about.split(' ') {
            let last = lines.last_mut().expect("there is a line");
            if !last.is_empty() && last.chars().count() + 1 + word.chars().count() > WIDTH - width - 4 {
                lines.push(word.to_string());
            } else {
                last.push_str(if last.is_empty() { "" } else { " " });
                last.push_str(word);
            }
        }
        let names = [name.as_str()].into_iter().chain(std::iter::repeat(""));
        names
            .zip(lines)
            .map(|(name, line)| format!("  {name:<width$}  {line}\n"))
            .collect::<String>()
    };
    rows.iter().map(lines).collect()
}

/// The options of a program without commands. Help and wrong words are answered here, with the status to end with.
pub fn program(name: &str, about: &str, options: &[Opt], end: &str) -> Result<Args, ExitCode> {
    let all: Vec<&Opt> = options.iter().chain([&HELP]).collect();
    let help = format!("{about}\n\nUsage: {name} [OPTIONS]\n\nOptions:\n{}{end}", option_lines(&all));
    let words = std::env::args_os().skip(1).map(|word| word.to_string_lossy().into_owned());
    match parse(words, &all, 0) {
        Ok(args) if args.flag("help") => {
            print!("{help}");
            Err(ExitCode::SUCCESS)
        }
        Ok(args) => Ok(args),
        Err(message) => Err(wrong(name, &message)),
    }
}

/// A message about wrong options, and the status to end with.
pub fn wrong(name: &str, message: &str) -> ExitCode {
    eprintln!("{name}: {message}\nTry '{name} --help'.");
    ExitCode::from(2)
}

#[cfg(test)]
mod tests {
    use super::*;

    const OPTIONS: [Opt; 4] = [
        Opt::with("output", "FILE", "").short('o'),
        Opt::with("format", "FORMAT", "").among(&["table", "csv"]),
        Opt::with("jobs", "N", ""),
        HELP,
    ];

    fn parsed(line: &str) -> Result<Args, String> {
        parse(line.split_whitespace().map(String::from), &OPTIONS.each_ref(), 2)
    }

    #[test]
    fn words_and_options() {
        let args = parsed("a -ox --format=csv - --jobs 3").expect("a good line");
        assert_eq!(
            (args.files(), args.option("output"), args.option("format")),
            (&["a".to_string(), "-".to_string()][..], Some("x"), Some("csv"))
        );
        assert_eq!(
            (args.number("jobs", 1, 9, 1), args.number("cases", 1, 9, 7), args.flag("help")),
            (Ok(3), Ok(7), false)
        );
        assert_eq!(parsed("-o -h").expect("a value").option("output"), Some("-h"));
        assert_eq!(parsed("-- -h --x").expect("two files").files(), ["-h", "--x"]);
        assert!(parsed("-h a").expect("help").flag("help"));
    }

    #[test]
    fn wrong_words() {
        let cases = [
            ("-o", "option '-o' needs a value"),
            ("-o a --output b", "option --output is given twice"),
            ("--help=x", "option --help takes no value"),
            ("--fromat csv", "unknown option '--fromat'; did you mean '--format'?"),
            ("--format cvs", "expected --format table or csv, found 'cvs'; did you mean 'csv'?"),
            ("-x", "unknown option '-x'"),
            ("a b c", "2 words at most beside the options, but 'c' is one more"),
        ];
        for (line, message) in cases {
            assert_eq!(parsed(line).expect_err(line), message);
        }
        let jobs = parsed("--jobs 10").expect("a number").number("jobs", 1, 9, 1);
        assert_eq!(jobs, Err("--jobs: expected a whole number from 1 to 9, found '10'".to_string()));
    }

    #[test]
    fn forms() {
        assert_eq!(
            OPTIONS.each_ref().map(Opt::form),
            ["-o, --output FILE", "    --format FORMAT", "    --jobs N", "-h, --help"]
        );
    }
}
