//! Help texts, the manual page and shell completion, all from the table of commands.
use crate::commands::{self, Command, ABOUT, COMMANDS, COMMON, TEXT};
use crate::failure::{quoted, usage, Failure};
use crate::streams::write;
use shared::options::{option_lines, two_columns, Args, Opt};

pub fn act(args: &Args) -> Result<u8, Failure> {
    let text = match args.file() {
        None => program(),
        Some(name) => of(commands::named(name)?),
    };
    write(None, text.as_bytes())?;
    Ok(0)
}

/// The help of the program as a whole.
pub fn program() -> String {
    let list: Vec<(String, &str)> = COMMANDS.iter().map(|command| (command.name.to_string(), command.about)).collect();
    let options = option_lines(&COMMON.each_ref());
    format!(
        "{ABOUT}\n\nUsage: yeldaski COMMAND [OPTIONS] [FILE ...]\n\nCommands:\n{}\nOptions:\n{options}\n{TEXT}",
        two_columns(&list)
    )
}

/// The help of a command.
pub fn of(command: &Command) -> String {
    let options = option_lines(&command.all_options());
    let text = if command.text.is_empty() {
        String::new()
    } else {
        format!("\n{}", command.text)
    };
    format!(
        "{}.\n\nUsage: yeldaski {}\n\nOptions:\n{options}{text}",
        sentence(command.about),
        command.usage
    )
}

/// The text with a capital letter in front.
fn sentence(text: &str) -> String {
    let mut letters = text.chars();
    letters
        .next()
        .map_or(String::new(), |first| first.to_uppercase().chain(letters).collect())
}

pub fn man(args: &Args) -> Result<u8, Failure> {
    write(args.option("output"), man_page().as_bytes())?;
    Ok(0)
}

/// The manual page, in the language of `man`.
fn man_page() -> String {
    let mut page = format!(
        ".TH YELDASKI 1 \"\" \"yeldaski {}\"\n.SH NAME\nyeldaski \\- find the changes in a record of motor current\n.SH SYNOPSIS\n",
        env!("CARGO_PKG_VERSION")
    );
    for command in &COMMANDS {
        page += &format!(".B yeldaski\n{}\n.br\n", roff(command.usage));
    }
    page += &format!(".SH OPTIONS\n{}.SH COMMANDS\n", roff_options(&COMMON.each_ref()));
    for command in &COMMANDS {
        page += &format!(
            ".SS {}\n{}.\n{}",
            command.name,
            roff(&sentence(command.about)),
            roff_options(&command.options.iter().collect::<Vec<_>>())
        );
        page += &roff_lines(command.text);
    }
    format!("{page}.SH NOTES\n{}", roff_lines(TEXT))
}

fn roff_options(options: &[&Opt]) -> String {
    let row = |option: &&Opt| format!(".TP\n.B {}\n{}.\n", roff(option.form().trim()), roff(&sentence(option.about)));
    options.iter().map(row).collect()
}

/// Lines that stay as they are.
fn roff_lines(text: &str) -> String {
    match text {
        "" => String::new(),
        text => format!(".PP\n.nf\n{}\n.fi\n", roff(text.trim_end())),
    }
}

/// A backslash, a minus and what stands first in a line mean something to `man`.
fn roff(text: &str) -> String {
    let escaped = text.replace('\\', "\\e").replace('-', "\\-");
    let line = |line: &str| {
        if line.starts_with(['.', '\'']) {
            format!("\\&{line}")
        } else {
            line.to_string()
        }
    };
    escaped.split('\n').map(line).collect::<Vec<String>>().join("\n")
}

pub fn completion(args: &Args) -> Result<u8, Failure> {
    let script = match args.file() {
        Some("bash") => bash(),
        Some("zsh") => zsh(),
        Some(other) => return Err(usage(format!("completion: expected bash or zsh, found {}", quoted(other)))),
        None => return Err(usage("completion: which shell? expected bash or zsh")),
    };
    write(args.option("output"), script.as_bytes())?;
    Ok(0)
}

/// The words that may follow a command; none where a file is meant.
fn words_after(command: &Command) -> String {
    match command.name {
        "help" => names(),
        "completion" => "bash zsh".to_string(),
        _ => String::new(),
    }
}

fn names() -> String {
    COMMANDS.map(|command| command.name).join(" ")
}

/// After an option a choice from its words, otherwise an option or one of the words that may follow; where there is none of them, a file.
fn bash() -> String {
    let mut cases = String::new();
    for command in &COMMANDS {
        let name = command.name;
        for option in command.options.iter().filter(|option| !option.choices.is_empty()) {
            cases += &format!("        {name}:--{}) words='{}' ;;\n", option.long, option.choices.join(" "));
        }
        let options: Vec<String> = command.all_options().iter().map(|option| format!("--{}", option.long)).collect();
        let words = words_after(command);
        cases += &format!(
            "        {name}:*) if [[ $word == -* ]]; then words='{}'; else words='{words}'; fi ;;\n",
            options.join(" ")
        );
    }
    format!(
        "# Completion of yeldaski for bash, written by 'yeldaski completion bash'.\n\
         _yeldaski() {{\n    local word=${{COMP_WORDS[COMP_CWORD]}} before=${{COMP_WORDS[COMP_CWORD-1]}} words=\n    \
         [ \"$word\" = = ] && word=\n    [ \"$before\" = = ] && before=${{COMP_WORDS[COMP_CWORD-2]}}\n    \
         if [ \"$COMP_CWORD\" = 1 ]; then\n        if [[ $word == -* ]]; then words='--help --version'; else words='{names}'; fi\n    else case ${{COMP_WORDS[1]}}:$before in\n{cases}    esac; fi\n    \
         if [ -n \"$words\" ]; then\n        mapfile -t COMPREPLY < <(compgen -W \"$words\" -- \"$word\")\n    else\n        \
         mapfile -t COMPREPLY < <(compgen -f -- \"$word\")\n    fi\n}}\ncomplete -o filenames -F _yeldaski yeldaski\n",
        names = names()
    )
}

fn zsh() -> String {
    let plain = |text: &str| text.replace(['[', ']', ':', '\''], " ");
    let list: String = COMMANDS
        .iter()
        .map(|command| format!("        '{}:{}'\n", command.name, plain(command.about)))
        .collect();
    let mut cases = String::new();
    for command in &COMMANDS {
        let option = |option: &&Opt| {
            let (long, about) = (option.long, plain(option.about));
            let value = match (option.value, option.choices) {
                (None, _) => String::new(),
                (Some(value), []) => format!(":{}:_files", plain(value)),
                (Some(value), choices) => format!(":{}:({})", plain(value), choices.join(" ")),
            };
            format!(" \\\n            '--{long}[{about}]{value}'")
        };
        let options: String = command.all_options().iter().map(option).collect();
        let rest = match words_after(command) {
            words if words.is_empty() => "'*:file:_files'".to_string(),
            words => format!("'*:word:({words})'"),
        };
        cases += &format!("        {}) _arguments{options} \\\n            {rest} ;;\n", command.name);
    }
    format!(
        "#compdef yeldaski\n# Completion of yeldaski for zsh, written by 'yeldaski completion zsh'.\n_yeldaski() {{\n    local -a commands\n    \
         commands=(\n{list}    )\n    if (( CURRENT == 2 )); then\n        _describe command commands\n        return\n    fi\n    \
         local command=$words[2]\n    shift words\n    (( CURRENT-- ))\n    case $command in\n{cases}    esac\n}}\n_yeldaski \"$@\"\n"
    )
}
