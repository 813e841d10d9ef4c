//! Help, manual page and shell completion, which come from one table.
mod common;
use common::{folder, program, run};
use std::fs;
use std::process::Command;

const COMMANDS: [&str; 12] = [
    "find",
    "windows",
    "table",
    "make",
    "run",
    "show",
    "verify",
    "check",
    "plot",
    "help",
    "man",
    "completion",
];

/// The long options in a help text.
fn options(help: &str) -> Vec<String> {
    let part = help
        .split("Options:\n")
        .nth(1)
        .expect("options")
        .split("\n\n")
        .next()
        .expect("their lines");
    let word = |line: &str| line.split_whitespace().find_map(|word| word.strip_prefix("--").map(String::from));
    part.lines()
        .filter(|line| line.starts_with("  -") || line.starts_with("      --"))
        .filter_map(word)
        .collect()
}

#[test]
fn every_way_to_ask_for_help() {
    let whole = run(&["help"], b"");
    assert_eq!((whole.status, whole.err.as_str()), (0, ""));
    for option in ["-h", "--help"] {
        assert_eq!(run(&[option], b"").text(), whole.text());
    }
    for command in COMMANDS {
        assert!(whole.text().contains(&format!("\n  {command} ")), "{command}");
        let help = run(&["help", command], b"");
        assert_eq!((help.status, help.err.as_str()), (0, ""), "{command}");
        assert!(help.text().contains(&format!("\nUsage: yeldaski {command}")), "{command}");
        for option in ["-h", "--help"] {
            assert_eq!(run(&[command, option], b"").text(), help.text(), "{command}");
        }
        for option in ["-V", "--version"] {
            assert_eq!(run(&[command, option], b"").text(), "yeldaski 0.1.0\n", "{command}");
        }
        for line in help.text().lines().chain(whole.text().lines()) {
            assert!(line.chars().count() <= 80, "{command}: {line}");
        }
    }
}

#[test]
fn the_nearest_word_is_offered() {
    for (args, words) in [
        (&["shwo"][..], "unknown command 'shwo'; did you mean 'show'?"),
        (&["help", "polt"], "unknown command 'polt'; did you mean 'plot'?"),
        (&["show", "--fromat", "csv"], "unknown option '--fromat'; did you mean '--format'?"),
        (&["show", "--format", "jsn"], "found 'jsn'; did you mean 'json'?"),
        (&["completion", "fish"], "expected bash or zsh, found 'fish'"),
        (&["completion"], "which shell?"),
    ] {
        let done = run(args, b"");
        assert_eq!((done.status, done.out.len()), (2, 0), "{args:?}");
        assert!(done.err.contains(words), "{args:?}: {}", done.err);
    }
    assert!(!run(&["xyz"], b"").err.contains("did you mean"));
}

/// `man` reads the page without a warning, and it names every command and every option.
#[test]
fn the_manual_page() {
    let folder = folder("manual");
    let page = folder.join("yeldaski.1");
    assert_eq!(run(&["man", "-o", &page.to_string_lossy()], b"").status, 0);
    let shown = Command::new("groff")
        .args(["-man", "-Tutf8", "-ww", "-rLL=120n", "-P-cbou"])
        .arg(&page)
        .output()
        .expect("groff");
    assert_eq!(String::from_utf8_lossy(&shown.stderr), "");
    let shown = String::from_utf8(shown.stdout).expect("text").replace(['\u{2212}', '\u{2010}'], "-");
    for command in COMMANDS {
        assert!(shown.contains(&format!("\n   {command}\n")), "{command}");
        for option in options(&run(&["help", command], b"").text()) {
            assert!(shown.contains(&format!("--{option}")), "{command} --{option}");
        }
    }
}

/// What bash offers after these words, asked of bash itself.
fn offered(words: &[&str]) -> Vec<String> {
    let script = String::from_utf8(program().args(["completion", "bash"]).output().expect("script").stdout).expect("text");
    let list: Vec<String> = words.iter().map(|word| format!("'{word}'")).collect();
    let ask = format!(
        "COMP_WORDS=({}); COMP_CWORD={}; _yeldaski; printf '%s\\n' \"${{COMPREPLY[@]}}\"",
        list.join(" "),
        words.len() - 1
    );
    let output = Command::new("bash")
        .arg("-c")
        .arg(script + &ask)
        .current_dir(folder_with_files())
        .output()
        .expect("bash");
    assert_eq!(String::from_utf8_lossy(&output.stderr), "");
    String::from_utf8(output.stdout).expect("text").lines().map(String::from).collect()
}

fn folder_with_files() -> std::path::PathBuf {
    let folder = std::path::PathBuf::from(env!("CARGO_TARGET_TMPDIR")).join("completion");
    fs::create_dir_all(&folder).expect("folder");
    fs::write(folder.join("belt 1.csv"), "").expect("file");
    folder
}

#[test]
fn completion_in_bash() {
    assert_eq!(offered(&["yeldaski", ""]), COMMANDS);
    assert_eq!(offered(&["yeldaski", "ma"]), ["make", "man"]);
    assert_eq!(offered(&["yeldaski", "help", "ve"]), ["verify"]);
    assert_eq!(offered(&["yeldaski", "completion", ""]), ["bash", "zsh"]);
    assert_eq!(offered(&["yeldaski", "show", "a", "--format", ""]), ["table", "csv", "json"]);
    assert_eq!(offered(&["yeldaski", "show", "--format", "=", "c"]), ["csv"]);
    assert_eq!(offered(&["yeldaski", "show", "--format", "="]), ["table", "csv", "json"]);
    assert_eq!(offered(&["yeldaski", "--h"]), ["--help"]);
    assert_eq!(offered(&["yeldaski", "show", "--pl"]), ["--plan"]);
    assert_eq!(offered(&["yeldaski", "show", "be"]), ["belt 1.csv"]);
    assert_eq!(offered(&["yeldaski", "find", "p", "--plot", "be"]), ["belt 1.csv"]);
    for command in COMMANDS {
        let known = options(&run(&["help", command], b"").text());
        let words: Vec<String> = offered(&["yeldaski", command, "--"])
            .iter()
            .map(|word| word.trim_start_matches('-').to_string())
            .collect();
        assert_eq!(words, known, "{command}");
    }
}

/// Its syntax needs zsh, which may be missing; that every command and option stands in it does not.
#[test]
fn completion_in_zsh() {
    let script = run(&["completion", "zsh"], b"").text();
    assert!(script.starts_with("#compdef yeldaski\n"));
    for command in COMMANDS {
        assert!(
            script.contains(&format!("        '{command}:")) && script.contains(&format!("        {command}) _arguments")),
            "{command}"
        );
        let part = script
            .split(&format!("        {command}) "))
            .nth(1)
            .expect("its case")
            .split(";;")
            .next()
            .expect("its end");
        for option in options(&run(&["help", command], b"").text()) {
            assert!(part.contains(&format!("'--{option}[")), "{command} --{option}");
        }
    }
}
