//! The service bench's tool: a file is spread over boards as texts, gathered from k of them, boards are rebuilt from others, and loads are run
//! that all can repeat, all by the calls of the proved archive. What is added here are files, words and help; where a text is refused, the tool
//! looks for the place itself, to say it; how far the text makes sense, the archive says.
#![forbid(unsafe_code)]

mod agree;
mod args;
mod check;
mod explain;
mod files;
mod folder;
mod gather;
mod help;
mod json;
mod leftover;
mod look;
mod manual;
mod pairs;
mod part;
mod place;
mod progress;
mod rebuild;
mod sense;
mod sizes;
mod spread;
mod stripes;
mod texts;
mod tidy;
mod trial;
mod trouble;

use args::{Takes, Words};
use files::shown;
use std::ffi::OsString;
use std::process::ExitCode;
use trouble::{Outcome, Trouble};

type Command = fn(&Words) -> Outcome;

const COMMANDS: [(Takes, Command); 11] = [
    (spread::SPREAD, spread::spread),
    (gather::GATHER, gather::gather),
    (check::CHECK, check::check),
    (rebuild::REBUILD, rebuild::rebuild),
    (look::LOOK, look::look),
    (tidy::TIDY, tidy::tidy),
    (explain::EXPLAIN, explain::explain),
    (sizes::SIZES, sizes::sizes),
    (spread::SHARE, spread::share),
    (spread::PRINT, spread::print),
    (trial::TRIAL, trial::trial),
];

fn wrong<T>(what: impl Into<String>) -> Outcome<T> {
    Err(Trouble::Usage(what.into(), None))
}

/// What is asked of the tool itself; none where the first word is no such question.
fn about(name: &str, rest: &[OsString]) -> Option<Outcome> {
    let commands = COMMANDS.map(|(takes, _)| takes.command);
    let rest: Vec<&str> = rest.iter().map(|word| word.to_str().unwrap_or_default()).collect();
    Some(match (name, &rest[..]) {
        ("-h" | "--help", _) => help::print(None),
        ("-V" | "--version", _) => files::print(concat!("zbk ", env!("CARGO_PKG_VERSION"), "\n").as_bytes()),
        ("--man", []) => files::print(manual::page(&commands).as_bytes()),
        ("--completion", ["bash"]) => files::print(manual::completion(&commands).as_bytes()),
        ("--completion", _) => wrong("--completion: for which shell? There is one for bash"),
        ("help", []) | ("help", ["help" | "-h" | "--help", ..]) => help::print(None),
        ("help", [command, ..]) if commands.contains(command) => help::print(Some(command)),
        ("help", [command, ..]) => wrong(format!("no command {command}")),
        _ => return None,
    })
}

fn run(words: &[OsString]) -> Outcome {
    let Some((name, rest)) = words.split_first() else { return wrong("which command?") };
    if let Some(outcome) = name.to_str().and_then(|name| about(name, rest)) {
        return outcome;
    }
    let Some((takes, command)) = COMMANDS.iter().find(|(takes, _)| takes.command == name) else {
        return wrong(format!("no command {}", shown(name)));
    };
    match Words::read(takes, rest)? {
        Some(words) => command(&words),
        None => Ok(()),
    }
}

fn main() -> ExitCode {
    let words: Vec<OsString> = std::env::args_os().skip(1).collect();
    match run(&words) {
        Ok(()) => ExitCode::SUCCESS,
        Err(trouble) => trouble.tell(),
    }
}
