//! lukhveri COMMAND: the program for people. Each command is a row of the table in `commands`; what it says of itself stands in `help`.

#![deny(unsafe_code)]
#![cfg_attr(
    not(test),
    deny(clippy::unwrap_used, clippy::expect_used, clippy::panic, clippy::indexing_slicing)
)]

mod arguments;
mod batch;
mod commands;
mod files;
mod help;
mod json;
mod lines;
mod listed;
mod man;
mod outcome;
mod output;
mod person;
mod refused;
mod saving;
mod version;
mod wrap;

use std::ffi::OsString;
use std::process::ExitCode;

use arguments::{Arguments, is_help};
use commands::{COMMANDS, Command};
use outcome::{Outcome, Trouble};
use output::print;

/// Prints a text that was asked for.
fn tell(text: &str) -> Result<Outcome, Trouble> {
    print(text)?;
    Ok(Outcome::Done)
}

fn names_of_commands() -> String {
    COMMANDS.map(|command| command.name).join(", ")
}

fn find(word: &OsString) -> Result<&'static Command, Trouble> {
    COMMANDS.iter().find(|command| word == command.name).ok_or_else(|| {
        let (word, names) = (word.to_string_lossy(), names_of_commands());
        Trouble::wrong_use(None, format!("there is no command '{word}', only {names}"))
    })
}

/// `lukhveri help COMMAND`, and `lukhveri help` alone.
fn help(words: &[OsString]) -> Result<Outcome, Trouble> {
    match words {
        [] => tell(help::MAIN),
        [word] if is_help(word) => tell(help::MAIN),
        [word] => tell(find(word)?.help),
        _ => Err(Trouble::wrong_use(None, "help takes one command".to_string())),
    }
}

fn command(word: &OsString, rest: &[OsString]) -> Result<Outcome, Trouble> {
    let command = find(word)?;
    if rest.iter().take_while(|word| *word != "--").any(is_help) {
        return tell(command.help);
    }
    (command.run)(&Arguments::read(command, rest)?)
}

fn run(words: &[OsString]) -> Result<Outcome, Trouble> {
    let Some((first, rest)) = words.split_first() else {
        let what = format!("a command is wanted: {}", names_of_commands());
        return Err(Trouble::wrong_use(None, what));
    };
    match first.to_str() {
        Some("-h" | "--help") => tell(help::MAIN),
        Some("-V" | "--version") => tell(&version::text()),
        Some("--man") => tell(&man::page()),
        Some("help") => help(rest),
        Some(option) if option.starts_with('-') => {
            Err(Trouble::wrong_use(None, format!("there is no option {option}")))
        }
        _ => command(first, rest),
    }
}

fn main() -> ExitCode {
    let words: Vec<OsString> = std::env::args_os().skip(1).collect();
    match run(&words) {
        Ok(outcome) => outcome.status(),
        Err(trouble) => trouble.tell(),
    }
}
