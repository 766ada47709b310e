//! The command `spatecanter`: `spatecanter --help` says what it does.

mod arguments;
mod codes;
mod commands;
mod completions;
mod differences;
mod done;
mod each;
mod edition;
mod failure;
mod flags;
mod folders;
mod font_marks;
mod fonts;
mod grid;
mod help;
mod index;
mod input;
mod listing;
mod loudness;
mod manual;
mod many;
mod marks;
mod options;
mod output;
mod pieces;
mod plan;
mod plot;
mod progress;
mod refused;
mod report;
mod sheets;
mod signals;
mod split;
mod summary;
mod tapes;
mod text;
mod threads;
mod version;
mod words;
mod xgp;

use commands::{Command, COMMANDS};
use failure::Failure;
use std::ffi::OsString;
use std::process::ExitCode;

fn main() -> ExitCode {
    signals::tidy_before_the_end(output::abandon);
    let words: Vec<OsString> = std::env::args_os().skip(1).collect();
    match run(&words) {
        Ok(()) => ExitCode::SUCCESS,
        Err(failure) => failure.report(),
    }
}

fn run(words: &[OsString]) -> Result<(), Failure> {
    let Some((first, rest)) = words.split_first() else {
        return Err(Failure::Usage("no command is given".into()));
    };
    match first.to_str() {
        Some("--help" | "-h") => output::print(help::WHOLE),
        Some("help") => help_on(rest),
        Some("--version" | "-V") => output::print(&version::text()),
        Some("--generate") => output::print(&generated(rest)?),
        _ => call(named(first)?, rest),
    }
}

fn call(command: &Command, words: &[OsString]) -> Result<(), Failure> {
    if arguments::ask_for_help(words) {
        return output::print(&help::of(command));
    }
    let arguments = arguments::parse(command, words)?;
    loudness::set(arguments.loudness()?);
    (command.run)(&arguments)
}

fn help_on(words: &[OsString]) -> Result<(), Failure> {
    match words.first() {
        None => output::print(help::WHOLE),
        Some(name) => output::print(&help::of(named(name)?)),
    }
}

/// A text for the tools that help with a command: the manual page, or the completions of a shell.
fn generated(words: &[OsString]) -> Result<String, Failure> {
    match words.first().and_then(|word| word.to_str()) {
        Some("man") => Ok(manual::page()),
        Some("bash") => Ok(completions::bash()),
        Some("zsh") => Ok(completions::zsh()),
        Some("fish") => Ok(completions::fish()),
        _ => Err(Failure::Usage("--generate makes man, bash, zsh or fish".into())),
    }
}

fn named(name: &OsString) -> Result<&'static Command, Failure> {
    let unknown = || Failure::Usage(format!("there is no command {}", name.to_string_lossy()));
    COMMANDS.iter().find(|command| *name == *command.name).ok_or_else(unknown)
}
