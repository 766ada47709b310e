//! The words after a command's name.

use crate::commands::Command;
use crate::failure::Failure;
use crate::flags::{Flag, Value, HELP};
use crate::loudness::Loudness;
use std::ffi::{OsStr, OsString};
use std::os::unix::ffi::OsStrExt;

#[derive(Default)]
pub struct Arguments {
    /// The first input, and all.
    pub input: OsString,
    pub inputs: Vec<OsString>,
    /// -o
    pub output: Option<OsString>,
    /// --widths
    pub widths: Option<OsString>,
    /// -d
    pub folder: Option<OsString>,
    /// --page
    pub page: Option<OsString>,
    /// --machine
    pub machine: Option<OsString>,
    /// --fonts
    pub fonts: Option<OsString>,
    /// --from
    pub from: Option<OsString>,
    /// --to
    pub to: Option<OsString>,
    /// --dots
    pub dots: Option<OsString>,
    /// --spacing
    pub spacing: Option<OsString>,
    /// --pieces
    pub pieces: Option<OsString>,
    /// --list
    pub list: Option<OsString>,
    /// --format
    pub format: Option<OsString>,
    /// --order
    pub order: Option<OsString>,
    /// --codes
    pub codes: Option<OsString>,
    /// --mark
    pub mark: Option<OsString>,
    /// --edition
    pub edition: Option<OsString>,
    /// --ending
    pub ending: Option<OsString>,
    /// -j
    pub threads: Option<OsString>,
    /// --force
    pub force: bool,
    /// --plain
    pub plain: bool,
    /// --check
    pub check: bool,
    /// --tapes
    pub tapes: bool,
    /// --split
    pub split: bool,
    /// --dry-run
    pub dry_run: bool,
    /// -q
    pub quiet: bool,
    /// -v
    pub verbose: bool,
}

/// Whether --help or -h is among the options.
pub fn ask_for_help(words: &[OsString]) -> bool {
    let mut options = words.iter().take_while(|word| *word != "--");
    options.any(|word| HELP.names().any(|name| word == name))
}

/// The inputs and the options that the command has.
pub fn parse(command: &Command, words: &[OsString]) -> Result<Arguments, Failure> {
    let wrong = |what: String| Failure::Usage(format!("{what}\nUsage: spatecanter {}", command.usage));
    let mut arguments = Arguments::default();
    let mut inputs = Vec::new();
    let mut words = words.iter();
    while let Some(word) = words.next() {
        if word == "--" {
            inputs.extend(words.by_ref());
        } else if is_option(word) {
            arguments.take_word(command, word, || words.next().cloned()).map_err(wrong)?;
        } else {
            inputs.push(word);
        }
    }
    arguments.inputs = inputs.into_iter().cloned().collect();
    if let Some(fault) = command.inputs.fault(&arguments) {
        return Err(wrong(fault.into()));
    }
    arguments.input = arguments.inputs.first().cloned().unwrap_or_default();
    Ok(arguments)
}

/// How many inputs a command has.
#[derive(Clone, Copy)]
pub enum Inputs {
    One,
    Two,
    /// Any number; some, unless there is a list.
    Some,
}

impl Inputs {
    fn fault(self, arguments: &Arguments) -> Option<&'static str> {
        match (self, arguments.inputs.len()) {
            (Inputs::One, 1) | (Inputs::Two, 2) => None,
            (Inputs::Some, 0) if arguments.list.is_some() => None,
            (_, 0) => Some("no input is given"),
            (Inputs::Some, _) => None,
            (Inputs::One, _) => Some("more than one input is given"),
            (Inputs::Two, 1) => Some("only one input is given"),
            (Inputs::Two, _) => Some("more than two inputs are given"),
        }
    }
}

impl Arguments {
    /// The files that are read: the first input, and those that options name.
    pub fn read_files(&self) -> impl Iterator<Item = &OsStr> {
        std::iter::once(self.input.as_os_str()).chain(self.lent_files())
    }

    /// The files that options name to be read for each input.
    pub fn lent_files(&self) -> impl Iterator<Item = &OsStr> {
        [&self.widths, &self.codes].into_iter().flatten().map(OsString::as_os_str)
    }

    /// What -q and -v say.
    pub fn loudness(&self) -> Result<Loudness, Failure> {
        match (self.quiet, self.verbose) {
            (false, false) => Ok(Loudness::Usual),
            (true, false) => Ok(Loudness::Quiet),
            (false, true) => Ok(Loudness::Verbose),
            (true, true) => Err(Failure::Usage("-q and -v do not go together".into())),
        }
    }

    /// Takes a word of options, with the next word for a value unless one is joined: a long name, with a value
    /// after an equals sign, or short names, of which the last may have its value right after it.
    fn take_word(
        &mut self,
        command: &Command,
        word: &OsStr,
        next: impl FnOnce() -> Option<OsString>,
    ) -> Result<(), String> {
        let named =
            |name: &str| command.flag(name).ok_or_else(|| format!("{name} is no option of {}", command.name));
        if word.as_bytes().starts_with(b"--") {
            let (name, joined) = split(word);
            return self.take(named(&name)?, &name, joined, next);
        }
        let letters = word.to_string_lossy();
        for (at, letter) in letters.char_indices().skip(1) {
            let name = format!("-{letter}");
            let flag = named(&name)?;
            if !matches!(flag.value, Value::None) {
                // All letters before it are those of options, which have one byte each.
                let after = OsStr::from_bytes(&word.as_bytes()[at + 1..]);
                return self.take(flag, &name, (!after.is_empty()).then(|| after.into()), next);
            }
            self.take(flag, &name, None, || None)?;
        }
        Ok(())
    }

    /// Takes an option, spelled so.
    fn take(
        &mut self,
        flag: &Flag,
        spelled: &str,
        joined: Option<OsString>,
        next: impl FnOnce() -> Option<OsString>,
    ) -> Result<(), String> {
        let is_given_twice = match self.slot(flag.name) {
            Some(slot) => {
                let value = joined.or_else(next).ok_or_else(|| format!("{spelled} needs a value"))?;
                slot.replace(value).is_some()
            }
            None if joined.is_some() => return Err(format!("{spelled} takes no value")),
            None => std::mem::replace(self.flag(flag.name), true),
        };
        if is_given_twice {
            return Err(format!("{spelled} is given twice"));
        }
        Ok(())
    }

    /// An option without a value.
    fn flag(&mut self, name: &str) -> &mut bool {
        match name {
            "--plain" => &mut self.plain,
            "--check" => &mut self.check,
            "--tapes" => &mut self.tapes,
            "--split" => &mut self.split,
            "--dry-run" => &mut self.dry_run,
            "-q" => &mut self.quiet,
            "-v" => &mut self.verbose,
            _ => &mut self.force,
        }
    }

    /// Where an option's value goes, if it has one.
    fn slot(&mut self, name: &str) -> Option<&mut Option<OsString>> {
        match name {
            "-o" => Some(&mut self.output),
            "--widths" => Some(&mut self.widths),
            "-d" => Some(&mut self.folder),
            "--page" => Some(&mut self.page),
            "--machine" => Some(&mut self.machine),
            "--fonts" => Some(&mut self.fonts),
            "--from" => Some(&mut self.from),
            "--to" => Some(&mut self.to),
            "--dots" => Some(&mut self.dots),
            "--spacing" => Some(&mut self.spacing),
            "--pieces" => Some(&mut self.pieces),
            "--list" => Some(&mut self.list),
            "--format" => Some(&mut self.format),
            "--order" => Some(&mut self.order),
            "--codes" => Some(&mut self.codes),
            "--mark" => Some(&mut self.mark),
            "--edition" => Some(&mut self.edition),
            "--ending" => Some(&mut self.ending),
            "-j" => Some(&mut self.threads),
            _ => None,
        }
    }
}

/// A word that starts with a dash and is more than a dash.
fn is_option(word: &OsStr) -> bool {
    word.len() > 1 && word.as_encoded_bytes()[0] == b'-'
}

/// An option's name, and the value after an equals sign.
fn split(word: &OsStr) -> (String, Option<OsString>) {
    match word.to_str().and_then(|text| text.split_once('=')) {
        Some((name, value)) if name.starts_with("--") => (name.into(), Some(value.into())),
        _ => (word.to_string_lossy().into_owned(), None),
    }
}
