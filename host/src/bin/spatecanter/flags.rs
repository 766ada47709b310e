//! The options of all commands: their names, their values, and what they say.

use crate::commands::Command;

/// An option.
pub struct Flag {
    /// Its name in usage lines and in a command's list of options.
    pub name: &'static str,
    /// Its long name, where that is the short one.
    pub long: Option<&'static str>,
    /// The one command that has it so; another may have an option of this name that says something else.
    pub only: Option<&'static str>,
    pub value: Value,
    pub about: &'static str,
}

/// What an option's value is, with a name for it.
pub enum Value {
    /// There is none: the option is given or not.
    None,
    Words(&'static [&'static str]),
    File(&'static str),
    Folder(&'static str),
    Text(&'static str),
}

pub const FLAGS: &[Flag] = &[
    flag("--machine", Value::Words(&["4", "8"]), "how many fonts the tape's machine has; 8 without it"),
    flag("--pieces", Value::Text("N"), "read in pieces of at most N bytes, as they come"),
    flag("--widths", Value::File("FILE"), "a table of widths"),
    flag("--plain", Value::None, "read PUSH and POP as brackets"),
    flag("--check", Value::None, "read both ways, and say that they agree"),
    flag(
        "--fonts",
        Value::Text("NAMES"),
        "the fonts that are told apart, as in 3=measured,4=estimated; or none",
    ),
    flag("--edition", Value::Words(&["1980", "2"]), "the edition of DVI; 1980 without it"),
    flag("--dots", Value::Text("N"), "the sheet is of an XGP file with N dots to an inch"),
    flag("--spacing", Value::Text("N"), "the scan lines from one line to the next"),
    flag("--page", Value::Text("N"), "only this page, counted from 1"),
    flag("--from", Value::Text("HEIGHT"), "from this height on, in quanta, or in inches as in 12.5in"),
    Flag {
        only: Some("convert"),
        ..flag("--to", Value::Words(&["new", "old"]), "the form of the galley that is written")
    },
    flag("--to", Value::Text("HEIGHT"), "to this height, in quanta, or in inches as in 12.5in"),
    flag("--order", Value::Words(&["any"]), "compare a page's characters whatever their order"),
    flag("--list", Value::File("FILE"), "the tapes and their machines, a line for each"),
    flag("--format", Value::Words(&["text", "csv", "json"]), "for people, or for programs"),
    flag("--codes", Value::File("FILE"), "a table of the letters that the codes of each font stand for"),
    flag("--mark", Value::Text("MARKS"), "what stands before the figures of a font, as in 2=~"),
    flag("--split", Value::None, "a file for each page"),
    flag("--tapes", Value::None, "a line for each tape too"),
    Flag {
        long: Some("--directory"),
        ..flag("-d", Value::Folder("FOLDER"), "the folder that the files go to")
    },
    Flag {
        long: Some("--output"),
        ..flag("-o", Value::File("FILE"), "where the output goes; - is standard output")
    },
    flag("--force", Value::None, "write over files that are there already"),
    flag("--ending", Value::Text("ENDING"), "of a folder only files whose names end so, as in .tape"),
    Flag {
        long: Some("--threads"),
        ..flag("-j", Value::Text("N"), "many inputs on N threads; on as many as processors without it")
    },
    flag("--dry-run", Value::None, "check the inputs, and write no file"),
];

/// The options of every command.
pub const COMMON: &[Flag] = &[
    Flag { long: Some("--quiet"), ..flag("-q", Value::None, "nothing on standard error but failures") },
    Flag { long: Some("--verbose"), ..flag("-v", Value::None, "each step, and its time, on standard error") },
];

/// Asks for a command's help, whatever else is given.
pub const HELP: &Flag = &Flag { long: Some("--help"), ..flag("-h", Value::None, "this text") };

const fn flag(name: &'static str, value: Value, about: &'static str) -> Flag {
    Flag { name, long: None, only: None, value, about }
}

impl Flag {
    /// Its names, the short one first.
    pub fn names(&self) -> impl Iterator<Item = &'static str> {
        [Some(self.name), self.long].into_iter().flatten()
    }

    /// Its names with that of its value, as help has them.
    pub fn spelled(&self) -> String {
        let names: Vec<&str> = self.names().collect();
        match self.value.name() {
            Some(value) => format!("{} {value}", names.join(", ")),
            None => names.join(", "),
        }
    }
}

impl Value {
    pub fn name(&self) -> Option<String> {
        match self {
            Value::None => None,
            Value::Words(words) => Some(words.join("|")),
            Value::File(name) | Value::Folder(name) | Value::Text(name) => Some((*name).into()),
        }
    }
}

impl Command {
    /// Whether it takes many inputs, and folders, by the rules for many.
    pub fn takes_many(&self) -> bool {
        self.options.contains(&"-j")
    }

    /// Its options, those of every command last.
    pub fn flags(&self) -> impl Iterator<Item = &'static Flag> + '_ {
        self.options.iter().map(|name| self.listed(name)).chain(COMMON)
    }

    /// The same and that for help.
    pub fn told_flags(&self) -> impl Iterator<Item = &'static Flag> + '_ {
        self.flags().chain([HELP])
    }

    /// The option of this name, short or long.
    pub fn flag(&self, name: &str) -> Option<&'static Flag> {
        self.flags().find(|flag| flag.names().any(|known| known == name))
    }

    fn listed(&self, name: &str) -> &'static Flag {
        let mut flags = FLAGS.iter();
        let is_meant = |flag: &&Flag| flag.name == name && flag.only.is_none_or(|only| only == self.name);
        flags.find(is_meant).expect("every command's options are in the table")
    }
}
