//! Code tables: which character each code of a font is.

use crate::failure::Failure;
use crate::input::{self, shown};
use spatecanter::galley::Character;
use std::ffi::{OsStr, OsString};

/// The longest table, in bytes.
const LIMIT: usize = 1_048_576;
/// Fonts, and codes in each, both counted from 1.
const FONTS: usize = 8;
const CODES: usize = 108;

/// What a character looks like that a table lacks.
pub const UNKNOWN: char = '\u{fffd}';

pub struct Codes {
    name: OsString,
    /// The character of each code, font by font, with the line that says so.
    characters: Vec<Option<(char, usize)>>,
}

impl Codes {
    /// The table that --codes names.
    pub fn read(name: &OsStr) -> Result<Codes, Failure> {
        let bytes = input::read(name, LIMIT)?;
        let wrong = |what: String| Failure::File(format!("{}: {what}", shown(name)));
        if bytes.len() > LIMIT {
            return Err(wrong("longer than 1,048,576 bytes".into()));
        }
        let mut codes = Codes { name: name.into(), characters: vec![None; FONTS * CODES] };
        // Some editors begin a file of UTF-8 with a byte order mark.
        let text = bytes.strip_prefix("\u{feff}".as_bytes()).unwrap_or(&bytes);
        for (number, line) in (1..).zip(text.split(|&byte| byte == b'\n')) {
            codes.take(number, line).map_err(|what| wrong(format!("line {number}: {what}")))?;
        }
        Ok(codes)
    }

    /// The name of the table for people.
    pub fn shown(&self) -> String {
        shown(&self.name)
    }

    /// The character that is set, where the table has it.
    pub fn character(&self, it: &Character) -> Option<char> {
        self.of(it.font(), it.code)
    }

    /// The character of a font and a code, where the table has it.
    pub fn of(&self, font: i32, code: i32) -> Option<char> {
        let is_there = (1..=FONTS as i32).contains(&font) && (1..=CODES as i32).contains(&code);
        let entry = self.characters[is_there.then(|| place(font as usize, code as usize))?];
        entry.map(|(character, _)| character)
    }

    pub fn contains(&self, wanted: char) -> bool {
        self.characters.iter().flatten().any(|(character, _)| *character == wanted)
    }

    /// Takes a line: a font, a code and a character, or nothing; then perhaps a comment.
    fn take(&mut self, number: usize, line: &[u8]) -> Result<(), String> {
        let line = std::str::from_utf8(line).map_err(|_| "no UTF-8")?;
        let mut words = line.split_ascii_whitespace();
        let first = words.next().filter(|word| !word.starts_with('#'));
        let Some(font) = first else {
            return Ok(());
        };
        let (Some(code), Some(character)) = (words.next(), words.next()) else {
            return Err("no font, code and character, as in 1 72 0".into());
        };
        if words.next().is_some_and(|word| !word.starts_with('#')) {
            return Err("more than a font, a code and a character; a comment starts with #".into());
        }
        let place = place(number_to(FONTS, "font", font)?, number_to(CODES, "code", code)?);
        let character = one_character(character)?;
        match self.characters[place].replace((character, number)) {
            Some((_, line)) => {
                Err(format!("font {font} has a character of code {code} already, in line {line}"))
            }
            None => Ok(()),
        }
    }
}

fn place(font: usize, code: usize) -> usize {
    (font - 1) * CODES + code - 1
}

fn number_to(most: usize, what: &str, word: &str) -> Result<usize, String> {
    let number = word.parse().ok().filter(|number| (1..=most).contains(number));
    number.ok_or_else(|| format!("{word} is no {what}: it is 1 to {most}"))
}

fn one_character(word: &str) -> Result<char, String> {
    let mut characters = word.chars();
    match (characters.next(), characters.next()) {
        (Some(character), None) if !character.is_control() && !character.is_whitespace() => Ok(character),
        _ => Err(format!("{} is not one character that can be seen", word.escape_debug())),
    }
}
