//! The marks before the values of some fonts.

use crate::codes::Codes;
use crate::failure::Failure;
use std::ffi::OsStr;

/// Fonts with their marks.
pub struct FontMarks(Vec<(i32, String)>);

impl FontMarks {
    /// Those that --mark names. None is a letter, a figure or a character of the table, which it would be
    /// taken for.
    pub fn choose(word: Option<&OsStr>, codes: &Codes) -> Result<FontMarks, Failure> {
        let Some(word) = word else {
            return Ok(FontMarks(vec![]));
        };
        let words = word.to_string_lossy();
        let mut marks = FontMarks(vec![]);
        for word in words.split(',') {
            let mark = mark(word).filter(|(font, _)| marks.of(*font).is_empty());
            marks.0.push(mark.ok_or_else(|| {
                Failure::Usage(format!(
                    "--mark {words} names no marks: it is fonts of 1 to 8, each with a mark that is no letter and \
                     no figure, as in 2=~"
                ))
            })?);
        }
        match marks.0.iter().flat_map(|(_, mark)| mark.chars()).find(|character| codes.contains(*character)) {
            Some(character) => Err(Failure::Usage(format!(
                "--mark {words} has {character}, which is a character of {} too: take another",
                codes.shown()
            ))),
            None => Ok(marks),
        }
    }

    /// The mark before values of a font, or nothing.
    pub fn of(&self, font: i32) -> &str {
        self.0.iter().find(|(number, _)| *number == font).map_or("", |(_, mark)| mark)
    }

    /// The columns of the longest.
    pub fn longest(&self) -> usize {
        self.0.iter().map(|(_, mark)| mark.chars().count()).max().unwrap_or(0)
    }
}

/// A font and its mark after an equals sign.
fn mark(word: &str) -> Option<(i32, String)> {
    let (font, mark) = word.split_once('=')?;
    let font = font.parse().ok().filter(|font| (1..=8).contains(font))?;
    let is_seen = |character: char| {
        !character.is_alphanumeric() && !character.is_whitespace() && !character.is_control()
    };
    (!mark.is_empty() && mark.chars().all(is_seen)).then(|| (font, mark.into()))
}
