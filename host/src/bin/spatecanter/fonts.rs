//! The fonts that summaries and pictures tell apart, and what they mean in a book.

use crate::failure::Failure;
use spatecanter::Machine;
use std::ffi::OsStr;
use std::ops::RangeInclusive;

/// Some fonts, with their names and colours.
pub struct Fonts(Vec<Font>);

pub struct Font {
    pub number: i32,
    name: Option<String>,
    /// As #rrggbb, if one was chosen.
    pub colour: Option<String>,
}

impl Font {
    /// The font, with its name.
    pub fn label(&self) -> String {
        match &self.name {
            Some(name) => format!("font {} ({name})", self.number),
            None => format!("font {}", self.number),
        }
    }
}

impl Fonts {
    /// Those that --fonts names, or fonts 1 and 2: in the yearbooks of the 8-font machine measured and
    /// estimated values.
    pub fn choose(word: Option<&OsStr>, machine: Option<Machine>) -> Result<Fonts, Failure> {
        let words = match word {
            Some(word) if word == "none" => "1,2".into(),
            Some(word) => word.to_string_lossy(),
            None if machine == Some(Machine::Eight) => "1=measured,2=estimated".into(),
            None => "1,2".into(),
        };
        Fonts::named(&words, 1..=8)
    }

    /// Those of an XGP file that --fonts names, or fonts 0 and 1.
    pub fn choose_of_xgp(word: Option<&OsStr>) -> Result<Fonts, Failure> {
        let words = match word {
            Some(word) if word != "none" => word.to_string_lossy(),
            _ => "0,1".into(),
        };
        Fonts::named(&words, 0..=3)
    }

    /// Fonts of these numbers, none of them twice.
    fn named(words: &str, numbers: RangeInclusive<i32>) -> Result<Fonts, Failure> {
        let mut fonts = Fonts(vec![]);
        for word in words.split(',') {
            let font = font(word, &numbers).filter(|font| fonts.position(font.number).is_none());
            let font = font.ok_or_else(|| {
                Failure::Usage(format!(
                    "--fonts {words} names no fonts: it is some of {} to {} with their names, as in \
                     1=measured,2=estimated, and with their colours, as in 2=estimated:#d55e00, or none",
                    numbers.start(),
                    numbers.end()
                ))
            })?;
            fonts.0.push(font);
        }
        Ok(fonts)
    }

    pub fn iter(&self) -> impl Iterator<Item = &Font> {
        self.0.iter()
    }

    /// A font, with its name if it has one.
    pub fn label(&self, number: i32) -> String {
        match self.position(number) {
            Some(position) => self.0[position].label(),
            None => format!("font {number}"),
        }
    }

    /// Which of the fonts this is.
    pub fn position(&self, number: i32) -> Option<usize> {
        self.0.iter().position(|font| font.number == number)
    }
}

/// A font's number, its name after an equals sign, and its colour after a colon.
fn font(word: &str, numbers: &RangeInclusive<i32>) -> Option<Font> {
    let (word, colour) = match word.rsplit_once(":#") {
        Some((word, digits)) => (word, Some(colour(digits)?)),
        None => (word, None),
    };
    let (number, name) = match word.split_once('=') {
        Some((number, name)) => (number, Some(name.to_string())),
        None => (word, None),
    };
    let number = number.parse().ok().filter(|number| numbers.contains(number))?;
    Some(Font { number, name: name.filter(|name| !name.is_empty()), colour })
}

/// Six hexadecimal digits: red, green and blue.
fn colour(digits: &str) -> Option<String> {
    let is_colour = digits.len() == 6 && digits.chars().all(|digit| digit.is_ascii_hexdigit());
    is_colour.then(|| format!("#{}", digits.to_ascii_lowercase()))
}
