//! Refusals of XGP files in words: the code at the place, by the name that character mode gives it, and what was
//! expected there.

use super::{bytes_in_words, offset, Explained};
use crate::operations::WIDTHS_PER_FONT;
use crate::refusal::Refusal;
use crate::sheet::Field;
use crate::text::counted;
use crate::xgp::read_xgp;

impl Refusal {
    /// What it says of an XGP file that was read with this line spacing and these widths.
    ///
    /// ```
    /// use spatecanter::{read_xgp, XGP_WIDTHS};
    ///
    /// let widths = [0; XGP_WIDTHS];
    /// let explained = read_xgp(b"A\x08", 1, &widths).unwrap_err().in_xgp(b"A\x08", 1, &widths);
    /// assert!(explained.found.unwrap().ends_with("bytes 08 (10 octal), backspace"));
    /// ```
    pub fn in_xgp(self, file: &[u8], spacing: u16, widths: &[i32]) -> Explained {
        let (found, expected) = match self {
            Refusal::WidthsNotWhole => (
                format!("it has {}", counted(widths.len(), "number")),
                "512, of which 128 for each of the fonts 0 to 3".into(),
            ),
            Refusal::NegativeWidth => match negative(widths) {
                Some(found) => (found, "0 or more".into()),
                None => return Explained::new(self),
            },
            Refusal::OutsidePart { place }
            | Refusal::ReservedCode { place }
            | Refusal::CodeCutShort { place }
            | Refusal::OutOf32Bits { place } => {
                let rest = &file[place.min(file.len())..];
                let code = &rest[..length(rest).min(rest.len())];
                let (bytes, name) = (bytes_in_words(code, 5), name(code));
                let found = format!("{}: {bytes} ({} octal), {name}", offset(place), octal(code));
                (found, expected(file, spacing, widths, code, self))
            }
            _ => return Explained::new(self),
        };
        Explained { refusal: self, found: Some(found), expected: Some(expected) }
    }
}

/// Which width is negative.
fn negative(widths: &[i32]) -> Option<String> {
    let place = widths.iter().position(|width| *width < 0)?;
    let (font, code) = (place / WIDTHS_PER_FONT, place % WIDTHS_PER_FONT);
    Some(format!("character {code} ({code:o} octal) of font {font} has {}", widths[place]))
}

fn octal(code: &[u8]) -> String {
    let digits: Vec<String> = code.iter().map(|byte| format!("{byte:o}")).collect();
    digits.join(" ")
}

/// The bytes of the code that a rest starts with, as far as they tell which it is or are read.
fn length(rest: &[u8]) -> usize {
    match rest {
        [0o177, 1, 0o40, ..] => 5,
        [0o177, 1, 0o43, ..] => 4,
        [0o177, 1 | 2, ..] => 3,
        [0o177, ..] => 2,
        _ => 1,
    }
}

/// A code by its name.
fn name(code: &[u8]) -> &'static str {
    match code {
        [0o10] => "backspace",
        [0o11] => "TAB",
        [0o12] => "LF",
        [0o177] => "ESCAPE alone",
        [0o177, 1] => "XGP ESCAPE 1 alone",
        [0o177, 1, operation, ..] => operation_name(*operation),
        [0o177, 2, ..] => "XGP ESCAPE 2, a column increment",
        [0o177, 3] => "XGP ESCAPE 3, the scan line to start on",
        [0o177, 4] => "XGP ESCAPE 4, a vector",
        [0o177, 5..=8 | 0o13 | 0o16..=0o37] => "an escape that is reserved for future use",
        [0o177, 0o200..=0o377] => "ESCAPE with a byte that is no code",
        [0o177, _] => "an escaped character",
        [0o200..=0o377] => "which is no code",
        _ => "a character",
    }
}

/// The special operations of XGP ESCAPE 1.
fn operation_name(operation: u8) -> &'static str {
    match operation {
        0..=3 => "font select",
        0o4..=0o37 => "an operation that is reserved for future use",
        0o40 => "XGP column selector",
        0o41 => "XGP underscore",
        0o42 => "line space",
        0o43 => "base-line adjust",
        0o44 => "print the paper page number",
        0o45 => "accept heading text",
        0o46 => "start underline",
        0o47 => "stop underline",
        0o50 => "intercharacter spacing",
        0o51..=0o177 => "an operation that is not listed",
        0o200.. => "XGP ESCAPE 1 with a byte that is no operation",
    }
}

fn expected(file: &[u8], spacing: u16, widths: &[i32], code: &[u8], refusal: Refusal) -> String {
    match refusal {
        Refusal::OutsidePart { .. } if code.iter().any(|byte| *byte > 127) => {
            "bytes to 127 (177 octal)".into()
        }
        Refusal::CodeCutShort { .. } => "the rest of the code".into(),
        Refusal::OutOf32Bits { place } => {
            let standing = standing(&file[..place.min(file.len())], spacing, widths);
            let place =
                standing.map_or(String::new(), |(x, y)| format!("; it stands at x {x}, baseline {y}"));
            format!("x, the baseline and each character's y to 2,147,483,647{place}")
        }
        _ => "a code that is read here, see spatecanter xgp --help".into(),
    }
}

/// The x and the baseline after some codes: those of one more character, the narrowest, if there is room for it. Its
/// font select ends an adjustment.
fn standing(codes: &[u8], spacing: u16, widths: &[i32]) -> Option<(i32, i32)> {
    let narrowest = (0..widths.len()).filter(|place| place % WIDTHS_PER_FONT >= 0o40);
    let place = narrowest.min_by_key(|place| widths[*place])?;
    let (font, code) = ((place / WIDTHS_PER_FONT) as u8, (place % WIDTHS_PER_FONT) as u8);
    let end = [0o177, 1, font, 0o177, code];
    let sheet = read_xgp(&[codes, &end].concat(), spacing, widths).ok()?;
    let last = sheet.fields().filter_map(character_place).last();
    last
}

fn character_place(field: Field) -> Option<(i32, i32)> {
    match field {
        Field::Character { x, y, .. } => Some((x, y)),
        _ => None,
    }
}
