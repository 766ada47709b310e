//! Refusals of galleys in words.

use super::{bytes_in_words, offset, Explained};
use crate::galley::{items, Form, Item};
use crate::operations::ITEM_LIMIT;
use crate::refusal::Refusal;
use crate::text::{counted, grouped};

impl Refusal {
    /// What it says of a galley that was taken for one of this form.
    ///
    /// ```
    /// use spatecanter::{galley_to_new, Form};
    ///
    /// let galley = [7, 0, 8];
    /// let refusal = galley_to_new(&galley).unwrap_err();
    /// let expected = refusal.in_galley(&galley, Form::Old).expected.unwrap();
    /// assert!(expected.contains("tag 7 is the new form"));
    /// ```
    pub fn in_galley(self, galley: &[u8], form: Form) -> Explained {
        let rest = &galley[self.place().min(galley.len())..];
        let expected = match self {
            Refusal::GalleyMalformed { place } => expected_field(form, galley, place),
            Refusal::HeightTooGreat { .. } => expected_height(rest),
            _ => return Explained::new(self),
        };
        let found = format!("{} of the galley: {}", offset(self.place()), bytes_in_words(rest, 11));
        Explained { refusal: self, found: Some(found), expected: Some(expected) }
    }
}

/// What is wrong with the first bad field of a galley of this form.
fn expected_field(form: Form, galley: &[u8], place: usize) -> String {
    let (before, rest) = galley.split_at(place.min(galley.len()));
    let Run { characters, cuts, ended } = run_of(before);
    match (form, rest) {
        _ if ended => "the end of the file, since End was read".into(),
        (_, [2, 0, 4, _, _, _, _, ..]) => format!("an End that counts {}", counted(characters, "character")),
        _ if characters + cuts == ITEM_LIMIT => {
            format!("End (02 00 04 ...), after {} characters and cuts", grouped(ITEM_LIMIT))
        }
        (Form::New, [7, 0, 8, _, _, height1, height2, height3, height4, font_number, code, ..]) => {
            let height = u32::from_be_bytes([*height1, *height2, *height3, *height4]);
            expected_character(height, *font_number, *code).into()
        }
        (Form::Old, [1, 0, 6, _, _, height1, height2, font_number, code, ..]) => {
            let height = u16::from_be_bytes([*height1, *height2]);
            expected_character(height.into(), *font_number, *code).into()
        }
        (Form::New, [7, 0, 8, ..]) | (Form::Old, [1, 0, 6, ..]) | (_, [2, 0, 4, ..]) => {
            "the rest of the field, which is cut short".into()
        }
        (Form::New, [1, ..]) => {
            "a character (07 00 08 ...); tag 1 is the old form, see spatecanter convert --to new".into()
        }
        (Form::Old, [7, ..]) => {
            "a character (01 00 06 ...); tag 7 is the new form, see spatecanter convert --to old".into()
        }
        (Form::New, _) => "a character (07 00 08 ...), a cut (06 00 00) or End (02 00 04 ...)".into(),
        (Form::Old, _) => "a character (01 00 06 ...), a cut (06 00 00) or End (02 00 04 ...)".into(),
    }
}

/// What stands before the first bad field: how many characters and cuts, and whether End.
#[derive(Default)]
struct Run {
    characters: usize,
    cuts: usize,
    ended: bool,
}

/// Good fields of one form.
fn run_of(fields: &[u8]) -> Run {
    let mut run = Run::default();
    let mut rest = fields;
    while let [tag, high, low, after @ ..] = rest {
        match tag {
            6 => run.cuts += 1,
            2 => run.ended = true,
            _ => run.characters += 1,
        }
        let length = usize::from(u16::from_be_bytes([*high, *low]));
        rest = &after[length.min(after.len())..];
    }
    run
}

fn expected_character(height: u32, font_number: u8, code: u8) -> &'static str {
    if height > 1_000_000 {
        "a height of 0 to 1,000,000"
    } else if font_number > 119 {
        "a font number of 0 to 119"
    } else if !(1..=108).contains(&code) {
        "a character of 1 to 108"
    } else if font_number % 15 >= 9 {
        "an x of -55 to 3,184, in a double size"
    } else {
        "an x of 0 to 3,239, in a single size"
    }
}

/// What DVI and the old form ask of the height of the character that comes first in a rest.
fn expected_height(rest: &[u8]) -> String {
    let height = match items(rest).next() {
        Some(Item::Character(character)) => character.height as usize,
        _ => 0,
    };
    format!("a height of at most 65,535; it is {}", grouped(height))
}
