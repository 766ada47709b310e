//! Refusals of DVI files of 1980 in words; of one that gives no galley, the mark that is no galley's.

use super::{offset, Explained};
use crate::dvi::{commands, Command};
use crate::operations::{read_dvi, DVI_HEIGHT_LIMIT, ITEM_LIMIT};
use crate::refusal::Refusal;
use crate::sheet::Field;
use crate::text::grouped;

impl Refusal {
    /// What it says of a DVI file of 1980 that was read with these widths, or was to become a galley.
    ///
    /// ```
    /// use spatecanter::read_dvi;
    ///
    /// let dvi = [129, 0, 0, 0, 1, 255, 255, 255, 255, 133];
    /// let explained = read_dvi(&dvi, &[]).unwrap_err().in_dvi(&dvi, &[]);
    /// assert_eq!(explained.found.unwrap(), "at offset 9 (hexadecimal 9): command 133, POP");
    /// ```
    pub fn in_dvi(self, dvi: &[u8], widths: &[i32]) -> Explained {
        // Only these are at a command, or at the file's end.
        if !matches!(self.number(), 21..=29 | 45) {
            return Explained::new(self);
        }
        let place = self.place();
        let found = match dvi.get(place) {
            Some(&code) => {
                let name = Command { place, code, parameters: &[] }.name();
                format!("{}: command {code}, {name}", offset(place))
            }
            None => format!("{}: the end of the file", offset(place)),
        };
        let mark = Some(self).filter(|refusal| matches!(refusal, Refusal::NoGalley { .. }));
        match mark.and_then(|_| mark_at(dvi, widths, place)) {
            Some(Break { shown, expected }) => Explained {
                refusal: self,
                found: Some(format!("{found}\n  shown: {shown}")),
                expected: Some(expected),
            },
            None => Explained { refusal: self, found: Some(found), expected: None },
        }
    }
}

/// The mark that breaks a condition, and what was expected in its place.
struct Break {
    shown: String,
    expected: String,
}

/// What the command at this place shows. The file is one that the reader accepts, and what is shown before
/// it is a galley's.
fn mark_at(dvi: &[u8], widths: &[i32], place: usize) -> Option<Break> {
    let sheet = read_dvi(dvi, widths).ok()?;
    let before =
        commands(dvi).take_while(|command| command.place < place).filter(|command| command.shows()).count();
    let pages = sheet.fields().take(before).filter(|field| matches!(field, Field::Page(_))).count();
    let field = sheet.fields().nth(before)?;
    // Page 1 is no item.
    let full = before > ITEM_LIMIT;
    Some(Break { shown: shown(field, pages), expected: expected(field, pages, full) })
}

fn shown(field: Field, pages: usize) -> String {
    match field {
        Field::Page(number) => format!("the start of page {number}"),
        Field::Character { x, y, font, code } => {
            format!("character {code} of font {font} at x {x}, y {y}, on page {pages}")
        }
        Field::Rule { x, y, .. } => format!("a rule at x {x}, y {y}, on page {pages}"),
    }
}

fn expected(field: Field, pages: usize, full: bool) -> String {
    match field {
        _ if full => format!("no more than {} characters and cuts", grouped(ITEM_LIMIT)),
        Field::Page(_) => format!("page {}: pages are numbered 1, 2, 3 on", pages + 1),
        Field::Rule { .. } => "no rule, since a galley has none".into(),
        Field::Character { font, .. } if !(0..120).contains(&font) => "a font of 0 to 119".into(),
        Field::Character { code, .. } if !(1..=108).contains(&code) => "a character of 1 to 108".into(),
        Field::Character { x, y, font, .. } => expected_place(x, y, font),
    }
}

/// The nearest targets of a valid place, with that place.
fn expected_place(x: i32, y: i32, font: i32) -> String {
    let (least, greatest) = if font % 15 >= 9 { (-55, 3_184) } else { (0, 3_239) };
    let units = (3 * i64::from(x) + 16_384).div_euclid(32_768).clamp(least, greatest);
    let height = (i64::from(y) + 16_384).div_euclid(32_768).clamp(0, DVI_HEIGHT_LIMIT.into());
    format!(
        "a target; the nearest is x {} (of {units} units), y {} (of height {height})",
        (65_536 * units + 3).div_euclid(6),
        32_768 * height
    )
}
