//! Sheets, and their fields.

use crate::bytes::checked_bytes;
use std::error::Error;
use std::fmt;

/// A whole sheet: what a file shows, page by page. It is read as its bytes wherever bytes are taken.
///
/// ```
/// use spatecanter::sheet::Field;
/// use spatecanter::{read_tape, reprint, Machine, Sheet};
///
/// let galley = read_tape(&[0x40, 0xEF, 0x52, 0x01, 0x49], Machine::Eight)?;
/// let sheet: Sheet = reprint(&galley, &[])?.sheet;
/// let fields: Vec<Field> = sheet.fields().collect();
/// assert_eq!(fields, [Field::Page(1), Field::Character { x: 0, y: 0, font: 17, code: 1 }]);
/// # Ok::<(), spatecanter::Refusal>(())
/// ```
#[derive(Clone, Debug, PartialEq, Eq)]
pub struct Sheet {
    bytes: Vec<u8>,
}

checked_bytes!(Sheet);

impl Sheet {
    /// The sheet of these bytes, if they are one to the last byte.
    ///
    /// ```
    /// use spatecanter::Sheet;
    ///
    /// assert!(Sheet::from_bytes(vec![2, 0, 4, 0, 0, 0, 0]).is_ok());
    /// let fault = Sheet::from_bytes(vec![2, 0, 4, 0, 0, 0, 1]).unwrap_err();
    /// assert_eq!(fault.to_string(), "no sheet: an End with a wrong count at 0");
    /// ```
    pub fn from_bytes(bytes: Vec<u8>) -> Result<Sheet, Fault> {
        let place = end_of_fields(&bytes, 0);
        let count = fields(&bytes).count();
        let fault = |what| Err(Fault { place, what });
        match &bytes[place..] {
            [] => fault("End is missing"),
            [2, 0, 4, a, b, c, d] if u32::from_be_bytes([*a, *b, *c, *d]) as usize == count => {
                Ok(Sheet { bytes })
            }
            [2, 0, 4, _, _, _, _] => fault("an End with a wrong count"),
            [2, 0, 4, _, _, _, _, ..] => fault("an End that is not the last field"),
            _ => fault("an unknown field, or one cut short,"),
        }
    }

    /// A sheet that the library has written.
    pub(crate) fn written(bytes: Vec<u8>) -> Sheet {
        Sheet { bytes }
    }

    /// Its fields before End, in order.
    ///
    /// ```
    /// use spatecanter::Sheet;
    ///
    /// let sheet = Sheet::from_bytes(vec![2, 0, 4, 0, 0, 0, 0])?;
    /// assert_eq!(sheet.fields().count(), 0);
    /// # Ok::<(), spatecanter::sheet::Fault>(())
    /// ```
    pub fn fields(&self) -> impl Iterator<Item = Field> + '_ {
        fields(&self.bytes)
    }
}

impl TryFrom<Vec<u8>> for Sheet {
    type Error = Fault;

    fn try_from(bytes: Vec<u8>) -> Result<Sheet, Fault> {
        Sheet::from_bytes(bytes)
    }
}

/// A field of a sheet, End apart. Places and sides are in rsu, 1/65536 of a point; of an XGP file in dots and scan
/// lines.
///
/// ```
/// use spatecanter::sheet::Field;
///
/// assert_ne!(Field::Page(1), Field::Page(2));
/// ```
#[derive(Clone, Copy, Debug, PartialEq, Eq)]
pub enum Field {
    /// The start of a page, with its number.
    Page(i32),
    /// A character.
    Character {
        /// Its place across.
        x: i32,
        /// Its place down.
        y: i32,
        /// Its font.
        font: i32,
        /// Its number in the font.
        code: u8,
    },
    /// A rule.
    Rule {
        /// Whether it is a horizontal one.
        horizontal: bool,
        /// The place across before it.
        x: i32,
        /// The place down before it.
        y: i32,
        /// Its height.
        height: i32,
        /// Its width.
        width: i32,
    },
}

/// What is wrong with bytes that are no sheet, and where.
///
/// ```
/// use spatecanter::Sheet;
///
/// let fault = Sheet::from_bytes(vec![]).unwrap_err();
/// assert_eq!((fault.place, fault.what), (0, "End is missing"));
/// ```
#[derive(Clone, Copy, Debug, PartialEq, Eq)]
pub struct Fault {
    /// The first byte of what is no field of a sheet, or the length.
    pub place: usize,
    /// What is wrong there.
    pub what: &'static str,
}

impl fmt::Display for Fault {
    fn fmt(&self, f: &mut fmt::Formatter) -> fmt::Result {
        write!(f, "no sheet: {} at {}", self.what, self.place)
    }
}

impl Error for Fault {}

/// The bytes of the longest field: a rule.
///
/// ```
/// assert_eq!(spatecanter::sheet::LONGEST_FIELD, 3 + 17);
/// ```
pub const LONGEST_FIELD: usize = 20;

/// Where the fields that start at `place` are no longer whole fields before End: the place of a sheet's End,
/// of a fault, or of a field that is still to come.
///
/// ```
/// use spatecanter::sheet::end_of_fields;
///
/// assert_eq!(end_of_fields(&[5, 0, 4, 0, 0, 0, 1, 3, 0], 0), 7);
/// ```
pub fn end_of_fields(sheet: &[u8], place: usize) -> usize {
    let mut rest = &sheet[place..];
    while let Some((_, after)) = split(rest) {
        rest = after;
    }
    sheet.len() - rest.len()
}

/// The fields before End.
fn fields(sheet: &[u8]) -> impl Iterator<Item = Field> + '_ {
    let mut rest = sheet;
    std::iter::from_fn(move || {
        let (field, after) = split(rest)?;
        rest = after;
        Some(field)
    })
}

/// The first field and what follows it; nothing at End.
fn split(rest: &[u8]) -> Option<(Field, &[u8])> {
    let (header, body) = rest.split_first_chunk()?;
    match header {
        [5, 0, 4] => body.split_first_chunk().map(|(body, after)| (page(body), after)),
        [3, 0, 13] => body.split_first_chunk().map(|(body, after)| (character(body), after)),
        [4, 0, 17] => {
            let (body, after) = body.split_first_chunk()?;
            Some((rule(body)?, after))
        }
        _ => None,
    }
}

fn page(body: &[u8; 4]) -> Field {
    Field::Page(i32::from_be_bytes(*body))
}

fn character(body: &[u8; 13]) -> Field {
    Field::Character { x: number(body, 0), y: number(body, 4), font: number(body, 8), code: body[12] }
}

fn rule(body: &[u8; 17]) -> Option<Field> {
    let horizontal = match body[0] {
        0 => false,
        1 => true,
        _ => return None,
    };
    let (x, y) = (number(body, 1), number(body, 5));
    Some(Field::Rule { horizontal, x, y, height: number(body, 9), width: number(body, 13) })
}

fn number(bytes: &[u8], at: usize) -> i32 {
    i32::from_be_bytes([bytes[at], bytes[at + 1], bytes[at + 2], bytes[at + 3]])
}
