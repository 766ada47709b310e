//! Galleys, and their characters and cuts.

use crate::bytes::checked_bytes;
use crate::explain::Refused;
use crate::operations::{check_galley, item_at};

/// A galley that the check accepts: characters with their places and fonts, and cuts between pages. It is read as
/// its bytes wherever bytes are taken.
///
/// ```
/// use spatecanter::{read_tape, Galley, Machine};
///
/// let galley: Galley = read_tape(&[0x40, 0xEF, 0x52, 0x4E, 0x01, 0xFC, 0x02, 0x49], Machine::Eight)?;
/// let places: Vec<i32> = galley.characters().map(|character| character.x).collect();
/// assert_eq!(places, [0, 3]);
/// assert_eq!(galley.len(), 29);
/// # Ok::<(), spatecanter::Refusal>(())
/// ```
#[derive(Clone, Debug, PartialEq, Eq)]
pub struct Galley {
    bytes: Vec<u8>,
}

checked_bytes!(Galley);

impl Galley {
    /// The galley of these bytes, if the check accepts them.
    ///
    /// ```
    /// use spatecanter::{Galley, Refusal};
    ///
    /// assert!(Galley::from_bytes(vec![2, 0, 4, 0, 0, 0, 0]).is_ok());
    /// let refused = Galley::from_bytes(vec![2, 0, 4, 0, 0, 0, 1]).unwrap_err();
    /// assert_eq!(refused.refusal(), Refusal::GalleyMalformed { place: 0 });
    /// assert!(refused.to_string().ends_with("expected: an End that counts 0 characters"));
    /// ```
    pub fn from_bytes(bytes: Vec<u8>) -> Result<Galley, Refused> {
        match check_galley(&bytes) {
            Ok(_) => Ok(Galley { bytes }),
            Err(refusal) => Err(Refused::new(refusal.in_galley(&bytes, Form::New), bytes)),
        }
    }

    /// A galley that the library has written.
    pub(crate) fn written(bytes: Vec<u8>) -> Galley {
        Galley { bytes }
    }

    /// Its characters and cuts, in order.
    ///
    /// ```
    /// use spatecanter::galley::Item;
    /// use spatecanter::{read_tape, Machine};
    ///
    /// let galley = read_tape(&[0x40, 0x4B, 0x40, 0x49], Machine::Eight)?;
    /// assert_eq!(galley.items().collect::<Vec<_>>(), [Item::Cut]);
    /// # Ok::<(), spatecanter::Refusal>(())
    /// ```
    pub fn items(&self) -> impl Iterator<Item = Item> + '_ {
        items(&self.bytes)
    }

    /// Its characters, in order.
    ///
    /// ```
    /// use spatecanter::{read_tape, Machine};
    ///
    /// let galley = read_tape(&[0x40, 0xEF, 0x52, 0x01, 0x49], Machine::Eight)?;
    /// assert_eq!(galley.characters().next().unwrap().points(), 10);
    /// # Ok::<(), spatecanter::Refusal>(())
    /// ```
    pub fn characters(&self) -> impl Iterator<Item = Character> + '_ {
        self.items().filter_map(|item| match item {
            Item::Character(character) => Some(character),
            Item::Cut => None,
        })
    }

    /// The characters of each page; a cut ends a page.
    ///
    /// ```
    /// use spatecanter::{read_tape, Machine};
    ///
    /// let galley = read_tape(&[0x40, 0x4B, 0x40, 0xEF, 0x52, 0x01, 0x49], Machine::Eight)?;
    /// let pages: Vec<usize> = galley.pages().iter().map(Vec::len).collect();
    /// assert_eq!(pages, [0, 1]);
    /// # Ok::<(), spatecanter::Refusal>(())
    /// ```
    pub fn pages(&self) -> Vec<Vec<Character>> {
        let mut pages = vec![vec![]];
        for item in self.items() {
            match item {
                Item::Character(character) => pages.last_mut().expect("there is a page").push(character),
                Item::Cut => pages.push(vec![]),
            }
        }
        pages
    }
}

impl TryFrom<Vec<u8>> for Galley {
    type Error = Refused;

    fn try_from(bytes: Vec<u8>) -> Result<Galley, Refused> {
        Galley::from_bytes(bytes)
    }
}

/// The form of a galley: its characters have tag 1 and two bytes for the height, or tag 7 and four.
///
/// ```
/// use spatecanter::{check_galley, Form};
///
/// let refusal = check_galley(&[1, 0, 6]).unwrap_err();
/// let explained = refusal.in_galley(&[1, 0, 6], Form::New);
/// assert!(explained.expected.unwrap().contains("tag 1 is the old form"));
/// ```
#[derive(Clone, Copy, Debug, PartialEq, Eq)]
pub enum Form {
    /// That of document 01, which only conversion takes and makes.
    Old,
    /// The present one.
    New,
}

/// A field of a galley, End apart.
///
/// ```
/// use spatecanter::galley::{items, Item};
///
/// assert_eq!(items(&[6, 0, 0]).next(), Some(Item::Cut));
/// ```
#[derive(Clone, Copy, Debug, PartialEq, Eq)]
pub enum Item {
    /// A character at its place.
    Character(Character),
    /// The end of a page, and the start of the next.
    Cut,
}

/// A character of a galley.
///
/// ```
/// use spatecanter::galley::Character;
///
/// let character = Character { x: -55, height: 0, font_number: 24, code: 1 };
/// assert_eq!((character.font(), character.points(), character.is_double()), (2, 16, true));
/// ```
#[derive(Clone, Copy, Debug, PartialEq, Eq)]
pub struct Character {
    /// Its place across, in units of 1/432 inch.
    pub x: i32,
    /// Its place down, in quanta of 1/144 inch, 0 to 1,000,000.
    pub height: i32,
    /// 15 x (font - 1) + size index, 0 to 119.
    pub font_number: i32,
    /// Its number in the font, 1 to 108.
    pub code: i32,
}

/// A font in a size, by its font number, as DVI files name it: C, the font, and the points in two digits.
///
/// ```
/// assert_eq!(spatecanter::galley::font_name(8), "C106");
/// ```
pub fn font_name(font_number: i32) -> String {
    let character = Character::of_font(font_number);
    format!("C{}{:02}", character.font(), character.points())
}

/// Point sizes by size index.
const POINTS: [i32; 15] = [7, 8, 10, 11, 12, 14, 18, 9, 6, 16, 20, 22, 24, 28, 36];

impl Character {
    /// Some character of a font number.
    ///
    /// ```
    /// assert_eq!(spatecanter::galley::Character::of_font(24).points(), 16);
    /// ```
    pub fn of_font(font_number: i32) -> Character {
        Character { x: 0, height: 0, font_number, code: 1 }
    }

    /// The font, 1 to 8.
    ///
    /// ```
    /// # use spatecanter::galley::Character;
    /// assert_eq!(Character { x: 0, height: 0, font_number: 119, code: 1 }.font(), 8);
    /// ```
    pub fn font(self) -> i32 {
        self.font_number / 15 + 1
    }

    /// The size in points.
    ///
    /// ```
    /// # use spatecanter::galley::Character;
    /// assert_eq!(Character { x: 0, height: 0, font_number: 2, code: 1 }.points(), 10);
    /// ```
    pub fn points(self) -> i32 {
        POINTS[self.size_index()]
    }

    /// Whether the size is set through the doubler lens.
    ///
    /// ```
    /// # use spatecanter::galley::Character;
    /// assert!(!Character { x: 0, height: 0, font_number: 8, code: 1 }.is_double());
    /// ```
    pub fn is_double(self) -> bool {
        self.size_index() >= 9
    }

    fn size_index(self) -> usize {
        self.font_number as usize % 15
    }
}

/// The characters and cuts of some fields, as a [`RunningTape`](crate::RunningTape) gives them; what is no whole field
/// ends them, and so does End.
///
/// ```
/// use spatecanter::galley::items;
/// use spatecanter::{Machine, RunningTape};
///
/// let mut tape = RunningTape::new();
/// tape.start(Machine::Eight);
/// let fields = tape.feed(&[0x40, 0xEF, 0x52, 0x01])?;
/// assert_eq!(items(&fields).count(), 1);
/// # Ok::<(), spatecanter::Refusal>(())
/// ```
pub fn items(fields: &[u8]) -> impl Iterator<Item = Item> + '_ {
    let mut at = 0;
    std::iter::from_fn(move || {
        let (item, length) = item_at(fields, at).ok()?;
        at += length;
        Some(item)
    })
}
