//! What pages show, wherever they come from: marks and rules, in units of 1/432 inch to the right and down.

use spatecanter::galley::Character;
use spatecanter::sheet::Field;
use spatecanter::{Galley, Sheet};

/// Units in a quantum of height.
pub const QUANTUM: i64 = 3;
pub const INCH: i64 = 432;

/// A page, and its number.
pub struct Page {
    pub number: i64,
    pub marks: Vec<Mark>,
    pub rules: Vec<Rule>,
}

/// A character, from the left end of its baseline.
#[derive(Clone, Copy)]
pub struct Mark {
    pub x: i64,
    pub y: i64,
    /// Its font, if it is one of those that can be told apart: 1 to 8 of a C/A/T, 0 to 3 of an XGP.
    pub font: Option<i32>,
    /// Its size in points, if it is known, and its number in the font.
    pub points: Option<i32>,
    pub code: i32,
    pub size: Size,
}

/// How large a mark is drawn.
#[derive(Clone, Copy, PartialEq)]
pub enum Size {
    /// A blank of an XGP file.
    Blank,
    Single,
    Double,
}

/// A rule, by its edges.
#[derive(Clone, Copy)]
pub struct Rule {
    pub left: i64,
    pub right: i64,
    pub top: i64,
    pub bottom: i64,
}

/// The measure of a sheet's places, which the sheet does not say.
#[derive(Clone, Copy)]
pub enum Measure {
    /// 1/65536 of a point of 1/72 inch, as of a DVI file.
    Rsu,
    /// Dots and scan lines, so many to an inch, as of an XGP file.
    Dots(u32),
}

impl Measure {
    /// The nearest unit; the upper of two.
    fn units(self, number: i64) -> i64 {
        let (times, per) = match self {
            Measure::Rsu => (QUANTUM, 32_768),
            Measure::Dots(dots) => (INCH, dots.into()),
        };
        (2 * times * number + per).div_euclid(2 * per)
    }

    /// The font of a sheet's character: in a DVI file of a galley its number is a font in a size.
    fn font(self, number: i32) -> Option<i32> {
        match self {
            Measure::Rsu => (0..120).contains(&number).then(|| Character::of_font(number).font()),
            Measure::Dots(_) => Some(number),
        }
    }

    fn points(self, number: i32) -> Option<i32> {
        match self {
            Measure::Rsu => (0..120).contains(&number).then(|| Character::of_font(number).points()),
            Measure::Dots(_) => None,
        }
    }

    fn size(self, font: i32, code: u8) -> Size {
        match self {
            Measure::Rsu if (0..120).contains(&font) && Character::of_font(font).is_double() => Size::Double,
            Measure::Dots(_) if code == 0o40 => Size::Blank,
            _ => Size::Single,
        }
    }
}

/// The pages of a galley.
pub fn of_galley(galley: &Galley) -> Vec<Page> {
    let pages = galley.pages();
    let marks = |page: Vec<Character>| page.into_iter().map(Mark::of).collect();
    (1..).zip(pages).map(|(number, page)| Page { number, marks: marks(page), rules: vec![] }).collect()
}

/// The pages of a sheet that begins with a page.
pub fn of_sheet(sheet: &Sheet, measure: Measure) -> Vec<Page> {
    let mut pages: Vec<Page> = Vec::new();
    for field in sheet.fields() {
        match (field, pages.last_mut()) {
            (Field::Page(number), _) => {
                pages.push(Page { number: number.into(), marks: vec![], rules: vec![] });
            }
            (Field::Character { x, y, font, code }, Some(page)) => {
                page.marks.push(Mark {
                    x: measure.units(x.into()),
                    y: measure.units(y.into()),
                    font: measure.font(font),
                    points: measure.points(font),
                    code: code.into(),
                    size: measure.size(font, code),
                });
            }
            // A rule with a side of 0 or less leaves no ink.
            (Field::Rule { x, y, height, width, .. }, Some(page)) if height > 0 && width > 0 => {
                page.rules.push(Rule::of([x, y, height, width], measure));
            }
            _ => {}
        }
    }
    pages
}

impl Mark {
    fn of(character: Character) -> Mark {
        let size = if character.is_double() { Size::Double } else { Size::Single };
        Mark {
            x: character.x.into(),
            y: QUANTUM * i64::from(character.height),
            font: Some(character.font()),
            points: Some(character.points()),
            code: character.code,
            size,
        }
    }
}

impl Rule {
    /// The rule of this height and width above and to the right of a place; each side is at least a unit.
    fn of(numbers: [i32; 4], measure: Measure) -> Rule {
        let [x, y, height, width] = numbers.map(i64::from);
        let [left, right, top, bottom] = [x, x + width, y - height, y].map(|place| measure.units(place));
        Rule { left, right: right.max(left + 1), top: top.min(bottom - 1), bottom }
    }
}

impl Page {
    /// The lowest baseline, in quanta.
    pub fn lowest(&self) -> i32 {
        let lowest = self.marks.iter().map(|mark| mark.y).max().unwrap_or(0);
        (lowest / QUANTUM).clamp(0, i32::MAX.into()) as i32
    }
}
