//! What a reprinted tape holds, in numbers.

use crate::fonts::Fonts;
use crate::text::{farthest_x, greatest_height, grouped};
use spatecanter::galley::{font_name, Character, Item};
use spatecanter::{Extents, Galley};
use std::collections::BTreeMap;
use std::fmt;

pub struct Summary<'a> {
    fonts: &'a Fonts,
    pages: usize,
    extents: Extents,
    /// How many characters there are of each font number.
    by_font: BTreeMap<i32, usize>,
}

impl Summary<'_> {
    pub fn of<'a>(galley: &Galley, extents: Extents, fonts: &'a Fonts) -> Summary<'a> {
        let pages = 1 + galley.items().filter(|item| *item == Item::Cut).count();
        let mut by_font = BTreeMap::new();
        for character in galley.characters() {
            *by_font.entry(character.font_number).or_default() += 1;
        }
        Summary { fonts, pages, extents, by_font }
    }

    /// The characters of a font, in all its sizes.
    fn in_font(&self, font: i32) -> usize {
        self.by_font
            .iter()
            .filter(|(number, _)| Character::of_font(**number).font() == font)
            .map(|(_, count)| count)
            .sum()
    }
}

impl fmt::Display for Summary<'_> {
    fn fmt(&self, f: &mut fmt::Formatter) -> fmt::Result {
        let row = |f: &mut fmt::Formatter, what: &str, count: usize| {
            writeln!(f, "{what:<28}{:>10}", grouped(count))
        };
        row(f, "characters", self.by_font.values().sum())?;
        row(f, "pages", self.pages)?;
        let (x, height) = (farthest_x(self.extents), greatest_height(self.extents));
        for (what, reach) in [("farthest x", x), ("greatest height", height)] {
            let (number, measures) = reach.split_once(' ').unwrap_or_default();
            writeln!(f, "{what:<28}{number:>10} {measures}")?;
        }
        for font in self.fonts.iter() {
            row(f, &format!("in {}", font.label()), self.in_font(font.number))?;
        }
        row(f, "fonts, by size", self.by_font.len())?;
        for (&number, &count) in &self.by_font {
            let (font, points) = (Character::of_font(number).font(), Character::of_font(number).points());
            row(f, &format!("  {}: font {font}, {points} points", font_name(number)), count)?;
        }
        Ok(())
    }
}
