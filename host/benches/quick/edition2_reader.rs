//! A DVI file of the second edition to its galley.

use super::edition2::{
    bop, move_length, post, post_post, preamble, Measure, BOP, DEFINITION, DEFINITIONS, NO_FONT, PREAMBLE,
};
use super::galley::SHIFT;
use super::{accepted, refused};

const LONGEST: usize = 67_108_864;

/// Characters and cuts in a galley, together.
const MOST: usize = 1_048_576;

/// No character has more bytes: a definition, a font, moves right and down, and put.
const WINDOW: usize = 32;

pub fn read_dvi2(dvi: &[u8], galley: &mut [u8]) -> [usize; 3] {
    if dvi.len() > LONGEST {
        return refused((20, 0));
    }
    let mut test = Test { dvi, at: 0, items: 0, measure: Measure::default() };
    if let Err(place) = test.file() {
        return refused((46, place));
    }
    let cuts = test.measure.pages - 1;
    let characters = test.items - cuts;
    let length = 11 * characters + 3 * cuts + 7;
    if galley.len() < length {
        return refused((12, length));
    }
    fill(dvi, characters, &mut galley[..length]);
    accepted(length)
}

/// A page so far: where the last character stands, and its font.
#[derive(Clone, Copy)]
struct Page {
    x: i32,
    y: i32,
    font: usize,
}

const PAGE: Page = Page { x: 0, y: 0, font: NO_FONT };

/// What is read so far. A refusal is its place.
struct Test<'a> {
    dvi: &'a [u8],
    at: usize,
    items: usize,
    measure: Measure,
}

impl Test<'_> {
    fn file(&mut self) -> Result<(), usize> {
        self.fixed(&preamble())?;
        let mut last = -1;
        loop {
            self.measure.pages += 1;
            let place = self.at as i32;
            self.fixed(&bop(self.measure.pages as i32, last))?;
            last = place;
            self.page()?;
            if self.dvi.get(self.at) != Some(&139) || self.items == MOST {
                break;
            }
            self.items += 1;
        }
        let place = self.at;
        self.fixed(&post(&self.measure, last))?;
        for (font, definition) in DEFINITIONS.iter().enumerate() {
            if self.measure.has(font) {
                self.fixed(definition)?;
            }
        }
        self.fixed(&post_post(place))?;
        for _ in self.at..(self.at + 4).next_multiple_of(4) {
            self.fixed(&[223])?;
        }
        if self.at < self.dvi.len() {
            return Err(self.at);
        }
        Ok(())
    }

    /// A command that alone may come.
    fn fixed(&mut self, command: &[u8]) -> Result<(), usize> {
        let rest = &self.dvi[self.at..];
        let length = rest.len().min(command.len());
        if rest[..length] != command[..length] {
            return Err(self.at);
        }
        self.at += length;
        if length < command.len() {
            return Err(self.at);
        }
        Ok(())
    }

    /// The characters of a page, and eop.
    fn page(&mut self) -> Result<(), usize> {
        let mut page = PAGE;
        loop {
            match self.dvi.get(self.at) {
                None => return Err(self.at),
                Some(140) => {
                    self.at += 1;
                    return Ok(());
                }
                Some(_) if self.items == MOST => return Err(self.at),
                Some(_) if self.at + WINDOW <= self.dvi.len() => self.character::<false>(&mut page)?,
                Some(_) => self.character::<true>(&mut page)?,
            }
            self.items += 1;
        }
    }

    /// One character; near the end of the file each command may be cut short.
    #[inline(always)]
    fn character<const CAREFUL: bool>(&mut self, page: &mut Page) -> Result<(), usize> {
        let mut at = self.at;
        if self.dvi[at] >= 171 {
            at = self.font::<CAREFUL>(at, page)?;
        } else if page.font == NO_FONT {
            return Err(at);
        }
        let shift = SHIFT[page.font];
        let mut command = self.command::<CAREFUL>(at)?;
        if let 143 | 144 = command {
            let length = usize::from(command) - 141;
            self.whole::<CAREFUL>(at, length, || has_right(&self.dvi[at..], page.x, shift))?;
            let distance = self.amount(at, length);
            page.x += distance;
            if move_length(distance) != length || !is_across(page.x, shift) {
                return Err(at);
            }
            at += length;
            command = self.command::<CAREFUL>(at)?;
        } else if !is_across(page.x, shift) {
            return Err(at);
        }
        if let 157..=159 = command {
            let length = usize::from(command) - 155;
            self.whole::<CAREFUL>(at, length, || has_down(&self.dvi[at..], page.y))?;
            let distance = self.amount(at, length);
            page.y += distance;
            if move_length(distance) != length || !is_down(page.y) {
                return Err(at);
            }
            at += length;
            command = self.command::<CAREFUL>(at)?;
        }
        if command != 133 {
            return Err(at);
        }
        self.whole::<CAREFUL>(at, 2, || true)?;
        if self.dvi[at + 1].wrapping_sub(1) >= 108 {
            return Err(at);
        }
        self.measure.widest = self.measure.widest.max(page.x);
        self.measure.highest = self.measure.highest.max(page.y as u32 / 3);
        self.at = at + 2;
        Ok(())
    }

    /// The command at a place, if the file goes on there.
    #[inline(always)]
    fn command<const CAREFUL: bool>(&self, at: usize) -> Result<u8, usize> {
        if CAREFUL && at == self.dvi.len() {
            return Err(at);
        }
        Ok(self.dvi[at])
    }

    /// Whether a command of so many bytes is whole. One that is cut short is bad, or the file ends too early,
    /// if the command could go on.
    #[inline(always)]
    fn whole<const CAREFUL: bool>(
        &self,
        at: usize,
        length: usize,
        could_go_on: impl Fn() -> bool,
    ) -> Result<(), usize> {
        if CAREFUL && at + length > self.dvi.len() {
            return Err(if could_go_on() { self.dvi.len() } else { at });
        }
        Ok(())
    }

    /// The signed number in the last bytes of a command of so many.
    #[inline(always)]
    fn amount(&self, at: usize, length: usize) -> i32 {
        let bytes = &self.dvi[at + 1..at + length];
        bytes[1..].iter().fold(i32::from(bytes[0] as i8), |number, &byte| number << 8 | i32::from(byte))
    }

    /// A definition, if the font is new, and the font; gives the place after them.
    fn font<const CAREFUL: bool>(&mut self, start: usize, page: &mut Page) -> Result<usize, usize> {
        let mut at = start;
        let mut defined = NO_FONT;
        if self.dvi[at] == 243 {
            let rest = &self.dvi[at..];
            let could_go_on = |font: usize| {
                !self.measure.has(font) && DEFINITIONS[font][..rest.len().min(DEFINITION)] == *rest
            };
            self.whole::<CAREFUL>(at, DEFINITION, || (0..120).any(could_go_on))?;
            defined = self.dvi[at + 1].into();
            if defined >= 120 || self.measure.has(defined) || rest[..DEFINITION] != DEFINITIONS[defined] {
                return Err(at);
            }
            at += DEFINITION;
        }
        let command = self.command::<CAREFUL>(at)?;
        let is_new = |font: usize| {
            font != page.font && (font == defined || self.measure.has(font) && defined == NO_FONT)
        };
        let (font, length) = match command {
            171..=234 => (usize::from(command) - 171, 1),
            235 => {
                self.whole::<CAREFUL>(at, 2, || (64..120).any(is_new))?;
                (usize::from(self.dvi[at + 1]), 2)
            }
            _ => return Err(at),
        };
        if font >= 120 || (font < 64) != (length == 1) || !is_new(font) {
            return Err(at);
        }
        self.measure.mark(font);
        page.font = font;
        Ok(at + length)
    }
}

#[inline(always)]
fn is_across(x: i32, shift: i32) -> bool {
    (0..3_240).contains(&(x + shift))
}

#[inline(always)]
fn is_down(y: i32) -> bool {
    (0..=3_000_000).contains(&y) && y % 3 == 0
}

/// Whether some move right from here begins with these bytes.
#[cold]
fn has_right(bytes: &[u8], x: i32, shift: i32) -> bool {
    (-shift..3_240 - shift).any(|to| begins(143, to - x, bytes))
}

/// Whether some move down from here begins with these bytes.
#[cold]
fn has_down(bytes: &[u8], y: i32) -> bool {
    (0..=1_000_000).any(|height| begins(157, 3 * height - y, bytes))
}

/// Whether the shortest move begins with these bytes; `one` is the command with one byte.
fn begins(one: u8, distance: i32, bytes: &[u8]) -> bool {
    let length = move_length(distance);
    length > 0
        && usize::from(bytes[0]) == usize::from(one) + length - 2
        && distance.to_be_bytes()[5 - length..].starts_with(&bytes[1..])
}

/// Writes the galley of a good file.
fn fill(dvi: &[u8], characters: usize, galley: &mut [u8]) {
    let mut to = 0;
    let mut at = PREAMBLE + BOP;
    let mut page = PAGE;
    loop {
        match dvi[at] {
            133 => {
                let ([x1, x2], height) = ((page.x as i16).to_be_bytes(), page.y as u32 / 3);
                let [a, b, c, d] = height.to_be_bytes();
                let field = [7, 0, 8, x1, x2, a, b, c, d, page.font as u8, dvi[at + 1]];
                galley[to..to + 11].copy_from_slice(&field);
                to += 11;
                at += 2;
            }
            143 => {
                page.x += i32::from(dvi[at + 1] as i8);
                at += 2;
            }
            144 => {
                page.x += i32::from(i16::from_be_bytes([dvi[at + 1], dvi[at + 2]]));
                at += 3;
            }
            157 => {
                page.y += i32::from(dvi[at + 1] as i8);
                at += 2;
            }
            158 => {
                page.y += i32::from(i16::from_be_bytes([dvi[at + 1], dvi[at + 2]]));
                at += 3;
            }
            159 => {
                page.y += i32::from_be_bytes([dvi[at + 1], dvi[at + 2], dvi[at + 3], 0]) >> 8;
                at += 4;
            }
            command @ 171..=234 => {
                page.font = usize::from(command) - 171;
                at += 1;
            }
            235 => {
                page.font = dvi[at + 1].into();
                at += 2;
            }
            243 => at += DEFINITION,
            _ if dvi[at + 1] == 139 => {
                galley[to..to + 3].copy_from_slice(&[6, 0, 0]);
                to += 3;
                at += 1 + BOP;
                page = PAGE;
            }
            _ => break,
        }
    }
    let [a, b, c, d] = (characters as u32).to_be_bytes();
    galley[to..].copy_from_slice(&[2, 0, 4, a, b, c, d]);
}
