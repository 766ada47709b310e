//! A galley to a DVI file of the second edition.

use super::galley::{across, body, code, count, font_number, height, pages, Count, Field};
use super::{accepted, refused};

/// Bytes of the preamble, of bop, of post, of post_post, and of a font definition.
pub const PREAMBLE: usize = 15;
pub const BOP: usize = 45;
pub const POST: usize = 29;
pub const POST_POST: usize = 6;
pub const DEFINITION: usize = 20;

/// Before a page's first character: no font number.
pub const NO_FONT: usize = 255;

const POINTS: [u8; 15] = [7, 8, 10, 11, 12, 14, 18, 9, 6, 16, 20, 22, 24, 28, 36];

/// Numerator 254,000, denominator 432, magnification 1,000.
const SCALE: [u8; 12] = [0, 3, 0xE0, 0x30, 0, 0, 1, 0xB0, 0, 0, 3, 0xE8];

/// The definition of each font.
pub static DEFINITIONS: [[u8; DEFINITION]; 120] = {
    let mut definitions = [[0; DEFINITION]; 120];
    let mut font = 0;
    while font < 120 {
        let points = POINTS[font % 15];
        let mut bytes = [0; DEFINITION];
        bytes[0] = 243;
        bytes[1] = font as u8;
        bytes[9] = 6 * points;
        bytes[13] = 6 * points;
        bytes[15] = 4;
        bytes[16] = b'C';
        bytes[17] = b'1' + font as u8 / 15;
        bytes[18] = b'0' + points / 10;
        bytes[19] = b'0' + points % 10;
        definitions[font] = bytes;
        font += 1;
    }
    definitions
};

pub fn write_dvi2(galley: &[u8], dvi: &mut [u8]) -> [usize; 3] {
    let count = match count(galley) {
        Ok(count) => count,
        Err(refusal) => return refused(refusal),
    };
    let measure = measure(galley, count);
    let needed = measure.length();
    if dvi.len() < needed {
        return refused((42, needed));
    }
    write(galley, count, &measure, &mut dvi[..needed]);
    accepted(needed)
}

/// What post and the room need to know of the pages.
#[derive(Default)]
pub struct Measure {
    pub pages: usize,
    /// Bytes between bop and eop, over all pages.
    pub commands: usize,
    pub widest: i32,
    pub highest: u32,
    pub fonts: [u64; 2],
}

impl Measure {
    pub fn has(&self, font: usize) -> bool {
        self.fonts[font / 64] >> (font % 64) & 1 == 1
    }

    pub fn mark(&mut self, font: usize) {
        self.fonts[font / 64] |= 1 << (font % 64);
    }

    /// The place of post.
    fn post(&self) -> usize {
        PREAMBLE + (BOP + 1) * self.pages + self.commands
    }

    fn length(&self) -> usize {
        let fonts = (self.fonts[0].count_ones() + self.fonts[1].count_ones()) as usize;
        (self.post() + POST + DEFINITION * fonts + POST_POST + 4).next_multiple_of(4)
    }
}

fn measure(galley: &[u8], count: Count) -> Measure {
    let mut measure = Measure::default();
    for page in pages(galley, count) {
        measure.pages += 1;
        let (mut x, mut y, mut font) = (0, 0, NO_FONT);
        for field in page {
            let word = body(field);
            let (to_x, to_y, to_font) = (across(word), 3 * height(word) as i32, font_number(word));
            if to_font != font {
                if !measure.has(to_font) {
                    measure.mark(to_font);
                    measure.commands += DEFINITION;
                }
                measure.commands += 1 + usize::from(to_font >= 64);
            }
            measure.commands += move_length(to_x - x) + move_length(to_y - y) + 2;
            measure.widest = measure.widest.max(to_x);
            measure.highest = measure.highest.max(height(word));
            (x, y, font) = (to_x, to_y, to_font);
        }
    }
    measure
}

/// Writes the file, which is as long as `dvi`. A store may run past its command: what is there is written later,
/// since the end is longer than any store.
fn write(galley: &[u8], count: Count, measure: &Measure, dvi: &mut [u8]) {
    dvi[..PREAMBLE].copy_from_slice(&preamble());
    let mut at = PREAMBLE;
    let mut last = -1;
    let mut known = Measure::default();
    for (number, page) in (1..).zip(pages(galley, count)) {
        dvi[at..at + BOP].copy_from_slice(&bop(number, last));
        last = at as i32;
        at = put_characters(dvi, at + BOP, page, &mut known);
        dvi[at] = 140;
        at += 1;
    }
    put_end(measure, last, at, dvi);
}

pub fn preamble() -> [u8; PREAMBLE] {
    let mut bytes = [0; PREAMBLE];
    bytes[..2].copy_from_slice(&[247, 2]);
    bytes[2..14].copy_from_slice(&SCALE);
    bytes
}

pub fn bop(number: i32, previous: i32) -> [u8; BOP] {
    let mut bytes = [0; BOP];
    bytes[0] = 139;
    bytes[1..5].copy_from_slice(&number.to_be_bytes());
    bytes[41..].copy_from_slice(&previous.to_be_bytes());
    bytes
}

pub fn post(measure: &Measure, last: i32) -> [u8; POST] {
    let mut bytes = [0; POST];
    bytes[0] = 248;
    bytes[1..5].copy_from_slice(&last.to_be_bytes());
    bytes[5..17].copy_from_slice(&SCALE);
    bytes[17..21].copy_from_slice(&(3 * measure.highest).to_be_bytes());
    bytes[21..25].copy_from_slice(&measure.widest.to_be_bytes());
    bytes[27..].copy_from_slice(&(measure.pages as u16).to_be_bytes());
    bytes
}

pub fn post_post(post: usize) -> [u8; POST_POST] {
    let [a, b, c, d] = (post as u32).to_be_bytes();
    [249, a, b, c, d, 2]
}

/// Puts the characters of a page; gives the place after them.
fn put_characters(dvi: &mut [u8], start: usize, page: &[Field], known: &mut Measure) -> usize {
    let (mut x, mut y, mut font) = (0, 0, NO_FONT);
    let mut at = start;
    for field in page {
        let word = body(field);
        let (to_x, to_y, to_font) = (across(word), 3 * height(word) as i32, font_number(word));
        if to_font != font {
            at += put_font(dvi, at, to_font, known);
        }
        at += put_move(dvi, at, 143, to_x - x);
        at += put_move(dvi, at, 157, to_y - y);
        dvi[at..at + 2].copy_from_slice(&[133, code(word)]);
        at += 2;
        (x, y, font) = (to_x, to_y, to_font);
    }
    at
}

fn put_font(dvi: &mut [u8], start: usize, font: usize, known: &mut Measure) -> usize {
    let mut at = start;
    if !known.has(font) {
        known.mark(font);
        dvi[at..at + DEFINITION].copy_from_slice(&DEFINITIONS[font]);
        at += DEFINITION;
    }
    if font < 64 {
        dvi[at] = 171 + font as u8;
        at += 1;
    } else {
        dvi[at..at + 2].copy_from_slice(&[235, font as u8]);
        at += 2;
    }
    at - start
}

/// Bytes of a move's command: 0, 2, 3 or 4. No move needs four bytes for its amount.
#[inline(always)]
pub fn move_length(distance: i32) -> usize {
    let two = i32::from(distance as i8) != distance;
    let three = i32::from(distance as i16) != distance;
    usize::from(distance != 0) * 2 + usize::from(two) + usize::from(three)
}

/// Puts the shortest move by one store of four bytes; `one` is the command with one byte.
#[inline(always)]
fn put_move(dvi: &mut [u8], at: usize, one: u8, distance: i32) -> usize {
    let length = move_length(distance);
    let command = u32::from(one).wrapping_sub(2).wrapping_add(length as u32);
    let amount = (distance as u32).wrapping_shl(40 - 8 * length as u32) >> 8;
    dvi[at..at + 4].copy_from_slice(&(command << 24 | amount).to_be_bytes());
    length
}

fn put_end(measure: &Measure, last: i32, place: usize, dvi: &mut [u8]) {
    let mut at = place;
    let mut put = |bytes: &[u8]| {
        dvi[at..at + bytes.len()].copy_from_slice(bytes);
        at += bytes.len();
    };
    put(&post(measure, last));
    for definition in (0..120).filter(|&font| measure.has(font)).map(|font| &DEFINITIONS[font]) {
        put(definition);
    }
    put(&post_post(place));
    dvi[at..].fill(223);
}
