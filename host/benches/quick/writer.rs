//! A galley to a DVI file.

use super::galley::{
    across, body, code, count, first_too_high, font_number, height, pages, Count, Field, LOW,
};
use super::{accepted, reader, refused};

/// Bytes of BOP and EOP, of a postamble without fonts, and of one font definition.
const PAGE: usize = 10;
const POSTAMBLE: usize = 26;
const DEFINITION: usize = 14;

/// Before a page's first character: no font number.
const NO_FONT: usize = 255;

const POINTS: [u8; 15] = [7, 8, 10, 11, 12, 14, 18, 9, 6, 16, 20, 22, 24, 28, 36];

pub fn write_dvi(galley: &[u8], dvi: &mut [u8]) -> [usize; 3] {
    let count = match count(galley) {
        Ok(count) => count,
        Err(refusal) => return refused(refusal),
    };
    let measure = measure(galley, count);
    if measure.highest > LOW {
        return refused((43, first_too_high(galley, count)));
    }
    let needed = measure.length();
    if dvi.len() < needed {
        return refused((42, needed));
    }
    write(galley, count, &measure, &mut dvi[..needed]);
    accepted(needed)
}

/// A galley's DVI file and that file's sheet.
pub fn reprint(galley: &[u8], widths: &[i32], dvi: &mut [u8], sheet: &mut [u8]) -> [usize; 4] {
    let refused = |(number, place): (usize, usize)| [number, place, 0, 0];
    if !widths.len().is_multiple_of(128) {
        return refused((31, 0));
    }
    let count = match count(galley) {
        Ok(count) => count,
        Err(refusal) => return refused(refusal),
    };
    let measure = measure(galley, count);
    if measure.highest > LOW {
        return refused((43, first_too_high(galley, count)));
    }
    let needed = measure.length();
    let sheet_needed = 7 + 16 * count.characters + 7 * count.cuts + 7;
    if dvi.len() < needed {
        return refused((42, needed));
    }
    if sheet.len() < sheet_needed {
        return refused((30, sheet_needed));
    }
    write(galley, count, &measure, &mut dvi[..needed]);
    let [number, place, shown] = reader::read_dvi(&dvi[..needed], widths, sheet);
    [number, place, shown, needed]
}

/// What the postamble and the room need to know of the pages.
struct Measure {
    pages: usize,
    commands: usize,
    widest: i32,
    highest: u32,
    fonts: [u64; 2],
}

impl Measure {
    fn length(&self) -> usize {
        let fonts = self.fonts[0].count_ones() + self.fonts[1].count_ones();
        PAGE * self.pages + self.commands + POSTAMBLE + DEFINITION * fonts as usize
    }
}

/// Moves to a height that is too great are measured wrongly; no file is written then.
fn measure(galley: &[u8], count: Count) -> Measure {
    let mut measure = Measure { pages: 0, commands: 0, widest: 0, highest: 0, fonts: [0; 2] };
    for page in pages(galley, count) {
        measure.pages += 1;
        let (mut x, mut y, mut font) = (0, 0, NO_FONT);
        for field in page {
            let word = body(field);
            let (to_x, to_y, to_font) = (target(across(word)), down(word), font_number(word));
            measure.commands +=
                font_length(font, to_font) + move_length(to_x - x) + move_length(to_y.wrapping_sub(y)) + 2;
            measure.widest = measure.widest.max(to_x);
            measure.highest = measure.highest.max(height(word));
            measure.fonts[to_font / 64] |= 1 << (to_font % 64);
            (x, y, font) = (to_x, to_y, to_font);
        }
    }
    measure
}

/// Writes the file, which is as long as `dvi`. A store may run past its command: what is there is
/// written later, since the postamble is longer than any store.
fn write(galley: &[u8], count: Count, measure: &Measure, dvi: &mut [u8]) {
    let mut at = 0;
    let mut last = -1;
    for (number, page) in (1..).zip(pages(galley, count)) {
        let bop = at as i32;
        put_bop(dvi, at, number, last);
        last = bop;
        at = put_characters(dvi, at + 9, page);
        dvi[at] = 130;
        at += 1;
    }
    put_postamble(measure, at, last, &mut dvi[at..]);
}

fn put_bop(dvi: &mut [u8], at: usize, number: i32, previous: i32) {
    dvi[at] = 129;
    dvi[at + 1..at + 5].copy_from_slice(&number.to_be_bytes());
    dvi[at + 5..at + 9].copy_from_slice(&previous.to_be_bytes());
}

/// Puts the characters of a page; gives the place after them.
fn put_characters(dvi: &mut [u8], start: usize, page: &[Field]) -> usize {
    let (mut x, mut y, mut font) = (0, 0, NO_FONT);
    let mut at = start;
    for field in page {
        let word = body(field);
        let (to_x, to_y, to_font) = (target(across(word)), down(word), font_number(word));
        if to_font != font {
            at += put_font(dvi, at, to_font);
        }
        at += put_move(dvi, at, 144, to_x - x);
        at += put_move(dvi, at, 148, to_y - y);
        dvi[at..at + 2].copy_from_slice(&[136, code(word)]);
        at += 2;
        (x, y, font) = (to_x, to_y, to_font);
    }
    at
}

/// The whole number nearest to 32,768x/3.
#[inline(always)]
fn target(x: i32) -> i32 {
    // Made positive for the division, which is quicker unsigned: 3 x 55 is more than the doubler's shift.
    ((32_768 * (x + 165) as u32 + 1) / 3) as i32 - 32_768 * 55
}

/// 32,768 times the height.
#[inline(always)]
fn down(word: u64) -> i32 {
    (height(word) << 15) as i32
}

#[inline(always)]
fn font_length(font: usize, to_font: usize) -> usize {
    if font == to_font {
        0
    } else if to_font < 64 {
        1
    } else {
        5
    }
}

/// Bytes of a move's command: 0, 3, 4 or 5.
#[inline(always)]
fn move_length(distance: i32) -> usize {
    let three = i32::from(distance as i16) != distance;
    let four = distance != (distance << 8) >> 8;
    usize::from(distance != 0) * 3 + usize::from(three) + usize::from(four)
}

fn put_font(dvi: &mut [u8], at: usize, font: usize) -> usize {
    if font < 64 {
        dvi[at] = 154 + font as u8;
        1
    } else {
        dvi[at..at + 5].copy_from_slice(&[137, 0, 0, 0, font as u8]);
        5
    }
}

/// Puts the shortest move by one store of eight bytes; `two` is the command with two bytes.
#[inline(always)]
fn put_move(dvi: &mut [u8], at: usize, two: u8, distance: i32) -> usize {
    let length = move_length(distance);
    let command = u64::from(two).wrapping_add(3).wrapping_sub(length as u64);
    let amount = (distance as i64 as u64).wrapping_shl(72 - 8 * length as u32) >> 8;
    dvi[at..at + 8].copy_from_slice(&(command << 56 | amount).to_be_bytes());
    length
}

fn put_postamble(measure: &Measure, place: usize, last: i32, end: &mut [u8]) {
    end[0] = 131;
    end[1..5].copy_from_slice(&last.to_be_bytes());
    end[5..9].copy_from_slice(&(measure.highest << 15).to_be_bytes());
    end[9..13].copy_from_slice(&measure.widest.to_be_bytes());
    let (_, rest) = end.split_at_mut(13);
    let (definitions, tail) = rest.split_at_mut(rest.len() - 13);
    let used = (0..120).filter(|font| measure.fonts[font / 64] >> (font % 64) & 1 == 1);
    for (definition, font) in definitions.chunks_exact_mut(DEFINITION).zip(used) {
        let (points, number) = (POINTS[font % 15], font as u8);
        let name = [b'"', b'C', b'1' + number / 15, b'0' + points / 10, b'0' + points % 10, b'"'];
        definition[..8].copy_from_slice(&[0, 0, 0, number, 0, 0, 0, number]);
        definition[8..].copy_from_slice(&name);
    }
    tail[..4].copy_from_slice(&[255; 4]);
    tail[4..8].copy_from_slice(&(place as u32).to_be_bytes());
    tail[8..].copy_from_slice(&[0, 223, 223, 223, 223]);
}
