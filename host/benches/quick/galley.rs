//! A galley checked, read back, and gone through item by item.

use super::{accepted, refused};

/// Characters and cuts in a galley, together.
const MOST: usize = 1_048_576;

/// The field of a character.
pub type Field = [u8; 11];

pub fn check_galley(galley: &[u8]) -> [usize; 3] {
    match count(galley) {
        Ok(count) => accepted(count.characters),
        Err(refusal) => refused(refusal),
    }
}

pub fn read_back(galley: &[u8], n: usize) -> ([usize; 3], [i32; 4]) {
    let count = match count(galley) {
        Ok(count) => count,
        Err(refusal) => return (refused(refusal), [0; 4]),
    };
    let mut left = n;
    for page in pages(galley, count) {
        if let Some(field) = page.get(left) {
            return (accepted(0), numbers(body(field)));
        }
        left -= page.len();
    }
    (refused((11, 0)), [0; 4])
}

/// The item at a place: 1 and a character's numbers, or 2 for a cut.
#[inline(never)]
pub fn item_at(galley: &[u8], at: usize) -> ([usize; 3], [i32; 5]) {
    let rest = galley.get(at..).unwrap_or_default();
    match rest.first_chunk() {
        Some(field) if is_good(field) => {
            let [x, height, font_number, code] = numbers(body(field));
            (accepted(field.len()), [1, x, height, font_number, code])
        }
        _ if rest.starts_with(&[6, 0, 0]) => (accepted(3), [2, 0, 0, 0, 0]),
        _ => (refused((41, at)), [0; 5]),
    }
}

/// X, height, font number and character.
fn numbers(word: u64) -> [i32; 4] {
    [across(word), height(word) as i32, font_number(word) as i32, code(word).into()]
}

/// How many characters and cuts a galley has.
#[derive(Clone, Copy)]
pub struct Count {
    pub characters: usize,
    pub cuts: usize,
}

/// The longest galley, in bytes.
pub const LONGEST: usize = 11_534_343;

/// The numbers of characters and cuts, or the refusal.
pub fn count(galley: &[u8]) -> Result<Count, (usize, usize)> {
    count_of(galley, LONGEST, is_good)
}

/// The same for a galley of at most `longest` bytes, with characters in fields of N bytes that are good or not.
#[inline(always)]
pub fn count_of<const N: usize>(
    galley: &[u8],
    longest: usize,
    is_good: impl Fn(&[u8; N]) -> bool + Copy,
) -> Result<Count, (usize, usize)> {
    if galley.len() > longest {
        return Err((40, 0));
    }
    let mut count = Count { characters: 0, cuts: 0 };
    let mut place = 0;
    loop {
        let most = MOST - count.characters - count.cuts;
        let (fields, _) = galley[place..].as_chunks();
        let run = good_fields(&fields[..fields.len().min(most)], is_good);
        count.characters += run;
        place += N * run;
        match galley[place..] {
            [6, 0, 0, ..] if run < most => {
                count.cuts += 1;
                place += 3;
            }
            [2, 0, 4, a, b, c, d] if counts(count.characters, [a, b, c, d]) => return Ok(count),
            [2, 0, 4, a, b, c, d, ..] if counts(count.characters, [a, b, c, d]) => {
                return Err((41, place + 7));
            }
            _ => return Err((41, place)),
        }
    }
}

/// Whether End's body counts so many characters.
fn counts(characters: usize, body: [u8; 4]) -> bool {
    u32::from_be_bytes(body) as usize == characters
}

/// How many good character fields come first. Runs of 64 are tested without a branch for each; the first few
/// fields are a run of their own, since a cut may be near.
#[inline(always)]
fn good_fields<const N: usize>(fields: &[[u8; N]], is_good: impl Fn(&[u8; N]) -> bool + Copy) -> usize {
    let (few, rest) = fields.split_at(fields.len().min(4));
    let mut count = 0;
    for run in std::iter::once(few).chain(rest.chunks(64)) {
        if !run.iter().fold(true, |good, field| good & is_good(field)) {
            return count + run.iter().take_while(|field| is_good(field)).count();
        }
        count += run.len();
    }
    count
}

/// The character fields of each page of a good galley. What is left after the last cut is a page.
pub fn pages<const N: usize>(galley: &[u8], count: Count) -> impl Iterator<Item = &[[u8; N]]> {
    let Count { mut characters, cuts } = count;
    let mut place = 0;
    (0..=cuts).map(move |page| {
        let (fields, _) = galley[place..].as_chunks();
        let length = if page == cuts { characters } else { leading_characters(fields) };
        characters -= length;
        place += N * length + 3;
        &fields[..length]
    })
}

/// How many character fields come before the cut, in either form.
fn leading_characters<const N: usize>(fields: &[[u8; N]]) -> usize {
    fields.iter().take_while(|field| field[0] != 6).count()
}

/// The greatest height that DVI and the old form hold.
pub const LOW: u32 = 65_535;

/// The place of the first character of a good galley with a greater height.
#[cold]
pub fn first_too_high(galley: &[u8], count: Count) -> usize {
    let mut place = 0;
    for page in pages::<11>(galley, count) {
        match page.iter().position(|field| height(body(field)) > LOW) {
            Some(index) => return place + 11 * index,
            None => place += 11 * page.len() + 3,
        }
    }
    place
}

#[inline(always)]
pub fn is_good(field: &Field) -> bool {
    let word = body(field);
    (field[..3] == [7, 0, 8]) & (height(word) <= 1_000_000) & has_good_rest(word)
}

/// Whether x, font number and character are good.
#[inline(always)]
pub fn has_good_rest(word: u64) -> bool {
    let font_number = font_number(word);
    let shifted = (across(word) + SHIFT[font_number]) as u32;
    (font_number < 120) & (shifted < 3_240) & (code(word).wrapping_sub(1) < 108)
}

/// By font number: 55 in the double sizes.
pub static SHIFT: [i32; 256] = {
    let mut shift = [0; 256];
    let mut font = 0;
    while font < 120 {
        if font % 15 >= 9 {
            shift[font] = 55;
        }
        font += 1;
    }
    shift
};

/// A field's body as one word: x, height, font number, character.
#[inline(always)]
pub fn body(field: &Field) -> u64 {
    let [_, _, _, word @ ..] = field;
    u64::from_be_bytes(*word)
}

#[inline(always)]
pub fn across(word: u64) -> i32 {
    (word >> 48) as u16 as i16 as i32
}

#[inline(always)]
pub fn height(word: u64) -> u32 {
    (word >> 16) as u32
}

#[inline(always)]
pub fn font_number(word: u64) -> usize {
    (word >> 8) as u8 as usize
}

#[inline(always)]
pub fn code(word: u64) -> u8 {
    word as u8
}
