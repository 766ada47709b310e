//! A galley of the old form to the new form, and back.

use super::galley::{
    body, count, count_of, first_too_high, has_good_rest, height, is_good, pages, Count, Field, LONGEST, LOW,
};
use super::{accepted, refused};

/// The field of a character in the old form, and the longest such galley, in bytes.
type OldField = [u8; 9];
const OLD_LONGEST: usize = 9_437_191;

pub fn to_new(old: &[u8], new: &mut [u8]) -> [usize; 3] {
    match count_of(old, OLD_LONGEST, is_good_old) {
        Err(refusal) => refused(refusal),
        Ok(count) => convert(old, count, new, new_field),
    }
}

pub fn to_old(new: &[u8], old: &mut [u8]) -> [usize; 3] {
    match count_of(new, LONGEST, is_good_and_low) {
        Err(_) => refused(why_not_to_old(new)),
        Ok(count) => convert(new, count, old, old_field),
    }
}

/// A field that is not good, or else one that is too high.
#[cold]
fn why_not_to_old(new: &[u8]) -> (usize, usize) {
    match count(new) {
        Err(refusal) => refusal,
        Ok(count) => (43, first_too_high(new, count)),
    }
}

/// Writes each page's fields in the other form. Cuts and End are the same in both.
#[inline(always)]
fn convert<const N: usize, const M: usize>(
    galley: &[u8],
    count: Count,
    converted: &mut [u8],
    field_of: impl Fn(&[u8; N]) -> [u8; M],
) -> [usize; 3] {
    let needed = M * count.characters + 3 * count.cuts + 7;
    let Some(mut rest) = converted.get_mut(..needed) else {
        return refused((44, needed));
    };
    for page in pages(galley, count) {
        let (fields, after) = rest.split_at_mut(M * page.len());
        for (field, other) in fields.as_chunks_mut().0.iter_mut().zip(page) {
            *field = field_of(other);
        }
        rest = after;
        if rest.len() > 7 {
            rest[..3].copy_from_slice(&[6, 0, 0]);
            rest = &mut rest[3..];
        }
    }
    rest.copy_from_slice(&galley[galley.len() - 7..]);
    accepted(needed)
}

#[inline(always)]
fn is_good_old(field: &OldField) -> bool {
    (field[..3] == [1, 0, 6]) & has_good_rest(old_body(field))
}

#[inline(always)]
fn is_good_and_low(field: &Field) -> bool {
    is_good(field) & (height(body(field)) <= LOW)
}

/// The body that an old field has in the new form.
#[inline(always)]
fn old_body(field: &OldField) -> u64 {
    let [_, word @ ..] = field;
    let word = u64::from_be_bytes(*word);
    (word >> 32) << 48 | word & 0xFFFF_FFFF
}

#[inline(always)]
fn new_field(field: &OldField) -> Field {
    let [a, b, c, d, e, f, g, h] = old_body(field).to_be_bytes();
    [7, 0, 8, a, b, c, d, e, f, g, h]
}

#[inline(always)]
fn old_field(field: &Field) -> OldField {
    let [_, _, _, x1, x2, _, _, height1, height2, font_number, code] = *field;
    [1, 0, 6, x1, x2, height1, height2, font_number, code]
}
