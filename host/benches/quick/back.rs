//! A DVI file to the galley whose targets it shows.

use super::reader::{pages, Sink};
use super::{accepted, refused};

pub fn dvi_to_galley(dvi: &[u8], widths: &[i32], galley: &mut [u8]) -> [usize; 3] {
    if dvi.len() > 33_554_432 {
        return refused((20, 0));
    }
    let (widths, []) = widths.as_chunks() else {
        return refused((31, 0));
    };
    let mut test = Test { pages: 0, characters: 0, broken: None };
    if let Err(refusal) = pages(dvi, widths, &mut test) {
        return refused(refusal);
    }
    if let Some(place) = test.broken {
        return refused((45, place));
    }
    let length = test.length();
    if galley.len() < length {
        return refused((12, length));
    }
    let mut fields = Fields { galley, at: 0, pages: 0 };
    let _ = pages(dvi, widths, &mut fields);
    let [a, b, c, d] = (test.characters as u32).to_be_bytes();
    fields.put([2, 0, 4, a, b, c, d]);
    accepted(length)
}

/// What is shown so far, or where it first was no galley's.
struct Test {
    pages: usize,
    characters: usize,
    broken: Option<usize>,
}

impl Test {
    fn length(&self) -> usize {
        11 * self.characters + 3 * (self.pages - 1) + 7
    }

    #[inline(always)]
    fn keep(&mut self, place: usize, good: bool) {
        if (!good || self.characters + self.pages > 1_048_577) && self.broken.is_none() {
            self.broken = Some(place);
        }
    }
}

impl Sink for Test {
    const TESTS: bool = true;

    #[inline(always)]
    fn page(&mut self, place: usize, number: [u8; 4]) {
        self.pages += 1;
        self.keep(place, u32::from_be_bytes(number) as usize == self.pages);
    }

    #[inline(always)]
    fn character(&mut self, place: usize, x: i32, y: i32, font: i32, code: u8) {
        self.characters += 1;
        self.keep(place, is_valid(x, y, font, code));
    }

    #[inline(always)]
    fn rule(&mut self, place: usize, _: u8, _: i32, _: i32, _: [u8; 8]) {
        self.keep(place, false);
    }
}

/// The x nearest to a target.
#[inline(always)]
fn nearest(target: i32) -> i64 {
    (3 * i64::from(target) + 16_384) >> 15
}

#[inline(always)]
fn is_valid(x: i32, y: i32, font: i32, code: u8) -> bool {
    let units = nearest(x);
    let shift = if font % 15 >= 9 { 55 } else { 0 };
    (0..120).contains(&font)
        && code.wrapping_sub(1) < 108
        && (3 * i64::from(x) - 32_768 * units).abs() <= 1
        && (0..3_240).contains(&(units + shift))
        && y & 32_767 == 0
        && y >= 0
}

struct Fields<'a> {
    galley: &'a mut [u8],
    at: usize,
    pages: usize,
}

impl Fields<'_> {
    #[inline(always)]
    fn put<const N: usize>(&mut self, bytes: [u8; N]) {
        self.galley[self.at..self.at + N].copy_from_slice(&bytes);
        self.at += N;
    }
}

impl Sink for Fields<'_> {
    const TESTS: bool = false;

    #[inline(always)]
    fn page(&mut self, _: usize, _: [u8; 4]) {
        if self.pages > 0 {
            self.put([6, 0, 0]);
        }
        self.pages += 1;
    }

    #[inline(always)]
    fn character(&mut self, _: usize, x: i32, y: i32, font: i32, code: u8) {
        let [x1, x2] = (nearest(x) as i16).to_be_bytes();
        let [h1, h2] = ((y >> 15) as u16).to_be_bytes();
        self.put([7, 0, 8, x1, x2, 0, 0, h1, h2, font as u8, code]);
    }

    #[inline(always)]
    fn rule(&mut self, _: usize, _: u8, _: i32, _: i32, _: [u8; 8]) {}
}
