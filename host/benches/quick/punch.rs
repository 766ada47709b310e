//! A galley to a tape of the 8-font machine.

use super::galley::{across, body, code, count, font_number, height, pages, Count, Field, SHIFT};
use super::{accepted, refused};

/// The longest tape, in bytes.
const LONGEST_TAPE: usize = 1_048_576;

/// Before the first size: no size index.
const NO_SIZE: u8 = 15;

/// Two codes that set a switch, off and on, by the bit that it has in a setting, in the order in which they are
/// sent: rail, mag, tilt down, half.
const SWITCHES: [[u8; 2]; 4] = [[0x41, 0x42], [0x44, 0x43], [0x4E, 0x4F], [0x45, 0x46]];

/// The switches after initialize: tilt down alone.
const FIRST: u8 = 0b0100;

pub fn punch_tape(galley: &[u8], tape: &mut [u8]) -> [usize; 3] {
    let count = match count(galley) {
        Ok(count) => count,
        Err(refusal) => return refused(refusal),
    };
    let needed = measure(galley, count);
    if needed > LONGEST_TAPE {
        return refused((48, 0));
    }
    if tape.len() < needed {
        return refused((49, needed));
    }
    write(galley, count, &mut tape[..needed]);
    accepted(needed)
}

/// What the machine is set to. A direction is 1 backward.
#[derive(Clone, Copy)]
struct Setting {
    switches: u8,
    size: u8,
    across: i32,
    down: i32,
    escape: u8,
    lead: u8,
}

impl Setting {
    /// After initialize and the escape of 16, which keep the size.
    fn begun(size: u8) -> Setting {
        Setting { switches: FIRST, size, across: 0, down: 0, escape: 0, lead: 0 }
    }

    /// Set for a character.
    #[inline(always)]
    fn next(self, field: &Field) -> Setting {
        let word = body(field);
        let (font, half) = (font_number(word), u8::from(code(word) > 63));
        let (across, down) = (across(word) + SHIFT[font], height(word) as i32);
        Setting {
            switches: FONTS[font].0 | half << 3,
            size: FONTS[font].1,
            across,
            down,
            escape: direction(self.escape, across - self.across),
            lead: direction(self.lead, down - self.down),
        }
    }
}

#[inline(always)]
fn direction(now: u8, distance: i32) -> u8 {
    if distance == 0 {
        now
    } else {
        u8::from(distance < 0)
    }
}

/// By font number: rail, mag and tilt, and the size index.
static FONTS: [(u8, u8); 120] = {
    let mut fonts = [(0, 0); 120];
    let mut number = 0;
    while number < 120 {
        let font = number as u8 / 15;
        fonts[number] = (font >> 1 | (font & 1) << 2, number as u8 % 15);
        number += 1;
    }
    fonts
};

/// The bytes of the tape.
fn measure(galley: &[u8], count: Count) -> usize {
    let mut size = NO_SIZE;
    let mut length = 3 * count.cuts + 3;
    for page in pages(galley, count) {
        let mut now = Setting::begun(size);
        for field in page {
            let next = now.next(field);
            let turned = (now.switches ^ next.switches).count_ones()
                + u32::from(now.size != next.size)
                + u32::from(now.escape ^ next.escape)
                + u32::from(now.lead ^ next.lead);
            length += turned as usize
                + codes(next.across.abs_diff(now.across), 127)
                + codes(next.down.abs_diff(now.down), 31)
                + 1;
            now = next;
        }
        size = now.size;
    }
    length
}

/// How many codes a distance takes.
#[inline(always)]
fn codes(distance: u32, longest: u32) -> usize {
    distance.div_ceil(longest) as usize
}

/// Writes the tape, which is as long as `tape`.
fn write(galley: &[u8], count: Count, tape: &mut [u8]) {
    tape[..2].copy_from_slice(&[0x40, 0xEF]);
    let mut at = 2;
    let mut size = NO_SIZE;
    for (number, page) in pages(galley, count).enumerate() {
        if number > 0 {
            tape[at..at + 3].copy_from_slice(&[0x4B, 0x40, 0xEF]);
            at += 3;
        }
        let mut now = Setting::begun(size);
        for field in page {
            let next = now.next(field);
            at = put_character(tape, at, now, next, code(body(field)));
            now = next;
        }
        size = now.size;
    }
    tape[at] = 0x49;
}

/// Puts the codes of a character; gives the place after them.
#[inline(always)]
fn put_character(tape: &mut [u8], start: usize, now: Setting, next: Setting, code: u8) -> usize {
    let mut at = start;
    if now.switches != next.switches {
        at = put_switches(tape, at, now.switches, next.switches);
    }
    if now.size != next.size {
        tape[at] = 0x50 + next.size;
        at += 1;
    }
    if now.across != next.across {
        at = put_direction(tape, at, [0x47, 0x48], now.escape, next.escape);
        at = put_motion(tape, at, next.across.abs_diff(now.across), 127, 0x80);
    }
    if now.down != next.down {
        at = put_direction(tape, at, [0x4A, 0x4C], now.lead, next.lead);
        at = put_motion(tape, at, next.down.abs_diff(now.down), 31, 0x60);
    }
    tape[at] = if code > 63 { code - 63 } else { code };
    at + 1
}

fn put_switches(tape: &mut [u8], start: usize, now: u8, next: u8) -> usize {
    let mut at = start;
    for (bit, codes) in SWITCHES.iter().enumerate() {
        if (now ^ next) >> bit & 1 == 1 {
            tape[at] = codes[usize::from(next >> bit & 1)];
            at += 1;
        }
    }
    at
}

#[inline(always)]
fn put_direction(tape: &mut [u8], at: usize, codes: [u8; 2], now: u8, next: u8) -> usize {
    if now == next {
        return at;
    }
    tape[at] = codes[usize::from(next)];
    at + 1
}

/// Puts the longest motions, whose code is `code`, and the remainder.
#[inline(always)]
fn put_motion(tape: &mut [u8], start: usize, distance: u32, longest: u32, code: u8) -> usize {
    let at = start + (distance / longest) as usize;
    tape[start..at].fill(code);
    let rest = distance % longest;
    if rest == 0 {
        return at;
    }
    tape[at] = code + (longest - rest) as u8;
    at + 1
}
