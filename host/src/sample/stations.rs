//! Lists of stations as a file of XGP character mode: pages with a heading, a name and its figures on each line.

use super::Random;

/// Fonts: figures, estimates, small figures, headings.
const FIGURES: u8 = 0;
const ESTIMATES: u8 = 1;
const SMALL: u8 = 2;
const HEADINGS: u8 = 3;
/// Lines on a page, and figures on a line.
const LINES: usize = 44;
const COLUMNS: i64 = 6;

/// The scan lines from one line of a list to the next.
pub const STATIONS_SPACING: u16 = 42;

/// An XGP file of exactly `length` bytes: as many whole lines as fit, then nulls.
pub fn stations(seed: u64, length: usize) -> Vec<u8> {
    let mut random = Random::new(seed);
    let mut file = Vec::with_capacity(length);
    for line in 0.. {
        let before = file.len();
        match line % LINES {
            0 => heading(&mut file, line / LINES),
            _ => station(&mut file, &mut random),
        }
        if file.len() > length {
            file.truncate(before);
            break;
        }
    }
    file.resize(length, 0);
    file
}

/// Widths for the fonts of a list, in dots: figures are all as wide as each other.
pub fn stations_widths() -> Vec<i32> {
    let width = |font: i32, code: i32| match code {
        0x30..=0x39 => [20, 20, 13, 24][font as usize],
        _ => [14, 13, 9, 18][font as usize] + code * 7 % 11,
    };
    (0..4).flat_map(|font| (0..128).map(move |code| width(font, code))).collect()
}

/// A heading, struck twice; each but the first starts a page.
fn heading(file: &mut Vec<u8>, page: usize) {
    if page > 0 {
        file.push(0o14);
    }
    select_font(file, HEADINGS);
    for column in [0, 1] {
        select_column(file, 400 + column);
        file.extend(*b"SALINITY BY DEPTH");
    }
    end_line(file);
    file.push(0o12);
}

/// A station's name, and its figures in columns: an estimate in its own font, at times with a raised mark.
fn station(file: &mut Vec<u8>, random: &mut Random) {
    select_font(file, FIGURES);
    for _ in 0..random.between(4, 9) {
        file.push(random.between(0x41, 0x5A) as u8);
    }
    for column in 0..COLUMNS {
        select_column(file, 300 + 210 * column);
        let font = if random.one_in(6) { ESTIMATES } else { FIGURES };
        select_font(file, font);
        file.extend(format!("{}.{:03}", random.between(29, 37), random.below(1_000)).bytes());
        if random.one_in(9) {
            raised(file, random);
        }
    }
    end_line(file);
}

/// A small mark, raised and moved back a little: a figure, or a sign whose number is that of a control code.
fn raised(file: &mut Vec<u8>, random: &mut Random) {
    select_font(file, SMALL);
    file.extend([0o177, 1, 0o43, 12]);
    file.extend([0o177, 2, random.between(0o170, 0o177) as u8]);
    match random.below(3) {
        0 => file.extend([0o177, 0o11]),
        _ => file.push(random.between(0x31, 0x39) as u8),
    }
}

fn select_font(file: &mut Vec<u8>, font: u8) {
    file.extend([0o177, 1, font]);
}

fn select_column(file: &mut Vec<u8>, column: i64) {
    file.extend([0o177, 1, 0o40, (column >> 7) as u8, column as u8 & 0o177]);
}

/// CR and LF.
fn end_line(file: &mut Vec<u8>) {
    file.extend([0o15, 0o12]);
}
