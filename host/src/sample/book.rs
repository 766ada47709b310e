//! A book as a DVI file: paragraphs of words inside pushes, with rules and several fonts.

use super::Random;

const FONTS: usize = 4;
const LINES: usize = 40;

/// A DVI file of exactly `length` bytes, at least 200: as many whole pages as fit, then the postamble.
pub fn book(seed: u64, length: usize) -> Vec<u8> {
    let mut random = Random::new(seed);
    let mut file = Vec::with_capacity(length);
    let mut last = -1;
    for number in 1.. {
        let before = file.len();
        page(&mut file, &mut random, number, last);
        if number > 1 && file.len() + postamble(0, 0).len() > length {
            file.truncate(before);
            break;
        }
        last = before as i32;
    }
    let end = postamble(last, file.len() as i32);
    file.extend(end);
    file.resize(length, 223);
    file
}

/// Widths for the fonts of a book.
pub fn book_widths(seed: u64) -> Vec<i32> {
    let mut random = Random::new(seed);
    (0..FONTS * 128).map(|_| random.between(150_000, 700_000) as i32).collect()
}

fn page(file: &mut Vec<u8>, random: &mut Random, number: i32, previous: i32) {
    file.push(129);
    file.extend(number.to_be_bytes());
    file.extend(previous.to_be_bytes());
    // The first page is short, so that a small file holds one.
    let lines = if previous < 0 { 1 } else { LINES };
    for _ in 0..lines {
        line(file, random);
    }
    file.push(130);
}

/// A line of words inside a push, then the move down to the next line.
fn line(file: &mut Vec<u8>, random: &mut Random) {
    file.push(132);
    file.push(154 + random.below(FONTS) as u8);
    file.push(139);
    file.extend(three(random.between(200_000, 300_000)));
    for _ in 0..random.between(6, 11) {
        word(file, random);
    }
    file.push(133);
    file.push(147);
    file.extend(three(786_432));
}

/// A word and the space after it: mostly letters, at times raised, kerned, struck over or a rule.
fn word(file: &mut Vec<u8>, random: &mut Random) {
    match random.below(12) {
        0 => raised(file, random),
        1 => rule(file, random),
        2 => file.extend([136, random.byte() & 127]),
        3 => {
            file.push(144);
            file.extend((random.between(-20_000, 20_000) as i16).to_be_bytes());
        }
        _ => {}
    }
    for _ in 0..random.between(2, 8) {
        file.push(random.between(97, 122) as u8);
    }
    file.push(141);
}

/// A raised letter inside a push, in another font.
fn raised(file: &mut Vec<u8>, random: &mut Random) {
    file.push(132);
    file.push(151);
    file.extend(three(-random.between(100_000, 400_000)));
    file.push(154 + random.below(FONTS) as u8);
    file.push(random.byte() & 127);
    file.push(133);
}

fn rule(file: &mut Vec<u8>, random: &mut Random) {
    file.push(random.pick(&[134, 135]));
    file.extend(26_214_i32.to_be_bytes());
    file.extend((random.between(100_000, 900_000) as i32).to_be_bytes());
}

fn postamble(last: i32, place: i32) -> Vec<u8> {
    let mut end = vec![131];
    for number in [last, LINES as i32 * 786_432, 30_000_000] {
        end.extend(number.to_be_bytes());
    }
    for font in 0..FONTS as i32 {
        end.extend((64 + font).to_be_bytes());
        end.extend(font.to_be_bytes());
        end.extend(*b"\"CMR10\"");
    }
    end.extend((-1_i32).to_be_bytes());
    end.extend(place.to_be_bytes());
    end.extend([0, 223, 223, 223, 223]);
    end
}

/// The low three bytes, high byte first.
fn three(number: i64) -> [u8; 3] {
    let [_, bytes @ ..] = (number as i32).to_be_bytes();
    bytes
}
