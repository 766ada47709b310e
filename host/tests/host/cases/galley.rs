//! Galleys, of the new form and of the old.

use super::damaged;
use spatecanter::sample::Random;

/// The form of a galley's characters.
#[derive(Clone, Copy, PartialEq)]
pub enum Form {
    /// Tag 1, with a height of two bytes.
    Old,
    /// Tag 7, with a height of four.
    New,
}

/// The greatest height that DVI and the old form hold, and the greatest of all.
const LOW: i64 = 65_535;
const HIGHEST: i64 = 1_000_000;

/// A galley of any kind: valid, also with heights that DVI cannot hold, with a bad field or a wrong count,
/// damaged, or of any bytes.
pub fn galley(random: &mut Random) -> Vec<u8> {
    galley_of(random, Form::New)
}

/// The same in either form.
pub fn galley_of(random: &mut Random, form: Form) -> Vec<u8> {
    let items = random.below(12);
    let cuts = random.pick(&[None, None, Some(6), Some(3), Some(1)]);
    let highest = if form == Form::New { random.pick(&[LOW, LOW, LOW, HIGHEST]) } else { LOW };
    let mut fields = fields(random, form, items, cuts, highest);
    if items > 0 && random.one_in(8) {
        let place = random.below(items);
        heighten(random, &mut fields[place]);
    }
    match random.below(11) {
        0 => {
            let length = random.below(30);
            random.bytes(length)
        }
        1..=3 if items > 0 => {
            let place = random.below(items);
            spoil(random, &mut fields[place]);
            fields.concat()
        }
        4 => {
            let wrong = random.pick(&[1, u8::MAX, count(&fields, 6)]);
            fields[items][6] = fields[items][6].wrapping_add(wrong);
            fields.concat()
        }
        5 | 6 => damaged(random, fields.concat()),
        _ => fields.concat(),
    }
}

/// A valid galley of so many characters, which DVI can hold.
pub fn valid_galley(random: &mut Random, characters: usize) -> Vec<u8> {
    fields(random, Form::New, characters, None, LOW).concat()
}

/// A valid galley of so many characters and cuts together, about one in `n` of them a cut, which DVI can hold.
pub fn valid_galley_with_cuts(random: &mut Random, items: usize, n: usize) -> Vec<u8> {
    fields(random, Form::New, items, Some(n), LOW).concat()
}

/// A valid galley of so many characters and cuts together, with heights of all kinds.
pub fn tall_galley(random: &mut Random, items: usize, n: usize) -> Vec<u8> {
    fields(random, Form::New, items, Some(n), HIGHEST).concat()
}

/// A valid galley of the old form, of so many characters and cuts together; without `cuts`, of characters alone.
pub fn valid_old_galley(random: &mut Random, items: usize, cuts: Option<usize>) -> Vec<u8> {
    fields(random, Form::Old, items, cuts, LOW).concat()
}

/// The fields of a valid galley with so many before End; with `cuts`, about one in so many is a cut.
fn fields(random: &mut Random, form: Form, items: usize, cuts: Option<usize>, highest: i64) -> Vec<Vec<u8>> {
    let mut walk = Walk { highest, ..Walk::default() };
    let mut fields = Vec::with_capacity(items + 1);
    let mut characters = 0_u32;
    for _ in 0..items {
        if cuts.is_some_and(|n| random.one_in(n)) {
            fields.push(vec![6, 0, 0]);
        } else {
            fields.push(walk.character(random, form));
            characters += 1;
        }
    }
    let [a, b, c, d] = characters.to_be_bytes();
    fields.push(vec![2, 0, 4, a, b, c, d]);
    fields
}

/// How many fields have this tag.
fn count(fields: &[Vec<u8>], tag: u8) -> u8 {
    fields.iter().filter(|field| field[0] == tag).count() as u8
}

/// Where the last character stands, its font number, and the greatest height.
#[derive(Default)]
struct Walk {
    highest: i64,
    font: i64,
    height: i64,
    carriage: i64,
}

impl Walk {
    /// The field of the next character.
    fn character(&mut self, random: &mut Random, form: Form) -> Vec<u8> {
        if random.one_in(3) {
            self.font = random.between(0, 119);
        }
        if random.one_in(3) {
            self.height = match random.below(4) {
                0 => random.pick(&[0, 1, 65_535, 65_536, 999_999, 1_000_000]).min(self.highest),
                1 => random.between(0, self.highest),
                _ => (self.height + step(random, 256)).clamp(0, self.highest),
            };
        }
        self.carriage = match random.below(4) {
            0 => random.pick(&[0, 1, 2, 3_238, 3_239]),
            1 => random.between(0, 3_239),
            _ => (self.carriage + step(random, 768)).clamp(0, 3_239),
        };
        let shift = if self.font % 15 >= 9 { 55 } else { 0 };
        let [a, b] = ((self.carriage - shift) as i16).to_be_bytes();
        let [c, d, e, f] = (self.height as u32).to_be_bytes();
        let (font, code) = (self.font as u8, random.between(1, 108) as u8);
        match form {
            Form::Old => vec![1, 0, 6, a, b, e, f, font, code],
            Form::New => vec![7, 0, 8, a, b, c, d, e, f, font, code],
        }
    }
}

/// A small step, or one near `wide`, where a move needs one more byte.
fn step(random: &mut Random, wide: i64) -> i64 {
    let far = random.pick(&[-wide, 0, 0, 0, wide]);
    far + random.between(-4, 4)
}

/// Gives a character of the new form a height next to 65,535, or any valid one.
fn heighten(random: &mut Random, field: &mut [u8]) {
    let any = random.between(0, HIGHEST) as u32;
    let height = random.pick(&[65_534, 65_535, 65_536, 65_537, 131_071, 131_072, 999_999, 1_000_000, any]);
    if field[0] == 7 {
        field[5..9].copy_from_slice(&height.to_be_bytes());
    }
}

/// Puts something wrong into a field before End.
fn spoil(random: &mut Random, field: &mut Vec<u8>) {
    if field[0] == 6 {
        spoil_cut(random, field);
    } else {
        spoil_character(random, field);
    }
}

/// A length, with or without its body, or another tag.
fn spoil_cut(random: &mut Random, field: &mut Vec<u8>) {
    match random.below(5) {
        0 => field[1] = 1,
        1 => field[2] = random.pick(&[1, 3, 4, 6, 255]),
        2 | 3 => {
            let length = random.between(1, 9) as u8;
            field[2] = length;
            field.extend(random.bytes(length.into()));
        }
        _ => field[0] = random.pick(&[0, 1, 2, 5, 7]),
    }
}

/// A value next to its range, a height beyond it, the other form, or another tag or length.
fn spoil_character(random: &mut Random, field: &mut Vec<u8>) {
    let last = field.len() - 1;
    match random.below(8) {
        0 => field[last] = random.pick(&[0, 109, 255]),
        1 => field[last - 1] = random.pick(&[120, 121, 255]),
        2 if field[0] == 7 => {
            let any = random.between(HIGHEST + 1, u32::MAX.into()) as u32;
            let heights = [1_000_001, 1_048_576, 0x0100_0000, 0x7FFF_FFFF, 0x8000_0000, u32::MAX, any];
            field[5..9].copy_from_slice(&random.pick(&heights).to_be_bytes());
        }
        2 | 3 => other_form(random, field),
        4 | 5 => {
            let x: i16 = random.pick(&[-56, -55, -1, 3_184, 3_185, 3_239, 3_240, i16::MIN, i16::MAX]);
            field[3..5].copy_from_slice(&x.to_be_bytes());
        }
        6 => field[0] = random.pick(&[0, 2, 3, 6, 8 - field[0]]),
        _ => field[2] = random.pick(&[0, 4, 5, 7, 9, 14 - field[2]]),
    }
}

/// A height of as many bytes as in the other form, and the other tag, the other length or both.
fn other_form(random: &mut Random, field: &mut Vec<u8>) {
    if field[0] == 7 {
        field.drain(5..7);
        field[..3].copy_from_slice(&random.pick(&[[1, 0, 6], [7, 0, 6], [1, 0, 8]]));
    } else {
        field.splice(5..5, [0, 0]);
        field[..3].copy_from_slice(&random.pick(&[[7, 0, 8], [1, 0, 8], [7, 0, 6]]));
    }
}
