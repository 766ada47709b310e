//! DVI files that show a galley's targets in other ways than our writer's, at times with something beside them.

use super::dvi::DviFile;
use super::valid_galley_with_cuts;
use spatecanter::galley::{items, Character, Item};
use spatecanter::sample::Random;

/// A file that shows a galley, or nearly so.
pub fn shown_galley(random: &mut Random) -> DviFile {
    let length = random.pick(&[0, 1, 2, 5, 12]);
    let galley = valid_galley_with_cuts(random, length, 4);
    let widths = vec![random.pick(&[0, 0, 32_768, -98_304, 1]); 128 * random.below(3)];
    let mut writer = Writer { bytes: vec![], widths, slips: random.one_in(2), font: None, x: 0, y: 0 };
    let mut page = 1;
    let mut last = writer.begin_page(random, page, -1);
    for item in items(&galley) {
        match item {
            Item::Character(character) => writer.character(random, character),
            Item::Cut => {
                writer.bytes.push(130);
                page += 1;
                last = writer.begin_page(random, page, last);
            }
        }
    }
    writer.bytes.push(130);
    let pst = writer.bytes.len() as i32;
    writer.command(131, &[last, 0, 0, -1, pst]);
    writer.bytes.extend([0, 223, 223, 223, 223]);
    DviFile { bytes: writer.bytes, widths: writer.widths }
}

struct Writer {
    bytes: Vec<u8>,
    widths: Vec<i32>,
    /// Whether something may be beside a galley's.
    slips: bool,
    font: Option<i32>,
    x: i32,
    y: i32,
}

impl Writer {
    /// The place of the BOP.
    fn begin_page(&mut self, random: &mut Random, page: i32, last: i32) -> i32 {
        let place = self.bytes.len() as i32;
        let slip = self.slip(random, 20);
        self.command(129, &[page + slip, last]);
        (self.font, self.x, self.y) = (None, 0, 0);
        place
    }

    fn character(&mut self, random: &mut Random, character: Character) {
        let mut font = character.font_number;
        let mut code = character.code;
        if self.slips && random.one_in(40) {
            font = random.pick(&[-1, 120, i32::MIN, i32::MAX, (font + 9) % 120]);
        }
        if self.slips && random.one_in(40) {
            code = random.pick(&[0, 109, 127]);
        }
        if self.slips && random.one_in(60) {
            self.command(random.pick(&[134, 135]), &[0, 0]);
        }
        let grouped = random.one_in(6);
        let (x, y) = (self.x, self.y);
        if grouped {
            self.bytes.push(132);
        }
        self.set_font(random, font);
        let target = (65_536 * character.x + 3).div_euclid(6);
        let to = (target + self.slip(random, 30), 32_768 * character.height + self.slip(random, 30));
        self.moves(random, to);
        self.set(random, font, code as u8);
        if grouped {
            self.bytes.push(133);
            (self.x, self.y) = (x, y);
        }
    }

    /// Mostly 0; with slips, one in so many times another small number.
    fn slip(&self, random: &mut Random, one_in: usize) -> i32 {
        if self.slips && random.one_in(one_in) {
            random.pick(&[-1, 1, 2, -32_768, 10_923])
        } else {
            0
        }
    }

    fn set_font(&mut self, random: &mut Random, font: i32) {
        if self.font == Some(font) && !random.one_in(4) {
            return;
        }
        if (0..64).contains(&font) && random.one_in(2) {
            self.bytes.push(154 + font as u8);
        } else {
            self.command(137, &[font]);
        }
        self.font = Some(font);
    }

    /// Moves right by W or X and down by Y or Z, in one step or in two, or not at all.
    fn moves(&mut self, random: &mut Random, (x, y): (i32, i32)) {
        for (commands, distance) in [([138, 142], x - self.x), ([146, 150], y - self.y)] {
            let first = if random.one_in(5) { distance / 2 } else { 0 };
            for part in [first, distance - first] {
                if part != 0 {
                    self.command(random.pick(&commands), &[part]);
                }
            }
        }
        (self.x, self.y) = (x, y);
    }

    /// By HORZCHAR, or by a command that moves on by the width, if the font has widths.
    fn set(&mut self, random: &mut Random, font: i32, code: u8) {
        let widths = (font >= 0).then(|| self.widths.get(128 * font as usize..)).flatten();
        match widths.and_then(|widths| widths.get(usize::from(code))) {
            Some(&width) if random.one_in(2) => {
                self.bytes.push(code);
                self.x += width;
            }
            _ => self.bytes.extend([136, code]),
        }
    }

    fn command(&mut self, command: u8, parameters: &[i32]) {
        self.bytes.push(command);
        for parameter in parameters {
            self.bytes.extend(parameter.to_be_bytes());
        }
    }
}
