//! DVI files with their width tables.

use super::{damaged, valid_galley_with_cuts};
use crate::plain;
use spatecanter::sample::Random;

#[derive(Clone)]
pub struct DviFile {
    pub bytes: Vec<u8>,
    pub widths: Vec<i32>,
}

/// A file of any kind: valid, with slips, written from a galley, damaged, or of any bytes.
pub fn dvi_file(random: &mut Random) -> DviFile {
    let mut file = match random.below(11) {
        0..=3 => made(random, false),
        4..=6 => made(random, true),
        7 => written(random),
        _ => valid_dvi_file(random),
    };
    if random.one_in(3) {
        file.bytes = damaged(random, file.bytes);
    }
    if random.one_in(40) {
        let length = random.below(20);
        file.bytes = random.bytes(length);
    }
    if random.one_in(40) {
        let more = random.between(1, 127) as usize;
        file.widths.extend(vec![0; more]);
    }
    file
}

/// A file that is read to its end: small moves, and characters with fonts and widths only.
pub fn valid_dvi_file(random: &mut Random) -> DviFile {
    let mut file = made(random, false);
    while plain::read_dvi(&file.bytes, &file.widths).is_err() {
        file = made(random, false);
    }
    file
}

/// The file of a galley with cuts: several pages, some of them empty.
fn written(random: &mut Random) -> DviFile {
    let items = random.below(12);
    let galley = valid_galley_with_cuts(random, items, 3);
    DviFile { bytes: plain::write_dvi(&galley).unwrap(), widths: vec![] }
}

/// Pages of commands and a postamble; with `slips`, now and then a command that is out of place.
fn made(random: &mut Random, slips: bool) -> DviFile {
    let fonts = random.pick(&[0, 1, 1, 2, 2, 3, 4]);
    let fonts = if random.one_in(200) { 70 } else { fonts };
    let mut writer = Writer { bytes: vec![], fonts, depth: 0, has_font: false, slips };
    let mut last = -1;
    for _ in 0..random.pick(&[1, 1, 2, 2, 3, 5]) {
        let bop = writer.bytes.len() as i32;
        writer.page(random, last);
        last = bop;
    }
    let pst = writer.bytes.len() as i32;
    writer.bytes.extend(postamble(random, last, pst));
    DviFile { bytes: writer.bytes, widths: (0..128 * fonts).map(|_| amount(random)).collect() }
}

/// A number of rsu: mostly small, at times as large as can be.
fn amount(random: &mut Random) -> i32 {
    match random.below(40) {
        0 => extreme(random),
        1 => random.bits() as i32,
        2..=15 => random.between(-2, 2) as i32,
        _ => random.between(-100_000, 100_000) as i32,
    }
}

/// A number at or next to an end of 32 bits.
fn extreme(random: &mut Random) -> i32 {
    random.pick(&[i32::MIN, i32::MAX, i32::MIN + 1, i32::MAX - 1])
}

struct Writer {
    bytes: Vec<u8>,
    fonts: usize,
    depth: usize,
    has_font: bool,
    slips: bool,
}

impl Writer {
    fn page(&mut self, random: &mut Random, previous: i32) {
        let wrong = self.slips && random.one_in(30);
        let wrong_previous = random.pick(&[previous + 1, -1, 0, self.bytes.len() as i32]);
        self.command(129, &[amount(random), if wrong { wrong_previous } else { previous }]);
        self.has_font = false;
        if random.one_in(20) {
            self.deep(random);
        }
        if random.one_in(6) {
            self.command(random.pick(&[138, 142, 146, 150]), &[extreme(random)]);
        }
        for _ in 0..random.below(25) {
            self.any(random);
        }
        while self.depth > 0 && !(self.slips && random.one_in(20)) {
            self.pop();
        }
        self.depth = 0;
        self.bytes.push(130);
        if self.slips && random.one_in(20) {
            self.bytes.push(random.byte());
        }
    }

    /// Pushes to the limit of the stack, or one beyond it, and some moves between.
    fn deep(&mut self, random: &mut Random) {
        for _ in 0..random.between(198, if self.slips { 201 } else { 200 }) {
            self.push();
            if random.one_in(10) {
                self.motion(random);
            }
        }
    }

    fn any(&mut self, random: &mut Random) {
        match random.below(20) {
            0 => self.bytes.push(128),
            1 | 2 if self.depth < 200 => self.push(),
            3 if self.depth > 0 => self.pop(),
            4 => self.command(134, &[amount(random), amount(random)]),
            5 => self.command(135, &[amount(random), amount(random)]),
            6 | 7 => self.font(random),
            8..=12 => self.motion(random),
            13 | 14 if self.has_font => self.bytes.extend([136, random.byte() & 127]),
            15 if self.slips && random.one_in(4) => self.slip(random),
            _ if self.has_font && self.fonts > 0 => self.bytes.push(random.byte() & 127),
            _ => self.font(random),
        }
    }

    /// Something that may not stand there.
    fn slip(&mut self, random: &mut Random) {
        match random.below(6) {
            0 => self.bytes.push(random.between(218, 255) as u8),
            1 => self.bytes.push(random.pick(&[129, 131])),
            2 => self.bytes.push(133),
            3 => self.bytes.extend([136, random.byte()]),
            4 => self.command(137, &[random.pick(&[-1, 1, 4, i32::MIN, i32::MAX])]),
            _ => self.bytes.push(random.byte()),
        }
    }

    fn push(&mut self) {
        self.bytes.push(132);
        self.depth += 1;
    }

    fn pop(&mut self) {
        self.bytes.push(133);
        self.depth -= 1;
    }

    /// Mostly a font that has widths, by its short or its long command.
    fn font(&mut self, random: &mut Random) {
        let font = match random.below(20) {
            0 => random.pick(&[63, 64, 119, -1, i32::MIN, i32::MAX]),
            _ => random.below(self.fonts.max(1)) as i32,
        };
        if (0..64).contains(&font) && !random.one_in(4) {
            self.bytes.push(154 + font as u8);
        } else {
            self.command(137, &[font]);
        }
        self.has_font = true;
    }

    /// One of the sixteen moves, of W, X, Y or Z, with 4, 3, 2 or 0 bytes.
    fn motion(&mut self, random: &mut Random) {
        let form = random.below(4);
        self.bytes.push(138 + 4 * random.below(4) as u8 + form as u8);
        let bytes = amount(random).to_be_bytes();
        self.bytes.extend(match form {
            0 => &bytes[..],
            1 => &bytes[1..],
            2 => &bytes[2..],
            _ => &[],
        });
    }

    fn command(&mut self, command: u8, parameters: &[i32]) {
        self.bytes.push(command);
        for parameter in parameters {
            self.bytes.extend(parameter.to_be_bytes());
        }
    }
}

fn postamble(random: &mut Random, last: i32, pst: i32) -> Vec<u8> {
    let mut end = vec![131];
    for number in [last, amount(random), amount(random)] {
        end.extend(number.to_be_bytes());
    }
    for _ in 0..random.below(4) {
        end.extend(definition(random));
    }
    end.extend([255; 4]);
    end.extend(pst.to_be_bytes());
    end.push(0);
    end.extend(vec![223; random.pick(&[4, 4, 4, 5, 6, 9])]);
    end
}

/// A font definition: any ID but -1, any number, any byte around a name that does not hold it.
fn definition(random: &mut Random) -> Vec<u8> {
    let mut bytes = Vec::new();
    let id = random.pick(&[0, 2, -2, 0x00FF_FFFF, -256, 0x7FFF_FFFF]);
    let number = random.pick(&[0, 2, -1, 119]);
    for value in [id, number] {
        bytes.extend(i32::to_be_bytes(value));
    }
    let delimiter = odd_byte(random);
    bytes.push(delimiter);
    for _ in 0..random.below(7) {
        let letter = odd_byte(random);
        if letter != delimiter {
            bytes.push(letter);
        }
    }
    bytes.push(delimiter);
    bytes
}

/// A byte, often one that stands for something elsewhere in a postamble.
fn odd_byte(random: &mut Random) -> u8 {
    let any = random.byte();
    random.pick(&[any, 34, 0, 223, 255])
}
