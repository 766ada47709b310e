//! Tapes.

use super::damaged;
use spatecanter::sample::Random;

/// A tape of any kind for the machine with so many fonts, 4 or 8: valid, damaged, with a bad cut or a tilt, near
/// the greatest height, of likely codes, or of any bytes.
pub fn tape(random: &mut Random, fonts: u32) -> Vec<u8> {
    if random.one_in(200) {
        return near_the_end(random, fonts);
    }
    match random.below(12) {
        0 => {
            let length = random.below(30);
            random.bytes(length)
        }
        1 | 2 => likely_codes(random),
        3..=5 => valid_tape(random, fonts),
        6 => with_a_cut(random, fonts),
        7 => with_a_tilt(random, fonts),
        _ => {
            let tape = valid_tape(random, fonts);
            damaged(random, tape)
        }
    }
}

/// Codes without regard to what the machine allows.
fn likely_codes(random: &mut Random) -> Vec<u8> {
    let mut tape = vec![0x40, 0xEF, 0x52];
    for _ in 0..random.below(40) {
        tape.push(match random.below(8) {
            0 => random.between(0x40, 0x5F) as u8,
            1 => random.between(0x60, 0x7F) as u8,
            2..=4 => random.between(0x80, 0xFF) as u8,
            _ => random.between(0x00, 0x3F) as u8,
        });
    }
    tape.push(0x49);
    tape
}

/// A valid tape with a cut put in anywhere: before initialize, after a cut, after stop. Some 00 and mostly
/// another code than initialize come after it, or the end.
fn with_a_cut(random: &mut Random, fonts: u32) -> Vec<u8> {
    let mut tape = valid_tape(random, fonts);
    let rest = tape.split_off(random.below(tape.len() + 1));
    tape.push(0x4B);
    tape.extend(vec![0; random.pick(&[0, 0, 1, 3])]);
    match random.below(8) {
        0 => return tape,
        1 => tape.push(0x4B),
        2 => tape.push(random.pick(&[0x4D, 0x4E, 0x4F, 0x5F, 0xFF])),
        3 => tape.push(random.byte()),
        4 => tape.extend([0x40, 0xEF]),
        _ => {}
    }
    tape.extend(rest);
    tape
}

/// A valid tape with a tilt put in anywhere: before initialize, after a cut, after stop.
fn with_a_tilt(random: &mut Random, fonts: u32) -> Vec<u8> {
    let mut tape = valid_tape(random, fonts);
    let place = random.below(tape.len() + 1);
    tape.insert(place, random.pick(&[0x4E, 0x4F]));
    tape
}

/// A tape that the machine with so many fonts takes to its end.
pub fn valid_tape(random: &mut Random, fonts: u32) -> Vec<u8> {
    let mut walk = Walk::new(random, fonts);
    match random.below(60) {
        0 => walk.deep(random, 65_535),
        1..=15 => walk.near_the_right(random),
        _ => {}
    }
    walk.stopped(random)
}

/// A tape that comes near the greatest height, and mostly has a lead put in there, which may pass it.
fn near_the_end(random: &mut Random, fonts: u32) -> Vec<u8> {
    let mut walk = Walk::new(random, fonts);
    walk.deep(random, HIGHEST);
    let start = walk.tape.len();
    let mut tape = walk.stopped(random);
    if !random.one_in(3) {
        let place = start + random.below(tape.len() - start + 1);
        tape.insert(place, random.between(0x60, 0x7F) as u8);
    }
    tape
}

/// The greatest height.
const HIGHEST: i64 = 1_000_000;

/// A tape so far, and as much of the machine as decides which codes are taken.
#[derive(Default)]
struct Walk {
    fonts: u32,
    tape: Vec<u8>,
    parked: bool,
    sized: bool,
    upper_half: bool,
    carriage: i64,
    height: i64,
    escape_backward: bool,
    lead_backward: bool,
}

impl Walk {
    fn new(random: &mut Random, fonts: u32) -> Walk {
        let mut walk = Walk { fonts, ..Walk::default() };
        walk.nothing(random);
        walk.initialize();
        walk
    }

    /// Some steps, and stop.
    fn stopped(mut self, random: &mut Random) -> Vec<u8> {
        for _ in 0..random.below(60) {
            self.step(random);
        }
        self.tape.push(0x49);
        self.nothing(random);
        self.tape
    }

    fn nothing(&mut self, random: &mut Random) {
        if random.one_in(4) {
            self.tape.extend(vec![0; random.below(4)]);
        }
    }

    fn initialize(&mut self) {
        self.tape.push(0x40);
        self.parked = true;
        self.upper_half = false;
        self.escape_backward = false;
        self.lead_backward = false;
    }

    /// A cut, and the initialize that it asks for.
    fn cut(&mut self, random: &mut Random) {
        self.tape.push(0x4B);
        self.height = 0;
        self.nothing(random);
        self.initialize();
    }

    /// Near the right switch.
    fn near_the_right(&mut self, random: &mut Random) {
        self.tape.extend([0xEF, 0x52]);
        self.tape.extend([0x80; 25]);
        self.parked = false;
        self.sized = true;
        self.carriage = 25 * 127;
        self.escape(random.between(50, 64));
    }

    /// Near a height, and off the switch in a size.
    fn deep(&mut self, random: &mut Random, height: i64) {
        let leads = height / 31 - 1;
        self.tape.extend(vec![0x60; leads as usize]);
        self.height = 31 * leads;
        self.lead(random.between(0, 31));
        self.tape.extend([0xEF, 0x52]);
        self.parked = false;
        self.sized = true;
    }

    fn step(&mut self, random: &mut Random) {
        match random.below(20) {
            0 => self.tape.push(0),
            1..=4 => self.mode(random),
            5 | 6 => self.lead(random.between(0, 31)),
            7 if random.one_in(8) => self.initialize(),
            8 if random.one_in(3) => self.cut(random),
            7..=12 => self.motion(random),
            _ => self.flash(random),
        }
    }

    fn mode(&mut self, random: &mut Random) {
        let code = match random.below(3) {
            0 if self.fonts == 4 => random.pick(&[0x41, 0x42, 0x43, 0x44]),
            0 => random.pick(&[0x41, 0x42, 0x43, 0x44, 0x4E, 0x4F]),
            1 => random.pick(&[0x45, 0x46, 0x47, 0x48, 0x4A, 0x4C]),
            _ => random.between(0x50, 0x5E) as u8,
        };
        match code {
            0x45 | 0x46 => self.upper_half = code == 0x46,
            0x47 | 0x48 => self.escape_backward = code == 0x48,
            0x4A | 0x4C => self.lead_backward = code == 0x4C,
            0x50.. => self.sized = true,
            _ => {}
        }
        self.tape.push(code);
    }

    /// An escape: off the switch if parked, else any, often a small one.
    fn motion(&mut self, random: &mut Random) {
        if self.parked && !self.escape_backward {
            self.tape.push(0xEF);
            self.parked = false;
            self.carriage = 0;
        } else if !self.parked {
            let most = random.pick(&[3, 127]);
            self.escape(random.between(1, most));
        }
    }

    fn escape(&mut self, size: i64) {
        let carriage = self.carriage + if self.escape_backward { -size } else { size };
        if (0..=3_239).contains(&carriage) {
            self.carriage = carriage;
            self.tape.push(0xFF - size as u8);
        }
    }

    fn lead(&mut self, size: i64) {
        let height = self.height + if self.lead_backward { -size } else { size };
        if (0..=HIGHEST).contains(&height) {
            self.height = height;
            self.tape.push(0x7F - size as u8);
        }
    }

    fn flash(&mut self, random: &mut Random) {
        if self.parked || !self.sized {
            return;
        }
        let most = if self.upper_half { 45 } else { 63 };
        self.tape.push(random.between(1, most) as u8);
    }
}
