//! A galley becomes a tape of the 8-font machine.

use super::galley::{items, Character, Item, NEW};
use super::Refused;

/// The longest tape.
const LONGEST: usize = 1_048_576;

pub fn punch_tape(galley: &[u8]) -> Result<Vec<u8>, Refused> {
    let items = items(NEW, galley)?;
    let mut punch = Punch::default();
    punch.begin();
    for item in items {
        match item {
            Item::Character(character) => punch.character(&character),
            Item::Cut => {
                punch.tape.push(0x4B);
                punch.height = 0;
                punch.begin();
            }
        }
        // The tape only grows.
        if punch.tape.len() > LONGEST {
            return Err((48, 0));
        }
    }
    punch.tape.push(0x49);
    if punch.tape.len() > LONGEST {
        return Err((48, 0));
    }
    Ok(punch.tape)
}

/// The tape so far, and how the machine stands after it.
#[derive(Default)]
struct Punch {
    tape: Vec<u8>,
    upper_rail: bool,
    upper_mag: bool,
    tilt_down: bool,
    upper_half: bool,
    size_index: Option<i32>,
    escape_backward: bool,
    lead_backward: bool,
    carriage: i32,
    height: i32,
}

impl Punch {
    /// Initialize and an escape of 16. Size and height stay.
    fn begin(&mut self) {
        self.tape.extend([0x40, 0x80 + (127 - 16)]);
        self.upper_rail = false;
        self.upper_mag = false;
        self.tilt_down = true;
        self.upper_half = false;
        self.escape_backward = false;
        self.lead_backward = false;
        self.carriage = 0;
    }

    fn character(&mut self, character: &Character) {
        let (font, size_index) = (character.font_number / 15 + 1, character.font_number % 15);
        let (upper_rail, upper_mag, tilt_down) = match font {
            1 => (false, false, false),
            2 => (false, false, true),
            3 => (true, false, false),
            4 => (true, false, true),
            5 => (false, true, false),
            6 => (false, true, true),
            7 => (true, true, false),
            _ => (true, true, true),
        };
        if upper_rail != self.upper_rail {
            self.tape.push(if upper_rail { 0x42 } else { 0x41 });
            self.upper_rail = upper_rail;
        }
        if upper_mag != self.upper_mag {
            self.tape.push(if upper_mag { 0x43 } else { 0x44 });
            self.upper_mag = upper_mag;
        }
        if tilt_down != self.tilt_down {
            self.tape.push(if tilt_down { 0x4F } else { 0x4E });
            self.tilt_down = tilt_down;
        }
        let upper_half = character.code > 63;
        if upper_half != self.upper_half {
            self.tape.push(if upper_half { 0x46 } else { 0x45 });
            self.upper_half = upper_half;
        }
        if self.size_index != Some(size_index) {
            self.tape.push(0x50 + size_index as u8);
            self.size_index = Some(size_index);
        }
        let doubled = size_index >= 9;
        self.sideways(if doubled { character.x + 55 } else { character.x });
        self.up_or_down(character.height as i32);
        let v = if upper_half { character.code - 63 } else { character.code };
        self.tape.push(v as u8);
    }

    fn sideways(&mut self, carriage: i32) {
        let distance = carriage - self.carriage;
        if distance > 0 && self.escape_backward {
            self.tape.push(0x47);
            self.escape_backward = false;
        }
        if distance < 0 && !self.escape_backward {
            self.tape.push(0x48);
            self.escape_backward = true;
        }
        for step in steps(distance, 127) {
            self.tape.push(0x80 + (127 - step) as u8);
        }
        self.carriage = carriage;
    }

    fn up_or_down(&mut self, height: i32) {
        let distance = height - self.height;
        if distance > 0 && self.lead_backward {
            self.tape.push(0x4A);
            self.lead_backward = false;
        }
        if distance < 0 && !self.lead_backward {
            self.tape.push(0x4C);
            self.lead_backward = true;
        }
        for step in steps(distance, 31) {
            self.tape.push(0x60 + (31 - step) as u8);
        }
        self.height = height;
    }
}

/// The longest motions first and the remainder, if not 0, last.
fn steps(distance: i32, longest: i32) -> Vec<i32> {
    let mut left = distance.abs();
    let mut steps = Vec::new();
    while left >= longest {
        steps.push(longest);
        left -= longest;
    }
    if left != 0 {
        steps.push(left);
    }
    steps
}
