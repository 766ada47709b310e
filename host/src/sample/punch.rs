//! A tape as it is punched: fonts, sizes, motions and flashes, each code only where it is needed.

use crate::Machine;

/// The tape so far, and what the machine is set to.
pub(super) struct Punch {
    machine: Machine,
    pub(super) tape: Vec<u8>,
    carriage: i32,
    pub(super) height: i32,
    backward: bool,
    upper_half: bool,
    upper_rail: bool,
    upper_mag: bool,
    tilt_down: bool,
    size: u8,
}

impl Punch {
    /// Initialized, and off the left switch by the escape of 16.
    pub(super) fn new(machine: Machine) -> Punch {
        Punch {
            machine,
            tape: vec![0x40, 0xEF],
            carriage: 0,
            height: 0,
            backward: false,
            upper_half: false,
            upper_rail: false,
            upper_mag: false,
            tilt_down: true,
            size: 0,
        }
    }

    /// A cut, blank tape, and the machine initialized anew, which keeps its size.
    pub(super) fn cut(&mut self) {
        let anew = Punch::new(self.machine);
        self.tape.push(0x4B);
        self.tape.extend([0; 8]);
        self.tape.extend(&anew.tape);
        *self = Punch { tape: std::mem::take(&mut self.tape), size: self.size, ..anew };
    }

    /// Rail, mag and tilt as the font asks for. The 4-font machine has no tilt to change.
    pub(super) fn font(&mut self, font: u8) {
        let (pair, tilt_down) = match self.machine {
            Machine::Four => (font - 1, self.tilt_down),
            Machine::Eight => ((font - 1) / 2, font.is_multiple_of(2)),
        };
        let (upper_rail, upper_mag) = (pair & 1 != 0, pair & 2 != 0);
        if upper_rail != self.upper_rail {
            self.tape.push(if upper_rail { 0x42 } else { 0x41 });
        }
        if upper_mag != self.upper_mag {
            self.tape.push(if upper_mag { 0x43 } else { 0x44 });
        }
        if tilt_down != self.tilt_down {
            self.tape.push(if tilt_down { 0x4F } else { 0x4E });
        }
        self.upper_rail = upper_rail;
        self.upper_mag = upper_mag;
        self.tilt_down = tilt_down;
    }

    pub(super) fn size(&mut self, code: u8) {
        if code != self.size {
            self.tape.push(code);
        }
        self.size = code;
    }

    /// Moves so that a character stands at `x`; the doubler shifts it 55 units to the left.
    pub(super) fn go(&mut self, x: i32) {
        let carriage = if self.size >= 0x59 { x + 55 } else { x };
        let mut distance = (carriage - self.carriage).abs();
        let backward = carriage < self.carriage;
        if distance > 0 && backward != self.backward {
            self.tape.push(if backward { 0x48 } else { 0x47 });
            self.backward = backward;
        }
        while distance > 0 {
            let step = distance.min(127);
            self.tape.push(0xFF - step as u8);
            distance -= step;
        }
        self.carriage = carriage;
    }

    /// Flashes a character, 1 to 108.
    pub(super) fn set(&mut self, character: u8) {
        let upper_half = character > 63;
        if upper_half != self.upper_half {
            self.tape.push(if upper_half { 0x46 } else { 0x45 });
        }
        self.upper_half = upper_half;
        self.tape.push(if upper_half { character - 63 } else { character });
    }

    /// Leads forward so far.
    pub(super) fn down(&mut self, quanta: i32) {
        self.lead(quanta);
        self.height += quanta;
    }

    /// Leads back to the top, and forward from then on.
    pub(super) fn back_to_the_top(&mut self) {
        self.tape.push(0x4C);
        self.lead(self.height);
        self.tape.push(0x4A);
        self.height = 0;
    }

    /// Leads so far in the direction that is set.
    fn lead(&mut self, quanta: i32) {
        let mut left = quanta;
        while left > 0 {
            let step = left.min(31);
            self.tape.push(0x7F - step as u8);
            left -= step;
        }
    }
}
