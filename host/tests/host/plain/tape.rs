//! A tape becomes a galley.

use super::galley::{galley_of, Character, Item, NEW};
use super::Refused;

#[derive(Clone)]
pub struct Machine {
    /// 4 or 8.
    fonts: u32,
    begun: bool,
    /// After a cut, until the next initialize.
    pub cut: bool,
    pub stopped: bool,
    parked: bool,
    carriage: i32,
    height: i32,
    escape_backward: bool,
    lead_backward: bool,
    upper_half: bool,
    upper_rail: bool,
    upper_mag: bool,
    tilt_down: bool,
    size_index: Option<i32>,
    /// The leads taken so far.
    forward: u64,
    backward: u64,
}

/// What an accepted tape holds.
pub struct Reading {
    pub items: Vec<Item>,
    /// The sums of the leads that were taken in each direction.
    pub forward: u64,
    pub backward: u64,
}

pub fn read_tape(tape: &[u8], fonts: u32) -> Result<Vec<u8>, Refused> {
    Ok(galley_of(NEW, &reading(tape, fonts)?.items))
}

pub fn reading(tape: &[u8], fonts: u32) -> Result<Reading, Refused> {
    if tape.len() > 1_048_576 {
        return Err((1, 0));
    }
    if fonts != 4 && fonts != 8 {
        return Err((50, 0));
    }
    let mut machine = Machine::at_start(fonts);
    let mut items: Vec<Item> = Vec::new();
    for (place, &code) in tape.iter().enumerate() {
        match machine.take(code) {
            Ok(None) => {}
            Ok(Some(item)) => items.push(item),
            Err(number) => return Err((number, place)),
        }
    }
    if machine.cut {
        return Err((10, tape.len()));
    }
    if !machine.stopped {
        return Err((9, tape.len()));
    }
    Ok(Reading { items, forward: machine.forward, backward: machine.backward })
}

impl Machine {
    /// Before the first code of a tape.
    pub fn at_start(fonts: u32) -> Machine {
        Machine {
            fonts,
            begun: false,
            cut: false,
            stopped: false,
            parked: false,
            carriage: 0,
            height: 0,
            escape_backward: false,
            lead_backward: false,
            upper_half: false,
            upper_rail: false,
            upper_mag: false,
            tilt_down: false,
            size_index: None,
            forward: 0,
            backward: 0,
        }
    }

    /// The effect of one code: a character or a cut, nothing, or a refusal's number.
    pub fn take(&mut self, code: u8) -> Result<Option<Item>, usize> {
        if code == 0x00 {
            return Ok(None);
        }
        if matches!(code, 0x4D | 0x5F | 0xFF) {
            return Err(2);
        }
        if self.fonts == 4 && matches!(code, 0x4E | 0x4F) {
            return Err(2);
        }
        if !self.begun && code != 0x40 {
            return Err(3);
        }
        if self.cut && code != 0x40 {
            return Err(10);
        }
        if self.stopped {
            return Err(4);
        }
        match code {
            0x01..=0x3F => return Ok(Some(Item::Character(self.flash(code.into())?))),
            0x40 => self.initialize(),
            0x41 => self.upper_rail = false,
            0x42 => self.upper_rail = true,
            0x43 => self.upper_mag = true,
            0x44 => self.upper_mag = false,
            0x45 => self.upper_half = false,
            0x46 => self.upper_half = true,
            0x47 => self.escape_backward = false,
            0x48 => self.escape_backward = true,
            0x49 => self.stopped = true,
            0x4A => self.lead_backward = false,
            0x4B => {
                self.cut = true;
                self.height = 0;
                return Ok(Some(Item::Cut));
            }
            0x4C => self.lead_backward = true,
            0x4E => self.tilt_down = false,
            0x4F => self.tilt_down = true,
            0x50..=0x5E => self.size_index = Some((code - 0x50).into()),
            0x60..=0x7F => self.lead(31 - i32::from(code - 0x60))?,
            0x80..=0xFE => self.escape(127 - i32::from(code - 0x80))?,
            0x00 | 0x4D | 0x5F | 0xFF => unreachable!(),
        }
        Ok(None)
    }

    fn initialize(&mut self) {
        self.begun = true;
        self.cut = false;
        self.parked = true;
        self.escape_backward = false;
        self.lead_backward = false;
        self.upper_half = false;
        self.upper_rail = false;
        self.upper_mag = false;
        self.tilt_down = true;
    }

    fn flash(&self, v: i32) -> Result<Character, usize> {
        if self.parked {
            return Err(5);
        }
        let size_index = self.size_index.ok_or(6_usize)?;
        if self.upper_half && v > 45 {
            return Err(8);
        }
        let doubled = size_index >= 9;
        Ok(Character {
            x: if doubled { self.carriage - 55 } else { self.carriage },
            height: self.height as u32,
            font_number: 15 * (self.font() - 1) + size_index,
            code: if self.upper_half { 63 + v } else { v },
        })
    }

    fn font(&self) -> i32 {
        if self.fonts == 4 {
            return match (self.upper_rail, self.upper_mag) {
                (false, false) => 1,
                (true, false) => 2,
                (false, true) => 3,
                (true, true) => 4,
            };
        }
        match (self.upper_rail, self.upper_mag, self.tilt_down) {
            (false, false, false) => 1,
            (false, false, true) => 2,
            (true, false, false) => 3,
            (true, false, true) => 4,
            (false, true, false) => 5,
            (false, true, true) => 6,
            (true, true, false) => 7,
            (true, true, true) => 8,
        }
    }

    fn escape(&mut self, size: i32) -> Result<(), usize> {
        if self.parked {
            if size != 16 || self.escape_backward {
                return Err(5);
            }
            self.parked = false;
            self.carriage = 0;
            return Ok(());
        }
        let carriage = if self.escape_backward { self.carriage - size } else { self.carriage + size };
        if !(0..=3_239).contains(&carriage) {
            return Err(7);
        }
        self.carriage = carriage;
        Ok(())
    }

    fn lead(&mut self, size: i32) -> Result<(), usize> {
        let height = if self.lead_backward { self.height - size } else { self.height + size };
        if !(0..=1_000_000).contains(&height) {
            return Err(7);
        }
        self.height = height;
        if self.lead_backward {
            self.backward += size as u64;
        } else {
            self.forward += size as u64;
        }
        Ok(())
    }
}
