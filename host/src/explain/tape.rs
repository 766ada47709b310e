//! Refusals of tapes in words.

use super::{offset, Explained};
use crate::galley::{items, Item};
use crate::machine::Machine;
use crate::refusal::Refusal;
use crate::running::RunningTape;

impl Refusal {
    /// What it says of a whole tape of this machine.
    ///
    /// ```
    /// use spatecanter::{read_tape, Machine};
    ///
    /// let refusal = read_tape(&[0x40], Machine::Eight).unwrap_err();
    /// assert_eq!(refusal.in_tape(&[0x40], Machine::Eight).expected.unwrap(), "stop (49)");
    /// ```
    pub fn in_tape(self, tape: &[u8], machine: Machine) -> Explained {
        let mut before = RunningTape::new();
        before.start(machine);
        self.in_piece(&before, 0, tape, machine)
    }

    /// What it says of a piece, or of a closing with an empty one, before which so many bytes were fed. `before` is the
    /// running tape as it was then.
    ///
    /// ```
    /// use spatecanter::{Machine, RunningTape};
    ///
    /// let mut tape = RunningTape::new();
    /// tape.start(Machine::Eight);
    /// tape.feed(&[0x40])?;
    /// let before = tape.clone();
    /// let refusal = tape.feed(&[0x01]).unwrap_err();
    /// let explained = refusal.in_piece(&before, 1, &[0x01], Machine::Eight);
    /// assert_eq!(explained.found.unwrap(), "at offset 1 (hexadecimal 1): byte 01, a flash of 1");
    /// # Ok::<(), spatecanter::Refusal>(())
    /// ```
    pub fn in_piece(self, before: &RunningTape, fed: usize, piece: &[u8], machine: Machine) -> Explained {
        // Only these are at a byte of the tape, or at its end.
        if !(2..=10).contains(&self.number()) {
            return Explained::new(self);
        }
        let codes = Stretch { before, start: fed, codes: piece };
        let (place, code) = (offset(self.place()), codes.code(self.place()));
        let found = match code {
            Some(code) => format!("{place}: byte {code:02X}, {}", code_in_words(code)),
            None => format!("{place}: the end of the tape"),
        };
        let expected = expected_code(codes, code.unwrap_or(0), machine, self);
        Explained { refusal: self, found: Some(found), expected: Some(expected) }
    }
}

/// Some codes of a tape, where they start, and the running tape before them.
#[derive(Clone, Copy)]
struct Stretch<'a> {
    before: &'a RunningTape,
    start: usize,
    codes: &'a [u8],
}

impl Stretch<'_> {
    /// The code at a place of the tape.
    fn code(self, place: usize) -> Option<u8> {
        self.codes.get(place.checked_sub(self.start)?).copied()
    }

    /// The carriage and the height before a place: those of one more character there, in size 7. A parked
    /// carriage has to leave the switch first.
    fn standing(self, place: usize) -> Option<(i32, i32)> {
        let mut tape = self.before.clone();
        tape.feed(self.codes.get(..place.checked_sub(self.start)?)?).ok()?;
        let ends: [&[u8]; 2] = [&[0x50, 0x45, 0x01], &[0x47, 0xEF, 0x50, 0x45, 0x01]];
        let field = ends.iter().find_map(|end| tape.clone().feed(end).ok())?;
        let first = items(&field).next()?;
        match first {
            Item::Character(character) => Some((character.x, character.height)),
            Item::Cut => None,
        }
    }
}

fn code_in_words(code: u8) -> String {
    let words = match code {
        0x00 => "nothing",
        0x01..=0x3F => return format!("a flash of {code}"),
        0x40 => "initialize",
        0x41 => "lower rail",
        0x42 => "upper rail",
        0x43 => "upper mag",
        0x44 => "lower mag",
        0x45 => "lower half",
        0x46 => "upper half",
        0x47 => "escape forward",
        0x48 => "escape backward",
        0x49 => "stop",
        0x4A => "lead forward",
        0x4B => "a cut",
        0x4C => "lead backward",
        0x4E => "tilt up",
        0x4F => "tilt down",
        0x4D | 0x5F | 0xFF => "which means nothing to the machine",
        0x50..=0x5E => "a size",
        0x60..=0x7F => return format!("a lead of {} quanta", lead_size(code)),
        0x80..=0xFE => return format!("an escape of {} units", escape_size(code)),
    };
    words.into()
}

fn lead_size(code: u8) -> i32 {
    i32::from(!code & 31)
}

fn escape_size(code: u8) -> i32 {
    i32::from(!code & 127)
}

fn expected_code(codes: Stretch, code: u8, machine: Machine, refusal: Refusal) -> String {
    let words = match refusal {
        Refusal::IllegalCode { .. } => expected_legal_code(machine, code),
        Refusal::NotInitialized { .. } => "initialize (40), after nothing but 00",
        Refusal::AfterStop { .. } => "nothing but 00, since stop was read",
        Refusal::Parked { .. } => "an escape of 16 (EF), forward, since the carriage is parked",
        Refusal::NoSize { .. } => "a size (50 to 5E) before the first flash",
        Refusal::OutOfRange { place } => return expected_motion(codes, code, place),
        Refusal::AboveHalf { .. } => "a flash of at most 45 (2D), or lower half (45) before it",
        Refusal::NoStop { .. } => "stop (49)",
        Refusal::AfterCut { .. } => "initialize (40), after nothing but 00, since a cut was read",
        _ => "nothing else",
    };
    words.into()
}

/// Which codes are legal. A tilt that is not may tell that the tape was made for the other machine.
fn expected_legal_code(machine: Machine, code: u8) -> &'static str {
    match (machine, code) {
        (Machine::Eight, _) => "any code but 4D, 5F and FF",
        (Machine::Four, 0x4E | 0x4F) => {
            "any code but 4D to 4F, 5F and FF; tilts are codes of the 8-font machine (--machine 8)"
        }
        (Machine::Four, _) => "any code but 4D to 4F, 5F and FF",
    }
}

/// What a motion has to keep to, and where it would go.
fn expected_motion(codes: Stretch, code: u8, place: usize) -> String {
    let standing = codes.standing(place);
    if code >= 0x80 {
        let way = standing.map_or(String::new(), |(carriage, _)| way(carriage, escape_size(code), 3_239));
        format!("an escape that keeps the carriage in 0 to 3,239{way}")
    } else {
        let way = standing.map_or(String::new(), |(_, height)| way(height, lead_size(code), 1_000_000));
        format!("a lead that keeps the height in 0 to 1,000,000{way}")
    }
}

/// Where a refused motion starts and ends: forward if that is beyond the range, else backward.
fn way(from: i32, size: i32, most: i32) -> String {
    let to = if from + size > most { from + size } else { from - size };
    format!("; it would go from {from} to {to}")
}
