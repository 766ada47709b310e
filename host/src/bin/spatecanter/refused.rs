//! Refused inputs, named: what stands at the place, and what was expected there.

use crate::edition::Edition;
use crate::failure::Failure;
use crate::input::shown;
use spatecanter::{Explained, Form, Machine, Refusal};
use std::ffi::OsStr;

/// An input, with why it was refused.
pub fn input(name: &OsStr, why: &Explained) -> Failure {
    Failure::Refused(format!("{}: {why}", shown(name)))
}

pub fn tape(name: &OsStr, tape: &[u8], machine: Machine, refusal: Refusal) -> Failure {
    input(name, &refusal.in_tape(tape, machine))
}

pub fn galley(name: &OsStr, galley: &[u8], refusal: Refusal) -> Failure {
    input(name, &refusal.in_galley(galley, Form::New))
}

/// A DVI file that was read with widths, or the table of widths where that is at fault.
pub fn dvi(name: &OsStr, dvi: &[u8], table: Option<&OsStr>, widths: &[i32], refusal: Refusal) -> Failure {
    let at_fault = table.filter(|_| refusal == Refusal::WidthsNotWhole).unwrap_or(name);
    let mut why = refusal.in_dvi(dvi, widths).to_string();
    if refusal.place() == 0 && Edition::of(dvi) == Edition::Second {
        why += "\n  a file of the second edition begins so: see spatecanter back";
    }
    Failure::Refused(format!("{}: {why}", shown(at_fault)))
}

/// Whether there is a tilt among these codes.
pub fn has_tilt(codes: &[u8]) -> bool {
    codes.iter().any(|code| matches!(code, 0x4E | 0x4F))
}
