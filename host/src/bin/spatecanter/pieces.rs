//! A tape read in pieces, as they come: what is kept is the running tape and one piece.

use crate::failure::Failure;
use crate::input;
use crate::output::{self, Draft, Place};
use crate::text::counted;
use crate::{progress, refused};
use spatecanter::galley::{items, Item};
use spatecanter::{Extents, Machine, Refusal, RunningTape};
use std::ffi::OsStr;

/// The longest piece, where --pieces names none.
pub const LONGEST: usize = 65_536;

/// A tape that is being read, and what it has set so far.
pub struct Reading<'a> {
    name: &'a OsStr,
    machine: Machine,
    tape: RunningTape,
    fields: Vec<u8>,
    bytes: usize,
    pub characters: usize,
    cuts: usize,
    pub has_tilt: bool,
}

/// Reads a tape in pieces of at most `longest` bytes and writes its galley as it goes. A file comes to its
/// place when the tape is accepted.
pub fn read<'a>(
    name: &'a OsStr,
    machine: Machine,
    longest: usize,
    place: &Place,
) -> Result<Reading<'a>, Failure> {
    let mut reading = Reading::start(name, machine);
    let mut draft = Draft::start(place)?;
    progress::while_reaching(&format!("reading {}", input::shown(name)), |reached| {
        input::each_piece(name, longest, |piece| {
            let fields = reading.take(piece)?;
            draft.fill(|out| out.write_all(fields))?;
            reached.set(reading.in_words());
            Ok(())
        })
    })?;
    let end = reading.close()?;
    draft.fill(|out| out.write_all(&end))?;
    output::finish(vec![draft])?;
    Ok(reading)
}

impl Reading<'_> {
    fn start(name: &OsStr, machine: Machine) -> Reading<'_> {
        let mut tape = RunningTape::new();
        tape.start(machine);
        Reading { name, machine, tape, fields: vec![], bytes: 0, characters: 0, cuts: 0, has_tilt: false }
    }

    pub fn extents(&self) -> Extents {
        self.tape.extents()
    }

    /// The fields of what a piece sets.
    fn take(&mut self, piece: &[u8]) -> Result<&[u8], Failure> {
        let before = self.tape.clone();
        self.fields.resize(RunningTape::room(piece), 0);
        let length = self
            .tape
            .feed_into(piece, &mut self.fields)
            .map_err(|refusal| self.refused(&before, piece, refusal))?;
        self.fields.truncate(length);
        self.bytes += piece.len();
        self.has_tilt |= refused::has_tilt(piece);
        for item in items(&self.fields) {
            match item {
                Item::Character(_) => self.characters += 1,
                Item::Cut => self.cuts += 1,
            }
        }
        Ok(&self.fields)
    }

    fn close(&mut self) -> Result<[u8; 7], Failure> {
        let before = self.tape.clone();
        self.tape.close().map_err(|refusal| self.refused(&before, &[], refusal))
    }

    fn refused(&self, before: &RunningTape, piece: &[u8], refusal: Refusal) -> Failure {
        refused::input(self.name, &refusal.in_piece(before, self.bytes, piece, self.machine))
    }

    fn in_words(&self) -> String {
        format!(
            ", {}, {}, {}",
            counted(self.bytes, "byte"),
            counted(self.characters, "character"),
            counted(self.cuts + 1, "page")
        )
    }
}
