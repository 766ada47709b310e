//! The directed cases of tests/vectors, on the plain reading, the library and the quick version.

mod call;
mod text;

use crate::implementation::{Implementation, RunningTape, BRACKETS, LIBRARY, PLAIN, QUICK};
use call::{Call, Given};
use std::fs;
use std::io::Write;
use std::path::Path;
use text::{bytes, number, Line};

#[test]
fn every_case_gives_what_is_written() {
    let folder = Path::new(env!("CARGO_MANIFEST_DIR")).join("../tests/vectors");
    let (mut cases, mut faults) = (0, Vec::new());
    for entry in fs::read_dir(folder).unwrap() {
        let path = entry.unwrap().path();
        if path.extension().is_some_and(|ending| ending == "txt") {
            let name = path.file_name().unwrap().to_string_lossy();
            cases += run(&name, &fs::read_to_string(&path).unwrap(), &mut faults);
        }
    }
    assert!(faults.is_empty(), "{} faults\n{}", faults.len(), faults.join("\n"));
    assert!(cases > 0);
    writeln!(std::io::stdout().lock(), "library, quick version, plain reading: {cases} directed cases")
        .unwrap();
}

/// Runs the cases of a file on each implementation and gives their number. A fault names its line.
fn run(file: &str, text: &str, faults: &mut Vec<String>) -> usize {
    let mut cases = 0;
    let mut shared = Shared::default();
    for (index, line) in text.lines().enumerate() {
        let place = format!("{file}:{}", index + 1);
        match Case::read(line) {
            Ok(None) if line.is_empty() => std::mem::take(&mut shared).run(faults),
            Ok(None) => {}
            Ok(Some(case)) => {
                cases += 1;
                shared.0.push((place, case));
            }
            Err(fault) => faults.push(format!("{place}: {fault}")),
        }
    }
    shared.run(faults);
    cases
}

/// The cases between two empty lines, with their places: they share a running tape.
#[derive(Default)]
struct Shared(Vec<(String, Case)>);

impl Shared {
    /// Runs the cases on each implementation. Where a case has no room, the buffer is just as long as needed, and
    /// then longer. A case is told once.
    fn run(self, faults: &mut Vec<String>) {
        for them in [PLAIN, LIBRARY, BRACKETS, QUICK] {
            let mut told = vec![false; self.0.len()];
            for (spare, filler) in [(0, 0xA5), (100, 0x5A)] {
                let mut tape = (them.new_tape)();
                for ((place, case), told) in self.0.iter().zip(&mut told) {
                    if let Err(fault) = case.run(&them, &mut *tape, spare, filler) {
                        if !std::mem::replace(told, true) {
                            faults.push(format!("{place}: {}: {fault}", them.name));
                        }
                    }
                }
            }
        }
    }
}

/// A call, the buffers that are lent to it, and what it gives.
struct Case {
    call: Call,
    buffers: Vec<Buffer>,
    given: Given,
}

/// A buffer: its length, where the line has one, and the bytes that are written there.
struct Buffer {
    name: &'static str,
    room: Option<usize>,
    bytes: Vec<u8>,
}

/// Bytes on both sides of a buffer, which no call may change.
const GUARD: usize = 32;

impl Case {
    fn read(line: &str) -> Result<Option<Case>, String> {
        let Some(Line { operation, mut inputs, answer, mut outputs }) = Line::read(line)? else {
            return Ok(None);
        };
        let call = Call::read(operation, &mut inputs)?;
        let mut buffers = Vec::new();
        for name in call.buffers {
            let room = if call.buffers.len() == 1 { "room" } else { &format!("{name}_room") };
            let room = inputs.find(room, number)?;
            buffers.push(Buffer { name, room, bytes: outputs.find(name, bytes)?.unwrap_or_default() });
        }
        let given = Given::read(operation, answer, &mut outputs)?;
        inputs.none_left()?;
        outputs.none_left()?;
        Ok(Some(Case { call, buffers, given }))
    }

    /// Runs the case with so much spare room, in buffers full of one byte.
    fn run(
        &self,
        them: &Implementation,
        tape: &mut dyn RunningTape,
        spare: usize,
        filler: u8,
    ) -> Result<(), String> {
        let room = |buffer: &Buffer| buffer.room.unwrap_or(buffer.bytes.len() + spare);
        let mut lent: Vec<Vec<u8>> =
            self.buffers.iter().map(|buffer| vec![filler; room(buffer) + 2 * GUARD]).collect();
        let mut slices: Vec<&mut [u8]> = Vec::new();
        for lent in &mut lent {
            let end = lent.len() - GUARD;
            slices.push(&mut lent[GUARD..end]);
        }
        let given = (self.call.run)(them, tape, &mut slices);
        if given != self.given {
            return Err(format!("{given:?} in place of {:?}", self.given));
        }
        self.buffers.iter().zip(&lent).try_for_each(|(buffer, lent)| buffer.holds(lent, filler))
    }
}

impl Buffer {
    /// Its bytes stand in the buffer, and all other lent bytes are as they were.
    fn holds(&self, lent: &[u8], filler: u8) -> Result<(), String> {
        for (index, &byte) in lent.iter().enumerate() {
            let written = index.checked_sub(GUARD).and_then(|place| self.bytes.get(place));
            let expected = *written.unwrap_or(&filler);
            if byte != expected {
                let place = index as isize - GUARD as isize;
                return Err(format!("{} has {byte:02X} at {place} in place of {expected:02X}", self.name));
            }
        }
        Ok(())
    }
}

/// What is wrong is told by line, and by implementation where a case was run.
#[test]
fn faults_name_their_lines() {
    for (text, starts) in [
        ("# P1\n\nread_tape machine=8 tape= -> 9 0 0", &[][..]),
        (
            "read_tape machine=8 tape= -> 9 1 0",
            &["a:1: plain", "a:1: library:", "a:1: library's", "a:1: quick"],
        ),
        (
            "\nread_tape machine=8 tape=4049 -> 0 0 7 galley=02000400000001",
            &["a:2: plain", "a:2: library:", "a:2: library's", "a:2: quick"],
        ),
        (
            "read_tape machine=8 tape=4049 room=8 -> 0 0 7",
            &["a:1: plain", "a:1: library:", "a:1: library's", "a:1: quick"],
        ),
        (
            "read_back galley= n=0 -> 41 0 0 character=1,0,0,0",
            &["a:1: plain", "a:1: library:", "a:1: library's", "a:1: quick"],
        ),
        ("read_tape machine=8 tape=", &["a:1: there is no ` -> `"]),
        ("read_tape machine=8 tape= -> 9 0", &["a:1: number, place and length"]),
        ("read_tape machine=8 -> 9 0 0", &["a:1: `tape` is missing"]),
        ("read_tape machine=8 tape= tape= -> 9 0 0", &["a:1: `tape` stands twice"]),
        ("read_tape machine=8 tape=0 -> 9 0 0", &["a:1: `tape`: two hexadecimal digits"]),
        ("read_tape machine=4294967296 tape= -> 9 0 0", &["a:1: `machine`: "]),
        ("read_tape machine=8 tape= n=0 -> 9 0 0", &["a:1: `n` has no meaning"]),
        ("check_galley galley= -> 41 0 0 dvi=", &["a:1: `dvi` has no meaning"]),
        ("read galley= -> 41 0 0", &["a:1: there is no operation `read`"]),
        ("start machine=8 -> 0 0 0\nclose -> 9 0 0\n\nclose -> 13 0 0", &[]),
        (
            "start machine=8 -> 0 0 0\n\nclose -> 9 0 0",
            &["a:3: plain", "a:3: library:", "a:3: library's", "a:3: quick"],
        ),
    ] {
        let mut faults = Vec::new();
        run("a", text, &mut faults);
        assert_eq!(faults.len(), starts.len(), "{text}: {faults:?}");
        assert!(faults.iter().zip(starts).all(|(fault, start)| fault.starts_with(start)), "{faults:?}");
    }
}
