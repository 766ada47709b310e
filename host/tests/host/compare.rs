//! One call of an implementation against the plain reading: every answer, every byte.

use crate::implementation::{Answer, Implementation, ReportWords, RunningTape, PLAIN};
use crate::plain;
use spatecanter::sample::Random;
use std::collections::BTreeMap;
use std::io::Write;

/// A slice in the midst of other bytes, at an odd address as often as not.
struct Lent {
    bytes: Vec<u8>,
    start: usize,
    end: usize,
}

impl Lent {
    /// So many bytes, of any content.
    fn new(random: &mut Random, length: usize) -> Lent {
        let (before, after) = (24 + random.below(8), 24 + random.below(8));
        let (mut bits, turn) = (random.bits(), random.bits() | 1);
        let mut bytes = Vec::with_capacity(before + length + after);
        for _ in 0..before + length + after {
            bits = bits.wrapping_mul(0x5851_F42D_4C95_7F2D).wrapping_add(turn);
            bytes.push((bits >> 56) as u8);
        }
        Lent { bytes, start: before, end: before + length }
    }

    fn holding(random: &mut Random, content: &[u8]) -> Lent {
        let mut lent = Lent::new(random, content.len());
        lent.slice_mut().copy_from_slice(content);
        lent
    }

    fn slice(&self) -> &[u8] {
        &self.bytes[self.start..self.end]
    }

    fn slice_mut(&mut self) -> &mut [u8] {
        &mut self.bytes[self.start..self.end]
    }

    /// An input is only read.
    fn still_holds(&self, content: &[u8]) {
        assert!(self.slice() == content, "written into the input");
    }

    /// All bytes as they should be after a call that writes these.
    fn after(&self, written: &[u8]) -> Vec<u8> {
        let mut bytes = self.bytes.clone();
        bytes[self.start..self.start + written.len()].copy_from_slice(written);
        bytes
    }
}

/// A running tape of the implementation, and that of the plain reading.
struct Running {
    theirs: Box<dyn RunningTape>,
    plain: plain::RunningTape,
}

impl Running {
    fn new(implementation: &Implementation) -> Running {
        Running { theirs: (implementation.new_tape)(), plain: plain::RunningTape::new() }
    }
}

/// A call on a running tape.
#[derive(Clone, Copy)]
enum Call<'a> {
    Start(u32),
    Feed(&'a [u8]),
    Close,
}

/// How many calls gave each number, by operation.
type Counts = BTreeMap<&'static str, BTreeMap<usize, usize>>;

pub struct Comparison {
    implementation: Implementation,
    random: Random,
    counts: Counts,
    /// Whether every buffer for an accepted input is as long as needed.
    exact_room: bool,
}

impl Comparison {
    pub fn new(implementation: Implementation, seed: u64) -> Comparison {
        Comparison { implementation, random: Random::new(seed), counts: Counts::new(), exact_room: false }
    }

    pub fn with_exact_room(self) -> Comparison {
        Comparison { exact_room: true, ..self }
    }

    /// A tape read on a machine of any number.
    pub fn tape(&mut self, tape: &[u8], machine: u32) {
        let operation = match machine {
            4 => "read_tape, 4 fonts",
            8 => "read_tape, 8 fonts",
            _ => "read_tape, no machine",
        };
        let result = plain::read_tape(tape, machine);
        let room = self.room(tape, &result);
        let expected = plain::with_room(result, room, 12);
        let call =
            |them: &Implementation, tape: &[u8], galley: &mut [u8]| (them.read_tape)(tape, machine, galley);
        self.fills(operation, tape, expected, room, call);
    }

    /// A tape read on both machines, whichever it was made for.
    pub fn tape_on_both(&mut self, tape: &[u8]) {
        self.tape(tape, 4);
        self.tape(tape, 8);
    }

    /// A galley checked, read back, looked at in a place, written in both editions, reprinted and punched.
    pub fn galley(&mut self, galley: &[u8]) {
        self.check_galley(galley);
        self.read_back(galley);
        self.item_at(galley);
        self.write_dvi(galley);
        self.reprint(galley);
        self.write_dvi2(galley);
        self.punch(galley);
    }

    pub fn check_galley(&mut self, galley: &[u8]) {
        let lent = Lent::holding(&mut self.random, galley);
        let expected = (PLAIN.check_galley)(galley);
        let answer = (self.implementation.check_galley)(lent.slice());
        lent.still_holds(galley);
        self.agree("check_galley", galley, answer, expected);
    }

    pub fn read_back(&mut self, galley: &[u8]) {
        let lent = Lent::holding(&mut self.random, galley);
        let count = plain::check_galley(galley).unwrap_or(galley.len() / 11);
        let n = self.character_number(count);
        let (expected, expected_character) = (PLAIN.read_back)(galley, n);
        let (answer, character) = (self.implementation.read_back)(lent.slice(), n);
        lent.still_holds(galley);
        assert_eq!(
            character,
            expected_character,
            "{}, character {n} of {}",
            self.implementation.name,
            shown(galley)
        );
        self.agree("read_back", galley, answer, expected);
    }

    pub fn item_at(&mut self, galley: &[u8]) {
        let lent = Lent::holding(&mut self.random, galley);
        let at = self.place(galley);
        let (expected, expected_item) = (PLAIN.item_at)(galley, at);
        let (answer, item) = (self.implementation.item_at)(lent.slice(), at);
        lent.still_holds(galley);
        assert_eq!(item, expected_item, "{}, place {at} of {}", self.implementation.name, shown(galley));
        self.agree("item_at", galley, answer, expected);
    }

    pub fn write_dvi(&mut self, galley: &[u8]) {
        let result = plain::write_dvi(galley);
        let room = self.room(galley, &result);
        let expected = plain::with_room(result, room, 42);
        self.fills("write_dvi", galley, expected, room, |them, galley, dvi| (them.write_dvi)(galley, dvi));
    }

    /// A DVI file read into a sheet, and made into a galley.
    pub fn dvi(&mut self, dvi: &[u8], widths: &[i32]) {
        self.read_dvi(dvi, widths);
        self.dvi_to_galley(dvi, widths);
    }

    pub fn dvi_to_galley(&mut self, dvi: &[u8], widths: &[i32]) {
        let result = plain::dvi_to_galley(dvi, widths);
        let room = self.room(dvi, &result);
        let expected = plain::with_room(result, room, 12);
        let call =
            |them: &Implementation, dvi: &[u8], galley: &mut [u8]| (them.dvi_to_galley)(dvi, widths, galley);
        self.fills("dvi_to_galley", dvi, expected, room, call);
    }

    pub fn read_dvi(&mut self, dvi: &[u8], widths: &[i32]) {
        let result = plain::read_dvi(dvi, widths);
        let room = self.room(dvi, &result);
        let expected = plain::with_room(result, room, 30);
        let call = |them: &Implementation, dvi: &[u8], sheet: &mut [u8]| (them.read_dvi)(dvi, widths, sheet);
        self.fills("read_dvi", dvi, expected, room, call);
    }

    pub fn read_xgp(&mut self, file: &[u8], spacing: u16, widths: &[i32]) {
        let result = plain::read_xgp(file, spacing, widths);
        let room = self.room(file, &result);
        let expected = plain::with_room(result, room, 30);
        let call = |them: &Implementation, file: &[u8], sheet: &mut [u8]| {
            (them.read_xgp)(file, spacing, widths, sheet)
        };
        self.fills("read_xgp", file, expected, room, call);
    }

    pub fn reprint(&mut self, galley: &[u8]) {
        let widths = vec![1; self.random.pick(&[0, 0, 0, 128, 256, 127, 1])];
        let whole = plain::reprint(galley, &widths, usize::MAX, usize::MAX);
        let dvi_room = self.room(galley, &whole.as_ref().map(|(dvi, _)| dvi));
        let sheet_room = self.room(galley, &whole.as_ref().map(|(_, sheet)| sheet));
        let expected = plain::reprint(galley, &widths, dvi_room, sheet_room);

        let lent = Lent::holding(&mut self.random, galley);
        let mut dvi = Lent::new(&mut self.random, dvi_room);
        let mut sheet = Lent::new(&mut self.random, sheet_room);
        let (dvi_bytes, sheet_bytes) = expected.clone().unwrap_or_default();
        let after = (dvi.after(&dvi_bytes), sheet.after(&sheet_bytes));
        let [number, place, shown, file] =
            (self.implementation.reprint)(lent.slice(), &widths, dvi.slice_mut(), sheet.slice_mut());
        lent.still_holds(galley);
        self.same_bytes("reprint, DVI file", galley, &dvi.bytes, &after.0);
        self.same_bytes("reprint, sheet", galley, &sheet.bytes, &after.1);
        assert_eq!(file, dvi_bytes.len(), "{}, the DVI file's length", self.implementation.name);
        self.agree("reprint", galley, [number, place, shown], answer_of(expected.map(|(_, sheet)| sheet)));
    }

    /// A galley written in the second edition; reading what was written gives it again.
    pub fn write_dvi2(&mut self, galley: &[u8]) {
        let result = plain::write_dvi2(galley);
        let room = self.room(galley, &result);
        let expected = plain::with_room(result, room, 42);
        let call = |them: &Implementation, galley: &[u8], dvi: &mut [u8]| (them.write_dvi2)(galley, dvi);
        self.fills("write_dvi2", galley, expected.clone(), room, call);
        if let Ok(dvi) = expected {
            let mut again = vec![0; galley.len()];
            let answer = (self.implementation.read_dvi2)(&dvi, &mut again);
            assert_eq!(answer, [0, 0, galley.len()], "written and read: {}", shown(galley));
            assert!(again == galley, "written and read: {}", shown(galley));
        }
    }

    /// A file read as one of the second edition.
    pub fn read_dvi2(&mut self, dvi: &[u8]) {
        let result = plain::read_dvi2(dvi);
        let room = self.room(dvi, &result);
        let expected = plain::with_room(result, room, 12);
        let call = |them: &Implementation, dvi: &[u8], galley: &mut [u8]| (them.read_dvi2)(dvi, galley);
        self.fills("read_dvi2", dvi, expected, room, call);
    }

    /// A galley punched; reading what was punched gives it again.
    pub fn punch(&mut self, galley: &[u8]) {
        let result = plain::punch_tape(galley);
        let room = self.room(galley, &result);
        let expected = plain::with_room(result, room, 49);
        let call = |them: &Implementation, galley: &[u8], tape: &mut [u8]| (them.punch_tape)(galley, tape);
        self.fills("punch_tape", galley, expected.clone(), room, call);
        if let Ok(tape) = expected {
            let mut again = vec![0; galley.len()];
            let answer = (self.implementation.read_tape)(&tape, 8, &mut again);
            assert_eq!(answer, [0, 0, galley.len()], "punched and read: {}", shown(galley));
            assert!(again == galley, "punched and read: {}", shown(galley));
        }
    }

    /// A galley of any form converted both ways, and what was accepted converted back.
    pub fn convert(&mut self, galley: &[u8]) {
        if let Some(new) = self.galley_to_new(galley) {
            let old = self.galley_to_old(&new);
            assert!(old.is_none_or(|old| old == galley), "there and back: {}", shown(galley));
        }
        if let Some(old) = self.galley_to_old(galley) {
            let new = self.galley_to_new(&old);
            assert!(new.is_none_or(|new| new == galley), "back and there: {}", shown(galley));
        }
    }

    /// The galley made, if there was room.
    pub fn galley_to_new(&mut self, old: &[u8]) -> Option<Vec<u8>> {
        let result = plain::to_new(old);
        let room = self.room(old, &result);
        let expected = plain::with_room(result, room, 44);
        self.fills("to_new", old, expected.clone(), room, |them, old, new| (them.to_new)(old, new));
        expected.ok()
    }

    /// The galley made, if there was room.
    pub fn galley_to_old(&mut self, new: &[u8]) -> Option<Vec<u8>> {
        let result = plain::to_old(new);
        let room = self.room(new, &result);
        let expected = plain::with_room(result, room, 44);
        self.fills("to_old", new, expected.clone(), room, |them, new, old| (them.to_old)(new, old));
        expected.ok()
    }

    /// A tape fed in these pieces, on a machine of any number, each call with room of any kind and again with
    /// room enough where it was short; and what the whole tape gives at once.
    pub fn in_pieces(&mut self, pieces: &[&[u8]], machine: u32) {
        let mut running = Running::new(&self.implementation);
        if self.random.below(8) == 0 {
            self.disordered(&mut running);
        }
        let whole = plain::read_tape(&pieces.concat(), machine);
        let mut out = Vec::new();
        let mut answer = self.call(&mut running, Call::Start(machine), &mut out);
        if answer[0] == 0 {
            for piece in pieces {
                self.call(&mut running, Call::Feed(piece), &mut out);
            }
            answer = self.call(&mut running, Call::Close, &mut out);
        }
        match whole {
            Ok(galley) => {
                assert!(answer == [0, 0, 7] && out == galley, "{answer:?} of {}", shown(&pieces.concat()))
            }
            Err((number, place)) => assert_eq!(answer, [number, place, 0], "{}", shown(&pieces.concat())),
        }
        for _ in 0..self.random.below(4) {
            self.disordered(&mut running);
        }
    }

    /// A call that may come at a wrong time.
    fn disordered(&mut self, running: &mut Running) {
        let call = match self.random.below(5) {
            0 => Call::Close,
            1 => Call::Start(self.random.pick(&[4, 8])),
            2 => Call::Start(self.random.below(10) as u32),
            _ => Call::Feed(self.random.pick(&[&[], &[0], &[0x40], &[0x49], &[0x40, 0xEF, 0x52, 0x01]])),
        };
        self.call(running, call, &mut Vec::new());
    }

    /// A call on a running tape; where it is refused for room it is offered again with room enough. What it
    /// writes is added to `out`.
    fn call(&mut self, running: &mut Running, call: Call, out: &mut Vec<u8>) -> Answer {
        let room = match call {
            Call::Start(_) => 0,
            Call::Feed(piece) => {
                self.random.pick(&[0, 1, 11, 11, 11, 11, 12]) * piece.len() + self.random.below(3)
            }
            Call::Close => self.random.pick(&[0, 6, 7, 7, 7, 8, 40]),
        };
        let answer = self.call_with(running, call, room, out);
        match answer {
            [12, needed, _] => self.call_with(running, call, needed, out),
            _ => answer,
        }
    }

    fn call_with(&mut self, running: &mut Running, call: Call, room: usize, out: &mut Vec<u8>) -> Answer {
        let (operation, input) = match call {
            Call::Start(_) => ("start", &[][..]),
            Call::Feed(piece) => ("feed", piece),
            Call::Close => ("close", &[][..]),
        };
        let lent = Lent::holding(&mut self.random, input);
        let mut buffer = Lent::new(&mut self.random, room);
        let expected = match call {
            Call::Start(machine) => running.plain.start(machine),
            Call::Feed(piece) => running.plain.feed(piece, room),
            Call::Close => running.plain.close(room),
        };
        let after = buffer.after(expected.as_deref().unwrap_or_default());
        let answer = match call {
            Call::Start(machine) => running.theirs.start(machine),
            Call::Feed(_) => running.theirs.feed(lent.slice(), buffer.slice_mut()),
            Call::Close => running.theirs.close(buffer.slice_mut()),
        };
        lent.still_holds(input);
        self.same_bytes(operation, input, &buffer.bytes, &after);
        out.extend(expected.as_deref().unwrap_or_default());
        self.agree(operation, input, answer, answer_of(expected));
        assert_eq!(
            running.theirs.extents(),
            running.plain.extents(),
            "extents after {operation} {}",
            shown(input)
        );
        answer
    }

    /// A tape counted in a report, which both change the same way.
    pub fn count_tape(&mut self, tape: &[u8], machine: u32, report: &mut ReportWords) {
        let lent = Lent::holding(&mut self.random, tape);
        let mut expected = *report;
        let answer = (self.implementation.count_tape)(lent.slice(), machine, report);
        let expected_answer = (PLAIN.count_tape)(tape, machine, &mut expected);
        lent.still_holds(tape);
        let name = self.implementation.name;
        assert_eq!(*report, expected, "{name}, the report after {}", shown(tape));
        self.agree("count_tape", tape, answer, expected_answer);
    }

    /// A call that fills one buffer.
    fn fills(
        &mut self,
        operation: &'static str,
        input: &[u8],
        expected: Result<Vec<u8>, plain::Refused>,
        room: usize,
        call: impl FnOnce(&Implementation, &[u8], &mut [u8]) -> Answer,
    ) {
        let lent = Lent::holding(&mut self.random, input);
        let mut buffer = Lent::new(&mut self.random, room);
        let after = buffer.after(expected.as_deref().unwrap_or_default());
        let answer = call(&self.implementation, lent.slice(), buffer.slice_mut());
        lent.still_holds(input);
        self.same_bytes(operation, input, &buffer.bytes, &after);
        self.agree(operation, input, answer, answer_of(expected));
    }

    fn agree(&mut self, operation: &'static str, input: &[u8], answer: Answer, expected: Answer) {
        let name = self.implementation.name;
        assert_eq!(answer, expected, "{name}, {operation} of {}", shown(input));
        *self.counts.entry(operation).or_default().entry(answer[0]).or_default() += 1;
    }

    fn same_bytes(&self, operation: &str, input: &[u8], bytes: &[u8], expected: &[u8]) {
        let name = self.implementation.name;
        if let Some(place) = (0..bytes.len()).find(|&place| bytes[place] != expected[place]) {
            panic!("{name}, {operation} of {}: byte {place} of the lent bytes is wrong", shown(input));
        }
    }

    /// Room for a buffer: as needed, one byte less, some less, more, or none. A refused input needs none; its
    /// buffer has room enough to be written to by mistake.
    fn room(&mut self, input: &[u8], result: &Result<impl AsRef<[u8]>, impl Sized>) -> usize {
        let Ok(bytes) = result else {
            return self.random.pick(&[0, 1, 2, 20]) * input.len() + self.random.below(40);
        };
        let needed = bytes.as_ref().len();
        match self.random.below(12) {
            _ if self.exact_room => needed,
            0 => needed.saturating_sub(1),
            1 => self.random.below(needed + 1),
            2 => 0,
            3..=5 => needed + self.random.below(40),
            _ => needed,
        }
    }

    /// The number of a character to be read back, at times one that is not there.
    fn character_number(&mut self, count: usize) -> usize {
        match self.random.below(8) {
            0 => count,
            1 => usize::MAX,
            2 => count.saturating_sub(1),
            _ => self.random.below(count + 1),
        }
    }

    /// A place in a galley or past it, as often as not the start of a field.
    fn place(&mut self, galley: &[u8]) -> usize {
        match self.random.below(8) {
            0 => galley.len(),
            1 => usize::MAX,
            2 | 3 => self.random.below(galley.len() + 12),
            _ => {
                let mut at = 0;
                for _ in 0..self.random.below(20) {
                    at += plain::item_at(galley, at).map_or(0, |(_, length)| length);
                }
                at
            }
        }
    }

    /// How many calls gave this number.
    pub fn count(&self, operation: &str, number: usize) -> usize {
        self.counts.get(operation).and_then(|numbers| numbers.get(&number)).copied().unwrap_or(0)
    }

    pub fn total(&self) -> usize {
        self.counts.values().flat_map(BTreeMap::values).sum()
    }

    /// Prints the cases of each operation by number, past the test harness.
    pub fn print(&self) {
        let mut out = std::io::stdout().lock();
        for (operation, numbers) in &self.counts {
            let total: usize = numbers.values().sum();
            let parts: Vec<String> =
                numbers.iter().map(|(number, count)| format!("{number}: {count}")).collect();
            let line =
                format!("{}, {operation}: {total} cases ({})", self.implementation.name, parts.join(", "));
            writeln!(out, "{line}").unwrap();
        }
        writeln!(out, "{}: {} cases in all", self.implementation.name, self.total()).unwrap();
    }
}

fn answer_of(expected: Result<Vec<u8>, plain::Refused>) -> Answer {
    match expected {
        Ok(bytes) => [0, 0, bytes.len()],
        Err((number, place)) => [number, place, 0],
    }
}

/// An input in hexadecimal, or the start of a long one.
fn shown(input: &[u8]) -> String {
    let start = &input[..input.len().min(4_000)];
    format!("{} bytes {start:02X?}", input.len())
}
