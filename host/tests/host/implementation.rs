//! The operations of the plain reading, of the quick version and of the library, in one shape.

use crate::{ffi, plain, quick};

/// Number, place, length.
pub type Answer = [usize; 3];

/// Fills the second slice from the first.
type Fill = fn(&[u8], &mut [u8]) -> Answer;

/// Fills the last slice from a DVI file, with a table of widths.
type ReadFile = fn(&[u8], &[i32], &mut [u8]) -> Answer;

/// Fills the last slice from an XGP file, with the spacing of its lines and a table of widths.
type ReadXgp = fn(&[u8], u16, &[i32], &mut [u8]) -> Answer;

/// Fills the last two slices, a DVI file and its sheet: number, place, the sheet's length and the DVI file's.
type FillBoth = fn(&[u8], &[i32], &mut [u8], &mut [u8]) -> [usize; 4];

/// The operations of one implementation.
#[derive(Clone, Copy)]
pub struct Implementation {
    pub name: &'static str,
    pub read_tape: fn(&[u8], u32, &mut [u8]) -> Answer,
    pub check_galley: fn(&[u8]) -> Answer,
    pub read_back: fn(&[u8], usize) -> (Answer, [i32; 4]),
    pub item_at: fn(&[u8], usize) -> (Answer, [i32; 5]),
    pub write_dvi: Fill,
    pub read_dvi: ReadFile,
    pub dvi_to_galley: ReadFile,
    pub read_xgp: ReadXgp,
    pub reprint: FillBoth,
    pub write_dvi2: Fill,
    pub read_dvi2: Fill,
    pub punch_tape: Fill,
    pub to_new: Fill,
    pub to_old: Fill,
    pub count_tape: fn(&[u8], u32, &mut ReportWords) -> Answer,
    pub new_tape: fn() -> Box<dyn RunningTape>,
}

/// A running tape of one implementation.
pub trait RunningTape {
    fn start(&mut self, machine: u32) -> Answer;
    fn feed(&mut self, piece: &[u8], out: &mut [u8]) -> Answer;
    fn close(&mut self, out: &mut [u8]) -> Answer;
    /// Farthest x and greatest height, and the font numbers met, ascending.
    fn extents(&self) -> ([i32; 2], Vec<i32>);
}

/// The font numbers that two marks name.
fn marked([low, high]: [u64; 2]) -> Vec<i32> {
    (0..128).filter(|&font| (if font < 64 { low } else { high }) >> (font % 64) & 1 == 1).collect()
}

/// The words of a report.
pub type ReportWords = [u64; 135];

/// The plain reading, with buffers.
pub const PLAIN: Implementation = Implementation {
    name: "plain reading",
    read_tape: |tape, machine, galley| filled(plain::read_tape(tape, machine), galley, 12),
    check_galley: |galley| match plain::check_galley(galley) {
        Ok(count) => [0, 0, count],
        Err((number, place)) => [number, place, 0],
    },
    read_back: |galley, n| match plain::read_back(galley, n) {
        Ok(plain::Character { x, height, font_number, code }) => {
            ([0; 3], [x, height as i32, font_number, code])
        }
        Err((number, place)) => ([number, place, 0], [0; 4]),
    },
    item_at: |galley, at| match plain::item_at(galley, at) {
        Ok((plain::Item::Character(plain::Character { x, height, font_number, code }), length)) => {
            ([0, 0, length], [1, x, height as i32, font_number, code])
        }
        Ok((plain::Item::Cut, length)) => ([0, 0, length], [2, 0, 0, 0, 0]),
        Err((number, place)) => ([number, place, 0], [0; 5]),
    },
    write_dvi: |galley, dvi| filled(plain::write_dvi(galley), dvi, 42),
    read_dvi: |dvi, widths, sheet| filled(plain::read_dvi(dvi, widths), sheet, 30),
    dvi_to_galley: |dvi, widths, galley| filled(plain::dvi_to_galley(dvi, widths), galley, 12),
    read_xgp: |file, spacing, widths, sheet| filled(plain::read_xgp(file, spacing, widths), sheet, 30),
    reprint: |galley, widths, dvi, sheet| match plain::reprint(galley, widths, dvi.len(), sheet.len()) {
        Ok((dvi_bytes, sheet_bytes)) => {
            dvi[..dvi_bytes.len()].copy_from_slice(&dvi_bytes);
            sheet[..sheet_bytes.len()].copy_from_slice(&sheet_bytes);
            [0, 0, sheet_bytes.len(), dvi_bytes.len()]
        }
        Err((number, place)) => [number, place, 0, 0],
    },
    write_dvi2: |galley, dvi| filled(plain::write_dvi2(galley), dvi, 42),
    read_dvi2: |dvi, galley| filled(plain::read_dvi2(dvi), galley, 12),
    punch_tape: |galley, tape| filled(plain::punch_tape(galley), tape, 49),
    to_new: |old, new| filled(plain::to_new(old), new, 44),
    to_old: |new, old| filled(plain::to_old(new), old, 44),
    count_tape: |tape, machine, report| match plain::count_tape(tape, machine, report) {
        Ok(()) => [0; 3],
        Err((number, place)) => [number, place, 0],
    },
    new_tape: || Box::new(plain::RunningTape::new()),
};

impl RunningTape for plain::RunningTape {
    fn start(&mut self, machine: u32) -> Answer {
        filled(self.start(machine), &mut [], 12)
    }

    fn feed(&mut self, piece: &[u8], out: &mut [u8]) -> Answer {
        filled(self.feed(piece, out.len()), out, 12)
    }

    fn close(&mut self, out: &mut [u8]) -> Answer {
        filled(self.close(out.len()), out, 12)
    }

    fn extents(&self) -> ([i32; 2], Vec<i32>) {
        self.extents()
    }
}

/// Puts bytes into a buffer; `no_room` is the refusal's number where they don't fit.
fn filled(result: Result<Vec<u8>, plain::Refused>, buffer: &mut [u8], no_room: usize) -> Answer {
    match plain::with_room(result, buffer.len(), no_room) {
        Ok(bytes) => {
            buffer[..bytes.len()].copy_from_slice(&bytes);
            [0, 0, bytes.len()]
        }
        Err((number, place)) => [number, place, 0],
    }
}

pub const QUICK: Implementation = Implementation {
    name: "quick version",
    read_tape: quick::read_tape,
    check_galley: quick::check_galley,
    read_back: quick::read_back,
    item_at: quick::item_at,
    write_dvi: quick::write_dvi,
    read_dvi: quick::read_dvi,
    dvi_to_galley: quick::dvi_to_galley,
    read_xgp: quick::read_xgp,
    reprint: quick::reprint,
    write_dvi2: quick::write_dvi2,
    read_dvi2: quick::read_dvi2,
    punch_tape: quick::punch_tape,
    to_new: quick::to_new,
    to_old: quick::to_old,
    count_tape: quick::count_tape,
    new_tape: || Box::new(quick::RunningTape::new()),
};

impl RunningTape for quick::RunningTape {
    fn start(&mut self, machine: u32) -> Answer {
        self.start(machine)
    }

    fn feed(&mut self, piece: &[u8], out: &mut [u8]) -> Answer {
        self.feed(piece, out)
    }

    fn close(&mut self, out: &mut [u8]) -> Answer {
        self.close(out)
    }

    fn extents(&self) -> ([i32; 2], Vec<i32>) {
        let (reach, marks) = self.extents();
        (reach, marked(marks))
    }
}

/// The library by its C interface, with a guard on both sides of every answer.
pub const LIBRARY: Implementation = Implementation {
    name: "library",
    read_tape: |tape, machine, galley| {
        answered(|answer| unsafe {
            ffi::sp_read_tape(tape.as_ptr(), tape.len(), machine, galley.as_mut_ptr(), galley.len(), answer)
        })
    },
    check_galley: |galley| {
        answered(|answer| unsafe { ffi::sp_check_galley(galley.as_ptr(), galley.len(), answer) })
    },
    read_back: |galley, n| {
        let mut lent = [0x5A5A_5A5A_i32; 6];
        let character = lent[1..5].as_mut_ptr().cast();
        let answer = answered(|answer| unsafe {
            ffi::sp_read_back(galley.as_ptr(), galley.len(), n, answer, character)
        });
        let [before, x, height, font_number, code, after] = lent;
        assert_eq!([before, after], [0x5A5A_5A5A; 2], "written beside the character");
        (answer, [x, height, font_number, code])
    },
    item_at: |galley, at| {
        let mut lent = [0x5A5A_5A5A_i32; 7];
        let item = lent[1..6].as_mut_ptr().cast();
        let answer =
            answered(|answer| unsafe { ffi::sp_item_at(galley.as_ptr(), galley.len(), at, answer, item) });
        let [before, kind, x, height, font_number, code, after] = lent;
        assert_eq!([before, after], [0x5A5A_5A5A; 2], "written beside the item");
        (answer, [kind, x, height, font_number, code])
    },
    write_dvi: |galley, dvi| answered(|answer| ffi::over_bytes(ffi::sp_write_dvi, galley, dvi, answer)),
    read_dvi: |dvi, widths, sheet| {
        answered(|answer| ffi::with_widths(ffi::sp_read_dvi, dvi, widths, sheet, answer))
    },
    dvi_to_galley: |dvi, widths, galley| {
        answered(|answer| ffi::with_widths(ffi::sp_dvi_to_galley, dvi, widths, galley, answer))
    },
    read_xgp: |file, spacing, widths, sheet| {
        answered(|answer| unsafe {
            ffi::sp_read_xgp(
                file.as_ptr(),
                file.len(),
                spacing,
                widths.as_ptr(),
                widths.len(),
                sheet.as_mut_ptr(),
                sheet.len(),
                answer,
            )
        })
    },
    reprint: |galley, widths, dvi, sheet| {
        let mut answer = [usize::MAX; 4];
        unsafe {
            ffi::sp_reprint(
                galley.as_ptr(),
                galley.len(),
                widths.as_ptr(),
                widths.len(),
                dvi.as_mut_ptr(),
                dvi.len(),
                sheet.as_mut_ptr(),
                sheet.len(),
                &mut answer,
            )
        }
        answer
    },
    write_dvi2: |galley, dvi| answered(|answer| ffi::over_bytes(ffi::sp_write_dvi2, galley, dvi, answer)),
    read_dvi2: |dvi, galley| answered(|answer| ffi::over_bytes(ffi::sp_read_dvi2, dvi, galley, answer)),
    punch_tape: |galley, tape| answered(|answer| ffi::over_bytes(ffi::sp_punch_tape, galley, tape, answer)),
    to_new: |old, new| answered(|answer| ffi::over_bytes(ffi::sp_galley_to_new, old, new, answer)),
    to_old: |new, old| answered(|answer| ffi::over_bytes(ffi::sp_galley_to_old, new, old, answer)),
    count_tape: |tape, machine, report| {
        let mut lent = [0x5A5A_5A5A_5A5A_5A5A_u64; 137];
        lent[1..136].copy_from_slice(report);
        let words = lent[1..136].as_mut_ptr().cast();
        let answer = answered(|answer| unsafe {
            ffi::sp_count_tape(tape.as_ptr(), tape.len(), machine, words, answer)
        });
        assert_eq!([lent[0], lent[136]], [0x5A5A_5A5A_5A5A_5A5A; 2], "written beside the report");
        report.copy_from_slice(&lent[1..136]);
        answer
    },
    new_tape: || {
        let mut tape = Words([GUARD; ffi::TAPE_WORDS + 2]);
        unsafe { ffi::sp_new_tape(tape.lent()) };
        tape.is_guarded();
        Box::new(tape)
    },
};

/// The library, with its plain reader of DVI files for the quick one.
pub const BRACKETS: Implementation = Implementation {
    name: "library's plain reader",
    read_dvi: |dvi, widths, sheet| {
        answered(|answer| ffi::with_widths(ffi::sp_read_dvi_plain, dvi, widths, sheet, answer))
    },
    ..LIBRARY
};

/// The library's running tape, with a guard on both sides.
pub struct Words(pub [u64; ffi::TAPE_WORDS + 2]);

pub const GUARD: u64 = 0x5A5A_5A5A_5A5A_5A5A;

impl Words {
    fn lent(&mut self) -> *mut [u64; ffi::TAPE_WORDS] {
        self.0[1..].as_mut_ptr().cast()
    }

    fn is_guarded(&self) {
        assert_eq!([self.0[0], self.0[ffi::TAPE_WORDS + 1]], [GUARD; 2], "written beside the running tape");
    }

    fn call(&mut self, call: impl FnOnce(*mut [u64; ffi::TAPE_WORDS], &mut Answer)) -> Answer {
        let tape = self.lent();
        let answer = answered(|answer| call(tape, answer));
        self.is_guarded();
        answer
    }
}

impl RunningTape for Words {
    fn start(&mut self, machine: u32) -> Answer {
        self.call(|tape, answer| unsafe { ffi::sp_start(tape, machine, answer) })
    }

    fn feed(&mut self, piece: &[u8], out: &mut [u8]) -> Answer {
        self.call(|tape, answer| unsafe {
            ffi::sp_feed(tape, piece.as_ptr(), piece.len(), out.as_mut_ptr(), out.len(), answer)
        })
    }

    fn close(&mut self, out: &mut [u8]) -> Answer {
        self.call(|tape, answer| unsafe { ffi::sp_close(tape, out.as_mut_ptr(), out.len(), answer) })
    }

    fn extents(&self) -> ([i32; 2], Vec<i32>) {
        let (mut reach, mut marks) = ([0x5A5A_5A5A_i32; 4], [GUARD; 4]);
        let tape = self.0[1..].as_ptr().cast();
        unsafe { ffi::sp_extents(tape, reach[1..].as_mut_ptr().cast(), marks[1..].as_mut_ptr().cast()) };
        assert_eq!([reach[0], reach[3]], [0x5A5A_5A5A; 2], "written beside the reach");
        assert_eq!([marks[0], marks[3]], [GUARD; 2], "written beside the marks");
        ([reach[1], reach[2]], marked([marks[1], marks[2]]))
    }
}

fn answered(call: impl FnOnce(&mut Answer)) -> Answer {
    let mut lent = [usize::MAX - 1; 5];
    call((&mut lent[1..4]).try_into().expect("three numbers"));
    let [before, number, place, length, after] = lent;
    assert_eq!([before, after], [usize::MAX - 1; 2], "written beside the answer");
    [number, place, length]
}
