//! The C interface, as `include/spatecanter.h` declares it.
//!
//! `answer` is number, place, length. A pointer and the length after it make one slice; no two of a
//! call's slices overlap unless both are read only.

/// The words of a running tape.
pub const TAPE_WORDS: usize = 23;

/// The kinds of an item.
pub const ITEM_CHARACTER: i32 = 1;
pub const ITEM_CUT: i32 = 2;

extern "C" {
    pub fn sp_version() -> u32;

    pub fn sp_read_tape(
        tape: *const u8,
        tape_len: usize,
        machine: u32,
        galley: *mut u8,
        galley_len: usize,
        answer: *mut [usize; 3],
    );

    pub fn sp_check_galley(galley: *const u8, galley_len: usize, answer: *mut [usize; 3]);

    pub fn sp_read_back(
        galley: *const u8,
        galley_len: usize,
        n: usize,
        answer: *mut [usize; 3],
        character: *mut [i32; 4],
    );

    pub fn sp_item_at(
        galley: *const u8,
        galley_len: usize,
        at: usize,
        answer: *mut [usize; 3],
        item: *mut [i32; 5],
    );

    pub fn sp_write_dvi(
        galley: *const u8,
        galley_len: usize,
        dvi: *mut u8,
        dvi_len: usize,
        answer: *mut [usize; 3],
    );

    pub fn sp_read_dvi(
        dvi: *const u8,
        dvi_len: usize,
        widths: *const i32,
        widths_len: usize,
        sheet: *mut u8,
        sheet_len: usize,
        answer: *mut [usize; 3],
    );

    pub fn sp_read_dvi_plain(
        dvi: *const u8,
        dvi_len: usize,
        widths: *const i32,
        widths_len: usize,
        sheet: *mut u8,
        sheet_len: usize,
        answer: *mut [usize; 3],
    );

    pub fn sp_dvi_to_galley(
        dvi: *const u8,
        dvi_len: usize,
        widths: *const i32,
        widths_len: usize,
        galley: *mut u8,
        galley_len: usize,
        answer: *mut [usize; 3],
    );

    pub fn sp_read_xgp(
        file: *const u8,
        file_len: usize,
        spacing: u16,
        widths: *const i32,
        widths_len: usize,
        sheet: *mut u8,
        sheet_len: usize,
        answer: *mut [usize; 3],
    );

    pub fn sp_reprint(
        galley: *const u8,
        galley_len: usize,
        widths: *const i32,
        widths_len: usize,
        dvi: *mut u8,
        dvi_len: usize,
        sheet: *mut u8,
        sheet_len: usize,
        answer: *mut [usize; 4],
    );

    pub fn sp_write_dvi2(
        galley: *const u8,
        galley_len: usize,
        dvi: *mut u8,
        dvi_len: usize,
        answer: *mut [usize; 3],
    );

    pub fn sp_read_dvi2(
        dvi: *const u8,
        dvi_len: usize,
        galley: *mut u8,
        galley_len: usize,
        answer: *mut [usize; 3],
    );

    pub fn sp_punch_tape(
        galley: *const u8,
        galley_len: usize,
        tape: *mut u8,
        tape_len: usize,
        answer: *mut [usize; 3],
    );

    pub fn sp_count_tape(
        tape: *const u8,
        tape_len: usize,
        machine: u32,
        report: *mut [u64; 135],
        answer: *mut [usize; 3],
    );

    pub fn sp_galley_to_new(
        old_galley: *const u8,
        old_galley_len: usize,
        new_galley: *mut u8,
        new_galley_len: usize,
        answer: *mut [usize; 3],
    );

    pub fn sp_galley_to_old(
        new_galley: *const u8,
        new_galley_len: usize,
        old_galley: *mut u8,
        old_galley_len: usize,
        answer: *mut [usize; 3],
    );

    pub fn sp_new_tape(tape: *mut [u64; TAPE_WORDS]);

    pub fn sp_start(tape: *mut [u64; TAPE_WORDS], machine: u32, answer: *mut [usize; 3]);

    pub fn sp_feed(
        tape: *mut [u64; TAPE_WORDS],
        piece: *const u8,
        piece_len: usize,
        out: *mut u8,
        out_len: usize,
        answer: *mut [usize; 3],
    );

    pub fn sp_close(tape: *mut [u64; TAPE_WORDS], out: *mut u8, out_len: usize, answer: *mut [usize; 3]);

    pub fn sp_extents(tape: *const [u64; TAPE_WORDS], reach: *mut [i32; 2], fonts: *mut [u64; 2]);
}

/// An operation from bytes to bytes.
type OverBytes = unsafe extern "C" fn(*const u8, usize, *mut u8, usize, *mut [usize; 3]);

/// An operation from bytes to bytes with a table of widths.
type WithWidths = unsafe extern "C" fn(*const u8, usize, *const i32, usize, *mut u8, usize, *mut [usize; 3]);

/// Calls an operation of this interface on slices.
pub fn over_bytes(operation: OverBytes, from: &[u8], to: &mut [u8], answer: &mut [usize; 3]) {
    // SAFETY: every pointer comes from a live slice, with its length, and from a live array.
    unsafe { operation(from.as_ptr(), from.len(), to.as_mut_ptr(), to.len(), answer) }
}

/// Calls an operation of this interface on slices, with a table of widths.
pub fn with_widths(
    operation: WithWidths,
    from: &[u8],
    widths: &[i32],
    to: &mut [u8],
    answer: &mut [usize; 3],
) {
    let (widths, count) = (widths.as_ptr(), widths.len());
    // SAFETY: every pointer comes from a live slice, with its length, and from a live array.
    unsafe { operation(from.as_ptr(), from.len(), widths, count, to.as_mut_ptr(), to.len(), answer) }
}
