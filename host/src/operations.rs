//! The library's operations on slices. Each `…_into` fills a lent buffer; its namesake makes a vector.

use crate::dvi::DviFile;
use crate::extents::Extents;
use crate::ffi;
use crate::galley::{Character, Galley, Item};
use crate::machine::Machine;
use crate::refusal::{Outcome, Refusal};
use crate::running::RunningTape;
use crate::sheet::Sheet;

/// The longest tape that is taken, in bytes.
///
/// ```
/// use spatecanter::{read_tape, Machine, Refusal, TAPE_LIMIT};
///
/// assert_eq!(read_tape(&vec![0; TAPE_LIMIT + 1], Machine::Eight), Err(Refusal::TapeTooLong));
/// ```
pub const TAPE_LIMIT: usize = 1_048_576;

/// The longest galley that is taken, in bytes.
///
/// ```
/// use spatecanter::{check_galley, Refusal, GALLEY_LIMIT};
///
/// assert_eq!(check_galley(&vec![0; GALLEY_LIMIT + 1]), Err(Refusal::GalleyTooLong));
/// ```
pub const GALLEY_LIMIT: usize = 11_534_343;

/// The longest galley of the old form that is taken, in bytes.
///
/// ```
/// use spatecanter::{galley_to_new, Refusal, OLD_GALLEY_LIMIT};
///
/// assert_eq!(galley_to_new(&vec![0; OLD_GALLEY_LIMIT + 1]), Err(Refusal::GalleyTooLong));
/// ```
pub const OLD_GALLEY_LIMIT: usize = 9_437_191;

/// The longest DVI file of 1980 that is taken, in bytes.
///
/// ```
/// use spatecanter::{read_dvi, Refusal, DVI_LIMIT};
///
/// assert_eq!(read_dvi(&vec![0; DVI_LIMIT + 1], &[]), Err(Refusal::FileTooLong));
/// ```
pub const DVI_LIMIT: usize = 33_554_432;

/// No sheet is longer, in bytes: the shortest command or code that shows something is one byte, and what it shows
/// 16; an XGP file has no byte for its first page and for End, of 7 each.
///
/// ```
/// assert_eq!(spatecanter::SHEET_LIMIT, 16 * spatecanter::DVI_LIMIT + 14);
/// ```
pub const SHEET_LIMIT: usize = 16 * DVI_LIMIT + 14;

/// The most characters and cuts, together, that a galley holds.
///
/// ```
/// use spatecanter::{check_galley, Refusal, ITEM_LIMIT};
///
/// let cuts = [6, 0, 0].repeat(ITEM_LIMIT + 1);
/// assert_eq!(check_galley(&cuts), Err(Refusal::GalleyMalformed { place: 3 * ITEM_LIMIT }));
/// ```
pub const ITEM_LIMIT: usize = 1_048_576;

/// The greatest height of a character.
///
/// ```
/// assert_eq!(spatecanter::HEIGHT_LIMIT, 1_000_000);
/// ```
pub const HEIGHT_LIMIT: i32 = 1_000_000;

/// The greatest height that a DVI file of 1980 and the old form hold.
///
/// ```
/// assert_eq!(spatecanter::DVI_HEIGHT_LIMIT, 65_535);
/// ```
pub const DVI_HEIGHT_LIMIT: i32 = 65_535;

/// Widths in each font of a width table.
///
/// ```
/// use spatecanter::{read_dvi, Refusal, WIDTHS_PER_FONT};
///
/// assert_eq!(read_dvi(&[], &[0; WIDTHS_PER_FONT]), Err(Refusal::DviEndsEarly { place: 0 }));
/// assert_eq!(read_dvi(&[], &[0; WIDTHS_PER_FONT - 1]), Err(Refusal::WidthsNotWhole));
/// ```
pub const WIDTHS_PER_FONT: usize = 128;

/// The DVI file and the sheet of one galley.
///
/// ```
/// use spatecanter::{read_tape, reprint, Machine, Reprint};
///
/// let galley = read_tape(&[0x40, 0x49], Machine::Eight)?;
/// let Reprint { dvi, sheet } = reprint(&galley, &[])?;
/// assert_eq!((dvi.len(), sheet.len()), (36, 14));
/// # Ok::<(), spatecanter::Refusal>(())
/// ```
#[derive(Clone, Debug, PartialEq, Eq)]
pub struct Reprint {
    /// The DVI file.
    pub dvi: DviFile,
    /// What it shows.
    pub sheet: Sheet,
}

/// The lengths of a galley's DVI file and of its sheet.
///
/// ```
/// use spatecanter::{read_tape, reprint_into, Machine, ReprintLengths};
///
/// let galley = read_tape(&[0x40, 0x49], Machine::Eight)?;
/// let (mut dvi, mut sheet) = ([0; 40], [0; 20]);
/// let ReprintLengths { dvi: file, sheet: shown } = reprint_into(&galley, &[], &mut dvi, &mut sheet)?;
/// assert_eq!((file, shown), (36, 14));
/// # Ok::<(), spatecanter::Refusal>(())
/// ```
#[derive(Clone, Copy, Debug, PartialEq, Eq)]
pub struct ReprintLengths {
    /// The bytes of the DVI file.
    pub dvi: usize,
    /// The bytes of the sheet.
    pub sheet: usize,
}

/// Reads a tape of this machine, or of the machine with so many fonts, into a galley; the length is the galley's.
///
/// ```
/// use spatecanter::{read_tape_into, Machine, Refusal};
///
/// let mut galley = [0; 7];
/// assert_eq!(read_tape_into(&[0x40, 0x49], Machine::Eight, &mut galley), Ok(7));
/// assert_eq!(galley, [2, 0, 4, 0, 0, 0, 0]);
/// assert_eq!(read_tape_into(&[0x40, 0x49], 5_u32, &mut galley), Err(Refusal::NoMachine));
/// ```
pub fn read_tape_into(tape: &[u8], machine: impl Into<u32>, galley: &mut [u8]) -> Outcome {
    let mut answer = [0; 3];
    // SAFETY: every pointer comes from a live slice, with its length.
    unsafe {
        ffi::sp_read_tape(
            tape.as_ptr(),
            tape.len(),
            machine.into(),
            galley.as_mut_ptr(),
            galley.len(),
            &mut answer,
        );
    }
    outcome(answer)
}

/// The galley of a tape of this machine.
///
/// ```
/// use spatecanter::{read_tape, Machine};
///
/// let galley = read_tape(&[0x40, 0xEF, 0x52, 0x4E, 0x01, 0xFC, 0x02, 0x49], Machine::Eight)?;
/// assert_eq!(galley.characters().count(), 2);
/// # Ok::<(), spatecanter::Refusal>(())
/// ```
pub fn read_tape(tape: &[u8], machine: Machine) -> Result<Galley, Refusal> {
    let enough = 11 * tape.len().min(TAPE_LIMIT) + 7;
    filled(enough, |galley| read_tape_into(tape, machine, galley)).map(Galley::written)
}

/// The galley of a tape of this machine, and the extents of its characters.
///
/// ```
/// use spatecanter::{read_tape_with_extents, Machine};
///
/// let tape = [0x40, 0xEF, 0x52, 0x4E, 0x01, 0xFC, 0x02, 0x49];
/// let (galley, extents) = read_tape_with_extents(&tape, Machine::Eight)?;
/// assert_eq!((galley.len(), extents.x), (29, 3));
/// # Ok::<(), spatecanter::Refusal>(())
/// ```
pub fn read_tape_with_extents(tape: &[u8], machine: Machine) -> Result<(Galley, Extents), Refusal> {
    let mut running = RunningTape::new();
    running.start(machine);
    let mut galley = running.feed(tape)?;
    galley.extend(running.close()?);
    Ok((Galley::written(galley), running.extents()))
}

/// Checks a galley; the length is its number of characters.
///
/// ```
/// use spatecanter::{check_galley, Refusal};
///
/// assert_eq!(check_galley(&[2, 0, 4, 0, 0, 0, 0]), Ok(0));
/// assert_eq!(check_galley(&[2, 0, 4]), Err(Refusal::GalleyMalformed { place: 0 }));
/// ```
pub fn check_galley(galley: &[u8]) -> Outcome {
    let mut answer = [0; 3];
    // SAFETY: the pointer comes from a live slice, with its length.
    unsafe { ffi::sp_check_galley(galley.as_ptr(), galley.len(), &mut answer) };
    outcome(answer)
}

/// Character `n` of a galley, counted from 0.
///
/// ```
/// use spatecanter::{read_back, read_tape, Machine, Refusal};
///
/// let galley = read_tape(&[0x40, 0xEF, 0x52, 0x4E, 0x01, 0xFC, 0x02, 0x49], Machine::Eight)?;
/// assert_eq!(read_back(&galley, 1)?.x, 3);
/// assert_eq!(read_back(&galley, 2), Err(Refusal::NoCharacter));
/// # Ok::<(), spatecanter::Refusal>(())
/// ```
pub fn read_back(galley: &[u8], n: usize) -> Result<Character, Refusal> {
    let mut answer = [0; 3];
    let mut character = [0; 4];
    // SAFETY: the pointers come from a live slice, with its length, and from live arrays.
    unsafe {
        ffi::sp_read_back(galley.as_ptr(), galley.len(), n, &mut answer, &mut character);
    }
    let [x, height, font_number, code] = character;
    outcome(answer).map(|_| Character { x, height, font_number, code })
}

/// The item whose whole field starts at a place of a galley, and the bytes of that field. [`Galley::items`] goes
/// from each to the next.
///
/// ```
/// use spatecanter::galley::Item;
/// use spatecanter::{item_at, read_tape, Machine};
///
/// let galley = read_tape(&[0x40, 0x4B, 0x40, 0x49], Machine::Eight)?;
/// assert_eq!(item_at(&galley, 0)?, (Item::Cut, 3));
/// assert!(item_at(&galley, 3).is_err());
/// # Ok::<(), spatecanter::Refusal>(())
/// ```
pub fn item_at(galley: &[u8], at: usize) -> Result<(Item, usize), Refusal> {
    let mut answer = [0; 3];
    let mut item = [0; 5];
    // SAFETY: the pointers come from a live slice, with its length, and from live arrays.
    unsafe {
        ffi::sp_item_at(galley.as_ptr(), galley.len(), at, &mut answer, &mut item);
    }
    outcome(answer).map(|length| match item {
        [ffi::ITEM_CUT, ..] => (Item::Cut, length),
        [kind, x, height, font_number, code] => {
            debug_assert_eq!(kind, ffi::ITEM_CHARACTER);
            (Item::Character(Character { x, height, font_number, code }), length)
        }
    })
}

/// Writes a galley as a DVI file, with a new page for each cut; the length is the file's. A height above
/// 65,535 is refused.
///
/// ```
/// use spatecanter::{read_tape, write_dvi_into, Machine, Refusal};
///
/// let galley = read_tape(&[0x40, 0x49], Machine::Eight)?;
/// let mut dvi = [0; 36];
/// assert_eq!(write_dvi_into(&galley, &mut dvi), Ok(36));
/// assert_eq!(write_dvi_into(&galley, &mut dvi[..35]), Err(Refusal::NoDviRoom { needed: 36 }));
/// # Ok::<(), spatecanter::Refusal>(())
/// ```
pub fn write_dvi_into(galley: &[u8], dvi: &mut [u8]) -> Outcome {
    answered(|answer| ffi::over_bytes(ffi::sp_write_dvi, galley, dvi, answer))
}

/// The DVI file of a galley whose heights are at most 65,535.
///
/// ```
/// use spatecanter::{read_tape, write_dvi, Machine};
///
/// let galley = read_tape(&[0x40, 0x49], Machine::Eight)?;
/// assert_eq!(write_dvi(&galley)?.len(), 36);
/// # Ok::<(), spatecanter::Refusal>(())
/// ```
pub fn write_dvi(galley: &[u8]) -> Result<DviFile, Refusal> {
    filled(usual_dvi(galley), |dvi| write_dvi_into(galley, dvi)).map(DviFile::written)
}

/// Reads a DVI file, with a table of widths, into a sheet; the length is the sheet's.
///
/// ```
/// use spatecanter::{read_dvi_into, read_tape, write_dvi, Machine};
///
/// let dvi = write_dvi(&read_tape(&[0x40, 0x49], Machine::Eight)?)?;
/// let mut sheet = [0; 14];
/// assert_eq!(read_dvi_into(&dvi, &[], &mut sheet), Ok(14));
/// assert_eq!(sheet, [5, 0, 4, 0, 0, 0, 1, 2, 0, 4, 0, 0, 0, 1]);
/// # Ok::<(), spatecanter::Refusal>(())
/// ```
pub fn read_dvi_into(dvi: &[u8], widths: &[i32], sheet: &mut [u8]) -> Outcome {
    answered(|answer| ffi::with_widths(ffi::sp_read_dvi, dvi, widths, sheet, answer))
}

/// The sheet of a DVI file, with a table of widths.
///
/// ```
/// use spatecanter::{read_dvi, read_tape, write_dvi, Machine};
///
/// let dvi = write_dvi(&read_tape(&[0x40, 0x49], Machine::Eight)?)?;
/// assert_eq!(read_dvi(&dvi, &[])?.fields().count(), 1);
/// # Ok::<(), spatecanter::Refusal>(())
/// ```
pub fn read_dvi(dvi: &[u8], widths: &[i32]) -> Result<Sheet, Refusal> {
    let usual = 4 * dvi.len().min(DVI_LIMIT);
    filled(usual, |sheet| read_dvi_into(dvi, widths, sheet)).map(Sheet::written)
}

/// Reads a DVI file as `read_dvi_into` does, by another way: PUSH and POP as brackets.
///
/// ```
/// use spatecanter::{read_dvi_plain_into, read_tape, write_dvi, Machine};
///
/// let dvi = write_dvi(&read_tape(&[0x40, 0x49], Machine::Eight)?)?;
/// assert_eq!(read_dvi_plain_into(&dvi, &[], &mut [0; 14]), Ok(14));
/// # Ok::<(), spatecanter::Refusal>(())
/// ```
pub fn read_dvi_plain_into(dvi: &[u8], widths: &[i32], sheet: &mut [u8]) -> Outcome {
    answered(|answer| ffi::with_widths(ffi::sp_read_dvi_plain, dvi, widths, sheet, answer))
}

/// The sheet of a DVI file, by the way of `read_dvi_plain_into`.
///
/// ```
/// use spatecanter::{read_dvi, read_dvi_plain, read_tape, write_dvi, Machine};
///
/// let dvi = write_dvi(&read_tape(&[0x40, 0x49], Machine::Eight)?)?;
/// assert_eq!(read_dvi_plain(&dvi, &[]), read_dvi(&dvi, &[]));
/// # Ok::<(), spatecanter::Refusal>(())
/// ```
pub fn read_dvi_plain(dvi: &[u8], widths: &[i32]) -> Result<Sheet, Refusal> {
    let usual = 4 * dvi.len().min(DVI_LIMIT);
    filled(usual, |sheet| read_dvi_plain_into(dvi, widths, sheet)).map(Sheet::written)
}

/// Makes the galley whose targets a DVI file shows, with a table of widths; the length is the galley's.
///
/// ```
/// use spatecanter::{dvi_to_galley_into, read_tape, write_dvi, Machine};
///
/// let dvi = write_dvi(&read_tape(&[0x40, 0x49], Machine::Eight)?)?;
/// assert_eq!(dvi_to_galley_into(&dvi, &[], &mut [0; 7]), Ok(7));
/// # Ok::<(), spatecanter::Refusal>(())
/// ```
pub fn dvi_to_galley_into(dvi: &[u8], widths: &[i32], galley: &mut [u8]) -> Outcome {
    answered(|answer| ffi::with_widths(ffi::sp_dvi_to_galley, dvi, widths, galley, answer))
}

/// The galley whose targets a DVI file shows: the file of `write_dvi` gives back its galley.
///
/// ```
/// use spatecanter::{dvi_to_galley, read_tape, write_dvi, Machine};
///
/// let galley = read_tape(&[0x40, 0xEF, 0x52, 0x4E, 0x01, 0xFC, 0x02, 0x49], Machine::Eight)?;
/// assert_eq!(dvi_to_galley(&write_dvi(&galley)?, &[])?, galley);
/// # Ok::<(), spatecanter::Refusal>(())
/// ```
pub fn dvi_to_galley(dvi: &[u8], widths: &[i32]) -> Result<Galley, Refusal> {
    let usual = 2 * dvi.len().min(DVI_LIMIT);
    filled(usual, |galley| dvi_to_galley_into(dvi, widths, galley)).map(Galley::written)
}

/// Writes a galley as a DVI file and reads that into a sheet; the lengths are those of both.
///
/// ```
/// use spatecanter::{read_tape, reprint_into, Machine, ReprintLengths};
///
/// let galley = read_tape(&[0x40, 0x49], Machine::Eight)?;
/// let (mut dvi, mut sheet) = ([0; 36], [0; 14]);
/// let lengths = reprint_into(&galley, &[], &mut dvi, &mut sheet)?;
/// assert_eq!(lengths, ReprintLengths { dvi: 36, sheet: 14 });
/// # Ok::<(), spatecanter::Refusal>(())
/// ```
pub fn reprint_into(
    galley: &[u8],
    widths: &[i32],
    dvi: &mut [u8],
    sheet: &mut [u8],
) -> Result<ReprintLengths, Refusal> {
    let mut answer = [0; 4];
    // SAFETY: every pointer comes from a live slice, with its length.
    unsafe {
        ffi::sp_reprint(
            galley.as_ptr(),
            galley.len(),
            widths.as_ptr(),
            widths.len(),
            dvi.as_mut_ptr(),
            dvi.len(),
            sheet.as_mut_ptr(),
            sheet.len(),
            &mut answer,
        );
    }
    let [number, place, sheet, dvi] = answer;
    outcome([number, place, sheet]).map(|sheet| ReprintLengths { dvi, sheet })
}

/// The DVI file and the sheet of a galley.
///
/// ```
/// use spatecanter::{read_dvi, read_tape, reprint, Machine};
///
/// let galley = read_tape(&[0x40, 0x49], Machine::Eight)?;
/// let made = reprint(&galley, &[])?;
/// assert_eq!(made.sheet, read_dvi(&made.dvi, &[])?);
/// # Ok::<(), spatecanter::Refusal>(())
/// ```
pub fn reprint(galley: &[u8], widths: &[i32]) -> Result<Reprint, Refusal> {
    // A cut's 3 bytes give 7, a character's 11 give 16, and End's 7 the first page and End, 14.
    let mut sheet = vec![0; 7 * (galley.len().min(GALLEY_LIMIT) / 3)];
    let mut shown = 0;
    let dvi = filled(usual_dvi(galley), |dvi| {
        let lengths = reprint_into(galley, widths, dvi, &mut sheet)?;
        shown = lengths.sheet;
        Ok(lengths.dvi)
    })?;
    sheet.truncate(shown);
    Ok(Reprint { dvi: DviFile::written(dvi), sheet: Sheet::written(sheet) })
}

/// Punches a tape of the 8-font machine from a galley; the length is the tape's. Reading the tape gives the galley.
///
/// ```
/// use spatecanter::{punch_tape_into, read_tape, Machine};
///
/// let galley = read_tape(&[0x40, 0x49], Machine::Eight)?;
/// let mut tape = [0; 3];
/// assert_eq!(punch_tape_into(&galley, &mut tape), Ok(3));
/// assert_eq!(tape, [0x40, 0xEF, 0x49]);
/// # Ok::<(), spatecanter::Refusal>(())
/// ```
pub fn punch_tape_into(galley: &[u8], tape: &mut [u8]) -> Outcome {
    answered(|answer| ffi::over_bytes(ffi::sp_punch_tape, galley, tape, answer))
}

/// The tape of a galley, for the 8-font machine.
///
/// ```
/// use spatecanter::{punch_tape, read_tape, Machine};
///
/// let galley = read_tape(&[0x40, 0xEF, 0x52, 0x4E, 0x01, 0xFC, 0x02, 0x49], Machine::Eight)?;
/// assert_eq!(read_tape(&punch_tape(&galley)?, Machine::Eight)?, galley);
/// # Ok::<(), spatecanter::Refusal>(())
/// ```
pub fn punch_tape(galley: &[u8]) -> Result<Vec<u8>, Refusal> {
    let usual = galley.len().min(TAPE_LIMIT);
    filled(usual, |tape| punch_tape_into(galley, tape))
}

/// Writes a galley of the old form in the new form; the length is the new galley's.
///
/// ```
/// use spatecanter::galley_to_new_into;
///
/// let mut new = [0; 18];
/// let old = [1, 0, 6, 0, 0, 0, 9, 2, 1, 2, 0, 4, 0, 0, 0, 1];
/// assert_eq!(galley_to_new_into(&old, &mut new), Ok(18));
/// ```
pub fn galley_to_new_into(old_galley: &[u8], new_galley: &mut [u8]) -> Outcome {
    answered(|answer| ffi::over_bytes(ffi::sp_galley_to_new, old_galley, new_galley, answer))
}

/// A galley of the old form in the new form.
///
/// ```
/// use spatecanter::galley_to_new;
///
/// let old = [1, 0, 6, 0, 0, 0, 9, 2, 1, 2, 0, 4, 0, 0, 0, 1];
/// let new = galley_to_new(&old)?;
/// assert_eq!(new.characters().next().unwrap().height, 9);
/// # Ok::<(), spatecanter::Refusal>(())
/// ```
pub fn galley_to_new(old_galley: &[u8]) -> Result<Galley, Refusal> {
    // A character's 9 bytes become 11.
    let length = old_galley.len().min(OLD_GALLEY_LIMIT);
    let enough = length + 2 * (length / 9);
    filled(enough, |new_galley| galley_to_new_into(old_galley, new_galley)).map(Galley::written)
}

/// Writes a galley in the old form, for heights of at most 65,535; the length is the old galley's.
///
/// ```
/// use spatecanter::{galley_to_old_into, read_tape, Machine};
///
/// let galley = read_tape(&[0x40, 0xEF, 0x52, 0x01, 0x49], Machine::Eight)?;
/// assert_eq!(galley_to_old_into(&galley, &mut [0; 16]), Ok(16));
/// # Ok::<(), spatecanter::Refusal>(())
/// ```
pub fn galley_to_old_into(new_galley: &[u8], old_galley: &mut [u8]) -> Outcome {
    answered(|answer| ffi::over_bytes(ffi::sp_galley_to_old, new_galley, old_galley, answer))
}

/// A galley whose heights are at most 65,535 in the old form.
///
/// ```
/// use spatecanter::{galley_to_new, galley_to_old, read_tape, Machine};
///
/// let galley = read_tape(&[0x40, 0xEF, 0x52, 0x01, 0x49], Machine::Eight)?;
/// assert_eq!(galley_to_new(&galley_to_old(&galley)?)?, galley);
/// # Ok::<(), spatecanter::Refusal>(())
/// ```
pub fn galley_to_old(new_galley: &[u8]) -> Result<Vec<u8>, Refusal> {
    let enough = new_galley.len().min(GALLEY_LIMIT);
    filled(enough, |old_galley| galley_to_old_into(new_galley, old_galley))
}

/// The bytes that most galleys' DVI files fit in.
fn usual_dvi(galley: &[u8]) -> usize {
    36 + galley.len().min(GALLEY_LIMIT)
}

/// A vector of what `fill` writes: `usual` bytes are offered first, then the bytes needed.
pub(crate) fn filled(usual: usize, mut fill: impl FnMut(&mut [u8]) -> Outcome) -> Result<Vec<u8>, Refusal> {
    let mut buffer = vec![0; usual];
    let mut outcome = fill(&mut buffer);
    if let Err(Some(needed)) = outcome.map_err(Refusal::needed) {
        buffer = vec![0; needed];
        outcome = fill(&mut buffer);
    }
    buffer.truncate(outcome?);
    Ok(buffer)
}

/// What a call answers.
pub(crate) fn answered(call: impl FnOnce(&mut [usize; 3])) -> Outcome {
    let mut answer = [0; 3];
    call(&mut answer);
    outcome(answer)
}

/// What number, place and length say.
pub(crate) fn outcome(answer: [usize; 3]) -> Outcome {
    match answer {
        [0, _, length] => Ok(length),
        [number, place, _] => Err(Refusal::from_parts(number, place)),
    }
}
