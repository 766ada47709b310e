//! DVI files of the second edition, with identification 2: a galley to a file, and the file to its galley again.

use crate::ffi;
use crate::galley::Galley;
use crate::operations::{answered, filled, GALLEY_LIMIT};
use crate::refusal::{Outcome, Refusal};

/// The longest DVI file of the second edition that is taken, in bytes.
///
/// ```
/// use spatecanter::{read_dvi2, Refusal, DVI2_LIMIT};
///
/// assert_eq!(read_dvi2(&vec![0; DVI2_LIMIT + 1]), Err(Refusal::FileTooLong));
/// ```
pub const DVI2_LIMIT: usize = 67_108_864;

/// Writes a galley as a DVI file of the second edition, with a new page for each cut; the length is the file's.
///
/// ```
/// use spatecanter::{read_tape, write_dvi2_into, Machine};
///
/// let galley = read_tape(&[0x40, 0x49], Machine::Eight)?;
/// assert_eq!(write_dvi2_into(&galley, &mut [0; 100]), Ok(100));
/// # Ok::<(), spatecanter::Refusal>(())
/// ```
pub fn write_dvi2_into(galley: &[u8], dvi: &mut [u8]) -> Outcome {
    answered(|answer| ffi::over_bytes(ffi::sp_write_dvi2, galley, dvi, answer))
}

/// The DVI file of the second edition of a galley.
///
/// ```
/// use spatecanter::{read_tape, write_dvi2, Machine};
///
/// let galley = read_tape(&[0x40, 0x49], Machine::Eight)?;
/// assert_eq!(write_dvi2(&galley)?[..2], [247, 2]);
/// # Ok::<(), spatecanter::Refusal>(())
/// ```
pub fn write_dvi2(galley: &[u8]) -> Result<Vec<u8>, Refusal> {
    let usual = 2_048 + galley.len().min(GALLEY_LIMIT);
    filled(usual, |dvi| write_dvi2_into(galley, dvi))
}

/// Reads a DVI file that `write_dvi2_into` made back into its galley; the length is the galley's.
///
/// ```
/// use spatecanter::{read_dvi2_into, read_tape, write_dvi2, Machine};
///
/// let dvi = write_dvi2(&read_tape(&[0x40, 0x49], Machine::Eight)?)?;
/// assert_eq!(read_dvi2_into(&dvi, &mut [0; 7]), Ok(7));
/// # Ok::<(), spatecanter::Refusal>(())
/// ```
pub fn read_dvi2_into(dvi: &[u8], galley: &mut [u8]) -> Outcome {
    answered(|answer| ffi::over_bytes(ffi::sp_read_dvi2, dvi, galley, answer))
}

/// The galley of a DVI file that `write_dvi2` made.
///
/// ```
/// use spatecanter::{read_dvi2, read_tape, write_dvi2, Machine};
///
/// let galley = read_tape(&[0x40, 0xEF, 0x52, 0x4E, 0x01, 0xFC, 0x02, 0x49], Machine::Eight)?;
/// assert_eq!(read_dvi2(&write_dvi2(&galley)?)?, galley);
/// # Ok::<(), spatecanter::Refusal>(())
/// ```
pub fn read_dvi2(dvi: &[u8]) -> Result<Galley, Refusal> {
    let usual = (3 * dvi.len()).min(GALLEY_LIMIT);
    filled(usual, |galley| read_dvi2_into(dvi, galley)).map(Galley::written)
}
