//! Files of XGP character mode to sheets, in dots and scan lines.

use crate::ffi;
use crate::operations::{filled, outcome, WIDTHS_PER_FONT};
use crate::refusal::{Outcome, Refusal};
use crate::sheet::Sheet;

/// The longest XGP file that is taken, in bytes.
///
/// ```
/// use spatecanter::{read_xgp, Refusal, XGP_LIMIT, XGP_WIDTHS};
///
/// assert_eq!(read_xgp(&vec![0; XGP_LIMIT + 1], 1, &[0; XGP_WIDTHS]), Err(Refusal::FileTooLong));
/// ```
pub const XGP_LIMIT: usize = 33_554_432;

/// The widths of an XGP file: those of fonts 0 to 3.
///
/// ```
/// use spatecanter::{read_xgp, Refusal, XGP_WIDTHS};
///
/// assert!(read_xgp(b"A", 1, &[0; XGP_WIDTHS]).is_ok());
/// assert_eq!(read_xgp(b"A", 1, &[0; XGP_WIDTHS - 1]), Err(Refusal::WidthsNotWhole));
/// ```
pub const XGP_WIDTHS: usize = 4 * WIDTHS_PER_FONT;

/// Reads an XGP file, with the scan lines from one line to the next and a table of widths, into a sheet; the length
/// is the sheet's.
///
/// ```
/// use spatecanter::{read_xgp_into, XGP_WIDTHS};
///
/// assert_eq!(read_xgp_into(b"A", 1, &[0; XGP_WIDTHS], &mut [0; 30]), Ok(30));
/// ```
pub fn read_xgp_into(file: &[u8], spacing: u16, widths: &[i32], sheet: &mut [u8]) -> Outcome {
    let mut answer = [0; 3];
    // SAFETY: every pointer comes from a live slice, with its length.
    unsafe {
        ffi::sp_read_xgp(
            file.as_ptr(),
            file.len(),
            spacing,
            widths.as_ptr(),
            widths.len(),
            sheet.as_mut_ptr(),
            sheet.len(),
            &mut answer,
        );
    }
    outcome(answer)
}

/// The sheet of an XGP file.
///
/// ```
/// use spatecanter::sheet::Field;
/// use spatecanter::{read_xgp, XGP_WIDTHS};
///
/// let sheet = read_xgp(b"AB", 40, &[9; XGP_WIDTHS])?;
/// assert_eq!(sheet.fields().last(), Some(Field::Character { x: 9, y: 40, font: 0, code: b'B' }));
/// # Ok::<(), spatecanter::Refusal>(())
/// ```
pub fn read_xgp(file: &[u8], spacing: u16, widths: &[i32]) -> Result<Sheet, Refusal> {
    let usual = 4 * file.len().min(XGP_LIMIT);
    filled(usual, |sheet| read_xgp_into(file, spacing, widths, sheet)).map(Sheet::written)
}
