//! C/A/T phototypesetter tapes, whole or in pieces, to galleys, galleys to DVI files of 1980 and of the second
//! edition, and DVI files to sheets and back to galleys; galleys back to tapes, and old galleys to new ones and
//! back; files of XGP character mode to sheets; and reports over many tapes.
//!
//! The operations are those of the proved library `libspatecanter.a`; this package adds safe calls, types for what
//! they accept and make, refusals in words, and the command `spatecanter`.
//!
//! ```
//! use spatecanter::{read_tape, reprint, Machine};
//!
//! let tape = [0x40, 0xEF, 0x52, 0x4E, 0x01, 0xFC, 0x02, 0x49];
//! let galley = read_tape(&tape, Machine::Eight)?;
//! let made = reprint(&galley, &[])?;
//! assert_eq!((galley.characters().count(), made.dvi.len(), made.sheet.fields().count()), (2, 59, 3));
//! # Ok::<(), spatecanter::Refusal>(())
//! ```
//!
//! Each `..._into` fills a buffer that is lent and allocates nothing; its namesake makes what it fills.

#![warn(missing_docs)]

mod bytes;
pub mod dvi;
mod edition2;
mod explain;
mod extents;
mod ffi;
pub mod galley;
mod machine;
mod operations;
mod refusal;
mod report;
mod running;
#[doc(hidden)]
pub mod sample;
pub mod sheet;
pub mod text;
mod xgp;

pub use dvi::DviFile;
pub use edition2::{read_dvi2, read_dvi2_into, write_dvi2, write_dvi2_into, DVI2_LIMIT};
pub use explain::{Explained, Refused};
pub use extents::Extents;
pub use galley::{Form, Galley};
pub use machine::{Machine, NoMachine};
pub use operations::{
    check_galley, dvi_to_galley, dvi_to_galley_into, galley_to_new, galley_to_new_into, galley_to_old,
    galley_to_old_into, item_at, punch_tape, punch_tape_into, read_back, read_dvi, read_dvi_into,
    read_dvi_plain, read_dvi_plain_into, read_tape, read_tape_into, read_tape_with_extents, reprint,
    reprint_into, write_dvi, write_dvi_into, Reprint, ReprintLengths, DVI_HEIGHT_LIMIT, DVI_LIMIT,
    GALLEY_LIMIT, HEIGHT_LIMIT, ITEM_LIMIT, OLD_GALLEY_LIMIT, SHEET_LIMIT, TAPE_LIMIT, WIDTHS_PER_FONT,
};
pub use refusal::{Outcome, Refusal};
pub use report::{Report, REPORT_LIMIT, REPORT_WORDS};
pub use running::RunningTape;
pub use sheet::Sheet;
pub use xgp::{read_xgp, read_xgp_into, XGP_LIMIT, XGP_WIDTHS};

/// The version of the library: 10,000 times the major number, 100 times the minor one, and the patch.
///
/// ```
/// assert_eq!(spatecanter::version(), 100);
/// ```
pub fn version() -> u32 {
    // SAFETY: it takes nothing and gives a number.
    unsafe { ffi::sp_version() }
}
