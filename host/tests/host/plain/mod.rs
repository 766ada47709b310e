//! The rules, read plainly: for comparison, with no thought of speed.
//!
//! Each operation gives the bytes it would write, or a refusal as (number, place).

mod back;
mod convert;
mod dvi;
mod edition2;
mod galley;
mod punch;
mod report;
mod running;
mod tape;
mod writer;
mod xgp;

pub use back::dvi_to_galley;
pub use convert::{to_new, to_old};
pub use dvi::read_dvi;
pub use edition2::{read_dvi2, write_dvi2};
pub use galley::{check_galley, item_at, read_back, Character, Item};
pub use punch::punch_tape;
pub use report::count_tape;
pub use running::RunningTape;
pub use tape::read_tape;
pub use writer::write_dvi;
pub use xgp::read_xgp;

pub type Refused = (usize, usize);

/// Room comes last: bytes that the buffer cannot take are refused with the bytes needed.
pub fn with_room(result: Result<Vec<u8>, Refused>, room: usize, number: usize) -> Result<Vec<u8>, Refused> {
    let bytes = result?;
    if bytes.len() > room {
        return Err((number, bytes.len()));
    }
    Ok(bytes)
}

/// A galley's DVI file and that file's sheet: 31, 40, then 41, then 43, then 42, then 30.
pub fn reprint(
    galley: &[u8],
    widths: &[i32],
    dvi_room: usize,
    sheet_room: usize,
) -> Result<(Vec<u8>, Vec<u8>), Refused> {
    if !widths.len().is_multiple_of(128) {
        return Err((31, 0));
    }
    let dvi = with_room(write_dvi(galley), dvi_room, 42)?;
    let sheet = with_room(read_dvi(&dvi, widths), sheet_room, 30)?;
    Ok((dvi, sheet))
}

/// A field: tag, length in two bytes, body.
fn field(tag: u8, body: &[u8]) -> Vec<u8> {
    let mut bytes = vec![tag, 0, body.len() as u8];
    bytes.extend(body);
    bytes
}
