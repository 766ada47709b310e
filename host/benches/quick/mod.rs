//! The operations written by hand for speed, to measure the library against.
//!
//! Each does what the library does: one pass for the outcome and the room, one that writes. An answer
//! is number, place, length.

mod back;
mod convert;
mod edition2;
mod edition2_reader;
mod galley;
mod punch;
mod reader;
mod report;
mod running;
mod tape;
mod writer;
mod xgp;

pub use back::dvi_to_galley;
pub use convert::{to_new, to_old};
pub use edition2::write_dvi2;
pub use edition2_reader::read_dvi2;
pub use galley::{check_galley, item_at, read_back};
pub use punch::punch_tape;
pub use reader::read_dvi;
pub use report::count_tape;
pub use running::RunningTape;
pub use tape::read_tape;
pub use writer::{reprint, write_dvi};
pub use xgp::read_xgp;

/// The answer of an accepted call that wrote so many bytes.
fn accepted(length: usize) -> [usize; 3] {
    [0, 0, length]
}

fn refused((number, place): (usize, usize)) -> [usize; 3] {
    [number, place, 0]
}
