//! Made inputs, valid and damaged, for comparison.

mod back;
mod dvi;
mod edition2;
mod galley;
mod tape;
mod xgp;

pub use back::shown_galley;
pub use dvi::{dvi_file, valid_dvi_file};
pub use edition2::{edition2_file, valid_edition2_file};
pub use galley::{
    galley, galley_of, tall_galley, valid_galley, valid_galley_with_cuts, valid_old_galley, Form,
};
pub use tape::{tape, valid_tape};
pub use xgp::{valid_xgp_file, xgp_file};

use spatecanter::sample::Random;

/// The same bytes with one thing wrong: a byte changed, left out or put in, or the end cut off or grown.
pub fn damaged(random: &mut Random, mut bytes: Vec<u8>) -> Vec<u8> {
    if bytes.is_empty() {
        return vec![random.byte()];
    }
    let place = random.below(bytes.len());
    match random.below(8) {
        0 => bytes[place] ^= 1 << random.below(8),
        1 => bytes[place] = bytes[place].wrapping_add(random.pick(&[1, 255])),
        2 => drop(bytes.remove(place)),
        3 => bytes.insert(place, random.byte()),
        4 => bytes.truncate(place),
        5 => bytes.push(random.byte()),
        _ => bytes[place] = random.byte(),
    }
    bytes
}
