//! A galley of the old form becomes one of the new form, and back.

use super::galley::{galley_of, items, low_items, NEW, OLD};
use super::Refused;

pub fn to_new(old: &[u8]) -> Result<Vec<u8>, Refused> {
    Ok(galley_of(NEW, &items(OLD, old)?))
}

pub fn to_old(new: &[u8]) -> Result<Vec<u8>, Refused> {
    Ok(galley_of(OLD, &low_items(new)?))
}
