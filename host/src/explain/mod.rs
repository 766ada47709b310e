//! Refusals in words: what stands at the place, and what was expected there.

mod dvi;
mod dvi2;
mod galley;
mod tape;
mod xgp;

use crate::refusal::Refusal;
use std::error::Error;
use std::fmt;

/// A refusal with what stands at its place and what was expected there, as far as there is something to tell.
///
/// ```
/// use spatecanter::{read_tape, Machine};
///
/// let tape = [0x40, 0xF0];
/// let explained = read_tape(&tape, Machine::Eight).unwrap_err().in_tape(&tape, Machine::Eight);
/// assert_eq!(explained.found.unwrap(), "at offset 1 (hexadecimal 1): byte F0, an escape of 15 units");
/// assert_eq!(explained.expected.unwrap(), "an escape of 16 (EF), forward, since the carriage is parked");
/// ```
#[derive(Clone, Debug, PartialEq, Eq)]
pub struct Explained {
    /// The refusal.
    pub refusal: Refusal,
    /// What stands at the place.
    pub found: Option<String>,
    /// What would have been right there.
    pub expected: Option<String>,
}

impl Explained {
    fn new(refusal: Refusal) -> Explained {
        Explained { refusal, found: None, expected: None }
    }
}

impl fmt::Display for Explained {
    fn fmt(&self, f: &mut fmt::Formatter) -> fmt::Result {
        write!(f, "{}", self.refusal)?;
        if let Some(found) = &self.found {
            write!(f, "\n  {found}")?;
        }
        if let Some(expected) = &self.expected {
            write!(f, "\n  expected: {expected}")?;
        }
        Ok(())
    }
}

impl Error for Explained {
    fn source(&self) -> Option<&(dyn Error + 'static)> {
        Some(&self.refusal)
    }
}

/// Bytes that are not what they were taken for, and why.
///
/// ```
/// use spatecanter::Galley;
///
/// let refused = Galley::from_bytes(vec![9]).unwrap_err();
/// assert_eq!(refused.refusal().number(), 41);
/// assert!(refused.to_string().starts_with("refused 41 at 0: the galley is malformed\n"));
/// assert_eq!(refused.into_bytes(), [9]);
/// ```
#[derive(Clone, Debug, PartialEq, Eq)]
pub struct Refused {
    explained: Explained,
    bytes: Vec<u8>,
}

impl Refused {
    pub(crate) fn new(explained: Explained, bytes: Vec<u8>) -> Refused {
        Refused { explained, bytes }
    }

    /// The refusal.
    ///
    /// ```
    /// use spatecanter::{Galley, Refusal};
    ///
    /// let refused = Galley::from_bytes(vec![]).unwrap_err();
    /// assert_eq!(refused.refusal(), Refusal::GalleyMalformed { place: 0 });
    /// ```
    pub fn refusal(&self) -> Refusal {
        self.explained.refusal
    }

    /// The bytes.
    ///
    /// ```
    /// assert_eq!(spatecanter::Galley::from_bytes(vec![9]).unwrap_err().as_bytes(), [9]);
    /// ```
    pub fn as_bytes(&self) -> &[u8] {
        &self.bytes
    }

    /// The bytes, without a copy.
    ///
    /// ```
    /// assert_eq!(spatecanter::Galley::from_bytes(vec![9]).unwrap_err().into_bytes(), vec![9]);
    /// ```
    pub fn into_bytes(self) -> Vec<u8> {
        self.bytes
    }
}

impl fmt::Display for Refused {
    fn fmt(&self, f: &mut fmt::Formatter) -> fmt::Result {
        self.explained.fmt(f)
    }
}

impl Error for Refused {
    fn source(&self) -> Option<&(dyn Error + 'static)> {
        Some(&self.explained.refusal)
    }
}

/// A place in words.
fn offset(place: usize) -> String {
    format!("at offset {place} (hexadecimal {place:X})")
}

/// The first bytes of a rest in hexadecimal.
fn bytes_in_words(rest: &[u8], most: usize) -> String {
    if rest.is_empty() {
        return "the end of the file".into();
    }
    let bytes: Vec<String> = rest.iter().take(most).map(|byte| format!("{byte:02X}")).collect();
    format!("bytes {}", bytes.join(" "))
}
