//! The two editions of DVI.

use spatecanter::{DviFile, Refusal, Reprint};

/// That of 1980, and the second, with identification 2.
#[derive(Clone, Copy, PartialEq)]
pub enum Edition {
    First,
    Second,
}

impl Edition {
    /// The edition of a file: the second begins with its preamble, command 247, which the first does not have.
    pub fn of(dvi: &[u8]) -> Edition {
        match dvi.first() {
            Some(247) => Edition::Second,
            _ => Edition::First,
        }
    }

    /// The DVI file of a galley.
    pub fn write(self, galley: &[u8]) -> Result<Vec<u8>, Refusal> {
        match self {
            Edition::First => spatecanter::write_dvi(galley).map(DviFile::into_bytes),
            Edition::Second => spatecanter::write_dvi2(galley),
        }
    }

    /// The endings of the files that a reprint makes.
    pub fn endings(self) -> &'static [&'static str] {
        match self {
            Edition::First => &["galley", "dvi", "sheet"],
            Edition::Second => &["galley", "dvi"],
        }
    }

    /// What a reprint makes of a galley: a DVI file, and what reading that gives, a sheet or the galley again.
    pub fn reprint(self, galley: &[u8]) -> Result<Reprinted, Refusal> {
        match self {
            Edition::First => {
                let Reprint { dvi, sheet } = spatecanter::reprint(galley, &[])?;
                Ok(Reprinted { dvi: dvi.into_bytes(), read: sheet.into_bytes() })
            }
            Edition::Second => {
                let dvi = spatecanter::write_dvi2(galley)?;
                let read = spatecanter::read_dvi2(&dvi)?;
                Ok(Reprinted { dvi, read: read.into_bytes() })
            }
        }
    }
}

pub struct Reprinted {
    pub dvi: Vec<u8>,
    pub read: Vec<u8>,
}
