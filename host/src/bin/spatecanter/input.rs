//! Inputs: files, and - for standard input. Each is read to its limit, or in pieces as it comes.

use crate::failure::Failure;
use crate::progress;
use std::ffi::OsStr;
use std::fs::File;
use std::io::{self, stdin, Read};

/// How many bytes are read at a time.
const PIECE: u64 = 1 << 20;

/// Reads an input; of one that is longer than `limit`, one byte more than that.
pub fn read(name: &OsStr, limit: usize) -> Result<Vec<u8>, Failure> {
    read_while(name, limit, |_| true)
}

/// Reads an input piece by piece, as long as what was read so far looks good.
pub fn read_while(
    name: &OsStr,
    limit: usize,
    mut looks_good: impl FnMut(&[u8]) -> bool,
) -> Result<Vec<u8>, Failure> {
    progress::during(&format!("reading {}", shown(name)), || read_pieces(name, limit, &mut looks_good))
        .map_err(|error| Failure::File(unread(name, &error)))
}

fn read_pieces(
    name: &OsStr,
    limit: usize,
    looks_good: &mut impl FnMut(&[u8]) -> bool,
) -> io::Result<Vec<u8>> {
    let mut input = open(name)?.take(limit as u64 + 1);
    let mut bytes = Vec::new();
    while input.by_ref().take(PIECE).read_to_end(&mut bytes)? > 0 && looks_good(&bytes) {}
    Ok(bytes)
}

/// That an input or a folder cannot be read.
pub fn unread(name: &OsStr, error: &io::Error) -> String {
    format!("cannot read {}: {error}", shown(name))
}

/// Reads an input as it comes, and has `take` take each piece of at most so many bytes.
pub fn each_piece(
    name: &OsStr,
    length: usize,
    mut take: impl FnMut(&[u8]) -> Result<(), Failure>,
) -> Result<(), Failure> {
    let failed = |error: io::Error| Failure::File(unread(name, &error));
    let mut input = open(name).map_err(failed)?;
    let mut piece = vec![0; length];
    loop {
        match input.read(&mut piece) {
            Ok(0) => return Ok(()),
            Ok(length) => take(&piece[..length])?,
            Err(error) if error.kind() == io::ErrorKind::Interrupted => {}
            Err(error) => return Err(failed(error)),
        }
    }
}

fn open(name: &OsStr) -> io::Result<Box<dyn Read>> {
    if name == "-" {
        return Ok(Box::new(stdin().lock()));
    }
    Ok(Box::new(File::open(name)?))
}

/// The name of an input for people.
pub fn shown(name: &OsStr) -> String {
    if name == "-" {
        return "standard input".into();
    }
    name.to_string_lossy().into_owned()
}
