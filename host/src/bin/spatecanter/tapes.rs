//! Many tapes: files, those in folders, and those of a list.

use crate::arguments::Arguments;
use crate::failure::Failure;
use crate::folders::{self, Choice};
use crate::input::{self, shown};
use crate::options;
use spatecanter::Machine;
use std::ffi::{OsStr, OsString};
use std::os::unix::ffi::OsStrExt;
use std::path::Path;

/// The longest list, in bytes: that of as many tapes as a report takes has 1,024 bytes for each.
const LIST_LIMIT: usize = 67_108_864;

/// A tape's name, and how many fonts its machine has.
pub struct Tape {
    pub name: OsString,
    pub machine: u32,
}

/// The tapes of --list, then those of the inputs, each folder's in the order of their names.
pub fn named(arguments: &Arguments) -> Result<Vec<Tape>, Failure> {
    let machine = options::machine(arguments)?.unwrap_or(Machine::Eight).fonts();
    let mut tapes = match &arguments.list {
        Some(list) => listed(list)?,
        None => vec![],
    };
    let choice = Choice { ending: arguments.ending.as_deref(), outputs: None };
    for found in arguments.inputs.iter().flat_map(|input| folders::find(Path::new(input), &choice)) {
        tapes.push(Tape { name: found.readable()?.path.into(), machine });
    }
    Ok(tapes)
}

/// The tapes of a list: a path and a machine in each line.
pub fn listed(list: &OsStr) -> Result<Vec<Tape>, Failure> {
    let bytes = input::read(list, LIST_LIMIT)?;
    let wrong = |what: String| Failure::File(format!("{}: {what}", shown(list)));
    if bytes.len() > LIST_LIMIT {
        return Err(wrong("longer than 67,108,864 bytes".into()));
    }
    let mut tapes = Vec::new();
    for (index, line) in bytes.split(|&byte| byte == b'\n').enumerate() {
        let line = line.trim_ascii();
        if line.is_empty() || line.starts_with(b"#") {
            continue;
        }
        let tape = tape_of(line).ok_or_else(|| {
            wrong(format!("line {} is not a tape's path and its machine, 4 or 8", index + 1))
        })?;
        tapes.push(tape);
    }
    Ok(tapes)
}

/// The machine is the last word, and a number; another than 4 or 8 is counted under 50.
fn tape_of(line: &[u8]) -> Option<Tape> {
    let space = line.iter().rposition(u8::is_ascii_whitespace)?;
    let machine = std::str::from_utf8(&line[space + 1..]).ok()?.parse().ok()?;
    Some(Tape { name: OsStr::from_bytes(line[..space].trim_ascii_end()).into(), machine })
}
