//! Files and folders named as inputs.

use crate::failure::Failure;
use crate::input::unread;
use std::ffi::OsStr;
use std::fs;
use std::io;
use std::os::unix::ffi::OsStrExt;
use std::os::unix::fs::MetadataExt;
use std::path::{Path, PathBuf};

/// An input that was named, or found in a folder that was.
pub struct Found {
    pub path: PathBuf,
    /// The folders between the one that was named and the file.
    pub below: PathBuf,
    /// Why it cannot be read, if that is known; it is a folder then.
    pub fault: Option<String>,
}

impl Found {
    /// Itself, if it can be read as far as is known.
    pub fn readable(self) -> Result<Found, Failure> {
        match self.fault {
            Some(fault) => Err(Failure::File(fault)),
            None => Ok(self),
        }
    }

    /// Its name below the folder that was named, or its own.
    pub fn name(&self) -> PathBuf {
        self.below.join(self.path.file_name().unwrap_or_default())
    }
}

/// Which files of a folder are taken.
#[derive(Default)]
pub struct Choice<'a> {
    /// Those whose names end so.
    pub ending: Option<&'a OsStr>,
    /// Those that are not in this folder, which is for outputs.
    pub outputs: Option<&'a Path>,
}

/// A file, whatever its name, or the files in a folder and in those below it, by name. Names that start with a
/// dot are left out, and so are links to folders, pipes and devices.
pub fn find(named: &Path, choice: &Choice) -> Vec<Found> {
    let mut found = Vec::new();
    if named.is_dir() {
        look_into(named, Path::new(""), choice, &mut found);
    } else {
        found.push(Found { path: named.into(), below: PathBuf::new(), fault: None });
    }
    found
}

fn look_into(folder: &Path, below: &Path, choice: &Choice, found: &mut Vec<Found>) {
    let read = || fs::read_dir(folder)?.map(|entry| Ok(entry?.path())).collect::<io::Result<Vec<_>>>();
    let mut entries = match read() {
        Ok(entries) => entries,
        Err(error) => {
            let fault = Some(unread(folder.as_os_str(), &error));
            found.push(Found { path: folder.into(), below: below.into(), fault });
            return;
        }
    };
    entries.sort();
    for path in entries {
        let name = path.file_name().unwrap_or_default();
        if name.as_bytes().starts_with(b".") {
            continue;
        }
        match fs::metadata(&path) {
            Ok(it) if it.is_dir() => {
                if !path.is_symlink() && !choice.outputs.is_some_and(|outputs| is_same(outputs, &it)) {
                    look_into(&path, &below.join(name), choice, found);
                }
            }
            Ok(it) if !it.is_file() => {}
            _ if !choice.ending.is_none_or(|ending| name.as_bytes().ends_with(ending.as_bytes())) => {}
            // One that cannot be looked at is told when it is read.
            _ => found.push(Found { path, below: below.into(), fault: None }),
        }
    }
}

fn is_same(folder: &Path, other: &fs::Metadata) -> bool {
    fs::metadata(folder).is_ok_and(|folder| (folder.dev(), folder.ino()) == (other.dev(), other.ino()))
}
