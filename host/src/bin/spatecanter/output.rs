//! Outputs: where they go, and how they are written. A file is written beside its place, and put there when
//! it is whole; the files of one run are put in their places together, all or none. Whatever ends the run
//! early, nothing unfinished is left behind.

use crate::failure::Failure;
use crate::{loudness, progress};
use std::collections::BTreeSet;
use std::ffi::OsStr;
use std::fs::{self, File, OpenOptions};
use std::io::{self, stdout, BufWriter, IsTerminal, Stdout, Write};
use std::os::unix::fs::MetadataExt;
use std::path::{Path, PathBuf};
use std::sync::atomic::{AtomicUsize, Ordering::Relaxed};
use std::sync::{Mutex, MutexGuard, PoisonError};

/// The name of an output that is not named: the input's whole name with an ending after it, beside the input
/// or in a folder.
pub fn named_after(input: &OsStr, folder: Option<&OsStr>, ending: &str) -> PathBuf {
    let input = Path::new(if input == "-" { OsStr::new("tape") } else { input });
    let mut name = input.file_name().unwrap_or(input.as_os_str()).to_os_string();
    name.push(".");
    name.push(ending);
    match folder {
        Some(folder) => Path::new(folder).join(name),
        None => input.with_file_name(name),
    }
}

/// Where an output goes.
pub enum Place {
    Standard,
    /// A file, which takes the place of another by force only.
    File {
        path: PathBuf,
        force: bool,
    },
}

impl Place {
    /// The place that -o names, or one named after the input.
    pub fn choose(
        given: Option<&OsStr>,
        input: &OsStr,
        taken: &Taken,
        ending: &str,
        force: bool,
    ) -> Result<Place, Failure> {
        match given {
            Some(name) if name == "-" || name == "/dev/stdout" => Ok(Place::Standard),
            Some(name) => Place::file(name.into(), taken, force),
            None if input != "-" => Place::file(named_after(input, None, ending), taken, force),
            None if stdout().is_terminal() => {
                Err(Failure::Usage(format!("no {ending} goes to a terminal: name a file with -o")))
            }
            None => Ok(Place::Standard),
        }
    }

    /// A file that is none of the inputs, and that is not there yet unless it may be written over.
    pub fn file(path: PathBuf, taken: &Taken, force: bool) -> Result<Place, Failure> {
        let place = Place::none_of(taken, path, force)?;
        place.may_be_written()?;
        Ok(place)
    }

    /// A file that is none of the inputs.
    pub fn none_of(taken: &Taken, path: PathBuf, force: bool) -> Result<Place, Failure> {
        if taken.has(&path) {
            let what = format!("{} is an input, and is not written over", path.display());
            return Err(Failure::Usage(what));
        }
        Ok(Place::File { path, force })
    }

    /// Devices and pipes may, files only by --force, and folders never.
    pub fn may_be_written(&self) -> Result<(), Failure> {
        let Place::File { path, force } = self else {
            return Ok(());
        };
        match fs::metadata(path) {
            Ok(old) if old.is_dir() => Err(Failure::File(format!("{} is a folder", path.display()))),
            Ok(old) if old.is_file() && !force => Err(exists(path)),
            _ => Ok(()),
        }
    }

    /// Says on standard error what was written, if it went to a file.
    pub fn tell(&self, what: &str) {
        if let Place::File { path, .. } = self {
            loudness::tell(&format!("{}: {what}", path.display()));
        }
    }

    fn failed(&self, error: io::Error) -> Failure {
        match self {
            Place::Standard if error.kind() == io::ErrorKind::BrokenPipe => Failure::Closed,
            Place::File { path, .. } if error.kind() == io::ErrorKind::AlreadyExists => exists(path),
            _ => Failure::File(format!("cannot write {}: {error}", self.shown())),
        }
    }

    /// Its name for people.
    pub fn shown(&self) -> String {
        match self {
            Place::Standard => "standard output".into(),
            Place::File { path, .. } => path.display().to_string(),
        }
    }
}

/// Writes text to standard output.
pub fn print(text: &str) -> Result<(), Failure> {
    let mut out = stdout().lock();
    out.write_all(text.as_bytes()).and_then(|()| out.flush()).map_err(|error| Place::Standard.failed(error))
}

/// The files that are inputs, by device and number, under whatever names.
pub struct Taken(BTreeSet<(u64, u64)>);

impl Taken {
    pub fn of<'a>(inputs: impl Iterator<Item = &'a OsStr>) -> Taken {
        let named = inputs.map(|input| if input == "-" { OsStr::new("/dev/stdin") } else { input });
        Taken(named.filter_map(|input| file_number(Path::new(input))).collect())
    }

    fn has(&self, path: &Path) -> bool {
        file_number(path).is_some_and(|number| self.0.contains(&number))
    }
}

fn file_number(path: &Path) -> Option<(u64, u64)> {
    fs::metadata(path).ok().filter(|it| it.is_file()).map(|it| (it.dev(), it.ino()))
}

fn exists(path: &Path) -> Failure {
    Failure::File(format!("{} is there already: --force writes over it", path.display()))
}

/// An output that is being written.
pub struct Draft<'a> {
    place: &'a Place,
    out: Out,
    /// For a file, how it comes to its place.
    beside: Option<Beside>,
}

enum Out {
    Standard(BufWriter<Stdout>),
    File(BufWriter<File>),
    /// A file that is written whole.
    Closed,
}

impl Draft<'_> {
    /// Starts an output; the folders on the way to a file are made.
    pub fn start(place: &Place) -> Result<Draft<'_>, Failure> {
        let Place::File { path, force } = place else {
            return Ok(Draft { place, out: Out::Standard(BufWriter::new(stdout())), beside: None });
        };
        let started = if is_written_in_place(path) {
            OpenOptions::new().write(true).open(path).map(|file| (file, None))
        } else {
            Beside::start(path, *force).map(|(file, beside)| (file, Some(beside)))
        };
        let (file, beside) = started.map_err(|error| place.failed(error))?;
        Ok(Draft { place, out: Out::File(BufWriter::new(file)), beside })
    }

    /// Writes more of the output.
    pub fn fill(&mut self, write: impl FnOnce(&mut dyn Write) -> io::Result<()>) -> Result<(), Failure> {
        let result = match &mut self.out {
            Out::Standard(out) => write(out),
            Out::File(out) => write(out),
            Out::Closed => unreachable!("nothing is written after the end"),
        };
        result.map_err(|error| self.place.failed(error))
    }

    /// Has all that was written reach the reader, or the disk.
    fn settle(&mut self) -> Result<(), Failure> {
        let result = match &mut self.out {
            Out::Standard(out) => out.flush(),
            Out::File(out) => out.flush().and_then(|()| match self.beside {
                Some(_) => out.get_ref().sync_all(),
                None => Ok(()),
            }),
            Out::Closed => Ok(()),
        };
        result.map_err(|error| self.place.failed(error))
    }

    /// Ends the output, so that its file is not open while many others are written.
    pub fn close(&mut self) -> Result<(), Failure> {
        self.settle()?;
        self.out = Out::Closed;
        Ok(())
    }
}

/// A device or a pipe.
fn is_written_in_place(path: &Path) -> bool {
    fs::metadata(path).is_ok_and(|old| !old.is_file() && !old.is_dir())
}

/// Puts outputs in their places, all or none. A signal waits until that is done.
pub fn finish(mut drafts: Vec<Draft>) -> Result<(), Failure> {
    for draft in &mut drafts {
        let what = format!("writing {}", draft.place.shown());
        progress::during(&what, || draft.settle())?;
    }
    let mut unfinished = unfinished();
    let mut put: Vec<(&Beside, Option<PathBuf>)> = Vec::new();
    for (place, beside) in drafts.iter().filter_map(|draft| Some((draft.place, draft.beside.as_ref()?))) {
        match beside.put() {
            Ok(replaced) => {
                unfinished.files.remove(&beside.file);
                put.push((beside, replaced));
            }
            Err(error) => {
                put.iter().for_each(|(beside, replaced)| take_back(&beside.path, replaced.as_deref()));
                return Err(place.failed(error));
            }
        }
    }
    for (beside, replaced) in &put {
        replaced.as_ref().map(fs::remove_file);
        unfinished.folders.retain(|folder| !beside.path.starts_with(folder));
    }
    drop(unfinished);
    let folders: BTreeSet<&Path> = put.iter().map(|(beside, _)| folder_of(&beside.path)).collect();
    for folder in folders {
        // The names too reach the disk, where the system can do that.
        let _ = File::open(folder).and_then(|folder| folder.sync_all());
    }
    Ok(())
}

/// A file that is written beside its place, and removed unless it comes there.
struct Beside {
    file: PathBuf,
    path: PathBuf,
    force: bool,
}

impl Beside {
    fn start(path: &Path, force: bool) -> io::Result<(File, Beside)> {
        let path = through_links(path);
        let mut unfinished = unfinished();
        unfinished.make_folders(folder_of(&path))?;
        let (opened, file) =
            under_new_name(folder_of(&path), create).inspect_err(|_| unfinished.remove_folders())?;
        unfinished.files.insert(file.clone());
        Ok((opened, Beside { file, path, force }))
    }

    /// Brings the file to its place. What stood there is given back under another name.
    fn put(&self) -> io::Result<Option<PathBuf>> {
        let old = fs::metadata(&self.path).ok();
        match old {
            Some(old) if self.force && old.is_file() => {
                fs::set_permissions(&self.file, old.permissions())?;
                self.replace().map(Some)
            }
            Some(old) if old.is_dir() => Err(io::ErrorKind::IsADirectory.into()),
            Some(_) => Err(io::ErrorKind::AlreadyExists.into()),
            None => self.put_first().map(|()| None),
        }
    }

    /// Where no file stands; one that comes there at the same moment is not written over.
    fn put_first(&self) -> io::Result<()> {
        match fs::hard_link(&self.file, &self.path) {
            Ok(()) => {
                let _ = fs::remove_file(&self.file);
                Ok(())
            }
            Err(error) if error.kind() == io::ErrorKind::AlreadyExists => Err(error),
            // The system has no links.
            Err(_) => fs::rename(&self.file, &self.path),
        }
    }

    /// Where a file stands, which gets a second name first.
    fn replace(&self) -> io::Result<PathBuf> {
        let second_name = under_new_name(folder_of(&self.path), |name| fs::hard_link(&self.path, name))
            .or_else(|_| under_new_name(folder_of(&self.path), |name| copy(&self.path, name)));
        let ((), old) = second_name?;
        match fs::rename(&self.file, &self.path) {
            Ok(()) => Ok(old),
            Err(error) => {
                take_back(&self.path, Some(&old));
                Err(error)
            }
        }
    }
}

/// Copies a file to one that is not there yet, for a system that has no links.
fn copy(from: &Path, to: &Path) -> io::Result<()> {
    create(to)?;
    fs::copy(from, to).map(|_| ())
}

impl Drop for Beside {
    fn drop(&mut self) {
        let mut unfinished = unfinished();
        if unfinished.files.remove(&self.file) {
            let _ = fs::remove_file(&self.file);
            unfinished.remove_folders();
        }
    }
}

/// Brings back what stood in a file's place, or nothing.
fn take_back(path: &Path, replaced: Option<&Path>) {
    let _ = match replaced {
        // A second name of the same file is not renamed, but is to go.
        Some(old) => fs::rename(old, path).and_then(|()| fs::remove_file(old)),
        None => fs::remove_file(path),
    };
}

/// The file that a link leads to, so that the link stays.
fn through_links(path: &Path) -> PathBuf {
    let mut path = path.to_path_buf();
    for _ in 0..40 {
        match fs::read_link(&path) {
            Ok(next) => path = folder_of(&path).join(next),
            Err(_) => break,
        }
    }
    path
}

/// Where a file of this name stands or would stand, the same for all names of one place.
pub fn standing_place(path: &Path) -> PathBuf {
    let path = through_links(path);
    for folder in path.ancestors().skip(1) {
        let named = if folder.as_os_str().is_empty() { Path::new(".") } else { folder };
        if let (Ok(real), Ok(rest)) = (named.canonicalize(), path.strip_prefix(folder)) {
            return real.join(rest);
        }
    }
    path
}

fn folder_of(path: &Path) -> &Path {
    match path.parent() {
        Some(folder) if !folder.as_os_str().is_empty() => folder,
        _ => Path::new("."),
    }
}

/// Makes something in a folder under a name that nothing has, for a run that was killed may have left some, and
/// that nothing had in this run: a name stands for one file alone.
fn under_new_name<T>(folder: &Path, make: impl Fn(&Path) -> io::Result<T>) -> io::Result<(T, PathBuf)> {
    static NUMBER: AtomicUsize = AtomicUsize::new(0);
    loop {
        let number = NUMBER.fetch_add(1, Relaxed);
        let path = folder.join(format!(".spatecanter.{}.{number}.part", std::process::id()));
        match make(&path) {
            Ok(made) => return Ok((made, path)),
            Err(error) if error.kind() == io::ErrorKind::AlreadyExists => {}
            Err(error) => return Err(error),
        }
    }
}

fn create(path: &Path) -> io::Result<File> {
    OpenOptions::new().write(true).create_new(true).open(path)
}

/// What a run that ends early removes: files that are not in their places, and folders made for them.
struct Unfinished {
    files: BTreeSet<PathBuf>,
    folders: Vec<PathBuf>,
}

static UNFINISHED: Mutex<Unfinished> = Mutex::new(Unfinished { files: BTreeSet::new(), folders: vec![] });

/// Whoever makes files or brings them to their places holds it, so that a signal finds nothing half done.
fn unfinished() -> MutexGuard<'static, Unfinished> {
    UNFINISHED.lock().unwrap_or_else(PoisonError::into_inner)
}

impl Unfinished {
    /// Makes a folder with those above it, and remembers which are new.
    fn make_folders(&mut self, folder: &Path) -> io::Result<()> {
        let is_missing = |folder: &&Path| !folder.as_os_str().is_empty() && !folder.exists();
        let missing: Vec<&Path> = folder.ancestors().take_while(is_missing).collect();
        for folder in missing.into_iter().rev() {
            match fs::create_dir(folder) {
                Ok(()) => self.folders.push(folder.into()),
                // It came there at the same moment, or is one like a/. that stands already.
                Err(_) if folder.is_dir() => {}
                Err(error) => {
                    self.remove_folders();
                    return Err(error);
                }
            }
        }
        Ok(())
    }

    /// Removes the folders made that have nothing in them.
    fn remove_folders(&mut self) {
        for index in (0..self.folders.len()).rev() {
            if fs::remove_dir(&self.folders[index]).is_ok() {
                self.folders.remove(index);
            }
        }
    }
}

/// Removes all that is unfinished, for good: nothing is begun after it.
pub fn abandon() {
    let mut unfinished = unfinished();
    for file in std::mem::take(&mut unfinished.files) {
        let _ = fs::remove_file(file);
    }
    unfinished.remove_folders();
    std::mem::forget(unfinished);
}
