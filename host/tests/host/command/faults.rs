//! Faults of the system: no half-written output, nothing unfinished left behind, and never an input lost.

use super::many::{files, outputs_of};
use super::*;
use spatecanter::sample::yearbook;
use spatecanter::Machine;
use std::collections::BTreeMap;
use std::ffi::c_int;
use std::io::{BufRead, BufReader, Read};
use std::os::unix::fs::PermissionsExt;
use std::process::{Child, Output};
use std::thread;
use std::time::Duration;

/// A shelf of made tapes, some in a folder of their own, and what reprint makes of all.
struct Shelf {
    folder: PathBuf,
    tapes: BTreeMap<String, Vec<u8>>,
    outputs: BTreeMap<String, Vec<u8>>,
}

impl Shelf {
    fn new(name: &str, tapes: u64, length: usize) -> Shelf {
        let folder = folder(name);
        let mut shelf = Shelf { folder, tapes: BTreeMap::new(), outputs: BTreeMap::new() };
        fs::create_dir_all(shelf.folder.join("shelf/below")).unwrap();
        for number in 0..tapes {
            let name = format!("{}{number:02}.tape", if number % 3 == 0 { "below/" } else { "" });
            let tape = yearbook(Machine::Eight, number, length);
            fs::write(shelf.folder.join("shelf").join(&name), &tape).unwrap();
            shelf.outputs.extend(outputs_of(&name, &tape).unwrap());
            shelf.tapes.insert(name, tape);
        }
        shelf
    }

    /// The inputs are there as they were, and so is each tape's whole output, or else what was there before; gives
    /// how many tapes have theirs.
    fn check(&self, before: Option<&[u8]>) -> usize {
        assert!(files(&self.folder.join("shelf")) == self.tapes, "the inputs");
        let out = files(&self.folder.join("out"));
        let mut whole = 0;
        for name in self.tapes.keys() {
            let of_tape = ["galley", "dvi", "sheet"].map(|ending| format!("{name}.{ending}"));
            let is_new = of_tape.iter().all(|name| out.get(name) == self.outputs.get(name));
            let is_old = of_tape.iter().all(|name| out.get(name).map(Vec::as_slice) == before);
            assert!(is_new || is_old, "{name}: {:?}", of_tape.map(|name| out.get(&name).map(Vec::len)));
            whole += usize::from(is_new);
        }
        let strange: Vec<&String> = out.keys().filter(|name| !self.outputs.contains_key(*name)).collect();
        assert!(strange.is_empty(), "{strange:?}");
        whole
    }

    /// Starts the command.
    fn start(&self, words: &[&str]) -> Child {
        Command::new(env!("CARGO_BIN_EXE_spatecanter"))
            .args(words)
            .current_dir(&self.folder)
            .stdin(Stdio::null())
            .stdout(Stdio::piped())
            .stderr(Stdio::piped())
            .spawn()
            .unwrap()
    }

    /// Runs the command by a line of the shell, in which it is "$@".
    fn shell(&self, line: &str, words: &[&str]) -> Output {
        Command::new("sh")
            .args(["-c", line, "sh", env!("CARGO_BIN_EXE_spatecanter")])
            .args(words)
            .current_dir(&self.folder)
            .output()
            .unwrap()
    }

    /// The same where file systems may be mounted that nobody else sees. None, and a line, where they may not.
    fn with_mounts(&self, line: &str, words: &[&str]) -> Option<Output> {
        let may_mount = "unshare --map-root-user --mount mount -t tmpfs tmpfs \"$PWD\" 2>/dev/null";
        if !self.shell(may_mount, &[]).status.success() {
            println!("left out: nothing can be mounted here");
            return None;
        }
        let line = format!("exec unshare --map-root-user --mount sh -c '{line}' \"$@\"");
        Some(self.shell(&line, &[&["sh"], words].concat()))
    }
}

fn text(bytes: &[u8]) -> String {
    String::from_utf8_lossy(bytes).into_owned()
}

const REPRINT: [&str; 6] = ["reprint", "shelf", "--machine", "8", "-d", "out"];

/// A disk with room for some tapes' outputs: they are there, the others are told, and nothing of these is left.
#[test]
fn a_full_disk() {
    let shelf = Shelf::new("full_disk", 12, 8_000);
    fs::create_dir(shelf.folder.join("out")).unwrap();
    let line = "shift; mount -t tmpfs -o size=400k tmpfs out && \"$@\"; echo status $?; cp -R out kept";
    let Some(run) = shelf.with_mounts(line, &[&[env!("CARGO_BIN_EXE_spatecanter")], &REPRINT[..]].concat())
    else {
        return;
    };
    let told = text(&run.stdout);
    assert!(
        told.contains("No space left on device") && told.ends_with("status 2\n"),
        "{told}{}",
        text(&run.stderr)
    );
    fs::remove_dir(shelf.folder.join("out")).unwrap();
    fs::rename(shelf.folder.join("kept"), shelf.folder.join("out")).unwrap();
    let whole = shelf.check(None);
    assert!((1..12).contains(&whole), "{whole} tapes");
}

/// The longest file allowed is shorter than some outputs.
#[test]
fn a_limit_on_the_length_of_files() {
    let shelf = Shelf::new("file_limit", 3, 8_000);
    fs::write(shelf.folder.join("short.tape"), hex(P3_TAPE)).unwrap();
    let words = [&REPRINT[..], &["short.tape"]].concat();
    let run = shelf.shell("ulimit -f 16; exec \"$@\"", &words);
    let told = text(&run.stdout);
    assert_eq!(run.status.code(), Some(2), "{told}{}", text(&run.stderr));
    assert!(told.contains("File too large"), "{told}");
    assert!(told.ends_with("short.tape: accepted, 2 characters, 1 page\n4 files: 1 accepted, 0 refused, 3 not read or not written\n"));
    let names: Vec<String> = files(&shelf.folder.join("out")).into_keys().collect();
    assert_eq!(names, ["short.tape.dvi", "short.tape.galley", "short.tape.sheet"]);
    let one = shelf.shell("ulimit -f 16; exec \"$@\"", &["reprint", "shelf/01.tape", "-d", "one"]);
    assert_eq!(one.status.code(), Some(2));
    assert!(text(&one.stderr).contains("File too large") && !shelf.folder.join("one").exists());
}

#[test]
fn a_folder_that_is_read_only() {
    let shelf = Shelf::new("read_only", 3, 1_000);
    fs::create_dir(shelf.folder.join("out")).unwrap();
    let line = "shift; mount -t tmpfs -o ro tmpfs out && \"$@\"; echo status $?; ls -A out";
    let Some(run) = shelf.with_mounts(line, &[&[env!("CARGO_BIN_EXE_spatecanter")], &REPRINT[..]].concat())
    else {
        return;
    };
    let told = text(&run.stdout);
    assert_eq!(told.matches("Read-only file system").count(), 3, "{told}");
    assert!(
        told.ends_with("3 files: 0 accepted, 0 refused, 3 not read or not written\nstatus 2\n"),
        "{told}"
    );
    assert_eq!(shelf.check(None), 0);
}

/// A folder below that may not be read is told, and the others are read. Root may read all: another user is taken.
#[test]
fn a_folder_that_may_not_be_read() {
    let shelf = Shelf::new("locked", 3, 1_000);
    fs::set_permissions(shelf.folder.join("shelf/below"), fs::Permissions::from_mode(0o0)).unwrap();
    let line =
        "[ $(id -u) != 0 ] || set -- setpriv --reuid=65534 --regid=65534 --clear-groups \"$@\"; exec \"$@\"";
    let can_run = shelf.shell(line, &["check", "--help"]).status.success();
    let run = shelf.shell(line, &[&REPRINT[..], &["--dry-run"]].concat());
    fs::set_permissions(shelf.folder.join("shelf/below"), fs::Permissions::from_mode(0o755)).unwrap();
    if !can_run {
        println!("left out: the command cannot be run as another user here");
        return;
    }
    let told = text(&run.stdout);
    assert!(
        told.contains("shelf/below: cannot read shelf/below: Permission denied (os error 13)\n"),
        "{told}"
    );
    assert!(told.contains("3 files: 2 accepted, 0 refused, 1 not read or not written;"), "{told}");
    assert_eq!((run.status.code(), shelf.check(None)), (Some(2), 0));
}

/// A call of the system fails while the second or third output comes to its place, with and without outputs that
/// are there already.
#[test]
fn a_call_that_fails_between_two_outputs() {
    let shelf = Shelf::new("failing_calls", 1, 1_000);
    let (out, old) = (shelf.folder.join("out"), b"as before".as_slice());
    for (faults, is_there) in [
        (&["fsync:error=EIO:when=2"][..], false),
        (&["linkat:error=EPERM:when=2", "rename:error=EIO:when=1"], false),
        (&["linkat:error=EPERM:when=3+", "rename:error=EIO:when=1"], false),
        (&["rename:error=EIO:when=2"], true),
        (&["rename:error=EIO:when=3"], true),
        (&["linkat:error=EPERM:when=2", "rename:error=EIO:when=3"], true),
        (&["fsync:error=ENOSPC:when=3"], true),
    ] {
        let _ = fs::remove_dir_all(&out);
        if is_there {
            fs::create_dir_all(out.join("below")).unwrap();
            shelf.outputs.keys().for_each(|name| fs::write(out.join(name), old).unwrap());
        }
        let injected: String = faults.iter().map(|fault| format!(" -e inject={fault}")).collect();
        let line = format!("exec strace -f -o calls -e trace=fsync,linkat,rename{injected} \"$@\"");
        let run = shelf.shell(&line, &[&REPRINT[..], &["--force", "-j", "1"]].concat());
        if !fs::read_to_string(shelf.folder.join("calls")).unwrap_or_default().contains("(INJECTED)") {
            println!("left out: calls of the system cannot be made to fail here");
            return;
        }
        assert_eq!(run.status.code(), Some(2), "{faults:?}: {}", text(&run.stdout));
        assert_eq!(shelf.check(is_there.then_some(old)), 0, "{faults:?}");
    }
}

extern "C" {
    fn kill(process: c_int, signal: c_int) -> c_int;
}

/// SIGINT and SIGTERM, 100 times, after any number of lines, also where files are written over.
#[test]
fn signals_at_any_moment() {
    let shelf = Shelf::new("signals_many", 16, 4_000);
    let (out, old) = (shelf.folder.join("out"), b"as before".as_slice());
    let words = [&REPRINT[..], &["--force", "-j", "4"]].concat();
    let (mut ended, mut some) = (0, 0);
    for round in 0..100 {
        let _ = fs::remove_dir_all(&out);
        let is_there = round % 2 == 1;
        if is_there {
            fs::create_dir_all(out.join("below")).unwrap();
            shelf.outputs.keys().for_each(|name| fs::write(out.join(name), old).unwrap());
        }
        let mut child = shelf.start(&words);
        let mut lines = BufReader::new(child.stdout.take().unwrap()).lines();
        lines.by_ref().take(round * 7 % 16).for_each(drop);
        thread::sleep(Duration::from_micros(97 * round as u64));
        // SAFETY: the process is a child that was not waited for.
        unsafe { kill(child.id() as c_int, if round % 4 < 2 { 2 } else { 15 }) };
        let status = child.wait().unwrap();
        let whole = shelf.check(is_there.then_some(old));
        ended += usize::from(status.code().is_none());
        some += usize::from((1..16).contains(&whole));
        assert!(whole > 0 || is_there || !out.exists(), "an empty folder is left");
    }
    println!("{ended} runs were ended, {some} of them in the midst");
    assert!(ended > 20 && some > 10, "{ended} runs were ended, {some} of them in the midst");
    // The next run does what is left.
    assert!(shelf.start(&words).wait_with_output().unwrap().status.success());
    assert_eq!(shelf.check(None), 16);
}

/// Whoever reads the lines leaves: the files are written all the same. A check has nothing more to do.
#[test]
fn a_reader_of_lines_that_leaves() {
    let shelf = Shelf::new("closed_pipe", 40, 1_000);
    fs::write(shelf.folder.join("bad.tape"), hex("EF")).unwrap();
    let mut child = shelf.start(&[&REPRINT[..], &["bad.tape", "-j", "2"]].concat());
    let mut first = [0; 10];
    child.stdout.take().unwrap().read_exact(&mut first).unwrap();
    let output = child.wait_with_output().unwrap();
    assert_eq!((output.status.code(), text(&output.stderr).as_str()), (Some(1), ""));
    assert_eq!(shelf.check(None), 40);
    let mut child = shelf.start(&["check", "out", "--ending", ".galley"]);
    drop(child.stdout.take());
    let output = child.wait_with_output().unwrap();
    assert_eq!((output.status.code(), text(&output.stderr).as_str()), (Some(0), ""));
}

/// Lines that cannot be written are 2, and the files are written all the same.
#[test]
fn a_full_standard_output_of_many() {
    let shelf = Shelf::new("full_lines", 4, 1_000);
    let run = shelf.shell("exec \"$@\" >/dev/full", &REPRINT);
    assert_eq!(run.status.code(), Some(2));
    assert!(
        text(&run.stderr).starts_with("spatecanter: cannot write standard output: "),
        "{}",
        text(&run.stderr)
    );
    assert_eq!(shelf.check(None), 4);
}

/// The folder of the tapes is away for a while, or that of the outputs is removed.
#[test]
fn folders_that_change_meanwhile() {
    let shelf = Shelf::new("changing", 40, 1_000);
    let (kept, out) = (shelf.folder.join("shelf"), shelf.folder.join("out"));
    let away = shelf.folder.join("away");
    for round in 0..20_u64 {
        let mut child = shelf.start(&[&REPRINT[..], &["-j", "4"]].concat());
        thread::sleep(Duration::from_micros(700 * round));
        if round % 2 == 0 {
            fs::rename(&kept, &away).unwrap();
            thread::sleep(Duration::from_millis(3));
            fs::rename(&away, &kept).unwrap();
        } else {
            let _ = fs::remove_dir_all(&out);
        }
        assert!(child.wait().unwrap().code().is_some_and(|status| status == 0 || status == 2));
        if round % 2 == 0 {
            shelf.check(None);
        }
        // What is there is whole, and has its own name.
        for (name, bytes) in files(&out) {
            assert!(shelf.outputs.get(&name) == Some(&bytes), "{name}");
        }
        let _ = fs::remove_dir_all(&out);
    }
}
