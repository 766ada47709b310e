//! Progress on a terminal: the command runs under a pseudo terminal, and an input that is a pipe lets it wait.

use super::*;
use std::ffi::{c_char, c_int, CStr};
use std::fs::File;
use std::io::Read;
use std::os::fd::FromRawFd;
use std::process::Child;

extern "C" {
    fn posix_openpt(flags: c_int) -> c_int;
    fn grantpt(terminal: c_int) -> c_int;
    fn unlockpt(terminal: c_int) -> c_int;
    fn ptsname_r(terminal: c_int, name: *mut c_char, length: usize) -> c_int;
}

/// Read and write, and not the terminal of this process.
const FLAGS: c_int = 0o2 | 0o400;

/// A pseudo terminal: what is shown on it, and what a command writes to. None where the system has none.
fn terminal() -> Option<(File, File)> {
    let mut name = [0; 64];
    // SAFETY: the number is an open file's, which becomes a File's alone; the name has room and ends with 0.
    unsafe {
        let shown = posix_openpt(FLAGS);
        if shown < 0
            || grantpt(shown) != 0
            || unlockpt(shown) != 0
            || ptsname_r(shown, name.as_mut_ptr(), 64) != 0
        {
            return None;
        }
        let written = CStr::from_ptr(name.as_ptr()).to_str().ok()?;
        let written = fs::OpenOptions::new().read(true).write(true).open(written).ok()?;
        Some((File::from_raw_fd(shown), written))
    }
}

/// Starts the command with both its outputs on a terminal.
fn start(folder: &Path, words: &[&str]) -> Option<(Child, File)> {
    let (shown, written) = terminal()?;
    // One that does not come to its end is ended.
    let child = Command::new("timeout")
        .args(["30", env!("CARGO_BIN_EXE_spatecanter")])
        .args(words)
        .current_dir(folder)
        .stdin(Stdio::null())
        .stdout(written.try_clone().unwrap())
        .stderr(written)
        .spawn()
        .unwrap();
    Some((child, shown))
}

/// Reads what is shown until these words are, or to the end, which a terminal tells by an error.
fn read_until(shown: &mut File, text: &mut String, words: &str) {
    let mut piece = [0; 1_000];
    while !text.contains(words) {
        match shown.read(&mut piece) {
            Ok(length) if length > 0 => text.push_str(&String::from_utf8_lossy(&piece[..length])),
            _ => break,
        }
    }
}

/// The command on some files of which one comes when the bar is shown; gives all that the terminal shows.
fn shown_with_bar(folder: &Path, words: &[&str], pipe: &str, bytes: &[u8], bar: &str) -> Option<String> {
    assert!(Command::new("mkfifo").arg(folder.join(pipe)).status().unwrap().success());
    let Some((mut child, mut shown)) = start(folder, words) else {
        println!("left out: there is no pseudo terminal");
        return None;
    };
    let mut text = String::new();
    read_until(&mut shown, &mut text, bar);
    assert!(text.contains(bar), "{text:?}");
    fs::write(folder.join(pipe), bytes).unwrap();
    read_until(&mut shown, &mut text, "no such words");
    let status = child.wait().unwrap();
    assert!(status.success(), "{status}: {text:?}");
    Some(text)
}

/// A bar, files done of all, speed and time left; it is cleared before each line, and at the end.
#[test]
fn a_bar_for_many_files() {
    let folder = folder("bar_many");
    fs::write(folder.join("a.galley"), hex(NEW_P3)).unwrap();
    fs::write(folder.join("c.galley"), hex(NEW_P3)).unwrap();
    let words = ["check", "a.galley", "b.galley", "c.galley", "-j", "1"];
    let bar = "[######..............] 1 of 3 files, 0 MB/s, ";
    let Some(text) = shown_with_bar(&folder, &words, "b.galley", &hex(NEW_P3), bar) else {
        return;
    };
    assert!(text.starts_with("a.galley: accepted, 2 characters\r\n\r\x1b[Kworking: 1 s ["), "{text:?}");
    assert!(text.contains(" s left\r"), "{text:?}");
    let end = "\r\x1b[Kb.galley: accepted, 2 characters\r\nc.galley: accepted, 2 characters\r\n\
               3 files: 3 accepted, 0 refused\r\n";
    assert!(text.ends_with(end), "{text:?}");
}

#[test]
fn a_bar_for_a_report() {
    let folder = folder("bar_report");
    let names: Vec<String> = (10..27).map(|number| format!("{number}.tape")).collect();
    names[..16].iter().for_each(|name| fs::write(folder.join(name), hex(P3_TAPE)).unwrap());
    let words: Vec<&str> = ["report"].into_iter().chain(names.iter().map(String::as_str)).collect();
    let bar = "counting: 1 s [##################..] 16 of 17 tapes, 0 MB/s, 1 s left";
    let Some(text) = shown_with_bar(&folder, &words, "26.tape", &hex(P3_TAPE), bar) else {
        return;
    };
    assert!(text.contains("\r\x1b[Ktapes                                       17\r\n"), "{text:?}");
}

/// One input is told with its seconds.
#[test]
fn seconds_for_one_file() {
    let folder = folder("bar_one");
    let words = ["read", "a.tape", "-o", "a.galley"];
    let Some(text) = shown_with_bar(&folder, &words, "a.tape", &hex(P3_TAPE), "reading a.tape: 1 s") else {
        return;
    };
    let told = P3_TOLD.replace('\n', "\r\n");
    assert!(text.ends_with(&format!("\r\x1b[Ka.galley: {told}")), "{text:?}");
}
