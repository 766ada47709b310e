//! The command `spatecanter`: files, exit status and texts.

mod browser;
mod comparisons;
mod conventions;
mod editions;
mod faults;
mod figures;
mod indexes;
mod many;
mod outputs;
mod pictures;
mod pieces;
mod refusals;
mod reports;
mod sheets;
mod terminal;
mod usage;
mod ways;
mod xgp;

use crate::hex;
use std::fs;
use std::io::Write;
use std::path::{Path, PathBuf};
use std::process::{Command, Stdio};

const P3_TAPE: &str = "40 EF 52 4E 01 FC 02 49";

/// What is told of P3's galley.
const P3_TOLD: &str = "2 characters\n  farthest x 3 units, 0.01 inches\n  greatest height 0 quanta, 0.00 inches\n  fonts C110\n";

/// What a run gave: exit status, standard output, standard error.
struct Run {
    status: i32,
    out: Vec<u8>,
    err: String,
}

impl Run {
    fn text(&self) -> String {
        String::from_utf8_lossy(&self.out).into_owned()
    }
}

/// A new empty folder to run in.
fn folder(name: &str) -> PathBuf {
    let path = Path::new(env!("CARGO_TARGET_TMPDIR")).join(name);
    let _ = fs::remove_dir_all(&path);
    fs::create_dir_all(&path).unwrap();
    path
}

fn run(folder: &Path, words: &[&str]) -> Run {
    run_on(folder, words, &[])
}

/// Runs the command on these bytes as standard input.
fn run_on(folder: &Path, words: &[&str], input: &[u8]) -> Run {
    let mut child = Command::new(env!("CARGO_BIN_EXE_spatecanter"))
        .args(words)
        .current_dir(folder)
        .stdin(Stdio::piped())
        .stdout(Stdio::piped())
        .stderr(Stdio::piped())
        .spawn()
        .unwrap();
    // A command that does not read its input may be gone already.
    let _ = child.stdin.take().unwrap().write_all(input);
    let output = child.wait_with_output().unwrap();
    let err = String::from_utf8_lossy(&output.stderr).into_owned();
    Run { status: output.status.code().unwrap(), out: output.stdout, err }
}

fn names(folder: &Path) -> Vec<String> {
    let entries = fs::read_dir(folder).unwrap();
    let mut names: Vec<String> =
        entries.map(|entry| entry.unwrap().file_name().into_string().unwrap()).collect();
    names.sort();
    names
}

/// Four characters, one for each pair of rail and mag: lower and lower, upper rail, both upper, upper mag.
const PAIRS_TAPE: &str = "40 EF 52 01 42 02 43 03 41 04 49";

/// P3's characters with a cut between them, in the old form and in the new.
const OLD_P3: &str = "01 00 06 00 00 00 00 02 01 06 00 00 01 00 06 00 03 00 00 02 02 02 00 04 00 00 00 02";

const NEW_P3: &str =
    "07 00 08 00 00 00 00 00 00 02 01 06 00 00 07 00 08 00 03 00 00 00 00 02 02 02 00 04 00 00 00 02";
