//! Tapes read in pieces, as they come.

use super::{folder, names, run, run_on, P3_TAPE, P3_TOLD};
use crate::hex;
use spatecanter::sample::yearbook;
use spatecanter::Machine;
use std::fs;
use std::io::{Read, Write};
use std::process::{Command, Stdio};

#[test]
fn pieces_of_any_length_give_the_galley() {
    let folder = folder("pieces of any length");
    let tape = yearbook(Machine::Eight, 3, 20_000);
    fs::write(folder.join("a.tape"), &tape).unwrap();
    let whole = run(&folder, &["read", "a.tape", "--machine", "8", "-o", "-"]).out;
    for length in ["1", "2", "3", "7", "4096", "1048576"] {
        let in_pieces = ["--machine", "8", "--pieces", length, "-o", "-"];
        let from_file = run(&folder, &[&["read", "a.tape"], &in_pieces[..]].concat());
        assert!(from_file.status == 0 && from_file.out == whole, "{length}: {}", from_file.err);
        let from_pipe = run_on(&folder, &[&["read", "-"], &in_pieces[..]].concat(), &tape);
        assert!(from_pipe.status == 0 && from_pipe.out == whole, "{length}: {}", from_pipe.err);
    }
    let from_pipe = run_on(&folder, &["read", "-", "--machine", "8", "-o", "a.galley"], &tape);
    assert_eq!((from_pipe.status, from_pipe.out), (0, vec![]));
    assert_eq!(fs::read(folder.join("a.galley")).unwrap(), whole);
    let at_once = run(&folder, &["read", "a.tape", "--machine", "8", "-o", "b.galley"]).err;
    assert_eq!(from_pipe.err.replace("a.galley", "b.galley"), at_once);
}

/// The same words as for the whole tape, and no file.
#[test]
fn refusals_are_those_of_the_whole_tape() {
    let folder = folder("refusals in pieces");
    for codes in [
        "",
        "00 00",
        "EF",
        "40 EF 52 01 FF 49",
        "40 EF 52 48 01 FE",
        "40 EF 52 80 80 80 80 80 80 80 80 80 80 80 80 80 80 80 80 80 80 80 80 80 80 80 80 80 80 01",
        "40 4C 7E",
        "40 EF 46 52 2E",
        "40 EF 01",
        "40 F0",
        "40 49 01",
        "40 EF 52 01 4B 00 02",
        "40 EF 52 01 4B 00",
        "40 EF 52 01",
    ] {
        let tape = hex(codes);
        fs::write(folder.join("a.tape"), &tape).unwrap();
        let whole = run(&folder, &["read", "a.tape"]);
        assert_eq!(whole.status, 1, "{codes}");
        for length in ["1", "2", "3", "100"] {
            let in_pieces = run(&folder, &["read", "a.tape", "--pieces", length]);
            assert_eq!((in_pieces.status, &in_pieces.err), (1, &whole.err), "{codes}");
        }
        let from_pipe = run_on(&folder, &["read", "-", "-o", "a.galley"], &tape);
        assert_eq!((from_pipe.status, from_pipe.err.replace("standard input", "a.tape")), (1, whole.err));
        assert_eq!(names(&folder), ["a.tape"]);
    }
}

/// Nothing past the limit is waited for.
#[test]
fn a_pipe_that_goes_on_is_refused_at_the_limit() {
    let folder = folder("pieces past the limit");
    let refused = run_on(&folder, &["read", "-", "-o", "a.galley"], &vec![0; 3 << 20]);
    assert_eq!(refused.status, 1);
    assert!(refused.err.contains("refused 1 at 0"), "{}", refused.err);
    assert!(names(&folder).is_empty());
}

/// To standard output the fields of a piece go before the next piece is read; a refused tape leaves no End.
#[test]
fn fields_go_out_before_the_end() {
    let folder = folder("fields before the end");
    let tape = hex(P3_TAPE);
    let refused = run(&folder, &["read", "-", "--pieces", "1", "-o", "-"]);
    assert_eq!((refused.status, refused.out), (1, vec![]));
    let refused = run_on(&folder, &["read", "-", "--pieces", "1", "-o", "-"], &tape[..7]);
    assert_eq!(refused.status, 1);
    assert_eq!(refused.out, hex("07 00 08 00 00 00 00 00 00 02 01 07 00 08 00 03 00 00 00 00 02 02"));
}

/// A drive that hands over a few bytes at a time: the file is there when the tape has ended, and not before.
#[test]
fn a_slow_drive_is_waited_for() {
    let folder = folder("a slow drive");
    let mut child = Command::new(env!("CARGO_BIN_EXE_spatecanter"))
        .args(["read", "-", "-o", "a.galley"])
        .current_dir(&folder)
        .stdin(Stdio::piped())
        .stderr(Stdio::piped())
        .spawn()
        .unwrap();
    let mut drive = child.stdin.take().unwrap();
    for piece in hex(P3_TAPE).chunks(3) {
        drive.write_all(piece).unwrap();
        drive.flush().unwrap();
        std::thread::sleep(std::time::Duration::from_millis(50));
        assert!(!folder.join("a.galley").exists());
    }
    drop(drive);
    assert!(child.wait().unwrap().success());
    let mut told = String::new();
    child.stderr.take().unwrap().read_to_string(&mut told).unwrap();
    assert_eq!(told, format!("a.galley: {P3_TOLD}"));
    assert_eq!(names(&folder), ["a.galley"]);
}

#[test]
fn a_piece_has_some_bytes() {
    let folder = folder("lengths of pieces");
    fs::write(folder.join("a.tape"), hex(P3_TAPE)).unwrap();
    for length in ["0", "1048577", "-1", "x", ""] {
        let wrong = run(&folder, &["read", "a.tape", "--pieces", length]);
        assert_eq!(wrong.status, 2, "{length}");
        assert!(wrong.err.contains("is no length of a piece"), "{}", wrong.err);
    }
}

/// The extents are over all pages, whether the tape is read at once or in pieces.
#[test]
fn extents_are_told() {
    let folder = folder("extents");
    let tape = hex("40 EF 52 4E 60 01 4B 40 EF 80 80 42 43 5E 02 46 03 49");
    fs::write(folder.join("a.tape"), &tape).unwrap();
    let told =
        "a.galley: 3 characters\n  farthest x 199 units, 0.46 inches\n  greatest height 31 quanta, 0.22 \
                inches\n  fonts C110 C836\n";
    assert_eq!(run(&folder, &["read", "a.tape", "-o", "a.galley"]).err, told);
    assert_eq!(run(&folder, &["read", "a.tape", "-o", "a.galley", "--force", "--pieces", "2"]).err, told);
    assert_eq!(run_on(&folder, &["read", "-", "-o", "a.galley", "--force"], &tape).err, told);
    let summary = run(&folder, &["reprint", "a.tape", "-d", "out"]).text();
    for row in [
        "farthest x                         199 units, 0.46 inches\n",
        "greatest height                     31 quanta, 0.22 inches\n",
        "  C110: font 1, 10 points            1\n",
        "  C836: font 8, 36 points            2\n",
    ] {
        assert!(summary.contains(row), "{summary}");
    }
    fs::write(folder.join("b.tape"), hex("40 49")).unwrap();
    assert_eq!(run(&folder, &["read", "b.tape"]).err, "b.tape.galley: 0 characters\n");
}
