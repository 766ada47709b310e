//! Where outputs go, and how they come there.

use super::*;
use spatecanter::sample::yearbook;
use spatecanter::Machine;
use std::os::unix::fs::{symlink, FileTypeExt, PermissionsExt};
use std::process::Child;
use std::thread::sleep;
use std::time::Duration;

#[test]
fn an_input_is_never_written_over() {
    let folder = folder("inputs");
    let tape = hex(P3_TAPE);
    for name in ["p3.galley", "p3.tape"] {
        fs::write(folder.join(name), &tape).unwrap();
    }
    symlink("p3.tape", folder.join("p3.tape.galley")).unwrap();
    let calls: [&[&str]; 7] = [
        &["read", "p3.tape"],
        &["read", "p3.tape", "-o", "p3.tape"],
        &["read", "p3.tape", "-o", "./p3.tape", "--force"],
        &["reprint", "p3.tape", "-d", "."],
        &["reprint", "p3.tape", "-d", ".", "--force"],
        &["show", "p3.tape", "--widths", "p3.galley", "-o", "p3.galley"],
        &["convert", "--to", "new", "p3.galley", "-o", "p3.galley", "--force"],
    ];
    for words in calls {
        let run = run(&folder, words);
        assert_eq!(run.status, 2, "{words:?}");
        assert!(run.err.contains("is an input, and is not written over"), "{}", run.err);
    }
    assert_eq!(names(&folder), ["p3.galley", "p3.tape", "p3.tape.galley"]);
    assert_eq!(fs::read(folder.join("p3.tape")).unwrap(), tape);
    assert_eq!(fs::read(folder.join("p3.galley")).unwrap(), tape);
}

#[test]
fn links_and_devices_stay() {
    let folder = folder("links");
    fs::write(folder.join("p3.tape"), hex(P3_TAPE)).unwrap();
    fs::write(folder.join("old.galley"), "old").unwrap();
    fs::set_permissions(folder.join("old.galley"), fs::Permissions::from_mode(0o600)).unwrap();
    symlink("old.galley", folder.join("link.galley")).unwrap();
    symlink("p3.tape", folder.join("link.tape")).unwrap();
    assert_eq!(run(&folder, &["read", "p3.tape", "-o", "link.galley", "--force"]).status, 0);
    assert!(fs::symlink_metadata(folder.join("link.galley")).unwrap().is_symlink());
    let old = fs::metadata(folder.join("old.galley")).unwrap();
    assert_eq!((old.len(), old.permissions().mode() & 0o777), (29, 0o600));
    assert_eq!(run(&folder, &["read", "p3.tape", "-o", "link.tape"]).status, 2);
    assert_eq!(run(&folder, &["read", "p3.tape", "-o", "/dev/null"]).status, 0);
    assert!(fs::metadata("/dev/null").unwrap().file_type().is_char_device());
    symlink("new.galley", folder.join("to_nothing")).unwrap();
    assert_eq!(run(&folder, &["read", "p3.tape", "-o", "to_nothing"]).status, 0);
    assert!(fs::symlink_metadata(folder.join("to_nothing")).unwrap().is_symlink());
    let all = ["link.galley", "link.tape", "new.galley", "old.galley", "p3.tape", "to_nothing"];
    assert_eq!(names(&folder), all);
}

#[test]
fn a_reader_that_leaves_ends_the_command_quietly() {
    let folder = folder("pipe");
    fs::write(folder.join("a.tape"), yearbook(Machine::Eight, 5, 200_000)).unwrap();
    assert_eq!(run(&folder, &["reprint", "a.tape", "-d", "."]).status, 0);
    let calls: [&[&str]; 5] = [
        &["list", "a.tape.galley"],
        &["sheet", "a.tape.sheet"],
        &["read", "a.tape", "-o", "-"],
        &["plot", "a.tape", "-o", "-"],
        &["--help"],
    ];
    for words in calls {
        let mut child = start(&folder, words);
        drop(child.stdout.take());
        let output = child.wait_with_output().unwrap();
        assert_eq!((output.status.code(), output.stderr), (Some(0), vec![]), "{words:?}");
    }
}

/// Starts the command with pipes for its input and outputs.
fn start(folder: &Path, words: &[&str]) -> Child {
    Command::new(env!("CARGO_BIN_EXE_spatecanter"))
        .args(words)
        .current_dir(folder)
        .stdin(Stdio::piped())
        .stdout(Stdio::piped())
        .stderr(Stdio::piped())
        .spawn()
        .unwrap()
}

#[test]
fn a_full_standard_output_is_2() {
    let folder = folder("full");
    fs::write(folder.join("p3.tape"), hex(P3_TAPE)).unwrap();
    assert_eq!(run(&folder, &["reprint", "p3.tape", "-d", "."]).status, 0);
    let calls: [&[&str]; 6] = [
        &["list", "p3.tape.galley"],
        &["sheet", "p3.tape.sheet"],
        &["check", "p3.tape.galley"],
        &["read", "p3.tape", "-o", "-"],
        &["reprint", "p3.tape", "-d", "."],
        &["help"],
    ];
    for words in calls {
        let full = fs::OpenOptions::new().write(true).open("/dev/full").unwrap();
        let force: &[&str] = if words[0] == "reprint" { &["--force"] } else { &[] };
        let output = Command::new(env!("CARGO_BIN_EXE_spatecanter"))
            .args([words, force].concat())
            .current_dir(&folder)
            .stdout(full)
            .output()
            .unwrap();
        assert_eq!(output.status.code(), Some(2), "{words:?}");
        let err = String::from_utf8_lossy(&output.stderr).into_owned();
        assert!(err.starts_with("spatecanter: cannot write standard output: "), "{words:?}: {err}");
    }
}

#[test]
fn names_keep_the_whole_name_of_the_input() {
    let folder = folder("names");
    for name in ["reel.001", "reel.002", "reel"] {
        fs::write(folder.join(name), hex(P3_TAPE)).unwrap();
        assert_eq!(run(&folder, &["read", name]).err, format!("{name}.galley: {P3_TOLD}"));
        assert_eq!(run(&folder, &["plot", name]).err, format!("{name}.svg: 2 characters\n"));
        assert_eq!(
            run(&folder, &["set", &format!("{name}.galley")]).err,
            format!("{name}.galley.dvi: 59 bytes\n")
        );
        assert_eq!(run(&folder, &["reprint", &format!("./{name}"), "-d", "out"]).status, 0);
    }
    assert_eq!(names(&folder.join("out")).len(), 9);
    assert!(folder.join("out/reel.001.sheet").exists() && folder.join("out/reel.sheet").exists());
    assert_eq!(run_on(&folder, &["reprint", "-", "-d", "in"], &hex(P3_TAPE)).status, 0);
    assert_eq!(names(&folder.join("in")), ["tape.dvi", "tape.galley", "tape.sheet"]);
}

#[test]
fn an_existing_output_is_written_over_by_force_alone() {
    let folder = folder("force");
    fs::write(folder.join("p3.tape"), hex(P3_TAPE)).unwrap();
    for name in ["p3.tape.galley", "out.dvi", "p3.tape.sheet"] {
        fs::write(folder.join(name), "as before").unwrap();
    }
    let calls: [&[&str]; 3] =
        [&["read", "p3.tape"], &["plot", "p3.tape", "-o", "out.dvi"], &["reprint", "p3.tape", "-d", "."]];
    for words in calls {
        let refused = run(&folder, words);
        assert_eq!(refused.status, 2, "{words:?}");
        assert!(refused.err.ends_with(" is there already: --force writes over it\n"), "{}", refused.err);
        assert_eq!(names(&folder), ["out.dvi", "p3.tape", "p3.tape.galley", "p3.tape.sheet"]);
        for name in ["p3.tape.galley", "out.dvi", "p3.tape.sheet"] {
            assert_eq!(fs::read(folder.join(name)).unwrap(), b"as before");
        }
    }
    for words in calls {
        assert_eq!(run(&folder, &[words, &["--force"]].concat()).status, 0, "{words:?}");
    }
    assert_eq!(names(&folder), ["out.dvi", "p3.tape", "p3.tape.dvi", "p3.tape.galley", "p3.tape.sheet"]);
    assert_eq!(fs::read(folder.join("p3.tape.galley")).unwrap().len(), 29);
}

#[test]
fn folders_are_made_for_an_output() {
    let folder = folder("made");
    fs::write(folder.join("p3.tape"), hex(P3_TAPE)).unwrap();
    fs::write(folder.join("bad.tape"), hex("40")).unwrap();
    assert_eq!(run(&folder, &["read", "p3.tape", "-o", "a/b/c.galley"]).status, 0);
    assert_eq!(run(&folder, &["list", "a/b/c.galley"]).status, 0);
    assert_eq!(run(&folder, &["read", "p3.tape", "-o", "./d/../e/c.galley"]).status, 0);
    // None for a refused input, and none is left where the file cannot be written.
    assert_eq!(run(&folder, &["read", "bad.tape", "-o", "f/c.galley"]).status, 1);
    assert_eq!(run(&folder, &["read", "p3.tape", "-o", &format!("g/h/{}", "x".repeat(300))]).status, 2);
    assert!(!folder.join("f").exists() && !folder.join("g").exists());
}

/// A tape that a pipe does not hold whole, so that who reads it has begun when half of it is written.
fn long_tape() -> Vec<u8> {
    yearbook(Machine::Eight, 6, 300_000)
}

#[test]
fn reprint_writes_all_or_none_when_a_name_is_taken_meanwhile() {
    for force in [false, true] {
        let folder = folder("meanwhile");
        let words: &[&str] = &["reprint", "-", "-d", "out", "--force"];
        if force {
            fs::create_dir(folder.join("out")).unwrap();
            fs::write(folder.join("out/tape.galley"), "as before").unwrap();
        }
        let mut child = start(&folder, if force { words } else { &words[..4] });
        let mut input = child.stdin.take().unwrap();
        let tape = long_tape();
        input.write_all(&tape[..200_000]).unwrap();
        // The second of the three can no longer come to its place.
        fs::create_dir_all(folder.join("out/tape.dvi/in_the_way")).unwrap();
        input.write_all(&tape[200_000..]).unwrap();
        drop(input);
        let output = child.wait_with_output().unwrap();
        assert_eq!(output.status.code(), Some(2));
        let err = String::from_utf8_lossy(&output.stderr).into_owned();
        assert!(err.contains("out/tape.dvi"), "{err}");
        let left: &[&str] = if force { &["tape.dvi", "tape.galley"] } else { &["tape.dvi"] };
        assert_eq!(names(&folder.join("out")), left);
        if force {
            assert_eq!(fs::read(folder.join("out/tape.galley")).unwrap(), b"as before");
        }
    }
}

#[test]
fn a_signal_leaves_all_or_none() {
    let folder = folder("signal");
    fs::write(folder.join("a.tape"), yearbook(Machine::Eight, 7, 1_000_000)).unwrap();
    let mut ended = 0;
    for (round, signal) in ["INT", "TERM", "HUP"].iter().cycle().take(24).enumerate() {
        let mut child = start(&folder, &["reprint", "a.tape", "-d", "out"]);
        // Some end before anything is written, most while that is done.
        while !folder.join("out").exists() && round % 4 > 0 && child.try_wait().unwrap().is_none() {
            sleep(Duration::from_micros(50));
        }
        sleep(Duration::from_micros(400 * round as u64));
        let sent = Command::new("kill").args(["-s", signal, &child.id().to_string()]).output().unwrap();
        let output = child.wait_with_output().unwrap();
        if sent.status.success() && output.status.code().is_none() {
            ended += 1;
        }
        let left = if folder.join("out").exists() { names(&folder.join("out")) } else { vec![] };
        let all = ["a.tape.dvi", "a.tape.galley", "a.tape.sheet"];
        assert!(left.is_empty() && !folder.join("out").exists() || left == all, "{signal}: {left:?}");
        let _ = fs::remove_dir_all(folder.join("out"));
    }
    assert!(ended > 3, "{ended} runs were ended");
}

#[test]
fn what_a_killed_run_left_is_no_obstacle() {
    let folder = folder("stale");
    fs::write(folder.join("p3.tape"), hex(P3_TAPE)).unwrap();
    let mut child = start(&folder, &["reprint", "-", "-d", "."]);
    // The names that this run would take first, and those that an earlier version took.
    let mut stale: Vec<String> =
        (0..3).map(|number| format!(".spatecanter.{}.{number}.part", child.id())).collect();
    stale.extend(["galley", "dvi", "sheet"].map(|ending| format!(".tape.{ending}.{}.part", child.id())));
    for name in &stale {
        fs::write(folder.join(name), "stale").unwrap();
    }
    child.stdin.take().unwrap().write_all(&hex(P3_TAPE)).unwrap();
    assert_eq!(child.wait_with_output().unwrap().status.code(), Some(0));
    assert!(folder.join("tape.sheet").exists());
    assert_eq!(names(&folder).len(), 10);
    for name in &stale {
        assert_eq!(fs::read(folder.join(name)).unwrap(), b"stale");
    }
}

/// Runs the command under strace, which tells the calls of its whole run.
#[test]
fn outputs_are_on_the_disk_before_they_come_to_their_places() {
    let folder = folder("synced");
    fs::write(folder.join("p3.tape"), hex(P3_TAPE)).unwrap();
    let traced = Command::new("strace")
        .args(["-f", "-o", "calls", "-e", "trace=fsync,link,linkat,rename,renameat,renameat2"])
        .arg(env!("CARGO_BIN_EXE_spatecanter"))
        .args(["reprint", "p3.tape", "-d", "."])
        .current_dir(&folder)
        .output();
    // Where there is no strace, or it may not trace, nothing is seen.
    let calls = traced.and_then(|_| fs::read_to_string(folder.join("calls"))).unwrap_or_default();
    if calls.contains(".sheet\"") {
        let synced = calls.lines().take_while(|call| call.contains("fsync(")).count();
        assert_eq!(synced, 3, "{calls}");
    }
}

#[test]
fn inputs_are_read_to_their_limits() {
    let folder = folder("limits");
    fs::write(folder.join("p3.tape"), hex(P3_TAPE)).unwrap();
    assert_eq!(run(&folder, &["reprint", "p3.tape", "-d", "."]).status, 0);
    let rows: [(&[&str], i32, &str); 8] = [
        (&["sheet", "/dev/zero"], 1, "/dev/zero: no sheet: an unknown field"),
        (&["read", "/dev/zero", "-o", "a"], 1, "/dev/zero: refused 1 at 0"),
        (&["plot", "/dev/zero", "-o", "a"], 1, "/dev/zero: refused 1 at 0"),
        (&["reprint", "/dev/zero", "-d", "a"], 1, "/dev/zero: refused 1 at 0"),
        (&["list", "/dev/zero"], 1, "/dev/zero: refused 1 at 0"),
        (&["convert", "--to", "new", "/dev/zero", "-o", "a"], 1, "/dev/zero: refused 40 at 0"),
        (&["show", "/dev/zero", "-o", "a"], 1, "/dev/zero: refused 20 at 0"),
        (&["show", "p3.tape.dvi", "--widths", "/dev/zero"], 2, "/dev/zero: the width table is longer than"),
    ];
    for (words, status, refusal) in rows {
        // 400 MB of memory are enough for each.
        let output = Command::new("sh")
            .args(["-c", "ulimit -v 409600; exec \"$@\"", "sh", env!("CARGO_BIN_EXE_spatecanter")])
            .args(words)
            .current_dir(&folder)
            .output()
            .unwrap();
        let err = String::from_utf8_lossy(&output.stderr).into_owned();
        assert!(err.starts_with(&format!("spatecanter: {refusal}")), "{words:?}: {err}");
        assert_eq!(output.status.code(), Some(status), "{words:?}");
    }
    assert_eq!(names(&folder).len(), 4);
}
