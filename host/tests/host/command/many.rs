//! Many inputs at once: files and folders, lines, summaries and exit statuses.

use super::*;
use spatecanter::sample::yearbook;
use spatecanter::{Machine, Refusal};
use std::collections::BTreeMap;
use std::os::unix::fs::symlink;

/// A folder with folders: two good tapes, two that are refused, one that is hidden, and a text.
fn shelf(name: &str) -> PathBuf {
    let folder = folder(name);
    fs::create_dir_all(folder.join("shelf/b/c")).unwrap();
    fs::write(folder.join("shelf/a.tape"), hex(P3_TAPE)).unwrap();
    fs::write(folder.join("shelf/b/c/d.tape"), hex("40 EF 52 4E 01 60 4B 40 7E 4C 7E 49")).unwrap();
    fs::write(folder.join("shelf/b/e.tape"), hex("40 EF 52 4E 01")).unwrap();
    fs::write(folder.join("shelf/notes"), hex("EF")).unwrap();
    fs::write(folder.join("shelf/.hidden.tape"), hex("EF")).unwrap();
    folder
}

const LINES: &str = "\
shelf/a.tape: accepted, 2 characters, 1 page
shelf/b/c/d.tape: accepted, 1 character, 2 pages
shelf/b/e.tape: refused 9 at 5: the tape ends without stop
";

const NOTES: &str = "shelf/notes: refused 3 at 0: a code before the first initialize\n";

/// All files below a folder, hidden ones too, with what they hold; nothing for a link that leads nowhere.
pub fn files(folder: &Path) -> BTreeMap<String, Vec<u8>> {
    let mut files = BTreeMap::new();
    let Ok(entries) = fs::read_dir(folder) else {
        return files;
    };
    for entry in entries {
        let (path, name) = entry.map(|it| (it.path(), it.file_name().into_string().unwrap())).unwrap();
        if path.is_dir() {
            files.extend(
                self::files(&path).into_iter().map(|(below, held)| (format!("{name}/{below}"), held)),
            );
        } else {
            files.insert(name, fs::read(path).unwrap_or_default());
        }
    }
    files
}

/// What reprint makes of a tape of the 8-font machine, with the outputs' names.
pub fn outputs_of(name: &str, tape: &[u8]) -> Result<[(String, Vec<u8>); 3], Refusal> {
    let galley = spatecanter::read_tape(tape, Machine::Eight)?;
    let made = spatecanter::reprint(&galley, &[])?;
    let (dvi, sheet) = (made.dvi.into_bytes(), made.sheet.into_bytes());
    let outputs = [("galley", galley.into_bytes()), ("dvi", dvi), ("sheet", sheet)];
    Ok(outputs.map(|(ending, bytes)| (format!("{name}.{ending}"), bytes)))
}

fn file_names(folder: &Path) -> Vec<String> {
    files(folder).into_keys().collect()
}

#[test]
fn a_folder_is_mirrored() {
    let folder = shelf("many_mirrored");
    let all = run(&folder, &["reprint", "shelf", "-d", "out"]);
    assert_eq!((all.status, all.err.as_str()), (1, ""));
    assert_eq!(all.text(), format!("{LINES}{NOTES}4 files: 2 accepted, 2 refused\n"));
    let written =
        ["a.tape", "b/c/d.tape"].map(|name| ["dvi", "galley", "sheet"].map(|end| format!("{name}.{end}")));
    assert_eq!(file_names(&folder.join("out")), written.concat());
    let some = run(&folder, &["read", "shelf", "--ending", ".tape", "-d", "new/out"]);
    assert_eq!((some.status, some.text()), (1, format!("{LINES}3 files: 2 accepted, 1 refused\n")));
    assert_eq!(file_names(&folder.join("new/out")), ["a.tape.galley", "b/c/d.tape.galley"]);
    let one = run(&folder, &["read", "shelf/b/c", "-d", "one"]);
    assert_eq!(
        (one.status, one.text().as_str()),
        (0, "shelf/b/c/d.tape: accepted, 1 character, 2 pages\n1 file: 1 accepted, 0 refused\n")
    );
    assert_eq!(file_names(&folder.join("one")), ["d.tape.galley"]);
    // Without -d the outputs of files stand beside them.
    let beside = run(&folder, &["read", "shelf/a.tape", "shelf/b/c/d.tape"]);
    assert_eq!(beside.status, 0);
    assert!(folder.join("shelf/a.tape.galley").exists() && folder.join("shelf/b/c/d.tape.galley").exists());
}

/// Each command gives for each of many inputs what it gives for one.
#[test]
fn each_command_takes_many() {
    let folder = shelf("many_commands");
    let old = hex(OLD_P3);
    fs::create_dir(folder.join("old")).unwrap();
    for name in ["old/x.galley", "old/y.galley"] {
        fs::write(folder.join(name), &old).unwrap();
    }
    assert_eq!(run(&folder, &["reprint", "shelf", "-d", "made"]).status, 1);
    fs::create_dir(folder.join("drawer")).unwrap();
    for (name, text) in [("drawer/x.xgp", "AB\r\nC"), ("drawer/y.xgp", "D\x0cE")] {
        fs::write(folder.join(name), text).unwrap();
    }
    fs::write(folder.join("widths"), [0; 4 * 512]).unwrap();
    let calls: [(&[&str], &str, &str, &str); 10] = [
        (&["xgp", "--spacing", "20", "--widths", "widths"], "drawer", ".xgp", "sheet"),
        (&["read"], "shelf", ".tape", "galley"),
        (&["reprint"], "shelf", ".tape", "sheet"),
        (&["plot"], "shelf", ".tape", "svg"),
        (&["set"], "made", ".galley", "dvi"),
        (&["punch"], "made", ".galley", "tape"),
        (&["convert", "--to", "old"], "made", ".galley", "old.galley"),
        (&["show"], "made", ".dvi", "sheet"),
        (&["back", "--widths", "/dev/null"], "made", ".dvi", "galley"),
        (&["convert", "--to", "new"], "old", ".galley", "new.galley"),
    ];
    for (number, (words, inputs, ending, made)) in calls.into_iter().enumerate() {
        let out = format!("out{number}");
        let many = run(&folder, &[words, &[inputs, "--ending", ending, "-d", &out]].concat());
        assert_eq!(many.status, i32::from(inputs == "shelf"), "{words:?}: {}", many.err);
        let names: Vec<String> =
            file_names(&folder.join(inputs)).into_iter().filter(|name| name.ends_with(ending)).collect();
        for name in names.iter().filter(|name| !name.contains("e.tape") && !name.contains("hidden")) {
            let input = format!("{inputs}/{name}");
            assert_eq!(
                run(&folder, &[words, &[&input, "-d", "one"]].concat()).status,
                0,
                "{words:?} {input}"
            );
            let base = Path::new(name).file_name().unwrap().to_str().unwrap();
            let alone = fs::read(folder.join(format!("one/{base}.{made}"))).unwrap();
            let among_many = fs::read(folder.join(format!("{out}/{name}.{made}"))).unwrap();
            assert!(alone == among_many, "{words:?} {name}");
        }
        fs::remove_dir_all(folder.join("one")).unwrap();
    }
    let checked = run(&folder, &["check", "made", "--ending", ".galley", "-j", "2"]);
    let lines = "made/a.tape.galley: accepted, 2 characters\nmade/b/c/d.tape.galley: accepted, 1 character\n";
    assert_eq!((checked.status, checked.text()), (0, format!("{lines}2 files: 2 accepted, 0 refused\n")));
}

#[test]
fn two_inputs_with_one_output_are_refused_before_anything_is_written() {
    let folder = shelf("many_clashes");
    fs::write(folder.join("shelf/b/a.tape"), hex(P3_TAPE)).unwrap();
    symlink("a.tape", folder.join("shelf/link.tape")).unwrap();
    symlink("a.tape.galley", folder.join("shelf/link.tape.galley")).unwrap();
    symlink("shelf", folder.join("same")).unwrap();
    let before = files(&folder);
    let calls: [(&[&str], &str); 6] = [
        (
            &["read", "shelf/a.tape", "shelf/b/a.tape", "-d", "out"],
            "would both be written as out/a.tape.galley",
        ),
        (&["read", "shelf", "shelf/b", "-d", "out"], "shelf/a.tape and shelf/b/a.tape would both"),
        (&["read", "shelf/a.tape", "shelf/../shelf/a.tape"], "would both be written as"),
        (&["read", "same/a.tape", "shelf/a.tape"], "would both be written as"),
        (&["read", "shelf/a.tape", "shelf/link.tape"], "shelf/link.tape would both be written as"),
        (&["set", "shelf/a.tape", "shelf/a.tape", "--dry-run"], "would both be written as"),
    ];
    for (words, what) in calls {
        let refused = run(&folder, words);
        assert_eq!((refused.status, refused.text().as_str()), (2, ""), "{words:?}");
        assert!(refused.err.contains(what), "{words:?}: {}", refused.err);
        assert!(files(&folder) == before && !folder.join("out").exists());
    }
}

/// No input is written over, whatever is forced.
#[test]
fn no_output_is_an_input() {
    let folder = shelf("many_inputs");
    fs::write(folder.join("shelf/a.tape.galley"), hex(P3_TAPE)).unwrap();
    let before = files(&folder);
    for words in [
        &["read", "shelf/a.tape", "shelf/a.tape.galley"][..],
        &["read", "shelf", "-d", "shelf", "--force"],
        &[
            "show",
            "shelf/a.tape",
            "shelf/notes",
            "--widths",
            "shelf/out/notes.sheet",
            "-d",
            "shelf/out",
            "--force",
        ],
    ] {
        fs::create_dir_all(folder.join("shelf/out")).unwrap();
        fs::write(folder.join("shelf/out/notes.sheet"), "").unwrap();
        let refused = run(&folder, words);
        assert_eq!((refused.status, refused.text().as_str()), (2, ""), "{words:?}");
        assert!(refused.err.contains("is an input, and is not written over"), "{}", refused.err);
        fs::remove_dir_all(folder.join("shelf/out")).unwrap();
        assert!(files(&folder) == before);
    }
}

#[test]
fn a_dry_run_writes_nothing() {
    let folder = shelf("many_dry");
    let before = files(&folder);
    let dry = run(&folder, &["reprint", "shelf", "-d", "out", "--dry-run"]);
    let lines = format!("{LINES}{NOTES}4 files: 2 accepted, 2 refused; nothing is written (--dry-run)\n");
    assert_eq!((dry.status, dry.text()), (1, lines));
    let good = "shelf/a.tape: accepted, 2 characters, 1 page; nothing is written (--dry-run)\n";
    for words in [&["-o", "out"][..], &["-d", "out"], &["-o", "-"], &["--pieces", "3"], &["-j", "2"]] {
        let dry = run(&folder, &[&["read", "shelf/a.tape", "--dry-run"], words].concat());
        assert_eq!((dry.status, dry.text().as_str(), dry.err.as_str()), (0, good, ""));
    }
    let dry = run_on(&folder, &["read", "-", "--dry-run"], &hex(P3_TAPE));
    assert_eq!(dry.text(), good.replace("shelf/a.tape", "standard input"));
    let refused = run(&folder, &["read", "shelf/b/e.tape", "--dry-run"]);
    assert_eq!((refused.status, refused.text().as_str()), (1, ""));
    assert!(refused.err.starts_with("spatecanter: shelf/b/e.tape: refused 9 at 5: "), "{}", refused.err);
    assert!(files(&folder) == before && !folder.join("out").exists());
}

/// One that cannot be read, or whose output is there, is 2; the others are done all the same.
#[test]
fn what_fails_is_told_and_the_others_are_done() {
    let folder = shelf("many_failures");
    fs::create_dir(folder.join("out")).unwrap();
    fs::write(folder.join("out/a.tape.galley"), "as before").unwrap();
    symlink("nowhere", folder.join("shelf/gone.tape")).unwrap();
    let words = ["read", "missing.tape", "shelf", "--ending", ".tape", "-d", "out"];
    let some = run(&folder, &words);
    let lines = "\
missing.tape: cannot read missing.tape: No such file or directory (os error 2)
shelf/a.tape: out/a.tape.galley is there already: --force writes over it
shelf/b/c/d.tape: accepted, 1 character, 2 pages
shelf/b/e.tape: refused 9 at 5: the tape ends without stop
shelf/gone.tape: cannot read shelf/gone.tape: No such file or directory (os error 2)
5 files: 1 accepted, 1 refused, 3 not read or not written
";
    assert_eq!((some.status, some.text().as_str(), some.err.as_str()), (2, lines, ""));
    assert_eq!(file_names(&folder.join("out")), ["a.tape.galley", "b/c/d.tape.galley"]);
    assert_eq!(fs::read(folder.join("out/a.tape.galley")).unwrap(), b"as before");
    let forced = run(&folder, &["read", "shelf/a.tape", "shelf/b", "-d", "out", "--force"]);
    assert_eq!(forced.status, 1, "{}", forced.text());
    assert_eq!(fs::read(folder.join("out/a.tape.galley")).unwrap().len(), 29);
}

/// What is no file, what is hidden and the folder of the outputs are left out; names with a line end take one line.
#[test]
fn a_folder_has_other_things() {
    let folder = shelf("many_things");
    assert!(Command::new("mkfifo").arg(folder.join("shelf/pipe.tape")).status().unwrap().success());
    symlink("b", folder.join("shelf/linked")).unwrap();
    fs::write(folder.join("shelf/two\nlines.tape"), hex("EF")).unwrap();
    for _ in 0..2 {
        let run = run(&folder, &["read", "shelf", "-d", "shelf/out", "--force"]);
        let broken = "shelf/two?lines.tape: refused 3 at 0: a code before the first initialize\n";
        let lines = format!("{LINES}{NOTES}{broken}5 files: 2 accepted, 3 refused\n");
        assert_eq!((run.status, run.text()), (1, lines), "{}", run.err);
    }
}

#[test]
fn wrong_usage_of_many_is_2() {
    let folder = shelf("many_usage");
    fs::create_dir(folder.join("empty")).unwrap();
    let before = files(&folder);
    let calls: [(&[&str], &str); 15] = [
        (&["read", "shelf"], "cannot read shelf: it is a folder, and no -d names one"),
        (&["read", "shelf", "-d", "out", "-j", "0"], "-j 0 is no number of threads"),
        (&["read", "shelf", "-d", "out", "-j", "many"], "-j many is no number of threads"),
        (&["read", "shelf", "-d", "out", "-o", "a"], "-o is for one input"),
        (&["read", "shelf/a.tape", "-d", "out", "-o", "a"], "-o and -d do not go together"),
        (&["read", "shelf/a.tape", "-", "-d", "out"], "standard input is not one of many"),
        (&["read", "shelf", "-d", "out", "--pieces", "7"], "--pieces is for one input"),
        (&["read", "empty", "-d", "out"], "there is no file in empty"),
        (
            &["read", "shelf", "-d", "out", "--ending", ".tap"],
            "there is no file with the ending .tap in shelf",
        ),
        (&["check", "shelf", "--dry-run"], "--dry-run is no option of check"),
        (&["plot", "shelf", "-d", "out", "--split"], "--split is for one input"),
        (&["plot", "shelf/a.tape", "--split", "--dry-run"], "--split and --dry-run do not go together"),
        (&["reprint", "shelf"], "reprint needs a folder"),
        (&["show", "shelf", "-d", "out", "--widths", "missing"], "cannot read missing"),
        (&["convert", "shelf", "-d", "out"], "convert needs --to"),
    ];
    for (words, what) in calls {
        let wrong = run(&folder, words);
        assert_eq!((wrong.status, wrong.text().as_str()), (2, ""), "{words:?}");
        assert!(wrong.err.contains(what), "{words:?}: {}", wrong.err);
    }
    assert!(files(&folder) == before && !folder.join("out").exists());
}

/// Tapes without a tilt code are told apart, and the hint is given once.
#[test]
fn one_hint_for_many_tapes() {
    let folder = folder("many_hints");
    for name in ["a.tape", "b.tape"] {
        fs::write(folder.join(name), hex(PAIRS_TAPE)).unwrap();
    }
    fs::write(folder.join("c.tape"), hex(P3_TAPE)).unwrap();
    let hinted = run(&folder, &["read", "a.tape", "b.tape", "c.tape", "-d", "out"]);
    assert!(
        hinted.text().starts_with("a.tape: accepted, 4 characters, 1 page, no tilt code\n"),
        "{}",
        hinted.text()
    );
    assert!(hinted.err.starts_with("spatecanter: 2 tapes have no tilt code (4E, 4F)."), "{}", hinted.err);
    let named = run(&folder, &["read", "a.tape", "b.tape", "-d", "out", "--force", "--machine", "4"]);
    assert_eq!((named.status, named.err.as_str()), (0, ""));
}

/// 1,000 tapes of the generator, 100 of them damaged: what is written is what the library gives for each tape by
/// itself, and the lines come in the same order on any number of threads.
#[test]
fn a_thousand_tapes() {
    let folder = folder("many_thousand");
    let mut tapes = BTreeMap::new();
    for number in 0..1_000 {
        let mut tape = yearbook(Machine::Eight, number, 2_000);
        if number % 10 == 3 {
            tape[1_000] = 0xFF;
        }
        let name = format!("{:02}/{number:03}.tape", number / 50);
        fs::create_dir_all(folder.join("cabinet").join(&name[..2])).unwrap();
        fs::write(folder.join("cabinet").join(&name), &tape).unwrap();
        tapes.insert(name, tape);
    }
    let words = ["reprint", "cabinet", "--machine", "8", "-d", "out", "-j"];
    let all = run(&folder, &[&words[..], &["8"]].concat());
    assert_eq!((all.status, all.err.as_str()), (1, ""));
    let mut expected = BTreeMap::new();
    let mut lines = String::new();
    for (name, tape) in &tapes {
        match outputs_of(name, tape) {
            Ok(outputs) => {
                let count = spatecanter::check_galley(&outputs[0].1).unwrap();
                expected.extend(outputs);
                lines.push_str(&format!("cabinet/{name}: accepted, {count} characters, 1 page\n"));
            }
            Err(refusal) => lines.push_str(&format!("cabinet/{name}: {refusal}\n")),
        }
    }
    lines.push_str("1,000 files: 900 accepted, 100 refused\n");
    assert!(all.text() == lines, "{}", all.text());
    assert!(files(&folder.join("out")) == expected);
    for threads in ["1", "3", "1024"] {
        let dry = run(&folder, &[&words[..], &[threads, "--dry-run", "--force"]].concat());
        assert!(dry.text().starts_with(lines.trim_end()) && dry.status == 1);
    }
}
