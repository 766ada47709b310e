//! The ways of a tape and of an old galley.

use super::*;
use spatecanter::sample::yearbook;
use spatecanter::Machine;

const P3_LIST: &str = "x y font size char\n0 0 1 10 1\n3 0 1 10 2\n2 glyphs\n";

const P3_SHEET: &str = "page 1\nchar 0 0 2 1\nchar 32768 0 2 2\nend 3\n";

#[test]
fn the_way_of_a_tape() {
    let folder = folder("way");
    fs::write(folder.join("p3.tape"), hex(P3_TAPE)).unwrap();
    assert_eq!(run(&folder, &["read", "p3.tape"]).status, 0);
    assert_eq!(run(&folder, &["check", "p3.tape.galley"]).text(), "accepted, 2 characters\n");
    assert_eq!(run(&folder, &["list", "p3.tape.galley"]).text(), P3_LIST);
    assert_eq!(run(&folder, &["set", "p3.tape.galley", "-o", "p3.dvi"]).status, 0);
    assert_eq!(run(&folder, &["show", "p3.dvi"]).status, 0);
    assert_eq!(run(&folder, &["sheet", "p3.dvi.sheet"]).text(), P3_SHEET);
    assert_eq!(names(&folder), ["p3.dvi", "p3.dvi.sheet", "p3.tape", "p3.tape.galley"]);
    assert_eq!(fs::read(folder.join("p3.dvi")).unwrap().len(), 59);
}

#[test]
fn standard_input_and_output() {
    let folder = folder("standard");
    let galley = run_on(&folder, &["read", "-"], &hex(P3_TAPE));
    assert_eq!((galley.status, galley.out.len(), galley.err.as_str()), (0, 29, ""));
    assert_eq!(run_on(&folder, &["list", "-"], &galley.out).text(), P3_LIST);
    let dvi = run_on(&folder, &["set", "-", "-o", "-"], &galley.out);
    let sheet = run_on(&folder, &["show", "-"], &dvi.out);
    assert_eq!(run_on(&folder, &["sheet", "-"], &sheet.out).text(), P3_SHEET);
    assert_eq!(run_on(&folder, &["read", "-", "-o", "x"], &hex(P3_TAPE)).status, 0);
    assert_eq!(names(&folder), ["x"]);
}

#[test]
fn the_machine_of_a_tape() {
    let folder = folder("machine");
    fs::write(folder.join("a.tape"), hex(PAIRS_TAPE)).unwrap();
    let four = "x y font size char\n0 0 1 10 1\n0 0 2 10 2\n0 0 4 10 3\n0 0 3 10 4\n4 glyphs\n";
    let eight = "x y font size char\n0 0 2 10 1\n0 0 4 10 2\n0 0 8 10 3\n0 0 6 10 4\n4 glyphs\n";
    let calls: [(&[&str], &str); 4] = [
        (&["read", "a.tape"], eight),
        (&["read", "a.tape", "--force", "--machine", "8"], eight),
        (&["read", "a.tape", "--machine", "4", "--force"], four),
        (&["read", "--machine=4", "--force", "a.tape"], four),
    ];
    for (words, list) in calls {
        assert_eq!(run(&folder, words).status, 0);
        assert_eq!(run(&folder, &["list", "a.tape.galley"]).text(), list, "{words:?}");
    }
    let galley = run_on(&folder, &["read", "-", "--machine", "4"], &hex(PAIRS_TAPE)).out;
    assert_eq!(galley, fs::read(folder.join("a.tape.galley")).unwrap());
}

#[test]
fn the_way_of_a_tape_with_cuts() {
    let folder = folder("pages");
    fs::write(folder.join("a.tape"), hex("40 EF 52 4E 01 4B 00 40 4B 40 EF 02 49")).unwrap();
    let read = run(&folder, &["read", "a.tape"]);
    assert_eq!(read.status, 0);
    assert!(read.err.starts_with("a.tape.galley: 2 characters\n"), "{}", read.err);
    assert_eq!(run(&folder, &["check", "a.tape.galley"]).text(), "accepted, 2 characters\n");
    let list = "x y font size char\n0 0 1 10 1\ncut\ncut\n0 0 2 10 2\n2 glyphs\n";
    assert_eq!(run(&folder, &["list", "a.tape.galley"]).text(), list);
    assert_eq!(run(&folder, &["set", "a.tape.galley", "-o", "a.dvi"]).status, 0);
    assert_eq!(run(&folder, &["show", "a.dvi"]).status, 0);
    let sheet = "page 1\nchar 0 0 2 1\npage 2\npage 3\nchar 0 0 17 2\nend 5\n";
    assert_eq!(run(&folder, &["sheet", "a.dvi.sheet"]).text(), sheet);
    let summary = run(&folder, &["reprint", "a.tape", "-d", "out"]).text();
    assert!(summary.contains("\npages                                3\n"), "{summary}");
    assert_eq!(fs::read(folder.join("out/a.tape.dvi")).unwrap(), fs::read(folder.join("a.dvi")).unwrap());
    // A galley that begins with a cut is no tape.
    fs::write(folder.join("cut"), hex("06 00 00 02 00 04 00 00 00 00")).unwrap();
    let plot = run(&folder, &["plot", "cut", "-o", "cut.svg"]);
    assert_eq!((plot.status, plot.err.as_str()), (0, "cut.svg: 0 characters\n"));
}

#[test]
fn an_old_galley_there_and_back() {
    let folder = folder("convert");
    fs::write(folder.join("a.galley"), hex(OLD_P3)).unwrap();
    let there = run(&folder, &["convert", "--to", "new", "a.galley"]);
    assert_eq!((there.status, there.err.as_str()), (0, "a.galley.new.galley: 32 bytes\n"));
    assert_eq!(fs::read(folder.join("a.galley.new.galley")).unwrap(), hex(NEW_P3));
    fs::rename(folder.join("a.galley.new.galley"), folder.join("new.galley")).unwrap();
    let list = "x y font size char\n0 0 1 10 1\ncut\n3 0 1 10 2\n2 glyphs\n";
    assert_eq!(run(&folder, &["list", "new.galley"]).text(), list);
    let back = run(&folder, &["convert", "new.galley", "--to=old", "-o", "b.galley"]);
    assert_eq!((back.status, back.err.as_str()), (0, "b.galley: 28 bytes\n"));
    assert_eq!(fs::read(folder.join("b.galley")).unwrap(), hex(OLD_P3));
    assert_eq!(
        run(&folder, &["convert", "--to", "old", "new.galley"]).err,
        "new.galley.old.galley: 28 bytes\n"
    );
    assert_eq!(run_on(&folder, &["convert", "--to", "new", "-"], &hex(OLD_P3)).out, hex(NEW_P3));
    assert_eq!(run_on(&folder, &["convert", "--to", "old", "-", "-o", "-"], &hex(NEW_P3)).out, hex(OLD_P3));
    assert_eq!(names(&folder), ["a.galley", "b.galley", "new.galley", "new.galley.old.galley"]);
}

#[test]
fn a_dvi_file_read_both_ways() {
    let folder = folder("both");
    let dvi = spatecanter::write_dvi(&hex(NEW_P3)).unwrap();
    let sheet = spatecanter::read_dvi(&dvi, &[]).unwrap();
    fs::write(folder.join("a.dvi"), &dvi).unwrap();
    let plain = run(&folder, &["show", "a.dvi", "--plain", "-o", "plain"]);
    assert_eq!((plain.status, plain.err.as_str()), (0, "plain: 53 bytes\n"));
    let check = run(&folder, &["show", "--check", "a.dvi", "-o", "checked"]);
    assert_eq!((check.status, check.err.as_str()), (0, "a.dvi: both readers agree\nchecked: 53 bytes\n"));
    assert_eq!(fs::read(folder.join("plain")).unwrap(), sheet);
    assert_eq!(fs::read(folder.join("checked")).unwrap(), sheet);
    let damaged = run_on(&folder, &["show", "-", "--check"], &[&dvi[..9], &[133]].concat());
    assert_eq!(damaged.status, 1);
    for part in ["both readers agree\n", "refused 25 at 9"] {
        assert!(damaged.err.contains(part), "{}", damaged.err);
    }
}

#[test]
fn a_dvi_file_back_to_its_galley() {
    let folder = folder("back");
    fs::write(folder.join("a.galley"), hex(NEW_P3)).unwrap();
    assert_eq!(run(&folder, &["set", "a.galley", "-o", "a.dvi"]).status, 0);
    let back = run(&folder, &["back", "a.dvi"]);
    assert_eq!((back.status, back.err.as_str()), (0, "a.dvi.galley: 2 characters\n"));
    assert_eq!(fs::read(folder.join("a.dvi.galley")).unwrap(), hex(NEW_P3));
    let dvi = fs::read(folder.join("a.dvi")).unwrap();
    assert_eq!(run_on(&folder, &["back", "-", "-o", "-"], &dvi).out, hex(NEW_P3));
    // A partner's edit: character 1 of font 0 by its own command, which moves on by its width to the next target.
    let edited = hex("81 00 00 00 01 FF FF FF FF 9A 01 02 82 83 00 00 00 00 00 00 00 00 00 00 00 00 \
                      FF FF FF FF 00 00 00 0D 00 DF DF DF DF");
    fs::write(folder.join("edited.dvi"), edited).unwrap();
    fs::write(folder.join("widths"), 32_768_i32.to_be_bytes().repeat(128)).unwrap();
    assert_eq!(run(&folder, &["back", "edited.dvi", "--widths", "widths", "-o", "b"]).status, 0);
    let list = "x y font size char\n0 0 1 7 1\n3 0 1 7 2\n2 glyphs\n";
    assert_eq!(run(&folder, &["list", "b"]).text(), list);
    assert!(run(&folder, &["back", "edited.dvi"]).err.contains("refused 27 at 10"));
}

#[test]
fn a_galley_punched_and_read() {
    let folder = folder("punch");
    fs::write(folder.join("a.galley"), hex(NEW_P3)).unwrap();
    let punched = run(&folder, &["punch", "a.galley"]);
    assert_eq!((punched.status, punched.err.as_str()), (0, "a.galley.tape: 12 bytes\n"));
    let tape = hex("40 EF 4E 52 01 4B 40 EF 4E FC 02 49");
    assert_eq!(fs::read(folder.join("a.galley.tape")).unwrap(), tape);
    assert_eq!(run(&folder, &["read", "a.galley.tape", "-o", "again.galley"]).status, 0);
    assert_eq!(fs::read(folder.join("again.galley")).unwrap(), hex(NEW_P3));
    assert_eq!(run_on(&folder, &["punch", "-"], &hex(NEW_P3)).out, tape);
    assert_eq!(run(&folder, &["punch", "a.galley"]).status, 2);
    assert_eq!(run(&folder, &["punch", "a.galley", "--force"]).status, 0);
    assert_eq!(run(&folder, &["punch", "a.galley", "-o", "b.tape"]).err, "b.tape: 12 bytes\n");
    assert_eq!(names(&folder), ["a.galley", "a.galley.tape", "again.galley", "b.tape"]);
}

#[test]
fn reprint_writes_three_files_and_a_summary() {
    let folder = folder("reprint");
    let tape = yearbook(Machine::Eight, 3, 5_000);
    fs::write(folder.join("page.1.tape"), &tape).unwrap();
    let run = run(&folder, &["reprint", "page.1.tape", "-d", "out/deep"]);
    assert_eq!(run.status, 0, "{}", run.err);
    let out = folder.join("out/deep");
    assert_eq!(names(&out), ["page.1.tape.dvi", "page.1.tape.galley", "page.1.tape.sheet"]);
    let galley = spatecanter::read_tape(&tape, Machine::Eight).unwrap();
    let reprint = spatecanter::reprint(&galley, &[]).unwrap();
    assert_eq!(fs::read(out.join("page.1.tape.galley")).unwrap(), galley);
    assert_eq!(fs::read(out.join("page.1.tape.dvi")).unwrap(), reprint.dvi);
    assert_eq!(fs::read(out.join("page.1.tape.sheet")).unwrap(), reprint.sheet);
    let count = |text: &str, what: &str| -> usize {
        let line = text.lines().find(|line| line.starts_with(what)).unwrap();
        line.rsplit(' ').next().unwrap().replace(',', "").parse().unwrap()
    };
    let font = |font| galley.characters().filter(|it| it.font() == font).count();
    assert_eq!(count(&run.text(), "characters"), galley.len() / 11);
    assert_eq!(count(&run.text(), "pages"), 1);
    assert_eq!(count(&run.text(), "in font 1"), font(1));
    assert_eq!(count(&run.text(), "in font 2"), font(2));
}
