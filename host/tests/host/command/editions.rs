//! Both editions of DVI.

use super::*;
use spatecanter::sample::{chart, yearbook};
use spatecanter::Machine;

#[test]
fn a_galley_set_in_either_edition_and_back() {
    let folder = folder("editions");
    fs::write(folder.join("a.galley"), hex(NEW_P3)).unwrap();
    for (edition, length) in [("1980", 70), ("2", 196)] {
        let set = run(&folder, &["set", "a.galley", "--edition", edition, "-o", "a.dvi", "--force"]);
        assert_eq!((set.status, set.err.as_str()), (0, format!("a.dvi: {length} bytes\n").as_str()));
        let back = run(&folder, &["back", "a.dvi", "--force"]);
        assert_eq!((back.status, back.err.as_str()), (0, "a.dvi.galley: 2 characters\n"));
        assert_eq!(fs::read(folder.join("a.dvi.galley")).unwrap(), hex(NEW_P3));
    }
    let dvi = fs::read(folder.join("a.dvi")).unwrap();
    assert!(dvi == spatecanter::write_dvi2(&hex(NEW_P3)).unwrap());
    assert_eq!(run_on(&folder, &["back", "-", "-o", "-"], &dvi).out, hex(NEW_P3));
    let usual = run_on(&folder, &["set", "-"], &hex(NEW_P3)).out;
    assert!(usual == spatecanter::write_dvi(&hex(NEW_P3)).unwrap());
}

#[test]
fn widths_are_not_for_the_second_edition() {
    let folder = folder("no_widths");
    fs::write(folder.join("a.dvi"), spatecanter::write_dvi2(&hex(NEW_P3)).unwrap()).unwrap();
    fs::write(folder.join("widths"), [0; 512]).unwrap();
    let back = run(&folder, &["back", "a.dvi", "--widths", "widths"]);
    assert_eq!(back.status, 2);
    assert!(back.err.contains("a.dvi is of the second edition, which needs no --widths"), "{}", back.err);
    let show = run(&folder, &["show", "a.dvi"]);
    assert_eq!(show.status, 1);
    for part in ["refused 21 at 0", "a file of the second edition begins so: see spatecanter back"] {
        assert!(show.err.contains(part), "{}", show.err);
    }
    assert_eq!(names(&folder), ["a.dvi", "widths"]);
}

/// The summary is the same in both editions; columns that are too long for 1980 are not for the second.
#[test]
fn a_tape_reprinted_in_either_edition() {
    let folder = folder("reprint_editions");
    let tape = yearbook(Machine::Eight, 3, 5_000);
    fs::write(folder.join("a.tape"), &tape).unwrap();
    let galley = spatecanter::read_tape(&tape, Machine::Eight).unwrap();
    let first = run(&folder, &["reprint", "a.tape", "-d", "first"]);
    let second = run(&folder, &["reprint", "a.tape", "--edition=2", "-d", "second"]);
    assert_eq!((first.status, second.status), (0, 0), "{}", second.err);
    assert_eq!(first.text(), second.text());
    assert_eq!(names(&folder.join("second")), ["a.tape.dvi", "a.tape.galley"]);
    assert!(fs::read(folder.join("second/a.tape.galley")).unwrap() == galley);
    let dvi = fs::read(folder.join("second/a.tape.dvi")).unwrap();
    assert!(spatecanter::read_dvi2(&dvi).unwrap() == galley);

    fs::write(folder.join("chart.tape"), chart(1980, 70_000)).unwrap();
    assert_eq!(run(&folder, &["reprint", "chart.tape", "-d", "out"]).status, 1);
    assert!(!folder.join("out").exists());
    assert_eq!(run(&folder, &["reprint", "chart.tape", "-d", "out", "--edition", "2"]).status, 0);
    assert_eq!(run(&folder, &["reprint", "chart.tape", "-d", "out", "--edition", "2"]).status, 2);
}

#[test]
fn other_editions_are_wrong_usage() {
    let folder = folder("no_edition");
    fs::write(folder.join("a.galley"), hex(NEW_P3)).unwrap();
    for edition in ["1", "3", "", "second", "02"] {
        let set = run(&folder, &["set", "a.galley", "--edition", edition]);
        assert_eq!(set.status, 2);
        let told = format!("--edition {edition} is no edition of DVI: it is 1980 or 2");
        assert!(set.err.contains(&told), "{}", set.err);
    }
    assert_eq!(run(&folder, &["back", "a.galley", "--edition", "2"]).status, 2);
    assert_eq!(names(&folder), ["a.galley"]);
}

/// The file of P3 with its cut, and some other bytes from a place on: what is said of it.
#[test]
fn a_file_of_the_second_edition_that_set_does_not_make_says_why() {
    let folder = folder("not_ours");
    let dvi = spatecanter::write_dvi2(&hex(NEW_P3)).unwrap();
    let rows: [(usize, &str, &str, &str); 24] = [
        (1, "03", "refused 46 at 0", "command 247, pre\n  expected: pre as F7 02 00 03 E0 30 00 00 01 B0"),
        (15, "", "refused 46 at 15", "the end of the file\n  expected: bop as 8B 00 00 00 01"),
        (16, "00 00 00 02", "refused 46 at 15", "command 139, bop\n  expected: bop as 8B 00 00 00 01"),
        (60, "8F 03", "refused 46 at 60", "right1\n  expected: a font, after its definition if it is new"),
        (
            60,
            "AD",
            "refused 46 at 60",
            "fnt_num_2\n  expected: the definition of font 2 before it, fnt_def1 as F3 02",
        ),
        (
            60,
            "F3 02 01",
            "refused 46 at 60",
            "fnt_def1\n  expected: fnt_def1 as F3 02 00 00 00 00 00 00 00 3C",
        ),
        (60, "F3 78", "refused 46 at 60", "fnt_def1\n  expected: a font, after its definition if it is new"),
        (
            61,
            "",
            "refused 46 at 61",
            "the end of the file\n  expected: the rest of command 243, fnt_def1 at 60",
        ),
        (80, "AE", "refused 46 at 80", "fnt_num_3\n  expected: fnt_num_2 as AD"),
        (80, "", "refused 46 at 80", "the end of the file\n  expected: fnt_num_2 as AD"),
        (
            81,
            "8F FF",
            "refused 46 at 81",
            "right1\n  expected: the shortest move right from 0 to another x, 0 to 3,239",
        ),
        (
            81,
            "9D 01",
            "refused 46 at 81",
            "down1\n  expected: the shortest move down from 0 to three times another",
        ),
        (81, "8C", "refused 46 at 81", "eop\n  expected: a move or put1 (85)"),
        (81, "85 6D", "refused 46 at 81", "put1\n  expected: a character of 1 to 108"),
        (81, "8F 03 AD", "refused 46 at 83", "fnt_num_2\n  expected: a move down or put1 (85)"),
        (81, "9D 03 9D 03", "refused 46 at 83", "down1\n  expected: put1 (85)"),
        (83, "AD", "refused 46 at 83", "fnt_num_2\n  expected: no font, since font 2 is in force"),
        (83, "EB 03", "refused 46 at 83", "fnt1\n  expected: a font of 0 to 119, in the shortest form"),
        (83, "00", "refused 46 at 83", "set_char_0\n  expected: a font, a move, put1 (85) or eop (8C)"),
        (
            83,
            "",
            "refused 46 at 83",
            "the end of the file\n  expected: a font, a move, put1 (85) or eop (8C)",
        ),
        (84, "00", "refused 46 at 84", "set_char_0\n  expected: bop (8B) of the next page, or post (F8)"),
        (84, "8B 00 00 00 03", "refused 46 at 84", "bop\n  expected: bop as 8B 00 00 00 02"),
        (84, "F8 01", "refused 46 at 84", "post\n  expected: post as F8 00 00 00 0F"),
        (196, "DF", "refused 46 at 196", "fnt_num_52\n  expected: the end of the file"),
    ];
    for (place, other, refusal, more) in rows {
        fs::write(folder.join("a.dvi"), [&dvi[..place], &hex(other)].concat()).unwrap();
        let run = run(&folder, &["back", "a.dvi"]);
        assert_eq!((run.status, run.text().as_str()), (1, ""), "{place} {other}");
        assert!(run.err.contains(refusal) && run.err.contains(more), "{place} {other}: {}", run.err);
        assert_eq!(names(&folder), ["a.dvi"]);
    }
}

/// From -1 to a single size a move right has to come.
#[test]
fn a_place_that_the_font_does_not_have() {
    let folder = folder("not_valid");
    let galley = hex("07 00 08 FF FF 00 00 00 00 09 01 02 00 04 00 00 00 01");
    let dvi = spatecanter::write_dvi2(&galley).unwrap();
    let other =
        spatecanter::write_dvi2(&hex("07 00 08 00 00 00 00 00 00 02 01 02 00 04 00 00 00 01")).unwrap();
    fs::write(folder.join("a.dvi"), [&dvi[..85], &other[60..]].concat()).unwrap();
    let run = run(&folder, &["back", "a.dvi"]);
    assert!(run.err.contains("refused 46 at 106"), "{}", run.err);
    let expected = "expected: a move right, since x is -1, and has to be 0 to 3,239 in a single size";
    assert!(run.err.contains(expected), "{}", run.err);
}

#[test]
fn a_file_over_the_limit_of_the_second_edition() {
    let folder = folder("long_edition2");
    let mut dvi = vec![0; spatecanter::DVI2_LIMIT + 5];
    dvi[0] = 247;
    fs::write(folder.join("long.dvi"), dvi).unwrap();
    let run = run(&folder, &["back", "long.dvi"]);
    assert_eq!(run.status, 1);
    assert!(run.err.contains("long.dvi: refused 20 at 0"), "{}", run.err);
}
