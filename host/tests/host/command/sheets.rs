//! Pictures of sheets.

use super::*;
use spatecanter::sample::{pages, yearbook};
use spatecanter::Machine;

/// The fields of a sheet, with End after them.
fn sheet(fields: &[Vec<u8>]) -> Vec<u8> {
    let end = [&[2, 0, 4][..], &(fields.len() as u32).to_be_bytes()].concat();
    [fields.concat(), end].concat()
}

fn field(tag: u8, bytes: &[u8], numbers: &[i32], last: &[u8]) -> Vec<u8> {
    let body = [bytes, &numbers.iter().flat_map(|it| it.to_be_bytes()).collect::<Vec<u8>>(), last].concat();
    [&[tag, 0, body.len() as u8], &body[..]].concat()
}

fn page(number: i32) -> Vec<u8> {
    field(5, &[], &[number], &[])
}

fn character(x: i32, y: i32, font: i32, code: u8) -> Vec<u8> {
    field(3, &[], &[x, y, font], &[code])
}

fn rule(x: i32, y: i32, height: i32, width: i32) -> Vec<u8> {
    field(4, &[1], &[x, y, height, width], &[])
}

/// The picture of a file, with further words, and what is told of it.
fn plot(folder: &Path, words: &[&str]) -> (String, String) {
    let run = run(folder, &[&["plot", "-o", "-"], words].concat());
    assert_eq!(run.status, 0, "{words:?}: {}", run.err);
    (run.text(), run.err)
}

#[test]
fn the_sheet_of_a_galley_has_its_picture() {
    let folder = folder("sheet_of_a_galley");
    for tape in [yearbook(Machine::Eight, 4, 6_000), pages(4, 6)] {
        fs::write(folder.join("a.tape"), tape).unwrap();
        assert_eq!(run(&folder, &["reprint", "a.tape", "-d", ".", "--force"]).status, 0);
        for words in [&["--machine=8"][..], &["--machine=8", "--page=1", "--from=30", "--to", "5in"]] {
            let (of_galley, _) = plot(&folder, &[&["a.tape.galley"], words].concat());
            let sheet = fs::read(folder.join("a.tape.sheet")).unwrap();
            // A name of the same length.
            fs::write(folder.join("a.tape..sheet"), sheet).unwrap();
            let (of_sheet, told) = plot(&folder, &[&["a.tape..sheet"], words].concat());
            let renamed = of_sheet.replace("a.tape..sheet", "a.tape.galley");
            assert!(renamed.replace(">Sheet in rsu, 8-font", ">8-font") == of_galley, "{words:?}");
            assert_eq!(told, "");
        }
    }
    let (picture, _) = plot(&folder, &["a.tape.sheet"]);
    assert!(picture.contains(">Sheet in rsu. ") && picture.contains(">font 1: "));
}

#[test]
fn a_sheet_of_dots() {
    let folder = folder("sheet_of_dots");
    let fields = [
        page(1),
        character(0, 40, 0, b'A'),
        character(100, 40, 1, b' '),
        character(200, 40, 3, b'B'),
        rule(0, 50, 2, 300),
        rule(0, 50, 0, 300),
        page(4),
        character(-120, -1, 1, b'C'),
        character(1_600, 0, 0, b'D'),
    ];
    fs::write(folder.join("a.sheet"), sheet(&fields)).unwrap();
    let (picture, told) = plot(&folder, &["a.sheet", "--dots", "200"]);
    assert_eq!(told, "");
    for part in [
        "<title>a.sheet: 5 characters, 2 pages</title>",
        ">Sheet, 200 dots to an inch. Blanks, with smaller marks: 1. Rules: 1. Overstruck, framed: 0. ",
        ">font 0: 2<",
        ">font 1: 2<",
        ">other fonts: 1<",
        ">page 1<",
        ">page 2, numbered 4<",
        // 40, 100, 200 and 300 dots are 86, 216, 432 and 648 units.
        "\"M0 86h16l0-32h-16z\"",
        "\"M216 86h3l1-8h-3z\"",
        "\"M432 86h16l0-32h-16z\"",
        "<path fill=\"black\" d=\"M0 108H648V104H0z\"/>",
        // To half inches: -120 dots is beyond one, and 1,600 dots is 8 inches.
        "<rect x=\"-432\" y=\"-80\" width=\"4104\" ",
        "<rect x=\"-432\" y=\"-296\" width=\"4104\" ",
    ] {
        assert!(picture.contains(part), "{part}: {picture}");
    }
    let (named, _) = plot(&folder, &["a.sheet", "--dots=200", "--fonts=3=heads", "--page=1"]);
    assert!(named.contains(">font 3 (heads): 1<") && named.contains(", page 1 of 2</title>"));
}

#[test]
fn places_in_dots_give_a_hint() {
    let folder = folder("sheet_hint");
    let rows = [(0, 0, false), (0, 1, true), (10_922, 0, true), (-10_923, 0, false), (5, 10_923, false)];
    for (x, y, is_hinted) in rows {
        fs::write(folder.join("a.sheet"), sheet(&[page(1), character(x, y, 0, 65)])).unwrap();
        let (_, told) = plot(&folder, &["a.sheet"]);
        assert_eq!(told.contains("use --dots N"), is_hinted, "{x} {y}: {told}");
        assert_eq!(plot(&folder, &["a.sheet", "--dots=180"]).1, "");
    }
}

#[test]
fn the_farthest_places() {
    let folder = folder("sheet_far");
    let ends = [i32::MIN, i32::MAX];
    let mut fields = vec![page(i32::MIN)];
    fields.extend(ends.map(|x| ends.map(|y| character(x, y, x, 0))).concat());
    fields.extend(ends.map(|x| ends.map(|y| rule(x, y, i32::MAX, i32::MAX))).concat());
    fs::write(folder.join("a.sheet"), sheet(&fields)).unwrap();
    for words in [&["a.sheet"][..], &["a.sheet", "--dots=1"], &["a.sheet", "--dots=10000"]] {
        let (picture, _) = plot(&folder, words);
        assert!(picture.contains(">page 1, numbered -2147483648<"));
        assert!(picture.len() < 5_000_000 && picture.starts_with("<svg xmlns="));
    }
}

#[test]
fn bad_sheets_and_wrong_dots() {
    let folder = folder("bad_sheets");
    let good = sheet(&[page(1), character(0, 40, 0, b'A')]);
    fs::write(folder.join("a.sheet"), &good).unwrap();
    fs::write(folder.join("cut.sheet"), &good[..good.len() - 8]).unwrap();
    fs::write(folder.join("more.sheet"), [&good[..], &[0]].concat()).unwrap();
    fs::write(folder.join("a.tape"), hex(P3_TAPE)).unwrap();
    let rows: [(&[&str], i32, &str); 8] = [
        (&["cut.sheet"], 1, "cut.sheet: no sheet: an unknown field, or one cut short, at 7\n"),
        (&["more.sheet"], 1, "more.sheet: no sheet: an End that is not the last field at 23\n"),
        (&["a.tape", "--dots", "200"], 2, "--dots is for sheets, and a.tape is none\n"),
        (&["a.sheet", "--dots", "0"], 2, "--dots 0 is no measure: it is the number of dots to an inch, "),
        (&["a.sheet", "--dots", "10001"], 2, "--dots 10001 is no measure"),
        (&["a.sheet", "--dots=200", "--machine=8"], 2, "--dots is for sheets of XGP files, "),
        (&["a.sheet", "--dots=200", "--fonts=4"], 2, "--fonts 4 names no fonts: it is some of 0 to 3 "),
        (&["a.sheet", "--fonts=0"], 2, "--fonts 0 names no fonts: it is some of 1 to 8 "),
    ];
    for (words, status, what) in rows {
        let run = run(&folder, &[&["plot"], words].concat());
        assert_eq!(run.status, status, "{words:?}: {}", run.err);
        assert!(run.err.starts_with(&format!("spatecanter: {what}")), "{words:?}: {}", run.err);
    }
    assert_eq!(names(&folder), ["a.sheet", "a.tape", "cut.sheet", "more.sheet"]);
}
