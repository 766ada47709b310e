//! Two tapes or galleys compared.

use super::*;

/// Two pages: characters 1 and 2 in font 1, then 3 in font 1.
const TAPE: &str = "40 EF 52 4E 01 FC 02 4B 40 EF 4E 03 49";

fn compare(folder: &Path, other: &str, words: &[&str]) -> (i32, String) {
    fs::write(folder.join("a"), hex(TAPE)).unwrap();
    fs::write(folder.join("b"), hex(other)).unwrap();
    let run = run(folder, &[&["compare", "a", "b", "--machine", "8"], words].concat());
    assert_eq!(run.err, "");
    (run.status, run.text())
}

#[test]
fn codes_in_another_order_are_the_same() {
    let folder = folder("compare_same");
    for other in [
        TAPE,
        // Settings, an escape of 3 and a lead of 0, 00 anywhere.
        "40 EF 4E 52 01 7F FC 02 4B 00 40 4E EF 03 49 00",
    ] {
        assert_eq!(compare(&folder, other, &[]), (0, "the same: 3 characters, 2 pages\n".into()));
    }
    assert_eq!(run(&folder, &["read", "a", "-o", "a.galley"]).status, 0);
    let with_galley = run(&folder, &["compare", "a.galley", "b"]);
    assert_eq!((with_galley.status, with_galley.text()), (0, "the same: 3 characters, 2 pages\n".into()));
    let from_input = run_on(&folder, &["compare", "-", "a.galley"], &hex(TAPE));
    assert_eq!((from_input.status, from_input.err.as_str()), (0, ""));
}

#[test]
fn a_font_alone() {
    let folder = folder("compare_font");
    let told = "\
page 1: 2 characters and 2, 1 in font alone; first at character 2
  a: x 3, height 0, font 1, 10 points, character 2
  b: x 3, height 0, font 2, 10 points, character 2
page 2: 1 character and 1, 1 in font alone; first at character 1
  a: x 0, height 0, font 1, 10 points, character 3
  b: x 0, height 0, font 1, 8 points, character 3
pages that differ: 2 of 2
characters that differ in font alone: 2
";
    let other = "40 EF 52 4E 01 FC 4F 02 4B 40 EF 4E 51 03 49";
    assert_eq!(compare(&folder, other, &[]), (1, told.into()));
    assert_eq!(compare(&folder, other, &["--order", "any"]), (1, told.into()));
}

#[test]
fn any_order_on_a_page() {
    let folder = folder("compare_order");
    let other = "40 EF 52 4E FC 02 48 FC 01 4B 40 EF 4E 03 49";
    let told = "\
page 1: 2 characters and 2, 0 in font alone; first at character 1
  a: x 0, height 0, font 1, 10 points, character 1
  b: x 3, height 0, font 1, 10 points, character 2
pages that differ: 1 of 2
characters that differ in font alone: 0
";
    assert_eq!(compare(&folder, other, &[]), (1, told.into()));
    let same = (0, "the same: 3 characters, 2 pages\n".into());
    assert_eq!(compare(&folder, other, &["--order", "any"]), same);
}

#[test]
fn characters_and_pages_more() {
    let folder = folder("compare_more");
    let told = "\
page 1: 2 characters and 3, 0 in font alone; first at character 2
  a: x 3, height 0, font 1, 10 points, character 2
  b: x 0, height 0, font 1, 10 points, character 1
page 3: 0 characters and 0, 0 in font alone; first at character 1
  a: nothing
  b: nothing
a: 2 pages; b: 3 pages
pages that differ: 2 of 3
characters that differ in font alone: 0
";
    let other = "40 EF 52 4E 01 01 FC 02 4B 40 EF 4E 03 4B 40 49";
    assert_eq!(compare(&folder, other, &["--order=any"]), (1, told.into()));
    assert_eq!(compare(&folder, other, &[]), (1, told.into()));
}

/// Of two and one at a place, the equal ones are taken first, and one of the rest is paired.
#[test]
fn characters_at_one_place() {
    let folder = folder("compare_place");
    let other = "40 EF 52 4F 01 4E 01 01 FC 02 4B 40 EF 4E 03 49";
    let (status, text) = compare(&folder, other, &["--order", "any"]);
    assert!(
        text.starts_with("page 1: 2 characters and 4, 0 in font alone; first at character 2\n"),
        "{text}"
    );
    assert_eq!(status, 1);
}

#[test]
fn refusals_are_those_of_the_inputs() {
    let folder = folder("compare_refused");
    fs::write(folder.join("a"), hex(TAPE)).unwrap();
    fs::write(folder.join("b"), hex("EF")).unwrap();
    fs::write(folder.join("c"), hex("07 00 08")).unwrap();
    for (words, what) in [
        (["compare", "a", "b"], "spatecanter: b: refused 3 at 0: "),
        (["compare", "c", "b"], "spatecanter: c: refused 41 at 0: "),
    ] {
        let run = run(&folder, &words);
        assert_eq!((run.status, run.text().as_str()), (1, ""));
        assert!(run.err.starts_with(what), "{}", run.err);
    }
    assert_eq!(names(&folder), ["a", "b", "c"]);
}
