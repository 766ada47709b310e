//! Tapes and galleys as text and as lists, with a code table.

use super::*;
use spatecanter::sample::{codes, pages, yearbook, yearbook_figures, Figure};
use spatecanter::Machine;

/// A tape's text in this folder, with further words, and what standard error has.
fn text(folder: &Path, words: &[&str]) -> (String, String) {
    let run = run(folder, &[&["text", "--codes", "a.codes"], words].concat());
    assert_eq!(run.status, 0, "{words:?}: {}", run.err);
    (run.text(), run.err)
}

/// A folder with a tape and the code table of the made tapes.
fn folder_with(name: &str, tape: &[u8]) -> PathBuf {
    let folder = folder(name);
    fs::write(folder.join("a.tape"), tape).unwrap();
    fs::write(folder.join("a.codes"), codes()).unwrap();
    folder
}

/// The figures of a line of a table, each with the column in which it ends; nothing if it is another line.
fn figures(line: &str) -> Option<Vec<(Figure, usize)>> {
    let mut figures = Vec::new();
    for word in line.split(' ').filter(|word| !word.is_empty()) {
        let value = word.trim_start_matches('~');
        let font = match (figures.is_empty(), word.len() - value.len()) {
            (true, 0) => 3,
            (false, marks @ 0..=1) => 1 + marks as u8,
            _ => return None,
        };
        let end = word.as_ptr() as usize - line.as_ptr() as usize + word.len();
        figures.push((Figure { font, value: value.parse().ok()? }, end));
    }
    (figures.len() > 1).then_some(figures)
}

#[test]
fn the_figures_of_a_yearbook_are_read_back() {
    let samples = Path::new(env!("CARGO_MANIFEST_DIR")).join("../samples");
    let run = run(&samples, &["text", "yearbook.tape", "--codes", "yearbook.codes", "--mark", "2=~"]);
    assert_eq!((run.status, run.err.as_str()), (0, ""));
    let text = run.text();
    let rows: Vec<Vec<(Figure, usize)>> = text.lines().filter_map(figures).collect();
    let expected = yearbook_figures(Machine::Eight, 1980, 6_400);
    assert_eq!(
        expected.iter().flatten().filter(|figure| figure.font == 2).count(),
        text.matches('~').count()
    );
    assert!(expected.len() > 50 && text.matches('~').count() > 50);
    assert_eq!(rows.len(), expected.len());
    for (row, expected) in rows.iter().zip(&expected) {
        assert_eq!(row.iter().map(|(figure, _)| *figure).collect::<Vec<_>>(), *expected);
        // All rows end their figures in the same columns.
        let ends = |row: &[(Figure, usize)]| row.iter().map(|(_, end)| *end).collect::<Vec<_>>();
        assert_eq!(ends(row), ends(&rows[0]));
    }
}

#[test]
fn a_tape_and_its_galley_give_one_text() {
    let folder = folder_with("text_galley", &yearbook(Machine::Four, 7, 4_000));
    assert_eq!(run(&folder, &["read", "a.tape", "--machine", "4", "-o", "a.galley"]).status, 0);
    let (tape, told) = text(&folder, &["a.tape", "--machine", "4"]);
    assert_eq!(told, "");
    assert_eq!(text(&folder, &["a.galley"]).0, tape);
    let rows: Vec<Vec<u32>> = yearbook_figures(Machine::Four, 7, 4_000)
        .iter()
        .map(|row| row.iter().map(|figure| figure.value).collect())
        .collect();
    let values = |line: &str| Some(figures(line)?.iter().map(|(figure, _)| figure.value).collect());
    assert_eq!(tape.lines().filter_map(values).collect::<Vec<Vec<u32>>>(), rows);
    assert_eq!(text(&folder, &["a.tape", "--machine=4", "-o", "out/a.txt"]).0, "");
    assert_eq!(fs::read_to_string(folder.join("out/a.txt")).unwrap(), tape);
    let galley = fs::read(folder.join("a.galley")).unwrap();
    assert_eq!(run_on(&folder, &["text", "-", "--codes", "a.codes"], &galley).text(), tape);
    assert_eq!(run_on(&folder, &["text", "a.galley", "--codes=-"], codes().as_bytes()).text(), tape);
    for words in [&["-o", "a.codes", "--force"][..], &["-o", "a.tape", "--force"], &["-o", "out/a.txt"]] {
        assert_eq!(run(&folder, &[&["text", "a.tape", "--codes", "a.codes"], words].concat()).status, 2);
    }
}

#[test]
fn form_feeds_stand_between_pages() {
    let folder = folder_with("text_pages", &pages(4, 6));
    let (whole, _) = text(&folder, &["a.tape"]);
    let parts: Vec<&str> = whole.split('\x0c').collect();
    assert_eq!((parts.len(), parts[1]), (3, ""));
    for (number, part) in (1..).zip(&parts) {
        assert_eq!(text(&folder, &["a.tape", "--page", &number.to_string()]).0, **part);
    }
    assert_eq!(run(&folder, &["text", "a.tape", "--codes", "a.codes", "--page", "4"]).status, 2);
}

#[test]
fn words_stand_at_their_places() {
    // 8 points. At height 0 the figures 12 from x = 0 on, and 3 in font 2 at 240; at 72 and at 96 a figure 4.
    let tape = hex("40 EF 51 4E 46 0A E7 0B 47 80 A6 4F 0C 60 60 75 4E 48 80 A6 0D 67 0D 49");
    let folder = folder_with("text_places", &tape);
    assert_eq!(text(&folder, &["a.tape"]).0, "12        3\n\n\n 4\n 4\n");
    assert_eq!(text(&folder, &["a.tape", "--mark", "2=~"]).0, " 12       ~3\n\n\n  4\n  4\n");
    assert_eq!(text(&folder, &["a.tape", "--mark", "1=*,2=(?)"]).0, "  *12     (?)3\n\n\n   *4\n   *4\n");
}

#[test]
fn nothing_on_a_page_is_lost_or_joined() {
    // 5 and 6 at one place, 7 beside them; then code 1 of font 1, which the table lacks.
    let folder = folder_with("text_over", &hex("40 EF 51 4E 46 0E 0F E7 10 67 45 01 49"));
    let (shown, told) = text(&folder, &["a.tape"]);
    assert_eq!(shown, "57\n6\n \u{fffd}\n");
    let [unknown, overstruck] = told.lines().collect::<Vec<_>>()[..] else { panic!("{told}") };
    assert_eq!(
        unknown,
        "spatecanter: a.tape: 1 character shown as \u{fffd}, since a.codes lacks them; the first is code 1 of font 1"
    );
    assert_eq!(overstruck, "spatecanter: a.tape: 1 character on another, shown in a line below it");
}

#[test]
fn a_wrong_code_table_is_told_by_its_line() {
    let folder = folder_with("codes", &hex("40 EF 52 4E 01 49"));
    let rows: [(&[u8], &str); 12] = [
        (b"1 1", "line 1: no font, code and character"),
        (b"# codes\n\n1", "line 3: no font, code and character"),
        (b"1 1 a\n1 2 ab", "line 2: ab is not one character"),
        (b"9 1 a", "line 1: 9 is no font: it is 1 to 8"),
        (b"one 1 a", "line 1: one is no font"),
        (b"1 0 a", "line 1: 0 is no code: it is 1 to 108"),
        (b"1 109 a", "line 1: 109 is no code"),
        (b"1 1 a b", "line 1: more than a font, a code and a character"),
        (b"1 1 a\n2 1 a\n1 1 b\n", "line 3: font 1 has a character of code 1 already, in line 1"),
        (b"1 1 a\n1 2 \xff\n", "line 2: no UTF-8"),
        (b"1 1 \xc2\xa0", "line 1: \\u{a0} is not one character that can be seen"),
        (b"1 1 \x07", "line 1: \\u{7} is not one character that can be seen"),
    ];
    for (table, what) in rows {
        fs::write(folder.join("a.codes"), table).unwrap();
        for command in ["text", "list"] {
            let run = run(&folder, &[command, "a.tape", "--codes", "a.codes"]);
            assert_eq!((run.status, run.text().as_str()), (2, ""));
            assert!(run.err.starts_with(&format!("spatecanter: a.codes: {what}")), "{what}: {}", run.err);
        }
    }
    let tables = ["1 1 \u{e9}", "\u{feff}1 1 \u{e9}\r\n", "# a\n\n \t1\t1  \u{e9}   # e\n1 2 #\n1 3 # # a"];
    for table in tables {
        fs::write(folder.join("a.codes"), table).unwrap();
        assert_eq!(text(&folder, &["a.tape"]), ("\u{e9}\n".into(), String::new()), "{table}");
    }
    fs::write(folder.join("a.codes"), "#".repeat(1_048_577)).unwrap();
    assert!(run(&folder, &["text", "a.tape", "--codes", "a.codes"])
        .err
        .contains("longer than 1,048,576 bytes"));
}

#[test]
fn a_mark_is_no_character() {
    let folder = folder_with("mark", &hex("40 EF 52 4E 01 49"));
    for wrong in ["", "2", "2=", "9=~", "2=a", "2=5", "2= ", "2=~,2=*", "2=~,", "2=\u{2022}"] {
        let run = run(&folder, &["text", "a.tape", "--codes", "a.codes", "--mark", wrong]);
        assert_eq!((run.status, run.text().as_str()), (2, ""), "{wrong}");
        assert!(run.err.starts_with(&format!("spatecanter: --mark {wrong} ")), "{}", run.err);
    }
}

/// P3's tape with its second character after a cut, in all formats.
#[test]
fn lists_in_three_formats() {
    let folder = folder("lists");
    fs::write(folder.join("a.tape"), hex("40 EF 52 4E 01 4B 40 EF 4E FC 7D 02 49")).unwrap();
    fs::write(folder.join("a.codes"), "1 1 \"\n").unwrap();
    let list = |words: &[&str]| {
        let run = run(&folder, &[&["list", "a.tape"], words].concat());
        assert_eq!((run.status, run.err.as_str()), (0, ""), "{words:?}");
        run.text()
    };
    assert_eq!(list(&[]), "x y font size char\n0 0 1 10 1\ncut\n3 2 1 10 2\n2 glyphs\n");
    assert_eq!(
        list(&["--format", "text"]),
        "   page     x  height  x inches  height inches  font  size  code\n      \
         1     0       0     0.000          0.000     1    10     1\n      \
         2     3       2     0.007          0.014     1    10     2\n\
         2 characters, 2 pages\n"
    );
    let with_codes = list(&["--codes", "a.codes"]);
    assert_eq!(with_codes, list(&["--codes", "a.codes", "--format=text"]));
    let ends: Vec<&str> = with_codes.lines().map(|line| line.split("  ").last().unwrap()).collect();
    assert_eq!(ends, ["char", "\"", " 2", "2 characters, 2 pages"]);
    assert_eq!(
        list(&["--format", "csv"]),
        "page,x,height,x_inches,height_inches,font,size,code\n1,0,0,0.000,0.000,1,10,1\n2,3,2,0.007,0.014,1,10,2\n"
    );
    let csv = list(&["--format", "csv", "--codes", "a.codes"]);
    let csv: Vec<&str> = csv.lines().collect();
    assert!(
        csv[0].ends_with(",code,character") && csv[1].ends_with(",1,\"\"\"\"") && csv[2].ends_with(",2,")
    );
    let json = list(&["--format", "json", "--codes", "a.codes"]);
    assert!(json.starts_with("{\n  \"pages\": 2,\n  \"characters\": 2,\n  \"each\": [\n    {\"page\": 1, "));
    for part in ["\"code\": 1, \"character\": \"\\\"\"},\n", "\"code\": 2, \"character\": null}\n  ]\n}\n"] {
        assert!(json.contains(part), "{json}");
    }
    assert!(!list(&["--format", "json"]).contains("\"character\""));
}

#[test]
fn a_list_has_every_character_of_the_longest_galley() {
    let folder = folder_with("list_longest", &yearbook(Machine::Eight, 11, 1_048_576));
    let galley = spatecanter::read_tape(&fs::read(folder.join("a.tape")).unwrap(), Machine::Eight).unwrap();
    fs::write(folder.join("a.galley"), &galley).unwrap();
    let csv = run(&folder, &["list", "a.galley", "--format", "csv", "--codes", "a.codes"]).text();
    let mut lines = csv.lines().skip(1);
    for it in galley.characters() {
        let line = lines.next().unwrap();
        assert!(line.starts_with(&format!("1,{},{},", it.x, it.height)), "{line}");
        assert!(line.contains(&format!(",{},{},{},", it.font(), it.points(), it.code)), "{line}");
    }
    assert_eq!(lines.next(), None);
    // The tape goes back to the top, so that tables stand on others; no figure is lost for it.
    let (shown, _) = text(&folder, &["a.galley"]);
    let count = shown.chars().filter(|character| character.is_ascii_alphanumeric()).count();
    assert_eq!(count, galley.characters().count());
}
