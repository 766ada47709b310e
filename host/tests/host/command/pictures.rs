//! Pictures and summaries.

use super::*;
use spatecanter::sample::{chart, pages, yearbook};
use spatecanter::Machine;

/// The picture of a tape or galley, with further words.
fn plot(folder: &Path, words: &[&str]) -> String {
    let run = run(folder, &[&["plot", "-o", "-"], words].concat());
    assert_eq!(run.status, 0, "{words:?}: {}", run.err);
    run.text()
}

/// The lines of each page of a picture.
fn pages_of(picture: &str) -> Vec<Vec<&str>> {
    picture.split("\n<svg ").skip(1).map(|page| page.lines().collect()).collect()
}

/// How many marks a picture has on its pages.
fn marks(picture: &str) -> usize {
    pieces(picture, "<path fill=\"#").len()
}

/// The pieces of the paths on a picture's pages that begin so.
fn pieces<'a>(picture: &'a str, start: &str) -> Vec<&'a str> {
    let paths = pages_of(picture).concat().into_iter().filter(|line| line.starts_with(start));
    let path = |line: &'a str| line.split(" d=\"").nth(1).unwrap().split('"').next().unwrap();
    paths.flat_map(|line| path(line).split('M').skip(1)).collect()
}

#[test]
fn a_summary_and_a_picture_of_four_fonts() {
    let folder = folder("four");
    fs::write(folder.join("a.tape"), hex(PAIRS_TAPE)).unwrap();
    assert_eq!(run(&folder, &["read", "a.tape", "--machine", "4", "-o", "a.galley"]).status, 0);
    let summary = run(&folder, &["reprint", "a.tape", "--machine", "4", "-d", "out"]).text();
    for row in ["in font 1", "in font 2", "  C310: font 3, 10 points", "  C410: font 4, 10 points"] {
        assert!(summary.contains(&format!("\n{row:<37}1\n")), "{summary}");
    }
    let galley = fs::read(folder.join("a.galley")).unwrap();
    assert_eq!(fs::read(folder.join("out/a.tape.galley")).unwrap(), galley);
    // The fonts of a galley stay, whatever machine is named.
    for words in [["a.tape", "--machine=4"], ["a.galley", "--machine=4"], ["a.galley", "--fonts=none"]] {
        let picture = plot(&folder, &words);
        for legend in [">font 1: 1<", ">font 2: 1<", ">other fonts: 2<"] {
            assert!(picture.contains(legend), "{words:?}, {legend}");
        }
    }
}

#[test]
fn summaries_and_legends_name_the_fonts() {
    let folder = folder("named_fonts");
    fs::write(folder.join("a.tape"), yearbook(Machine::Eight, 9, 2_000)).unwrap();
    fs::write(folder.join("b.tape"), yearbook(Machine::Four, 9, 2_000)).unwrap();
    assert_eq!(run(&folder, &["read", "a.tape", "-o", "a.galley"]).status, 0);
    let (plain, named) = (["font 1", "font 2"], ["font 1 (measured)", "font 2 (estimated)"]);
    let rows: [(&[&str], [&str; 2]); 7] = [
        (&["a.tape"], named),
        (&["a.tape", "--machine", "8"], named),
        (&["a.tape", "--fonts", "none"], plain),
        (&["a.tape", "--fonts", "3=heads,2"], ["font 3 (heads)", "font 2"]),
        (&["b.tape", "--machine", "4"], plain),
        (&["b.tape", "--machine", "4", "--fonts", "1=measured,2=estimated"], named),
        (&["a.tape", "--fonts=2=a<b,1=a&b"], ["font 2 (a<b)", "font 1 (a&b)"]),
    ];
    for (words, labels) in rows {
        let reprint = run(&folder, &[&["reprint", "-d", "out", "--force"], words].concat());
        assert_eq!(reprint.status, 0, "{}", reprint.err);
        let picture = plot(&folder, words);
        for label in labels {
            assert!(reprint.text().contains(&format!("\nin {label}  ")), "{label}: {}", reprint.text());
            let escaped = label.replace('&', "&amp;").replace('<', "&lt;");
            assert!(picture.contains(&format!(">{escaped}: ")), "{words:?}: {label}");
        }
    }
    // A galley does not say which machine its fonts are of.
    assert!(plot(&folder, &["a.galley"]).contains(">font 1: "));
    assert!(plot(&folder, &["a.galley", "--machine", "8"]).contains(">font 1 (measured): "));
    let one = plot(&folder, &["a.tape", "--fonts", "3=heads"]);
    assert!(one.contains(">font 3 (heads): ") && !one.contains(">font 1: "));
}

#[test]
fn a_tape_without_tilts_gives_a_hint() {
    let folder = folder("hint");
    fs::write(folder.join("four.tape"), yearbook(Machine::Four, 9, 2_000)).unwrap();
    fs::write(folder.join("eight.tape"), yearbook(Machine::Eight, 9, 2_000)).unwrap();
    fs::write(folder.join("empty.tape"), hex("40 49")).unwrap();
    let commands: [&[&str]; 3] = [
        &["read", "-o", "a", "--force"],
        &["plot", "-o", "a", "--force"],
        &["reprint", "-d", "b", "--force"],
    ];
    for command in commands {
        let hint = run(&folder, &[command, &["four.tape"]].concat());
        assert_eq!(hint.status, 0);
        assert!(hint.err.starts_with("spatecanter: four.tape has no tilt code (4E, 4F)."), "{}", hint.err);
        assert!(hint.err.contains("use --machine 4"), "{}", hint.err);
        let calls: [&[&str]; 4] =
            [&["four.tape", "--machine=4"], &["four.tape", "--machine=8"], &["eight.tape"], &["empty.tape"]];
        for words in calls {
            let quiet = run(&folder, &[command, words].concat());
            assert_eq!(quiet.status, 0);
            assert!(!quiet.err.contains("tilt"), "{words:?}: {}", quiet.err);
        }
    }
}

#[test]
fn the_legend_names_the_machine() {
    let folder = folder("legend");
    fs::write(folder.join("a.tape"), hex(PAIRS_TAPE)).unwrap();
    assert_eq!(run(&folder, &["read", "a.tape", "-o", "a.galley"]).status, 0);
    assert!(plot(&folder, &["a.tape"]).contains(">8-font machine. "));
    assert!(plot(&folder, &["a.tape", "--machine", "4"]).contains(">4-font machine. "));
    assert!(plot(&folder, &["a.galley"]).contains(">Machine not recorded. "));
    assert!(plot(&folder, &["a.galley", "--machine", "8"]).contains(">8-font machine. "));
}

#[test]
fn one_character_is_one() {
    let folder = folder("one");
    fs::write(folder.join("a.tape"), hex("40 EF 52 4E 01 49")).unwrap();
    assert!(run(&folder, &["read", "a.tape", "-o", "a.galley"]).err.starts_with("a.galley: 1 character\n"));
    assert_eq!(run(&folder, &["check", "a.galley"]).text(), "accepted, 1 character\n");
    assert_eq!(run(&folder, &["plot", "a.tape"]).err, "a.tape.svg: 1 character\n");
    assert!(plot(&folder, &["a.tape"]).contains("<title>a.tape: 1 character</title>"));
}

#[test]
fn a_picture_has_a_mark_for_each_character() {
    let folder = folder("plot");
    let tape = yearbook(Machine::Eight, 4, 3_000);
    fs::write(folder.join("a&b.tape"), &tape).unwrap();
    assert_eq!(run(&folder, &["plot", "a&b.tape"]).status, 0);
    assert_eq!(run(&folder, &["read", "a&b.tape", "-o", "a&b.galley"]).status, 0);
    let picture = fs::read_to_string(folder.join("a&b.tape.svg")).unwrap();
    let again = plot(&folder, &["a&b.galley", "--machine=8"]);
    assert_eq!(picture.replace("a&amp;b.tape", "a&amp;b.galley"), again);
    assert_eq!(marks(&picture), spatecanter::read_tape(&tape, Machine::Eight).unwrap().len() / 11);
    assert!(picture.starts_with("<svg ") && picture.ends_with("</svg>\n"));
}

#[test]
fn marks_stay_in_their_columns_and_differ_in_grey() {
    let folder = folder("columns");
    // Fonts 1, 2 and 3 at x = 0, 31 and 62.
    fs::write(folder.join("a.tape"), hex("40 EF 52 4E 01 E0 4F 02 E0 42 4E 03 49")).unwrap();
    let picture = plot(&folder, &["a.tape"]);
    let colours: Vec<&str> = pages_of(&picture)[0]
        .iter()
        .filter_map(|line| line.strip_prefix("<path fill=\"#")?.split('"').next())
        .collect();
    let grey = |colour: &str| {
        let part = |at: usize| i32::from_str_radix(&colour[at..at + 2], 16).unwrap();
        (299 * part(0) + 587 * part(2) + 114 * part(4)) / 1_000
    };
    let mut greys: Vec<i32> = colours.iter().map(|colour| grey(colour)).collect();
    greys.sort();
    assert_eq!(greys.len(), 3);
    assert!(greys[1] - greys[0] > 50 && greys[2] - greys[1] > 50, "{greys:?}");
    for mark in pieces(&picture, "<path fill=\"#") {
        // Its foot, then its head: as far to the right as both reach, 16 units of 1/432 inch.
        let numbers: Vec<i32> =
            mark.split(['h', 'l', '-', ' ', 'z']).filter_map(|word| word.parse().ok()).collect();
        let [x, 0, foot, lean, 32, back] = numbers[..] else { panic!("{mark}") };
        assert_eq!((x % 31, foot, foot + lean), (0, back, 16), "{mark}");
    }
}

#[test]
fn overstruck_characters_are_framed() {
    let folder = folder("overstruck");
    // Two at x = 0, one at 31, two at 62 and 63, in fonts 1 and 2.
    fs::write(folder.join("a.tape"), hex("40 EF 52 4E 01 02 E0 03 E0 04 4F FE 05 49")).unwrap();
    let picture = plot(&folder, &["a.tape"]);
    assert!(picture.contains("Overstruck, framed: 2."));
    let frames = pieces(&picture, "<path fill=\"none\" ");
    let places: Vec<&str> = frames.iter().map(|frame| frame.split('h').next().unwrap()).collect();
    assert_eq!(places, ["-5 5", "58 5"]);
    assert_eq!(marks(&picture), 5);
    // On another line, or another page, nothing is overstruck.
    fs::write(folder.join("b.tape"), hex("40 EF 52 4E 01 7E 01 4B 40 EF 01 49")).unwrap();
    assert!(plot(&folder, &["b.tape"]).contains("Overstruck, framed: 0."));
}

#[test]
fn a_picture_has_all_pages() {
    let folder = folder("plot_pages");
    let tape = pages(4, 6);
    fs::write(folder.join("a.tape"), &tape).unwrap();
    let picture = plot(&folder, &["a.tape"]);
    let count = spatecanter::check_galley(&spatecanter::read_tape(&tape, Machine::Eight).unwrap()).unwrap();
    assert!(picture.contains(&format!("<title>a.tape: {count} characters, 3 pages</title>")));
    assert_eq!(marks(&picture), count);
    let parts: Vec<String> = pages_of(&picture).iter().map(|page| page.join("\n")).collect();
    assert_eq!(parts.len(), 3);
    assert!(!parts[1].contains("<path fill="));
    for (number, page) in (1..).zip(&parts) {
        assert!(page.contains(&format!(">page {number}</text>")));
    }
    let third = plot(&folder, &["a.tape", "--page", "3"]);
    assert!(third.contains(">page 3</text>") && !third.contains(">page 1</text>"));
    assert!(third.contains(", page 3 of 3</title>"));
    assert_eq!(marks(&third) + marks(&plot(&folder, &["a.tape", "--page", "1"])), count);
    for wrong in ["0", "4", "x"] {
        let refused = run(&folder, &["plot", "a.tape", "--page", wrong, "-o", "d.svg"]);
        assert_eq!(refused.status, 2);
        assert!(refused.err.contains("is no page: there are 3, counted from 1"));
    }
    let refused = run(&folder, &["plot", "a.tape", "--from", "10", "-o", "d.svg"]);
    assert_eq!(refused.status, 2);
    assert!(refused.err.contains("--from and --to are for one page, and there are 3"), "{}", refused.err);
    assert!(!folder.join("d.svg").exists());
}

/// The height of a picture, in pixels of 1/96 inch.
fn pixels(picture: &str) -> f64 {
    let height = picture.split("height=\"").nth(1).unwrap().split("in\"").next().unwrap();
    96.0 * height.parse::<f64>().unwrap()
}

#[test]
fn the_longest_column() {
    let folder = folder("longest");
    fs::write(folder.join("a.tape"), chart(2, 1_000_000)).unwrap();
    let whole = run(&folder, &["plot", "a.tape"]);
    assert_eq!(whole.status, 0);
    assert!(whole.err.contains("a.tape.svg: scaled to 4.9 percent, "), "{}", whole.err);
    assert!(whole.err.contains("--from and --to"), "{}", whole.err);
    let picture = fs::read_to_string(folder.join("a.tape.svg")).unwrap();
    let galley = spatecanter::read_tape(&chart(2, 1_000_000), Machine::Eight).unwrap();
    assert_eq!(Ok(marks(&picture)), spatecanter::check_galley(&galley));
    // 1,000,000 quanta are 6,944 inches and 192 units.
    assert!(pieces(&picture, "<path fill=\"#").iter().any(|mark| mark.contains(" 3000000h")));
    assert!(picture.contains(">6944</text>") && picture.contains("height=\"3000320\""));
    assert!(pixels(&picture) <= 32_767.0 && pixels(&picture) > 32_000.0);
    fs::write(folder.join("b.tape"), chart(2, 1_000_001)).unwrap();
    let more = run(&folder, &["read", "b.tape"]);
    assert_eq!(more.status, 1);
    assert!(more.err.contains("refused 7 at "), "{}", more.err);
    assert!(more.err.contains("; it would go from 999998 to 1000001\n"), "{}", more.err);
}

#[test]
fn a_part_of_a_column() {
    let folder = folder("part");
    fs::write(folder.join("a.tape"), chart(2, 200_000)).unwrap();
    let galley = spatecanter::read_tape(&chart(2, 200_000), Machine::Eight).unwrap();
    let within = |from, to| galley.characters().filter(|it| (from..=to).contains(&it.height)).count();
    let rows: [(&[&str], i32, i32); 4] = [
        (&["--from", "1440", "--to", "14400"], 1_440, 14_400),
        (&["--from", "10in", "--to=100.0in"], 1_440, 14_400),
        (&["--to", "30000"], 0, 30_000),
        (&["--from", "190000", "--page", "1"], 190_000, 200_000),
    ];
    for (words, from, to) in rows {
        let part = run(&folder, &[&["plot", "a.tape", "-o", "a.svg", "--force"], words].concat());
        assert_eq!(part.err, format!("a.svg: {} characters\n", within(from, to)), "{words:?}");
        let picture = fs::read_to_string(folder.join("a.svg")).unwrap();
        assert_eq!(marks(&picture), within(from, to));
        assert!(picture.contains(&format!(" viewBox=\"-240 {} ", 3 * from - 200)), "{words:?}");
        assert!(pixels(&picture) < f64::from(to - from) / 144.0 * 96.0 + 400.0);
    }
}

#[test]
fn no_attribute_is_long() {
    let folder = folder("attributes");
    fs::write(folder.join("a.tape"), yearbook(Machine::Eight, 10, 1_000_000)).unwrap();
    let picture = plot(&folder, &["a.tape"]);
    let galley = spatecanter::read_tape(&yearbook(Machine::Eight, 10, 1_000_000), Machine::Eight).unwrap();
    assert_eq!(Ok(marks(&picture)), spatecanter::check_galley(&galley));
    let longest = picture.split('"').map(str::len).max().unwrap();
    assert!(longest < 1_000_000, "{longest}");
}
