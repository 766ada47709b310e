//! Refusals in words.

use super::*;
use spatecanter::sample::chart;

#[test]
fn a_refused_tape_says_why_and_writes_nothing() {
    let folder = folder("refused");
    let rows: [(&str, &str, &str); 12] = [
        ("", "refused 9 at 0", "expected: stop (49)"),
        ("4B", "refused 3 at 0", "byte 4B, a cut"),
        ("40 4B EF", "refused 10 at 2", "expected: initialize (40), after nothing but 00, since a cut"),
        ("40 EF 4B 00", "refused 10 at 4", "the end of the tape"),
        ("40 EF 4D", "refused 2 at 2", "at offset 2 (hexadecimal 2): byte 4D, which means nothing"),
        ("EF", "refused 3 at 0", "byte EF, an escape of 16 units"),
        ("40 49 01", "refused 4 at 2", "nothing but 00"),
        ("40 F0", "refused 5 at 1", "expected: an escape of 16 (EF), forward"),
        ("40 EF 01", "refused 6 at 2", "expected: a size"),
        ("40 EF 80 48 80 FE", "refused 7 at 5", "keeps the carriage in 0 to 3,239; it would go from 0 to -1"),
        ("40 60 4C 60 7E", "refused 7 at 4", "keeps the height in 0 to 1,000,000; it would go from 0 to -1"),
        ("40 EF 46 52 2E", "refused 8 at 4", "byte 2E, a flash of 46"),
    ];
    for (tape, refusal, more) in rows {
        for machine in ["4", "8"] {
            is_refused(&folder, machine, tape, refusal, more);
        }
    }
}

/// Every command that reads tapes refuses this one, says so and writes nothing.
fn is_refused(folder: &Path, machine: &str, tape: &str, refusal: &str, more: &str) {
    fs::write(folder.join("bad.galley"), "as before").unwrap();
    fs::write(folder.join("bad.tape"), hex(tape)).unwrap();
    let calls: [&[&str]; 3] = [
        &["read", "bad.tape", "-o", "bad.galley", "--force", "--machine", machine],
        &["reprint", "bad.tape", "-d", "out", "--machine", machine],
        &["plot", "bad.tape", "--machine", machine],
    ];
    for words in calls {
        let run = run(folder, words);
        assert_eq!((run.status, run.text().as_str()), (1, ""), "{words:?} of {tape}");
        assert!(run.err.contains(refusal) && run.err.contains(more), "{}", run.err);
    }
    assert_eq!(names(folder), ["bad.galley", "bad.tape"]);
    assert_eq!(fs::read(folder.join("bad.galley")).unwrap(), b"as before");
}

#[test]
fn illegal_codes_of_each_machine() {
    let folder = folder("illegal");
    let hint = "any code but 4D to 4F, 5F and FF; tilts are codes of the 8-font machine (--machine 8)\n";
    let up = format!("byte 4E, tilt up\n  expected: {hint}");
    let down = format!("byte 4F, tilt down\n  expected: {hint}");
    let rows: [(&str, &str, &str, &str); 8] = [
        ("4", "40 EF 52 4E 01 49", "refused 2 at 3: illegal code\n", &up),
        ("4", "40 EF 52 4F 01 49", "refused 2 at 3: illegal code\n", &down),
        ("4", "4E", "refused 2 at 0", &up),
        ("4", "40 49 4F", "refused 2 at 2", &down),
        ("4", "40 FF", "refused 2 at 1", "expected: any code but 4D to 4F, 5F and FF\n"),
        ("8", "40 FF", "refused 2 at 1", "expected: any code but 4D, 5F and FF\n"),
        ("8", "4E", "refused 3 at 0", "byte 4E, tilt up\n  expected: initialize (40)"),
        ("8", "40 49 4F", "refused 4 at 2", "byte 4F, tilt down\n  expected: nothing but 00"),
    ];
    for (machine, tape, refusal, more) in rows {
        is_refused(&folder, machine, tape, refusal, more);
    }
}

#[test]
fn a_tape_over_the_limit() {
    let folder = folder("long");
    fs::write(folder.join("long.tape"), vec![0; spatecanter::TAPE_LIMIT + 5]).unwrap();
    let run = run(&folder, &["read", "long.tape"]);
    assert_eq!(run.status, 1);
    assert_eq!(run.err, "spatecanter: long.tape: refused 1 at 0: the tape is longer than 1,048,576 bytes\n");
}

/// What is said of a character of the old form.
const OLD_HINT: &str =
    "a character (07 00 08 ...); tag 1 is the old form, see spatecanter convert --to new\n";

#[test]
fn refused_galleys_and_dvi_files() {
    let folder = folder("others");
    let rows: [(&str, &str, &str, &str); 19] = [
        ("check", "", "refused 41 at 0", "expected: a character (07 00 08 ...), a cut (06 00 00) or End (02"),
        ("check", "06 00 01 00", "refused 41 at 0", "bytes 06 00 01 00"),
        ("plot", "06 00 00 02 00 04 00 00 00 01", "refused 41 at 3", "an End that counts 0 characters"),
        ("list", "06 00 00 02 00 04 00 00 00 00 05", "refused 41 at 10", "since End was read"),
        ("list", "02 00 04 00 00 00 01", "refused 41 at 0", "an End that counts 0 characters"),
        ("set", "02 00 04 00 00 00 00 05", "refused 41 at 7", "since End was read"),
        ("plot", "07 00 08 00 00 00 00 00 00 02 00", "refused 41 at 0", "a character of 1 to 108"),
        ("plot", "07 00 08 00 00 00 0F 42 41 02 01", "refused 41 at 0", "a height of 0 to 1,000,000"),
        ("set", "06 00 00 07 00 08 00 00 FF FF FF FF 02 01", "refused 41 at 3", "a height of 0 to 1,000,000"),
        ("check", "07 00 08 00 00 00", "refused 41 at 0", "cut short"),
        ("check", "07 00 08 00 00 00 00 00 00 02 01 05", "refused 41 at 11", "offset 11 (hexadecimal B)"),
        ("check", "01 00 06 00 00 00 00 02 01", "refused 41 at 0", OLD_HINT),
        ("list", "01 00 06 00 00 00 00 02 01", "refused 41 at 0", OLD_HINT),
        ("set", "01 00 06 00 00 00 00 02 01", "refused 41 at 0", OLD_HINT),
        ("plot", "01 00 06 00 00 00 00 02 01", "refused 41 at 0", OLD_HINT),
        ("plot", "06 00 00 01 00 06 00 00 00 00 02 01", "refused 41 at 3", OLD_HINT),
        ("show", "83", "refused 21 at 0", "command 131, PST"),
        ("show", "81 00 00 00 01 FF FF FF FF", "refused 22 at 9", "the end of the file"),
        ("show", "81 00 00 00 01 FF FF FF FF 88 01", "refused 27 at 9", "command 136, HORZCHAR"),
    ];
    for (command, input, refusal, more) in rows {
        fs::write(folder.join("bad"), hex(input)).unwrap();
        let run = run(&folder, &[command, "bad"]);
        assert_eq!((run.status, run.text().as_str()), (1, ""), "{command} {input}");
        assert!(run.err.contains(refusal) && run.err.contains(more), "{}", run.err);
        assert_eq!(names(&folder), ["bad"]);
    }
    fs::write(folder.join("bad"), hex("05 00 04 00 00 00 01 02 00 04 00 00 00 02")).unwrap();
    let run = run(&folder, &["sheet", "bad"]);
    assert_eq!((run.status, run.text().as_str()), (1, ""));
    assert_eq!(run.err, "spatecanter: bad: no sheet: an End with a wrong count at 7\n");
}

#[test]
fn a_galley_with_one_cut_too_many() {
    let folder = folder("cuts");
    let mut galley = [6, 0, 0].repeat(spatecanter::ITEM_LIMIT);
    galley.extend([6, 0, 0, 2, 0, 4, 0, 0, 0, 0]);
    fs::write(folder.join("cuts.galley"), &galley).unwrap();
    let more = run(&folder, &["check", "cuts.galley"]);
    assert_eq!(more.status, 1);
    assert!(more.err.contains("refused 41 at 3145728: the galley is malformed"), "{}", more.err);
    assert!(more.err.contains("expected: End (02 00 04 ...), after 1,048,576 characters and cuts"));
    fs::write(folder.join("cuts.galley"), &galley[3..]).unwrap();
    assert_eq!(run(&folder, &["check", "cuts.galley"]).text(), "accepted, 0 characters\n");
}

/// What is said of 43.
const TOO_HIGH: &str = "a height above 65,535, which neither DVI of 1980 nor the old form can hold";

#[test]
fn a_column_that_dvi_cannot_hold() {
    let folder = folder("column");
    fs::write(folder.join("a.tape"), chart(1, 65_536)).unwrap();
    assert_eq!(run(&folder, &["read", "a.tape", "-o", "a.galley"]).status, 0);
    let count = run(&folder, &["list", "a.galley"]).text().lines().count() - 2;
    assert_eq!(run(&folder, &["check", "a.galley"]).text(), format!("accepted, {count} characters\n"));
    assert!(run(&folder, &["list", "a.galley"]).text().contains(" 65536 "));
    // Every reading but the last is low enough.
    let place = 11 * (count - 1);
    let why = format!("refused 43 at {place}: {TOO_HIGH}\n  at offset {place} ");
    let more = "\n  expected: a height of at most 65,535; it is 65,536\n";
    let set = run(&folder, &["set", "a.galley"]);
    assert_eq!((set.status, set.text().as_str()), (1, ""));
    assert!(set.err.starts_with(&format!("spatecanter: a.galley: {why}")) && set.err.ends_with(more));
    let reprint = run(&folder, &["reprint", "a.tape", "-d", "out"]);
    assert_eq!((reprint.status, reprint.text().as_str()), (1, ""));
    assert!(reprint.err.starts_with(&format!("spatecanter: a.tape: {why}")) && reprint.err.ends_with(more));
    assert!(reprint.err.contains(" of the galley: bytes 07 00 08 "), "{}", reprint.err);
    assert_eq!(names(&folder), ["a.galley", "a.tape"]);
    fs::write(folder.join("b.tape"), chart(1, 65_535)).unwrap();
    assert_eq!(run(&folder, &["reprint", "b.tape", "-d", "."]).status, 0);
}

#[test]
fn galleys_that_are_not_punched() {
    let folder = folder("not_punched");
    fs::write(folder.join("a.galley"), hex(OLD_P3)).unwrap();
    let old = run(&folder, &["punch", "a.galley"]);
    assert_eq!((old.status, old.text().as_str()), (1, ""));
    assert!(old.err.contains("refused 41 at 0: the galley is malformed") && old.err.contains(OLD_HINT));
    // A cut has three bytes on a tape.
    let cuts = [[6, 0, 0].repeat(349_525), hex("02 00 04 00 00 00 00")].concat();
    fs::write(folder.join("a.galley"), &cuts).unwrap();
    let long = run(&folder, &["punch", "a.galley"]);
    let words = "the tape of this galley would be longer than 1,048,576 bytes";
    assert_eq!((long.status, long.text().as_str()), (1, ""));
    assert_eq!(long.err, format!("spatecanter: a.galley: refused 48 at 0: {words}\n"));
    fs::write(folder.join("a.galley"), vec![0; spatecanter::GALLEY_LIMIT + 1]).unwrap();
    assert!(run(&folder, &["punch", "a.galley"]).err.contains("refused 40 at 0"));
    assert_eq!(names(&folder), ["a.galley"]);
    fs::write(folder.join("a.galley"), &cuts[3..]).unwrap();
    assert_eq!(run(&folder, &["punch", "a.galley"]).err, "a.galley.tape: 1,048,575 bytes\n");
}

#[test]
fn galleys_that_are_not_converted() {
    let folder = folder("unconverted");
    let new_hint = "a character (01 00 06 ...); tag 7 is the new form, see spatecanter convert --to old\n";
    let tall = "06 00 00 07 00 08 00 00 00 01 00 00 02 01 02 00 04 00 00 00 01";
    let rows: [(&str, &str, &str, &str); 10] = [
        ("new", NEW_P3, "refused 41 at 0: the galley is malformed", new_hint),
        ("old", OLD_P3, "refused 41 at 0: the galley is malformed", OLD_HINT),
        (
            "new",
            "",
            "refused 41 at 0",
            "a character (01 00 06 ...), a cut (06 00 00) or End (02 00 04 ...)\n",
        ),
        ("new", "06 00 00 01 00 06 00", "refused 41 at 3", "the rest of the field, which is cut short\n"),
        ("new", "01 00 06 00 00 00 00 78 01", "refused 41 at 0", "a font number of 0 to 119\n"),
        ("new", "01 00 06 FF FF 00 00 08 01", "refused 41 at 0", "an x of 0 to 3,239, in a single size\n"),
        (
            "new",
            "01 00 06 00 00 00 00 02 01 02 00 04 00 00 00 02",
            "refused 41 at 9",
            "an End that counts 1 character\n",
        ),
        ("new", "06 00 00 02 00 04 00 00 00 00 00", "refused 41 at 10", "since End was read\n"),
        ("old", tall, "refused 43 at 3: ", "expected: a height of at most 65,535; it is 65,536\n"),
        (
            "old",
            tall,
            TOO_HIGH,
            "at offset 3 (hexadecimal 3) of the galley: bytes 07 00 08 00 00 00 01 00 00 02 01",
        ),
    ];
    for (to, galley, refusal, more) in rows {
        fs::write(folder.join("a.galley"), hex(galley)).unwrap();
        let run = run(&folder, &["convert", "--to", to, "a.galley"]);
        assert_eq!((run.status, run.text().as_str()), (1, ""), "{to} {galley}");
        assert!(run.err.contains(refusal) && run.err.contains(more), "{}", run.err);
        assert_eq!(names(&folder), ["a.galley"]);
    }
    fs::write(folder.join("a.galley"), vec![0; spatecanter::OLD_GALLEY_LIMIT + 1]).unwrap();
    let long = run(&folder, &["convert", "--to", "new", "a.galley"]);
    assert_eq!(long.status, 1);
    let words = "the galley is longer than 11,534,343 bytes, or 9,437,191 in the old form";
    assert_eq!(long.err, format!("spatecanter: a.galley: refused 40 at 0: {words}\n"));
}

#[test]
fn widths_for_a_dvi_file() {
    let folder = folder("widths");
    let dvi = hex("81 00 00 00 01 FF FF FF FF 9A 41 42 82
         83 00 00 00 00 00 00 00 00 00 00 00 00 FF FF FF FF 00 00 00 0D 00 DF DF DF DF");
    fs::write(folder.join("a.dvi"), dvi).unwrap();
    let mut widths = vec![0; 512];
    widths[4 * 0x41 + 2] = 1;
    fs::write(folder.join("a.widths"), &widths).unwrap();
    fs::write(folder.join("odd.widths"), &widths[..511]).unwrap();
    fs::write(folder.join("short.widths"), &widths[..508]).unwrap();
    assert_eq!(run(&folder, &["show", "a.dvi"]).status, 1);
    let odd = run(&folder, &["show", "a.dvi", "--widths", "odd.widths"]);
    assert_eq!(odd.status, 2);
    let words = "odd.widths: the width table is 511 bytes, no whole number of 32-bit numbers\n";
    assert_eq!(odd.err, format!("spatecanter: {words}"));
    let short = run(&folder, &["show", "a.dvi", "--widths=short.widths"]);
    assert_eq!(short.status, 1);
    assert!(short.err.starts_with("spatecanter: short.widths: refused 31 at 0"), "{}", short.err);
    assert_eq!(run(&folder, &["show", "a.dvi", "--widths=a.widths"]).status, 0);
    let text = run(&folder, &["sheet", "a.dvi.sheet"]).text();
    assert_eq!(text, "page 1\nchar 0 0 0 65\nchar 256 0 0 66\nend 3\n");
}

/// A file that shows no galley's targets: which condition, on which page, and what would have been right.
#[test]
fn a_dvi_file_that_is_no_galley_s_says_why() {
    let folder = folder("no_galley");
    let rows = [
        (
            "81 00 00 00 02 FF FF FF FF",
            "45 at 0",
            "the start of page 2",
            "page 1: pages are numbered 1, 2, 3 on",
        ),
        ("86 00 00 00 01 00 00 00 01", "45 at 9", "a rule at x 0, y 0, on page 1", "no rule"),
        ("9C 88 00", "45 at 10", "character 0 of font 2 at x 0, y 0, on page 1", "a character of 1 to 108"),
        ("89 00 00 00 78 88 01", "45 at 14", "character 1 of font 120", "a font of 0 to 119"),
        (
            "9C 90 00 05 88 01",
            "45 at 13",
            "character 1 of font 2 at x 5, y 0, on page 1",
            "a target; the nearest is x 0 (of 0 units), y 0 (of height 0)",
        ),
        (
            "9C 8F 00 80 01 94 7F FF 88 01",
            "45 at 17",
            "character 1 of font 2 at x 32769, y 32767, on page 1",
            "a target; the nearest is x 32768 (of 3 units), y 32768 (of height 1)",
        ),
        (
            "9C 8F F6 D5 55 88 01",
            "45 at 14",
            "character 1 of font 2 at x -600747, y 0, on page 1",
            "a target; the nearest is x 0 (of 0 units), y 0 (of height 0)",
        ),
    ];
    for (commands, refusal, shown, expected) in rows {
        let mut dvi = hex("81 00 00 00 01 FF FF FF FF");
        match hex(commands) {
            page if page[0] == 0x81 => dvi = page,
            commands => dvi.extend(commands),
        }
        dvi.push(130);
        let pst = dvi.len() as u32;
        dvi.extend(hex("83 00 00 00 00 00 00 00 00 00 00 00 00 FF FF FF FF"));
        dvi.extend(pst.to_be_bytes());
        dvi.extend(hex("00 DF DF DF DF"));
        fs::write(folder.join("a.dvi"), dvi).unwrap();
        let run = run(&folder, &["back", "a.dvi"]);
        assert_eq!((run.status, run.text().as_str()), (1, ""), "{commands}");
        for part in [
            &format!("refused {refusal}: "),
            &format!("\n  shown: {shown}"),
            &format!("\n  expected: {expected}"),
        ] {
            assert!(run.err.contains(part.as_str()), "{}", run.err);
        }
    }
    assert_eq!(names(&folder), ["a.dvi"]);
}
