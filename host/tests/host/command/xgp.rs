//! The command xgp.

use super::*;
use crate::plain;

/// A folder with a table of these widths.
fn with_widths(name: &str, widths: &[i32]) -> PathBuf {
    let folder = folder(name);
    let bytes: Vec<u8> = widths.iter().flat_map(|width| width.to_be_bytes()).collect();
    fs::write(folder.join("a.widths"), bytes).unwrap();
    folder
}

/// The command on a file of these bytes.
fn xgp(folder: &Path, bytes: &[u8], words: &[&str]) -> Run {
    fs::write(folder.join("a.xgp"), bytes).unwrap();
    run(folder, &[&["xgp", "a.xgp", "--widths", "a.widths", "--force"], words].concat())
}

/// A line, a raised figure in font 2, and a page after an empty one.
const FILE: &[u8] = b"AB\x7F\x01\x02\x7F\x01\x23\x0C1\x0D\x0A\x0C\x0CC";

#[test]
fn a_sheet_is_written_and_told() {
    let folder = with_widths("xgp", &[20; 512]);
    let made = xgp(&folder, FILE, &["--spacing", "40"]);
    assert_eq!(
        (made.status, made.err.as_str(), made.text().as_str()),
        (
            0,
            "a.xgp.sheet: 4 characters on 2 pages, the last numbered 3\n  farthest x 40 dots\n  greatest y 40 \
             scan lines\n  fonts 0 2\n",
            ""
        )
    );
    let sheet = fs::read(folder.join("a.xgp.sheet")).unwrap();
    assert_eq!(Ok(sheet), plain::read_xgp(FILE, 40, &[20; 512]));
    let listed = run(&folder, &["sheet", "a.xgp.sheet"]).text();
    let lines = [
        "page 1",
        "char 0 40 0 65",
        "char 20 40 0 66",
        "char 40 28 2 49",
        "page 3",
        "char 0 28 2 67",
        "end 6",
    ];
    assert_eq!(listed.lines().collect::<Vec<_>>(), lines);
    // Through pipes.
    let words = ["xgp", "-", "--spacing=40", "--widths=a.widths"];
    let piped = run_on(&folder, &words, FILE);
    assert_eq!((piped.status, piped.err.as_str()), (0, ""));
    assert!(piped.out == fs::read(folder.join("a.xgp.sheet")).unwrap());
    // A file without characters.
    let empty = xgp(&folder, &[0, 0o14], &["--spacing", "0", "-o", "b"]);
    assert_eq!((empty.status, empty.err.as_str()), (0, "b: 0 characters\n"));
    assert_eq!(fs::read(folder.join("b")).unwrap(), hex("02 00 04 00 00 00 00"));
}

#[test]
fn refusals_tell_the_code() {
    let folder = with_widths("xgp_refused", &[20; 512]);
    let rows: [(&[u8], &str); 12] = [
        (b"A\x08", "60 at 1: |  at offset 1 (hexadecimal 1): bytes 08 (10 octal), backspace\n  expected: a code that is read"),
        (b"\x09", "60 at 0: |: bytes 09 (11 octal), TAB\n"),
        (b"A\x7F\x03\x01", "60 at 1: |: bytes 7F 03 (177 3 octal), XGP ESCAPE 3, the scan line to start on\n"),
        (b"\x7F\x01\x28A", "60 at 0: |: bytes 7F 01 28 (177 1 50 octal), intercharacter spacing\n"),
        (b"A\xE9", "60 at 1: |: bytes E9 (351 octal), which is no code\n  expected: bytes to 127 (177 octal)\n"),
        (b"\x7F\x01\x20\x80\x01", "60 at 0: |: bytes 7F 01 20 80 01 (177 1 40 200 1 octal), XGP column selector\n  expected: bytes to 127"),
        (b"\x7F\x08", "61 at 0: a reserved or unlisted code\n|: bytes 7F 08 (177 10 octal), an escape that is reserved for future use\n"),
        (b"\x7F\x01\x04", "61 at 0: |: bytes 7F 01 04 (177 1 4 octal), an operation that is reserved"),
        (b"\x7F\x01\x29", "61 at 0: |: bytes 7F 01 29 (177 1 51 octal), an operation that is not listed\n"),
        (b"A\x7F\x01\x20\x05", "62 at 1: |: bytes 7F 01 20 05 (177 1 40 5 octal), XGP column selector\n  expected: the rest of the code\n"),
        (b"\x7F", "62 at 0: |: bytes 7F (177 octal), ESCAPE alone\n"),
        (b"A\x7F\x02", "62 at 1: |: bytes 7F 02 (177 2 octal), XGP ESCAPE 2, a column increment\n"),
    ];
    for (bytes, what) in rows {
        let refused = xgp(&folder, bytes, &["--spacing", "40"]);
        assert_eq!(refused.status, 1, "{bytes:?}");
        let (start, rest) = what.split_once('|').unwrap();
        assert!(refused.err.starts_with(&format!("spatecanter: a.xgp: refused {start}")), "{}", refused.err);
        assert!(refused.err.contains(rest), "{}", refused.err);
    }
    assert_eq!(names(&folder), ["a.widths", "a.xgp"]);
}

#[test]
fn refusals_tell_where_the_file_stands() {
    let mut widths = [0; 512];
    widths[0o101] = i32::MAX;
    let folder = with_widths("xgp_far", &widths);
    let x = xgp(&folder, b"B\x0AA\x7F\x02\x01", &["--spacing", "40"]);
    assert!(
        x.err.contains(
            "refused 28 at 3: x or y leaves 32 bits\n  at offset 3 (hexadecimal 3): bytes 7F 02 01 "
        ),
        "{}",
        x.err
    );
    assert!(x.err.contains("to 2,147,483,647; it stands at x 2147483647, baseline 80\n"), "{}", x.err);
    let y = xgp(&folder, &[0o12; 40_000], &["--spacing", "65535"]);
    assert!(y.err.contains("bytes 0A (12 octal), LF\n"), "{}", y.err);
    assert!(
        y.err.contains("refused 28 at 32767: ") && y.err.contains("it stands at x 0, baseline 2147450880\n")
    );
}

#[test]
fn refusals_of_widths_name_their_file() {
    let folder = with_widths("xgp_widths", &[1; 384]);
    let short = xgp(&folder, b"A", &["--spacing", "40"]);
    assert_eq!(short.status, 1);
    assert!(short.err.starts_with("spatecanter: a.widths: refused 31 at 0: the width table is not "));
    assert!(short
        .err
        .ends_with("\n  it has 384 numbers\n  expected: 512, of which 128 for each of the fonts 0 to 3\n"));
    let mut widths = [1; 512];
    widths[128 + 0o101] = -7;
    let folder = with_widths("xgp_widths", &widths);
    let negative = xgp(&folder, b"A", &["--spacing", "40"]);
    assert_eq!(
        (negative.status, negative.err.as_str()),
        (
            1,
            "spatecanter: a.widths: refused 63 at 0: a negative width\n  character 65 (101 octal) of font 1 has -7\n  \
             expected: 0 or more\n"
        )
    );
}

#[test]
fn wrong_usage_of_xgp() {
    let folder = with_widths("xgp_usage", &[1; 512]);
    fs::write(folder.join("odd.widths"), [0; 5]).unwrap();
    fs::write(folder.join("a.xgp"), b"A").unwrap();
    let rows: [(&[&str], &str); 9] = [
        (
            &["a.xgp", "--spacing", "40"],
            "an XGP file does not say the widths of its fonts, --widths FILE\nUsage: ",
        ),
        (
            &["a.xgp", "--widths", "a.widths"],
            "an XGP file does not say its line spacing, --spacing N\nUsage: ",
        ),
        (&["a.xgp", "--widths", "a.widths", "--spacing", "65536"], "--spacing 65536 is no line spacing: "),
        (&["a.xgp", "--widths", "a.widths", "--spacing=-1"], "--spacing -1 is no line spacing: "),
        (
            &["a.xgp", "--widths", "a.widths", "--spacing=40", "--machine=8"],
            "--machine is no option of xgp\n",
        ),
        (
            &["-", "--widths", "-", "--spacing=40"],
            "the XGP file and the widths cannot both be standard input\n",
        ),
        (
            &["a.xgp", "--widths", "odd.widths", "--spacing=40"],
            "odd.widths: the width table is 5 bytes, no whole ",
        ),
        (&["a.xgp", "--widths", "b.widths", "--spacing=40"], "cannot read b.widths: "),
        (
            &["a.xgp", "--widths", "a.widths", "--spacing=40", "-o", "a.widths"],
            "a.widths is an input, and is not ",
        ),
    ];
    for (words, what) in rows {
        let wrong = run(&folder, &[&["xgp"], words].concat());
        assert_eq!((wrong.status, wrong.text().as_str()), (2, ""), "{words:?}");
        assert!(wrong.err.starts_with(&format!("spatecanter: {what}")), "{words:?}: {}", wrong.err);
    }
    assert_eq!(names(&folder), ["a.widths", "a.xgp", "odd.widths"]);
}

#[test]
fn a_longer_xgp_file() {
    let folder = with_widths("xgp_long", &[1; 512]);
    let long = xgp(&folder, &vec![0; spatecanter::XGP_LIMIT + 1], &["--spacing", "40"]);
    assert_eq!(long.status, 1);
    assert_eq!(long.err, "spatecanter: a.xgp: refused 20 at 0: the file is longer than 33,554,432 bytes, or as DVI of the second edition 67,108,864\n");
}
