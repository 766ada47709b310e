//! DVI files of the second edition, as DVItype of TeX Live lists them.

use spatecanter::galley::{font_name, Character};
use spatecanter::Galley;
use std::fs;
use std::io::Write;
use std::path::{Path, PathBuf};
use std::process::Command;

/// The pages of each sample: what DVItype lists is what the galley has, and it complains of nothing. Without
/// DVItype nothing is compared, and a line says so.
#[test]
fn dvitype_lists_what_the_galleys_have() {
    let say = |text: &str| writeln!(std::io::stdout().lock(), "dvitype: {text}").unwrap();
    if Command::new("dvitype").arg("--version").output().is_err() {
        return say("not there (package texlive-binaries): the comparison is left out");
    }
    let folder = Path::new(env!("CARGO_TARGET_TMPDIR")).join("dvitype");
    fs::create_dir_all(&folder).unwrap();
    (0..120).for_each(|font| write_metrics(&folder, font));
    let samples = Path::new(env!("CARGO_MANIFEST_DIR")).join("../samples");
    let mut characters = 0;
    for name in ["p3", "yearbook", "pages", "chart"] {
        let tape = fs::read(samples.join(format!("{name}.tape"))).unwrap();
        let galley = spatecanter::read_tape(&tape, spatecanter::Machine::Eight).unwrap();
        characters += compare(&folder, name, &galley);
    }
    characters += compare(&folder, "every_font", &every_font());
    say(&format!("{characters} characters are listed as the galleys have them"));
}

/// A character of each font, with cuts between some, at the ends of x and height.
fn every_font() -> Galley {
    let mut galley = Vec::new();
    for font in 0..120_u8 {
        let [farthest, nearest] = if font % 15 < 9 { [3_239_i16, 0] } else { [3_184, -55] };
        let [x1, x2] = if font % 2 == 0 { farthest } else { nearest }.to_be_bytes();
        let [a, b, c, d] = (1_000_000 / 119 * u32::from(font)).to_be_bytes();
        galley.extend([7, 0, 8, x1, x2, a, b, c, d, font, 1 + font % 108]);
        if font % 40 == 39 {
            galley.extend([6, 0, 0]);
        }
    }
    galley.extend([2, 0, 4, 0, 0, 0, 120]);
    Galley::from_bytes(galley).unwrap()
}

/// How many characters were compared.
fn compare(folder: &Path, name: &str, galley: &Galley) -> usize {
    let path = folder.join(format!("{name}.dvi"));
    fs::write(&path, spatecanter::write_dvi2(galley).unwrap()).unwrap();
    let listing = listing_of(folder, &path);
    let pages = galley.pages();
    let expected: Vec<Listed> = pages
        .iter()
        .zip(1..)
        .flat_map(|(page, number)| page.iter().map(move |it| Listed::of(number, *it)))
        .collect();
    assert_eq!(listing.pages, (1..=pages.len()).collect::<Vec<_>>(), "{name}");
    for (listed, expected) in listing.characters.iter().zip(&expected) {
        assert_eq!(listed, expected, "{name}");
    }
    assert_eq!(listing.characters.len(), expected.len(), "{name}");
    assert_eq!(listing.complaints, [""; 0], "{name}");
    expected.len()
}

/// A font's metrics: characters 1 to 108 with no width, no checksum, and the size in points of TeX, of which there
/// are 72.27 to an inch.
fn write_metrics(folder: &Path, font: i32) {
    let points = Character { x: 0, height: 0, font_number: font, code: 1 }.points();
    let size = (f64::from(points) * 72.27 / 72.0 * f64::from(1 << 20)).round() as u32;
    // Words in the file and in its head; first and last character; widths, heights, depths, italic corrections.
    let lengths: [u16; 12] = [6 + 2 + 108 + 5, 2, 1, 108, 2, 1, 1, 1, 0, 0, 0, 0];
    let mut bytes: Vec<u8> = lengths.iter().flat_map(|length| length.to_be_bytes()).collect();
    bytes.extend([0; 4]);
    bytes.extend(size.to_be_bytes());
    bytes.extend([1, 0, 0, 0].repeat(108));
    bytes.extend([0; 4 * 5]);
    fs::write(folder.join(format!("{}.tfm", font_name(font))), bytes).unwrap();
}

/// A character with its page, font, and place in units of the file.
#[derive(Debug, PartialEq)]
struct Listed {
    page: usize,
    font: String,
    code: i32,
    x: i32,
    y: i32,
}

impl Listed {
    fn of(page: usize, it: Character) -> Listed {
        Listed { page, font: font_name(it.font_number), code: it.code, x: it.x, y: 3 * it.height }
    }
}

#[derive(Default)]
struct Listing {
    pages: Vec<usize>,
    characters: Vec<Listed>,
    /// Lines that are neither a command that our writer uses nor about a good file.
    complaints: Vec<String>,
}

fn listing_of(folder: &Path, path: &PathBuf) -> Listing {
    let output = Command::new("dvitype")
        .arg("-output-level=4")
        .arg(path)
        .current_dir(folder)
        .env("TFMFONTS", folder)
        .output()
        .unwrap();
    assert!(output.status.success(), "{}", String::from_utf8_lossy(&output.stderr));
    let text = String::from_utf8_lossy(&output.stdout);
    let (_, body) = text.split_once("Postamble starts at byte").expect("DVItype reads the postamble first");
    let mut listing = Listing::default();
    let (mut font, mut x, mut y) = (String::new(), 0, 0);
    for line in body.lines().skip(1).map(str::trim_end) {
        let words: Vec<&str> = line.split(' ').collect();
        match words[..] {
            [_, "beginning", "of", "page", number] => {
                listing.pages.push(number.parse().unwrap());
                (font, x, y) = (String::new(), 0, 0);
            }
            [_, command, .., "current", "font", "is", name] if command.starts_with("fnt") => {
                font = name.into()
            }
            [_, command, _, sum, _] if command.starts_with("right") => x = result(sum),
            [_, command, _, sum, _] if command.starts_with("down") => y = result(sum),
            [_, "put1", code] => {
                let (page, code) = (listing.pages.len(), code.parse().unwrap());
                listing.characters.push(Listed { page, font: font.clone(), code, x, y });
            }
            [_, "fntdef1", _, _] | [_, "eop"] | [""] => {}
            _ if is_good(line) => {}
            _ => listing.complaints.push(line.into()),
        }
    }
    listing
}

/// What a sum comes to, as in h:=3+4=7,
fn result(sum: &str) -> i32 {
    sum.trim_end_matches(',').rsplit('=').next().unwrap().parse().unwrap()
}

/// The postamble's numbers, a font that was found, and the text of a line.
fn is_good(line: &str) -> bool {
    line.starts_with("maxv=")
        || line.starts_with("Font ") && line.contains("---loaded at size ") && line.ends_with(" DVI units")
        || line.starts_with('[') && line.ends_with(']')
}
