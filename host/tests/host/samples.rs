//! The files in samples/ are what their README says.

use spatecanter::sample::{chart, codes, pages, stations, stations_widths, yearbook, STATIONS_SPACING};
use spatecanter::sheet::Field;
use spatecanter::{Machine, Refusal};
use std::fs;
use std::os::unix::fs::symlink;
use std::path::Path;
use std::process::Command;

fn sample(name: &str) -> Vec<u8> {
    std::fs::read(Path::new(env!("CARGO_MANIFEST_DIR")).join("../samples").join(name)).unwrap()
}

#[test]
fn the_yearbook_is_made_by_the_generator() {
    let tape = sample("yearbook.tape");
    assert!(tape == yearbook(Machine::Eight, 1980, 6_400));
    let galley = spatecanter::read_tape(&tape, Machine::Eight).unwrap();
    assert_eq!(spatecanter::check_galley(&galley), Ok(2_628));
    let reprint = spatecanter::reprint(&galley, &[]).unwrap();
    assert_eq!((galley.len(), reprint.dvi.len(), reprint.sheet.len()), (28_915, 16_090, 42_062));
}

#[test]
fn the_pages_are_made_by_the_generator() {
    let tape = sample("pages.tape");
    assert!(tape == pages(1980, 8));
    let galley = spatecanter::read_tape(&tape, Machine::Eight).unwrap();
    assert_eq!(spatecanter::check_galley(&galley), Ok(628));
    let reprint = spatecanter::reprint(&galley, &[]).unwrap();
    assert_eq!((galley.len(), reprint.dvi.len(), reprint.sheet.len()), (6_921, 3_940, 10_076));
    let starts: Vec<(usize, Field)> =
        reprint.sheet.fields().enumerate().filter(|(_, field)| matches!(field, Field::Page(_))).collect();
    assert_eq!(starts, [(0, Field::Page(1)), (335, Field::Page(2)), (336, Field::Page(3))]);
}

/// A 4-font tape of the yearbook's first lines: its galley is the start of the yearbook's.
#[test]
fn the_four_font_tape_is_made_by_the_generator() {
    let tape = sample("four.tape");
    assert!(tape == yearbook(Machine::Four, 1980, 2_400));
    let galley = spatecanter::read_tape(&tape, Machine::Four).unwrap();
    assert_eq!(spatecanter::check_galley(&galley), Ok(982));
    let whole = spatecanter::read_tape(&sample("yearbook.tape"), Machine::Eight).unwrap();
    assert!(galley[..11 * 982] == whole[..11 * 982]);
    let reprint = spatecanter::reprint(&galley, &[]).unwrap();
    assert_eq!((galley.len(), reprint.dvi.len(), reprint.sheet.len()), (10_809, 6_065, 15_726));
}

#[test]
fn each_tape_on_the_other_machine() {
    let galley = spatecanter::read_tape(&sample("four.tape"), Machine::Eight).unwrap();
    let in_font = |font| galley.characters().filter(|it| it.font() == font).count();
    assert_eq!([2, 4, 6].map(in_font), [728, 106, 148]);
    let refused = spatecanter::read_tape(&sample("yearbook.tape"), Machine::Four);
    assert_eq!(refused, Err(Refusal::IllegalCode { place: 3 }));
}

/// A column longer than DVI can hold: a galley, but no DVI file.
#[test]
fn the_chart_is_made_by_the_generator() {
    let tape = sample("chart.tape");
    assert!(tape == chart(1980, 70_000));
    let galley = spatecanter::read_tape(&tape, Machine::Eight).unwrap();
    assert_eq!((galley.len(), spatecanter::check_galley(&galley)), (2_504, Ok(227)));
    assert_eq!(galley.characters().last().unwrap().height, 70_000);
    let first = galley.characters().position(|it| it.height > 65_535).unwrap();
    let refused = Refusal::HeightTooGreat { place: 11 * first };
    assert_eq!(spatecanter::write_dvi(&galley), Err(refused));
    assert_eq!(spatecanter::reprint(&galley, &[]), Err(refused));
}

/// The second edition of the pages and of the chart.
#[test]
fn the_dvi_files_are_of_the_second_edition() {
    for (name, length) in [("pages", 3_044), ("chart", 1_776)] {
        let galley = spatecanter::read_tape(&sample(&format!("{name}.tape")), Machine::Eight).unwrap();
        let dvi = sample(&format!("{name}.dvi"));
        assert_eq!(dvi.len(), length);
        assert!(spatecanter::write_dvi2(&galley).unwrap() == dvi);
        assert!(spatecanter::read_dvi2(&dvi).unwrap() == galley);
    }
}

/// The galley of the three pages in the old form.
#[test]
fn the_shelf_is_converted() {
    let shelf = sample("shelf.galley");
    assert_eq!(spatecanter::check_galley(&shelf), Err(Refusal::GalleyMalformed { place: 0 }));
    let galley = spatecanter::read_tape(&sample("pages.tape"), Machine::Eight).unwrap();
    assert_eq!((shelf.len(), galley.len()), (5_665, 6_921));
    assert!(spatecanter::galley_to_new(&shelf).unwrap() == galley);
    assert!(spatecanter::galley_to_old(&galley).unwrap() == shelf);
}

/// Two pages of XGP character mode, with their widths.
#[test]
fn the_stations_are_made_by_the_generator() {
    let file = sample("stations.xgp");
    assert!(file == stations(1980, 5_000));
    let widths = stations_widths();
    let bytes: Vec<u8> = widths.iter().flat_map(|width| width.to_be_bytes()).collect();
    assert!(bytes == sample("stations.widths"));
    let sheet = spatecanter::read_xgp(&file, STATIONS_SPACING, &widths).unwrap();
    assert_eq!((sheet.len(), sheet.fields().count()), (34_005, 2_126));
    let starts: Vec<Field> = sheet.fields().filter(|field| matches!(field, Field::Page(_))).collect();
    assert_eq!(starts, [Field::Page(1), Field::Page(2)]);
    for short in [&widths[..511], &[]] {
        let refused = spatecanter::read_xgp(&file, STATIONS_SPACING, short);
        assert_eq!(refused, Err(Refusal::WidthsNotWhole));
    }
}

#[test]
fn the_damaged_tape_has_lost_a_bit() {
    let (tape, damaged) = (sample("yearbook.tape"), sample("damaged.tape"));
    let places: Vec<usize> = (0..tape.len()).filter(|&place| tape[place] != damaged[place]).collect();
    assert_eq!(places, [3_002]);
    assert_eq!((tape[3_002], damaged[3_002]), (0x48, 0x08));
    assert_eq!(spatecanter::read_tape(&damaged, Machine::Eight), Err(Refusal::OutOfRange { place: 3_007 }));
}

#[test]
fn p3_gives_two_characters() {
    let galley = spatecanter::read_tape(&sample("p3.tape"), Machine::Eight).unwrap();
    assert_eq!(spatecanter::check_galley(&galley), Ok(2));
    assert_eq!(spatecanter::write_dvi(&galley).unwrap().len(), 59);
}

#[test]
fn the_code_table_is_made_by_the_generator() {
    assert!(sample("yearbook.codes") == codes().into_bytes());
}

/// The blocks of the README: each a list of commands with what they write.
fn transcripts(readme: &str) -> Vec<Vec<(String, String)>> {
    let blocks = readme.split("\n```\n").skip(1).step_by(2);
    blocks.map(|block| block.split("$ ").skip(1).map(command_and_text).collect()).collect()
}

fn command_and_text(part: &str) -> (String, String) {
    let (command, text) = part.split_once('\n').unwrap_or((part, ""));
    (command.into(), text.trim_end().into())
}

/// A folder that looks like the root of the repository to who reads the samples' README.
fn root_for_readers() -> std::path::PathBuf {
    let root = Path::new(env!("CARGO_TARGET_TMPDIR")).join("samples_readme");
    let _ = fs::remove_dir_all(&root);
    fs::create_dir_all(root.join("target/staticlib")).unwrap();
    let host = Path::new(env!("CARGO_MANIFEST_DIR"));
    symlink(env!("CARGO_BIN_EXE_spatecanter"), root.join("spatecanter")).unwrap();
    symlink(host, root.join("host")).unwrap();
    symlink(host.join("../samples"), root.join("samples")).unwrap();
    symlink(env!("SPATECANTER_LIBRARY"), root.join("target/staticlib/libspatecanter.a")).unwrap();
    root
}

#[test]
fn the_picture_is_that_of_the_yearbook() {
    let host = Path::new(env!("CARGO_MANIFEST_DIR"));
    let output = Command::new(env!("CARGO_BIN_EXE_spatecanter"))
        .args(["plot", "samples/yearbook.tape", "--codes", "samples/yearbook.codes", "-o", "-"])
        .current_dir(host.join(".."))
        .output()
        .unwrap();
    assert!(output.stdout == sample("yearbook.svg"));
}

/// Every command of the README writes what the README says, in one folder, from top to bottom.
#[test]
fn the_readme_tells_what_happens() {
    let root = root_for_readers();
    let readme = String::from_utf8(sample("README.md")).unwrap();
    let transcripts = transcripts(&readme);
    assert!(transcripts.len() > 8);
    for transcript in transcripts {
        let commands: String =
            transcript.iter().map(|(command, _)| format!("{command}\ns=$?; echo @@; (exit $s)\n")).collect();
        let script = format!("exec 2>&1\n{commands}");
        let output = Command::new("sh").args(["-c", &script]).current_dir(&root).output().unwrap();
        let text = String::from_utf8(output.stdout).unwrap();
        for ((command, expected), written) in transcript.iter().zip(text.split("@@\n")) {
            assert_eq!(written.trim_end(), expected, "{command}");
        }
    }
}
