//! The largest inputs, and one byte more of each, in a thread with a stack of 256 KB.

use crate::cases;
use crate::compare::Comparison;
use crate::implementation::{Implementation, BRACKETS, LIBRARY, QUICK};
use crate::plain;
use spatecanter::sample::{
    book, book_widths, chart, stations, stations_widths, yearbook, Random, STATIONS_SPACING,
};
use spatecanter::{
    Machine, DVI2_LIMIT, DVI_LIMIT, GALLEY_LIMIT, OLD_GALLEY_LIMIT, SHEET_LIMIT, TAPE_LIMIT, XGP_LIMIT,
};

/// Characters and cuts in a galley, together.
const ITEMS: usize = 1_048_576;
const STACK: usize = 256 * 1024;

#[test]
fn library_takes_the_largest_inputs() {
    on_a_small_stack(LIBRARY);
}

#[test]
fn quick_version_takes_the_largest_inputs() {
    on_a_small_stack(QUICK);
}

/// The 200 groups in one another that a page may have, too.
#[test]
fn plain_reader_takes_the_largest_inputs() {
    with_a_small_stack(|| {
        let mut comparison = Comparison::new(BRACKETS, 432).with_exact_room();
        each_dvi_file(|dvi, widths| comparison.read_dvi(dvi, widths));
        comparison.print();
        needs_the_largest_sheet(BRACKETS);
    });
}

fn on_a_small_stack(implementation: Implementation) {
    with_a_small_stack(move || {
        let mut comparison = Comparison::new(implementation, 432).with_exact_room();
        tapes(&mut comparison);
        in_pieces(&mut comparison);
        galleys(&mut comparison);
        galleys_with_cuts(&mut comparison);
        long_columns(&mut comparison);
        punches(&mut comparison);
        conversions(&mut comparison);
        each_dvi_file(|dvi, widths| comparison.dvi(dvi, widths));
        xgp_files(&mut comparison);
        back_to_galleys(&mut comparison);
        second_edition(&mut comparison);
        reports(&mut comparison);
        comparison.print();
        needs_the_largest_sheet(implementation);
        needs_the_largest_xgp_sheet(implementation);
    });
}

fn with_a_small_stack(work: impl FnOnce() + Send + 'static) {
    std::thread::Builder::new().stack_size(STACK).spawn(work).unwrap().join().unwrap();
}

fn tapes(comparison: &mut Comparison) {
    for machine in [Machine::Four, Machine::Eight] {
        let mut tape = yearbook(machine, 7, TAPE_LIMIT);
        comparison.tape_on_both(&tape);
        comparison.tape(&tape, 5);
        tape.push(0);
        comparison.tape_on_both(&tape);
        comparison.tape(&tape, 5);
    }

    let mut flashes = vec![0x2A; TAPE_LIMIT];
    flashes[..3].copy_from_slice(&[0x40, 0xEF, 0x52]);
    comparison.tape_on_both(&flashes);
    flashes[TAPE_LIMIT - 1] = 0x49;
    comparison.tape_on_both(&flashes);
    for illegal in [0x4F, 0xFF] {
        flashes[TAPE_LIMIT - 2] = illegal;
        comparison.tape_on_both(&flashes);
    }

    let mut cuts = [0x40, 0x4B].repeat(TAPE_LIMIT / 2);
    comparison.tape_on_both(&cuts);
    cuts[TAPE_LIMIT - 1] = 0x49;
    comparison.tape_on_both(&cuts);
    cuts[TAPE_LIMIT - 2] = 0x00;
    comparison.tape_on_both(&cuts);
}

/// A tape to the limit in pieces of several lengths, and with one byte more; 1 comes before a fault of its piece.
fn in_pieces(comparison: &mut Comparison) {
    let tape = yearbook(Machine::Eight, 7, TAPE_LIMIT);
    for length in [TAPE_LIMIT, 65_536, 4_096, 511] {
        let mut pieces: Vec<&[u8]> = tape.chunks(length).collect();
        comparison.in_pieces(&pieces, 8);
        pieces.push(&[]);
        comparison.in_pieces(&pieces, 8);
        pieces.push(&[0]);
        comparison.in_pieces(&pieces, 8);
    }
    comparison.in_pieces(&[&tape[..1], &tape], 8);
    let flashes = [&[0x40, 0xEF, 0x52][..], &vec![0x2A; TAPE_LIMIT - 4], &[0x49]].concat();
    comparison.in_pieces(&[&flashes], 4);
    comparison.in_pieces(&[&flashes, &[0xFF]], 4);
    comparison.in_pieces(&flashes.chunks(1_000).collect::<Vec<_>>(), 8);
    let cuts = [0x40, 0x4B].repeat(TAPE_LIMIT / 2);
    comparison.in_pieces(&cuts.chunks(999).collect::<Vec<_>>(), 8);
}

/// The longest tapes of text, of flashes and of leads, and one byte more; then as many tapes as a report takes,
/// and one more.
fn reports(comparison: &mut Comparison) {
    let mut report = [0; 135];
    for code in [0x2A, 0x60, 0x7F, 0x80] {
        let mut tape = vec![code; TAPE_LIMIT];
        tape[..3].copy_from_slice(&[0x40, 0xEF, 0x52]);
        tape[TAPE_LIMIT - 1] = 0x49;
        comparison.count_tape(&tape, 8, &mut report);
        tape.push(0);
        comparison.count_tape(&tape, 8, &mut report);
    }
    // Up and down to the end: more lead than any height.
    let mut tape = [0x4A, 0x60, 0x4C, 0x60].repeat(TAPE_LIMIT / 4);
    tape[0] = 0x40;
    tape[TAPE_LIMIT - 1] = 0x49;
    comparison.count_tape(&tape, 4, &mut report);
    for machine in [Machine::Four, Machine::Eight] {
        comparison.count_tape(&yearbook(machine, 7, TAPE_LIMIT), machine.fonts(), &mut report);
    }
    while report[0] < 65_536 {
        comparison.count_tape(&[0x40, 0xEF, 0x52, 0x60, 0x01, 0x49], 8, &mut report);
    }
    comparison.count_tape(&tape, 4, &mut report);
    comparison.count_tape(&tape, 5, &mut report);
}

fn galleys(comparison: &mut Comparison) {
    let mut galley = cases::valid_galley(&mut Random::new(8), ITEMS);
    assert_eq!(galley.len(), GALLEY_LIMIT);
    comparison.galley(&galley);
    galley.push(0);
    comparison.galley(&galley);
    galley.pop();
    // A wrong count, then a bad last character, then one missing byte.
    galley[GALLEY_LIMIT - 1] ^= 1;
    comparison.galley(&galley);
    galley[GALLEY_LIMIT - 8] = 109;
    comparison.galley(&galley);
    comparison.galley(&galley[..GALLEY_LIMIT - 8]);
}

/// Cuts alone, and characters among cuts; then one cut or character more.
fn galleys_with_cuts(comparison: &mut Comparison) {
    for n in [1, 10] {
        let galley = cases::valid_galley_with_cuts(&mut Random::new(8), ITEMS, n);
        comparison.galley(&galley);
        let (fields, end) = galley.split_at(galley.len() - 7);
        for more in [&[6, 0, 0][..], &[7, 0, 8, 0, 0, 0, 0, 0, 0, 2, 1]] {
            comparison.check_galley(&[fields, more, end].concat());
            comparison.write_dvi(&[more, fields, end].concat());
        }
    }
}

/// Columns to the greatest height and one quantum more, and to the greatest that DVI holds and one more; then
/// as many characters as there can be, of which the last or each may be too high for DVI.
fn long_columns(comparison: &mut Comparison) {
    for quanta in [65_535, 65_536, 1_000_000, 1_000_001] {
        comparison.tape_on_both(&chart(8, quanta));
    }
    let mut galley = cases::valid_galley(&mut Random::new(9), ITEMS);
    let last = galley.len() - 7 - 11;
    for height in [65_535_u32, 65_536, 1_000_000, 1_000_001] {
        galley[last + 5..last + 9].copy_from_slice(&height.to_be_bytes());
        comparison.galley(&galley);
    }
    comparison.galley(&cases::tall_galley(&mut Random::new(9), ITEMS, 10));
}

/// Galleys whose tapes are as long as a tape may be, and with one character or cut more; then as many characters
/// as there can be, each as far from the last as it can be.
fn punches(comparison: &mut Comparison) {
    let ended =
        |fields: Vec<u8>, characters: u32| [&fields[..], &[2, 0, 4], &characters.to_be_bytes()].concat();
    let [low, high] =
        [[0, 0, 0, 0], [0, 0x0F, 0x42, 0x40]].map(|[a, b, c, d]| [7, 0, 8, 0, 0, a, b, c, d, 15, 1]);
    for characters in [1_048_572, 1_048_573] {
        comparison.punch(&ended(low.repeat(characters), characters as u32));
    }
    for cuts in [349_524, 349_525, ITEMS] {
        comparison.punch(&ended([6, 0, 0].repeat(cuts), 0));
    }
    comparison.punch(&ended([high, low].concat().repeat(ITEMS / 2), ITEMS as u32));
}

/// Full galleys of both forms, and with one byte, one cut or one character more; then the last character too
/// high for the old form, bad, or missing.
fn conversions(comparison: &mut Comparison) {
    for cuts in [None, Some(10), Some(1)] {
        let mut old = cases::valid_old_galley(&mut Random::new(10), ITEMS, cuts);
        let mut new = plain::to_new(&old).unwrap();
        comparison.convert(&old);
        for (galley, character) in
            [(&old, &[1, 0, 6, 0, 0, 0, 0, 2, 1][..]), (&new, &[7, 0, 8, 0, 0, 0, 0, 0, 0, 2, 1])]
        {
            let (fields, end) = galley.split_at(galley.len() - 7);
            comparison.convert(&[fields, &[6, 0, 0], end].concat());
            comparison.convert(&[character, fields, end].concat());
        }
        old.push(0);
        new.push(0);
        comparison.convert(&old);
        comparison.convert(&new);
    }
    let old = cases::valid_old_galley(&mut Random::new(11), ITEMS, None);
    let mut new = plain::to_new(&old).unwrap();
    assert_eq!((old.len(), new.len()), (OLD_GALLEY_LIMIT, GALLEY_LIMIT));
    let last = new.len() - 7 - 11;
    for height in [65_535_u32, 65_536, 1_000_001] {
        new[last + 5..last + 9].copy_from_slice(&height.to_be_bytes());
        comparison.convert(&new);
    }
    comparison.convert(&new[..last]);
    comparison.convert(&old[..old.len() - 8]);
}

fn each_dvi_file(mut take: impl FnMut(&[u8], &[i32])) {
    let widths = book_widths(9);
    let mut dvi = book(9, DVI_LIMIT);
    take(&dvi, &widths);
    dvi.push(223);
    take(&dvi, &widths);
    dvi.truncate(DVI_LIMIT - 200_000);
    take(&dvi, &widths);
    take(&empty_pages(), &[]);
    take(&one_page(&[132; 200], &[133; 200]), &[]);
    take(&one_page(&[132; 199], &[132, 133]), &[]);
    take(&long_name(), &[]);
}

/// Lists of stations to the limit, and one byte more; pages of one character, pages of none, and lines that go too
/// far down.
fn xgp_files(comparison: &mut Comparison) {
    let widths = stations_widths();
    let mut file = stations(13, XGP_LIMIT);
    comparison.read_xgp(&file, STATIONS_SPACING, &widths);
    file[XGP_LIMIT - 1] = 0o177;
    comparison.read_xgp(&file, STATIONS_SPACING, &widths);
    file.push(0o101);
    comparison.read_xgp(&file, STATIONS_SPACING, &widths);
    comparison.read_xgp(&[0o14, 0o101].repeat(XGP_LIMIT / 2), 40, &[0; 512]);
    comparison.read_xgp(&vec![0o14; XGP_LIMIT], 40, &widths);
    comparison.read_xgp(&vec![0o12; XGP_LIMIT], 63, &widths);
    comparison.read_xgp(&vec![0o12; XGP_LIMIT], 64, &widths);
}

/// The files of full galleys, and one character or one page more.
fn back_to_galleys(comparison: &mut Comparison) {
    for n in [1, 10, ITEMS] {
        let galley = cases::valid_galley_with_cuts(&mut Random::new(12), ITEMS, n);
        let dvi = plain::write_dvi(&galley).unwrap();
        assert!(plain::dvi_to_galley(&dvi, &[]).unwrap() == galley);
        comparison.dvi_to_galley(&dvi, &[]);
    }
    let mut page = vec![129, 0, 0, 0, 1, 255, 255, 255, 255, 156];
    page.extend([136, 1].repeat(ITEMS));
    for more in [&[][..], &[136, 1], &[136, 0]] {
        let mut dvi = [&page[..], more, &[130]].concat();
        postamble(&mut dvi, 0);
        comparison.dvi_to_galley(&dvi, &[]);
    }
    let end = page.len() as i32 + 1;
    let mut dvi = [&page[..], &[130, 129, 0, 0, 0, 2, 0, 0, 0, 0, 130]].concat();
    postamble(&mut dvi, end);
    comparison.dvi_to_galley(&dvi, &[]);
}

/// The files of full galleys: of text, also cut short and with a command or a page more, of any characters and
/// cuts, and of cuts alone, which is the longest. Then bytes after the longest to the limit, and one more.
fn second_edition(comparison: &mut Comparison) {
    let text = text_galley();
    comparison.write_dvi2(&text);
    let dvi = plain::write_dvi2(&text).unwrap();
    comparison.read_dvi2(&dvi);
    comparison.read_dvi2(&dvi[..dvi.len() - 1]);
    // Before the 223 stand post's place, in four bytes, and the identification.
    let end = dvi.iter().rposition(|&byte| byte != 223).unwrap();
    let post = u32::from_be_bytes(dvi[end - 4..end].try_into().unwrap()) as usize;
    for more in [&[133, 1][..], &[143, 1], &[243, 119]] {
        comparison.read_dvi2(&[&dvi[..post - 1], more].concat());
    }
    comparison.read_dvi2(&[&dvi[..post], &[139]].concat());
    comparison.read_dvi2(&plain::write_dvi2(&cases::tall_galley(&mut Random::new(13), ITEMS, 10)).unwrap());

    let mut longest = plain::write_dvi2(&cuts_alone()).unwrap();
    assert_eq!(longest.len(), 48_234_596);
    comparison.read_dvi2(&longest);
    longest.resize(DVI2_LIMIT, 223);
    comparison.read_dvi2(&longest);
    longest.push(223);
    comparison.read_dvi2(&longest);
}

/// The characters of a tape, over and over.
fn text_galley() -> Vec<u8> {
    let page = plain::read_tape(&yearbook(Machine::Eight, 7, TAPE_LIMIT), 8).unwrap();
    let mut galley: Vec<u8> = page[..page.len() - 7].iter().copied().cycle().take(11 * ITEMS).collect();
    galley.extend([2, 0, 4]);
    galley.extend((ITEMS as u32).to_be_bytes());
    galley
}

fn cuts_alone() -> Vec<u8> {
    [&[6, 0, 0].repeat(ITEMS)[..], &[2, 0, 4, 0, 0, 0, 0]].concat()
}

/// As many pages without a command as fit.
fn empty_pages() -> Vec<u8> {
    let mut dvi = Vec::with_capacity(DVI_LIMIT);
    let mut last = -1_i32;
    while dvi.len() + 10 + 26 <= DVI_LIMIT {
        let place = dvi.len() as i32;
        dvi.push(129);
        dvi.extend(place.to_be_bytes());
        dvi.extend(last.to_be_bytes());
        dvi.push(130);
        last = place;
    }
    ended(dvi, last)
}

/// A page of the same commands over and over.
fn one_page(first: &[u8], second: &[u8]) -> Vec<u8> {
    let commands = [first, second].concat();
    let mut dvi = vec![129, 0, 0, 0, 1, 255, 255, 255, 255];
    while dvi.len() + commands.len() + 1 + 26 <= DVI_LIMIT {
        dvi.extend(&commands);
    }
    dvi.push(130);
    ended(dvi, 0)
}

/// A postamble with a name that fills the file.
fn long_name() -> Vec<u8> {
    let mut dvi = vec![129, 0, 0, 0, 1, 255, 255, 255, 255, 130, 131];
    dvi.extend([0; 12]);
    dvi.extend([0, 0, 0, 2, 0, 0, 0, 2, 223]);
    dvi.resize(DVI_LIMIT - 14, 255);
    dvi.push(223);
    dvi.extend([255, 255, 255, 255, 0, 0, 0, 10, 0, 223, 223, 223, 223]);
    dvi
}

/// A postamble without fonts, and 223 to the limit.
fn ended(mut dvi: Vec<u8>, last: i32) -> Vec<u8> {
    postamble(&mut dvi, last);
    dvi.resize(DVI_LIMIT, 223);
    dvi
}

/// A postamble without fonts.
fn postamble(dvi: &mut Vec<u8>, last: i32) {
    let place = dvi.len() as i32;
    dvi.push(131);
    for number in [last, 0, 0, -1, place] {
        dvi.extend(number.to_be_bytes());
    }
    dvi.extend([0, 223, 223, 223, 223]);
}

/// The largest sheet: a font, and a character of 16 bytes for each byte that is left.
fn needs_the_largest_sheet(implementation: Implementation) {
    let mut dvi = vec![1; DVI_LIMIT - 27];
    dvi[..10].copy_from_slice(&[129, 0, 0, 0, 1, 255, 255, 255, 255, 154]);
    dvi[DVI_LIMIT - 28] = 130;
    let dvi = ended(dvi, 0);
    let needed = 7 + 16 * (DVI_LIMIT - 27 - 11) + 7;
    assert_eq!((implementation.read_dvi)(&dvi, &[0; 128], &mut []), [30, needed, 0]);
}

/// The largest sheet of an XGP file: a character of 16 bytes for each byte, a page and End.
fn needs_the_largest_xgp_sheet(implementation: Implementation) {
    let answer = (implementation.read_xgp)(&vec![0o101; XGP_LIMIT], 40, &[63; 512], &mut []);
    assert_eq!(answer, [30, SHEET_LIMIT, 0]);
    let answer = (implementation.read_xgp)(&vec![0o101; XGP_LIMIT], 40, &[64; 512], &mut []);
    assert_eq!(answer, [28, XGP_LIMIT - 1, 0]);
}
