//! The library and the quick version against the plain reading, on the same cases.

use crate::cases::{self, Form};
use crate::compare::Comparison;
use crate::implementation::{Implementation, RunningTape, Words, BRACKETS, GUARD, LIBRARY, QUICK};
use crate::plain;
use spatecanter::sample::Random;

const SEED: u64 = 1980;

#[test]
fn library_gives_what_the_plain_reading_gives() {
    compare(LIBRARY);
}

#[test]
fn quick_version_gives_what_the_plain_reading_gives() {
    compare(QUICK);
}

#[test]
fn plain_reader_gives_what_the_plain_reading_gives() {
    let mut comparison = Comparison::new(BRACKETS, SEED);
    each_dvi_file(|dvi, widths| comparison.read_dvi(dvi, widths));
    comparison.print();
    for number in [0, 31, 21, 22, 23, 24, 25, 26, 27, 28, 29, 30] {
        assert!(comparison.count("read_dvi", number) >= 20, "read_dvi gave {number} hardly ever");
    }
}

fn compare(implementation: Implementation) {
    let mut comparison = Comparison::new(implementation, SEED);
    tapes(&mut comparison);
    codes(&mut comparison);
    other_machines(&mut comparison);
    in_pieces(&mut comparison);
    galleys(&mut comparison);
    long_punches(&mut comparison);
    conversions(&mut comparison);
    each_dvi_file(|dvi, widths| comparison.dvi(dvi, widths));
    xgp_files(&mut comparison);
    shown_galleys(&mut comparison);
    second_edition(&mut comparison);
    reports(&mut comparison);
    comparison.print();
    every_number_is_met(&comparison);
}

fn tapes(comparison: &mut Comparison) {
    let mut random = Random::new(SEED + 1);
    for fonts in [4, 8] {
        for _ in 0..100_000 {
            comparison.tape_on_both(&cases::tape(&mut random, fonts));
        }
        for _ in 0..20 {
            let tape = cases::valid_tape(&mut random, fonts);
            for length in 0..=tape.len() {
                comparison.tape_on_both(&tape[..length]);
            }
        }
    }
}

/// Every code, and every two codes, after some beginnings, on both machines.
fn codes(comparison: &mut Comparison) {
    let beginnings: [&[u8]; 16] = [
        &[],
        &[0x40],
        &[0x40, 0x48],
        &[0x40, 0x52],
        &[0x40, 0xEF],
        &[0x40, 0xEF, 0x46],
        &[0x40, 0xEF, 0x46, 0x59],
        &[0x40, 0xEF, 0x52, 0x48, 0x4C],
        &[0x40, 0xEF, 0x43, 0x42, 0x5E, 0x60, 0x80],
        &[0x40, 0xEF, 0x52, 0x49],
        &[0x00, 0x4B],
        &[0x40, 0x4B],
        &[0x40, 0xEF, 0x52, 0x60, 0x4B, 0x00],
        &[0x40, 0x4B, 0x40],
        &[0x40, 0xEF, 0x52, 0x60, 0x80, 0x4C, 0x4B, 0x00, 0x40],
        &[0x40, 0xEF, 0x59, 0x60, 0x80, 0x4B, 0x40, 0xEF],
    ];
    for beginning in beginnings {
        for code in 0..=255 {
            comparison.tape_on_both(&[beginning, &[code]].concat());
            comparison.tape_on_both(&[beginning, &[code, 0x49]].concat());
        }
    }
    for first in 0..=255 {
        for second in 0..=255 {
            comparison.tape_on_both(&[0x40, 0xEF, 0x52, first, second, 0x01, 0x49]);
            comparison.tape_on_both(&[0x40, 0x52, 0x4B, first, second, 0xEF, 0x01, 0x49]);
        }
    }
}

/// Numbers near 4 and 8, with 4 or 8 in one of their bytes, the first thousand, and any.
fn other_machines(comparison: &mut Comparison) {
    let mut numbers = vec![0, 1, 2, 3, 5, 6, 7, 9, 12, 16, 48, 84, 256, u32::MAX];
    for n in [4_u32, 8] {
        numbers.extend([n << 8, n << 16, n << 24, !n, n.wrapping_neg()]);
        numbers.extend([0x100, 0x1_0000, 0x100_0000, 0x8000_0000].map(|high| high + n));
    }
    let mut random = Random::new(SEED + 4);
    for number in numbers {
        for tape in [&[][..], &[0x00], &[0xFF], &[0x4E], &[0x01], &[0x40, 0x49], &[0x40, 0x4B]] {
            comparison.tape(tape, number);
        }
        for fonts in [4, 8] {
            for _ in 0..200 {
                comparison.tape(&cases::tape(&mut random, fonts), number);
            }
        }
    }
    for number in 0..1_000 {
        comparison.tape(&cases::valid_tape(&mut random, 4), number);
    }
    for _ in 0..10_000 {
        comparison.tape(&cases::tape(&mut random, 8), random.bits() as u32);
    }
}

/// Tapes cut into pieces anywhere, some of them empty; and one cut at each place.
fn in_pieces(comparison: &mut Comparison) {
    let mut random = Random::new(SEED + 6);
    for fonts in [4, 8] {
        for _ in 0..30_000 {
            let tape = cases::tape(&mut random, fonts);
            let machine = random.pick(&[fonts, fonts, fonts, 4, 8, 5]);
            comparison.in_pieces(&cut(&tape, &mut random), machine);
        }
        for _ in 0..20 {
            let tape = cases::valid_tape(&mut random, fonts);
            for place in 0..=tape.len() {
                comparison.in_pieces(&[&tape[..place], &tape[place..]], fonts);
                comparison.in_pieces(&[&tape[..place]], fonts);
            }
        }
    }
}

fn cut<'a>(tape: &'a [u8], random: &mut Random) -> Vec<&'a [u8]> {
    let mut pieces = Vec::new();
    let mut rest = tape;
    while !rest.is_empty() || random.below(4) == 0 {
        let length = random.pick(&[0, 1, 1, 2, 3, 8, 40]).min(rest.len());
        let (piece, after) = rest.split_at(length);
        pieces.push(piece);
        rest = after;
    }
    pieces
}

/// Of words that no call has made: a call answers, and a refusal changes no lent byte.
#[test]
fn any_words_are_answered() {
    let mut random = Random::new(SEED + 7);
    let mut refusals = 0;
    for _ in 0..100_000 {
        let mut words = Words([GUARD; crate::ffi::TAPE_WORDS + 2]);
        let last = words.0.len() - 1;
        for word in &mut words.0[1..last] {
            *word = match random.below(3) {
                0 => random.bits(),
                1 => random.below(3) as u64,
                _ => 0x8000_0000 + random.bits() % 4_000,
            };
        }
        words.0[1] = random.pick(&[0, 1, 1, 1, 2, 3]);
        let piece = cases::tape(&mut random, 8);
        let mut out = vec![0xA5; 11 * piece.len() + 7];
        let answer = match random.below(4) {
            0 => words.close(&mut out),
            _ => words.feed(&piece, &mut out),
        };
        if answer[0] != 0 {
            refusals += 1;
            assert!(answer[2] == 0 && out.iter().all(|&byte| byte == 0xA5), "{:?}", words.0);
        }
    }
    assert!(refusals >= 20_000);
}

/// Lists of tapes of all kinds and machines, each also in another order; reports that nobody counted, and
/// full ones.
fn reports(comparison: &mut Comparison) {
    let mut random = Random::new(SEED + 7);
    let mut all = [0; 135];
    for _ in 0..200 {
        let mut tapes = Vec::new();
        for _ in 0..random.below(100) {
            let fonts = random.pick(&[4, 8]);
            let machine = if random.one_in(20) { random.pick(&[0, 5, 7, 80, u32::MAX]) } else { fonts };
            tapes.push((cases::tape(&mut random, fonts), machine));
        }
        let report = counted(comparison, &tapes);
        for index in (1..tapes.len()).rev() {
            tapes.swap(index, random.below(index + 1));
        }
        assert_eq!(report, counted(comparison, &tapes), "another order of the tapes");
        all.iter_mut().zip(report).for_each(|(sum, word)| *sum += word);
    }
    // These tapes are too short for 1; under all other numbers some were counted, and lead both ways.
    assert!((0..13).chain(133..135).all(|word| word == 2 || all[word] >= 20), "{all:?}");
    for _ in 0..2_000 {
        let mut report = [0; 135];
        report.fill_with(|| random.bits() >> random.below(64));
        report[0] = random.pick(&[0, 65_535, 65_536, 65_537, u64::MAX]);
        let fonts = random.pick(&[4, 8]);
        comparison.count_tape(&cases::tape(&mut random, fonts), fonts, &mut report);
    }
}

fn counted(comparison: &mut Comparison, tapes: &[(Vec<u8>, u32)]) -> [u64; 135] {
    let mut report = [0; 135];
    for (tape, machine) in tapes {
        comparison.count_tape(tape, *machine, &mut report);
    }
    let refused: u64 = report[2..13].iter().sum();
    assert_eq!([report[0], report[1] + refused], [tapes.len() as u64; 2]);
    report
}

fn galleys(comparison: &mut Comparison) {
    let mut random = Random::new(SEED + 2);
    for _ in 0..50_000 {
        comparison.galley(&cases::galley(&mut random));
    }
    for characters in [0, 1, 2, 5, 70, 200] {
        let galley = cases::valid_galley(&mut random, characters);
        each_part_and_change(comparison, &galley, &mut random);
    }
    for (items, n) in [(1, 1), (5, 3), (70, 2), (200, 20), (200, 100)] {
        let galley = cases::valid_galley_with_cuts(&mut random, items, n);
        each_part_and_change(comparison, &galley, &mut random);
    }
    for (items, n) in [(2, 1_000), (70, 10), (200, 100)] {
        let galley = cases::tall_galley(&mut random, items, n);
        each_part_and_change(comparison, &galley, &mut random);
    }
    let galley = cases::valid_galley(&mut random, 2);
    let with_cuts = [&[6, 0, 0], &galley[..11], &[6, 0, 0, 6, 0, 0], &galley[11..]].concat();
    for value in 0..=255 {
        each_byte_set(&galley, value, |galley| comparison.check_galley(galley));
        each_byte_set(&with_cuts, value, |galley| comparison.check_galley(galley));
        each_byte_set(&with_cuts, value, |galley| comparison.write_dvi(galley));
    }
    heights(comparison, &with_cuts);
}

/// The second character at heights next to every limit, and next to every power of 2.
fn heights(comparison: &mut Comparison, galley: &[u8]) {
    let powers = (0..32).map(|bit| 1_u32 << bit);
    for height in [1, 65_536, 1_000_000, 1_000_001].into_iter().chain(powers) {
        for height in height - 1..=height.saturating_add(1) {
            let mut galley = galley.to_vec();
            galley[20 + 5..20 + 9].copy_from_slice(&height.to_be_bytes());
            comparison.galley(&galley);
        }
    }
}

/// A galley ended anywhere, and with each byte changed.
fn each_part_and_change(comparison: &mut Comparison, galley: &[u8], random: &mut Random) {
    for length in 0..=galley.len() {
        comparison.galley(&galley[..length]);
    }
    each_byte_changed(galley, random, |galley| comparison.galley(galley));
}

/// Galleys whose tapes have some bytes less or more than a tape may have: up and down the longest column, then
/// characters in one place, a byte each.
fn long_punches(comparison: &mut Comparison) {
    let character = |height: u32| {
        let [a, b, c, d] = height.to_be_bytes();
        [7, 0, 8, 0, 0, a, b, c, d, 15, 1]
    };
    for more in 0..60 {
        let mut galley = [character(1_000_000), character(0)].concat().repeat(16);
        let few = 16_221 - 30 + more;
        galley.extend(character(0).repeat(few));
        galley.extend([2, 0, 4]);
        galley.extend((32 + few as u32).to_be_bytes());
        comparison.punch(&galley);
    }
}

/// Galleys of both forms, each taken for one of either form.
fn conversions(comparison: &mut Comparison) {
    let mut random = Random::new(SEED + 5);
    for form in [Form::Old, Form::New] {
        for _ in 0..50_000 {
            comparison.convert(&cases::galley_of(&mut random, form));
        }
    }
    for (items, n) in [(0, None), (1, None), (5, Some(3)), (70, Some(20)), (200, None)] {
        let old = cases::valid_old_galley(&mut random, items, n);
        let new = plain::to_new(&old).unwrap();
        for galley in [&old, &new] {
            for length in 0..=galley.len() {
                comparison.convert(&galley[..length]);
            }
            each_byte_changed(galley, &mut random, |galley| comparison.convert(galley));
        }
    }
    let old = cases::valid_old_galley(&mut random, 2, None);
    let old = [&[6, 0, 0], &old[..9], &[6, 0, 0, 6, 0, 0], &old[9..]].concat();
    let new = plain::to_new(&old).unwrap();
    for value in 0..=255 {
        each_byte_set(&old, value, |old| comparison.convert(old));
        each_byte_set(&new, value, |new| comparison.convert(new));
    }
}

/// Files of any kind with their widths; some ended anywhere and changed anywhere.
fn each_dvi_file(mut take: impl FnMut(&[u8], &[i32])) {
    let mut random = Random::new(SEED + 3);
    for _ in 0..150_000 {
        let file = cases::dvi_file(&mut random);
        take(&file.bytes, &file.widths);
    }
    for _ in 0..40 {
        let file = cases::valid_dvi_file(&mut random);
        for length in 0..file.bytes.len() {
            take(&file.bytes[..length], &file.widths);
        }
        each_byte_changed(&file.bytes, &mut random, |dvi| take(dvi, &file.widths));
    }
    for _ in 0..3 {
        let file = cases::valid_dvi_file(&mut random);
        for value in 0..=255 {
            each_byte_set(&file.bytes, value, |dvi| take(dvi, &file.widths));
        }
    }
}

/// Files of any kind; some ended anywhere and changed anywhere; each byte after the beginnings of codes.
fn xgp_files(comparison: &mut Comparison) {
    let mut random = Random::new(SEED + 8);
    for _ in 0..150_000 {
        let file = cases::xgp_file(&mut random);
        comparison.read_xgp(&file.bytes, file.spacing, &file.widths);
    }
    for _ in 0..40 {
        let file = cases::valid_xgp_file(&mut random);
        for length in 0..file.bytes.len() {
            comparison.read_xgp(&file.bytes[..length], file.spacing, &file.widths);
        }
        each_byte_changed(&file.bytes, &mut random, |bytes| {
            comparison.read_xgp(bytes, file.spacing, &file.widths);
        });
    }
    let widths: Vec<i32> = (0..512).collect();
    let beginnings: [&[u8]; 7] =
        [&[], &[0o177], &[0o177, 1], &[0o177, 1, 0o40], &[0o177, 1, 0o40, 5], &[0o177, 1, 0o43], &[0o177, 2]];
    for beginning in beginnings {
        for byte in 0..=255 {
            for end in [&[][..], &[0o101], &[0, 0o102], &[0o177, 2, 0o101]] {
                comparison.read_xgp(&[&[0o101], beginning, &[byte], end].concat(), 40, &widths);
            }
        }
    }
}

/// Files that show a galley in other ways than our writer, or nearly show one; each ended anywhere and changed
/// anywhere.
fn shown_galleys(comparison: &mut Comparison) {
    let mut random = Random::new(SEED + 6);
    for _ in 0..60_000 {
        let file = cases::shown_galley(&mut random);
        comparison.dvi_to_galley(&file.bytes, &file.widths);
    }
    for _ in 0..20 {
        let file = cases::shown_galley(&mut random);
        for length in 0..file.bytes.len() {
            comparison.dvi_to_galley(&file.bytes[..length], &file.widths);
        }
        each_byte_changed(&file.bytes, &mut random, |dvi| comparison.dvi_to_galley(dvi, &file.widths));
    }
    let file = cases::shown_galley(&mut random);
    for value in 0..=255 {
        each_byte_set(&file.bytes, value, |dvi| comparison.dvi_to_galley(dvi, &file.widths));
    }
}

/// Files of the second edition of any kind; some ended anywhere and changed anywhere; and files of 1980.
fn second_edition(comparison: &mut Comparison) {
    let mut random = Random::new(SEED + 8);
    for _ in 0..100_000 {
        comparison.read_dvi2(&cases::edition2_file(&mut random));
    }
    for _ in 0..40 {
        let file = cases::valid_edition2_file(&mut random);
        for length in 0..=file.len() {
            comparison.read_dvi2(&file[..length]);
        }
        each_byte_changed(&file, &mut random, |dvi| comparison.read_dvi2(dvi));
    }
    for _ in 0..2 {
        let file = cases::valid_edition2_file(&mut random);
        for value in 0..=255 {
            each_byte_set(&file, value, |dvi| comparison.read_dvi2(dvi));
        }
    }
    for _ in 0..1_000 {
        comparison.read_dvi2(&cases::dvi_file(&mut random).bytes);
    }
}

/// The bytes with each one changed in turn.
fn each_byte_changed(bytes: &[u8], random: &mut Random, mut take: impl FnMut(&[u8])) {
    for place in 0..bytes.len() {
        let mut changed = bytes.to_vec();
        changed[place] ^= random.between(1, 255) as u8;
        take(&changed);
    }
}

/// The bytes with each one set to a value in turn.
fn each_byte_set(bytes: &[u8], value: u8, mut take: impl FnMut(&[u8])) {
    for place in 0..bytes.len() {
        let mut changed = bytes.to_vec();
        changed[place] = value;
        take(&changed);
    }
}

/// The cases are worth their number: each answer that small inputs can get was met often.
fn every_number_is_met(comparison: &Comparison) {
    let numbers: [(&str, &[usize]); 20] = [
        ("read_tape, 4 fonts", &[0, 2, 3, 4, 5, 6, 7, 8, 9, 10, 12]),
        ("read_tape, 8 fonts", &[0, 2, 3, 4, 5, 6, 7, 8, 9, 10, 12]),
        ("read_tape, no machine", &[50]),
        ("start", &[0, 50]),
        ("feed", &[0, 2, 3, 4, 5, 6, 7, 8, 9, 10, 12, 13]),
        ("close", &[0, 2, 3, 4, 5, 6, 7, 8, 9, 10, 12, 13]),
        ("check_galley", &[0, 41]),
        ("read_back", &[0, 41, 11]),
        ("item_at", &[0, 41]),
        ("write_dvi", &[0, 41, 43, 42]),
        ("read_dvi", &[0, 31, 21, 22, 23, 24, 25, 26, 27, 28, 29, 30]),
        ("read_xgp", &[0, 31, 63, 60, 61, 62, 28, 30]),
        ("dvi_to_galley", &[0, 31, 21, 22, 23, 24, 25, 26, 27, 28, 29, 45, 12]),
        ("reprint", &[0, 31, 41, 43, 42, 30]),
        ("write_dvi2", &[0, 41, 42]),
        ("read_dvi2", &[0, 46, 12]),
        ("punch_tape", &[0, 41, 48, 49]),
        ("to_new", &[0, 41, 44]),
        ("to_old", &[0, 41, 43, 44]),
        ("count_tape", &[0, 47]),
    ];
    for (operation, expected) in numbers {
        for &number in expected {
            assert!(comparison.count(operation, number) >= 20, "{operation} gave {number} hardly ever");
        }
    }
    assert!(comparison.total() >= 100_000);
}
