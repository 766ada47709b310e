//! The speed of each operation, as markdown: the library, the quick version and a copy of the input, in one
//! run. `cargo bench` prints it.

mod quick;

use spatecanter::sample::{book, book_widths, stations, stations_widths, yearbook, STATIONS_SPACING};
use spatecanter::{
    Machine, Report, RunningTape, DVI_LIMIT, GALLEY_LIMIT, REPORT_LIMIT, REPORT_WORDS, TAPE_LIMIT, XGP_LIMIT,
};
use std::hint::black_box;
use std::time::{Duration, Instant};

const SEED: u64 = 1980;
const SMALLEST: usize = 64 * 1024;
/// The galley whose tape is nearly as long as a tape may be, in bytes.
const PUNCH_LIMIT: usize = 4_500_000;
/// Each contender has at least this much time, and this many turns.
const TIME: Duration = Duration::from_secs(1);
const TURNS: usize = 7;

fn main() {
    print_conditions();
    print_operations();
    print_growth();
}

fn print_conditions() {
    println!("Processor: {}. One core.", processor());
    println!();
    println!(
        "Each number is the best of at least {TURNS} turns, in which the library, the quick version (written \
         by hand for speed, two passes like the library's) and a copy of the input's bytes take turns. \
         Buffers are long enough, written once before the first turn, and not cleared between turns. MB/s \
         are millions of bytes of input a second. A ratio is time over time: below 1 the library is faster."
    );
    println!();
}

fn processor() -> String {
    let text = std::fs::read_to_string("/proc/cpuinfo").unwrap_or_default();
    let line = text.lines().find(|line| line.starts_with("model name"));
    line.and_then(|line| line.split(": ").nth(1)).unwrap_or("unknown").into()
}

fn print_operations() {
    println!("| operation | input | bytes | library MB/s | quick MB/s | copy MB/s | to quick | to copy |");
    println!("|---|---|--:|--:|--:|--:|--:|--:|");
    let four = yearbook(Machine::Four, SEED, TAPE_LIMIT);
    print_row("read a tape", "yearbook, 4 fonts", &four, &mut read_tape(&four, Machine::Four));
    let tape = yearbook(Machine::Eight, SEED, TAPE_LIMIT);
    print_row("read a tape", "yearbook", &tape, &mut read_tape(&tape, Machine::Eight));
    print_row("read a tape in pieces", "yearbook, 64 KiB each", &tape, &mut read_pieces(&tape, 65_536));
    print_row("read a tape in pieces", "yearbook, 512 bytes each", &tape, &mut read_pieces(&tape, 512));
    print_row("count a tape", "yearbook", &tape, &mut count_tape(&tape, Machine::Eight));
    let galley = galley_of_length(&tape, GALLEY_LIMIT);
    print_row("check a galley", "yearbook", &galley, &mut check_galley(&galley));
    print_row("read back the last character", "yearbook", &galley, &mut read_back(&galley));
    print_row("go from item to item", "yearbook", &galley, &mut items(&galley));
    print_row("write a DVI file", "yearbook", &galley, &mut write_dvi(&galley));
    print_row("reprint", "yearbook", &galley, &mut reprint(&galley));
    print_row("write the second edition", "yearbook", &galley, &mut write_dvi2(&galley));
    let second = spatecanter::write_dvi2(&galley).unwrap();
    print_row("read the second edition", "yearbook, as written", &second, &mut read_dvi2(&second));
    let short = galley_of_length(&tape, PUNCH_LIMIT);
    print_row("punch a tape", "yearbook", &short, &mut punch_tape(&short));
    let old = spatecanter::galley_to_old(&galley).unwrap();
    print_row("convert an old galley", "yearbook", &old, &mut galley_to_new(&old));
    print_row("convert back", "yearbook", &galley, &mut galley_to_old(&galley));
    let written = spatecanter::write_dvi(&galley).unwrap();
    print_row("read a DVI file", "yearbook, as written", &written, &mut read_dvi(&written, vec![]));
    print_row(
        "read it the plain way",
        "yearbook, as written",
        &written,
        &mut read_dvi_plain(&written, vec![]),
    );
    print_row("make it a galley again", "yearbook, as written", &written, &mut dvi_to_galley(&written));
    let dvi = book(SEED, DVI_LIMIT);
    print_row("read a DVI file", "book with pushes and rules", &dvi, &mut read_dvi(&dvi, book_widths(SEED)));
    print_row("read it the plain way", "the same book", &dvi, &mut read_dvi_plain(&dvi, book_widths(SEED)));
    let list = stations(SEED, XGP_LIMIT);
    print_row("read an XGP file", "lists of stations", &list, &mut read_xgp(&list));
    let text = text_lines(XGP_LIMIT);
    print_row("read an XGP file", "lines of 70 characters", &text, &mut read_xgp(&text));
    println!();
}

fn print_growth() {
    println!("How time grows with length, in nanoseconds for each byte of input:");
    println!();
    println!("| operation | bytes | library ns/byte | quick ns/byte | ratio |");
    println!("|---|--:|--:|--:|--:|");
    for length in lengths(TAPE_LIMIT) {
        let tape = yearbook(Machine::Eight, SEED, length);
        print_growth_row("read a tape", &tape, &mut read_tape(&tape, Machine::Eight));
    }
    for length in lengths(TAPE_LIMIT) {
        let tape = yearbook(Machine::Eight, SEED, length);
        print_growth_row("read a tape in pieces", &tape, &mut read_pieces(&tape, 65_536));
    }
    for length in [64, 1_024].into_iter().chain(lengths(TAPE_LIMIT)) {
        let tape = yearbook(Machine::Eight, SEED, length);
        print_growth_row("count a tape", &tape, &mut count_tape(&tape, Machine::Eight));
    }
    let tape = yearbook(Machine::Eight, SEED, TAPE_LIMIT);
    for length in lengths(GALLEY_LIMIT) {
        let galley = galley_of_length(&tape, length);
        print_growth_row("check a galley", &galley, &mut check_galley(&galley));
    }
    for length in lengths(GALLEY_LIMIT) {
        let galley = galley_of_length(&tape, length);
        print_growth_row("write a DVI file", &galley, &mut write_dvi(&galley));
    }
    for length in lengths(GALLEY_LIMIT) {
        let galley = galley_of_length(&tape, length);
        print_growth_row("write the second edition", &galley, &mut write_dvi2(&galley));
    }
    for length in lengths(GALLEY_LIMIT) {
        let dvi = spatecanter::write_dvi2(&galley_of_length(&tape, length)).unwrap();
        print_growth_row("read the second edition", &dvi, &mut read_dvi2(&dvi));
    }
    for length in lengths(PUNCH_LIMIT) {
        let galley = galley_of_length(&tape, length);
        print_growth_row("punch a tape", &galley, &mut punch_tape(&galley));
    }
    for length in lengths(DVI_LIMIT) {
        let dvi = book(SEED, length);
        print_growth_row("read a DVI file", &dvi, &mut read_dvi(&dvi, book_widths(SEED)));
    }
    for length in lengths(GALLEY_LIMIT) {
        let dvi = spatecanter::write_dvi(&galley_of_length(&tape, length)).unwrap();
        print_growth_row("make it a galley again", &dvi, &mut dvi_to_galley(&dvi));
    }
    for length in lengths(DVI_LIMIT) {
        let dvi = book(SEED, length);
        print_growth_row("read it the plain way", &dvi, &mut read_dvi_plain(&dvi, book_widths(SEED)));
    }
    for length in lengths(XGP_LIMIT) {
        let list = stations(SEED, length);
        print_growth_row("read an XGP file", &list, &mut read_xgp(&list));
    }
}

/// Lengths from the smallest, each four times the one before, to the limit.
fn lengths(limit: usize) -> impl Iterator<Item = usize> {
    std::iter::successors(Some(SMALLEST), move |length| (*length < limit).then_some((4 * length).min(limit)))
}

/// A galley of at most so many bytes: the characters of an 8-font tape, over and over.
fn galley_of_length(tape: &[u8], length: usize) -> Vec<u8> {
    let page = spatecanter::read_tape(tape, Machine::Eight).unwrap();
    let fields = &page[..page.len() - 7];
    let count = (length - 7) / 11;
    let mut galley: Vec<u8> = fields.iter().copied().cycle().take(11 * count).collect();
    galley.extend([2, 0, 4]);
    galley.extend((count as u32).to_be_bytes());
    galley
}

/// An XGP file of characters and ends of lines alone.
fn text_lines(length: usize) -> Vec<u8> {
    let line: Vec<u8> = (0..70).map(|column| 0x41 + column % 26).chain([0o15, 0o12]).collect();
    line.into_iter().cycle().take(length).collect()
}

/// The same work by the library and by the quick version.
struct Contest<'a> {
    library: Box<dyn FnMut() + 'a>,
    quick: Box<dyn FnMut() + 'a>,
}

fn read_tape(tape: &[u8], machine: Machine) -> Contest<'_> {
    let room = spatecanter::read_tape(tape, machine).unwrap().len();
    contest_of_one(
        room,
        move |galley| spatecanter::read_tape_into(tape, machine, galley).unwrap(),
        move |galley| quick::read_tape(tape, machine.fonts(), galley),
    )
}

/// A tape of the 8-font machine in pieces of so many bytes, whose fields are joined in one buffer.
fn read_pieces(tape: &[u8], length: usize) -> Contest<'_> {
    let room = spatecanter::read_tape(tape, Machine::Eight).unwrap().len();
    contest_of_one(
        room,
        move |galley| {
            let mut running = RunningTape::new();
            running.start(Machine::Eight);
            let mut at = 0;
            for piece in tape.chunks(length) {
                at += running.feed_into(piece, &mut galley[at..]).unwrap();
            }
            at += running.close_into(&mut galley[at..]).unwrap();
            done(running.extents());
            at
        },
        move |galley| {
            let mut running = quick::RunningTape::new();
            running.start(8);
            let mut at = 0;
            for piece in tape.chunks(length) {
                at += running.feed(piece, &mut galley[at..])[2];
            }
            let [number, place, end] = running.close(&mut galley[at..]);
            done(running.extents());
            [number, place, at + end]
        },
    )
}

/// Each counts in a report of its own, which starts anew before it is full.
fn count_tape(tape: &[u8], machine: Machine) -> Contest<'_> {
    let (mut report, mut other) = (Report::new(), [0; REPORT_WORDS]);
    report.count(tape, machine).unwrap();
    assert_eq!(quick::count_tape(tape, machine.fonts(), &mut other), [0; 3]);
    assert_eq!(*report.words(), other, "the quick version counts something else");
    Contest {
        library: Box::new(move || {
            if report.tapes() == REPORT_LIMIT {
                report = Report::new();
            }
            done(report.count(black_box(tape), machine));
        }),
        quick: Box::new(move || {
            if other[0] == REPORT_LIMIT {
                other = [0; REPORT_WORDS];
            }
            done(quick::count_tape(black_box(tape), machine.fonts(), &mut other));
        }),
    }
}

fn check_galley(galley: &[u8]) -> Contest<'_> {
    assert_eq!(quick::check_galley(galley), [0, 0, spatecanter::check_galley(galley).unwrap()]);
    Contest {
        library: Box::new(move || done(spatecanter::check_galley(black_box(galley)))),
        quick: Box::new(move || done(quick::check_galley(black_box(galley)))),
    }
}

fn read_back(galley: &[u8]) -> Contest<'_> {
    let last = galley.len() / 11 - 1;
    Contest {
        library: Box::new(move || done(spatecanter::read_back(black_box(galley), last))),
        quick: Box::new(move || done(quick::read_back(black_box(galley), last))),
    }
}

fn items(galley: &[u8]) -> Contest<'_> {
    let all = move |length_at: fn(&[u8], usize) -> usize| {
        let mut at = 0;
        loop {
            match length_at(black_box(galley), at) {
                0 => return at,
                length => at += length,
            }
        }
    };
    let library = |galley: &[u8], at| spatecanter::item_at(galley, at).map_or(0, |(_, length)| length);
    let quick = |galley: &[u8], at| quick::item_at(galley, at).0[2];
    assert_eq!((all(library), all(quick)), (galley.len() - 7, galley.len() - 7));
    Contest { library: Box::new(move || done(all(library))), quick: Box::new(move || done(all(quick))) }
}

fn write_dvi(galley: &[u8]) -> Contest<'_> {
    let room = spatecanter::write_dvi(galley).unwrap().len();
    contest_of_one(
        room,
        move |dvi| spatecanter::write_dvi_into(galley, dvi).unwrap(),
        move |dvi| quick::write_dvi(galley, dvi),
    )
}

fn read_dvi(dvi: &[u8], widths: Vec<i32>) -> Contest<'_> {
    let room = spatecanter::read_dvi(dvi, &widths).unwrap().len();
    let same_widths = widths.clone();
    contest_of_one(
        room,
        move |sheet| spatecanter::read_dvi_into(dvi, &widths, sheet).unwrap(),
        move |sheet| quick::read_dvi(dvi, &same_widths, sheet),
    )
}

fn read_dvi_plain(dvi: &[u8], widths: Vec<i32>) -> Contest<'_> {
    let room = spatecanter::read_dvi_plain(dvi, &widths).unwrap().len();
    let same_widths = widths.clone();
    contest_of_one(
        room,
        move |sheet| spatecanter::read_dvi_plain_into(dvi, &widths, sheet).unwrap(),
        move |sheet| quick::read_dvi(dvi, &same_widths, sheet),
    )
}

fn read_xgp(file: &[u8]) -> Contest<'_> {
    let (widths, same_widths) = (stations_widths(), stations_widths());
    let room = spatecanter::read_xgp(file, STATIONS_SPACING, &widths).unwrap().len();
    contest_of_one(
        room,
        move |sheet| spatecanter::read_xgp_into(file, STATIONS_SPACING, &widths, sheet).unwrap(),
        move |sheet| quick::read_xgp(file, STATIONS_SPACING, &same_widths, sheet),
    )
}

fn dvi_to_galley(dvi: &[u8]) -> Contest<'_> {
    let room = spatecanter::dvi_to_galley(dvi, &[]).unwrap().len();
    contest_of_one(
        room,
        move |galley| spatecanter::dvi_to_galley_into(dvi, &[], galley).unwrap(),
        move |galley| quick::dvi_to_galley(dvi, &[], galley),
    )
}

fn reprint(galley: &[u8]) -> Contest<'_> {
    let whole = spatecanter::reprint(galley, &[]).unwrap();
    let (mut dvi, mut quick_dvi) = (whole.dvi.to_vec(), whole.dvi.to_vec());
    contest_of_one(
        whole.sheet.len(),
        move |sheet| spatecanter::reprint_into(galley, &[], &mut dvi, sheet).unwrap().sheet,
        move |sheet| {
            let [number, place, shown, _] = quick::reprint(galley, &[], &mut quick_dvi, sheet);
            [number, place, shown]
        },
    )
}

fn write_dvi2(galley: &[u8]) -> Contest<'_> {
    let room = spatecanter::write_dvi2(galley).unwrap().len();
    contest_of_one(
        room,
        move |dvi| spatecanter::write_dvi2_into(galley, dvi).unwrap(),
        move |dvi| quick::write_dvi2(galley, dvi),
    )
}

fn read_dvi2(dvi: &[u8]) -> Contest<'_> {
    let room = spatecanter::read_dvi2(dvi).unwrap().len();
    contest_of_one(
        room,
        move |galley| spatecanter::read_dvi2_into(dvi, galley).unwrap(),
        move |galley| quick::read_dvi2(dvi, galley),
    )
}

fn punch_tape(galley: &[u8]) -> Contest<'_> {
    let room = spatecanter::punch_tape(galley).unwrap().len();
    contest_of_one(
        room,
        move |tape| spatecanter::punch_tape_into(galley, tape).unwrap(),
        move |tape| quick::punch_tape(galley, tape),
    )
}

fn galley_to_new(old: &[u8]) -> Contest<'_> {
    let room = spatecanter::galley_to_new(old).unwrap().len();
    contest_of_one(
        room,
        move |new| spatecanter::galley_to_new_into(old, new).unwrap(),
        move |new| quick::to_new(old, new),
    )
}

fn galley_to_old(new: &[u8]) -> Contest<'_> {
    let room = spatecanter::galley_to_old(new).unwrap().len();
    contest_of_one(
        room,
        move |old| spatecanter::galley_to_old_into(new, old).unwrap(),
        move |old| quick::to_old(new, old),
    )
}

/// A contest over one buffer; both have to write the same.
fn contest_of_one<'a>(
    room: usize,
    mut library: impl FnMut(&mut [u8]) -> usize + 'a,
    mut quick: impl FnMut(&mut [u8]) -> [usize; 3] + 'a,
) -> Contest<'a> {
    let (mut buffer, mut other) = (vec![1; room], vec![2; room]);
    assert_eq!(quick(&mut other), [0, 0, library(&mut buffer)]);
    assert!(buffer == other, "the quick version writes something else");
    Contest {
        library: Box::new(move || done(library(black_box(&mut buffer)))),
        quick: Box::new(move || done(quick(black_box(&mut other)))),
    }
}

/// The work may not be left out.
fn done<T>(result: T) {
    black_box(result);
}

fn print_row(operation: &str, input: &str, bytes: &[u8], contest: &mut Contest) {
    let mut copied = vec![1; bytes.len()];
    let mut copy = || black_box(&mut copied[..]).copy_from_slice(black_box(bytes));
    let [library, quick, copy] = best([&mut contest.library, &mut contest.quick, &mut copy]);
    let speed = |time: f64| bytes.len() as f64 / time / 1e6;
    println!(
        "| {operation} | {input} | {} | {:.0} | {:.0} | {:.0} | {:.2} | {:.1} |",
        bytes.len(),
        speed(library),
        speed(quick),
        speed(copy),
        library / quick,
        library / copy
    );
}

fn print_growth_row(operation: &str, bytes: &[u8], contest: &mut Contest) {
    let [library, quick] = best([&mut contest.library, &mut contest.quick]);
    let each = |time: f64| time * 1e9 / bytes.len() as f64;
    println!(
        "| {operation} | {} | {:.3} | {:.3} | {:.2} |",
        bytes.len(),
        each(library),
        each(quick),
        library / quick
    );
}

/// The best time of each contender in seconds; they take turns.
fn best<const N: usize>(mut contenders: [&mut dyn FnMut(); N]) -> [f64; N] {
    let mut best = [f64::INFINITY; N];
    let start = Instant::now();
    let mut turns = 0;
    while turns < TURNS || start.elapsed() < TIME * N as u32 {
        for (contender, best) in contenders.iter_mut().zip(&mut best) {
            let start = Instant::now();
            contender();
            *best = best.min(start.elapsed().as_secs_f64());
        }
        turns += 1;
    }
    best
}
