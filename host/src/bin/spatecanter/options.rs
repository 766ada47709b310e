//! What the values of options say.

use crate::arguments::Arguments;
use crate::codes::Codes;
use crate::commands::{CONVERT_USAGE, REPRINT_USAGE};
use crate::differences::Order;
use crate::edition::Edition;
use crate::failure::Failure;
use crate::marks::Measure;
use crate::report::Format;
use crate::text::grouped;
use crate::threads;
use spatecanter::{Form, Machine, NoMachine, HEIGHT_LIMIT, TAPE_LIMIT};
use std::ffi::OsStr;
use std::ops::{Range, RangeInclusive};

/// The most that -j allows.
const MOST_THREADS: usize = 1_024;

/// Quanta in an inch.
const INCH: f64 = 144.0;

/// The machine that --machine names.
pub fn machine(arguments: &Arguments) -> Result<Option<Machine>, Failure> {
    let Some(word) = &arguments.machine else {
        return Ok(None);
    };
    let word = word.to_string_lossy();
    let wrong = |error: NoMachine| Failure::Usage(format!("--machine {word} is {error}"));
    word.parse().map(Some).map_err(wrong)
}

/// How many bytes --pieces allows in a piece.
pub fn pieces(arguments: &Arguments) -> Result<Option<usize>, Failure> {
    let Some(word) = &arguments.pieces else {
        return Ok(None);
    };
    match word.to_str().and_then(|text| text.parse().ok()) {
        Some(length) if (1..=TAPE_LIMIT).contains(&length) => Ok(Some(length)),
        _ => Err(Failure::Usage(format!(
            "--pieces {} is no length of a piece: it is a number of bytes, 1 to {}",
            word.to_string_lossy(),
            grouped(TAPE_LIMIT)
        ))),
    }
}

/// How many threads -j allows: as many as there are processors, without it.
pub fn threads(arguments: &Arguments) -> Result<usize, Failure> {
    let Some(word) = &arguments.threads else {
        return Ok(threads::of_all_processors());
    };
    match word.to_str().and_then(|text| text.parse().ok()) {
        Some(threads) if (1..=MOST_THREADS).contains(&threads) => Ok(threads),
        _ => Err(Failure::Usage(format!(
            "-j {} is no number of threads: it is 1 to {MOST_THREADS}",
            word.to_string_lossy()
        ))),
    }
}

/// The measure of a sheet: as many dots to an inch as --dots says, without it rsu.
pub fn measure(arguments: &Arguments) -> Result<Measure, Failure> {
    let Some(word) = &arguments.dots else {
        return Ok(Measure::Rsu);
    };
    if arguments.machine.is_some() {
        return Err(Failure::Usage("--dots is for sheets of XGP files, which have no --machine".into()));
    }
    match word.to_str().and_then(|text| text.parse().ok()) {
        Some(dots) if (1..=10_000).contains(&dots) => Ok(Measure::Dots(dots)),
        _ => Err(Failure::Usage(format!(
            "--dots {} is no measure: it is the number of dots to an inch, 1 to 10,000",
            word.to_string_lossy()
        ))),
    }
}

/// The folder that -d names.
pub fn folder(arguments: &Arguments) -> Result<&OsStr, Failure> {
    arguments
        .folder
        .as_deref()
        .ok_or_else(|| Failure::Usage(format!("reprint needs a folder\nUsage: spatecanter {REPRINT_USAGE}")))
}

/// The form that --to names.
pub fn form(arguments: &Arguments) -> Result<Form, Failure> {
    let Some(word) = &arguments.to else {
        let what = format!("convert needs --to new or --to old\nUsage: spatecanter {CONVERT_USAGE}");
        return Err(Failure::Usage(what));
    };
    match word.to_str() {
        Some("new") => Ok(Form::New),
        Some("old") => Ok(Form::Old),
        _ => Err(Failure::Usage(format!(
            "--to {} is no form of a galley: it is new or old",
            word.to_string_lossy()
        ))),
    }
}

/// The format that --format names.
pub fn format(arguments: &Arguments) -> Result<Format, Failure> {
    let Some(word) = &arguments.format else {
        return Ok(Format::Table);
    };
    match word.to_str() {
        Some("text") => Ok(Format::Table),
        Some("csv") => Ok(Format::Csv),
        Some("json") => Ok(Format::Json),
        _ => Err(Failure::Usage(format!(
            "--format {} is no format: it is text, csv or json",
            word.to_string_lossy()
        ))),
    }
}

/// The table that --codes names.
pub fn codes(arguments: &Arguments) -> Result<Option<Codes>, Failure> {
    if arguments.codes.as_deref() == Some("-".as_ref()) && arguments.input == "-" {
        return Err(Failure::Usage("the input and the codes cannot both be standard input".into()));
    }
    if arguments.codes.is_some() && arguments.dots.is_some() {
        return Err(Failure::Usage("--codes is for the fonts of a C/A/T, and --dots for XGP files".into()));
    }
    arguments.codes.as_deref().map(Codes::read).transpose()
}

/// The order that --order names.
pub fn order(arguments: &Arguments) -> Result<Order, Failure> {
    match &arguments.order {
        None => Ok(Order::Kept),
        Some(word) if word == "any" => Ok(Order::Any),
        Some(word) => Err(Failure::Usage(format!(
            "--order {} is no order: it is any; without it characters have to come in the same order",
            word.to_string_lossy()
        ))),
    }
}

/// The edition of DVI that --edition names.
pub fn edition(arguments: &Arguments) -> Result<Edition, Failure> {
    match &arguments.edition {
        None => Ok(Edition::First),
        Some(word) if word == "1980" => Ok(Edition::First),
        Some(word) if word == "2" => Ok(Edition::Second),
        Some(word) => Err(Failure::Usage(format!(
            "--edition {} is no edition of DVI: it is 1980 or 2",
            word.to_string_lossy()
        ))),
    }
}

/// The pages to draw, counted from 0: the one that --page names, or all.
pub fn pages(arguments: &Arguments, pages: usize) -> Result<Range<usize>, Failure> {
    let Some(word) = &arguments.page else {
        return Ok(0..pages);
    };
    match word.to_str().and_then(|text| text.parse::<usize>().ok()) {
        Some(number) if (1..=pages).contains(&number) => Ok(number - 1..number),
        _ => {
            let there = if pages == 1 { "there is" } else { "there are" };
            Err(Failure::Usage(format!(
                "--page {} is no page: {there} {}, counted from 1",
                word.to_string_lossy(),
                grouped(pages)
            )))
        }
    }
}

/// The heights that --from and --to name, on one page of `lowest` quanta.
pub fn part(
    arguments: &Arguments,
    pages: usize,
    lowest: i32,
) -> Result<Option<RangeInclusive<i32>>, Failure> {
    if arguments.from.is_none() && arguments.to.is_none() {
        return Ok(None);
    }
    if pages > 1 {
        let what = format!(
            "--from and --to are for one page, and there are {}: name one with --page",
            grouped(pages)
        );
        return Err(Failure::Usage(what));
    }
    let from = arguments.from.as_deref().map_or(Ok(0), |word| height("--from", word))?;
    let to = arguments.to.as_deref().map_or(Ok(lowest.max(from)), |word| height("--to", word))?;
    if from > to {
        let what = format!(
            "--from {} is below --to {}: heights grow downwards",
            grouped(from as usize),
            grouped(to as usize)
        );
        return Err(Failure::Usage(what));
    }
    Ok(Some(from..=to))
}

/// A height in quanta, as list has it, or in inches, as rulers have it, with "in" after the number.
fn height(option: &str, word: &OsStr) -> Result<i32, Failure> {
    let text = word.to_string_lossy();
    let quanta = match text.strip_suffix("in") {
        Some(inches) => inches.parse().ok().map(|inches: f64| (inches * INCH).round()),
        None => text.parse().ok().map(|quanta: u32| f64::from(quanta)),
    };
    match quanta {
        Some(quanta) if (0.0..=f64::from(HEIGHT_LIMIT)).contains(&quanta) => Ok(quanta as i32),
        _ => Err(Failure::Usage(format!(
            "{option} {text} is no height: it is a number of quanta up to {}, or of inches as in 12.5in",
            grouped(HEIGHT_LIMIT as usize)
        ))),
    }
}
