//! The commands.

use crate::arguments::{Arguments, Inputs};
use crate::differences::{Differences, Named};
use crate::each::{self, Made, Remark, Told};
use crate::edition::{Edition, Reprinted};
use crate::failure::Failure;
use crate::font_marks::FontMarks;
use crate::fonts::Fonts;
use crate::grid::Grid;
use crate::input::{self, shown};
use crate::listing::Listing;
use crate::loudness::tell;
use crate::output::{self, Draft, Place};
use crate::plot::{Picture, Source};
use crate::report::Counted;
use crate::summary::Summary;
use crate::text::{self, counted};
use crate::{help, index, many, marks, options, pieces, progress, refused, sheets, split, tapes, xgp};
use spatecanter::{
    Extents, Form, Galley, Machine, Refusal, Sheet, DVI2_LIMIT, DVI_LIMIT, GALLEY_LIMIT, OLD_GALLEY_LIMIT,
    SHEET_LIMIT, TAPE_LIMIT,
};
use std::ffi::OsStr;
use std::io::{self, Write};

pub struct Command {
    pub name: &'static str,
    pub usage: &'static str,
    pub inputs: Inputs,
    pub options: &'static [&'static str],
    pub help: &'static str,
    pub run: fn(&Arguments) -> Result<(), Failure>,
}

pub const COMMANDS: [Command; 16] = [
    Command {
        name: "read",
        usage: "read TAPE... [--machine 4|8] [--pieces N] [-o GALLEY|-d FOLDER] [--force]",
        inputs: Inputs::Some,
        options: &["--machine", "--pieces", "-o", "-d", "--force", "--ending", "-j", "--dry-run"],
        help: help::READ,
        run: read,
    },
    Command {
        name: "check",
        usage: "check GALLEY...",
        inputs: Inputs::Some,
        options: &["--ending", "-j"],
        help: help::CHECK,
        run: check,
    },
    Command {
        name: "list",
        usage: LIST_USAGE,
        inputs: Inputs::One,
        options: &["--machine", "--codes", "--format", "-o", "--force"],
        help: help::LIST,
        run: list,
    },
    Command {
        name: "text",
        usage: TEXT_USAGE,
        inputs: Inputs::One,
        options: &["--machine", "--codes", "--mark", "--page", "-o", "--force"],
        help: help::TEXT,
        run: set_as_text,
    },
    Command {
        name: "set",
        usage: "set GALLEY... [--edition 1980|2] [-o DVI|-d FOLDER] [--force]",
        inputs: Inputs::Some,
        options: &["--edition", "-o", "-d", "--force", "--ending", "-j", "--dry-run"],
        help: help::SET,
        run: set,
    },
    Command {
        name: "show",
        usage: "show DVI... [--widths FILE] [--plain|--check] [-o SHEET|-d FOLDER] [--force]",
        inputs: Inputs::Some,
        options: &["--widths", "--plain", "--check", "-o", "-d", "--force", "--ending", "-j", "--dry-run"],
        help: help::SHOW,
        run: show,
    },
    Command {
        name: "back",
        usage: "back DVI... [--widths FILE] [-o GALLEY|-d FOLDER] [--force]",
        inputs: Inputs::Some,
        options: &["--widths", "-o", "-d", "--force", "--ending", "-j", "--dry-run"],
        help: help::BACK,
        run: back,
    },
    Command {
        name: "xgp",
        usage: XGP_USAGE,
        inputs: Inputs::Some,
        options: &["--spacing", "--widths", "-o", "-d", "--force", "--ending", "-j", "--dry-run"],
        help: help::XGP,
        run: xgp::run,
    },
    Command {
        name: "sheet",
        usage: "sheet SHEET",
        inputs: Inputs::One,
        options: &[],
        help: help::SHEET,
        run: list_sheet,
    },
    Command {
        name: "reprint",
        usage: REPRINT_USAGE,
        inputs: Inputs::Some,
        options: &["--machine", "--fonts", "--edition", "-d", "--force", "--ending", "-j", "--dry-run"],
        help: help::REPRINT,
        run: reprint,
    },
    Command {
        name: "plot",
        usage: PLOT_USAGE,
        inputs: Inputs::Some,
        options: &[
            "--machine",
            "--dots",
            "--fonts",
            "--codes",
            "--page",
            "--from",
            "--to",
            "--split",
            "-o",
            "-d",
            "--force",
            "--ending",
            "-j",
            "--dry-run",
        ],
        help: help::PLOT,
        run: draw,
    },
    Command {
        name: "index",
        usage: INDEX_USAGE,
        inputs: Inputs::Some,
        options: &["--machine", "--list", "--fonts", "--codes", "-d", "--force", "--ending"],
        help: help::INDEX,
        run: index::write,
    },
    Command {
        name: "punch",
        usage: "punch GALLEY... [-o TAPE|-d FOLDER] [--force]",
        inputs: Inputs::Some,
        options: &["-o", "-d", "--force", "--ending", "-j", "--dry-run"],
        help: help::PUNCH,
        run: punch,
    },
    Command {
        name: "convert",
        usage: CONVERT_USAGE,
        inputs: Inputs::Some,
        options: &["--to", "-o", "-d", "--force", "--ending", "-j", "--dry-run"],
        help: help::CONVERT,
        run: convert,
    },
    Command {
        name: "compare",
        usage: COMPARE_USAGE,
        inputs: Inputs::Two,
        options: &["--machine", "--order"],
        help: help::COMPARE,
        run: compare,
    },
    Command {
        name: "report",
        usage: REPORT_USAGE,
        inputs: Inputs::Some,
        options: &["--machine", "--list", "--format", "--tapes", "--ending"],
        help: help::REPORT,
        run: report,
    },
];

const LIST_USAGE: &str =
    "list TAPE|GALLEY [--machine 4|8] [--codes FILE] [--format text|csv|json] [-o FILE] [--force]";
const TEXT_USAGE: &str =
    "text TAPE|GALLEY --codes FILE [--mark MARKS] [--machine 4|8] [--page N] [-o FILE] [--force]";
pub const REPRINT_USAGE: &str =
    "reprint TAPE... [--machine 4|8] [--fonts NAMES] [--edition 1980|2] -d FOLDER [--force]";
pub const CONVERT_USAGE: &str = "convert --to new|old GALLEY... [-o GALLEY|-d FOLDER] [--force]";
const COMPARE_USAGE: &str = "compare TAPE|GALLEY TAPE|GALLEY [--machine 4|8] [--order any]";
const REPORT_USAGE: &str = "report PATH... [--machine 4|8] [--list FILE] [--format text|csv|json] [--tapes] \
                            [--ending ENDING]";
const PLOT_USAGE: &str = "plot TAPE|GALLEY|SHEET... [--machine 4|8] [--dots N] [--fonts NAMES] \
                          [--codes FILE] [--page N] [--from HEIGHT] [--to HEIGHT] [--split] \
                          [-o SVG|-d FOLDER] [--force]";

pub const INDEX_USAGE: &str =
    "index PATH... [--machine 4|8] [--list FILE] [--fonts NAMES] [--codes FILE] [--ending ENDING] -d FOLDER \
     [--force]";

pub const XGP_USAGE: &str = "xgp XGP... --spacing N --widths FILE [-o SHEET|-d FOLDER] [--force]";

/// The longest table of widths that is read, in bytes: 65,536 fonts.
const WIDTHS_LIMIT: usize = 33_554_432;

fn read(arguments: &Arguments) -> Result<(), Failure> {
    let named = options::machine(arguments)?;
    let longest = options::pieces(arguments)?;
    let is_in_pieces = arguments.input == "-" || longest.is_some();
    if is_in_pieces && !many::are_given(arguments) && !arguments.dry_run {
        return read_pieces(arguments, named, longest.unwrap_or(pieces::LONGEST));
    }
    each::input(arguments, &["galley"], &|name| {
        let tape = input::read(name, TAPE_LIMIT)?;
        let (galley, extents, remark) = galley_of(name, &tape, named)?;
        let told = Told::OfOutput(text::reach(galley.characters().count(), extents));
        let holds = text::characters_and_pages(&galley);
        let remarks = remark.into_iter().collect();
        Ok(Made { remarks, told, ..Made::new(&tape, galley.into_bytes(), holds) })
    })
}

fn read_pieces(arguments: &Arguments, named: Option<Machine>, longest: usize) -> Result<(), Failure> {
    let place = each::place(arguments, "galley")?;
    let reading = pieces::read(&arguments.input, named.unwrap_or(Machine::Eight), longest, &place)?;
    if let Some(remark) = without_tilt(named, reading.characters, reading.has_tilt) {
        remark.tell(&shown(&arguments.input));
    }
    place.tell(&text::reach(reading.characters, reading.extents()));
    Ok(())
}

fn check(arguments: &Arguments) -> Result<(), Failure> {
    each::input(arguments, &[], &|name| {
        let galley = checked_galley(name)?;
        let holds = counted(galley.characters().count(), "character");
        let told = Told::Printed(format!("accepted, {holds}\n"));
        Ok(Made { outputs: vec![], holds, length: galley.len(), remarks: vec![], told })
    })
}

fn list(arguments: &Arguments) -> Result<(), Failure> {
    let format = options::format(arguments)?;
    let place = text_place(arguments)?;
    let codes = options::codes(arguments)?;
    let (galley, _) = galley_or_tape(&arguments.input, options::machine(arguments)?)?;
    if arguments.format.is_none() && codes.is_none() {
        return fill(&place, |out| text::list_galley(out, &galley));
    }
    let listing = Listing { galley: &galley, codes: codes.as_ref() };
    fill(&place, |out| listing.write(format, out))
}

fn set_as_text(arguments: &Arguments) -> Result<(), Failure> {
    let place = text_place(arguments)?;
    let codes = options::codes(arguments)?.ok_or_else(|| {
        Failure::Usage(format!("text needs a code table, --codes FILE\nUsage: spatecanter {TEXT_USAGE}"))
    })?;
    let marks = FontMarks::choose(arguments.mark.as_deref(), &codes)?;
    let (galley, _) = galley_or_tape(&arguments.input, options::machine(arguments)?)?;
    let grid = progress::during("setting the pages", || Grid::new(&galley, &codes, &marks));
    let shown_pages = options::pages(arguments, grid.pages())?;
    fill(&place, |out| grid.write(shown_pages.clone(), out))?;
    for remark in grid.remarks(shown_pages) {
        tell(&format!("spatecanter: {}: {remark}", shown(&arguments.input)));
    }
    Ok(())
}

fn set(arguments: &Arguments) -> Result<(), Failure> {
    let edition = options::edition(arguments)?;
    each::input(arguments, &["dvi"], &|name| {
        let galley = input::read(name, GALLEY_LIMIT)?;
        let dvi = progress::during("writing the DVI file", || edition.write(&galley))
            .map_err(|refusal| refused::galley(name, &galley, refusal))?;
        Ok(Made::of_bytes(&galley, dvi))
    })
}

fn show(arguments: &Arguments) -> Result<(), Failure> {
    if arguments.plain && arguments.check {
        return Err(Failure::Usage("--plain and --check do not go together: --check reads both ways".into()));
    }
    let widths = widths(arguments, "DVI file")?;
    let read = if arguments.plain { spatecanter::read_dvi_plain } else { spatecanter::read_dvi };
    each::input(arguments, &["sheet"], &|name| {
        let dvi = input::read(name, DVI_LIMIT)?;
        let sheet = progress::during("reading the DVI file", || read(&dvi, &widths));
        if arguments.check {
            readers_agree(name, &dvi, &widths, &sheet)?;
        }
        let table = arguments.widths.as_deref();
        let sheet = sheet.map_err(|refusal| refused::dvi(name, &dvi, table, &widths, refusal))?;
        Ok(Made::of_bytes(&dvi, sheet.into_bytes()))
    })
}

/// Reads the file the plain way too, and says that it gives the same, as it is proved to.
fn readers_agree(
    name: &OsStr,
    dvi: &[u8],
    widths: &[i32],
    sheet: &Result<Sheet, Refusal>,
) -> Result<(), Failure> {
    let plain =
        progress::during("reading the DVI file the plain way", || spatecanter::read_dvi_plain(dvi, widths));
    if plain != *sheet {
        return Err(Failure::Refused(format!(
            "{}: the two readers differ, a fault of the library",
            shown(name)
        )));
    }
    tell(&format!("{}: both readers agree", shown(name)));
    Ok(())
}

fn back(arguments: &Arguments) -> Result<(), Failure> {
    let widths = widths(arguments, "DVI file")?;
    each::input(arguments, &["galley"], &|name| {
        let dvi = input::read(name, DVI2_LIMIT)?;
        let edition = Edition::of(&dvi);
        if edition == Edition::Second && arguments.widths.is_some() {
            let what = format!("{} is of the second edition, which needs no --widths", shown(name));
            return Err(Failure::Usage(what));
        }
        let galley = progress::during("reading the DVI file", || match edition {
            Edition::First => spatecanter::dvi_to_galley(&dvi, &widths),
            Edition::Second => spatecanter::read_dvi2(&dvi),
        })
        .map_err(|refusal| match edition {
            Edition::First => refused::dvi(name, &dvi, arguments.widths.as_deref(), &widths, refusal),
            Edition::Second => refused::input(name, &refusal.in_dvi2(&dvi)),
        })?;
        let holds = counted(galley.characters().count(), "character");
        Ok(Made::new(&dvi, galley.into_bytes(), holds))
    })
}

/// The numbers of --widths for inputs of a kind: a file of 32-bit numbers, high byte first.
pub fn widths(arguments: &Arguments, kind: &str) -> Result<Vec<i32>, Failure> {
    let Some(name) = &arguments.widths else {
        return Ok(vec![]);
    };
    if name == "-" && arguments.input == "-" {
        return Err(Failure::Usage(format!("the {kind} and the widths cannot both be standard input")));
    }
    let bytes = input::read(name, WIDTHS_LIMIT)?;
    let (numbers, rest) = bytes.as_chunks();
    let fault = match rest {
        _ if bytes.len() > WIDTHS_LIMIT => "longer than 33,554,432 bytes, or 65,536 fonts".into(),
        [] => return Ok(numbers.iter().copied().map(i32::from_be_bytes).collect()),
        _ => format!("{}, no whole number of 32-bit numbers", counted(bytes.len(), "byte")),
    };
    Err(Failure::File(format!("{}: the width table is {fault}", shown(name))))
}

fn list_sheet(arguments: &Arguments) -> Result<(), Failure> {
    let bytes = input::read_while(&arguments.input, SHEET_LIMIT, sheets::looks_good())?;
    let sheet = sheets::checked(&arguments.input, bytes)?;
    print(|out| text::list_sheet(out, &sheet))
}

fn reprint(arguments: &Arguments) -> Result<(), Failure> {
    options::folder(arguments)?;
    let named = options::machine(arguments)?;
    let edition = options::edition(arguments)?;
    let fonts = Fonts::choose(arguments.fonts.as_deref(), Some(named.unwrap_or(Machine::Eight)))?;
    each::input(arguments, edition.endings(), &|name| {
        let tape = input::read(name, TAPE_LIMIT)?;
        let (galley, extents, remark) = galley_of(name, &tape, named)?;
        let Reprinted { dvi, read } = progress::during("reprinting", || edition.reprint(&galley))
            .map_err(|refusal| refused::galley(name, &galley, refusal))?;
        if edition == Edition::Second && read != galley {
            let what = "reading the DVI file gives another galley, a fault of the library";
            return Err(Failure::Refused(format!("{}: {what}", shown(name))));
        }
        let told = Told::Printed(Summary::of(&galley, extents, &fonts).to_string());
        let holds = text::characters_and_pages(&galley);
        let remarks = remark.into_iter().collect();
        let outputs = vec![galley.into_bytes(), dvi, read];
        Ok(Made { outputs, holds, length: tape.len(), remarks, told })
    })
}

fn draw(arguments: &Arguments) -> Result<(), Failure> {
    let codes = options::codes(arguments)?;
    let named = options::machine(arguments)?;
    if arguments.split && !many::are_given(arguments) {
        let base = split::base(arguments)?;
        let Drawn { source, remark, .. } = drawn(&arguments.input, named, arguments)?;
        remark.iter().for_each(|remark| remark.tell(&source.name));
        let pages = options::pages(arguments, source.pages.len())?;
        return progress::during("drawing", || split::draw(&source, codes.as_ref(), pages, &base, arguments));
    }
    each::input(arguments, &["svg"], &|name| {
        let Drawn { source, length, remark } = drawn(name, named, arguments)?;
        let shown_pages = options::pages(arguments, source.pages.len())?;
        let part = options::part(arguments, shown_pages.len(), source.pages[shown_pages.start].lowest())?;
        let picture = Picture::new(&source, codes.as_ref(), shown_pages, part);
        let mut svg = Vec::new();
        progress::during("drawing", || picture.draw(&mut svg)).expect("there is room");
        let remarks = remark.into_iter().chain(picture.scaled_to().map(Remark::Scaled)).collect();
        let holds = counted(picture.count(), "character");
        Ok(Made { length, remarks, ..Made::new(&[], svg, holds) })
    })
}

/// What plot draws: the pages of a sheet, a galley or a tape of so many bytes.
pub struct Drawn {
    pub source: Source,
    length: usize,
    pub remark: Option<Remark>,
}

pub fn drawn(input: &OsStr, named: Option<Machine>, arguments: &Arguments) -> Result<Drawn, Failure> {
    let measure = options::measure(arguments)?;
    let mut looks_good = sheets::looks_good();
    let bytes = input::read_while(input, SHEET_LIMIT, |bytes| match sheets::is_sheet(bytes) {
        true => looks_good(bytes),
        false => bytes.len() <= GALLEY_LIMIT,
    })?;
    let length = bytes.len();
    if sheets::is_sheet(&bytes) {
        let sheet = sheets::checked(input, bytes)?;
        let source = sheets::source(input, &sheet, measure, named, arguments.fonts.as_deref())?;
        return Ok(Drawn { source, length, remark: None });
    }
    if arguments.dots.is_some() {
        return Err(Failure::Usage(format!("--dots is for sheets, and {} is none", shown(input))));
    }
    let (galley, machine, remark) = galley_in(input, bytes, named)?;
    let origin = match machine {
        Some(machine) => format!("{}-font machine", machine.fonts()),
        None => "Machine not recorded".into(),
    };
    let fonts = Fonts::choose(arguments.fonts.as_deref(), machine)?;
    let source = Source { name: shown(input), origin, fonts, pages: marks::of_galley(&galley) };
    Ok(Drawn { source, length, remark })
}

fn compare(arguments: &Arguments) -> Result<(), Failure> {
    let order = options::order(arguments)?;
    let machine = options::machine(arguments)?;
    let [one, other] = &arguments.inputs[..] else { unreachable!("there are two inputs") };
    if one == "-" && other == "-" {
        return Err(Failure::Usage("the two inputs cannot both be standard input".into()));
    }
    let (galley, _) = galley_or_tape(one, machine)?;
    let (other_galley, _) = galley_or_tape(other, machine)?;
    let (name, other_name) = (shown(one), shown(other));
    let named = Named { name: &name, galley: &galley };
    let other_named = Named { name: &other_name, galley: &other_galley };
    let differences = progress::during("comparing", || Differences::between(&named, &other_named, order));
    print(|out| differences.write(out))?;
    if differences.is_none() {
        Ok(())
    } else {
        Err(Failure::Told(1))
    }
}

fn report(arguments: &Arguments) -> Result<(), Failure> {
    let format = options::format(arguments)?;
    let tapes = tapes::named(arguments)?;
    let counted = Counted::of(&tapes, arguments.tapes)?;
    print(|out| counted.write(format, out))
}

/// The galley of an input that is a galley or a tape, and its machine: a galley's is the one named, if any.
fn galley_or_tape(name: &OsStr, named: Option<Machine>) -> Result<(Galley, Option<Machine>), Failure> {
    let (galley, machine, remark) = galley_in(name, input::read(name, GALLEY_LIMIT)?, named)?;
    remark.iter().for_each(|remark| remark.tell(&shown(name)));
    Ok((galley, machine))
}

/// The same for an input that was read, with what is to be told of it.
fn galley_in(
    name: &OsStr,
    bytes: Vec<u8>,
    named: Option<Machine>,
) -> Result<(Galley, Option<Machine>, Option<Remark>), Failure> {
    match bytes.first() {
        Some(1 | 2 | 6 | 7) => Ok((checked(name, bytes)?, named, None)),
        _ => {
            let (galley, _, remark) = galley_of(name, &bytes, named)?;
            Ok((galley, named.or(Some(Machine::Eight)), remark))
        }
    }
}

fn punch(arguments: &Arguments) -> Result<(), Failure> {
    each::input(arguments, &["tape"], &|name| {
        let galley = input::read(name, GALLEY_LIMIT)?;
        let tape = progress::during("punching the tape", || spatecanter::punch_tape(&galley))
            .map_err(|refusal| refused::galley(name, &galley, refusal))?;
        Ok(Made::of_bytes(&galley, tape))
    })
}

fn convert(arguments: &Arguments) -> Result<(), Failure> {
    let to = options::form(arguments)?;
    let (from, limit, ending) = match to {
        Form::New => (Form::Old, OLD_GALLEY_LIMIT, "new.galley"),
        Form::Old => (Form::New, GALLEY_LIMIT, "old.galley"),
    };
    each::input(arguments, &[ending], &|name| {
        let galley = input::read(name, limit)?;
        let converted = progress::during("converting the galley", || match to {
            Form::New => spatecanter::galley_to_new(&galley).map(Galley::into_bytes),
            Form::Old => spatecanter::galley_to_old(&galley),
        })
        .map_err(|refusal| refused::input(name, &refusal.in_galley(&galley, from)))?;
        Ok(Made::of_bytes(&galley, converted))
    })
}

/// Where text for people goes: to standard output, unless -o names a file.
fn text_place(arguments: &Arguments) -> Result<Place, Failure> {
    match &arguments.output {
        Some(_) => each::place(arguments, "text"),
        None => Ok(Place::Standard),
    }
}

/// Writes an output as it goes.
fn fill(place: &Place, write: impl FnOnce(&mut dyn Write) -> io::Result<()>) -> Result<(), Failure> {
    let mut draft = Draft::start(place)?;
    draft.fill(write)?;
    output::finish(vec![draft])
}

/// Writes to standard output as it goes.
fn print(write: impl FnOnce(&mut dyn Write) -> io::Result<()>) -> Result<(), Failure> {
    fill(&Place::Standard, write)
}

/// The galley and the extents of a tape of this machine, or of the 8-font machine where none is named, with what
/// is to be told of it: nothing on a tape tells its machine but a tilt.
fn galley_of(
    name: &OsStr,
    tape: &[u8],
    named: Option<Machine>,
) -> Result<(Galley, Extents, Option<Remark>), Failure> {
    let machine = named.unwrap_or(Machine::Eight);
    let read = progress::during("reading the tape", || spatecanter::read_tape_with_extents(tape, machine));
    let (galley, extents) = read.map_err(|refusal| refused::tape(name, tape, machine, refusal))?;
    let remark = without_tilt(named, galley.characters().count(), refused::has_tilt(tape));
    Ok((galley, extents, remark))
}

/// A tape that the 8-font machine accepts may be one of the 4-font machine, if it flashes and never tilts.
fn without_tilt(named: Option<Machine>, characters: usize, has_tilt: bool) -> Option<Remark> {
    (named.is_none() && characters > 0 && !has_tilt).then_some(Remark::NoTilt)
}

/// A galley that the check accepts.
fn checked_galley(name: &OsStr) -> Result<Galley, Failure> {
    let bytes = input::read(name, GALLEY_LIMIT)?;
    checked(name, bytes)
}

fn checked(name: &OsStr, bytes: Vec<u8>) -> Result<Galley, Failure> {
    progress::during("checking the galley", || Galley::from_bytes(bytes))
        .map_err(|why| Failure::Refused(format!("{}: {why}", shown(name))))
}
