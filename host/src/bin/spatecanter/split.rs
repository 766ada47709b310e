//! A picture for each page.

use crate::arguments::Arguments;
use crate::codes::Codes;
use crate::each;
use crate::failure::Failure;
use crate::loudness::tell;
use crate::output::{self, named_after, Draft, Place, Taken};
use crate::plot::{Picture, Source};
use crate::text::counted;
use std::ffi::OsString;
use std::ops::Range;
use std::os::unix::ffi::{OsStrExt, OsStringExt};
use std::path::{Path, PathBuf};

/// Where the number of a page stands in a name.
const NUMBER: &[u8] = b"%d";

/// The name that the files' names are made of: that of -o, or one named after the input.
pub fn base(arguments: &Arguments) -> Result<PathBuf, Failure> {
    if arguments.from.is_some() || arguments.to.is_some() {
        return Err(Failure::Usage("--split draws whole pages: --from and --to do not go with it".into()));
    }
    if arguments.dry_run {
        return Err(Failure::Usage("--split and --dry-run do not go together".into()));
    }
    match arguments.output.as_deref() {
        Some(_) if arguments.folder.is_some() => Err(each::both_given()),
        None if arguments.input != "-" => {
            Ok(named_after(&arguments.input, arguments.folder.as_deref(), "svg"))
        }
        Some(name) if name != "-" => Ok(name.into()),
        _ => Err(Failure::Usage("--split writes files: name them with -o, as in -o page-%d.svg".into())),
    }
}

/// Draws these pages, counted from 0, each into a file of its own; all files are written or none.
pub fn draw(
    source: &Source,
    codes: Option<&Codes>,
    pages: Range<usize>,
    base: &Path,
    arguments: &Arguments,
) -> Result<(), Failure> {
    let taken = Taken::of(arguments.read_files());
    let digits = source.pages.len().to_string().len();
    let place = |page| Place::file(named(base, page + 1, digits), &taken, arguments.force);
    let places = pages.clone().map(place).collect::<Result<Vec<Place>, Failure>>()?;
    let mut drafts = Vec::new();
    let mut characters = 0;
    for (page, place) in pages.zip(&places) {
        let picture = Picture::new(source, codes, page..page + 1, None);
        characters += picture.count();
        let mut draft = Draft::start(place)?;
        draft.fill(|out| picture.draw(out))?;
        draft.close()?;
        drafts.push(draft);
    }
    output::finish(drafts)?;
    let shown = |place: Option<&Place>| place.map(Place::shown).unwrap_or_default();
    let files = match &places[..] {
        [one] => one.shown(),
        all => format!("{} to {}", shown(all.first()), shown(all.last())),
    };
    tell(&format!("{files}: {}, {}", counted(places.len(), "file"), counted(characters, "character")));
    Ok(())
}

/// The name of a page's file: its number, with zeros before it to so many digits, in place of %d, or else with a
/// dash before the ending .svg, or at the end.
fn named(base: &Path, number: usize, digits: usize) -> PathBuf {
    let number = format!("{number:0digits$}");
    let name = base.file_name().unwrap_or_default().as_bytes();
    let at = name.windows(NUMBER.len()).position(|part| part == NUMBER);
    let (before, number, after) = match (at, name.strip_suffix(b".svg")) {
        (Some(at), _) => (&name[..at], number, &name[at + NUMBER.len()..]),
        (None, Some(stem)) => (stem, format!("-{number}"), &b".svg"[..]),
        (None, None) => (name, format!("-{number}"), &b""[..]),
    };
    base.with_file_name(OsString::from_vec([before, number.as_bytes(), after].concat()))
}
