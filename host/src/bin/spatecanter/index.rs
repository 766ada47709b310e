//! An index of many tapes, galleys and sheets: a page of HTML with a small picture of each.

use crate::arguments::Arguments;
use crate::commands::{drawn, Drawn, INDEX_USAGE};
use crate::failure::Failure;
use crate::folders::{self, Choice};
use crate::loudness::tell;
use crate::output::{self, Draft, Place, Taken};
use crate::plot::{escaped, Picture, Source};
use crate::text::{counted, grouped};
use crate::{options, tapes};
use spatecanter::{Machine, Refusal};
use std::collections::HashMap;
use std::io::{self, Write};
use std::os::unix::ffi::OsStrExt;
use std::path::{Component, Path, PathBuf};

/// An input, its name in the index, and how many fonts its machine has, if that is said.
struct File {
    path: PathBuf,
    name: PathBuf,
    fonts: Option<u32>,
}

/// An input, and where its pictures go: the large one and the small one.
struct Entry {
    file: File,
    places: [Place; 2],
}

/// What the index shows of an input.
enum Card {
    Drawn {
        holds: String,
        /// A colour, a label and a count of each kind of marks.
        kinds: Vec<(String, String, usize)>,
    },
    Refused(String),
}

/// Draws all inputs, and writes the index of the pictures; all files are written or none.
pub fn write(arguments: &Arguments) -> Result<(), Failure> {
    let Some(folder) = arguments.folder.as_deref().map(Path::new) else {
        return Err(Failure::Usage(format!("index needs a folder\nUsage: spatecanter {INDEX_USAGE}")));
    };
    let codes = options::codes(arguments)?;
    let entries = entries(arguments, folder)?;
    let inputs = entries.iter().map(|entry| entry.file.path.as_os_str()).chain(arguments.lent_files());
    let index = Place::file(folder.join("index.html"), &Taken::of(inputs), arguments.force)?;
    let mut drafts = Vec::new();
    let mut cards = Vec::new();
    for entry in &entries {
        cards.push(match source(&entry.file, arguments) {
            Ok(source) => {
                let picture = Picture::new(&source, codes.as_ref(), 0..source.pages.len(), None);
                let [large, small] = &entry.places;
                drafts.push(written(large, |out| picture.draw(out))?);
                drafts.push(written(small, |out| picture.draw_small(out))?);
                let characters = counted(picture.count(), "character");
                let holds = format!("{characters}, {}", counted(source.pages.len(), "page"));
                Card::Drawn { holds, kinds: picture.kinds().collect() }
            }
            Err(Failure::Refused(why)) => Card::Refused(why),
            Err(failure) => return Err(failure),
        });
    }
    let pictures = cards.iter().filter(|card| matches!(card, Card::Drawn { .. })).count();
    let refused = grouped(entries.len() - pictures);
    let summary =
        format!("{}: {} drawn, {refused} refused", counted(entries.len(), "file"), grouped(pictures));
    drafts.push(written(&index, |out| write_page(out, &entries, &cards, &summary))?);
    output::finish(drafts)?;
    tell(&format!("{}: {summary}", index.shown()));
    Ok(())
}

/// What is drawn of an input.
fn source(file: &File, arguments: &Arguments) -> Result<Source, Failure> {
    let machine = match file.fonts {
        None => options::machine(arguments)?,
        Some(4) => Some(Machine::Four),
        Some(8) => Some(Machine::Eight),
        Some(_) => {
            return Err(Failure::Refused(format!("{}: {}", file.path.display(), Refusal::NoMachine)));
        }
    };
    let Drawn { source, remark, .. } = drawn(file.path.as_os_str(), machine, arguments)?;
    remark.iter().for_each(|remark| remark.tell(&source.name));
    Ok(source)
}

/// The tapes of --list, then the inputs.
fn files(arguments: &Arguments, folder: &Path) -> Result<Vec<File>, Failure> {
    let mut files = Vec::new();
    for tape in arguments.list.as_deref().map_or(Ok(vec![]), tapes::listed)? {
        let path = PathBuf::from(tape.name);
        let name = path.components().filter(|part| matches!(part, Component::Normal(_))).collect();
        files.push(File { path, name, fonts: Some(tape.machine) });
    }
    let choice = Choice { ending: arguments.ending.as_deref(), outputs: Some(folder) };
    for found in arguments.inputs.iter().flat_map(|input| folders::find(Path::new(input), &choice)) {
        let found = found.readable()?;
        files.push(File { name: found.name(), path: found.path, fonts: None });
    }
    if files.is_empty() {
        return Err(Failure::File("there is no file in what is named".into()));
    }
    Ok(files)
}

/// The inputs with their places below the folder, where each stands as it does below the folder that was named.
/// No place is an input's, and no two are one.
fn entries(arguments: &Arguments, folder: &Path) -> Result<Vec<Entry>, Failure> {
    let files = files(arguments, folder)?;
    let taken = Taken::of(files.iter().map(|file| file.path.as_os_str()).chain(arguments.lent_files()));
    let mut named: HashMap<PathBuf, PathBuf> = HashMap::new();
    let mut entries = Vec::new();
    for file in files {
        if let Some(other) = named.insert(file.name.clone(), file.path.clone()) {
            let what = format!("{} and {} have one name in the index", other.display(), file.path.display());
            return Err(Failure::Usage(what));
        }
        let in_folder =
            |ending: &str| Place::file(folder.join(with_ending(&file.name, ending)), &taken, arguments.force);
        let places = [in_folder("svg")?, in_folder("small.svg")?];
        entries.push(Entry { file, places });
    }
    Ok(entries)
}

fn with_ending(name: &Path, ending: &str) -> PathBuf {
    let mut whole = name.as_os_str().to_os_string();
    whole.push(".");
    whole.push(ending);
    whole.into()
}

/// An output that is written whole, and not yet in its place.
fn written(
    place: &Place,
    write: impl FnOnce(&mut dyn Write) -> io::Result<()>,
) -> Result<Draft<'_>, Failure> {
    let mut draft = Draft::start(place)?;
    draft.fill(write)?;
    draft.close()?;
    Ok(draft)
}

const HEAD: &str = "<!DOCTYPE html>
<html lang=\"en\">
<head>
<meta charset=\"utf-8\">
<meta name=\"viewport\" content=\"width=device-width, initial-scale=1\">
<title>Spatecanter: index of pictures</title>
<style>
body { font-family: sans-serif; color: #202020; background: #f0f0f0; margin: 1.5rem; }
ul { list-style: none; padding: 0; display: grid; grid-template-columns: repeat(auto-fill, 15rem); gap: 1rem; }
li { background: #ffffff; border: 1px solid #c8c8c8; padding: 0.5rem; overflow-wrap: anywhere; }
img { display: block; width: 100%; height: 18rem; object-fit: contain; object-position: top; }
h2 { font-size: 1rem; margin: 0.5rem 0; }
p { font-size: 0.85rem; margin: 0.25rem 0; white-space: pre-line; }
.refused { border-color: #b00020; }
</style>
</head>
<body>
<h1>Index of pictures</h1>
";

fn write_page(out: &mut dyn Write, entries: &[Entry], cards: &[Card], summary: &str) -> io::Result<()> {
    write!(out, "{HEAD}<p>{summary}</p>\n<ul>\n")?;
    for (entry, card) in entries.iter().zip(cards) {
        let name = escaped(&entry.file.name.display().to_string());
        match card {
            Card::Drawn { holds, kinds } => {
                let (large, small) = (link(&entry.file.name, "svg"), link(&entry.file.name, "small.svg"));
                let alt = format!("A page of {}", name.replace('"', "&quot;"));
                writeln!(
                    out,
                    "<li><a href=\"{large}\"><img src=\"{small}\" alt=\"{alt}\" loading=\"lazy\"></a>"
                )?;
                writeln!(out, "<h2><a href=\"{large}\">{name}</a></h2>\n<p>{holds}</p>")?;
                for (colour, label, count) in kinds.iter().filter(|(_, _, count)| *count > 0) {
                    let (label, count) = (escaped(label), grouped(*count));
                    writeln!(out, "<p><span style=\"color: {colour}\">\u{25a0}</span> {label}: {count}</p>")?;
                }
                writeln!(out, "</li>")?;
            }
            Card::Refused(why) => {
                let lines: Vec<String> = why.lines().map(escaped).collect();
                writeln!(out, "<li class=\"refused\"><h2>{name}</h2>\n<p>{}</p></li>", lines.join("\n"))?;
            }
        }
    }
    write!(out, "</ul>\n</body>\n</html>\n")
}

/// A link to a picture: its name with all bytes but letters, digits and a few marks written in hexadecimal.
fn link(name: &Path, ending: &str) -> String {
    let mut link = String::new();
    for &byte in with_ending(name, ending).as_os_str().as_bytes() {
        match byte {
            b'/' | b'-' | b'.' | b'_' | b'~' => link.push(byte.into()),
            _ if byte.is_ascii_alphanumeric() => link.push(byte.into()),
            _ => link += &format!("%{byte:02X}"),
        }
    }
    link
}
