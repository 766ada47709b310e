//! Which inputs there are of many, and where their outputs go: all settled before anything is written.

use crate::arguments::Arguments;
use crate::failure::Failure;
use crate::folders::{self, Choice, Found};
use crate::output::{named_after, standing_place, Place, Taken};
use std::collections::HashMap;
use std::ffi::OsStr;
use std::path::{Path, PathBuf};

/// An input, and where its outputs go.
pub struct Job {
    pub path: PathBuf,
    pub places: Vec<Place>,
    /// Why the input cannot be read, if that is known.
    pub fault: Option<String>,
}

/// The jobs for outputs with these endings, in the inputs' order. No output is an input, and no two are one.
pub fn jobs(arguments: &Arguments, endings: &[&str]) -> Result<Vec<Job>, Failure> {
    let found = found(arguments, endings)?;
    let taken = Taken::of(found.iter().map(|it| it.path.as_os_str()).chain(arguments.lent_files()));
    let mut inputs_of = HashMap::new();
    let mut jobs = Vec::new();
    for it in &found {
        let mut places = Vec::new();
        for ending in endings.iter().filter(|_| it.fault.is_none()) {
            let path = output_of(it, arguments.folder.as_deref(), ending);
            if let Some(other) = inputs_of.insert(standing_place(&path), &it.path) {
                return Err(both_written(other, &it.path, &path));
            }
            places.push(Place::none_of(&taken, path, arguments.force)?);
        }
        jobs.push(Job { path: it.path.clone(), places, fault: it.fault.clone() });
    }
    Ok(jobs)
}

/// The inputs, if many can be taken so.
fn found(arguments: &Arguments, endings: &[&str]) -> Result<Vec<Found>, Failure> {
    let for_one = [
        (arguments.output.is_some(), "-o is for one input: -d names a folder for the outputs of many"),
        (arguments.pieces.is_some(), "--pieces is for one input"),
        (arguments.split, "--split is for one input"),
        (arguments.inputs.iter().any(|input| input == "-"), "standard input is not one of many inputs"),
    ];
    if let Some((_, wrong)) = for_one.into_iter().find(|(given, _)| *given) {
        return Err(Failure::Usage(wrong.into()));
    }
    let choice =
        Choice { ending: arguments.ending.as_deref(), outputs: arguments.folder.as_deref().map(Path::new) };
    let mut found = Vec::new();
    for input in arguments.inputs.iter().map(Path::new) {
        if input.is_dir() && arguments.folder.is_none() && !endings.is_empty() {
            let what = "it is a folder, and no -d names one for the outputs";
            return Err(Failure::File(format!("cannot read {}: {what}", input.display())));
        }
        found.extend(folders::find(input, &choice));
    }
    if found.is_empty() {
        return Err(Failure::File(none_found(arguments)));
    }
    Ok(found)
}

/// Below -d as the input is below its folder, or beside the input.
fn output_of(input: &Found, folder: Option<&OsStr>, ending: &str) -> PathBuf {
    let folder = folder.map(|folder| Path::new(folder).join(&input.below));
    named_after(input.path.as_os_str(), folder.as_deref().map(Path::as_os_str), ending)
}

fn both_written(one: &Path, other: &Path, output: &Path) -> Failure {
    let (one, other) = (one.display(), other.display());
    Failure::Usage(format!("{one} and {other} would both be written as {}", output.display()))
}

fn none_found(arguments: &Arguments) -> String {
    let folders: Vec<String> = arguments.inputs.iter().map(|input| input.display().to_string()).collect();
    let ending = arguments.ending.iter().map(|ending| format!(" with the ending {}", ending.display()));
    format!("there is no file{} in {}", ending.collect::<String>(), folders.join(", "))
}
