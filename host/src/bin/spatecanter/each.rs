//! What a command makes of each input, whether one is given or many.

use crate::arguments::Arguments;
use crate::failure::Failure;
use crate::input::shown;
use crate::loudness::tell;
use crate::many;
use crate::output::{self, named_after, Draft, Place, Taken};
use crate::text::counted;
use std::ffi::OsStr;

/// How a command makes its outputs of an input.
pub type Make<'a> = dyn Fn(&OsStr) -> Result<Made, Failure> + Sync + 'a;

/// What was made of an input.
pub struct Made {
    /// One for each ending.
    pub outputs: Vec<Vec<u8>>,
    /// What there is in it, in a few words.
    pub holds: String,
    /// The input's length.
    pub length: usize,
    pub remarks: Vec<Remark>,
    /// What is told of it where it is the only input.
    pub told: Told,
}

/// What is told of the only input.
pub enum Told {
    /// On standard error, of an output that went to a file.
    OfOutput(String),
    /// On standard output.
    Printed(String),
}

impl Made {
    /// One output, of which is told what it holds.
    pub fn new(input: &[u8], output: Vec<u8>, holds: String) -> Made {
        let told = Told::OfOutput(holds.clone());
        Made { outputs: vec![output], holds, length: input.len(), remarks: vec![], told }
    }

    /// One output, of which the length is told.
    pub fn of_bytes(input: &[u8], output: Vec<u8>) -> Made {
        let holds = counted(output.len(), "byte");
        Made::new(input, output, holds)
    }

    /// Writes the outputs to their places, all or none.
    pub fn write(&self, places: &[Place]) -> Result<(), Failure> {
        let mut drafts = Vec::new();
        for (place, bytes) in places.iter().zip(&self.outputs) {
            let mut draft = Draft::start(place)?;
            draft.fill(|out| out.write_all(bytes))?;
            drafts.push(draft);
        }
        output::finish(drafts)
    }
}

/// What is worth a look.
pub enum Remark {
    /// The tape has no tilt code, and may be of the 4-font machine.
    NoTilt,
    /// The picture is smaller than the pages, in percent.
    Scaled(f64),
}

impl Remark {
    fn is_of_output(&self) -> bool {
        matches!(self, Remark::Scaled(_))
    }

    /// Tells it of the only input, or of its output.
    pub fn tell(&self, name: &str) {
        match self {
            Remark::NoTilt => tell(&format!(
                "spatecanter: {name} has no tilt code (4E, 4F). If it was made for the 4-font machine, its fonts \
                 are\n  others: use --machine 4. With --machine 8 this hint is left out."
            )),
            Remark::Scaled(percent) => tell(&format!(
                "{name}: scaled to {percent:.1} percent, since many programs show no picture of more than 32,767 \
                 pixels; --page N, or --from and --to, draw a part in full size"
            )),
        }
    }

    /// The same in a few words.
    pub fn in_short(&self) -> String {
        match self {
            Remark::NoTilt => "no tilt code".into(),
            Remark::Scaled(percent) => format!("scaled to {percent:.1} percent"),
        }
    }
}

/// What ends the last line where no file is written.
pub const NOT_WRITTEN: &str = "; nothing is written (--dry-run)";

/// Has a command make its outputs, with these endings, of each input.
pub fn input(arguments: &Arguments, endings: &[&str], make: &Make) -> Result<(), Failure> {
    if many::are_given(arguments) {
        many::inputs(arguments, endings, make)
    } else {
        only_input(arguments, endings, make)
    }
}

fn only_input(arguments: &Arguments, endings: &[&str], make: &Make) -> Result<(), Failure> {
    let places = endings.iter().map(|ending| place(arguments, ending)).collect::<Result<Vec<_>, _>>()?;
    let made = make(&arguments.input)?;
    let tell_of = |name: &str, is_of_output: bool| {
        let remarks = made.remarks.iter().filter(|remark| remark.is_of_output() == is_of_output);
        remarks.for_each(|remark| remark.tell(name));
    };
    let name = shown(&arguments.input);
    tell_of(&name, false);
    if arguments.dry_run {
        return output::print(&format!("{name}: accepted, {}{NOT_WRITTEN}\n", made.holds));
    }
    made.write(&places)?;
    match &made.told {
        Told::OfOutput(words) => places.iter().for_each(|place| place.tell(words)),
        Told::Printed(words) => output::print(words)?,
    }
    places.iter().for_each(|place| tell_of(&place.shown(), true));
    Ok(())
}

/// -o and -d.
pub fn both_given() -> Failure {
    Failure::Usage("-o and -d do not go together".into())
}

/// Where the only input's output with this ending goes.
pub fn place(arguments: &Arguments, ending: &str) -> Result<Place, Failure> {
    let taken = Taken::of(arguments.read_files());
    match (&arguments.output, &arguments.folder) {
        (Some(_), Some(_)) => Err(both_given()),
        (None, Some(folder)) => {
            Place::file(named_after(&arguments.input, Some(folder), ending), &taken, arguments.force)
        }
        (output, None) => Place::choose(output.as_deref(), &arguments.input, &taken, ending, arguments.force),
    }
}
