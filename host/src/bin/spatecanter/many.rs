//! Many inputs at once, on some threads. A line on standard output tells what became of each, in the inputs'
//! order, and a summary comes last. What happens to one is nothing to the others.

use crate::arguments::Arguments;
use crate::done::Done;
use crate::each::{Make, Remark, NOT_WRITTEN};
use crate::failure::Failure;
use crate::loudness::tell;
use crate::plan::{self, Job};
use crate::text::{counted, grouped};
use crate::{options, output, progress, threads};
use std::path::Path;

/// Whether there is more than one input, or a folder.
pub fn are_given(arguments: &Arguments) -> bool {
    arguments.inputs.len() > 1 || Path::new(&arguments.input).is_dir()
}

/// Has the command make its outputs, with these endings, of all inputs.
pub fn inputs(arguments: &Arguments, endings: &[&str], make: &Make) -> Result<(), Failure> {
    let threads = options::threads(arguments)?;
    let jobs = plan::jobs(arguments, endings)?;
    let writes = !endings.is_empty() && !arguments.dry_run;
    let done = Done::none_of(jobs.len(), "file");
    let mut tally = Tally::new(writes);
    let work = |job: &Job| {
        let result = treat(job, writes, make);
        done.add(result.as_ref().map_or(0, |held| held.length));
        line(job, result)
    };
    progress::while_telling("working", &|| done.words(), || {
        threads::in_order(threads, &jobs, work, |line| tally.take(line));
    });
    tally.finish(arguments.dry_run)
}

/// What is kept of what was made.
struct Held {
    words: String,
    length: usize,
    remarks: Vec<Remark>,
}

fn treat(job: &Job, writes: bool, make: &Make) -> Result<Held, Failure> {
    if let Some(fault) = &job.fault {
        return Err(Failure::File(fault.clone()));
    }
    job.places.iter().try_for_each(|place| place.may_be_written())?;
    let made = make(job.path.as_os_str())?;
    if writes {
        made.write(&job.places)?;
    }
    Ok(Held { words: made.holds, length: made.length, remarks: made.remarks })
}

/// What became of an input, and how it is told.
struct Line {
    text: String,
    end: End,
}

enum End {
    Accepted(Vec<Remark>),
    Refused,
    /// The input was not read, or an output not written.
    Failed,
}

fn line(job: &Job, result: Result<Held, Failure>) -> Line {
    let (words, end) = match result {
        Ok(Held { words, remarks, .. }) => {
            let also: String = remarks.iter().map(|remark| format!(", {}", remark.in_short())).collect();
            (format!("accepted, {words}{also}"), End::Accepted(remarks))
        }
        Err(Failure::Refused(message)) => (message, End::Refused),
        Err(Failure::Usage(message) | Failure::File(message)) => (message, End::Failed),
        Err(Failure::Told(_) | Failure::Closed) => unreachable!("an input by itself prints nothing"),
    };
    let name = job.path.display().to_string();
    // A refusal has its number, place and words in its first line, after the input's name.
    let words = words.strip_prefix(&format!("{name}: ")).unwrap_or(&words);
    let text = format!("{name}: {}", words.lines().next().unwrap_or_default());
    Line { text: text.replace(char::is_control, "?") + "\n", end }
}

/// How many inputs ended how.
struct Tally {
    writes: bool,
    accepted: usize,
    refused: usize,
    failed: usize,
    without_tilt: usize,
    /// Whether all lines went out so far.
    printed: Result<(), Failure>,
}

impl Tally {
    fn new(writes: bool) -> Tally {
        Tally { writes, accepted: 0, refused: 0, failed: 0, without_tilt: 0, printed: Ok(()) }
    }

    /// Counts and prints a line. Files are written even if nobody reads the lines; else there is no use in more.
    fn take(&mut self, line: Line) -> bool {
        match line.end {
            End::Accepted(remarks) => {
                self.accepted += 1;
                self.without_tilt += remarks.iter().filter(|it| matches!(it, Remark::NoTilt)).count();
            }
            End::Refused => self.refused += 1,
            End::Failed => self.failed += 1,
        }
        self.print(&line.text);
        self.writes || self.printed.is_ok()
    }

    fn print(&mut self, text: &str) {
        if self.printed.is_ok() {
            let _cleared = progress::cleared();
            self.printed = output::print(text);
        }
    }

    /// Prints the summary; 2 if a file could not be read or written, else 1 if one was refused.
    fn finish(mut self, is_dry: bool) -> Result<(), Failure> {
        self.print(&self.summary(is_dry));
        if self.without_tilt > 0 {
            let have = if self.without_tilt == 1 { "has" } else { "have" };
            tell(&format!(
                "spatecanter: {} {have} no tilt code (4E, 4F). If made for the 4-font machine, the fonts are\n  \
                 others: use --machine 4. With --machine 8 this hint is left out.",
                counted(self.without_tilt, "tape")
            ));
        }
        match self.printed {
            Err(Failure::Closed) if self.writes => {}
            printed => printed?,
        }
        match (self.failed, self.refused) {
            (0, 0) => Ok(()),
            (0, _) => Err(Failure::Told(1)),
            _ => Err(Failure::Told(2)),
        }
    }

    fn summary(&self, is_dry: bool) -> String {
        let mut text = counted(self.accepted + self.refused + self.failed, "file");
        text.push_str(&format!(": {} accepted, {} refused", grouped(self.accepted), grouped(self.refused)));
        if self.failed > 0 {
            text.push_str(&format!(", {} not read or not written", grouped(self.failed)));
        }
        if is_dry {
            text.push_str(NOT_WRITTEN);
        }
        text + "\n"
    }
}
