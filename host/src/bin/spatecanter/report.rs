//! The report over many tapes, and how it is written.

use crate::done::Done;
use crate::failure::Failure;
use crate::input::{self, shown};
use crate::progress;
use crate::tapes::Tape;
use crate::text::{counted, grouped};
use crate::threads;
use spatecanter::galley::Character;
use spatecanter::{Refusal, Report, REPORT_LIMIT, TAPE_LIMIT};
use std::io::{self, Write};

/// How many tapes a thread takes at a time.
const PART: usize = 16;

/// A report, and what was found of each tape, if that is asked for.
pub struct Counted<'a> {
    pub report: Report,
    tapes: &'a [Tape],
    findings: Option<Vec<Finding>>,
}

/// What a tape holds, or its refusal.
type Finding = Result<Held, Refusal>;

struct Held {
    characters: u64,
    pages: u64,
}

/// The report of some of the tapes, and what was found of each.
struct Part {
    report: Report,
    findings: Vec<Finding>,
}

impl Counted<'_> {
    /// Counts the tapes on all processors; the parts are joined in the tapes' order.
    pub fn of(tapes: &[Tape], with_findings: bool) -> Result<Counted<'_>, Failure> {
        if tapes.len() as u64 > REPORT_LIMIT {
            let full = Refusal::ReportFull;
            return Err(Failure::Refused(format!("{}: {full}", counted(tapes.len(), "tape"))));
        }
        let Part { report, findings } = joined_parts(tapes, with_findings)?;
        Ok(Counted { report, tapes, findings: with_findings.then_some(findings) })
    }
}

/// All parts joined, or why one cannot be read.
fn joined_parts(tapes: &[Tape], with_findings: bool) -> Result<Part, Failure> {
    let mut whole = Ok(Part { report: Report::new(), findings: vec![] });
    let parts: Vec<&[Tape]> = tapes.chunks(PART).collect();
    let done = Done::none_of(tapes.len(), "tape");
    let count = |part: &&[Tape]| count_part(part, with_findings, &done);
    progress::while_telling("counting", &|| done.words(), || {
        threads::in_order(threads::of_all_processors(), &parts, count, |part| {
            match (&mut whole, part) {
                (Ok(whole), Ok(part)) => whole.join(part),
                (_, part) => whole = part,
            }
            whole.is_ok()
        });
    });
    whole
}

impl Part {
    fn join(&mut self, other: Part) {
        self.report.join(&other.report).expect("there are not so many tapes");
        self.findings.extend(other.findings);
    }
}

fn count_part(tapes: &[Tape], with_findings: bool, done: &Done) -> Result<Part, Failure> {
    let mut report = Report::new();
    let mut findings = Vec::new();
    for tape in tapes {
        let bytes = input::read(&tape.name, TAPE_LIMIT)?;
        let before = report.characters();
        report.count(&bytes, tape.machine).expect("a part has few tapes");
        if with_findings {
            findings.push(finding(&bytes, tape.machine, report.characters() - before));
        }
        done.add(bytes.len());
    }
    Ok(Part { report, findings })
}

/// What reading the tape answers where there is no room: if it is good, the bytes needed, which are 11 for
/// each character, 3 for each cut and 7.
fn finding(tape: &[u8], machine: u32, characters: u64) -> Finding {
    match spatecanter::read_tape_into(tape, machine, &mut []) {
        Err(Refusal::NoGalleyRoom { needed }) => {
            let cuts = (needed as u64 - 7 - 11 * characters) / 3;
            Ok(Held { characters, pages: cuts + 1 })
        }
        Err(refusal) => Err(refusal),
        Ok(_) => unreachable!("a galley has 7 bytes or more"),
    }
}

/// How a report is written.
#[derive(Clone, Copy)]
pub enum Format {
    Table,
    Csv,
    Json,
}

impl Counted<'_> {
    pub fn write(&self, format: Format, out: &mut dyn Write) -> io::Result<()> {
        match format {
            Format::Table => self.write_table(out),
            Format::Csv => self.write_csv(out),
            Format::Json => self.write_json(out),
        }
    }

    /// The tapes with what was found of them.
    fn findings(&self) -> impl Iterator<Item = (&Tape, &Finding)> {
        self.tapes.iter().zip(self.findings.iter().flatten())
    }

    fn write_table(&self, out: &mut dyn Write) -> io::Result<()> {
        let report = &self.report;
        let mut row = |what: &str, count: u64, more: &str| {
            writeln!(out, "{what:<28}{:>18}{more}", grouped(count as usize))
        };
        row("tapes", report.tapes(), "")?;
        row("accepted", report.accepted(), "")?;
        row("refused", report.tapes() - report.accepted(), "")?;
        for number in Report::NUMBERS {
            if report.refused(number) > 0 {
                let meaning = Refusal::from_parts(number, 0).meaning();
                row(&format!("  under {number}"), report.refused(number), &format!("  {meaning}"))?;
            }
        }
        row("characters", report.characters(), "")?;
        for (font_number, &count) in report.by_font_number().iter().enumerate() {
            if count > 0 {
                let it = Character { x: 0, height: 0, font_number: font_number as i32, code: 1 };
                let (font, points) = (it.font(), it.points());
                row(&format!("  C{font}{points:02}: font {font}, {points} points"), count, "")?;
            }
        }
        row("forward lead, in quanta", report.forward_lead(), "")?;
        row("backward lead, in quanta", report.backward_lead(), "")?;
        for (tape, finding) in self.findings() {
            writeln!(out, "{}: {}", shown(&tape.name), in_words(finding))?;
        }
        Ok(())
    }

    /// A line for each count, or, where they are asked for, for each tape.
    fn write_csv(&self, out: &mut dyn Write) -> io::Result<()> {
        if self.findings.is_some() {
            writeln!(out, "path,machine,number,place,characters,pages")?;
            for (tape, finding) in self.findings() {
                let [number, place, characters, pages] = in_numbers(finding);
                let path = shown(&tape.name).replace('"', "\"\"");
                writeln!(out, "\"{path}\",{},{number},{place},{characters},{pages}", tape.machine)?;
            }
            return Ok(());
        }
        let report = &self.report;
        writeln!(out, "count,of,value")?;
        writeln!(out, "tapes,,{}", report.tapes())?;
        writeln!(out, "accepted,,{}", report.accepted())?;
        for number in Report::NUMBERS {
            writeln!(out, "refused,{number},{}", report.refused(number))?;
        }
        for (font_number, count) in report.by_font_number().iter().enumerate() {
            writeln!(out, "characters,{font_number},{count}")?;
        }
        writeln!(out, "forward lead,,{}", report.forward_lead())?;
        writeln!(out, "backward lead,,{}", report.backward_lead())
    }

    fn write_json(&self, out: &mut dyn Write) -> io::Result<()> {
        let report = &self.report;
        let refused: Vec<String> = Report::NUMBERS
            .iter()
            .map(|&number| format!("\"{number}\": {}", report.refused(number)))
            .collect();
        let characters: Vec<String> = report.by_font_number().iter().map(u64::to_string).collect();
        writeln!(out, "{{")?;
        writeln!(out, "  \"tapes\": {},", report.tapes())?;
        writeln!(out, "  \"accepted\": {},", report.accepted())?;
        writeln!(out, "  \"refused\": {{{}}},", refused.join(", "))?;
        writeln!(out, "  \"characters\": [{}],", characters.join(", "))?;
        writeln!(out, "  \"forward_lead\": {},", report.forward_lead())?;
        write!(out, "  \"backward_lead\": {}", report.backward_lead())?;
        if self.findings.is_some() {
            write!(out, ",\n  \"each\": [")?;
            for (index, (tape, finding)) in self.findings().enumerate() {
                let [number, place, characters, pages] = in_numbers(finding);
                write!(
                    out,
                    "{}\n    {{\"path\": {}, \"machine\": {}, \"number\": {number}, \"place\": {place}, \
                     \"characters\": {characters}, \"pages\": {pages}}}",
                    if index == 0 { "" } else { "," },
                    quoted(&shown(&tape.name)),
                    tape.machine
                )?;
            }
            write!(out, "\n  ]")?;
        }
        writeln!(out, "\n}}")
    }
}

fn in_words(finding: &Finding) -> String {
    match finding {
        Ok(held) => {
            let (characters, pages) = (held.characters as usize, held.pages as usize);
            format!("accepted, {}, {}", counted(characters, "character"), counted(pages, "page"))
        }
        Err(refusal) => refusal.to_string(),
    }
}

/// Number, place, characters and pages.
fn in_numbers(finding: &Finding) -> [u64; 4] {
    match finding {
        Ok(held) => [0, 0, held.characters, held.pages],
        Err(refusal) => [refusal.number() as u64, refusal.place() as u64, 0, 0],
    }
}

/// A string of JSON.
pub fn quoted(text: &str) -> String {
    let mut quoted = String::from("\"");
    for character in text.chars() {
        match character {
            '"' | '\\' => quoted.extend(['\\', character]),
            _ if character < ' ' => quoted.push_str(&format!("\\u{:04x}", u32::from(character))),
            _ => quoted.push(character),
        }
    }
    quoted.push('"');
    quoted
}
