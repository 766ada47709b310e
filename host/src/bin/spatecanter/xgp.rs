//! Files of XGP character mode to sheets.

use crate::arguments::Arguments;
use crate::commands::{widths, XGP_USAGE};
use crate::each::{self, Made, Told};
use crate::failure::Failure;
use crate::text::{counted, grouped};
use crate::{input, progress, refused};
use spatecanter::sheet::Field;
use spatecanter::{Refusal, Sheet, XGP_LIMIT};
use std::collections::BTreeSet;

pub fn run(arguments: &Arguments) -> Result<(), Failure> {
    let spacing = spacing(arguments)?;
    let Some(widths_name) = arguments.widths.as_deref() else {
        return Err(missing("the widths of its fonts, --widths FILE"));
    };
    let widths = widths(arguments, "XGP file")?;
    each::input(arguments, &["sheet"], &|name| {
        let file = input::read(name, XGP_LIMIT)?;
        let read = || spatecanter::read_xgp(&file, spacing, &widths);
        let sheet = progress::during("reading the XGP file", read).map_err(|refusal| {
            let is_of_widths = matches!(refusal, Refusal::WidthsNotWhole | Refusal::NegativeWidth);
            let at_fault = if is_of_widths { widths_name } else { name };
            refused::input(at_fault, &refusal.in_xgp(&file, spacing, &widths))
        })?;
        let reach = reach(&sheet);
        let holds = reach.lines().next().unwrap_or_default().into();
        Ok(Made { told: Told::OfOutput(reach), ..Made::new(&file, sheet.into_bytes(), holds) })
    })
}

/// The scan lines from one line to the next that --spacing names.
fn spacing(arguments: &Arguments) -> Result<u16, Failure> {
    let Some(word) = &arguments.spacing else {
        return Err(missing("its line spacing, --spacing N"));
    };
    word.to_str().and_then(|text| text.parse().ok()).ok_or_else(|| {
        Failure::Usage(format!(
            "--spacing {} is no line spacing: it is a number of scan lines, 0 to 65,535",
            word.to_string_lossy()
        ))
    })
}

fn missing(what: &str) -> Failure {
    Failure::Usage(format!("an XGP file does not say {what}\nUsage: spatecanter {XGP_USAGE}"))
}

/// How many characters a sheet has, on which pages, how far they reach, and in which fonts.
fn reach(sheet: &Sheet) -> String {
    let (mut characters, mut pages, mut last) = (0, 0, 0);
    let (mut right, mut down, mut numbers) = (i32::MIN, i32::MIN, BTreeSet::new());
    for field in sheet.fields() {
        match field {
            Field::Page(number) => (pages, last) = (pages + 1, number),
            Field::Character { x, y, font, .. } => {
                characters += 1;
                (right, down) = (right.max(x), down.max(y));
                numbers.insert(font);
            }
            Field::Rule { .. } => {}
        }
    }
    let total = counted(characters, "character");
    if characters == 0 {
        return total;
    }
    let fonts: Vec<String> = numbers.iter().map(i32::to_string).collect();
    format!(
        "{total} on {}, the last numbered {}\n  farthest x {} dots\n  greatest y {} scan lines\n  fonts {}",
        counted(pages, "page"),
        signed(last),
        signed(right),
        signed(down),
        fonts.join(" ")
    )
}

/// A number with its thousands apart.
fn signed(number: i32) -> String {
    let sign = if number < 0 { "-" } else { "" };
    format!("{sign}{}", grouped(number.unsigned_abs() as usize))
}
