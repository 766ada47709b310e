//! Sheets as inputs.

use crate::failure::Failure;
use crate::fonts::Fonts;
use crate::input::shown;
use crate::loudness::tell;
use crate::marks::{self, Measure};
use crate::plot::Source;
use crate::text::counted;
use spatecanter::sheet::{self, Field};
use spatecanter::{Machine, Sheet, SHEET_LIMIT};
use std::ffi::OsStr;

/// Whether bytes begin with the field of a page, as the sheet of every file that shows a page does. No galley
/// and no tape that is accepted begins so.
pub fn is_sheet(bytes: &[u8]) -> bool {
    bytes.first() == Some(&5)
}

/// Tells again and again, as more is read, whether it may still become a sheet.
pub fn looks_good() -> impl FnMut(&[u8]) -> bool {
    let mut place = 0;
    move |bytes| {
        place = sheet::end_of_fields(bytes, place);
        bytes.len() - place < sheet::LONGEST_FIELD
    }
}

/// Whole sheets only.
pub fn checked(name: &OsStr, bytes: Vec<u8>) -> Result<Sheet, Failure> {
    let refused = |why: String| Failure::Refused(format!("{}: {why}", shown(name)));
    if bytes.len() > SHEET_LIMIT {
        return Err(refused(format!("no sheet: longer than {}", counted(SHEET_LIMIT, "byte"))));
    }
    Sheet::from_bytes(bytes).map_err(|fault| refused(fault.to_string()))
}

/// What plot draws of a sheet.
pub fn source(
    name: &OsStr,
    sheet: &Sheet,
    measure: Measure,
    machine: Option<Machine>,
    fonts: Option<&OsStr>,
) -> Result<Source, Failure> {
    let pages = marks::of_sheet(sheet, measure);
    let (origin, fonts) = match (measure, machine) {
        (Measure::Dots(dots), _) => {
            (format!("Sheet, {} to an inch", counted(dots as usize, "dot")), Fonts::choose_of_xgp(fonts)?)
        }
        (Measure::Rsu, Some(it)) => {
            (format!("Sheet in rsu, {}-font machine", it.fonts()), Fonts::choose(fonts, machine)?)
        }
        (Measure::Rsu, None) => ("Sheet in rsu".into(), Fonts::choose(fonts, None)?),
    };
    if matches!(measure, Measure::Rsu) && is_small(sheet) {
        tell(&format!(
            "spatecanter: no character of {} stands 1/432 inch from the page's corner. If the sheet is of an\n  \
             XGP file, its places are dots: use --dots N, the dots to an inch.",
            shown(name)
        ));
    }
    Ok(Source { name: shown(name), origin, fonts, pages })
}

/// Whether the characters of a sheet in rsu stand nearer to 0 than one unit, but not all at 0.
fn is_small(sheet: &Sheet) -> bool {
    let numbers = sheet.fields().flat_map(|field| match field {
        Field::Character { x, y, .. } => [x, y],
        _ => [0, 0],
    });
    let greatest = numbers.map(i32::unsigned_abs).max().unwrap_or(0);
    (1..=32_768 / 3).contains(&greatest)
}
