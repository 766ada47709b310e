//! A DVI file becomes the galley whose targets it shows.

use super::dvi::{shown, Mark};
use super::{field, Refused};

pub fn dvi_to_galley(dvi: &[u8], widths: &[i32]) -> Result<Vec<u8>, Refused> {
    let mut galley = Vec::new();
    let (mut pages, mut characters, mut items) = (0, 0_u32, 0);
    for (place, mark) in shown(dvi, widths)? {
        let item = match mark {
            Mark::Page(number) if number == pages + 1 => {
                pages += 1;
                if pages == 1 {
                    continue;
                }
                Some(field(6, &[]))
            }
            Mark::Character { x, y, font, code } => {
                characters += 1;
                character(x, y, font, code)
            }
            Mark::Page(_) | Mark::Rule { .. } => None,
        };
        items += 1;
        match item {
            Some(field) if items <= 1_048_576 => galley.extend(field),
            _ => return Err((45, place)),
        }
    }
    galley.extend(field(2, &characters.to_be_bytes()));
    Ok(galley)
}

/// The field of the valid character whose targets these are.
fn character(x: i64, y: i64, font: i64, code: u8) -> Option<Vec<u8>> {
    if !(0..=119).contains(&font) || !(1..=108).contains(&code) {
        return None;
    }
    let valid = if font % 15 < 9 { 0..=3_239 } else { -55..=3_184 };
    let x = place_of(x).filter(|x| valid.contains(x))?;
    let height = (0..=1_000_000).contains(&(y / 32_768)).then_some(y / 32_768)?;
    if y != 32_768 * height {
        return None;
    }
    let (x, height) = ((x as i16).to_be_bytes(), (height as i32).to_be_bytes());
    Some(field(7, &[&x[..], &height, &[font as u8, code]].concat()))
}

/// The whole number of units whose target this is: three times a target is at most 1 away from 32,768 times
/// its place.
fn place_of(target: i64) -> Option<i64> {
    let near = 3 * target / 32_768;
    (near - 1..=near + 1).find(|x| (3 * target - 32_768 * x).abs() <= 1)
}
