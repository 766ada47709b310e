//! A galley becomes a DVI file.

use super::galley::{low_items, Item};
use super::Refused;
use std::collections::BTreeSet;

const POINTS: [&str; 15] =
    ["07", "08", "10", "11", "12", "14", "18", "09", "06", "16", "20", "22", "24", "28", "36"];

pub fn write_dvi(galley: &[u8]) -> Result<Vec<u8>, Refused> {
    let items = low_items(galley)?;
    let mut dvi = Vec::new();
    let mut last_bop = -1_i32;
    let (mut widest, mut deepest) = (0, 0);
    let mut fonts = BTreeSet::new();
    for (index, page) in items.split(|item| matches!(item, Item::Cut)).enumerate() {
        let bop = dvi.len() as i32;
        dvi.push(129);
        dvi.extend((index as i32 + 1).to_be_bytes());
        dvi.extend(last_bop.to_be_bytes());
        last_bop = bop;

        let (mut x, mut y) = (0, 0);
        let mut last_font = None;
        for item in page {
            let Item::Character(character) = item else { unreachable!() };
            let font = character.font_number;
            if last_font != Some(font) {
                dvi.extend(font_command(font));
            }
            let (to_x, to_y) = (target(character.x), 32_768 * character.height as i32);
            dvi.extend(move_command([144, 143, 142], to_x - x));
            dvi.extend(move_command([148, 147, 146], to_y - y));
            dvi.extend([136, character.code as u8]);
            (x, y) = (to_x, to_y);
            widest = widest.max(x);
            deepest = deepest.max(y);
            last_font = Some(font);
            fonts.insert(font);
        }
        dvi.push(130);
    }

    let postamble = dvi.len() as i32;
    dvi.push(131);
    for number in [last_bop, deepest, widest] {
        dvi.extend(number.to_be_bytes());
    }
    for font in fonts {
        dvi.extend(font.to_be_bytes());
        dvi.extend(font.to_be_bytes());
        dvi.extend(format!("\"C{}{}\"", font / 15 + 1, POINTS[font as usize % 15]).bytes());
    }
    dvi.extend((-1_i32).to_be_bytes());
    dvi.extend(postamble.to_be_bytes());
    dvi.extend([0, 223, 223, 223, 223]);
    Ok(dvi)
}

/// The whole number nearest to 32,768x/3: of the three next to it the one with three times itself
/// at most 1 away from 32,768x.
fn target(x: i32) -> i32 {
    let near = 32_768 * x / 3;
    for candidate in [near - 1, near, near + 1] {
        if (3 * candidate - 32_768 * x).abs() <= 1 {
            return candidate;
        }
    }
    unreachable!()
}

fn font_command(font: i32) -> Vec<u8> {
    if font <= 63 {
        return vec![154 + font as u8];
    }
    let mut command = vec![137];
    command.extend(font.to_be_bytes());
    command
}

/// The shortest of the commands with two, three and four bytes; none for 0.
fn move_command(commands: [u8; 3], distance: i32) -> Vec<u8> {
    let bytes = distance.to_be_bytes();
    let (command, from) = match distance {
        0 => return vec![],
        -32_768..=32_767 => (commands[0], 2),
        -8_388_608..=8_388_607 => (commands[1], 1),
        _ => (commands[2], 0),
    };
    let mut whole = vec![command];
    whole.extend(&bytes[from..]);
    whole
}
