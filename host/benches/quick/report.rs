//! A tape counted in a report, in one pass: its flashes by size and font, its leads by direction.

use super::tape::{font_number, is_flash, scan, LEAD_BACKWARD};
use super::{accepted, refused};

pub fn count_tape(tape: &[u8], machine: u32, report: &mut [u64; 135]) -> [usize; 3] {
    if report[0] >= 65_536 {
        return refused((47, 0));
    }
    let mut flashes = [0_u64; 128];
    let mut leads = 0_u64;
    let scanned = scan(tape, machine, |modes, code| {
        flashes[(modes & 127) as usize] += u64::from(is_flash(code));
        leads += LEADS[usize::from(modes & LEAD_BACKWARD != 0)][usize::from(code)];
    });
    let mut add = |word: usize, amount: u64| report[word] = report[word].wrapping_add(amount);
    add(0, 1);
    match scanned {
        Err((50, _)) => add(12, 1),
        Err((number, _)) => add(1 + number, 1),
        Ok(_) => {
            add(1, 1);
            for (modes, &count) in flashes.iter().enumerate().filter(|(_, &count)| count > 0) {
                add(13 + font_number(modes as u32) as usize, count);
            }
            add(133, leads & 0xFFFF_FFFF);
            add(134, leads >> 32);
        }
    }
    accepted(0)
}

/// How far each code leads, forward in the low half of a word or backward in the high half.
static LEADS: [[u64; 256]; 2] = leads();

const fn leads() -> [[u64; 256]; 2] {
    let mut leads = [[0; 256]; 2];
    let mut code = 0x60;
    while code < 0x80 {
        leads[0][code] = 0x7F - code as u64;
        leads[1][code] = (0x7F - code as u64) << 32;
        code += 1;
    }
    leads
}
