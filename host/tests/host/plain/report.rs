//! A tape is counted in a report.

use super::galley::Item;
use super::tape::reading;
use super::Refused;

/// A report: tapes counted, accepted, refused under 1 to 10, refused under 50; characters of the 120 font
/// numbers; forward and backward lead. Sums that nobody can have counted go round at 2^64.
pub fn count_tape(tape: &[u8], fonts: u32, report: &mut [u64; 135]) -> Result<(), Refused> {
    if report[0] >= 65_536 {
        return Err((47, 0));
    }
    let mut add = |word: usize, amount: u64| report[word] = report[word].wrapping_add(amount);
    add(0, 1);
    match reading(tape, fonts) {
        Err((50, _)) => add(12, 1),
        Err((number, _)) => add(1 + number, 1),
        Ok(reading) => {
            add(1, 1);
            for item in reading.items {
                if let Item::Character(character) = item {
                    add(13 + character.font_number as usize, 1);
                }
            }
            add(133, reading.forward);
            add(134, reading.backward);
        }
    }
    Ok(())
}
