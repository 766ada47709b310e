//! A strip chart on tape: one column without a cut, with a mark for each reading.

use super::codes::READING;
use super::punch::Punch;
use super::Random;
use crate::Machine;

/// From reading to reading, in quanta: ten leads.
const STEP: i32 = 310;
/// Where a mark may stand, in units, and how far it may be from the one before.
const LEFT: i64 = 300;
const RIGHT: i64 = 2_900;
const DRIFT: i64 = 60;
/// The size code of the marks, 8 points.
const SIZE: u8 = 0x51;

/// A tape for the 8-font machine: readings from height 0 on, and a last one at exactly `quanta`. Readings are
/// in font 1, or for a while in font 2.
pub fn chart(seed: u64, quanta: i32) -> Vec<u8> {
    let mut random = Random::new(seed);
    let mut punch = Punch::new(Machine::Eight);
    punch.size(SIZE);
    let (mut x, mut font) = (1_600, 1);
    loop {
        x = (x + random.between(-DRIFT, DRIFT)).clamp(LEFT, RIGHT);
        if random.one_in(25) {
            font = 3 - font;
        }
        punch.font(font);
        punch.go(x as i32);
        punch.set(READING);
        if punch.height == quanta {
            break;
        }
        punch.down(STEP.min(quanta - punch.height));
    }
    punch.tape.push(0x49);
    punch.tape
}
