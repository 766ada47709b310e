//! Files of XGP character mode with their line spacings and width tables.

use super::damaged;
use spatecanter::sample::Random;

#[derive(Clone)]
pub struct XgpFile {
    pub bytes: Vec<u8>,
    pub spacing: u16,
    pub widths: Vec<i32>,
}

/// A file of any kind: good codes, codes of every kind, damaged, or of any bytes.
pub fn xgp_file(random: &mut Random) -> XgpFile {
    let slips = random.one_in(3);
    let mut file = made(random, slips);
    if random.one_in(3) {
        file.bytes = damaged(random, file.bytes);
    }
    if random.one_in(20) {
        let length = random.below(20);
        file.bytes = random.bytes(length);
    }
    match random.below(60) {
        0 => file.widths.truncate(random.below(512)),
        1 => file.widths.extend(vec![0; random.between(1, 200) as usize]),
        2 | 3 => {
            let place = random.below(512);
            file.widths[place] = -random.between(1, 1 << 31) as i32;
        }
        _ => {}
    }
    file
}

/// A file that is read to its end.
pub fn valid_xgp_file(random: &mut Random) -> XgpFile {
    let mut file = made(random, false);
    while crate::plain::read_xgp(&file.bytes, file.spacing, &file.widths).is_err() {
        file = made(random, false);
    }
    file
}

/// Codes with small widths, or now and then with great ones; with `slips`, some codes that are refused.
fn made(random: &mut Random, slips: bool) -> XgpFile {
    let great = random.one_in(12);
    let width = |random: &mut Random| match random.below(20) {
        0 if great => i32::MAX - random.between(0, 70) as i32,
        1 if great => random.bits() as i32 & i32::MAX,
        2 => 0,
        _ => random.between(0, 60) as i32,
    };
    let widths = (0..512).map(|_| width(random)).collect();
    let spacing = random.pick(&[0, 1, 40, 40, 40, 255, 256, 32_768, 65_535]);
    let mut bytes = Vec::new();
    for _ in 0..random.pick(&[0, 1, 3, 10, 10, 40, 80]) {
        let code = if slips && random.one_in(12) { any_code(random) } else { good_code(random) };
        bytes.extend(code);
    }
    if great && random.one_in(3) {
        // Near the lowest baseline.
        bytes.splice(0..0, vec![0o12; random.between(32_766, 32_768) as usize]);
    }
    XgpFile { bytes, spacing, widths }
}

fn good_code(random: &mut Random) -> Vec<u8> {
    let seven = |random: &mut Random| random.byte() & 127;
    match random.below(20) {
        0 => vec![0],
        1 => vec![0o12],
        2 => vec![0o15],
        3 => vec![0o14],
        4 | 5 => vec![0o177, 1, random.below(4) as u8],
        6 => vec![0o177, 1, 0o40, seven(random), seven(random)],
        7 => vec![0o177, 1, 0o43, seven(random)],
        8 | 9 => vec![0o177, 2, seven(random)],
        10 => vec![0o177, random.pick(&[0, 0o11, 0o12, 0o14, 0o15, 0o40, 0o101, 0o176, 0o177])],
        11 => vec![random.pick(&[1, 2, 3, 4, 5, 6, 7, 0o13, 0o16, 0o17, 0o33, 0o37])],
        _ => (0..random.between(1, 12)).map(|_| random.between(0o40, 0o176) as u8).collect(),
    }
}

/// Bytes like a code's, of any kind.
fn any_code(random: &mut Random) -> Vec<u8> {
    let byte = |random: &mut Random| match random.below(6) {
        0 => random.byte(),
        1 => random.pick(&[0x7F, 0x80, 0xFF]),
        _ => random.byte() & 63,
    };
    match random.below(8) {
        0 => vec![byte(random)],
        1 => vec![random.pick(&[0o10, 0o11, 0o200, 0o377])],
        2 | 3 => vec![0o177, byte(random)],
        4 | 5 => vec![0o177, 1, byte(random)],
        6 => vec![0o177, 1, random.pick(&[0o40, 0o43]), byte(random), byte(random)],
        _ => vec![0o177, 2, byte(random)],
    }
}
