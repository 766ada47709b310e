//! DVI files of the second edition, as written and with commands changed.

use super::{damaged, tall_galley};
use crate::plain;
use spatecanter::sample::Random;

/// A file as our writer makes it.
pub fn valid_edition2_file(random: &mut Random) -> Vec<u8> {
    let items = random.pick(&[0, 1, 2, 5, 12, 20]);
    let cuts = random.pick(&[2, 4, 20]);
    plain::write_dvi2(&tall_galley(random, items, cuts)).unwrap()
}

/// A file of any kind: as written, damaged, with commands changed, or of any bytes; at times cut short.
pub fn edition2_file(random: &mut Random) -> Vec<u8> {
    let mut file = valid_edition2_file(random);
    match random.below(10) {
        0 => {}
        1 => {
            let length = random.below(40);
            file = random.bytes(length);
        }
        2 => file = damaged(random, file),
        _ => {
            let mut commands = split(&file);
            for _ in 0..random.pick(&[1, 1, 1, 2]) {
                change(random, &mut commands);
            }
            file = commands.concat();
        }
    }
    if random.one_in(4) {
        let length = random.below(file.len() + 1);
        file.truncate(length);
    }
    file
}

/// The commands of a file as written.
fn split(file: &[u8]) -> Vec<Vec<u8>> {
    let mut commands = Vec::new();
    let mut rest = file;
    while let Some(first) = rest.first() {
        let length = match first {
            133 | 143 | 157 | 235 => 2,
            144 | 158 => 3,
            159 => 4,
            139 => 45,
            243 => 20,
            247 => 15,
            248 => 29,
            249 => 6,
            _ => 1,
        };
        let (command, after) = rest.split_at(length);
        commands.push(command.to_vec());
        rest = after;
    }
    commands
}

/// A command left out, doubled, exchanged with the next, changed, or put in.
fn change(random: &mut Random, commands: &mut Vec<Vec<u8>>) {
    if commands.is_empty() {
        return;
    }
    let place = random.below(commands.len());
    match random.below(8) {
        0 => drop(commands.remove(place)),
        1 => commands.insert(place, commands[place].clone()),
        2 if place + 1 < commands.len() => commands.swap(place, place + 1),
        3 | 4 => {
            let command = &mut commands[place];
            let byte = random.below(command.len());
            command[byte] = command[byte].wrapping_add(random.pick(&[1, 2, 3, 4, 253, 255, 128]));
        }
        _ => commands.insert(place, other(random)),
    }
}

/// A command that may be good in one place or another, or nowhere.
fn other(random: &mut Random) -> Vec<u8> {
    let far = random.pick(&[1, 3, -3, -1, 127, 129, -129, 255, 300, 32_767, 32_769, -33_000, 8_388_607]);
    let amount: [u8; 4] = i32::to_be_bytes(far);
    let length = random.between(1, 4) as u8;
    let number = &amount[4 - usize::from(length)..];
    match random.below(9) {
        0 => vec![133, random.pick(&[0, 1, 108, 109, 255])],
        1 | 2 => [&[142 + length], number].concat(),
        3 | 4 => [&[156 + length], number].concat(),
        5 => vec![171 + random.below(64) as u8],
        6 => vec![235, random.byte()],
        7 => vec![random.pick(&[0, 138, 140, 141, 142, 147, 152, 161, 166, 223, 250, 255])],
        _ => vec![random.byte()],
    }
}
