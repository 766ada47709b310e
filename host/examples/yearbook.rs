//! Writes a made yearbook tape to standard output: `yearbook SEED LENGTH [4|8]`.

use spatecanter::Machine;
use std::io::Write;

fn main() {
    let numbers: Vec<u64> = std::env::args().skip(1).map(|word| word.parse().expect("a number")).collect();
    let (machine, seed, length) = match numbers[..] {
        [seed, length] | [seed, length, 8] => (Machine::Eight, seed, length),
        [seed, length, 4] => (Machine::Four, seed, length),
        _ => {
            eprintln!("usage: yearbook SEED LENGTH [4|8], with the length in bytes and the machine's fonts");
            std::process::exit(2);
        }
    };
    let tape = spatecanter::sample::yearbook(machine, seed, length as usize);
    std::io::stdout().write_all(&tape).expect("standard output");
}
