//! Writes a made strip chart to standard output: `chart SEED QUANTA`.

use std::io::Write;

fn main() {
    let numbers: Vec<u64> = std::env::args().skip(1).map(|word| word.parse().expect("a number")).collect();
    let [seed, quanta] = numbers[..] else {
        eprintln!("usage: chart SEED QUANTA, with the height of the last reading");
        std::process::exit(2);
    };
    let tape = spatecanter::sample::chart(seed, quanta as i32);
    std::io::stdout().write_all(&tape).expect("standard output");
}
