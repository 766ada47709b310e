//! Writes a made tape of three pages to standard output: `pages SEED LINES`.

use std::io::Write;

fn main() {
    let numbers: Vec<u64> = std::env::args().skip(1).map(|word| word.parse().expect("a number")).collect();
    let [seed, lines] = numbers[..] else {
        eprintln!("usage: pages SEED LINES, with the lines of each page that is not empty");
        std::process::exit(2);
    };
    let tape = spatecanter::sample::pages(seed, lines as usize);
    std::io::stdout().write_all(&tape).expect("standard output");
}
