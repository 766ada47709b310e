//! Writes made lists of stations, as an XGP file, to standard output: `stations SEED LENGTH`; or the widths of their
//! fonts: `stations widths`.

use spatecanter::sample::{stations, stations_widths};
use std::io::Write;

fn main() {
    let words: Vec<String> = std::env::args().skip(1).collect();
    let bytes = match &words[..] {
        [word] if word == "widths" => {
            stations_widths().iter().flat_map(|width| width.to_be_bytes()).collect()
        }
        [seed, length] => {
            stations(seed.parse().expect("a number"), length.parse().expect("a length in bytes"))
        }
        _ => {
            eprintln!("usage: stations SEED LENGTH, with the length in bytes; or stations widths");
            std::process::exit(2);
        }
    };
    std::io::stdout().write_all(&bytes).expect("standard output");
}
