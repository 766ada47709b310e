//! Writes the code table of the made tapes to standard output.

fn main() {
    print!("{}", spatecanter::sample::codes());
}
