//! Tests of the library and of the command, against a plain reading of the rules.

mod cases;
mod command;
mod compare;
mod differential;
mod dvitype;
/// The C interface, as the package declares it for itself.
#[path = "../../src/ffi.rs"]
mod ffi;
mod header;
mod implementation;
mod install;
mod largest;
mod package;
mod plain;
#[path = "../../benches/quick/mod.rs"]
mod quick;
mod samples;
mod scripts;
mod vectors;

/// A row of hexadecimal bytes.
fn hex(text: &str) -> Vec<u8> {
    text.split_whitespace().map(|byte| u8::from_str_radix(byte, 16).unwrap()).collect()
}
