//! Why the command ends without success, and its exit status.

use crate::progress;
use std::io::{stderr, Write};
use std::process::ExitCode;

pub enum Failure {
    /// The input was refused.
    Refused(String),
    /// The command was called wrongly.
    Usage(String),
    /// A file could not be read or written.
    File(String),
    /// Standard output has said it: two inputs differ, or some of many were refused (1), or could not be read
    /// or written (2).
    Told(u8),
    /// Whoever read standard output has seen enough.
    Closed,
}

impl Failure {
    /// Says it on standard error; 1 for a refusal or a difference, 0 where nobody reads on, else 2.
    pub fn report(self) -> ExitCode {
        match self {
            Failure::Refused(message) => {
                say(&format!("spatecanter: {message}"));
                ExitCode::from(1)
            }
            Failure::Usage(message) => {
                say(&format!("spatecanter: {message}\nSee spatecanter --help."));
                ExitCode::from(2)
            }
            Failure::File(message) => {
                say(&format!("spatecanter: {message}"));
                ExitCode::from(2)
            }
            Failure::Told(status) => ExitCode::from(status),
            Failure::Closed => ExitCode::SUCCESS,
        }
    }
}

/// Writes a line to standard error, if anyone is there to read it.
pub fn say(text: &str) {
    let _cleared = progress::cleared();
    let _ = writeln!(stderr(), "{text}");
}
