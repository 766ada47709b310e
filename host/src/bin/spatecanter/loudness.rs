//! How much is told on standard error beside failures: nothing with -q, each step with -v.

use crate::failure::say;
use std::sync::atomic::{AtomicU8, Ordering};

#[derive(Clone, Copy, PartialEq, Eq)]
#[repr(u8)]
pub enum Loudness {
    Quiet,
    Usual,
    Verbose,
}

static LOUDNESS: AtomicU8 = AtomicU8::new(Loudness::Usual as u8);

/// For the whole run.
pub fn set(loudness: Loudness) {
    LOUDNESS.store(loudness as u8, Ordering::Relaxed);
}

pub fn is(loudness: Loudness) -> bool {
    LOUDNESS.load(Ordering::Relaxed) == loudness as u8
}

/// Tells what was done, or gives a hint.
pub fn tell(text: &str) {
    if !is(Loudness::Quiet) {
        say(text);
    }
}

/// Tells a step.
pub fn tell_step(text: &str) {
    if is(Loudness::Verbose) {
        say(text);
    }
}
