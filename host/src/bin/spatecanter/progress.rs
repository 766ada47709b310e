//! Progress of slow work, on standard error if that is a terminal, and with -v the time of each step.

use crate::loudness::{self, Loudness};
use std::io::{stderr, IsTerminal, Write};
use std::sync::atomic::{AtomicBool, Ordering::Relaxed};
use std::sync::mpsc::{channel, Receiver, RecvTimeoutError};
use std::sync::{Mutex, MutexGuard, PoisonError};
use std::thread;
use std::time::{Duration, Instant};

/// How far the work is, in words.
#[derive(Default)]
pub struct Reached(Mutex<String>);

impl Reached {
    pub fn set(&self, words: String) {
        *self.0.lock().unwrap_or_else(PoisonError::into_inner) = words;
    }

    fn words(&self) -> String {
        self.0.lock().unwrap_or_else(PoisonError::into_inner).clone()
    }
}

/// Does the work; after each second of it, says what is being done and for how long.
pub fn during<T>(what: &str, work: impl FnOnce() -> T) -> T {
    while_reaching(what, |_| work())
}

/// The same for work that says how far it is.
pub fn while_reaching<T>(what: &str, work: impl FnOnce(&Reached) -> T) -> T {
    let reached = Reached::default();
    while_telling(what, &|| reached.words(), || work(&reached))
}

/// The same for work of which it can be asked how far it is.
pub fn while_telling<T>(what: &str, words: &(dyn Fn() -> String + Sync), work: impl FnOnce() -> T) -> T {
    let start = Instant::now();
    let result = if loudness::is(Loudness::Quiet) || !stderr().is_terminal() || IS_TOLD.swap(true, Relaxed) {
        work()
    } else {
        let result = while_told(what, words, work);
        IS_TOLD.store(false, Relaxed);
        result
    };
    loudness::tell_step(&format!("{what}: {:.3} s{}", start.elapsed().as_secs_f64(), words()));
    result
}

/// Whether some work is told; of work that is part of it nothing is.
static IS_TOLD: AtomicBool = AtomicBool::new(false);

fn while_told<T>(what: &str, words: &(dyn Fn() -> String + Sync), work: impl FnOnce() -> T) -> T {
    thread::scope(|scope| {
        let (working, watched) = channel();
        scope.spawn(move || tell(what, words, &watched));
        let result = work();
        drop(working);
        result
    })
}

/// Tells until the other end is dropped, then clears the line.
fn tell(what: &str, words: &dyn Fn() -> String, watched: &Receiver<()>) {
    let start = Instant::now();
    while watched.recv_timeout(Duration::from_secs(1)) == Err(RecvTimeoutError::Timeout) {
        let mut line = line();
        let _ = write!(stderr(), "\r\x1b[K{what}: {} s{}", start.elapsed().as_secs(), words());
        line.is_there = true;
    }
    drop(cleared());
}

/// The line on the terminal that tells how far the work is.
pub struct Line {
    is_there: bool,
}

static LINE: Mutex<Line> = Mutex::new(Line { is_there: false });

fn line() -> MutexGuard<'static, Line> {
    LINE.lock().unwrap_or_else(PoisonError::into_inner)
}

/// The line, cleared until it is told again; that waits as long as this is held.
pub fn cleared() -> MutexGuard<'static, Line> {
    let mut line = line();
    if std::mem::take(&mut line.is_there) {
        let _ = write!(stderr(), "\r\x1b[K");
    }
    line
}
