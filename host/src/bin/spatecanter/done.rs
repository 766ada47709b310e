//! How many of many files are done.

use crate::text::{counted, grouped};
use std::sync::atomic::{AtomicUsize, Ordering::Relaxed};
use std::time::Instant;

/// How many files there are of a kind, how many are done, their bytes, and since when.
pub struct Done {
    all: usize,
    kind: &'static str,
    files: AtomicUsize,
    bytes: AtomicUsize,
    start: Instant,
}

impl Done {
    pub fn none_of(all: usize, kind: &'static str) -> Done {
        Done { all, kind, files: AtomicUsize::new(0), bytes: AtomicUsize::new(0), start: Instant::now() }
    }

    pub fn add(&self, bytes: usize) {
        self.files.fetch_add(1, Relaxed);
        self.bytes.fetch_add(bytes, Relaxed);
    }

    /// A bar, the files done, their speed, and the time left, if that can be said.
    pub fn words(&self) -> String {
        const WIDTH: usize = 20;
        let (files, bytes) = (self.files.load(Relaxed), self.bytes.load(Relaxed));
        let full = WIDTH * files / self.all.max(1);
        let bar = format!("{}{}", "#".repeat(full), ".".repeat(WIDTH - full));
        let seconds = self.start.elapsed().as_secs_f64();
        let speed = bytes as f64 / seconds / 1e6;
        let of_all =
            format!(" [{bar}] {} of {}, {speed:.0} MB/s", grouped(files), counted(self.all, self.kind));
        if files == 0 {
            return of_all;
        }
        let left = seconds * (self.all - files) as f64 / files as f64;
        format!("{of_all}, {} s left", grouped(left.ceil() as usize))
    }
}
