//! Work on many things at once, with results in the things' order.

use std::collections::BTreeMap;
use std::sync::atomic::{AtomicUsize, Ordering::Relaxed};
use std::sync::{Mutex, PoisonError};
use std::thread;

/// So many threads as there are processors.
pub fn of_all_processors() -> usize {
    thread::available_parallelism().map_or(1, usize::from)
}

/// Works on all of `things`, on so many threads. Each result is taken as soon as those before it are; where
/// `take` says that no more are wanted, no more work is begun.
pub fn in_order<T: Sync, R: Send>(
    threads: usize,
    things: &[T],
    work: impl Fn(&T) -> R + Sync,
    take: impl FnMut(R) -> bool + Send,
) {
    let next = AtomicUsize::new(0);
    let results = Mutex::new(Results { waiting: BTreeMap::new(), taken: 0, take });
    let turn = || loop {
        let index = next.fetch_add(1, Relaxed);
        let Some(thing) = things.get(index) else {
            break;
        };
        let result = work(thing);
        if !results.lock().unwrap_or_else(PoisonError::into_inner).add(index, result) {
            next.store(things.len(), Relaxed);
        }
    };
    thread::scope(|scope| {
        for _ in 0..threads.min(things.len()) {
            scope.spawn(turn);
        }
    });
}

/// Results that wait for one before them, and how many were taken.
struct Results<R, F> {
    waiting: BTreeMap<usize, R>,
    taken: usize,
    take: F,
}

impl<R, F: FnMut(R) -> bool> Results<R, F> {
    /// Whether more are wanted after what can be taken now.
    fn add(&mut self, index: usize, result: R) -> bool {
        self.waiting.insert(index, result);
        while let Some(result) = self.waiting.remove(&self.taken) {
            self.taken += 1;
            if !(self.take)(result) {
                // Nothing comes at this place any more.
                self.taken = usize::MAX;
            }
        }
        self.taken < usize::MAX
    }
}
