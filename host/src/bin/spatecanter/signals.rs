//! Signals that end a run: SIGHUP, SIGINT, SIGQUIT, SIGTERM and SIGXCPU. SIGXFSZ ends none: writing past the
//! longest file that is allowed fails instead, as on a full disk.
//!
//! std has no signals, but links the C library, which has them; these are the few functions needed, as Linux
//! declares them. The signals are blocked in every thread and taken by one that waits for them, so that
//! tidying up is ordinary code.

use std::ffi::c_int;
use std::ptr::null_mut;
use std::thread;

const SIGNALS: [c_int; 5] = [1, 2, 3, 15, 24];
const SIGXFSZ: c_int = 25;

const SIG_DFL: usize = 0;
const SIG_IGN: usize = 1;
const SIG_BLOCK: c_int = 0;
const SIG_UNBLOCK: c_int = 1;

/// A sigset_t: a bit for each of 1,024 signals.
#[repr(C)]
#[derive(Clone, Copy)]
struct SignalSet([u64; 16]);

extern "C" {
    fn signal(signal: c_int, handler: usize) -> usize;
    fn sigemptyset(set: *mut SignalSet) -> c_int;
    fn sigaddset(set: *mut SignalSet, signal: c_int) -> c_int;
    fn pthread_sigmask(how: c_int, set: *const SignalSet, old: *mut SignalSet) -> c_int;
    fn sigwait(set: *const SignalSet, signal: *mut c_int) -> c_int;
    fn raise(signal: c_int) -> c_int;
}

/// Has `tidy` called before one of the signals ends the run. To be called once, before there is a second
/// thread.
pub fn tidy_before_the_end(tidy: fn()) {
    let set = awaited();
    // SAFETY: the handler needs no function; the set is a live sigset_t that was filled by the C library.
    unsafe {
        signal(SIGXFSZ, SIG_IGN);
        pthread_sigmask(SIG_BLOCK, &set, null_mut());
    }
    thread::spawn(move || {
        let mut which = 0;
        // SAFETY: the set and the number are live; the signals of the set are blocked in all threads.
        while unsafe { sigwait(&set, &mut which) } != 0 {}
        tidy();
        // SAFETY: as above; the signal, no longer blocked in this thread, ends the process as it does by
        // default.
        unsafe {
            signal(which, SIG_DFL);
            pthread_sigmask(SIG_UNBLOCK, &set, null_mut());
            raise(which);
        }
    });
}

/// The signals that this run was not started to ignore, as one that nohup starts ignores SIGHUP.
fn awaited() -> SignalSet {
    let mut set = SignalSet([0; 16]);
    // SAFETY: the set is a live sigset_t; the handlers set are the two that need no function.
    unsafe {
        sigemptyset(&mut set);
        for which in SIGNALS {
            if signal(which, SIG_DFL) == SIG_IGN {
                signal(which, SIG_IGN);
            } else {
                sigaddset(&mut set, which);
            }
        }
    }
    set
}
