//! A tape that comes in pieces.

use crate::extents::Extents;
use crate::ffi;
use crate::machine::Machine;
use crate::operations::outcome;
use crate::refusal::{Outcome, Refusal};

/// A tape that is read piece by piece, as it comes from the drive. The fields of what a piece sets go out with
/// it; closing writes End. It keeps some words between two calls, whatever the length of the tape.
///
/// After a refusal other than for room it repeats that refusal until it is started anew; a piece or a closing
/// that was refused for room may be offered again.
///
/// ```
/// use spatecanter::{Machine, RunningTape};
///
/// let mut tape = RunningTape::new();
/// tape.start(Machine::Eight);
/// let mut galley = tape.feed(&[0x40, 0xEF, 0x52, 0x4E, 0x01])?;
/// galley.extend(tape.feed(&[0xFC, 0x02, 0x49])?);
/// galley.extend(tape.close()?);
/// assert_eq!(galley, spatecanter::read_tape(&[0x40, 0xEF, 0x52, 0x4E, 0x01, 0xFC, 0x02, 0x49], Machine::Eight)?);
/// # Ok::<(), spatecanter::Refusal>(())
/// ```
#[derive(Clone, Debug, PartialEq, Eq)]
pub struct RunningTape {
    words: [u64; ffi::TAPE_WORDS],
}

/// The bytes of End.
const END: usize = 7;

impl RunningTape {
    /// A running tape before any start.
    ///
    /// ```
    /// use spatecanter::{Refusal, RunningTape};
    ///
    /// assert_eq!(RunningTape::new().feed(&[]), Err(Refusal::NotStarted));
    /// ```
    pub fn new() -> RunningTape {
        let mut words = [0; ffi::TAPE_WORDS];
        // SAFETY: the pointer comes from a live array.
        unsafe { ffi::sp_new_tape(&mut words) };
        RunningTape { words }
    }

    /// Starts a tape of this machine, whatever came before it.
    ///
    /// ```
    /// use spatecanter::{Machine, RunningTape};
    ///
    /// let mut tape = RunningTape::new();
    /// tape.start(Machine::Four);
    /// assert!(tape.feed(&[]).is_ok());
    /// ```
    pub fn start(&mut self, machine: Machine) {
        let mut answer = [0; 3];
        // SAFETY: the pointers come from live arrays.
        unsafe { ffi::sp_start(&mut self.words, machine.fonts(), &mut answer) };
        debug_assert_eq!(answer, [0; 3]);
    }

    /// The most bytes that the fields of a piece take.
    ///
    /// ```
    /// assert_eq!(spatecanter::RunningTape::room(&[0x40, 0xEF]), 22);
    /// ```
    pub fn room(piece: &[u8]) -> usize {
        11 * piece.len()
    }

    /// Takes a piece, of any length, and writes the fields of what it sets; the length is theirs.
    ///
    /// ```
    /// use spatecanter::{Machine, RunningTape};
    ///
    /// let mut tape = RunningTape::new();
    /// tape.start(Machine::Eight);
    /// let mut fields = [0; 44];
    /// assert_eq!(tape.feed_into(&[0x40, 0xEF, 0x52, 0x01], &mut fields), Ok(11));
    /// ```
    pub fn feed_into(&mut self, piece: &[u8], out: &mut [u8]) -> Outcome {
        let mut answer = [0; 3];
        // SAFETY: every pointer comes from a live slice, with its length, or from a live array.
        unsafe {
            ffi::sp_feed(
                &mut self.words,
                piece.as_ptr(),
                piece.len(),
                out.as_mut_ptr(),
                out.len(),
                &mut answer,
            );
        }
        outcome(answer)
    }

    /// Takes a piece: the fields of what it sets.
    ///
    /// ```
    /// use spatecanter::{Machine, Refusal, RunningTape};
    ///
    /// let mut tape = RunningTape::new();
    /// tape.start(Machine::Eight);
    /// assert_eq!(tape.feed(&[0x40])?, []);
    /// assert_eq!(tape.feed(&[0x01]), Err(Refusal::Parked { place: 1 }));
    /// # Ok::<(), Refusal>(())
    /// ```
    pub fn feed(&mut self, piece: &[u8]) -> Result<Vec<u8>, Refusal> {
        let mut fields = vec![0; RunningTape::room(piece)];
        let length = self.feed_into(piece, &mut fields)?;
        fields.truncate(length);
        Ok(fields)
    }

    /// Closes the tape and writes End; the length is 7.
    ///
    /// ```
    /// use spatecanter::{Machine, RunningTape};
    ///
    /// let mut tape = RunningTape::new();
    /// tape.start(Machine::Eight);
    /// tape.feed(&[0x40, 0x49])?;
    /// assert_eq!(tape.close_into(&mut [0; 7]), Ok(7));
    /// # Ok::<(), spatecanter::Refusal>(())
    /// ```
    pub fn close_into(&mut self, out: &mut [u8]) -> Outcome {
        let mut answer = [0; 3];
        // SAFETY: every pointer comes from a live slice, with its length, or from a live array.
        unsafe { ffi::sp_close(&mut self.words, out.as_mut_ptr(), out.len(), &mut answer) };
        outcome(answer)
    }

    /// Closes the tape: End.
    ///
    /// ```
    /// use spatecanter::{Machine, Refusal, RunningTape};
    ///
    /// let mut tape = RunningTape::new();
    /// tape.start(Machine::Eight);
    /// assert_eq!(tape.close(), Err(Refusal::NoStop { place: 0 }));
    /// ```
    pub fn close(&mut self) -> Result<[u8; END], Refusal> {
        let mut end = [0; END];
        self.close_into(&mut end).map(|_| end)
    }
}

impl RunningTape {
    /// The extents of the characters gone out since the start.
    ///
    /// ```
    /// use spatecanter::{Machine, RunningTape};
    ///
    /// let mut tape = RunningTape::new();
    /// tape.start(Machine::Eight);
    /// tape.feed(&[0x40, 0xEF, 0x52, 0xFC, 0x01])?;
    /// assert_eq!(tape.extents().x, 3);
    /// # Ok::<(), spatecanter::Refusal>(())
    /// ```
    pub fn extents(&self) -> Extents {
        let (mut reach, mut marks) = ([0; 2], [0; 2]);
        // SAFETY: the pointers come from live arrays.
        unsafe { ffi::sp_extents(&self.words, &mut reach, &mut marks) };
        let [x, height] = reach;
        Extents { x, height, marks }
    }
}

impl Default for RunningTape {
    fn default() -> RunningTape {
        RunningTape::new()
    }
}
