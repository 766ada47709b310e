//! A report over many tapes.

use crate::ffi;
use crate::operations::outcome;
use crate::refusal::Refusal;

/// The words of a report, in the library.
///
/// ```
/// assert_eq!(spatecanter::Report::new().words().len(), spatecanter::REPORT_WORDS);
/// ```
pub const REPORT_WORDS: usize = 135;

/// The most tapes that a report counts.
///
/// ```
/// assert_eq!(spatecanter::REPORT_LIMIT, 65_536);
/// ```
pub const REPORT_LIMIT: u64 = 65_536;

/// What the tapes counted hold, in numbers. Their order makes no difference.
///
/// ```
/// use spatecanter::{Machine, Report};
///
/// let mut report = Report::new();
/// report.count(&[0x40, 0xEF, 0x52, 0x01, 0x49], Machine::Eight)?;
/// report.count(&[0x40], Machine::Eight)?;
/// assert_eq!((report.accepted(), report.refused(9), report.characters()), (1, 1, 1));
/// # Ok::<(), spatecanter::Refusal>(())
/// ```
#[derive(Clone, Debug, PartialEq, Eq)]
pub struct Report {
    words: [u64; REPORT_WORDS],
}

impl Report {
    /// The numbers under which a tape is refused.
    ///
    /// ```
    /// assert_eq!(spatecanter::Report::NUMBERS[10], 50);
    /// ```
    pub const NUMBERS: [usize; 11] = [1, 2, 3, 4, 5, 6, 7, 8, 9, 10, 50];

    /// Where the words stand: tapes counted and accepted, refused under 1 to 10 (at this and the number) and
    /// under 50, characters (at this and the font number), lead.
    const TAPES: usize = 0;
    const ACCEPTED: usize = 1;
    const REFUSED: usize = 1;
    const NO_MACHINE: usize = 12;
    const FONTS: usize = 13;
    const FORWARD: usize = 133;
    const BACKWARD: usize = 134;

    /// The report of no tape.
    ///
    /// ```
    /// assert_eq!(spatecanter::Report::new().tapes(), 0);
    /// ```
    pub fn new() -> Report {
        Report { words: [0; REPORT_WORDS] }
    }

    /// Counts a tape of the machine with so many fonts, whatever its answer. The 65,537th tape is refused, and
    /// the report stays as it is.
    ///
    /// ```
    /// let mut report = spatecanter::Report::new();
    /// report.count(&[0x40, 0x49], 8_u32)?;
    /// report.count(&[0x40, 0x49], 5_u32)?;
    /// assert_eq!((report.tapes(), report.refused(50)), (2, 1));
    /// # Ok::<(), spatecanter::Refusal>(())
    /// ```
    pub fn count(&mut self, tape: &[u8], machine: impl Into<u32>) -> Result<(), Refusal> {
        let mut answer = [0; 3];
        // SAFETY: the pointers come from a live slice, with its length, and from live arrays.
        unsafe {
            ffi::sp_count_tape(tape.as_ptr(), tape.len(), machine.into(), &mut self.words, &mut answer);
        }
        outcome(answer).map(|_| ())
    }

    /// Counts all that another report counted, if there is room for so many tapes: each word is a sum over
    /// tapes.
    ///
    /// ```
    /// let (mut one, mut other) = (spatecanter::Report::new(), spatecanter::Report::new());
    /// one.count(&[0x40, 0x49], 8_u32)?;
    /// other.count(&[], 8_u32)?;
    /// one.join(&other)?;
    /// assert_eq!((one.accepted(), one.refused(9)), (1, 1));
    /// # Ok::<(), spatecanter::Refusal>(())
    /// ```
    pub fn join(&mut self, other: &Report) -> Result<(), Refusal> {
        if self.tapes() + other.tapes() > REPORT_LIMIT {
            return Err(Refusal::ReportFull);
        }
        for (word, more) in self.words.iter_mut().zip(&other.words) {
            *word += more;
        }
        Ok(())
    }

    /// The tapes counted.
    ///
    /// ```
    /// let mut report = spatecanter::Report::new();
    /// report.count(&[0x40, 0xEF, 0x52, 0x01, 0x7C, 0x4C, 0x7E, 0x49], 8_u32)?;
    /// assert_eq!(report.tapes(), 1);
    /// # Ok::<(), spatecanter::Refusal>(())
    /// ```
    pub fn tapes(&self) -> u64 {
        self.words[Report::TAPES]
    }

    /// The tapes accepted.
    ///
    /// ```
    /// let mut report = spatecanter::Report::new();
    /// report.count(&[0x40, 0xEF, 0x52, 0x01, 0x7C, 0x4C, 0x7E, 0x49], 8_u32)?;
    /// assert_eq!(report.accepted(), 1);
    /// # Ok::<(), spatecanter::Refusal>(())
    /// ```
    pub fn accepted(&self) -> u64 {
        self.words[Report::ACCEPTED]
    }

    /// The tapes refused under a number; under one of another kind, none.
    ///
    /// ```
    /// let mut report = spatecanter::Report::new();
    /// report.count(&[0x40, 0xEF, 0x52, 0x01, 0x7C, 0x4C, 0x7E, 0x49], 8_u32)?;
    /// assert_eq!(report.refused(9), 0);
    /// # Ok::<(), spatecanter::Refusal>(())
    /// ```
    pub fn refused(&self, number: usize) -> u64 {
        match number {
            1..=10 => self.words[Report::REFUSED + number],
            50 => self.words[Report::NO_MACHINE],
            _ => 0,
        }
    }

    /// The characters of accepted tapes, by font number.
    ///
    /// ```
    /// let mut report = spatecanter::Report::new();
    /// report.count(&[0x40, 0xEF, 0x52, 0x01, 0x7C, 0x4C, 0x7E, 0x49], 8_u32)?;
    /// assert_eq!(report.by_font_number()[17], 1);
    /// # Ok::<(), spatecanter::Refusal>(())
    /// ```
    pub fn by_font_number(&self) -> &[u64] {
        &self.words[Report::FONTS..Report::FORWARD]
    }

    /// The characters of accepted tapes.
    ///
    /// ```
    /// let mut report = spatecanter::Report::new();
    /// report.count(&[0x40, 0xEF, 0x52, 0x01, 0x7C, 0x4C, 0x7E, 0x49], 8_u32)?;
    /// assert_eq!(report.characters(), 1);
    /// # Ok::<(), spatecanter::Refusal>(())
    /// ```
    pub fn characters(&self) -> u64 {
        self.by_font_number().iter().sum()
    }

    /// The forward lead of accepted tapes, in quanta.
    ///
    /// ```
    /// let mut report = spatecanter::Report::new();
    /// report.count(&[0x40, 0xEF, 0x52, 0x01, 0x7C, 0x4C, 0x7E, 0x49], 8_u32)?;
    /// assert_eq!(report.forward_lead(), 3);
    /// # Ok::<(), spatecanter::Refusal>(())
    /// ```
    pub fn forward_lead(&self) -> u64 {
        self.words[Report::FORWARD]
    }

    /// The backward lead of accepted tapes, in quanta.
    ///
    /// ```
    /// let mut report = spatecanter::Report::new();
    /// report.count(&[0x40, 0xEF, 0x52, 0x01, 0x7C, 0x4C, 0x7E, 0x49], 8_u32)?;
    /// assert_eq!(report.backward_lead(), 1);
    /// # Ok::<(), spatecanter::Refusal>(())
    /// ```
    pub fn backward_lead(&self) -> u64 {
        self.words[Report::BACKWARD]
    }

    /// The words as the library keeps them, in the order that the C header gives.
    ///
    /// ```
    /// let mut report = spatecanter::Report::new();
    /// report.count(&[0x40, 0xEF, 0x52, 0x01, 0x7C, 0x4C, 0x7E, 0x49], 8_u32)?;
    /// assert_eq!(report.words()[0], 1);
    /// # Ok::<(), spatecanter::Refusal>(())
    /// ```
    pub fn words(&self) -> &[u64; REPORT_WORDS] {
        &self.words
    }
}

impl Default for Report {
    fn default() -> Report {
        Report::new()
    }
}
