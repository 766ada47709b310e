//! What a refused call gives back: a number, what it means, and a place.

use std::fmt;

/// The length of what was written, or a refusal.
///
/// ```
/// let mut galley = [0; 29];
/// let outcome: spatecanter::Outcome = spatecanter::read_tape_into(&[0x40, 0x49], 8_u32, &mut galley);
/// assert_eq!(outcome, Ok(7));
/// ```
pub type Outcome = Result<usize, Refusal>;

macro_rules! refusals {
    ($($variant:ident $({ $field:ident: $what:literal })? = $number:literal, $name:ident: $meaning:literal;)*) => {
        /// Why a call was refused. Each case has a number, which the C header names too, and a place in the input;
        /// where the input is at hand, [`in_tape`](Refusal::in_tape), [`in_galley`](Refusal::in_galley) and the like
        /// tell what stands there and what was expected.
        ///
        /// ```
        /// use spatecanter::{read_tape, Machine, Refusal};
        ///
        /// let refusal = read_tape(&[0x40, 0x4D], Machine::Eight).unwrap_err();
        /// assert_eq!(refusal, Refusal::IllegalCode { place: 1 });
        /// assert_eq!((refusal.number(), refusal.place()), (2, 1));
        /// assert_eq!(refusal.to_string(), "refused 2 at 1: illegal code");
        /// ```
        #[derive(Clone, Copy, Debug, PartialEq, Eq, Hash)]
        #[non_exhaustive]
        pub enum Refusal {
            $(
                #[doc = concat!(stringify!($number), ": ", $meaning, ".")]
                $variant $({
                    #[doc = concat!("The place: ", $what, ".")]
                    $field: usize,
                })?,
            )*
            /// A number that this package does not know, of a library of another version.
            Unknown {
                /// The number.
                number: usize,
                /// The place.
                place: usize,
            },
        }

        impl Refusal {
            /// Every number, with the name that the C header has for it after `SP_`, and its meaning.
            ///
            /// ```
            /// use spatecanter::Refusal;
            ///
            /// assert_eq!(Refusal::TABLE[1], ("ILLEGAL_CODE", 2, "illegal code"));
            /// ```
            pub const TABLE: &'static [(&'static str, usize, &'static str)] =
                &[$((stringify!($name), $number, $meaning)),*];

            /// The refusal of a number and a place, as the C interface gives them.
            ///
            /// ```
            /// use spatecanter::Refusal;
            ///
            /// assert_eq!(Refusal::from_parts(12, 29), Refusal::NoGalleyRoom { needed: 29 });
            /// ```
            pub fn from_parts(number: usize, place: usize) -> Refusal {
                match number {
                    $($number => Refusal::$variant $({ $field: place })?,)*
                    _ => Refusal::Unknown { number, place },
                }
            }

            /// Its number.
            ///
            /// ```
            /// assert_eq!(spatecanter::Refusal::NoMachine.number(), 50);
            /// ```
            pub fn number(self) -> usize {
                match self {
                    $(Refusal::$variant { .. } => $number,)*
                    Refusal::Unknown { number, .. } => number,
                }
            }

            /// Its place: that of a byte, a command or a field, the input's length, the bytes needed, or 0.
            ///
            /// ```
            /// use spatecanter::Refusal;
            ///
            /// assert_eq!(Refusal::NoStop { place: 3 }.place(), 3);
            /// assert_eq!(Refusal::NoDviRoom { needed: 59 }.place(), 59);
            /// assert_eq!(Refusal::NoMachine.place(), 0);
            /// ```
            pub fn place(self) -> usize {
                match self {
                    $($(Refusal::$variant { $field } => $field,)?)*
                    Refusal::Unknown { place, .. } => place,
                    _ => 0,
                }
            }
        }
    };
}

refusals! {
    TapeTooLong = 1, TAPE_TOO_LONG: "the tape is longer than 1,048,576 bytes";
    IllegalCode { place: "the byte" } = 2, ILLEGAL_CODE: "illegal code";
    NotInitialized { place: "the byte" } = 3, NOT_INITIALIZED: "a code before the first initialize";
    AfterStop { place: "the byte" } = 4, AFTER_STOP: "a code after stop";
    Parked { place: "the byte" } = 5, PARKED: "a flash, or an escape other than 16 forward, while the carriage is parked";
    NoSize { place: "the byte" } = 6, NO_SIZE: "a flash before any size is set";
    OutOfRange { place: "the byte" } = 7, OUT_OF_RANGE: "the carriage or the height would leave its range";
    AboveHalf { place: "the byte" } = 8, ABOVE_HALF: "a flash above 45 in the upper half";
    NoStop { place: "the tape's length" } = 9, NO_STOP: "the tape ends without stop";
    AfterCut { place: "the byte, or the tape's length" } = 10, AFTER_CUT: "a code other than initialize after a cut, or the tape ends there";
    NoCharacter = 11, NO_CHARACTER: "the galley has no character of this number";
    NoGalleyRoom { needed: "the bytes needed" } = 12, NO_GALLEY_ROOM: "the buffer for the galley is too short";
    NotStarted = 13, NOT_STARTED: "a piece or a closing before any start, or after an accepted closing";
    FileTooLong = 20, FILE_TOO_LONG: "the file is longer than 33,554,432 bytes, or as DVI of the second edition 67,108,864";
    BadCommand { place: "the command" } = 21, BAD_COMMAND: "an undefined command, or one not allowed there";
    DviEndsEarly { place: "the start of the command, or the file's length" } = 22, DVI_ENDS_EARLY: "the file ends inside a page or a command, or before its postamble";
    WrongOffset { place: "the command" } = 23, WRONG_OFFSET: "the page's pointer to the page before it is wrong";
    StackFull { place: "the command" } = 24, STACK_FULL: "a push onto a full stack of 200 entries";
    StackEmpty { place: "the command" } = 25, STACK_EMPTY: "a pop from an empty stack";
    EntriesLeft { place: "the command" } = 26, ENTRIES_LEFT: "a page ends with entries left on the stack";
    CannotSet { place: "the command" } = 27, CANNOT_SET: "a character with no font, outside 0 to 127, or without a width";
    OutOf32Bits { place: "the command" } = 28, OUT_OF_32_BITS: "x or y leaves 32 bits";
    BadPostamble { place: "PST" } = 29, BAD_POSTAMBLE: "the postamble is malformed or cut short";
    NoSheetRoom { needed: "the bytes needed" } = 30, NO_SHEET_ROOM: "the buffer for the sheet is too short";
    WidthsNotWhole = 31, WIDTHS_NOT_WHOLE: "the width table is not a whole number of fonts of 128 widths, or for an XGP file not four";
    GalleyTooLong = 40, GALLEY_TOO_LONG: "the galley is longer than 11,534,343 bytes, or 9,437,191 in the old form";
    GalleyMalformed { place: "the first bad field, the first byte after End, or the length if End is missing" } = 41, GALLEY_MALFORMED: "the galley is malformed";
    NoDviRoom { needed: "the bytes needed" } = 42, NO_DVI_ROOM: "the buffer for the DVI file is too short";
    HeightTooGreat { place: "the first such character's field" } = 43, HEIGHT_TOO_GREAT: "a height above 65,535, which neither DVI of 1980 nor the old form can hold";
    NoConvertedRoom { needed: "the bytes needed" } = 44, NO_CONVERTED_ROOM: "the buffer for the converted galley is too short";
    NoGalley { place: "the first command that breaks a condition" } = 45, NO_GALLEY: "the DVI file shows what no galley does";
    NotOurs { place: "the first command through which it is no beginning of such a file, or the length" } = 46, NOT_OURS: "no DVI file that the writer of the second edition makes begins so, or it ends early";
    ReportFull = 47, REPORT_FULL: "the report has 65,536 tapes already";
    PunchedTooLong = 48, PUNCHED_TOO_LONG: "the tape of this galley would be longer than 1,048,576 bytes";
    NoTapeRoom { needed: "the bytes needed" } = 49, NO_TAPE_ROOM: "the buffer for the tape is too short";
    NoMachine = 50, NO_MACHINE: "the machine is neither the 4-font nor the 8-font machine";
    OutsidePart { place: "the code" } = 60, OUTSIDE_PART: "a code of character mode that is not read here, or a byte above 127";
    ReservedCode { place: "the code" } = 61, RESERVED_CODE: "a reserved or unlisted code";
    CodeCutShort { place: "the code" } = 62, CODE_CUT_SHORT: "the file ends inside a code";
    NegativeWidth = 63, NEGATIVE_WIDTH: "a negative width";
}

impl Refusal {
    /// What its number says, in words.
    ///
    /// ```
    /// assert_eq!(spatecanter::Refusal::NoStop { place: 3 }.meaning(), "the tape ends without stop");
    /// ```
    pub fn meaning(self) -> &'static str {
        let row = Refusal::TABLE.iter().find(|(_, number, _)| *number == self.number());
        row.map_or("an unknown refusal", |(_, _, meaning)| meaning)
    }

    /// How long the buffer has to be, where it was too short and all else is good.
    ///
    /// ```
    /// use spatecanter::{read_tape_into, Machine};
    ///
    /// let refusal = read_tape_into(&[0x40, 0x49], Machine::Eight, &mut []).unwrap_err();
    /// assert_eq!(refusal.needed(), Some(7));
    /// ```
    pub fn needed(self) -> Option<usize> {
        match self {
            Refusal::NoGalleyRoom { needed }
            | Refusal::NoSheetRoom { needed }
            | Refusal::NoDviRoom { needed }
            | Refusal::NoConvertedRoom { needed }
            | Refusal::NoTapeRoom { needed } => Some(needed),
            _ => None,
        }
    }
}

impl fmt::Display for Refusal {
    fn fmt(&self, f: &mut fmt::Formatter) -> fmt::Result {
        write!(f, "refused {} at {}: {}", self.number(), self.place(), self.meaning())
    }
}

impl std::error::Error for Refusal {}
