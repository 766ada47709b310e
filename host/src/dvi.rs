//! DVI files of 1980, and their commands.

use crate::bytes::checked_bytes;
use crate::explain::Refused;
use crate::operations::read_dvi_into;
use crate::refusal::Refusal;

/// A DVI file of 1980 that the reader accepts, with the widths that it was checked or made with.
///
/// ```
/// use spatecanter::{read_tape, write_dvi, DviFile, Machine};
///
/// let galley = read_tape(&[0x40, 0xEF, 0x52, 0x01, 0x49], Machine::Eight)?;
/// let dvi: DviFile = write_dvi(&galley)?;
/// assert_eq!(dvi.commands().filter(|command| command.shows()).count(), 2);
/// assert_eq!(dvi.len(), 53);
/// # Ok::<(), spatecanter::Refusal>(())
/// ```
#[derive(Clone, Debug, PartialEq, Eq)]
pub struct DviFile {
    bytes: Vec<u8>,
}

checked_bytes!(DviFile);

impl DviFile {
    /// The file of these bytes, if the reader accepts them with these widths.
    ///
    /// ```
    /// use spatecanter::{DviFile, Refusal};
    ///
    /// let refused = DviFile::from_bytes(vec![128], &[]).unwrap_err();
    /// assert_eq!(refused.refusal(), Refusal::BadCommand { place: 0 });
    /// ```
    pub fn from_bytes(bytes: Vec<u8>, widths: &[i32]) -> Result<DviFile, Refused> {
        match read_dvi_into(&bytes, widths, &mut []) {
            Ok(_) | Err(Refusal::NoSheetRoom { .. }) => Ok(DviFile { bytes }),
            Err(refusal) => Err(Refused::new(refusal.in_dvi(&bytes, widths), bytes)),
        }
    }

    /// A file that the library has written.
    pub(crate) fn written(bytes: Vec<u8>) -> DviFile {
        DviFile { bytes }
    }

    /// The commands of its pages, in order, each page's BOP and EOP with them; the postamble is none.
    ///
    /// ```
    /// use spatecanter::{read_tape, write_dvi, Machine};
    ///
    /// let dvi = write_dvi(&read_tape(&[0x40, 0x49], Machine::Eight)?)?;
    /// let names: Vec<String> = dvi.commands().map(|command| command.name()).collect();
    /// assert_eq!(names, ["BOP", "EOP"]);
    /// # Ok::<(), spatecanter::Refusal>(())
    /// ```
    pub fn commands(&self) -> impl Iterator<Item = Command<'_>> {
        commands(&self.bytes)
    }
}

/// A command of a page.
///
/// ```
/// use spatecanter::{read_tape, write_dvi, Machine};
///
/// let dvi = write_dvi(&read_tape(&[0x40, 0x49], Machine::Eight)?)?;
/// let first = dvi.commands().next().unwrap();
/// assert_eq!((first.place, first.code), (0, 129));
/// assert_eq!(first.parameters, [0, 0, 0, 1, 255, 255, 255, 255]);
/// # Ok::<(), spatecanter::Refusal>(())
/// ```
#[derive(Clone, Copy, Debug, PartialEq, Eq)]
pub struct Command<'a> {
    /// Where it starts in the file.
    pub place: usize,
    /// Its first byte.
    pub code: u8,
    /// The bytes after that.
    pub parameters: &'a [u8],
}

impl Command<'_> {
    /// Its name, or what it does.
    ///
    /// ```
    /// use spatecanter::dvi::Command;
    ///
    /// assert_eq!(Command { place: 0, code: 136, parameters: &[1] }.name(), "HORZCHAR");
    /// assert_eq!(Command { place: 2, code: 156, parameters: &[] }.name(), "font 2");
    /// ```
    pub fn name(&self) -> String {
        const NAMES: [&str; 26] = [
            "NOP", "BOP", "EOP", "PST", "PUSH", "POP", "VERTRULE", "HORZRULE", "HORZCHAR", "FONT", "W4",
            "W3", "W2", "W0", "X4", "X3", "X2", "X0", "Y4", "Y3", "Y2", "Y0", "Z4", "Z3", "Z2", "Z0",
        ];
        match self.code {
            0..=127 => "a character of the font".into(),
            code @ 128..=153 => NAMES[usize::from(code) - 128].into(),
            code @ 154..=217 => format!("font {}", code - 154),
            218..=255 => "which is undefined".into(),
        }
    }

    /// Whether it shows something: a page, a character or a rule.
    ///
    /// ```
    /// use spatecanter::dvi::Command;
    ///
    /// assert!(Command { place: 0, code: 136, parameters: &[1] }.shows());
    /// assert!(!Command { place: 2, code: 156, parameters: &[] }.shows());
    /// ```
    pub fn shows(&self) -> bool {
        matches!(self.code, 0..=127 | 129 | 134..=136)
    }
}

/// The commands of a file's pages, up to its postamble or to one that is cut short.
pub(crate) fn commands(dvi: &[u8]) -> impl Iterator<Item = Command<'_>> {
    let mut place = 0;
    std::iter::from_fn(move || {
        let rest = &dvi[place..];
        let code = *rest.first().filter(|code| **code != 131)?;
        let parameters = rest.get(1..length(code))?;
        let command = Command { place, code, parameters };
        place += length(code);
        Some(command)
    })
}

/// The bytes of a command, with its parameters.
fn length(code: u8) -> usize {
    match code {
        129 | 134 | 135 => 9,
        136 => 2,
        137 => 5,
        138..=153 => match (code - 138) % 4 {
            0 => 5,
            1 => 4,
            2 => 3,
            _ => 1,
        },
        _ => 1,
    }
}
