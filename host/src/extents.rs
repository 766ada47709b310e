//! How far characters reach, and which fonts they use.

/// The extents of some characters, over all pages. Of no character they are 0, 0 and no font.
///
/// ```
/// use spatecanter::{read_tape_with_extents, Machine};
///
/// let (_, extents) = read_tape_with_extents(&[0x40, 0xEF, 0x52, 0xFC, 0x01, 0x49], Machine::Eight)?;
/// assert_eq!((extents.x, extents.height), (3, 0));
/// # Ok::<(), spatecanter::Refusal>(())
/// ```
#[derive(Clone, Copy, Debug, Default, PartialEq, Eq)]
pub struct Extents {
    /// The farthest x, in units of 1/432 inch, and at least 0.
    pub x: i32,
    /// The greatest height, in quanta of 1/144 inch.
    pub height: i32,
    /// A bit for each font number: 0 to 63, and 64 to 119.
    pub marks: [u64; 2],
}

impl Extents {
    /// The font numbers met, ascending.
    ///
    /// ```
    /// let extents = spatecanter::Extents { marks: [4, 1], ..Default::default() };
    /// assert_eq!(extents.font_numbers().collect::<Vec<_>>(), [2, 64]);
    /// ```
    pub fn font_numbers(self) -> impl Iterator<Item = i32> {
        (0..120)
            .filter(move |number| self.marks[number / 64] >> (number % 64) & 1 == 1)
            .map(|number| number as i32)
    }
}
