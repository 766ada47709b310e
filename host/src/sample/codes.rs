//! Which character each code of the made tapes is.

/// Codes from 1 on: a to z, then A to Z.
pub(super) const LETTERS: u8 = 52;
/// The code of the figure 0; 1 to 9 follow it.
pub(super) const FIGURE_0: u8 = 72;
/// The code of a chart's reading.
pub(super) const READING: u8 = 31;

/// The code table of the made tapes: fonts 1 and 2 have figures and readings, font 3 letters and figures.
pub fn codes() -> String {
    let mut table = String::from("# The made tapes: font, code, character.\n");
    let mut put = |font: u8, code: u8, character: char| table += &format!("{font} {code} {character}\n");
    for font in [1, 2] {
        put(font, READING, '\u{2022}');
        (FIGURE_0..).zip('0'..='9').for_each(|(code, figure)| put(font, code, figure));
    }
    (1..=LETTERS).zip(('a'..='z').chain('A'..='Z')).for_each(|(code, letter)| put(3, code, letter));
    (FIGURE_0..).zip('0'..='9').for_each(|(code, figure)| put(3, code, figure));
    table
}
