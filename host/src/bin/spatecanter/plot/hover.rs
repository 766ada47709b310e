//! What a picture tells of the word or figure under the pointer.

use super::escaped;
use crate::codes::{Codes, UNKNOWN};
use crate::fonts::Fonts;
use crate::marks::{Mark, INCH};
use crate::words::is_close;

/// The size of characters whose size is not known, in points.
const USUAL_POINTS: i32 = 14;
/// The most characters that are told at once.
const MOST: usize = 100;

/// Some marks as words: those of one line, font and size that stand close together.
pub fn words(marks: &mut [Mark]) -> impl Iterator<Item = &[Mark]> {
    marks.sort_by_key(|mark| (mark.y, mark.x));
    let is_one = |one: &Mark, other: &Mark| {
        (one.y, one.font, one.points) == (other.y, other.font, other.points)
            && is_close(other.x - one.x, one.points.unwrap_or(USUAL_POINTS))
    };
    marks.chunk_by(is_one).flat_map(|word| word.chunks(MOST))
}

/// The characters of a word, if they are known, its font and size, its codes, and its place; a line each.
pub fn title(word: &[Mark], fonts: &Fonts, codes: Option<&Codes>) -> String {
    let first = &word[0];
    let font = first.font.map_or("another font".into(), |font| fonts.label(font));
    let points = first.points.map_or(String::new(), |points| format!(", {points} points"));
    let numbers: Vec<String> = word.iter().map(|mark| mark.code.to_string()).collect();
    let plural = if word.len() == 1 { "" } else { "s" };
    let [x, y] = [first.x, first.y].map(|units| units as f64 / INCH as f64);
    let lines = [
        escaped(&codes.map_or(String::new(), |codes| characters(word, codes))),
        escaped(&format!("{font}{points}")),
        format!("code{plural} {}", numbers.join(" ")),
        format!("x {x:.3} in, height {y:.3} in"),
    ];
    lines.into_iter().filter(|line| !line.is_empty()).collect::<Vec<_>>().join("&#10;")
}

fn characters(word: &[Mark], codes: &Codes) -> String {
    word.iter().map(|mark| mark.font.and_then(|font| codes.of(font, mark.code)).unwrap_or(UNKNOWN)).collect()
}
