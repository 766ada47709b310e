//! Pages as text: words and figures at their places on a grid of columns and lines.

use crate::codes::{Codes, UNKNOWN};
use crate::font_marks::FontMarks;
use crate::text::counted;
use crate::words::{Line, Lines};
use spatecanter::galley::Character;
use spatecanter::Galley;
use std::cmp::Reverse;
use std::collections::BTreeMap;
use std::io::{self, Write};
use std::ops::Range;

/// The width of a column where no two characters are neighbours: a figure of 8 points, in units.
const USUAL_COLUMN: i32 = 24;
/// The most blank lines between two lines.
const MOST_BLANK: i32 = 8;

/// The pages, and what the grid is made of.
pub struct Grid<'a> {
    codes: &'a Codes,
    marks: &'a FontMarks,
    pages: Vec<Lines>,
    /// From column to column in units, and from line to line in quanta.
    column: i32,
    spacing: i32,
}

impl Grid<'_> {
    /// The pages of a galley. A column is as wide as most characters are from one to the
    /// next in a word, and a line as high as most lines are.
    pub fn new<'a>(galley: &Galley, codes: &'a Codes, marks: &'a FontMarks) -> Grid<'a> {
        let pages: Vec<Lines> = galley.pages().into_iter().map(Lines::of).collect();
        let lines = || pages.iter().flat_map(Lines::iter);
        let column = most_frequent(lines().flat_map(|line| line.words().flat_map(steps)));
        let spacing = most_frequent(pages.iter().flat_map(gaps));
        let (column, spacing) = (column.unwrap_or(USUAL_COLUMN), spacing.unwrap_or(1));
        Grid { codes, marks, pages, column, spacing }
    }

    pub fn pages(&self) -> usize {
        self.pages.len()
    }

    /// What there is to say of these pages: characters that the table lacks, and those that stand on another.
    pub fn remarks(&self, shown: Range<usize>) -> Vec<String> {
        let pages = &self.pages[shown];
        let is_unknown = |it: &&Character| self.codes.character(it).is_none();
        let unknown = || pages.iter().flat_map(Lines::characters).filter(is_unknown);
        let mut remarks = Vec::new();
        if let Some(first) = unknown().next() {
            remarks.push(format!(
                "{} shown as {UNKNOWN}, since {} lacks them; the first is code {} of font {}",
                counted(unknown().count(), "character"),
                self.codes.shown(),
                first.code,
                first.font()
            ));
        }
        let overstruck: usize = pages.iter().map(Lines::overstruck).sum();
        if overstruck > 0 {
            let characters = counted(overstruck, "character");
            remarks.push(format!("{characters} on another, shown in a line below it"));
        }
        remarks
    }

    /// Writes these pages, with a form feed between two.
    pub fn write(&self, shown: Range<usize>, out: &mut dyn Write) -> io::Result<()> {
        for (index, page) in self.pages[shown].iter().enumerate() {
            if index > 0 {
                out.write_all(b"\x0c")?;
            }
            self.write_page(page, out)?;
        }
        Ok(())
    }

    fn write_page(&self, page: &Lines, out: &mut dyn Write) -> io::Result<()> {
        let mut before: Option<i32> = None;
        for line in page.iter() {
            let gap = before.map_or(0, |height| line.height() - height);
            for _ in 0..self.blank_lines(gap) {
                writeln!(out)?;
            }
            writeln!(out, "{}", self.text(&line))?;
            before = Some(line.height());
        }
        Ok(())
    }

    /// How many lines are left blank in a gap from one line to the next.
    fn blank_lines(&self, gap: i32) -> i32 {
        ((gap + self.spacing / 2) / self.spacing - 1).clamp(0, MOST_BLANK)
    }

    /// A line: each word at its place, or one blank after the word before.
    fn text(&self, line: &Line) -> String {
        let mut text = String::new();
        let mut end = 0;
        for word in line.words() {
            let shown = self.word(word);
            let length = shown.chars().count();
            let least = if end == 0 { 0 } else { end + 1 };
            let start = self.start(word, &shown).max(least);
            text.extend(std::iter::repeat_n(' ', start - end));
            text.push_str(&shown);
            end = start + length;
        }
        text
    }

    /// The characters of a word, with a mark before those of a font that has one.
    fn word(&self, word: &[Character]) -> String {
        let mut shown = String::new();
        for part in word.chunk_by(|one, other| one.font() == other.font()) {
            shown.push_str(self.marks.of(part[0].font()));
            shown.extend(part.iter().map(|it| self.codes.character(it).unwrap_or(UNKNOWN)));
        }
        shown
    }

    /// The column in which a word starts: what ends with a figure is placed by its end, so that figures of any
    /// size stand below one another, and other words by their first character. The mark stands before it.
    fn start(&self, word: &[Character], shown: &str) -> usize {
        if shown.ends_with(|last: char| last.is_numeric()) {
            let last = self.column_of(word[word.len() - 1]);
            return (last + 1).saturating_sub(shown.chars().count());
        }
        let mark = self.marks.of(word[0].font());
        self.column_of(word[0]).saturating_sub(mark.chars().count())
    }

    /// The columns start with room for a mark.
    fn column_of(&self, it: Character) -> usize {
        self.marks.longest() + ((it.x.max(0) + self.column / 2) / self.column) as usize
    }
}

/// From character to character of one font and size.
fn steps(word: &[Character]) -> impl Iterator<Item = i32> + '_ {
    let is_alike = |pair: &&[Character]| pair[0].font_number == pair[1].font_number;
    word.windows(2).filter(is_alike).map(|pair| pair[1].x - pair[0].x)
}

/// From line to line of a page.
fn gaps(page: &Lines) -> impl Iterator<Item = i32> + '_ {
    let heights = || page.iter().filter(|line| line.layer == 0).map(|line| line.height());
    heights().zip(heights().skip(1)).map(|(one, other)| other - one)
}

/// The most frequent of some distances; of several the least.
fn most_frequent(distances: impl Iterator<Item = i32>) -> Option<i32> {
    let mut counts = BTreeMap::new();
    for distance in distances {
        *counts.entry(distance).or_insert(0) += 1;
    }
    counts
        .into_iter()
        .max_by_key(|(distance, count)| (*count, Reverse(*distance)))
        .map(|(distance, _)| distance)
}
