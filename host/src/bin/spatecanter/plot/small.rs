//! A small picture of a page, for an index of many: a bar for each word.

use super::{hover, Picture, HALF_INCH, INCH, PAGE_WIDTH};
use crate::marks::Mark;
use std::io::{self, Write};

/// No more of a page is shown, in units: 10 inches.
const MOST_DEPTH: i64 = 10 * INCH;
/// Around the page.
const ROOM: i64 = 60;
/// The height of a bar and its least width: some pixels, however small the picture is shown.
const BAR: i64 = 48;

impl Picture<'_> {
    /// Writes the first page that shows something, or its upper end.
    pub fn draw_small(&self, out: &mut dyn Write) -> io::Result<()> {
        let view = self.views.iter().find(|view| view.marks().next().is_some()).unwrap_or(&self.views[0]);
        let depth = (view.bottom - view.top).clamp(HALF_INCH, MOST_DEPTH);
        writeln!(
            out,
            "<svg xmlns=\"http://www.w3.org/2000/svg\" viewBox=\"-{ROOM} {} {} {}\">\n\
             <rect x=\"-{ROOM}\" y=\"{}\" width=\"100%\" height=\"100%\" fill=\"#ffffff\"/>",
            view.top - 2 * ROOM,
            PAGE_WIDTH + 2 * ROOM,
            depth + 2 * ROOM,
            view.top - 2 * ROOM,
        )?;
        for kind in std::iter::once(self.others()).chain(0..self.others()) {
            let is_shown = |mark: &&Mark| self.kind_of(mark) == kind && mark.y - view.top <= MOST_DEPTH;
            let mut marks: Vec<Mark> = view.marks().filter(is_shown).copied().collect();
            let look = format!("fill=\"{}\"", self.style(kind).colour);
            super::draw_paths(out, &look, hover::words(&mut marks).map(bar))?;
        }
        writeln!(out, "</svg>")
    }
}

/// A word as a piece of a path.
fn bar(word: &[Mark]) -> String {
    let (first, last) = (&word[0], &word[word.len() - 1]);
    let width = (last.x - first.x + BAR / 2).max(BAR);
    format!("M{} {}h{width}v-{BAR}h-{width}z", first.x, first.y)
}
