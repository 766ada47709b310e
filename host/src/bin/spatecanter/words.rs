//! A page in the order of reading: its lines, and the words and figures on them.

use spatecanter::galley::Character;
use std::cmp::Reverse;
use std::collections::{BinaryHeap, VecDeque};
use std::ops::Range;

/// A character that starts less than this after another, on the same line, stands on it, in units.
pub const REACH: i64 = 8;

/// The lines of a page from top to bottom, each with its characters from left to right. Characters that stand
/// on another have a line of their own below the other's.
pub struct Lines {
    characters: Vec<Character>,
    lines: Vec<(usize, Range<usize>)>,
}

/// Characters of one height.
pub struct Line<'a> {
    /// How many lines of this height are above it.
    pub layer: usize,
    characters: &'a [Character],
}

impl Lines {
    pub fn of(mut page: Vec<Character>) -> Lines {
        page.sort_by_key(|it| (it.height, it.x));
        let mut placed: Vec<(usize, Character)> = Vec::with_capacity(page.len());
        for line in page.chunk_by(|one, other| one.height == other.height) {
            placed.extend(layers(line).into_iter().zip(line.iter().copied()));
        }
        placed.sort_by_key(|(layer, it)| (it.height, *layer));
        let mut lines = Vec::new();
        let mut start = 0;
        for line in
            placed.chunk_by(|(layer, one), (below, other)| (layer, one.height) == (below, other.height))
        {
            lines.push((line[0].0, start..start + line.len()));
            start += line.len();
        }
        Lines { characters: placed.into_iter().map(|(_, it)| it).collect(), lines }
    }

    pub fn iter(&self) -> impl Iterator<Item = Line<'_>> {
        self.lines
            .iter()
            .map(|(layer, range)| Line { layer: *layer, characters: &self.characters[range.clone()] })
    }

    pub fn characters(&self) -> &[Character] {
        &self.characters
    }

    /// How many characters stand on another.
    pub fn overstruck(&self) -> usize {
        self.iter().filter(|line| line.layer > 0).map(|line| line.characters.len()).sum()
    }
}

impl<'a> Line<'a> {
    pub fn height(&self) -> i32 {
        self.characters[0].height
    }

    pub fn words(&self) -> impl Iterator<Item = &'a [Character]> {
        self.characters.chunk_by(|one, other| is_close((other.x - one.x).into(), one.points()))
    }
}

/// Whether a character belongs to the word of the one before it on its line, of so many points: it starts less
/// than three quarters of an em after it, in units.
pub fn is_close(distance: i64, points: i32) -> bool {
    // A point is 6 units.
    2 * distance < 9 * i64::from(points)
}

/// The layer of each of the characters of one height, which come from left to right: the least in which it
/// stands on no other.
fn layers(line: &[Character]) -> Vec<usize> {
    let mut layers = Vec::with_capacity(line.len());
    let mut taken: VecDeque<(i32, usize)> = VecDeque::new();
    let mut free = BinaryHeap::new();
    for it in line {
        while taken.front().is_some_and(|(x, _)| i64::from(it.x - x) >= REACH) {
            free.extend(taken.pop_front().map(|(_, layer)| Reverse(layer)));
        }
        let layer = free.pop().map_or(taken.len(), |Reverse(layer)| layer);
        taken.push_back((it.x, layer));
        layers.push(layer);
    }
    layers
}
