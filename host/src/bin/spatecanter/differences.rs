//! Two galleys, compared page by page.

use crate::text::{counted, grouped};
use spatecanter::galley::Character;
use spatecanter::Galley;
use std::cmp::Ordering;
use std::io::{self, Write};

/// Whether the order of a page's characters makes a difference.
#[derive(Clone, Copy, PartialEq)]
pub enum Order {
    Kept,
    Any,
}

/// A galley with its name for people.
pub struct Named<'a> {
    pub name: &'a str,
    pub galley: &'a Galley,
}

/// The pages of two galleys that differ.
pub struct Differences<'a> {
    one: &'a str,
    other: &'a str,
    /// How many pages each has.
    pages: [usize; 2],
    found: Vec<Difference>,
    characters: usize,
}

/// How two pages of one number differ.
struct Difference {
    page: usize,
    /// How many characters each has.
    characters: [usize; 2],
    /// The first characters that differ, and where they stand on their page; none where it ends.
    place: usize,
    first: [Option<Character>; 2],
    /// Characters that the other page has too, but in another font or size.
    font_alone: usize,
}

impl<'a> Differences<'a> {
    pub fn between(one: &Named<'a>, other: &Named<'a>, order: Order) -> Differences<'a> {
        let (ones, others) = (one.galley.pages(), other.galley.pages());
        let none = vec![];
        let mut found = Vec::new();
        for index in 0..ones.len().max(others.len()) {
            let page = ones.get(index).unwrap_or(&none);
            let other_page = others.get(index).unwrap_or(&none);
            let is_missing = index >= ones.len().min(others.len());
            found.extend(difference(index + 1, page, other_page, order, is_missing));
        }
        Differences {
            one: one.name,
            other: other.name,
            pages: [ones.len(), others.len()],
            found,
            characters: ones.iter().map(Vec::len).sum(),
        }
    }

    pub fn is_none(&self) -> bool {
        self.found.is_empty()
    }

    pub fn write(&self, out: &mut dyn Write) -> io::Result<()> {
        if self.is_none() {
            let (characters, pages) = (counted(self.characters, "character"), counted(self.pages[0], "page"));
            return writeln!(out, "the same: {characters}, {pages}");
        }
        for difference in &self.found {
            self.write_one(out, difference)?;
        }
        let all = self.pages[0].max(self.pages[1]);
        let font_alone: usize = self.found.iter().map(|difference| difference.font_alone).sum();
        if self.pages[0] != self.pages[1] {
            let [one, other] = self.pages.map(|pages| counted(pages, "page"));
            writeln!(out, "{}: {one}; {}: {other}", self.one, self.other)?;
        }
        writeln!(out, "pages that differ: {} of {}", grouped(self.found.len()), grouped(all))?;
        writeln!(out, "characters that differ in font alone: {}", grouped(font_alone))
    }

    fn write_one(&self, out: &mut dyn Write, difference: &Difference) -> io::Result<()> {
        let [one, other] = difference.characters;
        let [first, other_first] = difference.first.map(in_words);
        writeln!(
            out,
            "page {}: {} and {}, {} in font alone; first at character {}",
            grouped(difference.page),
            counted(one, "character"),
            grouped(other),
            grouped(difference.font_alone),
            grouped(difference.place + 1)
        )?;
        writeln!(out, "  {}: {first}", self.one)?;
        writeln!(out, "  {}: {other_first}", self.other)
    }
}

/// How two pages differ, if they do. A page that only one galley has is a difference, even if it is empty.
fn difference(
    page: usize,
    one: &[Character],
    other: &[Character],
    order: Order,
    is_missing: bool,
) -> Option<Difference> {
    if one == other && !is_missing {
        return None;
    }
    let (ones, others) = (sorted(one), sorted(other));
    let (shown, other_shown) = match order {
        Order::Kept => (one, other),
        Order::Any => (&ones[..], &others[..]),
    };
    let place = (0..one.len().max(other.len())).find(|&place| shown.get(place) != other_shown.get(place));
    if place.is_none() && !is_missing {
        return None;
    }
    let place = place.unwrap_or(0);
    Some(Difference {
        page,
        characters: [one.len(), other.len()],
        place,
        first: [shown.get(place).copied(), other_shown.get(place).copied()],
        font_alone: in_font_alone(&ones, &others),
    })
}

/// By place, character, and font last.
fn sorted(page: &[Character]) -> Vec<Character> {
    let mut page = page.to_vec();
    page.sort_by(|one, other| {
        place_of(*one).cmp(&place_of(*other)).then(one.font_number.cmp(&other.font_number))
    });
    page
}

fn place_of(it: Character) -> (i32, i32, i32) {
    (it.height, it.x, it.code)
}

/// How many characters of sorted pages stand at one place on both, but in another font: of those of one place
/// and code, as many as can be paired once the equal ones are.
fn in_font_alone(mut ones: &[Character], mut others: &[Character]) -> usize {
    let mut count = 0;
    while let (Some(one), Some(other)) = (ones.first(), others.first()) {
        match place_of(*one).cmp(&place_of(*other)) {
            Ordering::Less => ones = &ones[1..],
            Ordering::Greater => others = &others[1..],
            Ordering::Equal => {
                let (here, rest) = split_at_place(ones);
                let (there, other_rest) = split_at_place(others);
                count += here.len().min(there.len()) - equal(here, there);
                (ones, others) = (rest, other_rest);
            }
        }
    }
    count
}

/// The characters at the place of the first, and the rest.
fn split_at_place(page: &[Character]) -> (&[Character], &[Character]) {
    let place = page.first().copied().map(place_of);
    page.split_at(page.partition_point(|it| Some(place_of(*it)) <= place))
}

/// How many of some characters of one place and code, sorted by font, are among the others.
fn equal(mut ones: &[Character], mut others: &[Character]) -> usize {
    let mut count = 0;
    while let (Some(one), Some(other)) = (ones.first(), others.first()) {
        let order = one.font_number.cmp(&other.font_number);
        count += usize::from(order == Ordering::Equal);
        if order != Ordering::Greater {
            ones = &ones[1..];
        }
        if order != Ordering::Less {
            others = &others[1..];
        }
    }
    count
}

fn in_words(character: Option<Character>) -> String {
    match character {
        Some(it) => format!(
            "x {}, height {}, font {}, {} points, character {}",
            it.x,
            it.height,
            it.font(),
            it.points(),
            it.code
        ),
        None => "nothing".into(),
    }
}
