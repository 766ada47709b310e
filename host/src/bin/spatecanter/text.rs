//! Galleys, sheets and extents as text.

use spatecanter::galley::{font_name, Item};
use spatecanter::sheet::Field;
pub use spatecanter::text::{counted, grouped};
use spatecanter::{Extents, Galley, Sheet};
use std::io::{self, Write};

/// Units of 1/432 inch as inches.
pub fn inches_of_units(units: i32) -> f64 {
    f64::from(units) / 432.0
}

/// Quanta of 1/144 inch as inches.
pub fn inches_of_quanta(quanta: i32) -> f64 {
    f64::from(quanta) / 144.0
}

/// The farthest x, in units and in inches.
pub fn farthest_x(extents: Extents) -> String {
    format!("{}, {:.2} inches", counted(extents.x as usize, "unit"), inches_of_units(extents.x))
}

/// The greatest height, in quanta and in inches.
pub fn greatest_height(extents: Extents) -> String {
    let quanta = if extents.height == 1 { "quantum" } else { "quanta" };
    let inches = inches_of_quanta(extents.height);
    format!("{} {quanta}, {inches:.2} inches", grouped(extents.height as usize))
}

/// How many characters there are, how far they reach, and their fonts by name.
pub fn reach(characters: usize, extents: Extents) -> String {
    let characters_in_words = counted(characters, "character");
    if characters == 0 {
        return characters_in_words;
    }
    let fonts: Vec<String> = extents.font_numbers().map(font_name).collect();
    format!(
        "{characters_in_words}\n  farthest x {}\n  greatest height {}\n  fonts {}",
        farthest_x(extents),
        greatest_height(extents),
        fonts.join(" ")
    )
}

/// How many characters and pages a galley has.
pub fn characters_and_pages(galley: &Galley) -> String {
    let (mut characters, mut pages) = (0, 1);
    for item in galley.items() {
        match item {
            Item::Character(_) => characters += 1,
            Item::Cut => pages += 1,
        }
    }
    format!("{}, {}", counted(characters, "character"), counted(pages, "page"))
}

/// Lists a galley.
pub fn list_galley(out: &mut dyn Write, galley: &Galley) -> io::Result<()> {
    writeln!(out, "x y font size char")?;
    let mut count = 0;
    for item in galley.items() {
        match item {
            Item::Character(it) => {
                writeln!(out, "{} {} {} {} {}", it.x, it.height, it.font(), it.points(), it.code)?;
                count += 1;
            }
            Item::Cut => writeln!(out, "cut")?,
        }
    }
    writeln!(out, "{count} glyphs")
}

/// Lists a sheet.
pub fn list_sheet(out: &mut dyn Write, sheet: &Sheet) -> io::Result<()> {
    let mut count = 0;
    for field in sheet.fields() {
        list_field(out, field)?;
        count += 1;
    }
    writeln!(out, "end {count}")
}

fn list_field(out: &mut dyn Write, field: Field) -> io::Result<()> {
    match field {
        Field::Page(number) => writeln!(out, "page {number}"),
        Field::Character { x, y, font, code } => writeln!(out, "char {x} {y} {font} {code}"),
        Field::Rule { horizontal, x, y, height, width } => {
            let kind = if horizontal { "horizontal" } else { "vertical" };
            writeln!(out, "rule {kind} {x} {y} {height} {width}")
        }
    }
}
