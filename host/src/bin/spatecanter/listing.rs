//! A galley as a list of characters, for people, spreadsheets and programs.

use crate::codes::Codes;
use crate::report::{quoted, Format};
use crate::text::{counted, inches_of_quanta, inches_of_units};
use spatecanter::galley::{Character, Item};
use spatecanter::Galley;
use std::io::{self, Write};

/// A galley, and the table of its characters, if there is one.
pub struct Listing<'a> {
    pub galley: &'a Galley,
    pub codes: Option<&'a Codes>,
}

impl Listing<'_> {
    pub fn write(&self, format: Format, out: &mut dyn Write) -> io::Result<()> {
        match format {
            Format::Table => self.write_table(out),
            Format::Csv => self.write_csv(out),
            Format::Json => self.write_json(out),
        }
    }

    /// The characters, each with the number of its page.
    fn characters(&self) -> impl Iterator<Item = (usize, Character)> + '_ {
        let mut page = 1;
        self.galley.items().filter_map(move |item| match item {
            Item::Character(it) => Some((page, it)),
            Item::Cut => {
                page += 1;
                None
            }
        })
    }

    /// How many pages and characters there are.
    fn counts(&self) -> (usize, usize) {
        self.galley.items().fold((1, 0), |(pages, characters), item| match item {
            Item::Character(_) => (pages, characters + 1),
            Item::Cut => (pages + 1, characters),
        })
    }

    /// What the table says of a character.
    fn shown(&self, it: &Character) -> Option<char> {
        self.codes.and_then(|codes| codes.character(it))
    }

    fn write_table(&self, out: &mut dyn Write) -> io::Result<()> {
        let last = if self.codes.is_some() { "  char" } else { "" };
        writeln!(
            out,
            "{:>7} {:>5} {:>7}  x inches  height inches  font  size  code{last}",
            "page", "x", "height"
        )?;
        for (page, it) in self.characters() {
            let (x, height) = inches(&it);
            write!(out, "{page:>7} {:>5} {:>7}  {x:>8}  {height:>13}", it.x, it.height)?;
            write!(out, "  {:>4}  {:>4}  {:>4}", it.font(), it.points(), it.code)?;
            match self.shown(&it) {
                Some(character) => writeln!(out, "  {character}")?,
                None => writeln!(out)?,
            }
        }
        let (pages, characters) = self.counts();
        writeln!(out, "{}, {}", counted(characters, "character"), counted(pages, "page"))
    }

    fn write_csv(&self, out: &mut dyn Write) -> io::Result<()> {
        let last = if self.codes.is_some() { ",character" } else { "" };
        writeln!(out, "page,x,height,x_inches,height_inches,font,size,code{last}")?;
        for (page, it) in self.characters() {
            let (x, height) = inches(&it);
            write!(out, "{page},{},{},{x},{height}", it.x, it.height)?;
            write!(out, ",{},{},{}", it.font(), it.points(), it.code)?;
            match (self.codes, self.shown(&it)) {
                (None, _) => writeln!(out)?,
                (_, None) => writeln!(out, ",")?,
                (_, Some('"')) => writeln!(out, ",\"\"\"\"")?,
                (_, Some(',')) => writeln!(out, ",\",\"")?,
                (_, Some(character)) => writeln!(out, ",{character}")?,
            }
        }
        Ok(())
    }

    fn write_json(&self, out: &mut dyn Write) -> io::Result<()> {
        let (pages, characters) = self.counts();
        write!(out, "{{\n  \"pages\": {pages},\n  \"characters\": {characters},\n  \"each\": [")?;
        for (index, (page, it)) in self.characters().enumerate() {
            let (x, height) = inches(&it);
            write!(out, "{}\n    {{\"page\": {page}", if index == 0 { "" } else { "," })?;
            write!(out, ", \"x\": {}, \"height\": {}", it.x, it.height)?;
            write!(out, ", \"x_inches\": {x}, \"height_inches\": {height}")?;
            write!(out, ", \"font\": {}, \"size\": {}, \"code\": {}", it.font(), it.points(), it.code)?;
            match (self.codes, self.shown(&it)) {
                (None, _) => write!(out, "}}")?,
                (_, None) => write!(out, ", \"character\": null}}")?,
                (_, Some(character)) => write!(out, ", \"character\": {}}}", quoted(&character.to_string()))?,
            }
        }
        writeln!(out, "\n  ]\n}}")
    }
}

/// The place of a character in inches, so exactly that no two units and no two quanta are the same.
fn inches(it: &Character) -> (String, String) {
    (format!("{:.3}", inches_of_units(it.x)), format!("{:.3}", inches_of_quanta(it.height)))
}
