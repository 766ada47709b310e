//! A yearbook on tape: tables of figures, in font 1 or font 2 by column, with words in font 3.

use super::codes::{FIGURE_0, LETTERS};
use super::punch::Punch;
use super::Random;
use crate::{Machine, DVI_HEIGHT_LIMIT};

const COLUMNS: usize = 8;
const ROWS: usize = 36;
/// The right edge of the first column, and from one column to the next, in units.
const FIRST_EDGE: i32 = 620;
const COLUMN_WIDTH: i32 = 370;
/// From line to line, in quanta.
const SPACING: i32 = 24;

/// Size codes, and the width of a figure in them, in units.
const SIZE_6: (u8, i32) = (0x58, 18);
const SIZE_8: (u8, i32) = (0x51, 24);
const SIZE_9: (u8, i32) = (0x57, 27);
const SIZE_16: (u8, i32) = (0x59, 48);

/// A tape for a machine, of exactly `length` bytes, at least 100: as many whole lines as fit, stop, and 00 to
/// the end. When the greatest height that DVI holds is near, the tape goes back to the top.
pub fn yearbook(machine: Machine, seed: u64, length: usize) -> Vec<u8> {
    made(machine, seed, length).0
}

/// The rows of figures of that tape, each from left to right: a year, and a figure of each column.
pub fn yearbook_figures(machine: Machine, seed: u64, length: usize) -> Vec<Vec<Figure>> {
    made(machine, seed, length).1
}

/// A figure of a table.
#[derive(Clone, Copy, Debug, PartialEq, Eq)]
pub struct Figure {
    /// 3 of a year, 1 of a measured value, 2 of an estimate.
    pub font: u8,
    pub value: u32,
}

fn made(machine: Machine, seed: u64, length: usize) -> (Vec<u8>, Vec<Vec<Figure>>) {
    let mut random = Random::new(seed);
    let mut punch = Punch::new(machine);
    let mut table = Table::new(&mut random);
    let mut rows = Vec::new();
    loop {
        let before = punch.tape.len();
        let row = table.line(&mut punch, &mut random);
        punch.next_line();
        if punch.tape.len() >= length {
            punch.tape.truncate(before);
            break;
        }
        rows.extend(row);
    }
    punch.tape.push(0x49);
    punch.tape.resize(length, 0);
    (punch.tape, rows)
}

/// A tape of three pages for the 8-font machine: so many lines of a table, nothing, and so many lines of
/// another table. After each cut come blank tape and initialize.
pub fn pages(seed: u64, lines: usize) -> Vec<u8> {
    let mut random = Random::new(seed);
    let mut punch = Punch::new(Machine::Eight);
    punch.table(&mut random, lines);
    punch.cut();
    punch.cut();
    punch.table(&mut random, lines);
    punch.tape.push(0x49);
    punch.tape
}

/// Which figures of a column are in font 2: those from this row on.
struct Table {
    row: usize,
    year: u32,
    estimated_from: [usize; COLUMNS],
}

impl Table {
    fn new(random: &mut Random) -> Table {
        let mut estimated_from = [0; COLUMNS];
        for from in &mut estimated_from {
            *from = random.pick(&[ROWS, ROWS, ROWS, ROWS - 5, ROWS / 2]);
        }
        estimated_from[random.below(COLUMNS)] = 0;
        Table { row: 0, year: random.between(1890, 1950) as u32, estimated_from }
    }

    /// The next line: a title, the heads of the columns, rows of figures, a note, and a new table. Gives the
    /// figures of a row.
    fn line(&mut self, punch: &mut Punch, random: &mut Random) -> Option<Vec<Figure>> {
        let line = self.row;
        self.row += 1;
        match line {
            0 => punch.words(random, SIZE_16, 3, 3),
            1 => punch.heads(random),
            2 => {}
            _ if line < ROWS + 3 => return Some(self.figures(line - 3, punch, random)),
            _ if line == ROWS + 3 => punch.words(random, SIZE_6, 4, 9),
            _ => *self = Table::new(random),
        }
        None
    }

    /// A year and its figures; every other row is set from right to left.
    fn figures(&self, row: usize, punch: &mut Punch, random: &mut Random) -> Vec<Figure> {
        let mut cells =
            vec![Cell { font: 3, edge: 4 * SIZE_9.1, value: self.year + row as u32, size: SIZE_9 }];
        for column in 0..COLUMNS {
            cells.push(self.cell(row, column, random));
        }
        let figures = cells.iter().map(|cell| Figure { font: cell.font, value: cell.value }).collect();
        let backward = row % 2 == 1;
        if backward {
            cells.reverse();
        }
        for cell in cells {
            punch.figure(&cell, backward);
        }
        figures
    }

    fn cell(&self, row: usize, column: usize, random: &mut Random) -> Cell {
        let font = if row >= self.estimated_from[column] || random.one_in(40) { 2 } else { 1 };
        let edge = FIRST_EDGE + COLUMN_WIDTH * column as i32;
        let digits = random.between(3, 8) as u32;
        Cell { font, edge, value: random.between(0, 10_i64.pow(digits) - 1) as u32, size: SIZE_8 }
    }
}

/// A figure: its font, its right edge and its value.
struct Cell {
    font: u8,
    edge: i32,
    value: u32,
    size: (u8, i32),
}

/// What a table is punched of.
impl Punch {
    /// The first lines of a new table.
    fn table(&mut self, random: &mut Random, lines: usize) {
        let mut table = Table::new(random);
        for _ in 0..lines {
            table.line(self, random);
            self.next_line();
        }
    }

    /// Some words in font 3 from the left edge on.
    fn words(&mut self, random: &mut Random, size: (u8, i32), fewest: i64, most: i64) {
        self.font(3);
        self.size(size.0);
        let mut x = 0;
        for _ in 0..random.between(fewest, most) {
            x = self.word(random, x, size.1) + size.1;
        }
    }

    /// A word of three to nine letters; gives the place after it.
    fn word(&mut self, random: &mut Random, x: i32, width: i32) -> i32 {
        let letters = random.between(3, 9) as i32;
        for letter in 0..letters {
            self.go(x + letter * width);
            self.set(random.between(1, LETTERS.into()) as u8);
        }
        x + letters * width
    }

    /// A word over each column.
    fn heads(&mut self, random: &mut Random) {
        self.font(3);
        self.size(SIZE_8.0);
        for column in 0..COLUMNS as i32 {
            self.word(random, FIRST_EDGE + COLUMN_WIDTH * column - 9 * SIZE_8.1, SIZE_8.1);
        }
    }

    /// A figure, its digits in the order in which the carriage meets them.
    fn figure(&mut self, cell: &Cell, backward: bool) {
        let (size, width) = cell.size;
        self.font(cell.font);
        self.size(size);
        let digits: Vec<u8> = cell.value.to_string().bytes().collect();
        let count = digits.len();
        for turn in 0..count {
            let index = if backward { count - 1 - turn } else { turn };
            self.go(cell.edge - (count - index) as i32 * width);
            self.set(FIGURE_0 + digits[index] - b'0');
        }
    }

    fn next_line(&mut self) {
        if self.height + SPACING > DVI_HEIGHT_LIMIT {
            self.back_to_the_top();
        }
        self.down(SPACING);
    }
}
