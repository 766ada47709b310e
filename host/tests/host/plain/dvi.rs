//! A DVI file, with a table of widths: what it shows, and its sheet.

use super::{field, Refused};

/// What a command shows.
pub enum Mark {
    Page(i64),
    Character { x: i64, y: i64, font: i64, code: u8 },
    Rule { kind: u8, x: i64, y: i64, height: i64, width: i64 },
}

/// The six numbers that a push keeps.
#[derive(Clone, Copy, Default)]
struct Numbers {
    x: i64,
    y: i64,
    w_amount: i64,
    x_amount: i64,
    y_amount: i64,
    z_amount: i64,
}

struct Reader<'a> {
    dvi: &'a [u8],
    widths: &'a [i32],
    numbers: Numbers,
    font: Option<i64>,
    stack: Vec<Numbers>,
    in_page: bool,
    last_bop: Option<usize>,
    /// The place of the command.
    place: usize,
    shown: Vec<(usize, Mark)>,
}

/// The sheet.
pub fn read_dvi(dvi: &[u8], widths: &[i32]) -> Result<Vec<u8>, Refused> {
    let shown = shown(dvi, widths)?;
    let mut sheet: Vec<u8> = shown.iter().flat_map(|(_, mark)| mark.field()).collect();
    sheet.extend(field(2, &(shown.len() as u32).to_be_bytes()));
    Ok(sheet)
}

/// What the file shows, in order, each with the place of its command.
pub fn shown(dvi: &[u8], widths: &[i32]) -> Result<Vec<(usize, Mark)>, Refused> {
    if dvi.len() > 33_554_432 {
        return Err((20, 0));
    }
    if !widths.len().is_multiple_of(128) {
        return Err((31, 0));
    }
    let mut reader = Reader {
        dvi,
        widths,
        numbers: Numbers::default(),
        font: None,
        stack: Vec::new(),
        in_page: false,
        last_bop: None,
        place: 0,
        shown: Vec::new(),
    };
    let mut place = 0;
    loop {
        if place == dvi.len() {
            return Err((22, place));
        }
        if !reader.is_allowed(dvi[place]) {
            return Err((21, place));
        }
        if dvi[place] == 131 {
            break;
        }
        let length = command_length(dvi[place]);
        if dvi.len() - place < length {
            return Err((22, place));
        }
        reader.place = place;
        reader.command(place).map_err(|number| (number, place))?;
        place += length;
    }
    let last_bop = reader.last_bop.unwrap();
    if !is_postamble(dvi, place, last_bop) {
        return Err((29, place));
    }
    Ok(reader.shown)
}

impl Mark {
    fn field(&self) -> Vec<u8> {
        match *self {
            Mark::Page(number) => field(5, &four(number)),
            Mark::Character { x, y, font, code } => {
                field(3, &[&four(x)[..], &four(y), &four(font), &[code]].concat())
            }
            Mark::Rule { kind, x, y, height, width } => {
                field(4, &[&[kind][..], &four(x), &four(y), &four(height), &four(width)].concat())
            }
        }
    }
}

/// Bytes of a command, its parameters included.
fn command_length(command: u8) -> usize {
    match command {
        0..=127 => 1,
        128 | 130 | 132 | 133 => 1,
        129 => 9,
        134 | 135 => 9,
        136 => 2,
        137 => 5,
        138 | 142 | 146 | 150 => 5,
        139 | 143 | 147 | 151 => 4,
        140 | 144 | 148 | 152 => 3,
        141 | 145 | 149 | 153 => 1,
        154..=217 => 1,
        131 | 218..=255 => unreachable!(),
    }
}

impl Reader<'_> {
    /// Whether a command is defined, and allowed inside a page or outside.
    fn is_allowed(&self, command: u8) -> bool {
        match command {
            129 => !self.in_page,
            131 => !self.in_page && self.last_bop.is_some(),
            0..=217 => self.in_page,
            218..=255 => false,
        }
    }

    fn command(&mut self, place: usize) -> Result<(), usize> {
        let dvi = self.dvi;
        let command = dvi[place];
        let parameter = |from: usize, bytes: usize| signed(&dvi[place + from..place + from + bytes]);
        match command {
            0..=127 => {
                let width = self.width(command).ok_or(27_usize)?;
                self.show_character(command)?;
                self.right(width)
            }
            128 => Ok(()),
            129 => self.begin_page(place, parameter(1, 4), parameter(5, 4)),
            130 => self.end_page(),
            132 => self.push(),
            133 => self.pop(),
            134 => {
                let (height, width) = (parameter(1, 4), parameter(5, 4));
                self.show_rule(0, height, width);
                self.right(width)
            }
            135 => {
                self.show_rule(1, parameter(1, 4), parameter(5, 4));
                Ok(())
            }
            136 if parameter(1, 1) < 0 => Err(27),
            136 => self.show_character(parameter(1, 1) as u8),
            137 => {
                self.font = Some(parameter(1, 4));
                Ok(())
            }
            138..=140 => {
                self.numbers.w_amount = parameter(1, command_length(command) - 1);
                self.right(self.numbers.w_amount)
            }
            141 => self.right(self.numbers.w_amount),
            142..=144 => {
                self.numbers.x_amount = parameter(1, command_length(command) - 1);
                self.right(self.numbers.x_amount)
            }
            145 => self.right(self.numbers.x_amount),
            146..=148 => {
                self.numbers.y_amount = parameter(1, command_length(command) - 1);
                self.down(self.numbers.y_amount)
            }
            149 => self.down(self.numbers.y_amount),
            150..=152 => {
                self.numbers.z_amount = parameter(1, command_length(command) - 1);
                self.down(self.numbers.z_amount)
            }
            153 => self.down(self.numbers.z_amount),
            154..=217 => {
                self.font = Some(i64::from(command) - 154);
                Ok(())
            }
            131 | 218..=255 => unreachable!(),
        }
    }

    fn begin_page(&mut self, place: usize, number: i64, previous: i64) -> Result<(), usize> {
        let expected = match self.last_bop {
            None => -1,
            Some(bop) => bop as i64,
        };
        if previous != expected {
            return Err(23);
        }
        self.in_page = true;
        self.last_bop = Some(place);
        self.numbers = Numbers::default();
        self.font = None;
        self.show(Mark::Page(number));
        Ok(())
    }

    fn end_page(&mut self) -> Result<(), usize> {
        if !self.stack.is_empty() {
            return Err(26);
        }
        self.in_page = false;
        Ok(())
    }

    fn push(&mut self) -> Result<(), usize> {
        if self.stack.len() == 200 {
            return Err(24);
        }
        self.stack.push(self.numbers);
        Ok(())
    }

    fn pop(&mut self) -> Result<(), usize> {
        self.numbers = self.stack.pop().ok_or(25_usize)?;
        Ok(())
    }

    fn right(&mut self, distance: i64) -> Result<(), usize> {
        self.numbers.x += distance;
        fits(self.numbers.x)
    }

    fn down(&mut self, distance: i64) -> Result<(), usize> {
        self.numbers.y += distance;
        fits(self.numbers.y)
    }

    /// The width of a character in the current font.
    fn width(&self, character: u8) -> Option<i64> {
        let font = self.font?;
        let fonts = (self.widths.len() / 128) as i64;
        if font < 0 || font >= fonts {
            return None;
        }
        Some(self.widths[128 * font as usize + usize::from(character)].into())
    }

    fn show_character(&mut self, character: u8) -> Result<(), usize> {
        let font = self.font.ok_or(27_usize)?;
        let Numbers { x, y, .. } = self.numbers;
        self.show(Mark::Character { x, y, font, code: character });
        Ok(())
    }

    fn show_rule(&mut self, kind: u8, height: i64, width: i64) {
        let Numbers { x, y, .. } = self.numbers;
        self.show(Mark::Rule { kind, x, y, height, width });
    }

    fn show(&mut self, mark: Mark) {
        self.shown.push((self.place, mark));
    }
}

fn fits(number: i64) -> Result<(), usize> {
    if i32::try_from(number).is_err() {
        return Err(28);
    }
    Ok(())
}

fn four(number: i64) -> [u8; 4] {
    (number as i32).to_be_bytes()
}

/// A number in two's complement, high byte first.
fn signed(bytes: &[u8]) -> i64 {
    let mut number = 0;
    for &byte in bytes {
        number = 256 * number + i64::from(byte);
    }
    if bytes[0] >= 128 {
        number -= 1 << (8 * bytes.len());
    }
    number
}

/// Whether all from PST on is as it should be.
fn is_postamble(dvi: &[u8], pst: usize, last_bop: usize) -> bool {
    let mut rest = Rest(&dvi[pst + 1..]);
    after_pst(&mut rest, pst, last_bop).is_some()
}

/// Takes the postamble after PST, to the end of the file.
fn after_pst(rest: &mut Rest, pst: usize, last_bop: usize) -> Option<()> {
    when(rest.number()? == last_bop as i64)?;
    let _height = rest.number()?;
    let _width = rest.number()?;
    while rest.number()? != -1 {
        let _font_number = rest.number()?;
        let delimiter = rest.byte()?;
        while rest.byte()? != delimiter {}
    }
    when(rest.number()? == pst as i64)?;
    when(rest.byte()? == 0)?;
    when(rest.0.len() >= 4)?;
    when(rest.0.iter().all(|&byte| byte == 223))
}

fn when(holds: bool) -> Option<()> {
    holds.then_some(())
}

/// The bytes still to be read.
struct Rest<'a>(&'a [u8]);

impl Rest<'_> {
    fn byte(&mut self) -> Option<u8> {
        let (&byte, rest) = self.0.split_first()?;
        self.0 = rest;
        Some(byte)
    }

    fn number(&mut self) -> Option<i64> {
        if self.0.len() < 4 {
            return None;
        }
        let (four, rest) = self.0.split_at(4);
        self.0 = rest;
        Some(signed(four))
    }
}
