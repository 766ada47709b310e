//! XGP character mode, of source 003 the part that document 02 names: what a file shows, as a sheet. Codes are
//! octal, as in 003.

use super::{field, Refused};

/// What a code of the part does.
enum Code {
    Null,
    Normal(u8),
    LineFeed,
    FormFeed,
    Return,
    FontSelect(u8),
    ColumnSelect(i64),
    ColumnIncrement(i64),
    BaseLineAdjust(i64),
}

/// "60 for a code in 003 outside this part or any byte above 127, 61 for a reserved or unlisted one, 62 for a file
/// that ends inside a code, 28 if x, the baseline or a character's y leaves 32 bits".
const OUTSIDE: usize = 60;
const RESERVED: usize = 61;
const ENDS: usize = 62;
const LEAVES: usize = 28;

/// The bytes of a file from the first byte of a code.
struct Bytes<'a> {
    file: &'a [u8],
    place: usize,
}

impl Bytes<'_> {
    fn next(&mut self) -> Result<u8, usize> {
        let byte = *self.file.get(self.place).ok_or(ENDS)?;
        self.place += 1;
        if byte > 0o177 {
            return Err(OUTSIDE);
        }
        Ok(byte)
    }

    /// 003's table, "Usual meaning".
    fn code(&mut self) -> Result<Code, usize> {
        match self.next()? {
            0 => Ok(Code::Null),
            byte @ (0o1..=0o7 | 0o13 | 0o16..=0o37 | 0o40..=0o176) => Ok(Code::Normal(byte)),
            // Backspace and TAB.
            0o10 | 0o11 => Err(OUTSIDE),
            0o12 => Ok(Code::LineFeed),
            0o14 => Ok(Code::FormFeed),
            0o15 => Ok(Code::Return),
            0o177 => self.escaped(),
            0o200.. => unreachable!(),
        }
    }

    /// 003's table, "Escape significance", with 10 among the reserved ones.
    fn escaped(&mut self) -> Result<Code, usize> {
        match self.next()? {
            0o1 => self.operation(),
            0o2 => Ok(Code::ColumnIncrement(signed(self.next()?))),
            // The scan line to start on, and a vector.
            0o3 | 0o4 => Err(OUTSIDE),
            0o5..=0o10 | 0o13 | 0o16..=0o37 => Err(RESERVED),
            byte @ (0 | 0o11 | 0o12 | 0o14 | 0o15 | 0o40..=0o177) => Ok(Code::Normal(byte)),
            0o200.. => unreachable!(),
        }
    }

    /// The special operation codes of XGP ESCAPE 1.
    fn operation(&mut self) -> Result<Code, usize> {
        match self.next()? {
            font @ 0..=3 => Ok(Code::FontSelect(font)),
            0o4..=0o37 => Err(RESERVED),
            0o40 => {
                let high: i64 = self.next()?.into();
                let low: i64 = self.next()?.into();
                Ok(Code::ColumnSelect(128 * high + low))
            }
            0o43 => Ok(Code::BaseLineAdjust(signed(self.next()?))),
            // Underscore, line space, page number, heading, underlines and spacing.
            0o41 | 0o42 | 0o44..=0o50 => Err(OUTSIDE),
            0o51.. => Err(RESERVED),
        }
    }
}

/// Seven bits in two's complement: 0 to 77 are positive, 100 is -100 and 177 is -1.
fn signed(bits: u8) -> i64 {
    let bits: i64 = bits.into();
    if bits < 0o100 {
        bits
    } else {
        bits - 0o200
    }
}

fn fits(number: i64) -> Result<i64, usize> {
    i32::try_from(number).map(i64::from).map_err(|_| LEAVES)
}

/// Where the next character goes, and how.
struct Pen<'a> {
    spacing: i64,
    widths: &'a [i32],
    x: i64,
    baseline: i64,
    raised: i64,
    font: u8,
    form_feeds: i64,
    /// Whether the page has a character.
    is_begun: bool,
    /// The fields, and how many they are.
    sheet: Vec<u8>,
    count: u32,
}

impl Pen<'_> {
    fn take(&mut self, code: Code) -> Result<(), usize> {
        match code {
            Code::Null => {}
            Code::Normal(character) => self.print(character)?,
            Code::LineFeed => self.baseline = fits(self.baseline + self.spacing)?,
            Code::FormFeed => {
                self.form_feeds += 1;
                self.baseline = self.spacing;
                self.is_begun = false;
            }
            Code::Return => self.x = 0,
            Code::FontSelect(font) => (self.font, self.raised) = (font, 0),
            Code::ColumnSelect(column) => self.x = column,
            Code::ColumnIncrement(dots) => self.x = fits(self.x + dots)?,
            Code::BaseLineAdjust(raised) => self.raised = raised,
        }
        Ok(())
    }

    fn print(&mut self, character: u8) -> Result<(), usize> {
        let y = fits(self.baseline - self.raised)?;
        let width: i64 = self.widths[128 * usize::from(self.font) + usize::from(character)].into();
        let next = fits(self.x + width)?;
        if !self.is_begun {
            self.show(field(5, &four(1 + self.form_feeds)));
            self.is_begun = true;
        }
        let font = four(self.font.into());
        self.show(field(3, &[&four(self.x)[..], &four(y), &font, &[character]].concat()));
        self.x = next;
        Ok(())
    }

    fn show(&mut self, field: Vec<u8>) {
        self.sheet.extend(field);
        self.count += 1;
    }
}

fn four(number: i64) -> [u8; 4] {
    (number as i32).to_be_bytes()
}

/// The sheet.
pub fn read_xgp(file: &[u8], spacing: u16, widths: &[i32]) -> Result<Vec<u8>, Refused> {
    if file.len() > 33_554_432 {
        return Err((20, 0));
    }
    if widths.len() != 4 * 128 {
        return Err((31, 0));
    }
    if widths.iter().any(|width| *width < 0) {
        return Err((63, 0));
    }
    let spacing: i64 = spacing.into();
    let mut pen = Pen {
        spacing,
        widths,
        x: 0,
        baseline: spacing,
        raised: 0,
        font: 0,
        form_feeds: 0,
        is_begun: false,
        sheet: Vec::new(),
        count: 0,
    };
    let mut bytes = Bytes { file, place: 0 };
    while bytes.place < file.len() {
        let place = bytes.place;
        bytes.code().and_then(|code| pen.take(code)).map_err(|number| (number, place))?;
    }
    pen.show(field(2, &pen.count.to_be_bytes()));
    Ok(pen.sheet)
}
