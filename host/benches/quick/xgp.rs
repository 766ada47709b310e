//! A file of XGP character mode to a sheet.

use super::reader::{Fields, Refusal, Room, Sink};
use super::{accepted, refused};

type Widths = [[i32; 128]; 4];

pub fn read_xgp(file: &[u8], spacing: u16, widths: &[i32], sheet: &mut [u8]) -> [usize; 3] {
    if file.len() > 33_554_432 {
        return refused((20, 0));
    }
    let (fonts, []) = widths.as_chunks() else {
        return refused((31, 0));
    };
    let Ok(fonts) = fonts.try_into() else {
        return refused((31, 0));
    };
    if widths.iter().fold(0, |bits, width| bits | width) < 0 {
        return refused((63, 0));
    }
    let mut room = Room { length: 7 };
    if let Err(refusal) = codes(file, spacing.into(), fonts, &mut room) {
        return refused(refusal);
    }
    if sheet.len() < room.length {
        return refused((30, room.length));
    }
    let mut fields = Fields { sheet, at: 0, count: 0 };
    let _ = codes(file, spacing.into(), fonts, &mut fields);
    accepted(fields.end())
}

/// Where the next character goes, and how.
struct Pen {
    x: i32,
    baseline: i32,
    raised: i32,
    font: u8,
    page: i32,
    /// Whether the page has a character.
    is_begun: bool,
}

/// Whether a byte is a character by itself.
const IS_PLAIN: [bool; 256] = {
    let mut is_plain = [false; 256];
    let mut byte = 1;
    while byte < 0o177 {
        is_plain[byte] = !matches!(byte, 0o10 | 0o11 | 0o12 | 0o14 | 0o15);
        byte += 1;
    }
    is_plain
};

fn codes<S: Sink>(file: &[u8], spacing: i32, fonts: &Widths, sink: &mut S) -> Result<(), Refusal> {
    let mut pen = Pen { x: 0, baseline: spacing, raised: 0, font: 0, page: 1, is_begun: false };
    let mut place = 0;
    while let Some(&byte) = file.get(place) {
        match byte {
            0 => place += 1,
            0o12 => {
                pen.baseline = pen.baseline.checked_add(spacing).ok_or((28, place))?;
                place += 1;
            }
            0o14 => {
                (pen.baseline, pen.is_begun) = (spacing, false);
                pen.page += 1;
                place += 1;
            }
            0o15 => {
                pen.x = 0;
                place += 1;
            }
            0o177 => place += pen.escape(&file[place..], place, fonts, sink)?,
            0o10 | 0o11 | 0o200.. => return Err((60, place)),
            _ => place = pen.plain(file, place, fonts, sink)?,
        }
    }
    Ok(())
}

impl Pen {
    /// Characters from a place on; the place after them.
    #[inline(always)]
    fn plain<S: Sink>(
        &mut self,
        file: &[u8],
        start: usize,
        fonts: &Widths,
        sink: &mut S,
    ) -> Result<usize, Refusal> {
        let y = self.begin(start, sink)?;
        let (font, mut x) = (self.font.into(), self.x);
        let widths = &fonts[usize::from(self.font & 3)];
        for (place, &byte) in file.iter().enumerate().skip(start) {
            if !IS_PLAIN[usize::from(byte)] {
                self.x = x;
                return Ok(place);
            }
            let next = x.checked_add(widths[usize::from(byte & 127)]).ok_or((28, place))?;
            sink.character(place, x, y, font, byte);
            x = next;
        }
        Ok(file.len())
    }

    /// The height of a character, after its page's field if it is the page's first.
    #[inline(always)]
    fn begin<S: Sink>(&mut self, place: usize, sink: &mut S) -> Result<i32, Refusal> {
        let y = self.baseline.checked_sub(self.raised).ok_or((28, place))?;
        if !self.is_begun {
            self.is_begun = true;
            sink.page(place, self.page.to_be_bytes());
        }
        Ok(y)
    }

    /// A code that starts with ESCAPE; its length.
    fn escape<S: Sink>(
        &mut self,
        rest: &[u8],
        place: usize,
        fonts: &Widths,
        sink: &mut S,
    ) -> Result<usize, Refusal> {
        match *rest {
            [_, 1, font @ 0..=3, ..] => {
                (self.font, self.raised) = (font, 0);
                Ok(3)
            }
            [_, 1, 0o40, high @ 0..=127, low @ 0..=127, ..] => {
                self.x = i32::from(high) << 7 | i32::from(low);
                Ok(5)
            }
            [_, 1, 0o43, bits @ 0..=127, ..] => {
                self.raised = signed(bits);
                Ok(4)
            }
            [_, 2, bits @ 0..=127, ..] => {
                self.x = self.x.checked_add(signed(bits)).ok_or((28, place))?;
                Ok(3)
            }
            [_, byte @ (0 | 0o11 | 0o12 | 0o14 | 0o15 | 0o40..=0o177), ..] => {
                let y = self.begin(place, sink)?;
                let width = fonts[usize::from(self.font & 3)][usize::from(byte)];
                let next = self.x.checked_add(width).ok_or((28, place))?;
                sink.character(place, self.x, y, self.font.into(), byte);
                self.x = next;
                Ok(2)
            }
            _ => Err((refusal(rest), place)),
        }
    }
}

/// Seven bits in two's complement.
fn signed(bits: u8) -> i32 {
    i32::from((bits << 1) as i8 >> 1)
}

/// Why a code that starts with ESCAPE is refused.
#[cold]
fn refusal(rest: &[u8]) -> usize {
    match rest {
        [_] | [_, 1] | [_, 2] => 62,
        [_, 1, 0o40 | 0o43] | [_, 1, 0o40, 0..=127] => 62,
        [_, 1, 0o4..=0o37 | 0o51..=0o177, ..] => 61,
        [_, 5..=8 | 0o13 | 0o16..=0o37, ..] => 61,
        _ => 60,
    }
}
