//! A DVI file to a sheet. What becomes of what it shows is a parameter.

use super::{accepted, refused};

pub type Refusal = (usize, usize);

pub fn read_dvi(dvi: &[u8], widths: &[i32], sheet: &mut [u8]) -> [usize; 3] {
    if dvi.len() > 33_554_432 {
        return refused((20, 0));
    }
    let (widths, []) = widths.as_chunks() else {
        return refused((31, 0));
    };
    let mut room = Room { length: 7 };
    if let Err(refusal) = pages(dvi, widths, &mut room) {
        return refused(refusal);
    }
    if sheet.len() < room.length {
        return refused((30, room.length));
    }
    let mut fields = Fields { sheet, at: 0, count: 0 };
    let _ = pages(dvi, widths, &mut fields);
    accepted(fields.end())
}

/// Where the fields go, with the places of their commands: one pass only counts their bytes, the other writes them.
pub trait Sink {
    /// Whether a refusal is still possible.
    const TESTS: bool;
    fn page(&mut self, place: usize, number: [u8; 4]);
    fn character(&mut self, place: usize, x: i32, y: i32, font: i32, code: u8);
    fn rule(&mut self, place: usize, kind: u8, x: i32, y: i32, sides: [u8; 8]);
}

pub struct Room {
    pub length: usize,
}

impl Sink for Room {
    const TESTS: bool = true;

    #[inline(always)]
    fn page(&mut self, _: usize, _: [u8; 4]) {
        self.length += 7;
    }

    #[inline(always)]
    fn character(&mut self, _: usize, _: i32, _: i32, _: i32, _: u8) {
        self.length += 16;
    }

    #[inline(always)]
    fn rule(&mut self, _: usize, _: u8, _: i32, _: i32, _: [u8; 8]) {
        self.length += 20;
    }
}

pub struct Fields<'a> {
    pub sheet: &'a mut [u8],
    pub at: usize,
    pub count: u32,
}

impl Fields<'_> {
    #[inline(always)]
    fn put<const N: usize>(&mut self, bytes: [u8; N]) {
        self.sheet[self.at..self.at + N].copy_from_slice(&bytes);
        self.at += N;
        self.count += 1;
    }

    /// Writes End; gives the length of the whole.
    pub fn end(mut self) -> usize {
        let [a, b, c, d] = self.count.to_be_bytes();
        self.put([2, 0, 4, a, b, c, d]);
        self.at
    }
}

impl Sink for Fields<'_> {
    const TESTS: bool = false;

    #[inline(always)]
    fn page(&mut self, _: usize, [a, b, c, d]: [u8; 4]) {
        self.put([5, 0, 4, a, b, c, d]);
    }

    #[inline(always)]
    fn character(&mut self, _: usize, x: i32, y: i32, font: i32, code: u8) {
        let wide = |number: i32| u128::from(number as u32);
        let word = 0x03_000D << 104 | wide(x) << 72 | wide(y) << 40 | wide(font) << 8 | u128::from(code);
        self.put(word.to_be_bytes());
    }

    #[inline(always)]
    fn rule(&mut self, _: usize, kind: u8, x: i32, y: i32, sides: [u8; 8]) {
        let mut field = [0; 20];
        field[..4].copy_from_slice(&[4, 0, 17, kind]);
        field[4..8].copy_from_slice(&x.to_be_bytes());
        field[8..12].copy_from_slice(&y.to_be_bytes());
        field[12..].copy_from_slice(&sides);
        self.put(field);
    }
}

/// Reads all pages and the postamble.
pub fn pages<S: Sink>(dvi: &[u8], widths: &[[i32; 128]], sink: &mut S) -> Result<(), Refusal> {
    let mut place = 0;
    let mut last = -1_i32;
    loop {
        match dvi[place..] {
            [] => return Err((22, place)),
            [131, ref rest @ ..] if last >= 0 => {
                return postamble(rest, place, last).ok_or((29, place));
            }
            [129, n1, n2, n3, n4, p1, p2, p3, p4, ..] => {
                if i32::from_be_bytes([p1, p2, p3, p4]) != last {
                    return Err((23, place));
                }
                sink.page(place, [n1, n2, n3, n4]);
            }
            [129, ..] => return Err((22, place)),
            _ => return Err((21, place)),
        }
        last = place as i32;
        place = page(dvi, place + 9, widths, sink)?;
    }
}

/// Reads the commands of a page; gives the place after its EOP.
fn page<S: Sink>(dvi: &[u8], start: usize, widths: &[[i32; 128]], sink: &mut S) -> Result<usize, Refusal> {
    let mut place = start;
    let (mut x, mut y) = (0_i32, 0_i32);
    let (mut w_amount, mut x_amount, mut y_amount, mut z_amount) = (0, 0, 0, 0);
    let mut font = None;
    let mut table: Option<&[i32; 128]> = None;
    let mut stack = [[0; 6]; 200];
    let mut depth = 0;
    let mut spare;
    macro_rules! add {
        ($sum:ident, $distance:expr, $length:expr) => {{
            let (sum, leaves) = $sum.overflowing_add($distance);
            if S::TESTS && leaves {
                return Err((28, place));
            }
            $sum = sum;
            place += $length;
        }};
    }
    loop {
        let window: &[u8; 9] = match dvi[place..].first_chunk() {
            Some(window) => window,
            None => {
                spare = last_bytes(dvi, place)?;
                &spare
            }
        };
        match window[0] {
            first @ 0..=127 => {
                let (Some(table), Some(font)) = (table, font) else {
                    return Err((27, place));
                };
                let mut code = first;
                while code < 128 {
                    sink.character(place, x, y, font, code);
                    add!(x, table[usize::from(code)], 1);
                    code = dvi.get(place).copied().unwrap_or(255);
                }
            }
            128 => place += 1,
            130 if depth > 0 => return Err((26, place)),
            130 => return Ok(place + 1),
            132 => {
                if depth == 200 {
                    return Err((24, place));
                }
                stack[depth] = [x, y, w_amount, x_amount, y_amount, z_amount];
                depth += 1;
                place += 1;
            }
            133 => {
                if depth == 0 {
                    return Err((25, place));
                }
                depth -= 1;
                [x, y, w_amount, x_amount, y_amount, z_amount] = stack[depth];
                place += 1;
            }
            134 => {
                sink.rule(place, 0, x, y, sides(window));
                add!(x, i32::from_be_bytes([window[5], window[6], window[7], window[8]]), 9);
            }
            135 => {
                sink.rule(place, 1, x, y, sides(window));
                place += 9;
            }
            136 => match font {
                Some(font) if window[1] < 128 => {
                    sink.character(place, x, y, font, window[1]);
                    place += 2;
                }
                _ => return Err((27, place)),
            },
            137 => {
                font = Some(four(window));
                table = usize::try_from(four(window)).ok().and_then(|font| widths.get(font));
                place += 5;
            }
            138 => {
                w_amount = four(window);
                add!(x, w_amount, 5);
            }
            139 => {
                w_amount = three(window);
                add!(x, w_amount, 4);
            }
            140 => {
                w_amount = two(window);
                add!(x, w_amount, 3);
            }
            141 => add!(x, w_amount, 1),
            142 => {
                x_amount = four(window);
                add!(x, x_amount, 5);
            }
            143 => {
                x_amount = three(window);
                add!(x, x_amount, 4);
            }
            144 => {
                x_amount = two(window);
                add!(x, x_amount, 3);
            }
            145 => add!(x, x_amount, 1),
            146 => {
                y_amount = four(window);
                add!(y, y_amount, 5);
            }
            147 => {
                y_amount = three(window);
                add!(y, y_amount, 4);
            }
            148 => {
                y_amount = two(window);
                add!(y, y_amount, 3);
            }
            149 => add!(y, y_amount, 1),
            150 => {
                z_amount = four(window);
                add!(y, z_amount, 5);
            }
            151 => {
                z_amount = three(window);
                add!(y, z_amount, 4);
            }
            152 => {
                z_amount = two(window);
                add!(y, z_amount, 3);
            }
            153 => add!(y, z_amount, 1),
            command @ 154..=217 => {
                let number = command - 154;
                font = Some(number.into());
                table = widths.get(usize::from(number));
                place += 1;
            }
            129 | 131 | 218..=255 => return Err((21, place)),
        }
    }
}

#[inline(always)]
fn sides(window: &[u8; 9]) -> [u8; 8] {
    let [_, sides @ ..] = *window;
    sides
}

#[inline(always)]
fn four(window: &[u8; 9]) -> i32 {
    i32::from_be_bytes([window[1], window[2], window[3], window[4]])
}

#[inline(always)]
fn three(window: &[u8; 9]) -> i32 {
    i32::from_be_bytes([window[1], window[2], window[3], 0]) >> 8
}

#[inline(always)]
fn two(window: &[u8; 9]) -> i32 {
    i16::from_be_bytes([window[1], window[2]]).into()
}

/// The last bytes of a file, fewer than nine, if a command that may stand there is whole.
#[cold]
fn last_bytes(dvi: &[u8], place: usize) -> Result<[u8; 9], Refusal> {
    let rest = &dvi[place..];
    let length = match rest {
        [] => 1,
        [129 | 131 | 218..=255, ..] => return Err((21, place)),
        [134 | 135, ..] => 9,
        [136, ..] => 2,
        [137 | 138 | 142 | 146 | 150, ..] => 5,
        [139 | 143 | 147 | 151, ..] => 4,
        [140 | 144 | 148 | 152, ..] => 3,
        _ => 1,
    };
    if rest.len() < length {
        return Err((22, place));
    }
    let mut bytes = [0; 9];
    bytes[..rest.len()].copy_from_slice(rest);
    Ok(bytes)
}

/// Takes the postamble after its PST; nothing if it is malformed.
fn postamble(rest: &[u8], pst: usize, last: i32) -> Option<()> {
    let (pointer, mut rest) = rest.split_first_chunk()?;
    if i32::from_be_bytes(*pointer) != last {
        return None;
    }
    rest = rest.get(8..)?;
    loop {
        let (id, after) = rest.split_first_chunk()?;
        rest = after;
        if *id == [255; 4] {
            break;
        }
        let (delimiter, name) = rest.get(4..)?.split_first()?;
        let end = name.iter().position(|byte| byte == delimiter)?;
        rest = &name[end + 1..];
    }
    let (pointer, rest) = rest.split_first_chunk()?;
    let good = i32::from_be_bytes(*pointer) == pst as i32
        && rest.len() >= 5
        && rest[0] == 0
        && rest[1..].iter().all(|&byte| byte == 223);
    good.then_some(())
}
