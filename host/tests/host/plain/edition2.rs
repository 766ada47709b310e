//! A galley becomes a DVI file of the second edition, and such a file its galley again.

use super::galley::{galley_of, items, Character, Item, NEW};
use super::Refused;
use std::collections::BTreeSet;
use std::ops::RangeInclusive;

const POINTS: [i32; 15] = [7, 8, 10, 11, 12, 14, 18, 9, 6, 16, 20, 22, 24, 28, 36];

/// Numerator, denominator and magnification: units of 1/432 inch.
const SCALE: [i32; 3] = [254_000, 432, 1_000];

pub fn write_dvi2(galley: &[u8]) -> Result<Vec<u8>, Refused> {
    let items = items(NEW, galley)?;
    let mut file = File::new();
    for item in items {
        file.add(item);
    }
    let end = file.end();
    Ok([file.bytes, end].concat())
}

/// What is written so far: the preamble, the first bop, and the items.
struct File {
    bytes: Vec<u8>,
    pages: i32,
    last_bop: i32,
    /// Where the last character of this page stands, and its font.
    x: i32,
    y: i32,
    font: Option<i32>,
    /// Over all pages.
    fonts: BTreeSet<i32>,
    widest: i32,
    deepest: i32,
}

impl File {
    fn new() -> File {
        let mut file = File {
            bytes: vec![247, 2],
            pages: 0,
            last_bop: -1,
            x: 0,
            y: 0,
            font: None,
            fonts: BTreeSet::new(),
            widest: 0,
            deepest: 0,
        };
        file.bytes.extend(numbers(&SCALE));
        file.bytes.push(0);
        file.begin_page();
        file
    }

    fn begin_page(&mut self) {
        let bop = self.bytes.len() as i32;
        self.pages += 1;
        self.bytes.push(139);
        self.bytes.extend(numbers(&[self.pages, 0, 0, 0, 0, 0, 0, 0, 0, 0, self.last_bop]));
        self.last_bop = bop;
        (self.x, self.y, self.font) = (0, 0, None);
    }

    fn add(&mut self, item: Item) {
        match item {
            Item::Cut => {
                self.bytes.push(140);
                self.begin_page();
            }
            Item::Character(character) => {
                self.bytes.extend(self.commands_of(character));
                (self.x, self.y) = (character.x, 3 * character.height as i32);
                self.font = Some(character.font_number);
                self.fonts.insert(character.font_number);
                self.widest = self.widest.max(self.x);
                self.deepest = self.deepest.max(self.y);
            }
        }
    }

    /// The commands of one more character.
    fn commands_of(&self, character: Character) -> Vec<u8> {
        let font = character.font_number;
        let mut commands = Vec::new();
        if self.font != Some(font) {
            if !self.fonts.contains(&font) {
                commands.extend(definition(font));
            }
            commands.extend(match font {
                0..=63 => vec![171 + font as u8],
                _ => vec![235, font as u8],
            });
        }
        commands.extend(move_command(143, character.x - self.x));
        commands.extend(move_command(157, 3 * character.height as i32 - self.y));
        commands.extend([133, character.code as u8]);
        commands
    }

    /// All that comes after the last item.
    fn end(&self) -> Vec<u8> {
        let mut end = vec![140];
        let post = (self.bytes.len() + end.len()) as i32;
        end.push(248);
        end.extend(numbers(&[self.last_bop]));
        end.extend(numbers(&SCALE));
        end.extend(numbers(&[self.deepest, self.widest]));
        end.extend([0, 0]);
        end.extend(((self.pages % 65_536) as u16).to_be_bytes());
        for &font in &self.fonts {
            end.extend(definition(font));
        }
        end.push(249);
        end.extend(numbers(&[post]));
        end.push(2);
        end.extend([223; 4]);
        while !(self.bytes.len() + end.len()).is_multiple_of(4) {
            end.push(223);
        }
        end
    }
}

/// Four bytes each, the high one first.
fn numbers(numbers: &[i32]) -> Vec<u8> {
    numbers.iter().flat_map(|number| number.to_be_bytes()).collect()
}

fn definition(font: i32) -> Vec<u8> {
    let points = POINTS[font as usize % 15];
    let mut definition = vec![243, font as u8];
    definition.extend(numbers(&[0, 6 * points, 6 * points]));
    definition.extend([0, 4]);
    definition.extend(format!("C{}{points:02}", font / 15 + 1).bytes());
    definition
}

/// The shortest of four commands, of which the first has one byte; none for 0.
fn move_command(first: u8, distance: i32) -> Vec<u8> {
    let bytes = distance.to_be_bytes();
    let length = match distance {
        0 => return vec![],
        -0x80..=0x7F => 1,
        -0x8000..=0x7FFF => 2,
        -0x80_0000..=0x7F_FFFF => 3,
        _ => 4,
    };
    let mut command = vec![first + length - 1];
    command.extend(&bytes[4 - usize::from(length)..]);
    command
}

/// Takes a command after the other, as long as some file of the writer begins so.
pub fn read_dvi2(dvi: &[u8]) -> Result<Vec<u8>, Refused> {
    if dvi.len() > 67_108_864 {
        return Err((20, 0));
    }
    let mut file = File::new();
    let mut items = Vec::new();
    // What is read, and where what belongs to no item yet starts.
    let (mut place, mut start) = (0, 0);
    while place < dvi.len() {
        let end = dvi.len().min(place + length_of(&dvi[place..]));
        if start == 0 {
            // The preamble and the first bop.
            if !file.bytes.starts_with(&dvi[..end]) {
                return Err((46, place));
            }
            if end == file.bytes.len() {
                start = end;
            }
        } else {
            let is_full = items.len() == 1_048_576;
            match file.after(&dvi[start..end], place - start, is_full) {
                After::Nothing => return Err((46, place)),
                After::Part => {}
                After::Whole(item) => {
                    file.add(item);
                    items.push(item);
                    start = end;
                }
            }
        }
        place = end;
    }
    if start == 0 || dvi[start..] != file.end() {
        return Err((46, dvi.len()));
    }
    Ok(galley_of(NEW, &items))
}

/// What bytes after the items so far are.
enum After {
    /// No file goes on so.
    Nothing,
    /// Part of an item, or of the end.
    Part,
    Whole(Item),
}

impl File {
    /// The last command of these bytes starts at `last`.
    fn after(&self, bytes: &[u8], last: usize, is_full: bool) -> After {
        if bytes[0] == 140 {
            return self.after_eop(bytes, is_full);
        }
        if !is_full {
            for character in self.guesses(bytes, last) {
                let commands = self.commands_of(character);
                if commands == bytes {
                    return After::Whole(Item::Character(character));
                }
                if commands.starts_with(bytes) {
                    return After::Part;
                }
            }
        }
        After::Nothing
    }

    fn after_eop(&self, bytes: &[u8], is_full: bool) -> After {
        if self.end().starts_with(bytes) {
            return After::Part;
        }
        if !is_full {
            let mut cut = vec![140, 139];
            cut.extend(numbers(&[self.pages + 1, 0, 0, 0, 0, 0, 0, 0, 0, 0, self.last_bop]));
            if cut == bytes {
                return After::Whole(Item::Cut);
            }
            if cut.starts_with(bytes) {
                return After::Part;
            }
        }
        After::Nothing
    }

    /// Valid characters, among them one whose commands begin with these if there is any. What a command that is
    /// cut short leaves open is tried out.
    fn guesses(&self, bytes: &[u8], last: usize) -> impl Iterator<Item = Character> {
        let all = (0..120).collect();
        let mut fonts: Vec<i32> = self.font.map_or(all, |font| vec![font]);
        // 0 is valid in every font; where the last x is not, a move right has to come.
        let mut across = vec![self.x, 0];
        let mut heights = self.y / 3..=self.y / 3;
        let mut code = 1;
        let mut place = 0;
        while place <= last {
            let command = &bytes[place..bytes.len().min(place + length_of(&bytes[place..]))];
            match command[0] {
                171..=234 => fonts = vec![i32::from(command[0]) - 171],
                235 | 243 => fonts = command.get(1).map_or((0..120).collect(), |&font| vec![font.into()]),
                143..=146 => across = ends(self.x, command, -55, 3_239).collect(),
                157..=160 => {
                    let down = ends(self.y, command, 0, 3_000_000);
                    heights = (down.start() + 2) / 3..=down.end().div_euclid(3);
                }
                133 => code = command.get(1).map_or(1, |&code| code.into()),
                _ => fonts.clear(),
            }
            place += command.len();
        }
        fonts
            .into_iter()
            .flat_map(move |font_number| {
                let heights = heights.clone();
                across.clone().into_iter().flat_map(move |x| {
                    heights.clone().map(move |height| Character {
                        x,
                        height: height as u32,
                        font_number,
                        code,
                    })
                })
            })
            .filter(|guess| guess.is_valid(NEW))
    }
}

/// Where a move from here may end within these bounds; one that is cut short may have any bytes in the rest.
fn ends(from: i32, command: &[u8], least: i32, greatest: i32) -> RangeInclusive<i32> {
    let length = length_of(command) - 1;
    let [low, high] = [0x00, 0xFF].map(|filler| {
        let mut amount = command[1..].to_vec();
        if amount.is_empty() {
            // The sign is open too.
            amount.push(if filler == 0 { 0x80 } else { 0x7F });
        }
        amount.resize(length, filler);
        let sign = i64::from(amount[0] as i8);
        i64::from(from) + amount[1..].iter().fold(sign, |number, &byte| number << 8 | i64::from(byte))
    });
    let (least, greatest) = (i64::from(least), i64::from(greatest));
    low.clamp(least, greatest + 1) as i32..=high.clamp(least - 1, greatest) as i32
}

/// The length of the first command, if it is one that the writer uses; any other is bad by its first byte.
fn length_of(bytes: &[u8]) -> usize {
    match bytes[0] {
        command @ 133..=136 => 2 + usize::from(command - 133),
        139 => 45,
        command @ 143..=146 => 2 + usize::from(command - 143),
        command @ 157..=160 => 2 + usize::from(command - 157),
        command @ 235..=238 => 2 + usize::from(command - 235),
        243 => 20,
        247 => 15,
        248 => 29,
        249 => 6,
        _ => 1,
    }
}
