//! Refusals of DVI files of the second edition in words: what stands at the place, and what the writer puts there.

use super::{offset, Explained};
use crate::edition2::write_dvi2;
use crate::operations::ITEM_LIMIT;
use crate::refusal::Refusal;
use crate::text::grouped;

impl Refusal {
    /// What it says of a DVI file of the second edition.
    ///
    /// ```
    /// use spatecanter::read_dvi2;
    ///
    /// let explained = read_dvi2(&[247, 3]).unwrap_err().in_dvi2(&[247, 3]);
    /// assert_eq!(explained.found.unwrap(), "at offset 0 (hexadecimal 0): command 247, pre");
    /// ```
    pub fn in_dvi2(self, dvi: &[u8]) -> Explained {
        let Refusal::NotOurs { place } = self else {
            return Explained::new(self);
        };
        let before = Before::new(dvi, place);
        let (stands, expected) = match dvi.get(place) {
            Some(&command) => (in_words(command), before.expected(&dvi[place..])),
            None => ("the end of the file".into(), before.expected_rest(dvi)),
        };
        let found = format!("{}: {stands}", offset(place));
        Explained { refusal: self, found: Some(found), expected: Some(expected) }
    }
}

/// Where the commands before a place lead.
#[derive(Clone, Copy, PartialEq)]
enum Stage {
    /// Before the first page.
    Start,
    /// On a page, where a character begins or eop comes.
    Page,
    /// On a page, after a definition; after a font; after a move right; after a move down.
    Defined,
    Font,
    Right,
    Down,
    /// After eop.
    AfterPage,
    /// In the postamble, or after it.
    End,
}

/// The good commands before a place.
struct Before {
    stage: Stage,
    /// Where they end: at the place, or before a command that is cut short.
    place: usize,
    /// The characters and cuts, as fields of a galley, and their numbers.
    fields: Vec<u8>,
    characters: u32,
    cuts: usize,
    /// The fonts defined.
    fonts: Vec<u8>,
    /// The font in force, or the one just defined; and where the last move led.
    font: Option<u8>,
    x: i32,
    y: i32,
}

impl Before {
    fn new(dvi: &[u8], place: usize) -> Before {
        let mut before = Before {
            stage: Stage::Start,
            place: 0,
            fields: vec![],
            characters: 0,
            cuts: 0,
            fonts: vec![],
            font: None,
            x: 0,
            y: 0,
        };
        while before.place < place {
            let rest = &dvi[before.place..];
            let Some(command) = rest.get(..length(rest[0])) else { break };
            before.take(command);
            before.place += command.len();
        }
        before
    }

    fn take(&mut self, command: &[u8]) {
        self.stage = match command[0] {
            139 => {
                if self.stage == Stage::AfterPage {
                    self.fields.extend([6, 0, 0]);
                    self.cuts += 1;
                }
                (self.font, self.x, self.y) = (None, 0, 0);
                Stage::Page
            }
            243 if self.stage == Stage::Page => {
                self.fonts.push(command[1]);
                self.font = Some(command[1]);
                Stage::Defined
            }
            171..=234 => self.font(command[0] - 171),
            235 => self.font(command[1]),
            143..=146 => {
                self.x += amount(command);
                Stage::Right
            }
            157..=160 => {
                self.y += amount(command);
                Stage::Down
            }
            133 => {
                let field = self.field(self.font.unwrap_or(0), command[1]);
                self.fields.extend(field);
                self.characters += 1;
                Stage::Page
            }
            140 => Stage::AfterPage,
            247 => Stage::Start,
            _ => Stage::End,
        };
    }

    /// A font command, or in the postamble one of its last bytes.
    fn font(&mut self, font: u8) -> Stage {
        if self.stage == Stage::End {
            return Stage::End;
        }
        self.font = Some(font);
        Stage::Font
    }

    /// The field of a character where the last move led.
    fn field(&self, font: u8, code: u8) -> [u8; 11] {
        let [x1, x2] = (self.x as i16).to_be_bytes();
        let [a, b, c, d] = (self.y / 3).to_be_bytes();
        [7, 0, 8, x1, x2, a, b, c, d, font, code]
    }

    /// The command that the writer puts at the place if these fields come next and are the last.
    fn written(&self, next: &[u8]) -> Option<String> {
        let characters = self.characters + u32::from(next.len() > 3);
        let galley = [&self.fields, next, &[2, 0, 4], &characters.to_be_bytes()].concat();
        let dvi = write_dvi2(&galley).ok()?;
        let rest = &dvi[self.place.min(dvi.len())..];
        let command = rest.first().map(|&command| &rest[..length(command)]);
        Some(command.map_or("the end of the file".into(), in_bytes))
    }

    /// The definition of a font, or after that its command: what the writer puts before a character of it.
    fn written_font(&self, font: u8) -> Option<String> {
        self.written(&[7, 0, 8, 0, 0, 0, 0, 0, 0, font, 1])
    }

    /// What was expected in place of the first command of a rest.
    fn expected(&self, rest: &[u8]) -> String {
        let exactly = match (self.stage, rest[0]) {
            (Stage::Start | Stage::End, _) => self.written(&[]),
            (Stage::AfterPage, 139) if !self.is_full() => self.written(&[6, 0, 0]),
            (Stage::AfterPage, 248) => self.written(&[]),
            (Stage::Defined, _) => self.font.and_then(|font| self.written_font(font)),
            (Stage::Page, 243) if !self.is_full() => rest
                .get(1)
                .filter(|font| !self.fonts.contains(font))
                .and_then(|&font| self.written_font(font)),
            _ => None,
        };
        exactly.unwrap_or_else(|| self.expected_kind(rest))
    }

    /// Whether there are as many characters and cuts as there can be.
    fn is_full(&self) -> bool {
        self.characters as usize + self.cuts == ITEM_LIMIT
    }

    fn expected_kind(&self, rest: &[u8]) -> String {
        let full = || format!("after {} characters and cuts", grouped(ITEM_LIMIT));
        match (self.stage, rest[0]) {
            (Stage::AfterPage, _) if self.is_full() => format!("post (F8), {}", full()),
            (Stage::AfterPage, _) => "bop (8B) of the next page, or post (F8)".into(),
            (Stage::Page, _) if self.is_full() => format!("eop (8C), {}", full()),
            (Stage::Page, 171..=238) => self.expected_font(rest),
            (Stage::Page | Stage::Font, 143..=146) if self.font.is_some() => {
                format!("the shortest move right from {} to another x, {}", self.x, self.range())
            }
            (_, 157..=160) if self.has_place() && self.stage != Stage::Down => format!(
                "the shortest move down from {} to three times another height, 0 to 3,000,000",
                self.y
            ),
            (_, 133) if self.has_place() => "a character of 1 to 108".into(),
            _ => self.expected_next(),
        }
    }

    /// What may come where a font is not right.
    fn expected_font(&self, rest: &[u8]) -> String {
        let font = if rest[0] < 235 { rest[0] - 171 } else { rest.get(1).copied().unwrap_or(u8::MAX) };
        if font > 119 || rest[0] > 235 || (font < 64) != (rest[0] < 235) {
            "a font of 0 to 119, in the shortest form (AB to EA, or EB 40 to EB 77)".into()
        } else if self.font == Some(font) {
            format!("no font, since font {font} is in force")
        } else {
            format!(
                "the definition of font {font} before it, {}",
                self.written_font(font).unwrap_or_default()
            )
        }
    }

    /// Whether a font is in force, and x is valid in it.
    fn has_place(&self) -> bool {
        let shift = if self.is_double() { 55 } else { 0 };
        self.font.is_some() && (0..3_240).contains(&(self.x + shift))
    }

    fn is_double(&self) -> bool {
        self.font.is_some_and(|font| font % 15 >= 9)
    }

    fn range(&self) -> &'static str {
        if self.is_double() {
            "-55 to 3,184 in a double size"
        } else {
            "0 to 3,239 in a single size"
        }
    }

    /// What may come next at all.
    fn expected_next(&self) -> String {
        match self.stage {
            Stage::Page if self.font.is_none() => {
                "a font, after its definition if it is new, or eop (8C)".into()
            }
            Stage::Page => "a font, a move, put1 (85) or eop (8C)".into(),
            _ if !self.has_place() => {
                format!("a move right, since x is {}, and has to be {}", self.x, self.range())
            }
            Stage::Font => "a move or put1 (85)".into(),
            Stage::Right => "a move down or put1 (85)".into(),
            _ => "put1 (85)".into(),
        }
    }

    /// What was expected at the end of a file that ends early.
    fn expected_rest(&self, dvi: &[u8]) -> String {
        match dvi.get(self.place) {
            Some(&command) => format!("the rest of {} at {}", in_words(command), self.place),
            // As in place of a command that is good nowhere.
            None => self.expected(&[0]),
        }
    }
}

/// The bytes of a command that the writer uses, with its parameters; of any other, one.
fn length(command: u8) -> usize {
    match command {
        133..=136 => usize::from(command) - 131,
        139 => 45,
        143..=146 => usize::from(command) - 141,
        157..=160 => usize::from(command) - 155,
        235..=238 => usize::from(command) - 233,
        243 => 20,
        247 => 15,
        248 => 29,
        249 => 6,
        _ => 1,
    }
}

/// The signed number after a move's command.
fn amount(command: &[u8]) -> i32 {
    let high = i32::from(command[1] as i8);
    command[2..].iter().fold(high, |number, &byte| number << 8 | i32::from(byte))
}

/// A command by its name and its bytes.
fn in_bytes(command: &[u8]) -> String {
    let bytes: Vec<String> = command.iter().map(|byte| format!("{byte:02X}")).collect();
    format!("{} as {}", name(command[0]), bytes.join(" "))
}

fn in_words(command: u8) -> String {
    format!("command {command}, {}", name(command))
}

/// A command's name in DVItype.
fn name(command: u8) -> String {
    let numbered = |name: &str, first: u8| format!("{name}{}", command - first + 1);
    match command {
        0..=127 => format!("set_char_{command}"),
        128..=131 => numbered("set", 128),
        132 => "set_rule".into(),
        133..=136 => numbered("put", 133),
        137 => "put_rule".into(),
        138 => "nop".into(),
        139 => "bop".into(),
        140 => "eop".into(),
        141 => "push".into(),
        142 => "pop".into(),
        143..=146 => numbered("right", 143),
        147 => "w0".into(),
        148..=151 => numbered("w", 148),
        152 => "x0".into(),
        153..=156 => numbered("x", 153),
        157..=160 => numbered("down", 157),
        161 => "y0".into(),
        162..=165 => numbered("y", 162),
        166 => "z0".into(),
        167..=170 => numbered("z", 167),
        171..=234 => format!("fnt_num_{}", command - 171),
        235..=238 => numbered("fnt", 235),
        239..=242 => numbered("xxx", 239),
        243..=246 => numbered("fnt_def", 243),
        247 => "pre".into(),
        248 => "post".into(),
        249 => "post_post".into(),
        250..=255 => "which is undefined".into(),
    }
}
