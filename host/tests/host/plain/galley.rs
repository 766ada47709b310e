//! A galley is checked and read back, in its new form or its old.

use super::{field, Refused};

/// A form of galleys: the tag of a character, the bytes and the limit of its height, the longest galley.
#[derive(Clone, Copy)]
pub struct Form {
    tag: u8,
    height_bytes: usize,
    highest: u32,
    longest: usize,
}

pub const NEW: Form = Form { tag: 7, height_bytes: 4, highest: 1_000_000, longest: 11_534_343 };
pub const OLD: Form = Form { tag: 1, height_bytes: 2, highest: 65_535, longest: 9_437_191 };

#[derive(Clone, Copy, Debug, PartialEq)]
pub struct Character {
    pub x: i32,
    pub height: u32,
    pub font_number: i32,
    pub code: i32,
}

impl Character {
    fn field(&self, form: Form) -> Vec<u8> {
        let mut body = Vec::new();
        body.extend((self.x as i16).to_be_bytes());
        body.extend(&self.height.to_be_bytes()[4 - form.height_bytes..]);
        body.push(self.font_number as u8);
        body.push(self.code as u8);
        field(form.tag, &body)
    }

    fn of(form: Form, body: &[u8]) -> Character {
        let (place, rest) = body.split_at(2 + form.height_bytes);
        let mut height = 0;
        for &byte in &place[2..] {
            height = 256 * height + u32::from(byte);
        }
        Character {
            x: i16::from_be_bytes([place[0], place[1]]).into(),
            height,
            font_number: rest[0].into(),
            code: rest[1].into(),
        }
    }

    pub fn is_valid(&self, form: Form) -> bool {
        let doubled = self.font_number % 15 >= 9;
        let across = if doubled { -55..=3_184 } else { 0..=3_239 };
        across.contains(&self.x)
            && self.height <= form.highest
            && (0..=119).contains(&self.font_number)
            && (1..=108).contains(&self.code)
    }
}

/// What stands in a galley before End.
#[derive(Clone, Copy)]
pub enum Item {
    Character(Character),
    Cut,
}

impl Item {
    pub fn field(&self, form: Form) -> Vec<u8> {
        match self {
            Item::Character(character) => character.field(form),
            Item::Cut => field(6, &[]),
        }
    }
}

/// The galley of these items; End counts the characters.
pub fn galley_of(form: Form, items: &[Item]) -> Vec<u8> {
    let mut galley = Vec::new();
    for item in items {
        galley.extend(item.field(form));
    }
    let count = characters(items).len() as u32;
    galley.extend(field(2, &count.to_be_bytes()));
    galley
}

/// The number of characters.
pub fn check_galley(galley: &[u8]) -> Result<usize, Refused> {
    Ok(characters(&items(NEW, galley)?).len())
}

pub fn read_back(galley: &[u8], n: usize) -> Result<Character, Refused> {
    characters(&items(NEW, galley)?).get(n).copied().ok_or((11, 0))
}

fn characters(items: &[Item]) -> Vec<Character> {
    let mut characters = Vec::new();
    for item in items {
        if let Item::Character(character) = item {
            characters.push(*character);
        }
    }
    characters
}

/// The items of a galley with no height above 65,535; else 43 at the first field that has one.
pub fn low_items(galley: &[u8]) -> Result<Vec<Item>, Refused> {
    let items = items(NEW, galley)?;
    let mut place = 0;
    for item in &items {
        if matches!(item, Item::Character(character) if character.height > 65_535) {
            return Err((43, place));
        }
        place += item.field(NEW).len();
    }
    Ok(items)
}

pub fn items(form: Form, galley: &[u8]) -> Result<Vec<Item>, Refused> {
    if galley.len() > form.longest {
        return Err((40, 0));
    }
    let mut items = Vec::new();
    let mut place = 0;
    while let Some(item) = first(form, &galley[place..]) {
        if items.len() == 1_048_576 {
            return Err((41, place));
        }
        place += item.field(form).len();
        items.push(item);
    }
    let count = characters(&items).len() as u32;
    let end = field(2, &count.to_be_bytes());
    if !galley[place..].starts_with(&end) {
        return Err((41, place));
    }
    if place + end.len() < galley.len() {
        return Err((41, place + end.len()));
    }
    Ok(items)
}

/// The item whose field starts at a place, and the bytes of that field.
pub fn item_at(galley: &[u8], at: usize) -> Result<(Item, usize), Refused> {
    let item = galley.get(at..).and_then(|rest| first(NEW, rest)).ok_or((41, at))?;
    Ok((item, item.field(NEW).len()))
}

/// The item whose whole field comes first.
fn first(form: Form, rest: &[u8]) -> Option<Item> {
    let (head, rest) = rest.split_first_chunk()?;
    let [tag, high, low] = *head;
    let body = rest.get(..usize::from(high) * 256 + usize::from(low))?;
    if tag == form.tag && body.len() == 4 + form.height_bytes {
        let character = Character::of(form, body);
        return character.is_valid(form).then_some(Item::Character(character));
    }
    (tag == 6 && body.is_empty()).then_some(Item::Cut)
}
