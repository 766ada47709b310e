//! A tape that comes in pieces (document 02, "From the tape drive").

use super::galley::{Character, Item, NEW};
use super::tape::Machine;
use super::{field, with_room, Refused};

pub struct RunningTape {
    /// The tape that was started, and not closed since.
    open: Option<Open>,
    /// The characters gone out since the start.
    out: Vec<Character>,
}

struct Open {
    machine: Machine,
    /// The bytes of the pieces so far.
    total: usize,
    /// The refusal that is repeated.
    refusal: Option<Refused>,
}

impl RunningTape {
    pub fn new() -> RunningTape {
        RunningTape { open: None, out: vec![] }
    }

    /// 50 changes nothing.
    pub fn start(&mut self, fonts: u32) -> Result<Vec<u8>, Refused> {
        if fonts != 4 && fonts != 8 {
            return Err((50, 0));
        }
        self.out.clear();
        self.open = Some(Open { machine: Machine::at_start(fonts), total: 0, refusal: None });
        Ok(vec![])
    }

    pub fn feed(&mut self, piece: &[u8], room: usize) -> Result<Vec<u8>, Refused> {
        let open = self.open()?;
        if open.total + piece.len() > 1_048_576 {
            return open.keep((1, 0));
        }
        let mut machine = open.machine.clone();
        let mut items = Vec::new();
        for (index, &code) in piece.iter().enumerate() {
            match machine.take(code) {
                Ok(item) => items.extend(item),
                Err(number) => return open.keep((number, open.total + index)),
            }
        }
        let fields = items.iter().flat_map(|item| item.field(NEW)).collect();
        let fields = with_room(Ok(fields), room, 12)?;
        open.machine = machine;
        open.total += piece.len();
        let characters = items.into_iter().filter_map(|item| match item {
            Item::Character(character) => Some(character),
            Item::Cut => None,
        });
        self.out.extend(characters);
        Ok(fields)
    }

    pub fn close(&mut self, room: usize) -> Result<Vec<u8>, Refused> {
        let open = self.open()?;
        if open.machine.cut {
            return open.keep((10, open.total));
        }
        if !open.machine.stopped {
            return open.keep((9, open.total));
        }
        let count = self.out.len() as u32;
        let end = with_room(Ok(field(2, &count.to_be_bytes())), room, 12)?;
        self.open = None;
        Ok(end)
    }

    /// Farthest x and greatest height, at least 0, and the fonts met (document 02, "Extents at a glance").
    pub fn extents(&self) -> ([i32; 2], Vec<i32>) {
        let x = self.out.iter().map(|character| character.x).max().unwrap_or(0).max(0);
        let height = self.out.iter().map(|character| character.height as i32).max().unwrap_or(0);
        let mut fonts: Vec<i32> = self.out.iter().map(|character| character.font_number).collect();
        fonts.sort();
        fonts.dedup();
        ([x, height], fonts)
    }

    /// 13 before any start and after an accepted closing, then the repeated refusal.
    fn open(&mut self) -> Result<&mut Open, Refused> {
        match &mut self.open {
            None => Err((13, 0)),
            Some(Open { refusal: Some(refusal), .. }) => Err(*refusal),
            Some(open) => Ok(open),
        }
    }
}

impl Open {
    fn keep<T>(&mut self, refusal: Refused) -> Result<T, Refused> {
        self.refusal = Some(refusal);
        Err(refusal)
    }
}
