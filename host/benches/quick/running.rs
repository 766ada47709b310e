//! A tape that comes in pieces. Between two pieces the machine's words are kept; a piece is scanned from there,
//! and then written.

use super::tape::{effects_of, next_code, other_code, write_end, write_fields, Machine};
use super::{accepted, refused};

#[derive(Clone, Copy)]
pub struct RunningTape {
    phase: Phase,
    total: usize,
    count: usize,
    /// Farthest x, greatest height and the marks of the fonts met.
    reach: [i32; 2],
    fonts: [u64; 2],
}

#[derive(Clone, Copy)]
enum Phase {
    AtRest,
    Open(Reached),
    Failed((usize, usize)),
}

/// The machine after some codes, and which come next.
#[derive(Clone, Copy)]
struct Reached {
    machine: Machine,
    stage: Stage,
}

#[derive(Clone, Copy, PartialEq)]
enum Stage {
    BeforeInitialize,
    Working,
    AfterCut,
    AfterStop,
}

/// What a piece sets.
struct Piece {
    reached: Reached,
    count: usize,
    cuts: usize,
}

impl RunningTape {
    pub fn new() -> RunningTape {
        RunningTape { phase: Phase::AtRest, total: 0, count: 0, reach: [0; 2], fonts: [0; 2] }
    }

    pub fn start(&mut self, machine: u32) -> [usize; 3] {
        let Some(effects) = effects_of(machine) else {
            return refused((50, 0));
        };
        let reached = Reached { machine: Machine::new(effects), stage: Stage::BeforeInitialize };
        *self = RunningTape { phase: Phase::Open(reached), ..RunningTape::new() };
        accepted(0)
    }

    pub fn feed(&mut self, piece: &[u8], out: &mut [u8]) -> [usize; 3] {
        let reached = match self.phase {
            Phase::AtRest => return refused((13, 0)),
            Phase::Failed(refusal) => return refused(refusal),
            Phase::Open(reached) => reached,
        };
        if piece.len() > 1_048_576 - self.total {
            return self.fail((1, 0));
        }
        let next = match scan(reached, piece) {
            Ok(next) => next,
            Err((number, index)) => return self.fail((number, self.total + index)),
        };
        let needed = 11 * next.count + 3 * next.cuts;
        if out.len() < needed {
            return refused((12, needed));
        }
        let Machine { effects, modes, .. } = reached.machine;
        write_fields(effects, modes, reached.machine.body(), piece, &mut out[..needed]);
        self.look_at(&out[..needed]);
        self.phase = Phase::Open(next.reached);
        self.total += piece.len();
        self.count += next.count;
        accepted(needed)
    }

    pub fn close(&mut self, out: &mut [u8]) -> [usize; 3] {
        match self.phase {
            Phase::AtRest => refused((13, 0)),
            Phase::Failed(refusal) => refused(refusal),
            Phase::Open(Reached { stage: Stage::AfterCut, .. }) => self.fail((10, self.total)),
            Phase::Open(Reached { stage: Stage::AfterStop, .. }) if out.len() < 7 => refused((12, 7)),
            Phase::Open(Reached { stage: Stage::AfterStop, .. }) => {
                write_end(out, self.count);
                self.phase = Phase::AtRest;
                accepted(7)
            }
            Phase::Open(_) => self.fail((9, self.total)),
        }
    }

    pub fn extents(&self) -> ([i32; 2], [u64; 2]) {
        (self.reach, self.fonts)
    }

    /// Takes the extents of fields.
    fn look_at(&mut self, fields: &[u8]) {
        let ([mut x, mut height], mut fonts) = (self.reach, self.fonts);
        let mut rest = fields;
        while let [tag, _, _, after @ ..] = rest {
            rest = after;
            if *tag == 7 {
                let (body, after) = rest.split_first_chunk().unwrap();
                let body = u64::from_be_bytes(*body);
                x = x.max(i32::from((body >> 48) as i16));
                height = height.max((body >> 16) as i32);
                let font = (body >> 8) as u8;
                fonts[usize::from(font >> 6)] |= 1 << (font & 63);
                rest = after;
            }
        }
        (self.reach, self.fonts) = ([x, height], fonts);
    }

    fn fail(&mut self, refusal: (usize, usize)) -> [usize; 3] {
        self.phase = Phase::Failed(refusal);
        refused(refusal)
    }
}

/// Runs the machine over a piece: what it sets, or a refusal's number and its place in the piece.
fn scan(from: Reached, piece: &[u8]) -> Result<Piece, (usize, usize)> {
    let Reached { mut machine, mut stage } = from;
    let (mut index, mut count, mut cuts) = (0, 0, 0);
    loop {
        if stage == Stage::Working {
            let (codes, flashes) = machine.take_common(&piece[index..], &mut |_, _| ());
            index += codes;
            count += flashes;
            match piece.get(index) {
                None => break,
                Some(0x49) => stage = Stage::AfterStop,
                Some(0x4B) => {
                    machine.cut();
                    cuts += 1;
                    stage = Stage::AfterCut;
                }
                Some(&code) => match machine.refusal(code) {
                    Some(number) => return Err((number, index)),
                    None => machine.leave_switch(),
                },
            }
            index += 1;
            continue;
        }
        let number = match stage {
            Stage::BeforeInitialize => 3,
            Stage::AfterCut => 10,
            _ => 4,
        };
        match next_code(piece, index) {
            None => break,
            // Initialize is the first of the codes that are taken then.
            Some((0x40, place)) if stage != Stage::AfterStop => {
                index = place;
                stage = Stage::Working;
            }
            Some((code, place)) => return Err((other_code(machine.effects, code, number), place)),
        }
    }
    Ok(Piece { reached: Reached { machine, stage }, count, cuts })
}
