//! A tape to a galley. What a code does stands in tables, so that the loops take any mix of codes without a
//! branch that is hard to foresee.

use super::{accepted, refused};

pub fn read_tape(tape: &[u8], machine: u32, galley: &mut [u8]) -> [usize; 3] {
    match scan(tape, machine, |_, _| ()) {
        Err(refusal) => refused(refusal),
        Ok(codes) => {
            let effects = codes.effects;
            let needed = 11 * codes.count + 3 * codes.cuts + 7;
            if galley.len() < needed {
                return refused((12, needed));
            }
            let (fields, end) = galley[..needed].split_at_mut(needed - 7);
            write_fields(effects, first_modes(effects), BODY_PARKED, &tape[codes.start..codes.stop], fields);
            write_end(end, codes.count);
            accepted(needed)
        }
    }
}

/// What the codes of the machine with so many fonts do.
pub(super) fn effects_of(machine: u32) -> Option<&'static Effects> {
    match machine {
        4 => Some(&EFFECTS_OF_FOUR),
        8 => Some(&EFFECTS_OF_EIGHT),
        _ => None,
    }
}

/// The machine's modes in one word: size index and font less 1 in the low seven bits, then these.
const DOUBLE: u32 = 1 << 7;
const SIZED: u32 = 1 << 8;
const LOWER_HALF: u32 = 1 << 9;
const UNPARKED: u32 = 1 << 10;
const ESCAPE_BACKWARD: u32 = 1 << 11;
pub const LEAD_BACKWARD: u32 = 1 << 12;
/// Never set: codes that need one of them take the slow way.
const NEVER: u32 = 1 << 13;
const ILLEGAL: u32 = 1 << 14;

/// Parts of the font of the 8-font machine, and of the 4-font machine.
const TILT_DOWN: u32 = 1 << 4;
const UPPER_RAIL: u32 = 2 << 4;
const UPPER_MAG: u32 = 4 << 4;
const UPPER_RAIL_OF_FOUR: u32 = 1 << 4;
const UPPER_MAG_OF_FOUR: u32 = 2 << 4;
const SIZE: u32 = 15 | DOUBLE | SIZED;

/// What a code does to the modes, and which modes it needs.
#[derive(Clone, Copy)]
pub(super) struct Effect {
    keep: u32,
    set: u32,
    need: u32,
}

pub(super) type Effects = [Effect; 256];
static EFFECTS_OF_EIGHT: Effects = effects(8);
static EFFECTS_OF_FOUR: Effects = effects(4);

const fn effects(machine: u32) -> Effects {
    let mut effects = [needs(0); 256];
    let mut code = 0;
    while code < 256 {
        effects[code] = if machine == 8 { effect(code as u8) } else { effect_of_four(code as u8) };
        code += 1;
    }
    effects
}

/// On the 4-font machine: what differs from the 8-font machine.
const fn effect_of_four(code: u8) -> Effect {
    match code {
        0x40 => Effect { keep: SIZE, set: LOWER_HALF, need: 0 },
        0x41 => clears(UPPER_RAIL_OF_FOUR),
        0x42 => sets(UPPER_RAIL_OF_FOUR),
        0x43 => sets(UPPER_MAG_OF_FOUR),
        0x44 => clears(UPPER_MAG_OF_FOUR),
        0x4E | 0x4F => needs(ILLEGAL),
        _ => effect(code),
    }
}

/// On the 8-font machine.
const fn effect(code: u8) -> Effect {
    match code {
        0x01..=0x2D => needs(UNPARKED | SIZED),
        0x2E..=0x3F => needs(UNPARKED | SIZED | LOWER_HALF),
        0x40 => Effect { keep: SIZE, set: LOWER_HALF | TILT_DOWN, need: 0 },
        0x41 => clears(UPPER_RAIL),
        0x42 => sets(UPPER_RAIL),
        0x43 => sets(UPPER_MAG),
        0x44 => clears(UPPER_MAG),
        0x45 => sets(LOWER_HALF),
        0x46 => clears(LOWER_HALF),
        0x47 => clears(ESCAPE_BACKWARD),
        0x48 => sets(ESCAPE_BACKWARD),
        0x4A => clears(LEAD_BACKWARD),
        0x4C => sets(LEAD_BACKWARD),
        0x4E => clears(TILT_DOWN),
        0x4F => sets(TILT_DOWN),
        0x50..=0x58 => Effect { keep: !SIZE, set: (code & 15) as u32 | SIZED, need: 0 },
        0x59..=0x5E => Effect { keep: !SIZE, set: (code & 15) as u32 | SIZED | DOUBLE, need: 0 },
        0x80..=0xFE => needs(UNPARKED),
        0x49 | 0x4B => needs(NEVER),
        0x4D | 0x5F | 0xFF => needs(ILLEGAL),
        0x00 | 0x60..=0x7F => needs(0),
    }
}

const fn needs(need: u32) -> Effect {
    Effect { keep: !0, set: 0, need }
}

const fn sets(set: u32) -> Effect {
    Effect { keep: !0, set, need: 0 }
}

const fn clears(cleared: u32) -> Effect {
    Effect { keep: !cleared, set: 0, need: 0 }
}

/// Height and carriage in one word: what a quantum and a unit count in it.
#[derive(Clone, Copy)]
struct Packing {
    quantum: i64,
    unit: i64,
}

impl Packing {
    const fn word(self, height: i64, carriage: i64) -> u64 {
        (height * self.quantum + carriage * self.unit) as u64
    }

    /// How each code moves, by the two directions.
    const fn steps(self) -> [[u64; 256]; 4] {
        let mut steps = [[0; 256]; 4];
        let mut code = 0x60;
        while code < 0xFF {
            let mut directions = 0;
            while directions < 4 {
                let (height, carriage) = motion(code as i64, directions);
                steps[directions][code] = self.word(height, carriage);
                directions += 1;
            }
            code += 1;
        }
        steps
    }
}

const fn motion(code: i64, directions: usize) -> (i64, i64) {
    let escape_sign = if directions & 1 == 0 { 1 } else { -1 };
    let lead_sign = if directions & 2 == 0 { 1 } else { -1 };
    if code < 0x80 {
        (lead_sign * (0x7F - code), 0)
    } else {
        (0, escape_sign * (0xFF - code))
    }
}

/// The first pass has 32 bits for each, to see them leave their ranges.
const WIDE: Packing = Packing { quantum: 1 << 32, unit: 1 };
static WIDE_STEPS: [[u64; 256]; 4] = WIDE.steps();

/// The second pass has them where they stand in a field's body.
const BODY: Packing = Packing { quantum: 1 << 16, unit: 1 << 48 };
static BODY_STEPS: [[u64; 256]; 4] = BODY.steps();

/// Added to a place, these make the top bit of a half that is beyond its range 1.
const BEYOND: u64 = WIDE.word((1 << 31) - 1_000_001, (1 << 31) - 3_240);
const TOPS: u64 = 1 << 63 | 1 << 31;

#[derive(Clone, Copy)]
pub(super) struct Machine {
    pub(super) effects: &'static Effects,
    pub(super) modes: u32,
    place: u64,
}

impl Machine {
    /// The machine after its first initialize.
    pub(super) fn new(effects: &'static Effects) -> Machine {
        Machine { effects, modes: first_modes(effects), place: 0 }
    }

    /// Takes codes as long as they need no second look: how many, and how many flashes among them. `each` sees
    /// the modes and the code.
    #[inline(never)]
    pub(super) fn take_common(&mut self, codes: &[u8], each: &mut impl FnMut(u32, u8)) -> (usize, usize) {
        let Machine { effects, mut modes, mut place } = *self;
        let mut count = 0;
        let mut taken = codes.len();
        for (index, &code) in codes.iter().enumerate() {
            let effect = &effects[usize::from(code)];
            let after = place.wrapping_add(WIDE_STEPS[(modes >> 11 & 3) as usize][usize::from(code)]);
            let lacking = effect.need & !modes;
            let beyond = (after | after.wrapping_add(BEYOND)) & TOPS;
            if u64::from(lacking) | beyond != 0 {
                taken = index;
                break;
            }
            each(modes, code);
            place = after;
            modes = modes & effect.keep | effect.set;
            count += usize::from(is_flash(code));
        }
        *self = Machine { effects, modes, place };
        (taken, count)
    }

    /// The height is 0 after a cut. The initialize that follows does the rest.
    pub(super) fn cut(&mut self) {
        self.place = 0;
    }

    /// Off the left switch, to 0.
    pub(super) fn leave_switch(&mut self) {
        self.modes |= UNPARKED;
        self.place &= !0xFFFF_FFFF;
    }

    /// Height and x as they stand in a field's body.
    pub(super) fn body(&self) -> u64 {
        let height = BODY.word((self.place >> 32) as i64, 0);
        if self.modes & UNPARKED == 0 {
            height.wrapping_add(BODY_PARKED)
        } else {
            height.wrapping_add(BODY.word(0, (self.place & 0xFFFF_FFFF) as i64))
        }
    }

    /// Why a code is not taken; nothing for the escape off the switch.
    #[cold]
    pub(super) fn refusal(&self, code: u8) -> Option<usize> {
        let parked = self.modes & UNPARKED == 0;
        match code {
            _ if is_illegal(self.effects, code) => Some(2),
            0xEF if parked && self.modes & ESCAPE_BACKWARD == 0 => None,
            0x01..=0x3F | 0x80..=0xFE if parked => Some(5),
            0x01..=0x3F if self.modes & SIZED == 0 => Some(6),
            0x01..=0x3F => Some(8),
            _ => Some(7),
        }
    }
}

/// The codes between the first initialize and stop, and their numbers of flashes and cuts.
pub struct Codes {
    effects: &'static Effects,
    start: usize,
    stop: usize,
    count: usize,
    cuts: usize,
}

/// The first pass; `each` sees every flash and motion that is taken, with the modes before it.
pub fn scan(tape: &[u8], machine: u32, mut each: impl FnMut(u32, u8)) -> Result<Codes, (usize, usize)> {
    if tape.len() > 1_048_576 {
        return Err((1, 0));
    }
    let effects = effects_of(machine).ok_or((50, 0))?;
    let start = match next_code(tape, 0) {
        None => return Err((9, tape.len())),
        Some((0x40, place)) => place + 1,
        Some((code, place)) => return Err((other_code(effects, code, 3), place)),
    };
    let codes = run(effects, tape, start, &mut each)?;
    match next_code(tape, codes.stop + 1) {
        None => Ok(codes),
        Some((code, place)) => Err((other_code(effects, code, 4), place)),
    }
}

/// The first code other than 00 from a place on, and its place.
pub(super) fn next_code(tape: &[u8], from: usize) -> Option<(u8, usize)> {
    let further = tape[from..].iter().position(|&code| code != 0)?;
    Some((tape[from + further], from + further))
}

/// 2 for an illegal code, else the number given.
pub(super) fn other_code(effects: &Effects, code: u8, number: usize) -> usize {
    if is_illegal(effects, code) {
        2
    } else {
        number
    }
}

fn is_illegal(effects: &Effects, code: u8) -> bool {
    effects[usize::from(code)].need == ILLEGAL
}

/// The modes after the first initialize.
fn first_modes(effects: &Effects) -> u32 {
    effects[0x40].set
}

/// The place of the initialize after a cut.
fn initialize_from(effects: &Effects, tape: &[u8], from: usize) -> Result<usize, (usize, usize)> {
    match next_code(tape, from) {
        None => Err((10, tape.len())),
        Some((0x40, place)) => Ok(place),
        Some((code, place)) => Err((other_code(effects, code, 10), place)),
    }
}

/// Runs the machine up to stop.
fn run(
    effects: &'static Effects,
    tape: &[u8],
    start: usize,
    each: &mut impl FnMut(u32, u8),
) -> Result<Codes, (usize, usize)> {
    let mut machine = Machine::new(effects);
    let (mut index, mut count, mut cuts) = (start, 0, 0);
    loop {
        let (codes, flashes) = machine.take_common(&tape[index..], each);
        index += codes;
        count += flashes;
        match tape.get(index) {
            None => return Err((9, index)),
            Some(0x49) => return Ok(Codes { effects, start, stop: index, count, cuts }),
            Some(0x4B) => {
                index = initialize_from(effects, tape, index + 1)?;
                machine.cut();
                cuts += 1;
            }
            Some(&code) => {
                if let Some(number) = machine.refusal(code) {
                    return Err((number, index));
                }
                machine.leave_switch();
                index += 1;
            }
        }
    }
}

#[inline(always)]
pub fn is_flash(code: u8) -> bool {
    code.wrapping_sub(1) < 63
}

/// Writes the fields of codes that are known to be good, from these modes and this place on. Every code but a
/// mode or a cut stores a character field; only a flash moves on. After the last flash only cuts are left.
#[inline(never)]
pub(super) fn write_fields(
    effects: &Effects,
    mut modes: u32,
    mut body: u64,
    codes: &[u8],
    fields: &mut [u8],
) {
    let last = codes.iter().rposition(|&code| is_flash(code));
    let mut setting = Setting::of(modes);
    let mut at = 0;
    for &code in &codes[..last.map_or(0, |last| last + 1)] {
        if code & 0xE0 == 0x40 {
            let effect = &effects[usize::from(code)];
            modes = modes & effect.keep | effect.set;
            setting = Setting::of(modes);
            if code == 0x40 {
                body = (body & BODY_HEIGHT).wrapping_add(BODY_PARKED);
            } else if code == 0x4B {
                fields[at..at + 3].copy_from_slice(&CUT);
                at += 3;
                body = 0;
            }
            continue;
        }
        let field = &mut fields[at..at + 11];
        let word = body.wrapping_add(setting.shift_and_font) | u64::from(code.wrapping_add(setting.half));
        field[..3].copy_from_slice(&[7, 0, 8]);
        field[3..].copy_from_slice(&word.to_be_bytes());
        at += 11 * usize::from(is_flash(code));
        body = body.wrapping_add(setting.steps[usize::from(code)]);
    }
    for cut in fields[at..].chunks_exact_mut(3) {
        cut.copy_from_slice(&CUT);
    }
}

pub(super) fn write_end(end: &mut [u8], count: usize) {
    end[..3].copy_from_slice(&[2, 0, 4]);
    end[3..7].copy_from_slice(&(count as u32).to_be_bytes());
}

/// The field of a cut.
const CUT: [u8; 3] = [6, 0, 0];

/// The height in a field's body: x is above it, font number and character below.
const BODY_HEIGHT: u64 = 0xFFFF_FFFF_0000;
/// Parked: the escape of 16 leads to 0.
const BODY_PARKED: u64 = BODY.word(0, -16);

/// The font number that the modes choose.
#[inline(always)]
pub fn font_number(modes: u32) -> u32 {
    (modes & 127) - (modes >> 4 & 7)
}

/// What the modes do to the fields.
struct Setting {
    shift_and_font: u64,
    half: u8,
    steps: &'static [u64; 256],
}

impl Setting {
    #[inline(always)]
    fn of(modes: u32) -> Setting {
        let shift = 55 * i64::from(modes >> 7 & 1);
        let font_number = font_number(modes);
        Setting {
            shift_and_font: BODY.word(0, -shift).wrapping_add(u64::from(font_number) << 8),
            half: 63 & ((modes >> 9 & 1) as u8).wrapping_sub(1),
            steps: &BODY_STEPS[(modes >> 11 & 3) as usize],
        }
    }
}
