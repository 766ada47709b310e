//! The text of directed cases: lines, words and values, as tests/vectors/README.md describes them.

use std::collections::BTreeMap;
use std::str::FromStr;

/// A case as it is written.
pub struct Line<'a> {
    pub operation: &'a str,
    pub inputs: Words<'a>,
    /// Number, place, length.
    pub answer: [usize; 3],
    pub outputs: Words<'a>,
}

impl<'a> Line<'a> {
    /// A line's case; a comment and an empty line have none.
    pub fn read(line: &'a str) -> Result<Option<Line<'a>>, String> {
        if line.starts_with('#') || line.trim().is_empty() {
            return Ok(None);
        }
        let (before, after) = line.split_once(" -> ").ok_or("there is no ` -> `")?;
        let (mut before, mut after) = (before.split_whitespace(), after.split_whitespace());
        let operation = before.next().ok_or("there is no operation")?;
        let mut answer = [0; 3];
        for part in &mut answer {
            *part = number(after.next().ok_or("number, place and length are wanted after `->`")?)?;
        }
        Ok(Some(Line { operation, inputs: Words::read(before)?, answer, outputs: Words::read(after)? }))
    }
}

/// Words `name=value`. Each is taken once, and none may be left.
pub struct Words<'a>(BTreeMap<&'a str, &'a str>);

impl<'a> Words<'a> {
    fn read(words: impl Iterator<Item = &'a str>) -> Result<Words<'a>, String> {
        let mut named = BTreeMap::new();
        for word in words {
            let (name, value) = word.split_once('=').ok_or_else(|| format!("`{word}` is no name=value"))?;
            if named.insert(name, value).is_some() {
                return Err(format!("`{name}` stands twice"));
            }
        }
        Ok(Words(named))
    }

    /// The value of a name that must be there, read by `read`.
    pub fn take<T>(&mut self, name: &str, read: fn(&str) -> Result<T, String>) -> Result<T, String> {
        self.find(name, read)?.ok_or_else(|| format!("`{name}` is missing"))
    }

    /// The value of a name that may be left out.
    pub fn find<T>(&mut self, name: &str, read: fn(&str) -> Result<T, String>) -> Result<Option<T>, String> {
        let value = self.0.remove(name).map(read).transpose();
        value.map_err(|error| format!("`{name}`: {error}"))
    }

    pub fn none_left(&self) -> Result<(), String> {
        match self.0.keys().next() {
            Some(name) => Err(format!("`{name}` has no meaning there")),
            None => Ok(()),
        }
    }
}

/// A decimal number.
pub fn number<T: FromStr>(text: &str) -> Result<T, String> {
    text.parse().map_err(|_| format!("`{text}` is no number, or out of range"))
}

/// Numbers with commas between them; `n*count` is a number so many times.
pub fn numbers<T: FromStr + Clone>(text: &str) -> Result<Vec<T>, String> {
    let mut numbers = Vec::new();
    if text.is_empty() {
        return Ok(numbers);
    }
    for part in text.split(',') {
        let (value, count) = part.split_once('*').unwrap_or((part, "1"));
        let (value, count): (T, usize) = (number(value)?, number(count)?);
        in_reach(count.saturating_add(numbers.len()))?;
        numbers.extend(vec![value; count]);
    }
    Ok(numbers)
}

/// Bytes of two upper-case hexadecimal digits, with or without `_` between them. `*count` after a byte or after
/// bytes in brackets repeats them; after a count comes `_`, or a bracket or the text ends.
pub fn bytes(text: &str) -> Result<Vec<u8>, String> {
    let mut rest = text;
    let bytes = if text.is_empty() { vec![] } else { run(&mut rest)? };
    match rest {
        "" => Ok(bytes),
        _ => Err(unexpected(rest)),
    }
}

/// The bytes up to the end of the text or of a bracket.
fn run(rest: &mut &str) -> Result<Vec<u8>, String> {
    let mut bytes = Vec::new();
    loop {
        let part = part(rest)?;
        let counted = rest.starts_with('*');
        let count = if counted { count(rest)? } else { 1 };
        in_reach(part.len().saturating_mul(count).saturating_add(bytes.len()))?;
        bytes.extend(part.repeat(count));
        match rest.bytes().next() {
            None | Some(b')') => return Ok(bytes),
            Some(b'_') => *rest = &rest[1..],
            Some(_) if counted => return Err(format!("`_` is wanted before `{rest}`")),
            Some(_) => {}
        }
    }
}

/// A byte, or bytes in brackets.
fn part(rest: &mut &str) -> Result<Vec<u8>, String> {
    if let Some(inside) = rest.strip_prefix('(') {
        *rest = inside;
        let bytes = run(rest)?;
        *rest = rest.strip_prefix(')').ok_or("a bracket is not closed")?;
        return Ok(bytes);
    }
    let digits =
        rest.get(..2).filter(|digits| digits.bytes().all(is_digit)).ok_or_else(|| unexpected(rest))?;
    *rest = &rest[2..];
    Ok(vec![u8::from_str_radix(digits, 16).unwrap()])
}

fn is_digit(byte: u8) -> bool {
    matches!(byte, b'0'..=b'9' | b'A'..=b'F')
}

/// The number after `*`.
fn count(rest: &mut &str) -> Result<usize, String> {
    let after = &rest[1..];
    let end = after.find(|c: char| !c.is_ascii_digit()).unwrap_or(after.len());
    *rest = &after[end..];
    number(&after[..end])
}

/// No value is longer than this, so that a slip in a count is told before memory runs out.
fn in_reach(length: usize) -> Result<(), String> {
    const MOST: usize = 1 << 27;
    if length > MOST {
        return Err(format!("longer than {MOST}"));
    }
    Ok(())
}

fn unexpected(rest: &str) -> String {
    format!("two hexadecimal digits are wanted at `{rest}`")
}

#[test]
fn bytes_are_written_short() {
    for (text, expected) in [
        ("", &[][..]),
        ("40EF", &[0x40, 0xEF]),
        ("40_EF", &[0x40, 0xEF]),
        ("01*3", &[1, 1, 1]),
        ("0102*3_04", &[1, 2, 2, 2, 4]),
        ("(0102)*2_(03)", &[1, 2, 1, 2, 3]),
        ("((01)*2_02)*2", &[1, 1, 2, 1, 1, 2]),
    ] {
        assert_eq!(bytes(text).as_deref(), Ok(expected), "{text}");
    }
    for text in
        ["4", "ef", "+1", "_40", "40_", "40__EF", "40*", "40*2EF", "(40", "40)", "()", "00*134217729", "é"]
    {
        assert!(bytes(text).is_err(), "{text}");
    }
    assert_eq!(numbers("-1,3*2,7"), Ok(vec![-1, 3, 3, 7]));
    assert_eq!(numbers::<i32>(""), Ok(vec![]));
}
