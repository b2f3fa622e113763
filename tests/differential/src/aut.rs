//! Request (h) of document 02, written from the document. One pass over the text of an .aut file, with a hash table of its labels; each
//! transition becomes one number, and these are sorted at the end, so that equal ones stand together.

use crate::oracle::Refusal;
use std::collections::HashMap;
use std::hash::{BuildHasherDefault, Hasher};

const UNREADABLE: Refusal = (37, 0);
const NO_SUCH_STATE: Refusal = (38, 0);
const TOO_LARGE: Refusal = (39, 0);
const OUTPUT_SHORT: Refusal = (22, 0);

/// How many states, labels and transitions a plan may have.
pub const STATES: usize = 128;
pub const LABELS: usize = 255;
pub const TRANSITIONS: usize = 2048;

/// The longest body.
pub const ROOM: usize = 4 + 3 * TRANSITIONS;

/// A number of any length, compared field by field: where two values are the same and not the highest, the numbers are, and of two
/// numbers that 64 bits do not hold the longer one is the higher one, since they have no leading zeros.
#[derive(Clone, Copy, PartialEq, PartialOrd)]
struct Number<'a> {
    /// The value, or the highest of 64 bits.
    value: u64,
    length: usize,
    digits: &'a [u8],
}

/// What is left of a text. What is not as it should be gives None.
struct Rest<'a>(&'a [u8]);

impl<'a> Rest<'a> {
    fn expect(&mut self, byte: u8) -> Option<()> {
        let (&first, rest) = self.0.split_first()?;
        self.0 = rest;
        (first == byte).then_some(())
    }

    /// A space, which may be missing.
    fn space(&mut self) {
        if let [b' ', rest @ ..] = self.0 {
            self.0 = rest;
        }
    }

    /// A number, and the byte behind it.
    fn number(&mut self, end: u8) -> Option<Number<'a>> {
        let mut value = 0u64;
        let mut length = 0;
        loop {
            match *self.0.get(length)? {
                digit @ b'0'..=b'9' => value = value.saturating_mul(10).saturating_add(u64::from(digit - b'0')),
                byte if byte == end => break,
                _ => return None,
            }
            length += 1;
        }
        let (digits, rest) = self.0.split_at(length);
        self.0 = &rest[1..];
        let leading_zero = length > 1 && digits[0] == b'0';
        (length > 0 && !leading_zero).then_some(Number { value, length, digits })
    }

    fn label(&mut self) -> Option<&'a [u8]> {
        self.expect(b'"')?;
        let length = self.0.iter().position(|&c| c == b'"' || c == b'\n')?;
        let (label, rest) = self.0.split_at(length);
        self.0 = rest;
        self.expect(b'"')?;
        Some(label)
    }

    /// The first line: the first state, the number of transitions, the number of states.
    fn head(&mut self) -> Option<[Number<'a>; 3]> {
        self.0 = self.0.strip_prefix(b"des")?;
        self.space();
        self.expect(b'(')?;
        let first = self.number(b',')?;
        self.space();
        let transitions = self.number(b',')?;
        self.space();
        let states = self.number(b')')?;
        self.expect(b'\n')?;
        Some([first, transitions, states])
    }

    /// Any other line: the state that its transition leaves, its label, the state that it leads to.
    fn line(&mut self) -> Option<(Number<'a>, &'a [u8], Number<'a>)> {
        self.expect(b'(')?;
        let from = self.number(b',')?;
        self.space();
        let label = self.label()?;
        self.expect(b',')?;
        self.space();
        let to = self.number(b')')?;
        self.expect(b'\n')?;
        Some((from, label, to))
    }
}

/// A hash by eight bytes at a step. The one that a HashMap brings along withstands keys that are chosen to collide, and would take
/// nearly a third of the time; here at most 256 labels are kept.
#[derive(Default)]
struct Hash(u64);

impl Hasher for Hash {
    fn write(&mut self, bytes: &[u8]) {
        let (words, last) = bytes.as_chunks();
        words.iter().for_each(|&word| self.write_u64(u64::from_le_bytes(word)));
        self.write_u64(last.iter().fold(0, |word, &byte| word << 8 | u64::from(byte)));
    }

    fn write_u64(&mut self, word: u64) {
        self.0 = (self.0 ^ word).wrapping_mul(0x9e37_79b9_7f4a_7c15).rotate_left(32);
    }

    fn write_usize(&mut self, word: usize) {
        self.write_u64(word as u64);
    }

    fn finish(&self) -> u64 {
        self.0
    }
}

/// The kind 1 body that a text becomes.
pub fn body(text: &[u8]) -> Result<Vec<u8>, Refusal> {
    let mut rest = Rest(text);
    let [first, stated, states] = rest.head().ok_or(UNREADABLE)?;
    let mut lines = 0;
    let mut outside = first >= states;
    // labels and transitions are gathered only while the text may become a plan
    let mut large = states.value > STATES as u64;
    let mut labels: HashMap<&[u8], u32, BuildHasherDefault<Hash>> = HashMap::default();
    let mut transitions = Vec::with_capacity(stated.value.min(TRANSITIONS as u64) as usize);
    while !rest.0.is_empty() {
        let (from, label, to) = rest.line().ok_or(UNREADABLE)?;
        lines += 1;
        outside |= from >= states || to >= states;
        if !outside && !large {
            let next = labels.len() as u32;
            let action = *labels.entry(label).or_insert(next);
            transitions.push((from.value as u32) << 16 | action << 8 | to.value as u32);
            large = labels.len() > LABELS;
        }
    }
    if stated.value != lines || first.value != 0 {
        return Err(UNREADABLE);
    }
    if outside {
        return Err(NO_SUCH_STATE);
    }
    transitions.sort_unstable();
    transitions.dedup();
    if large || transitions.len() > TRANSITIONS {
        return Err(TOO_LARGE);
    }
    let mut body = Vec::with_capacity(4 + 3 * transitions.len());
    body.extend([states.value as u8, labels.len() as u8]);
    body.extend((transitions.len() as u16).to_le_bytes());
    for t in transitions {
        body.extend(&t.to_be_bytes()[1..]);
    }
    Ok(body)
}

pub fn read(text: &[u8], out: &mut [u8]) -> Result<usize, Refusal> {
    let body = body(text)?;
    if out.len() < body.len() {
        return Err(OUTPUT_SHORT);
    }
    out[..body.len()].copy_from_slice(&body);
    Ok(body.len())
}
