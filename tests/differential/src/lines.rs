//! Request (e) of document 02, written from the document. One pass over the bytes of a line, with a stack of what is still open:
//! operators that wait for their right operand, and parentheses. Beside it stands what a line says of actions, by the grammar and with
//! no body made of it.

use crate::oracle::{self, Mask, Refusal};

const UNREADABLE: Refusal = (32, 0);
const NO_SUCH_ACTION: Refusal = (33, 0);
const TOO_MANY: Refusal = (34, 0);
const OUTPUT_SHORT: Refusal = (22, 0);

/// How many entries a body may have.
pub const MOST: usize = 32;

const FALSE: u8 = 0;
const TRUE: u8 = 1;
const ACTION: u8 = 2;
/// Operators bind the tighter the higher their kind.
const OR: u8 = 3;
const AND: u8 = 4;
const NOT: u8 = 5;
/// A parenthesis, on the stack of what is open: looser than every operator.
const OPEN: u8 = 0;

/// A body as far as it is made.
struct Making {
    body: Vec<u8>,
    entries: usize,
    /// The kind of each operator that waits, with its left operand's last entry; parentheses.
    open: Vec<(u8, u8)>,
    /// Whether an operand has to come next.
    wanted: bool,
    /// Whether a number was not below A.
    above: bool,
}

impl Making {
    /// An entry; only counted where there is no room for it.
    fn put(&mut self, kind: u8, x: u8, y: u8) {
        if self.entries < MOST {
            self.body.extend([kind, x, y]);
        }
        self.entries += 1;
    }

    /// The number of the latest entry, where there is room for the next.
    fn latest(&self) -> u8 {
        (self.entries - 1) as u8
    }

    /// Puts down the operators on top of the stack that bind at least as tight as one; their right operand's last entry is the latest.
    fn settle(&mut self, tight: u8) {
        while let Some(&(kind, left)) = self.open.last().filter(|waiting| waiting.0 >= tight) {
            self.open.pop();
            if kind == NOT {
                self.put(NOT, self.latest(), 0);
            } else {
                self.put(kind, left, self.latest());
            }
        }
    }

    fn operand(&mut self, kind: u8, x: u8) {
        self.put(kind, x, 0);
        self.wanted = false;
    }

    /// "or", "and": what binds at least as tight on its left is its left operand.
    fn join(&mut self, kind: u8) {
        self.settle(kind);
        self.open.push((kind, self.latest()));
        self.wanted = true;
    }

    /// Letters and digits as far as they touch.
    fn word(&mut self, word: &[u8], actions: u8) -> Result<(), Refusal> {
        match (word, self.wanted) {
            (b"not", true) => self.open.push((NOT, 0)),
            (b"true", true) => self.operand(TRUE, 0),
            (b"false", true) => self.operand(FALSE, 0),
            (b"and", false) => self.join(AND),
            (b"or", false) => self.join(OR),
            (_, true) => {
                let n = number(word).ok_or(UNREADABLE)?;
                self.above |= n >= usize::from(actions);
                self.operand(ACTION, n as u8);
            }
            _ => return Err(UNREADABLE),
        }
        Ok(())
    }
}

/// A decimal number without leading zeros, or its first four digits: they are over every action.
fn number(word: &[u8]) -> Option<usize> {
    let decimal = word.iter().all(u8::is_ascii_digit) && (word[0] != b'0' || word.len() == 1);
    decimal.then(|| word.iter().take(4).fold(0, |n, c| 10 * n + usize::from(c - b'0')))
}

/// The kind 2 body that a line becomes.
pub fn body(actions: u8, line: &[u8]) -> Result<Vec<u8>, Refusal> {
    let mut m = Making { body: Vec::with_capacity(1 + 3 * MOST), entries: 0, open: Vec::with_capacity(MOST), wanted: true, above: false };
    m.body.push(0);
    let mut at = 0;
    while at < line.len() {
        let from = at;
        at += 1;
        match line[from] {
            b' ' => {}
            b'(' if m.wanted => m.open.push((OPEN, 0)),
            b')' if !m.wanted => {
                m.settle(OR);
                m.open.pop().ok_or(UNREADABLE)?;
            }
            b'0'..=b'9' | b'a'..=b'z' => {
                while at < line.len() && line[at].is_ascii_alphanumeric() {
                    at += 1;
                }
                m.word(&line[from..at], actions)?;
            }
            _ => return Err(UNREADABLE),
        }
    }
    if m.wanted {
        return Err(UNREADABLE);
    }
    m.settle(OR);
    if !m.open.is_empty() {
        return Err(UNREADABLE);
    }
    if m.above {
        return Err(NO_SUCH_ACTION);
    }
    if m.entries > MOST {
        return Err(TOO_MANY);
    }
    m.body[0] = m.entries as u8;
    Ok(m.body)
}

pub fn read(actions: u8, line: &[u8], out: &mut [u8]) -> Result<usize, Refusal> {
    let body = body(actions, line)?;
    if out.len() < body.len() {
        return Err(OUTPUT_SHORT);
    }
    out[..body.len()].copy_from_slice(&body);
    Ok(body.len())
}

/// A line in pieces without its spaces: letters and digits that touch together, every other byte alone.
pub fn pieces(line: &[u8]) -> Vec<&[u8]> {
    line.chunk_by(|a, b| a.is_ascii_alphanumeric() && b.is_ascii_alphanumeric()).filter(|&piece| piece != b" ").collect()
}

/// What is left of a line's pieces, while its meaning is worked out.
struct Meaning<'a> {
    rest: &'a [&'a [u8]],
    all: Mask,
}

impl Meaning<'_> {
    fn take(&mut self, piece: &[u8]) -> bool {
        let taken = self.rest.first() == Some(&piece);
        self.rest = &self.rest[usize::from(taken)..];
        taken
    }

    fn sum(&mut self) -> Option<Mask> {
        let mut found = self.product()?;
        while self.take(b"or") {
            let other = self.product()?;
            found.iter_mut().zip(other).for_each(|(a, b)| *a |= b);
        }
        Some(found)
    }

    fn product(&mut self) -> Option<Mask> {
        let mut found = self.factor()?;
        while self.take(b"and") {
            let other = self.factor()?;
            found.iter_mut().zip(other).for_each(|(a, b)| *a &= b);
        }
        Some(found)
    }

    fn factor(&mut self) -> Option<Mask> {
        let (&piece, rest) = self.rest.split_first()?;
        self.rest = rest;
        match piece {
            b"true" => Some(self.all),
            b"false" => Some([0; 4]),
            b"not" => {
                let other = self.factor()?;
                Some([0, 1, 2, 3].map(|w| self.all[w] & !other[w]))
            }
            b"(" => {
                let found = self.sum()?;
                self.take(b")").then_some(found)
            }
            _ => {
                let decimal = piece.iter().all(u8::is_ascii_digit) && (piece[0] != b'0' || piece == b"0");
                // what is too long to be parsed is no action
                let n: usize = decimal.then(|| std::str::from_utf8(piece).ok()?.parse().ok().or(Some(usize::MAX)))??;
                let mut found = [0; 4];
                if n < 256 {
                    found[n / 64] = self.all[n / 64] & 1 << (n % 64);
                }
                Some(found)
            }
        }
    }
}

/// The actions below A for which a line holds, by the grammar; None where it has no reading. It calls itself as deep as the line nests.
pub fn said(actions: u8, line: &[u8]) -> Option<Mask> {
    let pieces = pieces(line);
    let mut m = Meaning { rest: &pieces, all: oracle::below(actions.into()) };
    let found = m.sum()?;
    m.rest.is_empty().then_some(found)
}
