//! Lines: bodies against what the lines say of actions, and a tally of the lines that were made.

use crate::gen::Rng;
use crate::line_gen;
use crate::lines::{self, MOST};
use crate::oracle;
use crate::protocol::Request;
use crate::tell;

/// What was found to agree.
#[derive(Default)]
struct Agreed {
    bodies: u64,
    actions: u64,
    met: u64,
    /// With 32, 33, 34.
    refused: [u64; 3],
}

impl std::fmt::Display for Agreed {
    fn fmt(&self, f: &mut std::fmt::Formatter) -> std::fmt::Result {
        let Agreed { bodies, actions, met, refused } = self;
        let [unreadable, above, many] = refused;
        write!(f, "{bodies} lines, {actions} actions agree with what they say ({met} meet them); ")?;
        write!(f, "refused as they should be: 32:{unreadable} 33:{above} 34:{many}")
    }
}

/// How many numbers and words a line has, and whether a number is not below A.
fn counted(actions: u8, line: &[u8]) -> (usize, bool) {
    let words: Vec<&[u8]> = lines::pieces(line).into_iter().filter(|&piece| piece != b"(" && piece != b")").collect();
    // without leading zeros the longer number is the higher one
    let limit = actions.to_string();
    let high = |word: &&&[u8]| word[0].is_ascii_digit() && (word.len(), **word) >= (limit.len(), limit.as_bytes());
    (words.len(), words.iter().any(|word| high(&word)))
}

impl Agreed {
    /// The body that a line becomes is accepted, has an entry for each number and word, and its last entry is met by the actions that
    /// the line says. A line is refused with the first of 32, 33 and 34 that is right.
    fn check(&mut self, actions: u8, line: &[u8]) -> Result<(), String> {
        let said = lines::said(actions, line);
        let (words, high) = counted(actions, line);
        let right = match said {
            None => 32,
            _ if high => 33,
            _ if words > MOST => 34,
            _ => 0,
        };
        let body = match lines::body(actions, line) {
            Err((number, 0)) if number == right => {
                self.refused[usize::from(number) - 32] += 1;
                return Ok(());
            }
            Ok(body) if right == 0 => body,
            other => return Err(format!("gives {other:?}, where {right} is right")),
        };
        let plan = [1, actions, 0, 0];
        let p = oracle::read_parts(&plan, &body, &[1, 1, 0, 0]).map_err(|e| format!("the body {body:?} was refused {e:?}"))?;
        let last = oracle::masks(&p).pop();
        if last != said || usize::from(body[0]) != words {
            return Err(format!("the body {body:?} is met by {last:?}, and the line says {said:?} in {words} words"));
        }
        self.bodies += 1;
        self.actions += u64::from(actions);
        self.met += said.into_iter().flatten().map(|w| u64::from(w.count_ones())).sum::<u64>();
        Ok(())
    }
}

/// Every row of up to seven of these pieces, with a space between any two.
fn exhaustive() -> Result<Agreed, String> {
    const PIECES: [&[u8]; 7] = [b"2", b"true", b"not", b"and", b"or", b"(", b")"];
    let mut agreed = Agreed::default();
    for n in 0..8 {
        for row in 0..7usize.pow(n) {
            let pieces: Vec<&[u8]> = (0..n).map(|k| PIECES[row / 7usize.pow(k) % 7]).collect();
            let line = pieces.join(&b' ');
            agreed.check(4, &line).map_err(|e| format!("line {:?}: {e}", String::from_utf8_lossy(&line)))?;
        }
    }
    Ok(agreed)
}

fn random(seed: u64, count: u64) -> Result<Agreed, String> {
    let mut agreed = Agreed::default();
    for i in 0..count {
        let (actions, line) = line_gen::any(&mut Rng::new(seed ^ 0x11e5, i));
        let told = |e| format!("seed {seed}, line {i}, {:?} for {actions} actions: {e}", String::from_utf8_lossy(&line));
        agreed.check(actions, &line).map_err(told)?;
    }
    Ok(agreed)
}

pub fn selfcheck(seed: u64, count: u64) -> i32 {
    tell([(format!("seed {seed}"), random(seed, count)), ("seven words and parentheses at most".into(), exhaustive())])
}

/// What was made of lines, for `compare`.
#[derive(Default)]
pub struct Tally {
    bodies: u64,
    /// With parentheses, and both "and" and "or".
    mixed: u64,
    full: u64,
    /// Readable, and one entry too many.
    over: u64,
    deepest: usize,
    longest: usize,
}

impl Tally {
    pub fn count(&mut self, r: &Request) {
        let Request::Line { actions, line, .. } = r else { return };
        self.longest = self.longest.max(line.len());
        let found = lines::body(*actions, line);
        let pieces = lines::pieces(line);
        if found == Err((34, 0)) {
            self.over += u64::from(counted(*actions, line).0 == MOST + 1);
        }
        let Ok(body) = found else { return };
        let has = |word: &[u8]| pieces.contains(&word);
        self.bodies += 1;
        self.mixed += u64::from(has(b"(") && has(b"and") && has(b"or"));
        self.full += u64::from(usize::from(body[0]) == MOST);
        let mut depth = 0;
        for piece in pieces {
            match piece {
                b"(" => depth += 1,
                b")" => depth -= 1,
                _ => {}
            }
            self.deepest = self.deepest.max(depth);
        }
    }
}

impl std::fmt::Display for Tally {
    fn fmt(&self, f: &mut std::fmt::Formatter) -> std::fmt::Result {
        let Tally { bodies, mixed, full, over, deepest, longest } = self;
        writeln!(f, "lines that become bodies: {bodies}, {mixed} of them with parentheses, \"and\" and \"or\", {full} of 32 entries;")?;
        write!(f, "  {over} one entry too long; parentheses up to {deepest} deep; the longest line has {longest} bytes")
    }
}
