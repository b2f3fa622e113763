//! Plans from .aut files: bodies against a second reading of the text, plans that are printed and read back, and a tally of the texts
//! that were made.

use crate::aut::{self, LABELS, STATES, TRANSITIONS};
use crate::aut_gen::{self, Line, Parts};
use crate::gen::{self, Rng};
use crate::oracle;
use crate::protocol::Request;
use crate::tell;
use std::collections::{BTreeMap, BTreeSet};

/// A readable text, cut at its line feeds, quote marks and commas; numbers as their digits.
struct Cut<'a> {
    first: &'a [u8],
    stated: &'a [u8],
    states: &'a [u8],
    /// From, label, to.
    lines: Vec<[&'a [u8]; 3]>,
}

fn decimal(piece: &[u8]) -> Option<&[u8]> {
    let digits = !piece.is_empty() && piece.iter().all(u8::is_ascii_digit);
    (digits && (piece[0] != b'0' || piece == b"0")).then_some(piece)
}

/// Without a space in front.
fn unspaced(piece: &[u8]) -> &[u8] {
    piece.strip_prefix(b" ").unwrap_or(piece)
}

fn cut_line(line: &[u8]) -> Option<[&[u8]; 3]> {
    let pieces: Vec<&[u8]> = line.split(|&c| c == b'"').collect();
    let [before, label, behind] = pieces[..] else { return None };
    let from = before.strip_suffix(b" ").unwrap_or(before).strip_prefix(b"(")?.strip_suffix(b",")?;
    let to = unspaced(behind.strip_prefix(b",")?).strip_suffix(b")")?;
    Some([decimal(from)?, label, decimal(to)?])
}

fn cut(text: &[u8]) -> Option<Cut<'_>> {
    let mut lines = text.strip_suffix(b"\n")?.split(|&c| c == b'\n');
    let head = unspaced(lines.next()?.strip_prefix(b"des")?).strip_prefix(b"(")?.strip_suffix(b")")?;
    let pieces: Vec<&[u8]> = head.split(|&c| c == b',').collect();
    let [first, stated, states] = pieces[..] else { return None };
    Some(Cut {
        first: decimal(first)?,
        stated: decimal(unspaced(stated))?,
        states: decimal(unspaced(states))?,
        lines: lines.map(cut_line).collect::<Option<_>>()?,
    })
}

/// Whether a number is below another, with zeros in front of the shorter one.
fn below(a: &[u8], b: &[u8]) -> bool {
    let width = a.len().max(b.len());
    let filled = |digits: &[u8]| [&vec![b'0'; width - digits.len()], digits].concat();
    filled(a) < filled(b)
}

impl<'a> Cut<'a> {
    fn labels(&self) -> Vec<&'a [u8]> {
        let mut known: Vec<&[u8]> = Vec::new();
        for [_, label, _] in &self.lines {
            if !known.contains(label) {
                known.push(label);
            }
        }
        known
    }

    fn different(&self) -> BTreeSet<[&'a [u8]; 3]> {
        self.lines.iter().copied().collect()
    }
}

/// What a text should become, or the number that it should be refused with.
fn right(text: &[u8]) -> Result<Vec<u8>, u8> {
    let cut = cut(text).filter(|c| c.first == b"0" && c.stated == c.lines.len().to_string().as_bytes()).ok_or(37)?;
    let mut states = cut.lines.iter().flat_map(|[from, _, to]| [from, to]).chain([&cut.first]);
    if states.any(|state| !below(state, cut.states)) {
        return Err(38);
    }
    let (labels, different) = (cut.labels(), cut.different());
    if below(b"128", cut.states) || labels.len() > LABELS || different.len() > TRANSITIONS {
        return Err(39);
    }
    let value = |digits: &[u8]| digits.iter().fold(0, |n, c| 10 * n + (c - b'0'));
    let action = |label: &[u8]| labels.iter().position(|&known| known == label).unwrap_or(255) as u8;
    let mut transitions: Vec<[u8; 3]> = different.iter().map(|[from, label, to]| [value(from), action(label), value(to)]).collect();
    transitions.sort();
    let [low, high] = (transitions.len() as u16).to_le_bytes();
    Ok([&[value(cut.states), labels.len() as u8, low, high][..], &transitions.concat()].concat())
}

/// What was found to agree.
#[derive(Default)]
struct Agreed {
    plans: u64,
    lines: u64,
    transitions: u64,
    /// With 37, 38, 39.
    refused: [u64; 3],
}

impl std::fmt::Display for Agreed {
    fn fmt(&self, f: &mut std::fmt::Formatter) -> std::fmt::Result {
        let Agreed { plans, lines, transitions, refused: [unreadable, outside, large] } = self;
        write!(f, "{plans} texts become the right plans, {lines} lines {transitions} transitions; ")?;
        write!(f, "refused as they should be: 37:{unreadable} 38:{outside} 39:{large}")
    }
}

impl Agreed {
    /// The body that a text becomes is that of the second reading, and the plan reader accepts it; an output that is long enough has it in
    /// front and is else as it was, and a shorter one is refused with 22 and left alone. Any other text is refused as it should be.
    fn check(&mut self, text: &[u8]) -> Result<(), String> {
        let (found, right) = (aut::body(text), right(text));
        let body = match (&found, &right) {
            (Err((number, 0)), Err(wanted)) if number == wanted => {
                let mut out = [7; 3];
                if aut::read(text, &mut out) != Err((*number, 0)) || out != [7; 3] {
                    return Err("another refusal, or a changed output, where the output is short".into());
                }
                self.refused[usize::from(number - 37)] += 1;
                return Ok(());
            }
            (Ok(body), Ok(wanted)) if body == wanted => body,
            _ => return Err(format!("gives {found:?}, where {right:?} is right")),
        };
        let p = oracle::read_parts(body, &[0], &[1, 1, 0, 0]).map_err(|e| format!("the body {body:?} was refused {e:?}"))?;
        let n = body.len();
        for length in [n - 1, n, n + 3] {
            let mut out = vec![7; length];
            let good = match aut::read(text, &mut out) {
                Ok(written) => length >= n && written == n && out[..n] == body[..] && out[n..].iter().all(|&v| v == 7),
                refusal => length < n && refusal == Err((22, 0)) && out.iter().all(|&v| v == 7),
            };
            if !good {
                return Err(format!("an output of {length} bytes for {n}"));
            }
        }
        self.plans += 1;
        self.lines += text.iter().filter(|&&c| c == b'\n').count() as u64 - 1;
        self.transitions += p.transitions.len() as u64 / 3;
        Ok(())
    }
}

fn shown(text: &[u8]) -> String {
    format!("{:?}", String::from_utf8_lossy(text))
}

fn random(seed: u64, count: u64) -> Result<Agreed, String> {
    let mut agreed = Agreed::default();
    for i in 0..count {
        let text = aut_gen::any(&mut Rng::new(seed ^ 0xa07, i));
        agreed.check(&text).map_err(|e| format!("seed {seed}, text {i}, {}: {e}", shown(&text)))?;
    }
    Ok(agreed)
}

/// Plans printed as texts, which become these plans again: a line for each action first, so that labels get the actions' numbers, then
/// the others in any order, some of them again and again.
fn printed(seed: u64, count: u64) -> Result<Agreed, String> {
    let mut agreed = Agreed::default();
    for i in 0..count {
        let mut r = Rng::new(seed ^ 0x9a1d, i);
        let z = gen::any_size(&mut r);
        let mut plan = gen::valid(&mut r, z);
        // the actions that have a transition, numbered afresh
        let used: BTreeSet<u8> = plan.transitions.iter().map(|t| t[1]).collect();
        let numbers: BTreeMap<u8, u8> = used.into_iter().zip(0..).collect();
        plan.transitions.iter_mut().for_each(|t| t[1] = numbers[&t[1]]);
        plan.actions = numbers.len() as u8;
        let mut lines = plan.transitions.clone();
        r.shuffle(&mut lines);
        let firsts: Vec<usize> = (0..plan.actions).filter_map(|a| lines.iter().position(|t| t[1] == a)).collect();
        let firsts: Vec<[u8; 3]> = firsts.into_iter().map(|k| lines[k]).collect();
        if !lines.is_empty() {
            (0..r.below(20)).for_each(|_| lines.insert(r.below(lines.len()), r.pick(&lines)));
        }
        let labels = aut_gen::labels(&mut r, numbers.len(), lines.len() < 100);
        let line = |t: &[u8; 3]| Line { from: t[0].to_string(), label: labels[usize::from(t[1])].clone(), to: t[2].to_string() };
        let lines = firsts.iter().chain(&lines).map(line).collect();
        let text = aut_gen::spelt(&mut r, 50, &Parts { first: "0".into(), stated: None, states: plan.states.to_string(), lines });
        let told = |e: String| format!("seed {seed}, plan {i}, {}: {e}", shown(&text));
        let body = gen::plan_body(&plan);
        if aut::body(&text) != Ok(body.clone()) {
            return Err(told(format!("does not become {body:?} again")));
        }
        agreed.check(&text).map_err(told)?;
    }
    Ok(agreed)
}

/// Every text that is made from a small one by a byte put in, taken out or put in the place of another; by any byte, and then by two of
/// some.
fn edited() -> Result<Agreed, String> {
    const SOME: &[u8] = b" (),\"\n012de";
    const TEXTS: [&[u8]; 2] = [b"des (0, 1, 2)\n(0, \"a\", 1)\n", b"des(0,2,2)\n(1,\"\",1)\n(0,\"\",1)\n"];
    fn edits(text: &[u8], bytes: &[u8]) -> Vec<Vec<u8>> {
        let mut out = Vec::new();
        for at in 0..=text.len() {
            let (before, behind) = text.split_at(at);
            let rest = behind.get(1..);
            out.extend(rest.map(|rest| [before, rest].concat()));
            for byte in bytes {
                out.push([before, &[*byte], behind].concat());
                out.extend(rest.map(|rest| [before, &[*byte], rest].concat()));
            }
        }
        out
    }
    let every: Vec<u8> = (0..=255).collect();
    let mut agreed = Agreed::default();
    for text in TEXTS {
        let some = edits(text, SOME);
        let twice = some.iter().flat_map(|text| edits(text, SOME));
        for text in edits(text, &every).into_iter().chain(twice) {
            agreed.check(&text).map_err(|e| format!("{}: {e}", shown(&text)))?;
        }
    }
    Ok(agreed)
}

/// Every list of up to three lines with the states 0 to 2 and two labels, for every number of states up to 3 and of lines up to 4.
fn exhaustive() -> Result<Agreed, String> {
    let mut agreed = Agreed::default();
    for n in 0..4 {
        for list in 0..18usize.pow(n) {
            let line = |k: u32| {
                let v = list / 18usize.pow(k) % 18;
                format!("({},\"{}\", {})\n", v / 6, ["b", "a"][v % 2], v / 2 % 3)
            };
            let lines: String = (0..n).map(line).collect();
            for (states, stated) in (0..20).map(|k| (k % 4, k / 4)) {
                let text = format!("des (0,{stated}, {states})\n{lines}");
                agreed.check(text.as_bytes()).map_err(|e| format!("{text:?}: {e}"))?;
            }
        }
    }
    Ok(agreed)
}

pub fn selfcheck(seed: u64, count: u64) -> i32 {
    tell([
        (format!("seed {seed}"), random(seed, count)),
        ("plans printed and read back".into(), printed(seed, count)),
        ("two edits of small texts".into(), edited()),
        ("three lines at most".into(), exhaustive()),
    ])
}

/// What was made of texts, for `compare`.
#[derive(Default)]
pub struct Tally {
    plans: u64,
    /// With lines that say the same.
    merged: u64,
    /// As many states, labels, transitions as there may be; one more of them.
    full: [u64; 3],
    over: [u64; 3],
    /// Readable, with a number that 64 bits do not hold: refused with 37, 38, 39.
    digits: [u64; 3],
    longest: usize,
}

impl Tally {
    pub fn count(&mut self, r: &Request) {
        let Request::Aut { text, .. } = r else { return };
        self.longest = self.longest.max(text.len());
        let Some(cut) = cut(text) else { return };
        let states = std::str::from_utf8(cut.states).ok().and_then(|digits| digits.parse().ok()).unwrap_or(usize::MAX);
        let sizes = [states, cut.labels().len(), cut.different().len()];
        let limits = [STATES, LABELS, TRANSITIONS];
        let numbers = cut.lines.iter().flat_map(|[from, _, to]| [*from, *to]).chain([cut.first, cut.stated, cut.states]);
        let long = numbers.into_iter().any(|digits| below(b"18446744073709551615", digits));
        match aut::body(text) {
            Ok(_) => {
                self.plans += 1;
                self.merged += u64::from(sizes[2] < cut.lines.len());
                (0..3).for_each(|k| self.full[k] += u64::from(sizes[k] == limits[k]));
            }
            Err((number, _)) => {
                if number == 39 {
                    (0..3).for_each(|k| self.over[k] += u64::from(sizes[k] == limits[k] + 1));
                }
                self.digits[usize::from(number - 37)] += u64::from(long);
            }
        }
    }
}

impl std::fmt::Display for Tally {
    fn fmt(&self, f: &mut std::fmt::Formatter) -> std::fmt::Result {
        let Tally { plans, merged, full: [a, b, c], over: [d, e, g], digits: [unreadable, outside, large], longest } = self;
        writeln!(f, "texts that become plans: {plans}, {merged} of them with equal lines;")?;
        writeln!(f, "  {a} of 128 states, {b} of 255 labels, {c} of 2,048 transitions; one too many of these, refused with 39: {d}, {e}, {g};")?;
        write!(f, "  with numbers over 64 bits 37:{unreadable} 38:{outside} 39:{large}; the longest text has {longest} bytes")
    }
}
