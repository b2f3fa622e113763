//! Requests for patterns, made from a seed.

use crate::gen::{self, Parts, Rng};
use crate::oracle;
use crate::patterns::{self, Part, Pattern};
use crate::protocol::Request;

/// How a pattern is made, in percent: a repetition; of the others a choice; a pair that leans to one side.
#[derive(Clone, Copy)]
struct Taste {
    repetition: usize,
    choice: usize,
    leaning: usize,
}

fn taste(r: &mut Rng) -> Taste {
    Taste { repetition: r.pick(&[0, 15, 30, 50]), choice: r.pick(&[0, 20, 50, 90]), leaning: r.pick(&[0, 50, 100]) }
}

fn action(r: &mut Rng, entries: usize) -> [u8; 2] {
    [0, r.below(entries) as u8]
}

/// A pattern of so many actions and operators, or one less.
fn part(r: &mut Rng, t: Taste, entries: usize, items: usize, out: &mut Vec<u8>) {
    if items < 2 {
        out.extend(action(r, entries));
    } else if items == 2 || r.chance(t.repetition) {
        out.push(3);
        part(r, t, entries, items - 1, out);
    } else {
        out.push(if r.chance(t.choice) { 2 } else { 1 });
        let first = if r.chance(t.leaning) { r.pick(&[1, items - 2]) } else { r.range(1, items - 2) };
        part(r, t, entries, first, out);
        part(r, t, entries, items - 1 - first, out);
    }
}

/// A well-formed pattern with its leading byte.
pub fn pattern(r: &mut Rng, entries: usize, items: usize) -> Vec<u8> {
    let t = taste(r);
    let mut out = vec![r.below(2) as u8];
    part(r, t, entries, items, &mut out);
    out
}

/// The nodes and the binders of a pattern before something of so many.
pub fn size(r: &Pattern, follows: (u64, u64)) -> (u64, u64) {
    fn sum(a: (u64, u64), b: (u64, u64)) -> (u64, u64) {
        (a.0.saturating_add(b.0), a.1.saturating_add(b.1))
    }
    fn part(r: &Pattern, at: usize, follows: (u64, u64)) -> (u64, u64) {
        match r.part(at) {
            Part::Action(_) => sum((1, 0), follows),
            Part::Sequence(first, second) => part(r, first, part(r, second, follows)),
            Part::Choice(first, second) => sum((1, 0), sum(part(r, first, follows), part(r, second, follows))),
            Part::Repetition(inner) => sum((2, 1), sum(follows, part(r, inner, (1, 0)))),
        }
    }
    part(r, 0, follows)
}

/// How many copies a pattern makes of what follows it.
pub fn copies(r: &Pattern) -> u64 {
    size(r, (2, 0)).0 - size(r, (1, 0)).0
}

/// Adds to a pattern, in front, what makes so many nodes and binders with the rule, where it makes fewer: "any number of times an
/// action, then" is four nodes and a binder, "an action, then" is one node.
pub fn pad(r: &mut Rng, p: &oracle::Parts, b: &mut Vec<u8>, nodes: u64, binders: u64) {
    let entries = p.entries.len() / 3;
    let Some((_, read)) = patterns::read(b, entries) else { return };
    let (mut n, mut k) = size(&read, (p.node_count() as u64, p.binders as u64));
    let mut front = Vec::new();
    while k < binders && n + 4 <= nodes {
        front.extend([1, 3]);
        front.extend(action(r, entries));
        (n, k) = (n + 4, k + 1);
    }
    while n < nodes {
        front.push(1);
        front.extend(action(r, entries));
        n += 1;
    }
    b.splice(1..1, front);
}

/// A pattern about the limits of 64 nodes and 6 binders.
fn about_limits(r: &mut Rng, p: &oracle::Parts) -> Vec<u8> {
    let items = r.range(1, 16);
    let mut b = pattern(r, p.entries.len() / 3, items);
    if r.chance(40) {
        // as deep as binders allow
        b.splice(1..1, vec![3; r.range(1, 7)]);
    }
    let (nodes, binders) = (r.pick(&[60, 63, 64, 64, 65, 66]), r.pick(&[0, 0, 5, 6, 6, 7]));
    pad(r, p, &mut b, nodes, binders);
    b
}

/// Patterns longer than any that is translated, well formed or nearly so.
fn long(r: &mut Rng, entries: usize) -> Vec<u8> {
    let most = r.pick(&[300, 3000, 3000, 65_000]);
    let mut b = vec![r.below(2) as u8];
    let leaf = action(r, entries);
    match r.below(5) {
        0 => b.extend(vec![3; most]),
        1 => {
            b.extend(vec![3; most - 3]);
            b.extend(leaf);
        }
        2 => {
            // one action too few, enough, one too many
            let n = most / 3 - 1;
            b.extend(vec![1 + r.below(2) as u8; n]);
            (0..n + r.below(3)).for_each(|_| b.extend(leaf));
        }
        3 => {
            // choices in sequence, nested to the right or to the left
            let n = r.pick(&[6, 7, 14, 30, 40, 62, most / 6 - 1]);
            let choice = [2, 0, leaf[1], 0, leaf[1]];
            if r.chance(50) {
                (1..n).for_each(|_| b.extend([&[1][..], &choice].concat()));
                b.extend(choice);
            } else {
                b.extend(vec![1; n - 1]);
                (0..n).for_each(|_| b.extend(choice));
            }
        }
        _ => {
            let n = r.below(most);
            b.extend(gen::noise(r, n).iter().map(|v| v % 4));
        }
    }
    b
}

fn damage(r: &mut Rng, b: &mut Vec<u8>, entries: usize) {
    let at = r.below(b.len());
    match r.below(9) {
        0 => b[0] = gen::odd(r, b[0]),
        1 | 2 => b[at] = gen::odd(r, b[at]),
        3 => {
            b.remove(at);
        }
        4 => {
            let v = r.pick(&[0, 1, 2, 3, 3, 4, entries as u8]);
            b.insert(at, v);
        }
        5 => b.truncate(at),
        6 => b.extend(action(r, entries.max(1))),
        7 => {
            let n = r.range(1, 3);
            let more = gen::noise(r, n);
            b.extend(more);
        }
        _ => {
            // an entry about the count
            let v = r.pick(&[entries, entries, entries + 1, 255]) as u8;
            if let Some(i) = (1..b.len().saturating_sub(1)).filter(|&i| b[i] == 0).nth(at % 3) {
                b[i + 1] = v;
            }
        }
    }
}

/// A sheet whose rule is small more often than not, so that patterns with it are translated.
pub fn small(r: &mut Rng) -> Parts {
    let mut z = gen::any_size(r);
    z.states = r.range(1, 6);
    z.transitions = z.transitions.min(4 * z.states);
    z.nodes = r.pick(&[1, 1, 1, 2, 3, 5, 8, 12, 20, 40, 64]);
    z.binders = z.binders.min(r.pick(&[0, 1, 2, 3, 6]));
    z.entries = z.entries.max(r.pick(&[0, 1, 1, 3, 3]));
    gen::valid(r, z)
}

pub fn request(r: &mut Rng) -> Request {
    let sheet = if r.chance(90) { small(r).sheet() } else { gen::sheet(r, 50) };
    let read = oracle::read(&sheet);
    let entries = read.as_ref().map_or(3, |s| s.parts.entries.len() / 3);
    let items = match r.below(10) {
        0..=5 => r.range(1, 6),
        6..=8 => r.range(3, 16),
        _ => r.range(1, 60),
    };
    let mut pattern = match (&read, r.below(100)) {
        (_, 0) => vec![],
        (_, 1..=4) => long(r, entries),
        (_, 5..=7) => {
            let n = r.range(1, 20);
            gen::noise(r, n)
        }
        (Ok(s), 8..=37) => about_limits(r, &s.parts),
        _ => pattern(r, entries, items),
    };
    if !pattern.is_empty() && r.chance(25) {
        (0..r.pick(&[1, 1, 2])).for_each(|_| {
            if !pattern.is_empty() {
                damage(r, &mut pattern, entries)
            }
        });
    }
    let exact = read.ok().and_then(|s| patterns::body(&s.parts, &pattern).ok()).map_or(20, |b| b.len());
    Request::Pattern { out_len: gen::buffer_len(r, exact) as u16, sheet, pattern, fill: r.byte() }
}

/// Where the part of a pattern ends that starts at `at`; its length if it is cut short.
fn part_end(b: &[u8], mut at: usize) -> usize {
    let mut due = 1;
    while due > 0 && at < b.len() {
        (due, at) = match b[at] {
            0 => (due - 1, at + 2),
            1 | 2 => (due + 1, at + 1),
            _ => (due, at + 1),
        };
    }
    at.min(b.len())
}

/// Smaller patterns: a part in place of one that it is in, or an action; those of fewest bytes first.
pub fn smaller(b: &[u8]) -> Vec<Vec<u8>> {
    let mut out = Vec::new();
    let mut at = 1;
    while at < b.len() && out.len() < 300 {
        let end = part_end(b, at);
        let mut put = |part: &[u8]| {
            let whole = [&b[..at], part, &b[end..]].concat();
            if whole.len() < b.len() {
                out.push(whole);
            }
        };
        put(&[0, 0]);
        if b[at] > 0 {
            let middle = part_end(b, at + 1);
            put(&b[at + 1..middle]);
            put(&b[middle..end.max(middle)]);
        }
        at += if b[at] == 0 { 2 } else { 1 };
    }
    out.sort_by_key(Vec::len);
    out
}
