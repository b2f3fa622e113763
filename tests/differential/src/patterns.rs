//! Request (c) of document 02, written from the document. A pattern becomes a formula with shared parts: what a choice copies is one
//! part with two parents. Only when it is known to be small is it unfolded, and its nodes and binders numbered. Beside it stands
//! what a pattern says of runs, from the transitions alone.

use crate::oracle::{self, Parts, Refusal};

const MALFORMED: Refusal = (30, 0);
const TOO_LARGE: Refusal = (31, 0);
const OUTPUT_SHORT: Refusal = (22, 0);

/// A well-formed pattern, its actions and operators in prefix order.
pub struct Pattern(Vec<Item>);

struct Item {
    kind: u8,
    entry: u8,
    /// Where the second part starts.
    second: u32,
}

/// A part of a pattern, with the places of its own parts.
pub enum Part {
    Action(u8),
    Sequence(usize, usize),
    Choice(usize, usize),
    Repetition(usize),
}

impl Pattern {
    pub fn part(&self, at: usize) -> Part {
        let item = &self.0[at];
        match item.kind {
            0 => Part::Action(item.entry),
            1 => Part::Sequence(at + 1, item.second as usize),
            2 => Part::Choice(at + 1, item.second as usize),
            _ => Part::Repetition(at + 1),
        }
    }
}

/// Takes one part off the front; None where it is malformed or cut short.
fn take(rest: &mut &[u8], entries: usize, items: &mut Vec<Item>) -> Option<()> {
    let (&kind, others) = rest.split_first()?;
    *rest = others;
    let at = items.len();
    items.push(Item { kind, entry: 0, second: 0 });
    match kind {
        0 => {
            let (&entry, others) = rest.split_first()?;
            *rest = others;
            items[at].entry = entry;
            ((entry as usize) < entries).then_some(())
        }
        1 | 2 => {
            take(rest, entries, items)?;
            items[at].second = items.len() as u32;
            take(rest, entries, items)
        }
        3 => take(rest, entries, items),
        _ => None,
    }
}

/// Whether the bytes speak of every run, and their pattern; None where they are malformed.
pub fn read(b: &[u8], entries: usize) -> Option<(bool, Pattern)> {
    let (&lead, mut rest) = b.split_first()?;
    let mut items = Vec::with_capacity(rest.len());
    take(&mut rest, entries, &mut items)?;
    (lead < 2 && rest.is_empty()).then_some((lead == 1, Pattern(items)))
}

/// A part of a formula. It may stand below several others, and its size is that of all that hangs below it.
struct Shape {
    kind: u8,
    /// The entry of a modal node; the name of a variable or of the one that a binder binds.
    x: u32,
    below: [usize; 2],
    nodes: u32,
    binders: u32,
}

struct Formula {
    every: u8,
    shapes: Vec<Shape>,
    /// The name of the next repetition's variable; the rule's own have the names below 6.
    name: u32,
}

impl Formula {
    /// A part over others; refused where it is over the limits, since the whole then is as well.
    fn put<const N: usize>(&mut self, kind: u8, x: u32, over: [usize; N]) -> Result<usize, Refusal> {
        let mut shape = Shape { kind, x, below: [0; 2], nodes: 1, binders: u32::from(kind >= 7) };
        for (slot, part) in shape.below.iter_mut().zip(over) {
            *slot = part;
            shape.nodes += self.shapes[part].nodes;
            shape.binders += self.shapes[part].binders;
        }
        if shape.nodes > 64 || shape.binders > 6 {
            return Err(TOO_LARGE);
        }
        self.shapes.push(shape);
        Ok(self.shapes.len() - 1)
    }

    /// The rule of a sheet from node `i` on.
    fn rule(&mut self, nodes: &[u8], i: usize) -> Result<usize, Refusal> {
        let (kind, x, y) = (nodes[3 * i], nodes[3 * i + 1] as usize, nodes[3 * i + 2] as usize);
        match oracle::children(kind) {
            2 => {
                let below = [self.rule(nodes, x)?, self.rule(nodes, y)?];
                self.put(kind, 0, below)
            }
            1 => {
                let below = [self.rule(nodes, y)?];
                self.put(kind, x as u32, below)
            }
            _ => self.put(kind, x as u32, []),
        }
    }

    /// A part of the pattern before what follows it.
    fn before(&mut self, r: &Pattern, at: usize, follows: usize) -> Result<usize, Refusal> {
        let every = self.every;
        match r.part(at) {
            Part::Action(e) => self.put(4 + every, u32::from(e), [follows]),
            Part::Sequence(first, second) => {
                let rest = self.before(r, second, follows)?;
                self.before(r, first, rest)
            }
            Part::Choice(first, second) => {
                let below = [self.before(r, first, follows)?, self.before(r, second, follows)?];
                self.put(2 + every, 0, below)
            }
            Part::Repetition(part) => {
                let x = self.name;
                self.name += 1;
                let again = self.put(6, x, [])?;
                let below = [follows, self.before(r, part, again)?];
                let pair = self.put(2 + every, 0, below)?;
                self.put(7 + every, x, [pair])
            }
        }
    }

    /// The nodes of a part, in preorder, behind a count and the nodes before them; `open` has the binders above it, by name and
    /// number.
    fn unfold(&self, i: usize, open: &mut Vec<(u32, u8)>, bound: &mut u8, out: &mut Vec<u8>) {
        let shape = &self.shapes[i];
        let next = (out.len() / 3) as u8 + 1;
        match shape.kind {
            2 | 3 => {
                out.extend([shape.kind, next, 0]);
                let at = out.len() - 1;
                self.unfold(shape.below[0], open, bound, out);
                out[at] = (out.len() / 3) as u8;
                self.unfold(shape.below[1], open, bound, out);
            }
            4 | 5 => {
                out.extend([shape.kind, shape.x as u8, next]);
                self.unfold(shape.below[0], open, bound, out);
            }
            6 => {
                let binder = open.iter().rev().find(|b| b.0 == shape.x).expect("closed, as the sheet's rule is");
                out.extend([6, binder.1, 0]);
            }
            7 | 8 => {
                out.extend([shape.kind, *bound, next]);
                open.push((shape.x, *bound));
                *bound += 1;
                self.unfold(shape.below[0], open, bound, out);
                open.pop();
            }
            _ => out.extend([shape.kind, 0, 0]),
        }
    }
}

/// The rule body that a pattern becomes with the rule of a sheet where it ends.
pub fn body(p: &Parts, b: &[u8]) -> Result<Vec<u8>, Refusal> {
    let (every, r) = read(b, p.entries.len() / 3).ok_or(MALFORMED)?;
    let mut f = Formula { every: u8::from(every), shapes: Vec::with_capacity(128), name: 6 };
    let rule = f.rule(p.nodes, 0)?;
    let whole = f.before(&r, 0, rule)?;
    let count = f.shapes[whole].nodes as usize;
    let mut out = Vec::with_capacity(1 + 3 * count);
    out.push(count as u8);
    f.unfold(whole, &mut Vec::with_capacity(6), &mut 0, &mut out);
    Ok(out)
}

pub fn translate(sheet: &[u8], b: &[u8], out: &mut [u8]) -> Result<usize, Refusal> {
    let body = body(&oracle::read(sheet)?.parts, b)?;
    if out.len() < body.len() {
        return Err(OUTPUT_SHORT);
    }
    out[..body.len()].copy_from_slice(&body);
    Ok(body.len())
}

/// For each state the states where a run matching a part of the pattern ends.
fn ends(p: &Parts, masks: &[oracle::Mask], r: &Pattern, at: usize) -> Vec<u128> {
    let joined = |set: u128, to: &[u128]| (0..p.states).filter(|&s| set >> s & 1 == 1).fold(0, |u, s| u | to[s]);
    match r.part(at) {
        Part::Action(e) => {
            let mut out = vec![0u128; p.states];
            for c in p.transitions.chunks_exact(3).filter(|c| oracle::meets(&masks[e as usize], c[1])) {
                out[c[0] as usize] |= 1 << c[2];
            }
            out
        }
        Part::Sequence(first, second) => {
            let (first, second) = (ends(p, masks, r, first), ends(p, masks, r, second));
            first.iter().map(|&middle| joined(middle, &second)).collect()
        }
        Part::Choice(first, second) => {
            let (first, second) = (ends(p, masks, r, first), ends(p, masks, r, second));
            first.iter().zip(second).map(|(a, b)| a | b).collect()
        }
        Part::Repetition(part) => {
            // over one state more as a middle each time
            let mut out = ends(p, masks, r, part);
            for middle in 0..p.states {
                for s in 0..p.states {
                    if out[s] >> middle & 1 == 1 {
                        out[s] |= out[middle];
                    }
                }
            }
            out.iter().enumerate().map(|(s, set)| set | 1 << s).collect()
        }
    }
}

/// The states from which some run, or every run, matching a pattern ends in a set.
pub fn sentence(p: &Parts, every: bool, r: &Pattern, set: u128) -> u128 {
    let ends = ends(p, &oracle::masks(p), r, 0);
    let holds = |s: usize| if every { ends[s] & !set == 0 } else { ends[s] & set != 0 };
    (0..p.states).filter(|&s| holds(s)).fold(0, |u, s| u | 1 << s)
}
