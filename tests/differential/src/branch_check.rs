//! Parked branches: proposals and new sheets against a second reading, chains of branches, and a tally of the branches that were made.

use crate::branch_gen;
use crate::branches::{self, Branch, Proposal, TRANSITIONS};
use crate::gen::{self, Loops, Parts, Rng};
use crate::oracle::{self, Refusal};
use crate::protocol::Request;
use crate::tell;
use std::collections::BTreeSet;

/// The tag in wider numbers: the multiplier is 2 to the 24, 2 to the 8 and 147.
fn wide_tag(bytes: &[u8]) -> u32 {
    let mut tag: u64 = 2_166_136_261;
    for &byte in bytes {
        tag ^= u64::from(byte);
        tag = ((tag << 24) + (tag << 8) + 147 * tag) % (1 << 32);
    }
    tag as u32
}

fn known_tags() -> Result<(), String> {
    const KNOWN: [(&[u8], u32); 3] = [(b"", 2_166_136_261), (b"a", 3_826_002_220), (b"foobar", 3_214_735_720)];
    for (bytes, right) in KNOWN {
        let found = [branches::tag(bytes), wide_tag(bytes)];
        if found != [right; 2] {
            return Err(format!("the tags of {bytes:?} are {found:?}, where {right} is right"));
        }
    }
    Ok(())
}

fn split3(b: &[u8]) -> Vec<[u8; 3]> {
    b.as_chunks().0.to_vec()
}

/// The set of transitions with the branch, as a sheet, and what is proposed for it; loops by Table 1.
fn right(sheet: &[u8], branch: Branch) -> Result<(Vec<u8>, Proposal), Refusal> {
    let p = oracle::read(sheet)?.parts;
    let mut transitions: BTreeSet<Branch> = split3(p.transitions).into_iter().collect();
    let limits = [p.states, p.actions, p.states];
    let in_range = (0..3).all(|k| usize::from(branch[k]) < limits[k]);
    if !in_range || !transitions.insert(branch) || transitions.len() > TRANSITIONS {
        return Err((40, 0));
    }
    let place = transitions.iter().position(|&t| t == branch).expect("the branch among them") as u16;
    let transitions = transitions.into_iter().collect();
    let (states, actions) = (p.states as u8, p.actions as u8);
    let new = Parts { states, actions, transitions, entries: split3(p.entries), nodes: split3(p.nodes) }.sheet();
    if oracle::loop_reachable_states(&oracle::read(&new)?.parts) & 1 == 1 {
        return Err((12, 0));
    }
    let length = new.len() as u16;
    Ok((new, Proposal { place, length, tag: wide_tag(sheet) }))
}

/// What was found to agree.
#[derive(Default)]
struct Agreed {
    taken: u64,
    /// Of those, with a loop that state 0 does not lead to.
    loops: u64,
    /// With 1 to 10, 40, 12.
    refused: [u64; 3],
}

impl std::fmt::Display for Agreed {
    fn fmt(&self, f: &mut std::fmt::Formatter) -> std::fmt::Result {
        let Agreed { taken, loops, refused: [sheets, no_branch, looping] } = self;
        write!(f, "{taken} branches become the right sheets, {loops} of them beside a loop; ")?;
        write!(f, "refused as they should be: 1 to 10:{sheets} 40:{no_branch} 12:{looping}")
    }
}

impl Agreed {
    /// A branch is proposed as the second reading has it, and committed with that it gives the sheet of that reading, which the reader
    /// accepts, and in which all but the branch is as before; bytes past it are as they were. Committed with a part of the proposal off it
    /// is refused with 41, and with a short output with 22, in that order; the branch is there already in the new sheet. What a sheet does
    /// not take is refused by both calls alike, whatever the output. A refused call leaves the output as it was.
    fn check(&mut self, sheet: &[u8], branch: Branch) -> Result<Option<Vec<u8>>, String> {
        let (found, right) = (branches::propose(sheet, branch), right(sheet, branch));
        let refused_by = |proposal: Proposal, length: usize, number: Refusal| {
            let mut out = vec![7; length];
            match branches::commit(sheet, branch, proposal, &mut out) {
                Err(found) if found == number && out.iter().all(|&v| v == 7) => Ok(()),
                other => Err(format!("{proposal:?} with an output of {length} bytes gives {other:?}, where {number:?} is right")),
            }
        };
        let (new, fresh) = match (found, right) {
            (Err(found), Err(right)) if found == right => {
                let likely = branch_gen::likely(sheet, branch);
                refused_by(likely, sheet.len() + 3, right)?;
                refused_by(likely, 0, right)?;
                refused_by(Proposal { place: 0, length: 0, tag: 0 }, sheet.len() + 9, right)?;
                self.refused[match right.0 {
                    40 => 1,
                    12 => 2,
                    _ => 0,
                }] += 1;
                return Ok(None);
            }
            (Ok(found), Ok((new, right))) if found == right => (new, right),
            (found, right) => return Err(format!("gives {found:?}, where {right:?} is right")),
        };
        let n = new.len();
        for length in [n, n + 3] {
            let mut out = vec![7; length];
            let found = branches::commit(sheet, branch, fresh, &mut out);
            if found != Ok(n) || out[..n] != new[..] || out[n..].iter().any(|&v| v != 7) {
                return Err(format!("{found:?} and {out:?} in an output of {length} bytes, where {new:?} is right"));
            }
        }
        refused_by(fresh, n - 1, (22, 0))?;
        let Proposal { place, length, tag } = fresh;
        let differing = [
            Proposal { place: place.wrapping_add(1), ..fresh },
            Proposal { place: place.wrapping_sub(1), ..fresh },
            Proposal { length: length + 1, ..fresh },
            Proposal { length: length - 1, ..fresh },
            Proposal { tag: tag ^ 1, ..fresh },
            Proposal { tag: tag ^ 1 << 31, ..fresh },
        ];
        for other in differing {
            refused_by(other, n, (41, 0))?;
            refused_by(other, 0, (41, 0))?;
        }
        let (before, after) = match (oracle::read(sheet), oracle::read(&new)) {
            (Ok(before), Ok(after)) => (before.parts, after.parts),
            (_, after) => return Err(format!("the new sheet was refused {:?}", after.err())),
        };
        let (others, mut rows) = (split3(before.transitions), split3(after.transitions));
        let looping = oracle::loop_reachable_states(&after) != 0;
        let at = rows.remove(usize::from(place));
        let [was, is] = [before, after].map(|p| (p.states, p.actions, p.entries, p.nodes));
        if at != branch || rows != others || was != is {
            return Err(format!("the new sheet {new:?} has other parts"));
        }
        if branches::propose(&new, branch) != Err((40, 0)) {
            return Err("the branch is taken twice".into());
        }
        self.taken += 1;
        self.loops += u64::from(looping);
        Ok(Some(new))
    }
}

fn told(sheet: &[u8], branch: Branch, e: String) -> String {
    format!("sheet {sheet:?}, branch {branch:?}: {e}")
}

fn random(seed: u64, count: u64) -> Result<Agreed, String> {
    known_tags()?;
    let mut agreed = Agreed::default();
    for i in 0..count {
        let (sheet, branch) = branch_gen::any(&mut Rng::new(seed ^ 0xb4a, i));
        agreed.check(&sheet, branch).map_err(|e| format!("seed {seed}, branch {i}, {}", told(&sheet, branch, e)))?;
    }
    Ok(agreed)
}

/// Plans that are built from none of their transitions, one branch after the other in any order, and become these plans.
fn chained(seed: u64, count: u64) -> Result<Agreed, String> {
    let mut agreed = Agreed::default();
    for i in 0..count {
        let mut r = Rng::new(seed ^ 0xc4a1, i);
        let mut size = gen::any_size(&mut r);
        size.transitions = size.transitions.min(40);
        size.loops = r.pick(&[Loops::Nowhere, Loops::Part]);
        let mut plan = gen::valid(&mut r, size);
        let whole = plan.sheet();
        let p = oracle::read(&whole).map_err(|e| format!("seed {seed}, plan {i}: a valid sheet was refused {e:?}"))?.parts;
        if oracle::loop_reachable_states(&p) & 1 == 1 {
            continue;
        }
        let mut branches = std::mem::take(&mut plan.transitions);
        r.shuffle(&mut branches);
        let mut sheet = plan.sheet();
        for branch in branches {
            let found = agreed.check(&sheet, branch).map_err(|e| format!("seed {seed}, plan {i}, {}", told(&sheet, branch, e)))?;
            sheet = found.ok_or_else(|| format!("seed {seed}, plan {i}, {}", told(&sheet, branch, "refused".into())))?;
        }
        if sheet != whole {
            return Err(format!("seed {seed}, plan {i}: {sheet:?}, where {whole:?} is right"));
        }
    }
    Ok(agreed)
}

/// Every plan of so many states and actions, with every branch whose numbers are at most one too high.
fn exhaustive(states: u8, actions: u8) -> Result<Agreed, String> {
    let mut agreed = Agreed::default();
    let numbers = |states: u8, actions: u8| {
        (0..states).flat_map(move |from| (0..actions).flat_map(move |action| (0..states).map(move |to| [from, action, to])))
    };
    let every: Vec<Branch> = numbers(states, actions).collect();
    for chosen in 0..1u32 << every.len() {
        let transitions = every.iter().enumerate().filter(|(k, _)| chosen >> k & 1 == 1).map(|(_, &t)| t).collect();
        let sheet = Parts { states, actions, transitions, entries: vec![], nodes: vec![[1, 0, 0]] }.sheet();
        for branch in numbers(states + 1, actions + 1) {
            agreed.check(&sheet, branch).map_err(|e| told(&sheet, branch, e))?;
        }
    }
    Ok(agreed)
}

pub fn selfcheck(seed: u64, count: u64) -> i32 {
    tell([
        (format!("seed {seed}"), random(seed, count)),
        ("plans built branch by branch".into(), chained(seed, count / 10)),
        ("plans of three states and one action".into(), exhaustive(3, 1)),
        ("plans of two states and two actions".into(), exhaustive(2, 2)),
    ])
}

/// What was made of branches, for `compare`.
#[derive(Default)]
pub struct Tally {
    /// Proposed, committed.
    taken: [u64; 2],
    /// The branch at the front, at the end, behind 255 transitions and more; the last that there may be.
    at: [u64; 4],
    /// Beside a loop that state 0 does not lead to.
    beside: u64,
    /// Refused with 40: out of range, present, beyond 2,048.
    no_branch: [u64; 3],
    /// Refused with 12: by an old loop, by one that the branch closes or leads to.
    looping: [u64; 2],
    /// Refused with 41: place, length, tag, more than one of them.
    differing: [u64; 4],
    short: u64,
}

impl Tally {
    pub fn count(&mut self, r: &Request) {
        let (sheet, branch, given) = match r {
            Request::Propose { sheet, branch } => (sheet, *branch, None),
            Request::Commit { sheet, branch, proposal, out_len, .. } => (sheet, *branch, Some((*proposal, usize::from(*out_len)))),
            _ => return,
        };
        let Ok(ok) = oracle::read(sheet) else { return };
        let p = &ok.parts;
        let count = p.transitions.len() / 3;
        let fresh = match branches::propose(sheet, branch) {
            Ok(fresh) => fresh,
            Err((12, _)) => {
                self.looping[usize::from(oracle::loop_reachable_states(p) & 1 == 0)] += 1;
                return;
            }
            Err(_) => {
                let present = split3(p.transitions).contains(&branch);
                let limits = [p.states, p.actions, p.states];
                let in_range = (0..3).all(|k| usize::from(branch[k]) < limits[k]);
                self.no_branch[if !in_range { 0 } else { 2 - usize::from(present) }] += 1;
                return;
            }
        };
        if let Some((proposal, length)) = given {
            let off = [proposal.place != fresh.place, proposal.length != fresh.length, proposal.tag != fresh.tag];
            match (off.iter().filter(|&&part| part).count(), off.iter().position(|&part| part)) {
                (1, Some(part)) => self.differing[part] += 1,
                (_, Some(_)) => self.differing[3] += 1,
                _ if length < usize::from(fresh.length) => self.short += 1,
                _ => self.taken[1] += 1,
            }
        } else {
            self.taken[0] += 1;
        }
        let place = usize::from(fresh.place);
        for (slot, here) in self.at.iter_mut().zip([place == 0, place == count, place > 255, count + 1 == TRANSITIONS]) {
            *slot += u64::from(here);
        }
        self.beside += u64::from(oracle::loop_reachable_states(p) != 0);
    }
}

impl std::fmt::Display for Tally {
    fn fmt(&self, f: &mut std::fmt::Formatter) -> std::fmt::Result {
        let Tally { taken: [a, b], at: [front, end, far, last], beside, no_branch, looping, differing, short } = self;
        writeln!(f, "branches proposed: {a}, added: {b}; {front} at the front, {end} at the end, {far} behind more than 255 transitions,")?;
        writeln!(f, "  {last} the last that there may be, {beside} beside a loop that state 0 does not lead to;")?;
        let [range, present, full] = no_branch;
        write!(f, "  40: out of range {range}, present {present}, beyond 2,048 {full}; ")?;
        writeln!(f, "12: by an old loop {}, by a new one {};", looping[0], looping[1])?;
        let [place, length, tag, more] = differing;
        write!(f, "  41: by the place {place}, the length {length}, the tag {tag}, several {more}; 22: {short}")
    }
}
