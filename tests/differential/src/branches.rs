//! Request (i) of document 02, written from the document. The place of a branch is found by halving, loops by one search through the
//! transitions, and the new sheet is written in one copy.

use crate::oracle::{self, Refusal};

const NO_BRANCH: Refusal = (40, 0);
const LOOP: Refusal = (12, 0);
const OTHER_PROPOSAL: Refusal = (41, 0);
const OUTPUT_SHORT: Refusal = (22, 0);

/// How many transitions a plan may have.
pub const TRANSITIONS: usize = 2048;

/// Where the number of transitions lies, and the fields that grow with the plan: its length, the offsets of the bodies behind it.
const COUNT: usize = 19;
const GROWING: [usize; 3] = [5, 8, 13];
/// Where the transitions begin.
const FIRST: usize = 21;

/// From, action, to.
pub type Branch = [u8; 3];

#[derive(Clone, Copy, PartialEq, Eq, Debug)]
pub struct Proposal {
    pub place: u16,
    pub length: u16,
    pub tag: u32,
}

/// 32-bit FNV-1a.
pub fn tag(bytes: &[u8]) -> u32 {
    bytes.iter().fold(2_166_136_261, |tag, &byte| (tag ^ u32::from(byte)).wrapping_mul(16_777_619))
}

#[derive(Clone, Copy)]
enum Met {
    Unseen,
    Open,
    Done,
}

/// A search through the transitions and a branch, depth first. The arrays have room for every byte, so that no place in them is checked.
struct Search<'a> {
    rows: &'a [Branch],
    /// Of each state its first transition, and at the end their number.
    first: [u16; 257],
    branch: Branch,
    met: [Met; 256],
}

impl<'a> Search<'a> {
    fn new(states: usize, rows: &'a [Branch], branch: Branch) -> Search<'a> {
        // where the transitions of each state end; where there are none, as many as before
        let mut first = [0; 257];
        for (row, end) in rows.iter().zip(1..) {
            first[usize::from(row[0]) + 1] = end;
        }
        for state in 1..=states {
            first[state] = first[state].max(first[state - 1]);
        }
        Search { rows, first, branch, met: [Met::Unseen; 256] }
    }

    fn follow(&mut self, to: u8) -> bool {
        match self.met[usize::from(to)] {
            Met::Open => true,
            Met::Done => false,
            Met::Unseen => self.finds_loop(to),
        }
    }

    /// Can a loop be reached from a state? A transition to a state that is still open closes one.
    fn finds_loop(&mut self, state: u8) -> bool {
        let at = usize::from(state);
        self.met[at] = Met::Open;
        let rows = &self.rows[usize::from(self.first[at])..usize::from(self.first[at + 1])];
        if self.branch[0] == state && self.follow(self.branch[2]) || rows.iter().any(|row| self.follow(row[2])) {
            return true;
        }
        self.met[at] = Met::Done;
        false
    }
}

pub fn propose(sheet: &[u8], branch: Branch) -> Result<Proposal, Refusal> {
    let ok = oracle::read(sheet)?;
    let p = &ok.parts;
    let (rows, _) = p.transitions.as_chunks();
    let [from, action, to] = branch.map(usize::from);
    if from >= p.states || action >= p.actions || to >= p.states || rows.len() >= TRANSITIONS {
        return Err(NO_BRANCH);
    }
    let place = rows.binary_search(&branch).err().ok_or(NO_BRANCH)?;
    if Search::new(p.states, rows, branch).finds_loop(0) {
        return Err(LOOP);
    }
    Ok(Proposal { place: place as u16, length: sheet.len() as u16 + 3, tag: tag(sheet) })
}

pub fn commit(sheet: &[u8], branch: Branch, proposal: Proposal, out: &mut [u8]) -> Result<usize, Refusal> {
    let fresh = propose(sheet, branch)?;
    if proposal != fresh {
        return Err(OTHER_PROPOSAL);
    }
    let out = out.get_mut(..usize::from(fresh.length)).ok_or(OUTPUT_SHORT)?;
    let (before, behind) = sheet.split_at(FIRST + 3 * usize::from(fresh.place));
    let (start, rest) = out.split_at_mut(before.len());
    start.copy_from_slice(before);
    rest[..3].copy_from_slice(&branch);
    rest[3..].copy_from_slice(behind);
    let mut add = |at: usize, more: u16| {
        let field = u16::from_le_bytes([out[at], out[at + 1]]) + more;
        out[at..at + 2].copy_from_slice(&field.to_le_bytes());
    };
    add(COUNT, 1);
    GROWING.into_iter().for_each(|at| add(at, 3));
    Ok(out.len())
}
