//! Requests for parked branches, made from a seed.

use crate::branches::{self, Branch, Proposal, TRANSITIONS};
use crate::gen::{self, Loops, Rng, Size};
use crate::oracle;
use crate::protocol::Request;
use std::collections::BTreeSet;

/// A sheet with about as many transitions as there may be. They lead onward in an order of the states that begins with state 0; often the
/// last states of the order are apart, state 0 does not lead to them, and theirs lead anywhere; now and then all do.
fn crowded(r: &mut Rng) -> Vec<u8> {
    let states = r.pick(&[46, 64, 100, 127, 128, 128]);
    let actions = r.pick(&[4, 16, 254, 255]);
    let size = Size { states, actions, transitions: 0, entries: r.pick(&[0, 3, 32]), nodes: r.pick(&[1, 9, 64]), ..gen::any_size(r) };
    let mut p = gen::valid(r, size);
    let mut order: Vec<u8> = (1..states as u8).collect();
    r.shuffle(&mut order);
    order.insert(0, 0);
    // the first place that is apart
    let apart = if r.chance(60) { r.range(1, states - 1) } else { states };
    let anywhere = r.chance(10);
    let count = TRANSITIONS - r.pick(&[0, 1, 1, 1, 2, 48]);
    let mut found = BTreeSet::new();
    while found.len() < count {
        let (i, j) = (r.below(states), r.below(states));
        if anywhere || i >= apart || i < j && j < apart {
            found.insert([order[i], r.below(actions) as u8, order[j]]);
        }
    }
    p.transitions = found.into_iter().collect();
    p.sheet()
}

fn sheet(r: &mut Rng) -> Vec<u8> {
    match r.below(20) {
        0 | 1 => gen::sheet(r, 50),
        2 => crowded(r),
        _ => {
            let mut size = gen::any_size(r);
            size.loops = r.pick(&[Loops::Nowhere, Loops::Nowhere, Loops::Nowhere, Loops::Part, Loops::Part, Loops::Anywhere]);
            if r.chance(80) {
                size.actions = size.actions.max(1);
            }
            gen::valid(r, size).sheet()
        }
    }
}

/// A transition of the sheet, one about it, one out of range, one back to the start, one to itself or any other.
fn branch(r: &mut Rng, sheet: &[u8]) -> Branch {
    let Ok(ok) = oracle::read(sheet) else { return [r.below(5) as u8, r.below(5) as u8, r.below(5) as u8] };
    let p = &ok.parts;
    let limits = [p.states as u8, p.actions as u8, p.states as u8];
    let (rows, _) = p.transitions.as_chunks::<3>();
    let mut any = limits.map(|n| r.below(n.into()) as u8);
    let at = r.below(3);
    match r.below(24) {
        0 if !rows.is_empty() => any = r.pick(rows),
        1 => any[at] = r.pick(&[limits[at], limits[at], limits[at].wrapping_add(1), 255]),
        2..=8 if !rows.is_empty() => {
            any = r.pick(rows);
            any[at] = match r.below(3) {
                0 => any[at].wrapping_add(1),
                1 => any[at].wrapping_sub(1),
                _ => r.below(limits[at].into()) as u8,
            };
        }
        9 => any[2] = any[0],
        10 => any[2] = 0,
        // from a state that another leads to, to one that leads on
        11..=13 if !rows.is_empty() => {
            any[0] = r.pick(rows)[2];
            any[2] = r.pick(rows)[0];
        }
        14 => any[0] = 0,
        _ => {}
    }
    any
}

/// What would be proposed if nothing were wrong with the sheet and the branch.
pub fn likely(sheet: &[u8], branch: Branch) -> Proposal {
    let below = match oracle::contents(sheet) {
        Ok([(at, length), ..]) => sheet[at..at + length].get(4..).map_or(0, |body| body.chunks(3).filter(|row| *row < &branch[..]).count()),
        Err(_) => 0,
    };
    Proposal { place: below as u16, length: (sheet.len() as u16).wrapping_add(3), tag: branches::tag(sheet) }
}

/// A sheet and a branch, in most cases one of several that is taken, if any is.
pub fn any(r: &mut Rng) -> (Vec<u8>, Branch) {
    let sheet = sheet(r);
    let mut found = branch(r, &sheet);
    for _ in 0..r.pick(&[0, 3, 8]) {
        if branches::propose(&sheet, found).is_ok() {
            break;
        }
        found = branch(r, &sheet);
    }
    (sheet, found)
}

/// Most often as it is; else with one part off by a little, by a byte's range or in a byte, or with all parts others.
fn proposal(r: &mut Rng, right: Proposal) -> Proposal {
    let mut p = right;
    let off = |r: &mut Rng| r.pick(&[1u16, 1, 1, 1, 3, 256, 257, 0x8000]);
    match r.below(30) {
        0 | 1 => p.place = p.place.wrapping_add(off(r)),
        2 | 3 => p.place = p.place.wrapping_sub(off(r)),
        4 => p.length = p.length.wrapping_add(off(r)),
        5 => p.length = p.length.wrapping_sub(off(r)),
        6 | 7 => p.tag ^= 1 << r.below(32),
        8 => p.tag = p.tag.swap_bytes(),
        9 => p.tag = p.tag.wrapping_add(r.pick(&[1, u32::MAX, 1 << 16])),
        10 => p = Proposal { place: 0, length: 0, tag: 0 },
        11 => p = Proposal { place: p.length, length: p.place, tag: p.tag },
        12 => p = Proposal { place: r.next() as u16, length: r.next() as u16, tag: r.next() as u32 },
        _ => {}
    }
    p
}

pub fn propose(r: &mut Rng) -> Request {
    let (sheet, branch) = any(r);
    Request::Propose { sheet, branch }
}

pub fn commit(r: &mut Rng) -> Request {
    let (sheet, branch) = any(r);
    let mut right = likely(&sheet, branch);
    if r.chance(3) {
        // of another branch, or of another sheet
        let other = self::branch(r, &sheet);
        right = if r.chance(50) { likely(&sheet, other) } else { likely(&gen::sheet(r, 100), branch) };
    }
    let proposal = proposal(r, right);
    let out_len = gen::buffer_len(r, sheet.len() + 3) as u16;
    Request::Commit { sheet, branch, proposal, out_len, fill: r.byte() }
}

/// A proposal for another sheet or another branch, off by as much as this one.
pub fn moved(proposal: Proposal, was: Proposal, now: Proposal) -> Proposal {
    Proposal {
        place: now.place.wrapping_add(proposal.place.wrapping_sub(was.place)),
        length: now.length.wrapping_add(proposal.length.wrapping_sub(was.length)),
        tag: now.tag ^ proposal.tag ^ was.tag,
    }
}

/// Branches with lower numbers.
pub fn smaller(branch: Branch) -> Vec<Branch> {
    let mut out = Vec::new();
    for at in 0..3 {
        for number in [0, branch[at] / 2, branch[at].saturating_sub(1)] {
            let mut other = branch;
            other[at] = number;
            if other != branch {
                out.push(other);
            }
        }
    }
    out
}
