//! Requests for the closest state that breaks the rule, made from a seed.

use crate::audit_gen;
use crate::closest;
use crate::gen::{self, Loops, Parts, Rng, Size};
use crate::oracle;
use crate::protocol::Request;

/// The states that ways from a state end at, itself among them.
fn reached(p: &Parts, from: u8) -> u128 {
    let mut all = 1u128 << from;
    loop {
        let leads = |c: &[u8; 3]| if all >> c[0] & 1 == 1 { 1u128 << c[2] } else { 0 };
        let more = p.transitions.iter().map(leads).fold(all, |a, b| a | b);
        if more == all {
            return all;
        }
        all = more;
    }
}

/// Exchanges the numbers of state 0 and of the state that leads to the most others and to no loop.
fn started(p: &mut Parts) {
    let sheet = p.sheet();
    let looping = oracle::read(&sheet).map_or(0, |ok| oracle::loop_reachable_states(&ok.parts));
    let free = (0..p.states).filter(|s| looping >> s & 1 == 0);
    let Some(most) = free.max_by_key(|&s| reached(p, s).count_ones()) else { return };
    let other = |s: u8| if s == 0 { most } else if s == most { 0 } else { s };
    for [from, _, to] in &mut p.transitions {
        (*from, *to) = (other(*from), other(*to));
    }
    p.transitions.sort();
}

/// A sheet like those of audits; in most of them state 0 leads to many states and to no loop, and some of these have rules of few nodes
/// that only look at what can be done next.
fn sheet(r: &mut Rng) -> Vec<u8> {
    if r.chance(10) {
        return audit_gen::sheet(r);
    }
    let any = gen::any_size(r);
    let loops = r.pick(&[Loops::Nowhere, Loops::Nowhere, Loops::Part, any.loops]);
    let size = Size {
        states: any.states.min(r.pick(&[4, 8, 20, 128])),
        actions: any.actions.max(1),
        entries: any.entries.max(1),
        loops,
        ..any
    };
    let size = if r.chance(50) { Size { nodes: any.nodes.min(6), binders: any.binders.min(1), ..size } } else { size };
    let mut p: Parts = gen::valid(r, size);
    if r.chance(15) {
        // what an action of some kind leads to, or that there is none
        let entry = r.below(p.entries.len()) as u8;
        let shapes: [&[[u8; 3]]; 4] = [
            &[[5, entry, 1], [0, 0, 0]],
            &[[4, entry, 1], [1, 0, 0]],
            &[[5, entry, 1], [4, entry, 2], [1, 0, 0]],
            &[[2, 1, 3], [4, entry, 2], [1, 0, 0], [5, entry, 4], [0, 0, 0]],
        ];
        p.nodes = r.pick(&shapes).to_vec();
    }
    if r.chance(90) {
        started(&mut p);
    }
    p.sheet()
}

/// A table just cleared, as a list leaves it, filled elsewhere, or with the roots' cells of some states filled, nearly all of them true.
fn table(r: &mut Rng, sheet: &[u8], p: &oracle::Parts) -> Vec<u8> {
    let mut cells = if r.chance(60) { vec![0; p.cells()] } else { audit_gen::cells(r, sheet, p) };
    if r.chance(20) {
        let (width, often, wrong) = (p.cells() / p.states, r.pick(&[20, 60, 100]), r.pick(&[0, 3, 20]));
        for s in 0..p.states {
            if r.chance(often) {
                cells[s * width] = if r.chance(wrong) { 1 } else { 2 };
            }
        }
    }
    cells
}

/// What a search is to find.
#[derive(Clone, Copy, PartialEq)]
enum Wanted {
    Anything,
    /// A state so many steps away, or more.
    Steps(u8),
    /// The rule holds at state 0 and at others, everywhere.
    Everywhere,
}

fn finds(wanted: Wanted, sheet: &[u8], cells: &[u8]) -> bool {
    let found = closest::closest(sheet, &mut audit_gen::counted(cells.to_vec()));
    match (wanted, found) {
        (Wanted::Anything, _) => true,
        (Wanted::Steps(least), Ok((Some((_, steps)), _))) => steps >= least,
        (Wanted::Everywhere, Ok((None, _))) => oracle::read(sheet).is_ok_and(|ok| ok.parts.transitions.first() == Some(&0)),
        _ => false,
    }
}

/// A sheet, nearly always an accepted one, and a table for it; of some, more often than not the first with which something is found that is
/// wanted.
pub fn any(r: &mut Rng) -> (Vec<u8>, Vec<u8>) {
    let wanted = match r.below(10) {
        0..=2 => Wanted::Anything,
        3 | 4 => Wanted::Everywhere,
        _ => Wanted::Steps(r.pick(&[1, 1, 2, 3])),
    };
    let (mut made, mut cells) = (vec![], vec![]);
    for _ in 0..30 {
        made = if r.chance(2) { gen::sheet(r, 0) } else { sheet(r) };
        cells = match oracle::read(&made) {
            Ok(ok) => table(r, &made, &ok.parts),
            Err(_) => vec![0; 20],
        };
        if finds(wanted, &made, &cells) {
            break;
        }
    }
    if r.chance(3) {
        made = gen::sheet(r, 0);
    }
    let n = cells.len();
    if r.chance(4) && n > 0 {
        let i = if r.chance(30) { n - 1 } else { r.below(n) };
        cells[i] = r.pick(&[3, 4, 255]);
    }
    let mut table = audit_gen::counted(cells);
    if r.chance(10) {
        let filled = oracle::stored_count(&table, n);
        table[n..].copy_from_slice(&gen::count(r, filled));
    }
    let len = if r.chance(85) { n + 4 } else { gen::table_buffer_len(r, n) };
    while table.len() < len {
        table.push(r.byte());
    }
    table.truncate(len);
    (made, table)
}

pub fn request(r: &mut Rng) -> Request {
    let (sheet, table) = any(r);
    Request::Closest { sheet, table }
}

/// The most cells that a table can have, just cleared, on the longest chain of cells: the rule holds at 128 states, or fails.
pub fn deepest(r: &mut Rng, holds: bool) -> Request {
    loop {
        let sheet = gen::deep(r, 128, 64).sheet();
        let mut table = vec![0; gen::cells(&sheet) + 4];
        let lent = table.clone();
        if closest::closest(&sheet, &mut table).is_ok_and(|(found, _)| found.is_none() == holds) {
            return Request::Closest { sheet, table: lent };
        }
    }
}
