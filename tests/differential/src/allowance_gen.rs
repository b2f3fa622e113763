//! Benches for an allowance, made from a seed.

use crate::audit_gen;
use crate::gen::{self, Rng};
use crate::oracle;
use crate::protocol::Request;

/// The bytes that a request has room for.
const ROOM: usize = 65_535;

/// Most often one of the states from which no loop can be reached; else any, or one that the plan does not have.
fn state(r: &mut Rng, p: &oracle::Parts, free: &[u8], spoil: bool) -> u8 {
    match r.below(3) {
        _ if !spoil && !free.is_empty() => r.pick(free),
        0 => p.states as u8,
        1 => r.byte(),
        _ => r.below(p.states) as u8,
    }
}

/// A table just cleared, as a list leaves it or filled elsewhere; its count is right unless it is to be spoilt.
fn table(r: &mut Rng, sheet: &[u8], p: &oracle::Parts, spoil: bool) -> Vec<u8> {
    let mut cells = if r.chance(45) { vec![0; p.cells()] } else { audit_gen::cells(r, sheet, p) };
    let byte = spoil && r.chance(50);
    if byte {
        let i = r.below(cells.len());
        cells[i] = r.pick(&[3, 4, 255]);
    }
    let mut table = audit_gen::counted(cells);
    if spoil && !byte {
        let (n, filled) = (p.cells(), oracle::stored_count(&table, p.cells()));
        table[n..].copy_from_slice(&gen::count(r, filled));
    }
    table
}

/// What the benches would fill in all; those that are refused nothing.
pub fn needs(sheet: &[u8], states: &[u8], tables: &[u8], size: usize) -> u32 {
    let need = |(&s, t): (&u8, &[u8])| oracle::query(sheet, s, &mut t.to_vec()).map_or(0, |(_, visits)| visits as u32);
    states.iter().zip(tables.chunks(size.max(1))).map(need).sum()
}

/// None, few, some of what is needed, about all of it, or more.
fn visits(r: &mut Rng, needs: u32, benches: usize) -> u32 {
    match r.below(20) {
        0 | 1 => 0,
        2 => r.below(benches + 2) as u32,
        3..=11 => r.below(needs as usize + 1) as u32,
        12..=14 => needs,
        15 => needs.saturating_sub(1),
        16 => needs + r.range(1, 9) as u32,
        17 => needs.saturating_sub(r.below(benches + 1) as u32),
        18 => u32::MAX - r.below(9) as u32,
        _ => u32::from_le_bytes([r.byte(), r.byte(), r.byte(), r.byte()]),
    }
}

/// A sheet, nearly always an accepted one, states, visits, and a buffer with the tables.
pub fn any(r: &mut Rng) -> (Vec<u8>, Vec<u8>, u32, Vec<u8>) {
    let sheet = audit_gen::sheet(r);
    let mut count = match r.below(40) {
        0 => 0,
        1 => r.pick(&[9, 10, 16, 255, 256, 257, 264]),
        2..=8 => 8,
        _ => r.range(1, 7),
    };
    let Ok(ok) = oracle::read(&sheet) else {
        let tables = vec![0; r.below(300)];
        return (sheet, vec![0; count], r.below(30) as u32, tables);
    };
    let (p, size) = (&ok.parts, ok.parts.table_len());
    if count <= 8 {
        count = count.min(ROOM / size);
    }
    let looping = oracle::loop_reachable_states(p);
    let free: Vec<u8> = (0..p.states).filter(|s| looping >> s & 1 == 0).map(|s| s as u8).collect();
    // of the benches at most two have something that is refused
    let mut bad = [0; 2].map(|_| if r.chance(8) { r.below(count.max(1)) } else { count });
    if r.chance(5) {
        bad = [0, count.saturating_sub(1)];
    }
    let (mut states, mut tables) = (Vec::new(), Vec::new());
    for i in 0..count {
        let (spoil, by_state) = (bad.contains(&i), r.chance(50));
        states.push(state(r, p, &free, spoil && by_state));
        if count <= 8 {
            tables.extend(table(r, &sheet, p, spoil && !by_state));
        }
    }
    if count > 1 && r.chance(15) {
        // a state and its table again
        states[1] = states[0];
        if count <= 8 {
            tables.copy_within(..size, size);
        }
    }
    let visits = visits(r, needs(&sheet, &states, &tables, size), count);
    match r.below(20) {
        0 => tables.truncate(tables.len().saturating_sub(r.pick(&[1, 1, 2, 4, size]))),
        1 => tables.truncate(r.below(tables.len() + 1)),
        2..=6 => {
            let more = r.pick(&[1, 2, 9, size]).min(ROOM - tables.len());
            (0..more).for_each(|_| tables.push(r.byte()));
        }
        _ => {}
    }
    (sheet, states, visits, tables)
}

pub fn request(r: &mut Rng) -> Request {
    let (sheet, states, visits, tables) = any(r);
    Request::Allowance { sheet, states, visits, tables }
}

/// One bench with the largest table, on the longest chain of cells; all the visits it needs, or one too few.
pub fn deepest(r: &mut Rng) -> Request {
    let sheet = gen::deep(r, 128, 64).sheet();
    let (states, tables) = (vec![0], vec![0; gen::cells(&sheet) + 4]);
    let visits = needs(&sheet, &states, &tables, tables.len()) - r.below(2) as u32;
    Request::Allowance { sheet, states, visits, tables }
}
