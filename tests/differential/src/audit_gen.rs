//! Filled tables for an audit, made from a seed.

use crate::audit_check::Rows;
use crate::audits;
use crate::gen::{self, Loops, Parts, Rng, Size};
use crate::oracle;
use crate::protocol::Request;

/// The cells of a table whose marks are right, each with its solution, at the states from which no loop can be reached; with those
/// whose marks are not, where that is wanted.
pub fn full(p: &oracle::Parts, wrong_marks: bool) -> Vec<u8> {
    let marks = audits::marks(p);
    oracle::solved(p, |m, n, _| wrong_marks || marks[n] >> m & 1 == 1)
}

/// Takes out the cells that do not follow, and then those that do not any more, until all that are left do.
fn close(rows: &Rows, cells: &mut [u8]) {
    loop {
        let before = cells.to_vec();
        for (i, v) in cells.iter_mut().enumerate() {
            if *v != 0 && !rows.follows(&before, rows.cell(i)) {
                *v = 0;
            }
        }
        if cells == before {
            return;
        }
    }
}

/// As a list of queries leaves them.
fn left(r: &mut Rng, sheet: &[u8], p: &oracle::Parts) -> Vec<u8> {
    let mut table = vec![0; p.table_len()];
    let count = r.pick(&[1, 1, 2, 3, 6, 20]);
    for s in gen::states(r, sheet, count) {
        let _ = oracle::query(sheet, s, &mut table);
    }
    table.truncate(p.cells());
    table
}

/// One to three cells emptied, turned round, or filled: with any value, with the solution, or with its opposite.
fn changed(r: &mut Rng, p: &oracle::Parts, cells: &mut [u8]) {
    let wrong_marks = r.chance(20);
    let right = full(p, wrong_marks);
    for _ in 0..r.pick(&[1, 1, 1, 2, 3]) {
        let filled: Vec<usize> = (0..cells.len()).filter(|&i| cells[i] != 0).collect();
        let other: Vec<usize> = (0..cells.len()).filter(|&i| cells[i] == 0 && right[i] != 0).collect();
        match r.below(6) {
            0 | 1 if !filled.is_empty() => cells[r.pick(&filled)] = 0,
            2 if !filled.is_empty() => {
                let i = r.pick(&filled);
                cells[i] = 3 - cells[i];
            }
            3 | 4 if !other.is_empty() => {
                let i = r.pick(&other);
                cells[i] = if r.chance(70) { right[i] } else { 3 - right[i] };
            }
            _ => {
                let i = r.below(cells.len());
                cells[i] = r.below(3) as u8;
            }
        }
    }
}

/// Cells for an accepted sheet.
pub fn cells(r: &mut Rng, sheet: &[u8], p: &oracle::Parts) -> Vec<u8> {
    let n = p.cells();
    match r.below(20) {
        0 => vec![0; n],
        1 => vec![1 + r.below(2) as u8; n],
        2 => {
            let often = r.pick(&[1, 5, 30, 70, 100]);
            (0..n).map(|_| if r.chance(often) { 1 + r.below(2) as u8 } else { 0 }).collect()
        }
        3..=5 => left(r, sheet, p),
        6..=8 => {
            let mut cells = left(r, sheet, p);
            changed(r, p, &mut cells);
            cells
        }
        9 => full(p, r.chance(30)),
        10..=12 => {
            let mut cells = full(p, false);
            changed(r, p, &mut cells);
            cells
        }
        13 => {
            // right values, some of them missing
            let (mut cells, wrong_marks) = (full(p, false), r.chance(10));
            if wrong_marks {
                cells = full(p, true);
            }
            let often = r.pick(&[5, 30, 70, 95]);
            cells.iter_mut().for_each(|v| if r.chance(often) { *v = 0 });
            cells
        }
        _ => {
            // more than a query would leave, or others
            let mut cells = full(p, false);
            if n <= 4000 {
                let often = r.pick(&[1, 3, 10, 30]);
                cells.iter_mut().for_each(|v| if r.chance(often) { *v = 0 });
                close(&Rows::new(p), &mut cells);
            }
            if r.chance(35) {
                changed(r, p, &mut cells);
            }
            cells
        }
    }
}

/// A plan with few loops, a rule with binders beside each other and inside.
pub fn sheet(r: &mut Rng) -> Vec<u8> {
    if r.chance(25) {
        return gen::sheet(r, 70);
    }
    let any = gen::any_size(r);
    let loops = r.pick(&[Loops::Nowhere, Loops::Nowhere, Loops::Nowhere, Loops::Part, any.loops]);
    let size = Size { states: any.states.min(r.pick(&[3, 8, 20, 128])), entries: any.entries.max(1), loops, ..any };
    let p: Parts = gen::valid(r, size);
    p.sheet()
}

/// A sheet, nearly always an accepted one, and a table for it.
pub fn any(r: &mut Rng) -> (Vec<u8>, Vec<u8>) {
    let sheet = sheet(r);
    let mut table = match oracle::read(&sheet) {
        Ok(ok) => cells(r, &sheet, &ok.parts),
        Err(_) => vec![0; 20],
    };
    let n = table.len();
    if let (Ok(ok), true) = (oracle::read(&sheet), r.chance(10)) {
        // a cell of a state from which a loop can be reached
        let width = n / ok.parts.states;
        let looping: Vec<usize> = (0..ok.parts.states).filter(|s| oracle::loop_reachable_states(&ok.parts) >> s & 1 == 1).collect();
        if !looping.is_empty() {
            table[r.pick(&looping) * width + r.below(width)] = 1 + r.below(2) as u8;
        }
    }
    if r.chance(5) && n > 0 {
        let i = if r.chance(30) { n - 1 } else { r.below(n) };
        table[i] = r.pick(&[3, 4, 255]);
    }
    let filled = table.iter().filter(|&&v| v == 1 || v == 2).count() as u32;
    table.extend(if r.chance(60) { filled.to_le_bytes() } else { gen::count(r, filled) });
    let len = if r.chance(80) { n + 4 } else { gen::table_buffer_len(r, n) };
    while table.len() < len {
        table.push(r.byte());
    }
    table.truncate(len);
    (sheet, table)
}

pub fn request(r: &mut Rng) -> Request {
    let (sheet, table) = any(r);
    Request::Audit { sheet, table }
}

/// The most cells that a table can have, all of them filled that may be, on the longest chain of cells.
pub fn deepest(r: &mut Rng) -> Request {
    let sheet = gen::deep(r, 128, 64).sheet();
    let ok = oracle::read(&sheet).expect("a valid sheet");
    Request::Audit { table: counted(full(&ok.parts, false)), sheet }
}

/// Cells, and behind them how many are filled.
pub fn counted(mut cells: Vec<u8>) -> Vec<u8> {
    let filled = cells.iter().filter(|&&v| v == 1 || v == 2).count() as u32;
    cells.extend(filled.to_le_bytes());
    cells
}

/// A table for a sheet with all its cells filled that may be.
pub fn whole(sheet: &[u8]) -> Vec<u8> {
    oracle::read(sheet).map_or(vec![], |ok| counted(full(&ok.parts, false)))
}

/// A table for a sheet with the cells of others that follow, and that still do without those that do not.
pub fn following(sheet: &[u8], cells: &[u8]) -> Vec<u8> {
    let Ok(ok) = oracle::read(sheet) else { return vec![] };
    let mut cells: Vec<u8> = cells.iter().map(|&v| if v > 2 { 0 } else { v }).collect();
    close(&Rows::new(&ok.parts), &mut cells);
    counted(cells)
}
