//! Request (k) of document 02, written from the document: one pass over the cells that looks for bytes over 2 and counts, one search for
//! loops from the states that have a filled cell, and one pass over the cells by state, node and mark.

use crate::oracle::{self, Mask, Met, Parts, Refusal};

const SHORT: Refusal = (20, 0);
const TABLE_BYTE: Refusal = (21, 0);
const LOOP: Refusal = (12, 0);

const FALSE: u8 = 1;
const TRUE: u8 = 2;

/// Of each node the marks that its cells may have, as bits: 0, and k + 1 for each binder k above it.
pub fn marks(p: &Parts) -> [u8; 64] {
    let n = p.node_count();
    let mut end = [0; 64];
    for i in (0..n).rev() {
        let last = p.nodes[3 * i + 2] as usize;
        end[i] = if oracle::children(p.nodes[3 * i]) == 0 { i + 1 } else { end[last] };
    }
    let mut marks = [1; 64];
    for (k, &binder) in p.binder_node[..p.binders].iter().enumerate() {
        marks[binder + 1..end[binder]].iter_mut().for_each(|m| *m |= 2 << k);
    }
    marks
}

struct Audit<'a> {
    p: &'a Parts<'a>,
    first: &'a [u16; 130],
    masks: &'a [Mask],
    table: &'a [u8],
}

/// What its entries say of a row, one that decides it or all of them; 0 where nothing follows.
fn says(entries: impl IntoIterator<Item = u8>, decides: u8) -> u8 {
    let mut all = FALSE + TRUE - decides;
    for v in entries {
        if v == decides {
            return decides;
        }
        if v == 0 {
            all = 0;
        }
    }
    all
}

impl<'a> Audit<'a> {
    /// The cells of a node at a state, by their marks.
    fn cells(&self, n: usize, s: usize) -> &'a [u8] {
        let marks = self.p.binders + 1;
        &self.table[(s * self.p.node_count() + n) * marks..][..marks]
    }

    /// Do the filled cells of a node at a state have right marks, and does each follow? The row of a modal node is the same under every
    /// mark.
    fn node(&self, marks: u8, n: usize, s: usize) -> bool {
        let cells = self.cells(n, s);
        if cells.iter().all(|&v| v == 0) {
            return true;
        }
        let [kind, x, y] = [0, 1, 2].map(|i| self.p.nodes[3 * n + i] as usize);
        let mut each = 0..cells.len();
        let fits = |m: usize, says: u8| cells[m] == 0 || cells[m] == says && marks >> m & 1 == 1;
        let decides = if kind % 2 == 0 { TRUE } else { FALSE };
        match kind {
            0 | 1 => each.all(|m| fits(m, FALSE + TRUE - decides)),
            2 | 3 => {
                let (first, second) = (self.cells(x, s), self.cells(y, s));
                each.all(|m| fits(m, says([first[m], second[m]], decides)))
            }
            4 | 5 => {
                let leaving = &self.p.transitions[3 * self.first[s] as usize..3 * self.first[s + 1] as usize];
                let met = leaving.chunks_exact(3).filter(|c| oracle::meets(&self.masks[x], c[1]));
                let row = says(met.map(|c| self.cells(y, c[2] as usize)[0]), decides);
                each.all(|m| fits(m, row))
            }
            6 => {
                let binder = self.p.binder_node[x];
                let (outer, constant) = (self.cells(binder, s)[0], FALSE + u8::from(self.p.nodes[3 * binder] == 8));
                each.all(|m| fits(m, if m == 0 || x + 1 < m { outer } else { constant }))
            }
            _ => {
                let child = self.cells(y, s);
                each.all(|m| fits(m, child[if m == 0 { x + 1 } else { m }]))
            }
        }
    }
}

/// Is the count right, and does each filled cell follow from filled cells of its row?
pub fn audit(sheet: &[u8], table: &[u8]) -> Result<bool, Refusal> {
    let ok = oracle::read(sheet)?;
    let p = &ok.parts;
    if table.len() < p.table_len() {
        return Err(SHORT);
    }
    let cells = &table[..p.cells()];
    let (most, filled) = oracle::look(cells);
    if most > 2 {
        return Err(TABLE_BYTE);
    }
    if filled == 0 {
        return Ok(oracle::stored_count(table, cells.len()) == 0);
    }
    let first = oracle::successors(p);
    let mut met = [Met::Unseen; 128];
    for (s, of_state) in cells.chunks_exact(p.node_count() * (p.binders + 1)).enumerate() {
        let unseen = matches!(met[s], Met::Unseen) && of_state.iter().any(|&v| v != 0);
        if unseen && oracle::loop_reachable(p, &first, &mut met, s) {
            return Err(LOOP);
        }
    }
    if oracle::stored_count(table, cells.len()) != filled {
        return Ok(false);
    }
    let (marks, masks) = (marks(p), oracle::masks(p));
    let audit = Audit { p, first: &first, masks: &masks, table: cells };
    Ok((0..p.states).all(|s| (0..p.node_count()).all(|n| audit.node(marks[n], n, s))))
}
