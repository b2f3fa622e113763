//! Filled tables: the audit against a second reading, against the solutions of the rows and against Table 1, and a tally of the tables
//! that were made.

use crate::audit_gen;
use crate::audits;
use crate::gen::{self, Rng};
use crate::oracle::{self, Mask, Parts, Refusal};
use crate::protocol::Request;
use crate::tell;

/// Mark, node, state.
pub type Cell = (usize, usize, usize);

/// A second reading: rows as lists of cells, and the node above each node.
pub struct Rows<'a> {
    p: &'a Parts<'a>,
    masks: Vec<Mask>,
    above: [Option<usize>; 64],
}

impl<'a> Rows<'a> {
    pub fn new(p: &'a Parts<'a>) -> Rows<'a> {
        let mut above = [None; 64];
        for (n, c) in p.nodes.chunks_exact(3).enumerate() {
            let first = (oracle::children(c[0]) > 0).then_some(n + 1);
            let second = (oracle::children(c[0]) > 1).then_some(usize::from(c[2]));
            first.into_iter().chain(second).for_each(|child| above[child] = Some(n));
        }
        Rows { p, masks: oracle::masks(p), above }
    }

    pub fn cell(&self, i: usize) -> Cell {
        let (marks, nodes) = (self.p.binders + 1, self.p.node_count());
        (i % marks, i / marks % nodes, i / marks / nodes)
    }

    fn place(&self, (m, n, s): Cell) -> usize {
        (s * self.p.node_count() + n) * (self.p.binders + 1) + m
    }

    /// Whether a row is an "or", and its entries.
    fn row(&self, (m, n, s): Cell) -> (bool, Vec<Cell>) {
        let node = |n: usize| (self.p.nodes[3 * n], usize::from(self.p.nodes[3 * n + 1]), usize::from(self.p.nodes[3 * n + 2]));
        let (kind, x, y) = node(n);
        match kind {
            0 | 1 => (kind == 0, vec![]),
            2 | 3 => (kind == 2, vec![(m, x, s), (m, y, s)]),
            4 | 5 => {
                let from = self.p.transitions.chunks_exact(3).filter(|c| usize::from(c[0]) == s && oracle::meets(&self.masks[x], c[1]));
                (kind == 4, from.map(|c| (0, y, usize::from(c[2]))).collect())
            }
            7 | 8 => (true, vec![(if m == 0 { x + 1 } else { m }, y, s)]),
            _ if m == 0 || x + 1 < m => (true, vec![(0, self.p.binder_node[x], s)]),
            _ => (node(self.p.binder_node[x]).0 == 7, vec![]),
        }
    }

    /// Mark 0, or that of a binder met on the way up.
    fn mark_right(&self, m: usize, n: usize) -> bool {
        let way = std::iter::successors(self.above[n], |&n| self.above[n]);
        m == 0 || way.into_iter().any(|n| n == self.p.binder_node[m - 1])
    }

    /// A value follows where the row has it whatever its empty cells may be: all false, or all true.
    pub fn follows(&self, cells: &[u8], cell: Cell) -> bool {
        let (either, entries) = self.row(cell);
        let value = |empty: bool| {
            let held = entries.iter().map(|&entry| [empty, false, true][usize::from(cells[self.place(entry)])]);
            if either { held.into_iter().any(|v| v) } else { held.into_iter().all(|v| v) }
        };
        let now = cells[self.place(cell)] == 2;
        value(false) == now && value(true) == now
    }
}

/// By the second reading, yes or no, or the first refusal that is right.
fn right(sheet: &[u8], table: &[u8]) -> Result<bool, Refusal> {
    let ok = oracle::read(sheet)?;
    let p = &ok.parts;
    if table.len() < p.cells() + 4 {
        return Err((20, 0));
    }
    let (cells, rest) = table.split_at(p.cells());
    if cells.iter().any(|v| ![0, 1, 2].contains(v)) {
        return Err((21, 0));
    }
    let (rows, looping) = (Rows::new(p), oracle::loop_reachable_states(p));
    let filled: Vec<Cell> = (0..cells.len()).filter(|&i| cells[i] != 0).map(|i| rows.cell(i)).collect();
    if filled.iter().any(|cell| looping >> cell.2 & 1 == 1) {
        return Err((12, 0));
    }
    let count = (0..4).map(|i| usize::from(rest[i]) << (8 * i)).sum::<usize>();
    Ok(count == filled.len() && filled.iter().all(|&cell| rows.mark_right(cell.0, cell.1) && rows.follows(cells, cell)))
}

/// What was found to agree.
#[derive(Default)]
struct Agreed {
    yes: u64,
    no: u64,
    /// With 1 to 10, 20, 21, 12.
    refused: [u64; 4],
    /// Filled cells of tables with a yes, and of those the roots, which are Table 1's verdicts.
    cells: u64,
    verdicts: u64,
    /// Tables that lists left.
    lists: u64,
}

impl std::fmt::Display for Agreed {
    fn fmt(&self, f: &mut std::fmt::Formatter) -> std::fmt::Result {
        let Agreed { yes, no, refused: [sheets, short, bytes, loops], cells, verdicts, lists } = self;
        write!(f, "audits are right: yes {yes}, no {no}; the {cells} filled cells of tables with a yes are the rows' solution")?;
        if *verdicts > 0 {
            write!(f, ", {verdicts} of them verdicts of Table 1")?;
        }
        if *lists > 0 {
            write!(f, "; the tables of {lists} lists get a yes")?;
        }
        write!(f, "; refused as they should be: 1 to 10:{sheets} 20:{short} 21:{bytes} 12:{loops}")
    }
}

impl Agreed {
    /// The answer is that of the second reading; on a yes each filled cell has a right mark and its solution, a root's that of Table 1.
    fn check(&mut self, sheet: &[u8], table: &[u8]) -> Result<(), String> {
        const WORK: u64 = 100_000;
        let told = |what: String| format!("sheet {sheet:?}, table {table:?}: {what}");
        let (found, right) = (audits::audit(sheet, table), right(sheet, table));
        if found != right {
            return Err(told(format!("{found:?}, where {right:?} is right")));
        }
        match found {
            Ok(false) => self.no += 1,
            Ok(true) => {
                self.yes += 1;
                let ok = oracle::read(sheet).map_err(|e| told(format!("{e:?}")))?;
                let p = &ok.parts;
                let solution = audit_gen::full(p, false);
                if solution.iter().zip(table).any(|(right, &v)| v != 0 && v != *right) {
                    return Err(told("a yes, where a filled cell is not the rows' solution".into()));
                }
                self.cells += table[..p.cells()].iter().filter(|&&v| v != 0).count() as u64;
                if let Some((truth, _)) = oracle::meaning(p, WORK) {
                    for (s, of_state) in table[..p.cells()].chunks_exact(p.cells() / p.states).enumerate().filter(|v| v.1[0] != 0) {
                        if (of_state[0] == 2) != (truth >> s & 1 == 1) {
                            return Err(told(format!("a yes, where the root's cell at {s} is not Table 1's verdict")));
                        }
                        self.verdicts += 1;
                    }
                }
            }
            Err((number, _)) => self.refused[[20, 21, 12].iter().position(|&n| n == number).map_or(0, |at| at + 1)] += 1,
        }
        Ok(())
    }

    /// What a list leaves gets a yes, after each of its queries, and so does the table with every cell filled.
    fn list(&mut self, sheet: &[u8], states: &[u8], fill: u8) -> Result<(), String> {
        let Ok(ok) = oracle::read(sheet) else { return Ok(()) };
        let mut table = vec![fill; ok.parts.table_len() + 1];
        oracle::clear(sheet, &mut table).map_err(|e| format!("{e:?}"))?;
        let full = audit_gen::counted(audit_gen::full(&ok.parts, false));
        let told = |table: &[u8]| format!("sheet {sheet:?}, list {states:?}: no for the table {table:?}");
        for table in [&full, &table] {
            if audits::audit(sheet, table) != Ok(true) {
                return Err(told(table));
            }
        }
        for &s in states {
            let _ = oracle::query(sheet, s, &mut table);
            if audits::audit(sheet, &table) != Ok(true) {
                return Err(told(&table));
            }
        }
        self.check(sheet, &table)?;
        self.lists += 1;
        Ok(())
    }
}

fn random(seed: u64, count: u64) -> Result<Agreed, String> {
    let mut agreed = Agreed::default();
    for i in 0..count {
        let mut r = Rng::new(seed ^ 0xa0d1, i);
        let (sheet, table) = audit_gen::any(&mut r);
        let n = r.range(0, 8);
        let states = gen::states(&mut r, &sheet, n);
        let checked = agreed.check(&sheet, &table).and_then(|_| agreed.list(&sheet, &states, r.byte()));
        checked.map_err(|e| format!("seed {seed}, table {i}, {e}"))?;
    }
    Ok(agreed)
}

/// Rules of few nodes. Entries: action 0, any.
const RULES: [&[[u8; 3]]; 14] = [
    &[[0, 0, 0]],
    &[[1, 0, 0]],
    &[[4, 1, 1], [1, 0, 0]],
    &[[5, 1, 1], [0, 0, 0]],
    &[[2, 1, 2], [0, 0, 0], [1, 0, 0]],
    &[[3, 1, 3], [4, 0, 2], [1, 0, 0], [1, 0, 0]],
    &[[2, 1, 3], [5, 0, 2], [0, 0, 0], [4, 1, 4], [1, 0, 0]],
    &[[7, 0, 1], [6, 0, 0]],
    &[[8, 0, 1], [6, 0, 0]],
    &[[7, 0, 1], [4, 1, 2], [6, 0, 0]],
    &[[8, 0, 1], [3, 2, 3], [6, 0, 0], [1, 0, 0]],
    &[[7, 0, 1], [8, 1, 2], [6, 0, 0]],
    &[[8, 0, 1], [7, 1, 2], [6, 1, 0]],
    &[[2, 1, 3], [7, 0, 2], [6, 0, 0], [8, 1, 4], [6, 1, 0]],
];

/// Every table of sheets of one state and of two with a right count; of those with more than 9 cells some at random.
fn small(seed: u64) -> Result<Agreed, String> {
    const MOST: usize = 9;
    let mut agreed = Agreed::default();
    for (rule, nodes) in RULES.iter().enumerate() {
        for (states, chosen) in [(1, 0), (1, 1)].into_iter().chain((0..16u64).map(|chosen| (2, chosen))) {
            let ways = (0..states * states).filter(|k| chosen >> k & 1 == 1).map(|k| [k / states, k % 2, k % states]);
            let mut transitions: Vec<[u8; 3]> = ways.collect();
            transitions.sort();
            let entries = vec![[2, 0, 0], [1, 0, 0]];
            let sheet = gen::Parts { states, actions: 2, transitions, entries, nodes: nodes.to_vec() }.sheet();
            let n = gen::cells(&sheet);
            let mut r = Rng::new(seed, 100 * rule as u64 + 20 * u64::from(states) + chosen);
            for k in 0..if n > MOST { 2000 } else { 3u32.pow(n as u32) } {
                let often = r.pick(&[10, 30, 60]);
                let mut cell = |i: usize| match n > MOST {
                    true => if r.chance(often) { 1 + r.below(2) as u8 } else { 0 },
                    false => (k / 3u32.pow(i as u32) % 3) as u8,
                };
                agreed.check(&sheet, &audit_gen::counted((0..n).map(&mut cell).collect()))?;
            }
            for list in 0..=states {
                agreed.list(&sheet, &(0..list).rev().collect::<Vec<u8>>(), 7)?;
            }
        }
    }
    Ok(agreed)
}

/// The key sheet with the table that its states leave: every count up to 70,000 and every bit of it, every length, every byte in the
/// place of every cell, every cell emptied or turned round with the count that is then right.
fn key() -> Result<Agreed, String> {
    let sheet = gen::key();
    let mut table = vec![0; 112];
    for s in 0..3 {
        oracle::query(&sheet, s, &mut table).map_err(|e| format!("{e:?}"))?;
    }
    let cells = table[..108].to_vec();
    let mut agreed = Agreed::default();
    for count in (0..70_000).chain((0..32).map(|bit| 26 ^ 1 << bit)) {
        let other = [&cells[..], &u32::to_le_bytes(count)].concat();
        if audits::audit(&sheet, &other) != Ok(count == 26) {
            return Err(format!("the count {count}"));
        }
        agreed.check(&sheet, &other)?;
    }
    for length in 0..table.len() {
        agreed.check(&sheet, &table[..length])?;
    }
    for i in 0..cells.len() {
        for v in 0..=255 {
            let mut other = cells.clone();
            other[i] = v;
            agreed.check(&sheet, &audit_gen::counted(other))?;
            let mut other = table.clone();
            other[i] = v;
            agreed.check(&sheet, &other)?;
        }
    }
    Ok(agreed)
}

pub fn selfcheck(seed: u64, count: u64) -> i32 {
    tell([
        (format!("seed {seed}"), random(seed, count)),
        ("every table of small sheets".into(), small(seed)),
        ("the key sheet".into(), key()),
    ])
}

/// What was made of tables, for `compare`.
#[derive(Default)]
pub struct Tally {
    /// Yes: with no cell filled, as a list may leave them, with all cells filled that may be, others.
    yes: [u64; 4],
    /// No: by the count alone, by a mark, by a cell that does not follow.
    no: [u64; 3],
    /// Of these by one cell alone.
    alone: u64,
    /// Yes or no, on a plan with a loop.
    loops: u64,
    largest: usize,
}

impl Tally {
    pub fn count(&mut self, r: &Request) {
        let Request::Audit { sheet, table } = r else { return };
        let (Ok(ok), Ok(yes)) = (oracle::read(sheet), audits::audit(sheet, table)) else { return };
        let p = &ok.parts;
        let (cells, rows) = (&table[..p.cells()], Rows::new(p));
        self.loops += u64::from(oracle::loop_reachable_states(p) != 0);
        let filled: Vec<Cell> = (0..cells.len()).filter(|&i| cells[i] != 0).map(|i| rows.cell(i)).collect();
        if yes {
            let mut asked = vec![0; p.table_len()];
            for s in (0..p.states).filter(|&s| cells[s * (cells.len() / p.states)] != 0) {
                let _ = oracle::query(sheet, s as u8, &mut asked);
            }
            let kind = match () {
                _ if filled.is_empty() => 0,
                _ if asked[..cells.len()] == *cells => 1,
                _ if audit_gen::full(p, false) == cells => 2,
                _ => 3,
            };
            self.yes[kind] += 1;
            self.largest = self.largest.max(filled.len());
            return;
        }
        let mark = filled.iter().filter(|cell| !rows.mark_right(cell.0, cell.1)).count();
        let row = filled.iter().filter(|&&cell| rows.mark_right(cell.0, cell.1) && !rows.follows(cells, cell)).count();
        self.no[if mark > 0 { 1 } else if row > 0 { 2 } else { 0 }] += 1;
        self.alone += u64::from(mark + row == 1 && oracle::stored_count(table, cells.len()) as usize == filled.len());
    }
}

impl std::fmt::Display for Tally {
    fn fmt(&self, f: &mut std::fmt::Formatter) -> std::fmt::Result {
        let Tally { yes: [none, list, full, others], no: [count, mark, row], alone, loops, largest } = self;
        writeln!(f, "audited tables with a yes: no cell filled {none}, as lists leave them {list}, all cells filled {full}, others {others};")?;
        write!(f, "  the fullest has {largest} filled cells; with a no: a wrong mark {mark}, a cell that does not follow {row}, ")?;
        write!(f, "the count alone {count}; by one cell alone {alone}; not refused, on a plan with a loop {loops}")
    }
}
