//! Document 02 (m): the closest state that breaks the rule. The sheet is read and checked once, and the table is looked at once; then the
//! states are decided by the number of steps from state 0, each level of them a set of bits and so in order, with the one table as memo.

use crate::oracle::{self, Query, Refusal};

/// A state that breaks the rule, and the steps to it.
pub type Broken = (u8, u8);

/// The closest state that breaks the rule, None where the rule holds everywhere, and the visits.
pub fn closest(sheet: &[u8], table: &mut [u8]) -> Result<(Option<Broken>, usize), Refusal> {
    let ok = oracle::read(sheet)?;
    let p = &ok.parts;
    let (first, filled) = oracle::examine(p, 0, table)?;
    let mut q = Query { p, first, masks: &oracle::masks(p), table, visits: 0 };
    let found = search(&mut q);
    let visits = q.visits;
    oracle::store_count(table, p.cells(), filled + visits as u32);
    Ok((found, visits))
}

fn search(q: &mut Query) -> Option<Broken> {
    let (mut seen, mut now, mut steps) = (0u128, 1u128, 0);
    while now != 0 {
        seen |= now;
        let mut next = 0u128;
        while now != 0 {
            let s = now.trailing_zeros() as usize;
            now &= now - 1;
            if !q.cell(0, 0, s) {
                return Some((s as u8, steps));
            }
            for c in q.p.transitions[3 * q.first[s] as usize..3 * q.first[s + 1] as usize].chunks_exact(3) {
                next |= 1 << c[2];
            }
        }
        now = next & !seen;
        steps += 1;
    }
    None
}
