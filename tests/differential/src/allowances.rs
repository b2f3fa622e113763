//! Document 02 (l): one allowance of visits for several benches. A query on a copy of each table, one at a time, says what its bench needs;
//! whole rounds of visits are dealt at once; and the benches that got all query in their own tables.

use crate::oracle::{self, Refusal};

/// The most benches of a call.
pub const MOST: usize = 8;

/// What a bench gets.
#[derive(Clone, Copy, Default, PartialEq, Eq, Debug)]
pub struct Bench {
    pub need: usize,
    pub grant: usize,
    pub short: bool,
    pub verdict: bool,
    pub visits: usize,
}

/// Deals visits to benches that were granted nothing so far: as many whole rounds at once as visits and the least of the needs still open
/// allow, and at last one visit to each of the first.
pub fn deal(benches: &mut [Bench], mut visits: usize) {
    loop {
        let open = benches.iter().map(|b| b.need - b.grant).filter(|&open| open > 0);
        let (count, least) = open.fold((0, usize::MAX), |(count, least), open| (count + 1, least.min(open)));
        if count == 0 || visits == 0 {
            return;
        }
        let rounds = least.min(visits / count);
        let (each, to) = if rounds > 0 { (rounds, count) } else { (1, visits) };
        benches.iter_mut().filter(|b| b.grant < b.need).take(to).for_each(|b| b.grant += each);
        visits -= each * to;
    }
}

/// What each bench gets; the tables lie end to end from the start of the buffer, and a refused call changes none of them.
pub fn allowance(sheet: &[u8], states: &[u8], visits: u32, tables: &mut [u8]) -> Result<Vec<Bench>, Refusal> {
    if states.is_empty() || states.len() > MOST {
        return Err((44, 0));
    }
    let size = oracle::read(sheet)?.parts.table_len();
    let (mut benches, mut copy, mut rest) = (Vec::with_capacity(MOST), Vec::with_capacity(size), &*tables);
    for &state in states {
        let (own, behind) = rest.split_at(size.min(rest.len()));
        copy.clear();
        copy.extend_from_slice(own);
        let (verdict, need) = oracle::query(sheet, state, &mut copy)?;
        benches.push(Bench { need, verdict, ..Bench::default() });
        rest = behind;
    }
    deal(&mut benches, visits as usize);
    for ((bench, &state), own) in benches.iter_mut().zip(states).zip(tables.chunks_exact_mut(size)) {
        if bench.grant < bench.need {
            *bench = Bench { short: true, verdict: false, ..*bench };
        } else if bench.need > 0 {
            // a bench that needs nothing has its verdict already
            (bench.verdict, bench.visits) = oracle::query(sheet, state, own)?;
        }
    }
    Ok(benches)
}
