//! Document 02 (g): a report for the counter terminal.

use crate::oracle::{self, Refusal};
use std::io::Write;

/// The most queries of a report.
pub const MOST: usize = 64;

/// The shortest output that is taken.
pub const ROOM: usize = 1036;

/// Clears the table, runs the queries and writes their lines at the start of the output; the length of the text.
pub fn report(sheet: &[u8], states: &[u8], table: &mut [u8], out: &mut [u8]) -> Result<usize, Refusal> {
    if states.len() > MOST {
        return Err((36, 0));
    }
    // what clearing would give, before it changes anything
    let len = oracle::read(sheet)?.parts.table_len();
    if table.len() < len {
        return Err((20, 0));
    }
    if out.len() < ROOM {
        return Err((22, 0));
    }
    table[..len].fill(0);
    let room = out.len();
    let mut rest = out;
    let mut tally = 0;
    for &state in states {
        let (word, visits) = match oracle::query(sheet, state, table) {
            Ok((true, visits)) => ("true", visits),
            Ok((false, visits)) => ("false", visits),
            Err(_) => ("refused", 0),
        };
        tally += visits;
        writeln!(rest, "{state} {word} {visits}").expect("room for every line");
    }
    writeln!(rest, "total {tally}").expect("room for the last line");
    Ok(room - rest.len())
}
