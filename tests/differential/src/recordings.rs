//! Request (j) of document 02, written from the document. The chain of a recording is built once; each beginning is judged by the local
//! judge on as many of its transitions, with a table of its own.

use crate::oracle::{self, Mask, Parts, Refusal};

const TOO_LONG: Refusal = (42, 0);
const NO_ACTION: Refusal = (43, 0);

/// The most actions of a run.
pub const MOST: usize = 127;

#[derive(Clone, Copy, PartialEq, Eq, Debug)]
pub enum Which {
    First,
    Second,
}

/// The transitions of a run: action i leads from state i to state i + 1.
pub fn chain(run: &[u8]) -> Vec<u8> {
    run.iter().zip(0..).flat_map(|(&action, state)| [state, action, state + 1]).collect()
}

/// Does the rule fail on the first n actions of a run, which has this chain?
fn fails(p: &Parts, masks: &[Mask], chain: &[u8], n: usize) -> bool {
    !oracle::verdict(&Parts { states: n + 1, transitions: &chain[..3 * n], ..*p }, masks, 0)
}

/// The shortest beginning on which the rule fails, if there is one, and which recording it is of.
pub fn shortest<'a>(sheet: &[u8], first: &'a [u8], second: &'a [u8]) -> Result<Option<(Which, &'a [u8])>, Refusal> {
    let ok = oracle::read(sheet)?;
    let p = &ok.parts;
    if first.len().max(second.len()) > MOST {
        return Err(TOO_LONG);
    }
    if first.iter().chain(second).any(|&action| usize::from(action) >= p.actions) {
        return Err(NO_ACTION);
    }
    let masks = oracle::masks(p);
    let runs = [(Which::First, first), (Which::Second, second)].map(|(which, run)| (which, run, chain(run)));
    for n in 0..=first.len().max(second.len()) {
        for (which, run, chain) in &runs {
            if n <= run.len() && fails(p, &masks, chain, n) {
                return Ok(Some((*which, &run[..n])));
            }
        }
    }
    Ok(None)
}
