//! Requests for reports, made from a seed.

use crate::gen::{self, Rng};
use crate::oracle;
use crate::protocol::Request;
use crate::reports::{MOST, ROOM};

/// Of how many states that are judged the rule holds, or of how many not: the lesser.
fn both(sheet: &[u8]) -> u32 {
    const WORK: u64 = 20_000;
    let Ok(ok) = oracle::read(sheet) else { return 0 };
    let p = &ok.parts;
    let Some((truth, _)) = oracle::meaning(p, WORK) else { return 0 };
    let judged = u128::MAX >> (128 - p.states) & !oracle::loop_reachable_states(p);
    (judged & truth).count_ones().min((judged & !truth).count_ones())
}

/// Of some sheets the one in which the verdicts are mixed best.
fn mixed(r: &mut Rng) -> Vec<u8> {
    let mut made = Vec::new();
    for _ in 0..12 {
        let size = gen::any_size(r);
        made.push(gen::valid(r, size).sheet());
    }
    made.into_iter().max_by_key(|s| both(s)).expect("one at least")
}

/// A sheet and states to be queried: often 64 and now and then more.
pub fn any(r: &mut Rng) -> (Vec<u8>, Vec<u8>) {
    let sheet = if r.chance(50) { mixed(r) } else { gen::sheet(r, 85) };
    let count = match r.below(20) {
        0 => 0,
        1..=3 => 1,
        4..=9 => r.range(1, 8),
        10..=13 => r.range(1, 30),
        14 | 15 => r.range(60, 64),
        16 | 17 => 64,
        18 => r.range(65, 70),
        _ => r.pick(&[65, 128, 255, 256, 257, 320, 1000, 65_535]),
    };
    let mut states = gen::states(r, &sheet, count);
    if count <= MOST {
        states.truncate(MOST);
    }
    (sheet, states)
}

fn out_len(r: &mut Rng) -> usize {
    match r.below(20) {
        0..=12 => ROOM,
        13 | 14 => ROOM + r.range(1, 40),
        15 => ROOM + r.below(3000),
        16 => ROOM - 1,
        17 => 0,
        _ => r.below(ROOM),
    }
}

pub fn request(r: &mut Rng) -> Request {
    let (sheet, states) = any(r);
    let table_len = gen::table_buffer_len(r, gen::cells(&sheet)) as u16;
    let fill = if r.chance(40) { r.pick(&[0, 1, 2, 3, 255]) } else { r.byte() };
    let out_fill = if r.chance(30) { r.pick(b"\0\n 059") } else { r.byte() };
    Request::Report { sheet, states, table_len, fill, out_len: out_len(r) as u16, out_fill }
}
