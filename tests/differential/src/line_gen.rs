//! Requests for lines, made from a seed.

use crate::gen::{self, Rng};
use crate::lines;
use crate::protocol::Request;

/// How a line is made, in percent: "not"; of the operators "and"; parentheses about a part; `true` or `false`; a number not below A; a
/// space where none is needed.
#[derive(Clone, Copy)]
struct Taste {
    not: usize,
    and: usize,
    parentheses: usize,
    constants: usize,
    above: usize,
    spaces: usize,
}

fn taste(r: &mut Rng, actions: u8) -> Taste {
    Taste {
        not: r.pick(&[5, 30, 60]),
        and: r.pick(&[20, 50, 80]),
        parentheses: r.pick(&[0, 10, 40]),
        constants: if actions == 0 { r.pick(&[90, 100, 100]) } else { r.pick(&[0, 10, 30]) },
        above: r.pick(&[0, 0, 0, 3, 20]),
        spaces: r.pick(&[0, 20, 100]),
    }
}

/// A number that is not below A, or one that is taken for another where its value is not held whole.
pub fn above(r: &mut Rng, actions: u8) -> String {
    let a = u128::from(actions);
    let small = r.below(4) as u128;
    let n = match r.below(8) {
        0..=2 => a,
        3 => a + 1 + small,
        4 => 1 << r.pick(&[8, 16, 32, 64, 127]),
        5 => (1 << r.pick(&[8, 16, 32, 64, 127])) + small,
        6 => 10u128.pow(r.range(3, 38) as u32) + small,
        _ => {
            let n = r.pick(&[20, 40, 300]);
            return "1".repeat(n) + &r.below(1000).to_string();
        }
    };
    n.to_string()
}

fn operand(r: &mut Rng, t: Taste, actions: u8) -> String {
    if r.chance(t.constants) {
        r.pick(&["true", "false"]).into()
    } else if actions == 0 || r.chance(t.above) {
        above(r, actions)
    } else {
        r.below(actions.into()).to_string()
    }
}

/// The pieces of a readable line of so many entries.
fn part(r: &mut Rng, t: Taste, actions: u8, entries: usize, out: &mut Vec<String>) {
    let depth = if r.chance(t.parentheses) { r.pick(&[1, 1, 1, 2, 5]) } else { 0 };
    (0..depth).for_each(|_| out.push("(".into()));
    if entries < 2 {
        out.push(operand(r, t, actions));
    } else if entries == 2 || r.chance(t.not) {
        out.push("not".into());
        part(r, t, actions, entries - 1, out);
    } else {
        let first = r.range(1, entries - 2);
        part(r, t, actions, first, out);
        out.push(if r.chance(t.and) { "and" } else { "or" }.into());
        part(r, t, actions, entries - 1 - first, out);
    }
    (0..depth).for_each(|_| out.push(")".into()));
}

fn damage_pieces(r: &mut Rng, out: &mut Vec<String>) {
    let (at, other) = (r.below(out.len()), r.below(out.len()));
    let word = r.pick(&["not", "and", "or", "(", ")", "true", "false", "3", "03", "00", "Not", "nor", "tru", "truee", ","]);
    match r.below(7) {
        0 => {
            out.remove(at);
        }
        1 => out.insert(at, word.into()),
        2 => out[at] = word.into(),
        3 => out.swap(at, other),
        4 => out.push(word.into()),
        // zeros in front of the first number from here on
        5 => {
            if let Some(number) = out[at..].iter_mut().find(|piece| piece.as_bytes()[0].is_ascii_digit()) {
                number.insert_str(0, r.pick(&["0", "0", "00"]));
            }
        }
        // two that touch
        _ => {
            let next = if at + 1 < out.len() { out.remove(at + 1) } else { word.into() };
            out[at] += &next;
        }
    }
}

/// Whether letters or digits would touch.
fn touch(line: &[u8], piece: &[u8]) -> bool {
    let inside = |c: Option<&u8>| c.is_some_and(u8::is_ascii_alphanumeric);
    inside(line.last()) && inside(piece.first())
}

/// Spaces where they are needed, and some elsewhere.
fn spelt(r: &mut Rng, t: Taste, pieces: &[String]) -> Vec<u8> {
    let mut line: Vec<u8> = Vec::new();
    for piece in pieces {
        if touch(&line, piece.as_bytes()) || r.chance(t.spaces) {
            line.resize(line.len() + r.pick(&[1, 1, 1, 2, 7]), b' ');
        }
        line.extend(piece.as_bytes());
    }
    if r.chance(t.spaces) {
        line.push(b' ');
    }
    line
}

/// Spaces only where they are needed.
fn tight(pieces: &[&[u8]]) -> Vec<u8> {
    let mut line: Vec<u8> = Vec::new();
    for piece in pieces {
        if touch(&line, piece) {
            line.push(b' ');
        }
        line.extend(*piece);
    }
    line
}

/// A readable line of so many entries, damaged so many times.
pub fn line(r: &mut Rng, actions: u8, entries: usize, faults: usize) -> Vec<u8> {
    let t = taste(r, actions);
    let mut pieces = Vec::new();
    part(r, t, actions, entries, &mut pieces);
    for _ in 0..faults {
        if !pieces.is_empty() {
            damage_pieces(r, &mut pieces);
        }
    }
    spelt(r, t, &pieces)
}

/// Lines longer than any that one would type, readable or nearly so.
fn long(r: &mut Rng) -> Vec<u8> {
    let most = r.pick(&[300, 3000, 3000, 65_535]);
    let n = most / 2 - 1;
    let (one, two) = (r.below(2), r.below(2));
    match r.below(8) {
        // a parenthesis too few or too many, now and then
        0 | 1 => [vec![b'('; n], b"3".to_vec(), vec![b')'; n - one + two]].concat(),
        2 => [b"not ".repeat(most / 4 - one), b"3".repeat(two)].concat(),
        3 => [b"3 or ".repeat(most / 5 - 1), b"3".repeat(two)].concat(),
        4 => [b"3 and (".repeat(most / 8 - 1), b"3".to_vec(), vec![b')'; most / 8 - 1 - one]].concat(),
        5 => vec![r.pick(b"0123456789"); most],
        6 => vec![r.pick(b" ()xt"); most],
        _ => {
            let n = r.below(most);
            gen::noise(r, n).iter().map(|&v| b"  ()3not and or"[usize::from(v) % 15]).collect()
        }
    }
}

fn damage_bytes(r: &mut Rng, line: &mut Vec<u8>) {
    let at = r.below(line.len() + 1);
    let byte = if r.chance(70) { r.pick(b"  ()0123anotrdefslu\t\nA") } else { r.byte() };
    match r.below(4) {
        0 => line.insert(at, byte),
        1 => line.truncate(at),
        _ if at == line.len() => line.push(byte),
        2 => line[at] = byte,
        _ => {
            line.remove(at);
        }
    }
}

/// A number of actions and a line.
pub fn any(r: &mut Rng) -> (u8, Vec<u8>) {
    let actions = match r.below(10) {
        0 => r.pick(&[0, 0, 1, 254, 255]),
        1 => r.byte(),
        _ => r.range(1, 12) as u8,
    };
    let entries = match r.below(10) {
        0..=4 => r.range(1, 8),
        5 | 6 => r.range(5, 32),
        7 | 8 => r.range(30, 34),
        _ => r.range(1, 70),
    };
    let mut line = match r.below(100) {
        0 => vec![],
        1..=3 => long(r),
        4 => {
            let n = r.range(1, 12);
            gen::noise(r, n)
        }
        5..=19 => {
            let faults = r.pick(&[1, 1, 2]);
            line(r, actions, entries, faults)
        }
        _ => line(r, actions, entries, 0),
    };
    if r.chance(10) {
        (0..r.pick(&[1, 1, 2])).for_each(|_| damage_bytes(r, &mut line));
    }
    line.truncate(65_535);
    (actions, line)
}

pub fn request(r: &mut Rng) -> Request {
    let (actions, line) = any(r);
    let exact = lines::body(actions, &line).map_or(r.below(12), |body| body.len());
    Request::Line { actions, line, out_len: gen::buffer_len(r, exact) as u16, fill: r.byte() }
}

/// Smaller lines, some hundreds at most: without a pair of parentheses; with 0 for a longer number; without pieces in a row, as many as
/// may be first; without an operator and the piece behind it.
pub fn smaller(line: &[u8]) -> Vec<Vec<u8>> {
    let pieces = lines::pieces(line);
    let without = |gone: &dyn Fn(usize) -> bool| {
        let kept: Vec<&[u8]> = (0..pieces.len()).filter(|&i| !gone(i)).map(|i| pieces[i]).collect();
        tight(&kept)
    };
    let mut out = Vec::new();
    let mut open = Vec::new();
    for (i, &piece) in pieces.iter().enumerate() {
        match piece {
            b"(" => open.push(i),
            b")" if out.len() < 100 => out.extend(open.pop().map(|from| without(&|j| j == i || j == from))),
            _ => {}
        }
    }
    for i in (0..pieces.len()).filter(|&i| pieces[i].len() > 1 && pieces[i][0].is_ascii_digit()).take(50) {
        out.push(tight(&[&pieces[..i], &[b"0"], &pieces[i + 1..]].concat()));
    }
    let mut step = pieces.len();
    while step > 0 && out.len() < 300 {
        out.extend((0..pieces.len()).step_by(step).take(100).map(|i| without(&|j| (i..i + step).contains(&j))));
        step /= 2;
    }
    out.extend((0..pieces.len()).take(100).map(|i| without(&|j| j == i || j == i + 1)));
    out.retain(|smaller| smaller.len() < line.len());
    out
}
