//! Requests for plans from .aut files, made from a seed.

use crate::aut;
use crate::gen::{self, Rng};
use crate::line_gen;
use crate::protocol::Request;
use std::collections::BTreeSet;

/// The longest text of a request.
const MOST: usize = 65_535;

/// A line as it is to be written: any bytes for the label, anything for a number.
pub struct Line {
    pub from: String,
    pub label: Vec<u8>,
    pub to: String,
}

/// A text as it is to be written.
pub struct Parts {
    pub first: String,
    /// What the first line says in place of the number of lines after it.
    pub stated: Option<String>,
    pub states: String,
    pub lines: Vec<Line>,
}

/// The text, with a space in so many of a hundred places where one may be.
pub fn spelt(r: &mut Rng, spaces: usize, p: &Parts) -> Vec<u8> {
    let stated = p.stated.clone().unwrap_or_else(|| p.lines.len().to_string());
    let mut space = || if r.chance(spaces) { " " } else { "" };
    let mut text = format!("des{}({},{}{stated},{}{})\n", space(), p.first, space(), space(), p.states).into_bytes();
    for Line { from, label, to } in &p.lines {
        text.extend(format!("({from},{}\"", space()).bytes());
        text.extend(label);
        text.extend(format!("\",{}{to})\n", space()).bytes());
    }
    text
}

/// Different labels of one kind: words, numbers, single bytes, such as look like lines; where they may be long, also each the beginning
/// of the next, or alike but for their ends.
pub fn labels(r: &mut Rng, count: usize, long: bool) -> Vec<Vec<u8>> {
    const WORDS: [&str; 9] = ["clamp", "probe", "cut", "deburr", "release", "", "i", "tau", "probe 1, not 2"];
    let style = if long { r.below(8) } else { r.below(5) };
    let (byte, alike) = (r.pick(b"a\0 \xff,"), r.pick(&[7, 8, 30, 300]));
    let bytes: Vec<u8> = (0..=255).filter(|c| !b"\"\n".contains(c)).collect();
    let label = |k: usize| match style {
        0 | 1 => WORDS.get(k).map_or(format!("a{k}").into_bytes(), |word| word.as_bytes().to_vec()),
        2 => k.to_string().into_bytes(),
        // each alone, and then behind another
        3 => [&vec![b'x'; k / bytes.len()][..], &bytes[k % bytes.len()..][..1]].concat(),
        4 => format!(",{k})\r(").into_bytes(),
        5 if count < 60 => vec![byte; k],
        6 => format!(", {k}) des (0, 0, 1)").into_bytes(),
        _ => [vec![byte; alike], k.to_string().into_bytes()].concat(),
    };
    let mut all: Vec<Vec<u8>> = (0..count).map(label).collect();
    if r.chance(50) {
        r.shuffle(&mut all);
    }
    all
}

/// So many different transitions with labels by number, or as many as there are; each label stands in one of them if there is room.
pub fn transitions(r: &mut Rng, states: usize, labels: usize, count: usize) -> Vec<(usize, usize, usize)> {
    let all = states * states * labels;
    let mut found = BTreeSet::new();
    for label in 0..labels.min(count) {
        found.insert((r.below(states), label, r.below(states)));
    }
    if 2 * count > all {
        let mut others: Vec<_> = (0..all).map(|k| (k / labels / states, k % labels, k / labels % states)).collect();
        r.shuffle(&mut others);
        for other in others {
            if found.len() < count {
                found.insert(other);
            }
        }
    }
    while found.len() < count.min(all) {
        found.insert((r.below(states), r.below(labels), r.below(states)));
    }
    found.into_iter().collect()
}

/// A text that says nothing wrong but, perhaps, too much: sizes of every kind, the limits and a little over them among them.
fn whole(r: &mut Rng) -> Parts {
    let mut states = match r.below(20) {
        0..=8 => r.range(1, 5),
        9..=14 => r.range(2, 16),
        15 | 16 => r.range(10, 64),
        17 => r.range(60, 128),
        18 => r.pick(&[1, 127, 128, 128]),
        _ => r.pick(&[129, 129, 130, 255, 256, 257, 1000]),
    };
    let names = match r.below(20) {
        0..=12 => r.range(1, 6),
        13..=15 => r.range(1, 40),
        16 => r.range(1, 255),
        17 | 18 => r.pick(&[254, 255, 255]),
        _ => r.pick(&[256, 256, 257, 300]),
    };
    let mut count = match r.below(20) {
        0 => 0,
        1..=11 => r.range(0, 2 * states),
        12..=15 => r.range(0, 6 * states),
        16 => r.range(0, 2048),
        17 | 18 => r.pick(&[2047, 2048, 2048]),
        _ => r.pick(&[2049, 2049, 2050, 2300]),
    };
    if names > 40 && r.chance(90) {
        count = count.max(names);
    }
    if count > 2000 {
        states = states.max(46);
    }
    let mut made = transitions(r, states, names, count);
    let equal = match r.below(10) {
        _ if made.is_empty() => 0,
        0..=4 => 0,
        5..=7 => r.range(1, 5),
        8 => r.range(0, made.len()),
        _ => r.below(2500),
    };
    (0..equal).for_each(|_| made.push(r.pick(&made)));
    match r.below(4) {
        0 => made.sort(),
        1 => made.sort_by(|a, b| b.cmp(a)),
        _ => r.shuffle(&mut made),
    }
    let labels = labels(r, names, made.len() < 100);
    let line = |(from, label, to): (usize, usize, usize)| Line { from: from.to_string(), label: labels[label].clone(), to: to.to_string() };
    Parts { first: "0".into(), stated: None, states: states.to_string(), lines: made.into_iter().map(line).collect() }
}

/// A text of at most three lines, none of them long, about one that becomes a plan.
fn few(r: &mut Rng) -> Parts {
    let count = r.below(4);
    let states = r.pick(&["0", "1", "2", "2", "3", "3", "128", "129"]);
    let mut state = || r.pick(&["0", "0", "0", "1", "1", "2"]).to_string();
    let states_of: Vec<(String, String)> = (0..count).map(|_| (state(), state())).collect();
    let line = |(from, to)| Line { from, label: r.pick(&[&b"a"[..], b"a", b"b", b"", b" "]).to_vec(), to };
    let lines = states_of.into_iter().map(line).collect();
    Parts { first: "0".into(), stated: None, states: states.into(), lines }
}

/// A number about another of many digits: itself, the next on either side, or with a digit changed, fewer or more.
fn near(r: &mut Rng, limit: &str) -> String {
    let mut digits = limit.as_bytes().to_vec();
    let (at, digit) = (r.below(digits.len()), r.pick(b"0123456789"));
    match r.below(8) {
        0 => {}
        // the next number, if no more than the last digit changes
        1 => *digits.last_mut().expect("a digit") += u8::from(!limit.ends_with('9')),
        // the one before
        2 | 3 => {
            let zeros = limit.bytes().rev().take_while(|&c| c == b'0').count();
            let last = digits.len() - zeros;
            digits[last..].fill(b'9');
            if last > 0 {
                digits[last - 1] -= 1;
            }
        }
        4 => digits[at] = digit,
        5 => digits.truncate(digits.len() - 1),
        6 => digits.push(digit),
        _ => return r.below(300).to_string(),
    }
    let zeros = digits.iter().take_while(|&&c| c == b'0').count();
    String::from_utf8_lossy(&digits[zeros.min(digits.len() - 1)..]).into_owned()
}

/// A text whose number of states has many digits, with states about it: in half of the texts only below it.
fn many_digits(r: &mut Rng) -> Parts {
    let states = match r.below(6) {
        0 => 10u128.pow(r.range(17, 38) as u32).to_string(),
        1 => (1u128 << r.pick(&[8, 16, 31, 32, 63, 64, 64, 127])).to_string(),
        2 => ((1u128 << r.pick(&[8, 16, 31, 32, 63, 64, 64, 127])) - 1).to_string(),
        3 => ((1u128 << r.pick(&[8, 16, 32, 64])) + r.below(130) as u128).to_string(),
        _ => {
            let n = r.pick(&[18, 19, 20, 21, 39, 300, 2000]);
            (0..n).map(|i| char::from(b'0' + r.range(usize::from(i == 0), 9) as u8)).collect()
        }
    };
    let below = r.chance(50);
    let mut state = || {
        let found = near(r, &states);
        if below && (found.len(), &found) >= (states.len(), &states) { "0".into() } else { found }
    };
    let lines: Vec<(String, String)> = (0..3).map(|_| (state(), state())).collect();
    let count = r.range(1, 3);
    let lines = lines.into_iter().take(count).map(|(from, to)| Line { from, label: b"a".to_vec(), to }).collect();
    Parts { first: "0".into(), stated: None, states, lines }
}

fn damage_parts(r: &mut Rng, p: &mut Parts) {
    let right = p.lines.len();
    let states: usize = p.states.parse().unwrap_or(3);
    let at = r.below(right);
    match r.below(12) {
        0 => p.first = [r.pick(&["1", "00", "", "-0", "256"]).into(), p.states.clone(), line_gen::above(r, 1)][r.below(3)].clone(),
        1 => p.stated = Some(if r.chance(50) { right + 1 } else { right.saturating_sub(1) }.to_string()),
        2 => p.stated = Some((right as u128 + (1 << r.pick(&[8, 16, 32, 64, 64, 127]))).to_string()),
        3 => p.stated = Some([format!("0{right}"), String::new(), format!("{right}0"), "9".repeat(400)][r.below(4)].clone()),
        4 => p.states = [states.saturating_sub(1).to_string(), "0".into(), format!("0{states}"), String::new()][r.below(4)].clone(),
        // a line too few for the stated number
        5 if right > 0 => {
            p.stated = Some(right.to_string());
            p.lines.remove(at);
        }
        6 if right > 0 => p.lines[at].label.extend(r.pick(&[&b"\""[..], b"\n", b"\"\"", b"\",0)\n(0,\""])),
        _ if right > 0 => {
            let line = &mut p.lines[at];
            let state = if r.chance(50) { &mut line.from } else { &mut line.to };
            *state = match r.below(8) {
                0..=2 => states.to_string(),
                3 => states.saturating_sub(1).to_string(),
                4 | 5 => line_gen::above(r, states.min(255) as u8),
                6 => format!("0{state}"),
                _ => r.pick(&["", "00", "-1", "+1", "1.", "0x1", "a", "1 "]).into(),
            };
        }
        _ => {}
    }
}

/// One byte more, fewer or another, most often where a line has one that is no digit and not of a label.
fn damage_bytes(r: &mut Rng, text: &mut Vec<u8>) {
    let marks: Vec<usize> = (0..text.len()).filter(|&i| b"des (),\"\n".contains(&text[i])).collect();
    let mut at = r.below(text.len() + 1);
    if !marks.is_empty() && r.chance(70) {
        at = r.pick(&marks) + r.below(2);
    }
    let byte = if r.chance(80) { r.pick(b"   (),\"\"\n\n\r\t0012d") } else { r.byte() };
    match r.below(10) {
        0 | 1 => text.insert(at, b' '),
        2 | 3 => text.insert(at, byte),
        4 => text.truncate(at),
        5 => {
            text.pop();
        }
        _ if at == text.len() => text.push(byte),
        6 | 7 => text[at] = byte,
        _ => {
            text.remove(at);
        }
    }
}

/// Texts of as many bytes as a request allows, readable or nearly so.
fn long(r: &mut Rng) -> Vec<u8> {
    let most = r.pick(&[300, 3000, MOST]);
    let many = most - 60;
    let digits = vec![r.pick(b"1111099"); many];
    let one = |before: &[u8], middle: &[u8], behind: &[u8]| [before, middle, behind].concat();
    match r.below(10) {
        0 => one(b"des (0, 1, 2)\n(0, \"", &vec![r.pick(b"x ,\0\xff"); many], b"\", 1)\n"),
        1 => one(b"des (0, 1, 2)\n(0, \"", &vec![r.pick(b"x \"\n"); many], b""),
        // two long labels, equal or alike but for a byte
        2 => {
            let mut labels = [vec![b'x'; many / 2], vec![b'x'; many / 2]];
            if r.chance(70) {
                let at = if r.chance(50) { many / 2 - 1 } else { r.below(many / 2) };
                labels[1][at] = b'y';
            }
            one(b"des (0, 2, 2)\n(0, \"", &labels.join(&b"\", 1)\n(0, \""[..]), b"\", 1)\n")
        }
        // the same line over and over, with the right number of lines or one more
        3 => {
            let n = many / 9;
            let stated = n + r.pick(&[0, 0, 1]);
            one(format!("des (0, {stated}, 1)\n").as_bytes(), &b"(0,\"\",0)\n".repeat(n), b"")
        }
        4 => one(b"des (", &digits, b", 0, 1)\n"),
        5 => one(b"des (0, ", &digits, b", 1)\n"),
        6 => one(b"des (0, 0, ", &digits, b")\n"),
        7 => one(b"des (0, 1, 2)\n(0, \"a\", ", &digits, b")\n"),
        8 => one(b"des (0, 0, 1)\n", &vec![r.pick(b"\n (x0"); many], b""),
        _ => {
            let n = r.below(most);
            gen::noise(r, n).iter().map(|&v| b"des (),\"\"\n001a"[usize::from(v) % 14]).collect()
        }
    }
}

pub fn any(r: &mut Rng) -> Vec<u8> {
    let spaces = r.pick(&[0, 50, 100, 100]);
    let kind = r.below(100);
    let mut text = match kind {
        0 => vec![],
        1..=4 => long(r),
        5 => {
            let n = r.range(1, 40);
            gen::noise(r, n)
        }
        _ => {
            let mut p = match kind {
                6..=15 => few(r),
                16..=25 => many_digits(r),
                _ => whole(r),
            };
            if r.chance(15) {
                (0..r.pick(&[1, 1, 2])).for_each(|_| damage_parts(r, &mut p));
            }
            let mut text = spelt(r, spaces, &p);
            while text.len() > MOST {
                p.lines.truncate(p.lines.len() * 3 / 4);
                text = spelt(r, spaces, &p);
            }
            text
        }
    };
    if r.chance(if kind < 16 { 50 } else { 12 }) {
        (0..r.pick(&[1, 1, 2])).for_each(|_| damage_bytes(r, &mut text));
    }
    text.truncate(MOST);
    text
}

pub fn request(r: &mut Rng) -> Request {
    let text = any(r);
    let exact = aut::body(&text).map_or(r.below(40), |body| body.len());
    Request::Aut { text, out_len: gen::buffer_len(r, exact) as u16, fill: r.byte() }
}

/// The first line with a stated number that is so much lower.
fn lowered(head: &[u8], by: usize) -> Vec<u8> {
    let fields: Vec<&[u8]> = head.split(|&c| c == b',').collect();
    let number = |field: &[u8]| std::str::from_utf8(field).ok()?.trim_start().parse::<usize>().ok();
    match fields[..] {
        [first, stated, states] => match number(stated).and_then(|n| n.checked_sub(by)) {
            Some(n) => [first, format!(" {n}").as_bytes(), states].join(&b','),
            None => head.to_vec(),
        },
        _ => head.to_vec(),
    }
}

/// Smaller texts, some hundreds at most: with each line once; without lines in a row, as many as may be first; both with a stated number
/// that is lower by as many; with a letter or two for each label; with half of a label; without spaces.
pub fn smaller(text: &[u8]) -> Vec<Vec<u8>> {
    let lines: Vec<&[u8]> = text.split_inclusive(|&c| c == b'\n').collect();
    let Some((head, rest)) = lines.split_first() else { return vec![] };
    let mut out = Vec::new();
    let mut once = rest.to_vec();
    once.sort();
    once.dedup();
    out.push([&lowered(head, rest.len() - once.len())[..], &once.concat()].concat());
    let mut step = rest.len();
    while step > 0 && out.len() < 300 {
        for i in (0..rest.len()).step_by(step).take(100) {
            let end = (i + step).min(rest.len());
            out.push([&lowered(head, end - i)[..], &rest[..i].concat(), &rest[end..].concat()].concat());
        }
        step /= 2;
    }
    // each second piece between quote marks is a label
    let pieces: Vec<&[u8]> = text.split(|&c| c == b'"').collect();
    let mut known: Vec<&[u8]> = Vec::new();
    let mut renamed = pieces.iter().map(|piece| piece.to_vec()).collect::<Vec<_>>();
    for k in (1..pieces.len()).step_by(2) {
        let name = known.iter().position(|&label| label == pieces[k]).unwrap_or_else(|| {
            known.push(pieces[k]);
            known.len() - 1
        });
        renamed[k] = [b"abcdefghijklmnopqrstuvwxyz"[name % 26]].repeat(1 + name / 26);
    }
    out.push(renamed.join(&b'"'));
    for k in (1..pieces.len()).step_by(2).take(50) {
        let mut fewer = pieces.clone();
        fewer[k] = &pieces[k][..pieces[k].len() / 2];
        out.push(fewer.join(&b'"'));
    }
    out.push(text.iter().copied().filter(|&c| c != b' ').collect());
    out.retain(|smaller| smaller.len() < text.len());
    out
}
