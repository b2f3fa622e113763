//! Requests for the shorter of two bad runs, made from a seed.

use crate::gen::{self, Parts, Rng, Size};
use crate::oracle;
use crate::protocol::Request;
use crate::recordings::{self, Which, MOST};

/// A rule from another: it holds as long as that does at each place of a run, or behind each action that meets an entry.
fn throughout(p: &mut Parts, entry: Option<u8>) {
    p.entries.push([1, 0, 0]);
    let any = p.entries.len() as u8 - 1;
    let mut front = vec![[8, 0, 1], [3, 2, 0]];
    front.extend(entry.map(|entry| [5, entry, 3]));
    let down = front.len() as u8;
    for [kind, x, y] in &mut p.nodes {
        match kind {
            2 | 3 => (*x, *y) = (*x + down, *y + down),
            4 | 5 => *y += down,
            6 => *x += 1,
            7 | 8 => (*x, *y) = (*x + 1, *y + down),
            _ => {}
        }
    }
    p.nodes.splice(0..0, front);
    let last = p.nodes.len() as u8;
    p.nodes[1][2] = last;
    p.nodes.extend([[5, any, last + 1], [6, 0, 0]]);
}

/// A sheet with any rule, or one that holds as long as another does; then often an action behind which it has to hold. The plan is small
/// most of the time.
fn whole(r: &mut Rng) -> (Vec<u8>, Option<u8>) {
    let any = gen::any_size(r);
    let actions = if r.chance(95) { any.actions.max(1) } else { any.actions };
    let transitions = if r.chance(90) { any.transitions.min(6) } else { any.transitions };
    let size = Size { actions, transitions, ..any };
    if r.chance(30) {
        return (gen::valid(r, size).sheet(), None);
    }
    let mut p = gen::valid(r, Size { entries: size.entries.min(30), nodes: size.nodes.min(59), binders: size.binders.min(5), ..size });
    let rare = (actions > 0 && r.chance(60)).then(|| r.below(actions) as u8);
    if let Some(action) = rare {
        p.entries.push([2, action, 0]);
        if r.chance(40) {
            p.nodes = vec![[0, 0, 0]];
        }
    }
    let entry = match rare {
        Some(_) => Some(p.entries.len() as u8 - 1),
        None => (!p.entries.is_empty() && r.chance(50)).then(|| r.below(p.entries.len()) as u8),
    };
    throughout(&mut p, entry);
    (p.sheet(), rare)
}

/// The deepest rule, with six greatest fixed points or with six least ones, which fail at once most of the time.
fn deep(r: &mut Rng, greatest: bool) -> Vec<u8> {
    loop {
        let p = gen::deep(r, 1, 64);
        if (p.nodes[6][0] == 3) == greatest {
            return p.sheet();
        }
    }
}

fn sheet(r: &mut Rng) -> (Vec<u8>, Option<u8>) {
    match r.below(200) {
        0..=15 => (gen::sheet(r, 30), None),
        16 => (deep(r, true), None),
        17 => (deep(r, false), None),
        _ => whole(r),
    }
}

/// A run of some of the actions, of few most of the time; an action that is named stands in it once at most.
fn run(r: &mut Rng, actions: usize, rare: Option<u8>) -> Vec<u8> {
    let n = match r.below(40) {
        0 | 1 => 0,
        2..=7 => r.range(1, 3),
        8..=25 => r.range(1, 12),
        26..=34 => r.range(5, 40),
        35 => r.range(60, 70),
        36 => r.range(100, 126),
        37 => MOST,
        _ => r.range(1, MOST),
    };
    let few: Vec<u8> = (0..r.pick(&[1, 2, 2, 3, 9])).map(|_| r.below(actions) as u8).collect();
    let mut run: Vec<u8> = (0..n).map(|_| if r.chance(85) { r.pick(&few) } else { r.below(actions) as u8 }).collect();
    if actions == 0 && r.chance(80) {
        run.clear();
    }
    if let Some(action) = rare {
        run.iter_mut().filter(|a| **a == action).for_each(|a| *a = ((usize::from(*a) + 1) % actions) as u8);
        if n > 0 && r.chance(80) {
            run[r.below(n)] = action;
        }
    }
    run
}

/// Faults: too many actions, or an action that the sheet does not have.
fn spoil(r: &mut Rng, run: &mut Vec<u8>, actions: usize) {
    if r.chance(2) {
        let n = r.pick(&[128, 128, 129, 255, 256, 257, 383, 384, 1000, 65_535]);
        run.resize(n, 0);
    }
    if r.chance(3) {
        let at = r.below(run.len() + 1);
        run.insert(at, r.pick(&[actions as u8, actions as u8, (actions as u8).saturating_add(1), 255]));
        run.truncate(65_535);
    }
}

/// Two runs; often they begin alike, now and then they are the same or differ in one action.
fn pair(r: &mut Rng, actions: usize, rare: Option<u8>) -> [Vec<u8>; 2] {
    let (first, mut second) = (run(r, actions, rare), run(r, actions, rare));
    match r.below(20) {
        0 => second.clone_from(&first),
        1..=6 => {
            second.splice(0..0, first[..r.below(first.len() + 1)].iter().copied());
            second.truncate(MOST);
        }
        7 | 8 if !first.is_empty() => {
            second.clone_from(&first);
            let at = r.below(second.len());
            second[at] = r.below(actions) as u8;
        }
        _ => {}
    }
    [first, second]
}

/// A sheet and two recordings: of some, often the first with an answer of the kind and the length that are wanted.
pub fn any(r: &mut Rng) -> (Vec<u8>, Vec<u8>, Vec<u8>) {
    let wanted = r.below(8);
    let least = r.pick(&[1, 1, 2, 2, 3, 5, 12, 40]);
    let mut tries = r.pick(&[1, 10, 30]);
    loop {
        let (sheet, rare) = sheet(r);
        let actions = oracle::read(&sheet).map_or(4, |s| s.parts.actions);
        let [mut first, mut second] = pair(r, actions, rare);
        tries -= 1;
        let found = recordings::shortest(&sheet, &first, &second).map(|found| found.map(|(which, part)| (which, part.len())));
        let good = match found {
            Ok(Some((_, n))) => n >= least && wanted < 5,
            Ok(None) => wanted == 5 && first.len().min(second.len()) >= least,
            Err(_) => false,
        };
        if matches!(found, Ok(Some((Which::First, _)))) && wanted % 2 == 1 {
            std::mem::swap(&mut first, &mut second);
        }
        if good || wanted > 5 || tries == 0 {
            spoil(r, &mut first, actions);
            spoil(r, &mut second, actions);
            return (sheet, first, second);
        }
    }
}

pub fn request(r: &mut Rng) -> Request {
    let (sheet, first, second) = any(r);
    Request::Shortest { sheet, first, second }
}

/// The deepest rule on as many actions as there may be.
pub fn deepest(r: &mut Rng) -> Request {
    Request::Shortest { sheet: deep(r, true), first: vec![0; MOST], second: vec![0; MOST] }
}

/// Runs with one action lower.
pub fn lower(run: &[u8]) -> Vec<Vec<u8>> {
    let mut out = Vec::new();
    for at in (0..run.len()).filter(|&at| run[at] > 0).take(200) {
        for action in [0, run[at] / 2, run[at] - 1] {
            let mut other = run.to_vec();
            other[at] = action;
            out.push(other);
        }
    }
    out
}
