//! Requests made from a seed: request number i of a seed is always the same.

use crate::allowance_gen;
use crate::audit_gen;
use crate::aut_gen;
use crate::branch_gen;
use crate::closest_gen;
use crate::line_gen;
use crate::oracle::{self, assemble};
use crate::pattern_gen;
use crate::protocol::Request;
use crate::recording_gen;
use crate::report_gen;
use crate::reports::ROOM;

pub struct Rng(u64);

impl Rng {
    pub fn new(seed: u64, index: u64) -> Rng {
        let mut r = Rng(seed.wrapping_mul(0x9e37_79b9_7f4a_7c15) ^ index.wrapping_mul(0xd1b5_4a32_d192_ed03));
        r.next();
        r.next();
        r
    }
    pub fn next(&mut self) -> u64 {
        // splitmix64
        self.0 = self.0.wrapping_add(0x9e37_79b9_7f4a_7c15);
        let mut z = self.0;
        z = (z ^ z >> 30).wrapping_mul(0xbf58_476d_1ce4_e5b9);
        z = (z ^ z >> 27).wrapping_mul(0x94d0_49bb_1331_11eb);
        z ^ z >> 31
    }
    /// 0 to n - 1.
    pub fn below(&mut self, n: usize) -> usize {
        (self.next() % n.max(1) as u64) as usize
    }
    /// a to b, both included.
    pub fn range(&mut self, a: usize, b: usize) -> usize {
        a + self.below(b - a + 1)
    }
    pub fn chance(&mut self, percent: usize) -> bool {
        self.below(100) < percent
    }
    pub fn byte(&mut self) -> u8 {
        self.next() as u8
    }
    pub fn pick<T: Copy>(&mut self, from: &[T]) -> T {
        from[self.below(from.len())]
    }
    pub fn shuffle<T>(&mut self, v: &mut [T]) {
        for i in (1..v.len()).rev() {
            v.swap(i, self.below(i + 1));
        }
    }
}

/// A sheet in parts, so that it can be damaged or shrunk part by part.
#[derive(Clone)]
pub struct Parts {
    pub states: u8,
    pub actions: u8,
    pub transitions: Vec<[u8; 3]>,
    pub entries: Vec<[u8; 3]>,
    pub nodes: Vec<[u8; 3]>,
}

pub fn plan_body(p: &Parts) -> Vec<u8> {
    let mut b = vec![p.states, p.actions];
    b.extend((p.transitions.len() as u16).to_le_bytes());
    b.extend(p.transitions.concat());
    b
}

pub fn list_body(v: &[[u8; 3]]) -> Vec<u8> {
    let mut b = vec![v.len() as u8];
    b.extend(v.concat());
    b
}

/// The key sheet.
pub fn key() -> Vec<u8> {
    let plan = [3, 3, 2, 0, 0, 1, 1, 1, 2, 2];
    let entries = [3, 2, 0, 0, 2, 1, 0, 2, 2, 0];
    let nodes = [
        [7, 0, 1], [2, 2, 4], [4, 2, 3], [1, 0, 0], [2, 5, 7], [4, 0, 6],
        [6, 0, 0], [7, 1, 8], [2, 9, 10], [6, 0, 0], [4, 1, 11], [6, 1, 0],
    ];
    oracle::assemble(&plan, &entries, &list_body(&nodes))
}

impl Parts {
    pub fn bodies(&self) -> [Vec<u8>; 3] {
        [plan_body(self), list_body(&self.entries), list_body(&self.nodes)]
    }
    pub fn sheet(&self) -> Vec<u8> {
        let b = self.bodies();
        assemble(&b[0], &b[1], &b[2])
    }
}

/// Where a plan may have loops.
#[derive(Clone, Copy, PartialEq)]
pub enum Loops {
    Nowhere,
    /// Among some of its states, so that there may be others from which none can be reached.
    Part,
    Anywhere,
}

/// What a valid sheet is to be like.
#[derive(Clone, Copy)]
pub struct Size {
    pub states: usize,
    pub actions: usize,
    pub transitions: usize,
    pub entries: usize,
    pub nodes: usize,
    pub binders: usize,
    pub loops: Loops,
    pub guarded: bool,
}

pub fn any_size(r: &mut Rng) -> Size {
    let states = match r.below(20) {
        0..=7 => r.range(1, 5),
        8..=14 => r.range(2, 16),
        15..=17 => r.range(10, 64),
        18 => r.range(60, 128),
        _ => r.pick(&[1, 63, 64, 65, 127, 128]),
    };
    let actions = match r.below(10) {
        0 => 0,
        1..=7 => r.range(1, 6),
        8 => r.range(1, 255),
        _ => r.pick(&[1, 63, 64, 65, 127, 128, 129, 192, 193, 254, 255]),
    };
    let transitions = match r.below(20) {
        0 => 0,
        1..=12 => r.range(0, 2 * states),
        13..=17 => r.range(0, 6 * states),
        18 => r.range(0, 2048),
        _ => 2048,
    };
    let entries = match r.below(10) {
        0 => 0,
        1..=7 => r.range(1, 8),
        8 => r.range(1, 32),
        _ => 32,
    };
    let nodes = match r.below(20) {
        0..=5 => r.range(1, 6),
        6..=15 => r.range(3, 24),
        16..=18 => r.range(16, 64),
        _ => 64,
    };
    let binders = match r.below(10) {
        0 => 0,
        1..=6 => r.range(1, 3),
        7 | 8 => r.range(1, 6),
        _ => 6,
    };
    let loops = match r.below(10) {
        0..=4 => Loops::Nowhere,
        5..=7 => Loops::Part,
        _ => Loops::Anywhere,
    };
    Size { states, actions, transitions, entries, nodes, binders, loops, guarded: r.chance(40) }
}

/// A stretch of some of the `a` actions: any, of one action, from the first or to the last.
fn stretch(r: &mut Rng, a: usize) -> [u8; 3] {
    let (i, j) = (r.below(a), r.below(a));
    let (x, y) = match r.below(8) {
        0 => (i, i),
        1 => (0, j),
        2 => (i, a - 1),
        3 => (0, a - 1),
        _ => (i.min(j), i.max(j)),
    };
    [6, x as u8, y as u8]
}

pub fn valid(r: &mut Rng, z: Size) -> Parts {
    let (s, a) = (z.states, z.actions);
    // the plan
    let mut order: Vec<u8> = (0..s as u8).collect();
    match r.below(3) {
        0 => {}
        1 => order.reverse(),
        _ => r.shuffle(&mut order),
    }
    let near = r.chance(40);
    let mut transitions = Vec::new();
    // the places in the order among which transitions may lead back
    let mut part = if z.loops == Loops::Anywhere { 0..s } else { 0..0 };
    if z.loops == Loops::Part && z.transitions > 0 && a > 0 {
        let from = if r.chance(30) { 0 } else { r.below(s) };
        part = from..(from + r.pick(&[1, 2, 3, 8, 128])).min(s);
        // one loop for certain
        let mut way: Vec<usize> = part.clone().collect();
        r.shuffle(&mut way);
        way.truncate(r.range(1, 4));
        for (k, &i) in way.iter().enumerate() {
            transitions.push([order[i], r.below(a) as u8, order[way[(k + 1) % way.len()]]]);
        }
    }
    if a > 0 {
        for _ in transitions.len()..z.transitions {
            let (mut i, mut j) = (r.below(s), r.below(s));
            if near {
                j = (i + r.range(1, 3)).min(s - 1);
            }
            if !part.contains(&i) || !part.contains(&j) {
                if i == j {
                    continue;
                }
                if i > j {
                    std::mem::swap(&mut i, &mut j);
                }
            } else if near && r.chance(20) {
                std::mem::swap(&mut i, &mut j);
            }
            transitions.push([order[i], r.below(a) as u8, order[j]]);
        }
    }
    transitions.sort();
    transitions.dedup();
    // the action formulas
    let mut entries: Vec<[u8; 3]> = Vec::new();
    for i in 0..z.entries {
        let mut kind = r.pick(&[0u8, 1, 1, 2, 2, 2, 2, 3, 3, 4, 5, 5, 6, 6]);
        if i == 0 && (3..6).contains(&kind) || a == 0 && (kind == 2 || kind == 6) {
            kind = 1;
        }
        let mut below = |n: usize| r.below(n) as u8;
        entries.push(match kind {
            2 => [2, below(a), 0],
            3 | 4 => [kind, below(i), below(i)],
            5 => [5, below(i), 0],
            6 => stretch(r, a),
            _ => [kind, 0, 0],
        });
    }
    // the rule
    let mut nodes: Vec<[u8; 3]> = Vec::new();
    let constants = r.pick(&[5, 20, 50]);
    let (binding, modal) = (r.pick(&[10, 25, 25, 50, 70]), r.pick(&[15, 35, 60]));
    let mut g = Rule {
        r,
        entries: entries.len(),
        left: z.binders,
        bound: 0,
        guarded: z.guarded,
        constants,
        binding,
        modal,
        nodes: &mut nodes,
    };
    g.part(z.nodes, &mut Vec::new(), 0);
    if !z.guarded && z.binders > 0 && z.nodes >= 4 && r.chance(20) {
        nodes = knot(r, z.binders, z.nodes, entries.len());
    }
    Parts { states: s as u8, actions: a as u8, transitions, entries, nodes }
}

/// Binders one inside the other, and below them a comb of variables, bare or below a modal node, and a few constants.
fn knot(r: &mut Rng, binders: usize, nodes: usize, entries: usize) -> Vec<[u8; 3]> {
    let binders = binders.min(nodes - 1);
    let mut out: Vec<[u8; 3]> = (0..binders as u8).map(|k| [7 + r.below(2) as u8, k, k + 1]).collect();
    let both = r.below(3);
    loop {
        let tooth = if r.chance(15) { [r.below(2) as u8, 0, 0] } else { [6, r.below(binders) as u8, 0] };
        let last = out.len() + 4 > nodes;
        let at = out.len() as u8;
        if !last {
            out.push([2 + if both < 2 { both as u8 } else { r.below(2) as u8 }, at + 1, 0]);
        }
        if entries > 0 && !last && r.chance(40) {
            let i = out.len() as u8;
            out.push([4 + r.below(2) as u8, r.below(entries) as u8, i + 1]);
        }
        out.push(tooth);
        if last {
            return out;
        }
        out[at as usize][2] = out.len() as u8;
    }
}

struct Rule<'a> {
    r: &'a mut Rng,
    entries: usize,
    left: usize,
    bound: u8,
    guarded: bool,
    /// Chances of a constant leaf, a binder, a modal node.
    constants: usize,
    binding: usize,
    modal: usize,
    nodes: &'a mut Vec<[u8; 3]>,
}

impl Rule<'_> {
    /// A part of exactly `n` nodes (or fewer where no such part can be made) below the `open` binders.
    fn part(&mut self, n: usize, open: &mut Vec<u8>, unguarded: u8) {
        let at = self.nodes.len();
        let unary = self.entries > 0;
        if n >= 2 && self.left > 0 && (at == 0 && self.binding > 10 || n == 2 && !unary || self.r.chance(self.binding)) {
            let x = self.bound;
            self.bound += 1;
            self.left -= 1;
            self.nodes.push([7 + self.r.below(2) as u8, x, at as u8 + 1]);
            open.push(x);
            self.part(n - 1, open, unguarded | 1 << x);
            open.pop();
        } else if n >= 3 && (!unary || !self.r.chance(self.modal)) {
            self.nodes.push([2 + self.r.below(2) as u8, at as u8 + 1, 0]);
            let first = if self.r.chance(50) { self.r.range(1, n - 2) } else { self.r.range(1, (n - 2).min(3)) };
            self.part(first, open, unguarded);
            self.nodes[at][2] = self.nodes.len() as u8;
            self.part(n - 1 - first, open, unguarded);
        } else if n >= 2 && unary {
            let x = self.r.below(self.entries) as u8;
            self.nodes.push([4 + self.r.below(2) as u8, x, at as u8 + 1]);
            self.part(n - 1, open, 0);
        } else {
            let ready: Vec<u8> =
                open.iter().copied().filter(|v| !self.guarded || unguarded >> v & 1 == 0).collect();
            if ready.is_empty() || self.r.chance(self.constants) {
                self.nodes.push([self.r.below(2) as u8, 0, 0]);
            } else {
                self.nodes.push([6, self.r.pick(&ready), 0]);
            }
        }
    }
}

pub fn odd(r: &mut Rng, now: u8) -> u8 {
    match r.below(6) {
        0 => now.wrapping_add(1),
        1 => now.wrapping_sub(1),
        2 => 0,
        3 => 255,
        4 => now ^ 1 << r.below(8),
        _ => r.byte(),
    }
}

/// The first node after the part that starts at node `i`.
fn part_end(nodes: &[[u8; 3]], mut i: usize) -> usize {
    let mut due = 1;
    while due > 0 && i < nodes.len() {
        due = due + oracle::children(nodes[i][0]) - 1;
        i += 1;
    }
    i
}

/// Damage inside the parts; the bodies still say what they hold.
fn damage_parts(r: &mut Rng, p: &mut Parts) {
    match r.below(28) {
        26 | 27 if !p.entries.is_empty() => {
            // a stretch about its limits: x = y, x one above or below y, x = 0, y = A - 1, y = A, y = A + 1, or any byte
            let (i, a, other) = (r.below(p.entries.len()), p.actions, r.byte());
            let y = r.pick(&[a, a, a.wrapping_sub(1), a.wrapping_add(1), other]);
            let x = r.pick(&[y, y.wrapping_add(1), y.wrapping_add(1), y.wrapping_sub(1), 0, other]);
            p.entries[i] = [6, x, y];
        }
        22 | 23 => {
            // a second child's number and something in the first child's part, or before it, or after it
            let at: Vec<usize> = (0..p.nodes.len()).filter(|&i| p.nodes[i][0] == 2 || p.nodes[i][0] == 3).collect();
            if !at.is_empty() {
                let i = r.pick(&at);
                let end = part_end(&p.nodes, (i + 1).min(p.nodes.len() - 1));
                p.nodes[i][2] = if r.chance(50) { r.below(i + 2) as u8 } else { odd(r, p.nodes[i][2]) };
                let j = if r.chance(75) && end > i + 1 { r.range(i + 1, end - 1) } else { r.below(p.nodes.len()) };
                let f = r.below(3);
                p.nodes[j][f] = odd(r, p.nodes[j][f]);
            }
        }
        24 | 25 => {
            // a variable of a binder whose part has ended, or not begun
            let binders: Vec<usize> = (0..p.nodes.len()).filter(|&i| p.nodes[i][0] == 7 || p.nodes[i][0] == 8).collect();
            let mut ways = Vec::new();
            for &b in &binders {
                let end = part_end(&p.nodes, b);
                for i in (0..b).chain(end..p.nodes.len()) {
                    if p.nodes[i][0] == 6 || p.nodes[i][0] < 2 {
                        ways.push((i, p.nodes[b][1]));
                    }
                }
            }
            if !ways.is_empty() {
                let (i, x) = r.pick(&ways);
                p.nodes[i] = [6, x, 0];
            }
        }
        0 => p.states = r.pick(&[0, 1, 128, 129, 255]),
        1 => p.states = odd(r, p.states),
        2 => p.actions = odd(r, p.actions),
        3 | 4 if !p.transitions.is_empty() => {
            let (i, f) = (r.below(p.transitions.len()), r.below(3));
            p.transitions[i][f] = if r.chance(50) {
                [p.states, p.actions, p.states][f]
            } else {
                odd(r, p.transitions[i][f])
            };
        }
        5 if p.transitions.len() > 1 => {
            let i = r.range(1, p.transitions.len() - 1);
            if r.chance(50) {
                p.transitions.swap(i, i - 1);
            } else {
                p.transitions[i] = p.transitions[i - 1];
            }
        }
        6 => {
            let t = r.pick(&[2047, 2048, 2049, 2050]);
            while p.transitions.len() < t {
                p.transitions.push([r.byte() & 127, r.byte(), r.byte() & 127]);
            }
            p.transitions.sort();
        }
        7..=9 if !p.entries.is_empty() => {
            let (i, f) = (r.below(p.entries.len()), r.below(3));
            p.entries[i][f] = match r.below(4) {
                0 => i as u8,
                1 if f == 0 => r.range(0, 8) as u8,
                2 => p.actions,
                _ => odd(r, p.entries[i][f]),
            };
        }
        10 => {
            let c = r.pick(&[31, 32, 33, 34]);
            while p.entries.len() < c {
                let k = r.below(2) as u8;
                p.entries.push([k, 0, 0]);
            }
        }
        11 => {
            // 7 binders or a wrong binder number, in front
            let k = r.range(1, 7);
            for n in p.nodes.iter_mut() {
                match n[0] {
                    2 | 3 => {
                        n[1] = n[1].wrapping_add(k as u8);
                        n[2] = n[2].wrapping_add(k as u8);
                    }
                    4 | 5 => n[2] = n[2].wrapping_add(k as u8),
                    6 => n[1] = n[1].wrapping_add(k as u8),
                    7 | 8 => {
                        n[1] = n[1].wrapping_add(k as u8);
                        n[2] = n[2].wrapping_add(k as u8);
                    }
                    _ => {}
                }
            }
            let front: Vec<[u8; 3]> = (0..k as u8).map(|i| [7 + (r.byte() & 1), i, i + 1]).collect();
            p.nodes.splice(0..0, front);
        }
        12 | 13 => {
            // a variable or binder number
            let at: Vec<usize> = (0..p.nodes.len()).filter(|&i| p.nodes[i][0] >= 6).collect();
            if !at.is_empty() {
                let i = r.pick(&at);
                p.nodes[i][1] = if r.chance(80) { r.below(7) as u8 } else { odd(r, p.nodes[i][1]) };
            }
        }
        14 => {
            // cut the rule
            let k = r.below(p.nodes.len().max(1));
            p.nodes.truncate(k);
        }
        15 => {
            // nodes left over
            for _ in 0..r.range(1, 4) {
                let n = [r.below(10) as u8, r.below(2) as u8, r.below(2) as u8];
                p.nodes.push(n);
            }
        }
        16 => {
            let c = r.pick(&[63, 64, 65, 66]);
            while p.nodes.len() < c {
                p.nodes.push([1, 0, 0]);
            }
        }
        17 if !p.nodes.is_empty() => {
            let i = r.below(p.nodes.len());
            p.nodes[i][0] = r.below(10) as u8;
        }
        18 if p.nodes.len() > 1 => {
            let i = r.range(1, p.nodes.len() - 1);
            if r.chance(50) {
                p.nodes.swap(i, i - 1);
            } else {
                p.nodes.remove(i);
            }
        }
        _ if !p.nodes.is_empty() => {
            let (i, f) = (r.below(p.nodes.len()), r.below(3));
            p.nodes[i][f] = match r.below(5) {
                0 => i as u8 + 1,
                1 => i as u8 + 2,
                2 if f == 1 => p.entries.len() as u8,
                _ => odd(r, p.nodes[i][f]),
            };
        }
        _ => {}
    }
}

pub fn noise(r: &mut Rng, n: usize) -> Vec<u8> {
    let small = r.chance(50);
    (0..n).map(|_| if small { r.below(9) as u8 } else { r.byte() }).collect()
}

/// Damage to a body's own count and length.
fn damage_body(r: &mut Rng, b: &mut Vec<u8>) {
    match r.below(6) {
        0 => b.clear(),
        1 => {
            let k = r.below(b.len() + 1);
            b.truncate(k);
        }
        2 => {
            let n = r.range(1, 4);
            b.extend(noise(r, n));
        }
        3 if !b.is_empty() => {
            let i = r.below(b.len().min(4));
            b[i] = odd(r, b[i]);
        }
        4 => {
            let n = r.below(40);
            *b = noise(r, n);
        }
        _ if !b.is_empty() => {
            let i = r.below(b.len());
            b[i] = odd(r, b[i]);
        }
        _ => {}
    }
}

/// Damage to the whole file.
fn damage_sheet(r: &mut Rng, b: &mut Vec<u8>) {
    match r.below(8) {
        0 => {
            let k = r.below(b.len() + 1);
            b.truncate(k);
        }
        1 => {
            let k = b.len() - r.range(1, 3).min(b.len());
            b.truncate(k);
        }
        2 => {
            let n = r.range(1, 5);
            b.extend(noise(r, n));
        }
        3 => b.truncate(r.range(0, 18)),
        4 => {
            // the last body grows with its length
            let n = r.range(1, 6);
            b.extend(noise(r, n));
            if b.len() >= 17 {
                let l = (b[15] as u16 | (b[16] as u16) << 8).wrapping_add(n as u16);
                b[15..17].copy_from_slice(&l.to_le_bytes());
            }
        }
        _ => {
            let n = b.len().min(if r.chance(80) { 17 } else { 65535 });
            if n > 0 {
                let i = r.below(n);
                b[i] = odd(r, b[i]);
            }
        }
    }
}

/// Three bodies, valid or damaged.
fn bodies(r: &mut Rng) -> [Vec<u8>; 3] {
    let z = any_size(r);
    let mut p = valid(r, z);
    match r.below(100) {
        0..=54 => p.bodies(),
        55..=79 => {
            for _ in 0..r.pick(&[1, 1, 1, 2, 3]) {
                damage_parts(r, &mut p);
            }
            p.bodies()
        }
        80..=95 => {
            if r.chance(30) {
                damage_parts(r, &mut p);
            }
            let mut b = p.bodies();
            for _ in 0..r.pick(&[1, 1, 2]) {
                let i = r.below(3);
                damage_body(r, &mut b[i]);
            }
            b
        }
        _ => [0; 3].map(|_: i32| {
            let n = r.below(30);
            noise(r, n)
        }),
    }
}

/// A long chain of states, and a rule whose chain of cells is about as long as one can be: six binders one inside the
/// other, and below them a comb that looks at each variable, the inner ones first.
pub fn deep(r: &mut Rng, states: usize, nodes: usize) -> Parts {
    let mut p = Parts { states: states as u8, actions: 1, transitions: vec![], entries: vec![[1, 0, 0]], nodes: vec![] };
    for s in 1..states as u8 {
        p.transitions.push([s - 1, 0, s]);
    }
    let least = r.chance(50);
    for k in 0..6u8 {
        let odd = r.chance(5);
        p.nodes.push([7 + u8::from(least == odd), k, k + 1]);
    }
    // teeth: the six variables from inside out, and constants that decide nothing
    let mut teeth: Vec<[u8; 3]> = (0..6u8).rev().map(|k| [6, k, 0]).collect();
    while 6 + 2 * (teeth.len() + 1) + 2 <= nodes {
        let at = if r.chance(70) { 0 } else { r.below(teeth.len()) };
        teeth.insert(at, [u8::from(!least), 0, 0]);
    }
    for t in teeth {
        let at = p.nodes.len() as u8;
        p.nodes.push([2 + u8::from(!least), at + 1, at + 2]);
        p.nodes.push(t);
    }
    let at = p.nodes.len() as u8;
    p.nodes.push([4 + u8::from(!least), 0, at + 1]);
    let v = if r.chance(70) { 5 } else { r.below(6) as u8 };
    p.nodes.push([6, v, 0]);
    p
}

/// How many binders of a sheet tell: with its kind exchanged, the reference word is another.
pub fn telling(sheet: &[u8]) -> usize {
    let Ok(ok) = oracle::read(sheet) else { return 0 };
    let was = oracle::reference(sheet);
    let tells = |node: usize| {
        let mut s = sheet.to_vec();
        let kind = &mut s[ok.bodies[2].0 + 1 + 3 * node];
        *kind = 15 - *kind;
        oracle::reference(&s) != was
    };
    ok.parts.binder_node[..ok.parts.binders].iter().filter(|&&node| tells(node)).count()
}

/// Three to six binders one inside the other, least and greatest in turn, over a plan of 2 to 5 states, so that plain
/// iteration of the deepest ends soon. Below the innermost binder stands every variable, and some parts stand aside on the
/// way. Of a few sheets made so, the one in which the most binders tell.
fn alternating(r: &mut Rng) -> Vec<u8> {
    let made: Vec<Vec<u8>> = (0..r.pick(&[1, 8, 40])).map(|_| alternation(r).sheet()).collect();
    made.into_iter().max_by_key(|s| telling(s)).expect("one at least")
}

fn alternation(r: &mut Rng) -> Parts {
    let states = r.range(2, 5);
    let size = Size {
        states,
        actions: r.range(1, 6),
        transitions: r.range(1, 5 * states),
        entries: r.range(1, 8),
        nodes: 1,
        binders: 0,
        loops: if r.chance(70) { Loops::Anywhere } else { Loops::Nowhere },
        guarded: false,
    };
    let mut p = valid(r, size);
    if r.chance(60) {
        // an entry for each action, so that the transitions fall into kinds
        p.entries = (0..p.actions).map(|a| [2, a, 0]).collect();
    }
    let (binders, guarded) = (r.range(3, 6) as u8, r.chance(50));
    let mut t = Turns { entries: p.entries.len(), binders, guarded, first: r.below(2) as u8, r, nodes: Vec::new() };
    t.binder(0);
    Parts { nodes: t.nodes, ..p }
}

/// The rule of `alternation`, in preorder.
struct Turns<'a> {
    r: &'a mut Rng,
    entries: usize,
    binders: u8,
    /// Each variable stands below a modal node of its own.
    guarded: bool,
    first: u8,
    nodes: Vec<[u8; 3]>,
}

impl Turns<'_> {
    fn next(&self) -> u8 {
        self.nodes.len() as u8 + 1
    }

    fn modal(&mut self) {
        let node = [4 + self.r.below(2) as u8, self.r.below(self.entries) as u8, self.next()];
        self.nodes.push(node);
    }

    /// An "or" or an "and"; its second child is set by `second`.
    fn pair(&mut self) -> usize {
        let node = [2 + self.r.below(2) as u8, self.next(), 0];
        self.nodes.push(node);
        self.nodes.len() - 1
    }

    fn second(&mut self, pair: usize) {
        self.nodes[pair][2] = self.nodes.len() as u8;
    }

    fn variable(&mut self, k: u8) {
        if self.guarded || self.r.chance(40) {
            self.modal();
        }
        self.nodes.push([6, k, 0]);
    }

    fn constant(&mut self) {
        if self.r.chance(50) {
            self.modal();
        }
        let kind = self.r.below(2) as u8;
        self.nodes.push([kind, 0, 0]);
    }

    /// A leaf below binders 0 to k.
    fn aside(&mut self, k: u8) {
        if self.r.chance(60) {
            let v = self.r.range(0, k as usize) as u8;
            self.variable(v);
        } else {
            self.constant();
        }
    }

    fn binder(&mut self, k: u8) {
        let node = [7 + (self.first + k) % 2, k, self.next()];
        self.nodes.push(node);
        if self.r.chance(30) {
            self.modal();
        }
        match self.r.below(4) {
            0 => {
                let pair = self.pair();
                self.aside(k);
                self.second(pair);
                self.below(k);
            }
            1 => {
                let pair = self.pair();
                self.below(k);
                self.second(pair);
                self.aside(k);
            }
            _ => self.below(k),
        }
    }

    fn below(&mut self, k: u8) {
        if k + 1 < self.binders {
            return self.binder(k + 1);
        }
        // every variable once, in any order, and at the end a constant now and then; often all below "some" and joined by
        // "or", or below "every" and joined by "and", so that a way round a loop is judged by the outermost variable on it
        let mut order: Vec<u8> = (0..self.binders).collect();
        self.r.shuffle(&mut order);
        let (from, alike) = (self.nodes.len(), self.r.chance(60));
        let end = self.r.chance(30);
        for (i, &v) in order.iter().enumerate() {
            let last = i + 1 == order.len() && !end;
            let pair = if last { None } else { Some(self.pair()) };
            if alike {
                self.modal();
                self.nodes.push([6, v, 0]);
            } else {
                self.variable(v);
            }
            if let Some(pair) = pair {
                self.second(pair);
            }
        }
        if end {
            self.constant();
        }
        if alike {
            let and = self.r.below(2) as u8;
            for n in &mut self.nodes[from..] {
                if (2..6).contains(&n[0]) {
                    n[0] = n[0] / 2 * 2 + and;
                }
            }
        }
    }
}

/// How many binders a rule has, where they stand one inside the other, least and greatest in turn, and the innermost has
/// every variable below it; 0 for any other rule.
pub fn turns(p: &oracle::Parts) -> usize {
    let nodes: Vec<[u8; 3]> = p.nodes.chunks_exact(3).map(|c| [c[0], c[1], c[2]]).collect();
    let binders: Vec<usize> = (0..nodes.len()).filter(|&i| nodes[i][0] >= 7).collect();
    let Some(&inner) = binders.last() else { return 0 };
    let below = &nodes[inner..part_end(&nodes, inner)];
    let nested = binders.iter().all(|&b| part_end(&nodes, b) > inner);
    let in_turn = binders.windows(2).all(|w| nodes[w[0]][0] != nodes[w[1]][0]);
    let used = (0..binders.len() as u8).all(|k| below.iter().any(|n| n[0] == 6 && n[1] == k));
    if nested && in_turn && used { binders.len() } else { 0 }
}

/// A sheet; `whole` percent of them are left valid.
pub fn sheet(r: &mut Rng, whole: usize) -> Vec<u8> {
    if r.chance(1) {
        let (s, n) = (r.pick(&[3, 10, 64, 128]), r.pick(&[20, 40, 64]));
        let mut p = deep(r, s, n);
        if r.chance(50) {
            // a loop on the chain
            let i = r.below(s);
            p.transitions.push([i as u8, 0, r.below(i + 1) as u8]);
            p.transitions.sort();
        }
        return p.sheet();
    }
    if r.chance(whole) {
        let z = any_size(r);
        return valid(r, z).sheet();
    }
    match r.below(100) {
        0..=69 => {
            let b = bodies(r);
            assemble(&b[0], &b[1], &b[2])
        }
        70..=91 => {
            let b = bodies(r);
            let mut s = assemble(&b[0], &b[1], &b[2]);
            for _ in 0..r.pick(&[1, 1, 2, 3]) {
                damage_sheet(r, &mut s);
            }
            s
        }
        92 => {
            // about the longest sheet, and just over
            let loops = r.pick(&[Loops::Nowhere, Loops::Nowhere, Loops::Part, Loops::Anywhere]);
            let z = Size { states: 128, actions: 255, transitions: 4000, entries: 32, nodes: 64, binders: 6, loops, guarded: false };
            let mut p = valid(r, z);
            p.transitions.truncate(2048);
            let mut b = p.bodies();
            let k = r.pick(&[0, 0, 1, 3]);
            b[2].extend(vec![0; k]);
            assemble(&b[0], &b[1], &b[2])
        }
        93 => {
            // long bodies that the contents own up to
            let b = [0; 3].map(|_: i32| {
                let n = r.below(8000);
                noise(r, n)
            });
            assemble(&b[0], &b[1], &b[2])
        }
        94 => {
            let n = if r.chance(20) { r.below(65536) } else { r.below(7000) };
            noise(r, n)
        }
        _ => {
            let n = r.below(90);
            let mut b = noise(r, n);
            if r.chance(60) && b.len() >= 2 {
                b[0] = 1;
                b[1] = 3;
            }
            b
        }
    }
}

pub fn buffer_len(r: &mut Rng, exact: usize) -> usize {
    let n = match r.below(20) {
        0..=10 => exact,
        11..=15 => exact + r.range(1, 20),
        16 => exact.saturating_sub(1),
        17 => 0,
        18 => r.below(exact + 1),
        _ => exact.saturating_sub(r.range(1, 9)),
    };
    n.min(65535)
}

pub fn cells(sheet: &[u8]) -> usize {
    oracle::read(sheet).map_or(20, |s| s.parts.cells())
}

/// A buffer for a table of so many cells: now and then one that ends within its count or just behind it.
pub fn table_buffer_len(r: &mut Rng, cells: usize) -> usize {
    if r.chance(10) { cells + r.below(6) } else { buffer_len(r, cells + 4) }
}

/// A count of filled cells, right most of the time; else off by a little, with a byte changed, with its bytes turned round,
/// or anything.
pub fn count(r: &mut Rng, filled: u32) -> [u8; 4] {
    let mut right = filled.to_le_bytes();
    if r.chance(75) {
        return right;
    }
    match r.below(6) {
        0 => filled.wrapping_add(1 + r.below(3) as u32).to_le_bytes(),
        1 => filled.wrapping_sub(1 + r.below(3) as u32).to_le_bytes(),
        2 => filled.to_be_bytes(),
        3 => [right[1], right[0], right[3], right[2]],
        4 => {
            let i = r.below(4);
            right[i] = odd(r, right[i]);
            right
        }
        _ => (r.next() as u32).to_le_bytes(),
    }
}

/// The states from which a loop can be reached, and the others; none of a sheet that is refused.
fn by_loops(sheet: &[u8]) -> [Vec<u8>; 2] {
    let Ok(ok) = oracle::read(sheet) else { return [vec![], vec![]] };
    let looping = oracle::loop_reachable_states(&ok.parts);
    [1, 0].map(|side| (0..ok.parts.states as u8).filter(|&s| looping >> s & 1 == side).collect())
}

/// So many states for a list of queries, or all: most of them the plan's, often one from which a loop can be reached and one from
/// which none can.
pub fn states(r: &mut Rng, sheet: &[u8], count: usize) -> Vec<u8> {
    let states = oracle::read(sheet).map_or(4, |s| s.parts.states);
    let mut list: Vec<u8> = (0..count)
        .map(|_| match r.below(12) {
            0 => states as u8,
            1 => r.byte(),
            _ => r.below(states) as u8,
        })
        .collect();
    if r.chance(20) {
        list = (0..states as u8).collect();
        if r.chance(50) {
            r.shuffle(&mut list);
        }
        if r.chance(30) {
            list.push(states as u8);
            list.insert(0, 255);
        }
    }
    if r.chance(50) {
        for side in by_loops(sheet).iter().filter(|v| !v.is_empty()) {
            let at = r.below(list.len() + 1);
            list.insert(at, r.pick(side));
        }
    }
    list.truncate(65_535);
    list
}

/// Work of the plain iteration above which a reference request is not made.
const WORK: u64 = 60_000;

/// Request number `index` of a seed. The first three are the deepest chain of cells that we know how to make; the next three have
/// its plan with a loop at the last state but one or at the last, the next two its rule on runs as long as they may be, the next its
/// table with all cells filled, the next two a bench with its table, and the next two ask it for the closest state.
pub fn request_at(seed: u64, index: u64, numbers: &[u8]) -> Request {
    let mut r = Rng::new(seed, index);
    let number = [4, 5, 10][index as usize % 3];
    if index < 6 && numbers.contains(&number) {
        let mut p = deep(&mut r, 128, 64);
        if index >= 3 {
            let s = 126 + index as u8 % 2;
            p.transitions.push([s, 0, s]);
            p.transitions.sort();
        }
        let sheet = p.sheet();
        let len = cells(&sheet) + 4;
        let (table_len, fill, states) = (len as u16, 7, vec![0, 127, 0]);
        return match number {
            4 => Request::List { sheet, table_len, fill, states },
            5 => Request::Query { sheet, state: 0, table: vec![0; len] },
            _ => Request::Report { sheet, states, table_len, fill, out_len: ROOM as u16, out_fill: 9 },
        };
    }
    if (6..8).contains(&index) && numbers.contains(&14) {
        return recording_gen::deepest(&mut r);
    }
    if index == 8 && numbers.contains(&15) {
        return audit_gen::deepest(&mut r);
    }
    if (9..11).contains(&index) && numbers.contains(&16) {
        return allowance_gen::deepest(&mut r);
    }
    if (11..13).contains(&index) && numbers.contains(&17) {
        return closest_gen::deepest(&mut r, index == 11);
    }
    request(&mut r, numbers)
}

fn request(r: &mut Rng, numbers: &[u8]) -> Request {
    let mut number = r.pick(numbers);
    if number == 8 && r.chance(90) {
        // there are only 256 of them
        number = r.pick(numbers);
    }
    match number {
        1 => Request::Read(sheet(r, 20)),
        2 if r.chance(20) => Request::Guard(alternating(r)),
        2 => Request::Guard(sheet(r, 70)),
        3 if r.chance(30) => Request::Reference(alternating(r)),
        3 => {
            let s = sheet(r, 75);
            if let Ok(ok) = oracle::read(&s) {
                if ok.parts.states <= 64 && oracle::meaning(&ok.parts, WORK).is_none() {
                    return request(r, &[3]);
                }
            }
            Request::Reference(s)
        }
        4 => {
            let sheet = sheet(r, 85);
            let count = match r.below(10) {
                0 => 0,
                1..=3 => 1,
                4..=7 => r.range(1, 8),
                _ => r.range(1, 30),
            };
            let states = states(r, &sheet, count);
            let fill = if r.chance(40) { r.pick(&[0, 1, 2, 3, 255]) } else { r.byte() };
            Request::List { table_len: table_buffer_len(r, cells(&sheet)) as u16, sheet, fill, states }
        }
        5 => {
            let sheet = sheet(r, 90);
            let cells = cells(&sheet);
            let states = oracle::read(&sheet).map_or(4, |s| s.parts.states);
            let full = r.pick(&[0, 3, 10, 30, 70, 100]);
            let mut table: Vec<u8> =
                (0..cells).map(|_| if r.chance(full) { 1 + r.below(2) as u8 } else { 0 }).collect();
            if r.chance(25) {
                // left by an earlier query, and perhaps not quite
                table = vec![0; cells + 4];
                let _ = oracle::query(&sheet, r.below(states) as u8, &mut table);
                table.truncate(cells);
                if r.chance(40) && cells > 0 {
                    for _ in 0..r.range(1, 5) {
                        let i = r.below(cells);
                        table[i] = r.below(3) as u8;
                    }
                }
            }
            if r.chance(8) && cells > 0 {
                let i = if r.chance(30) { cells - 1 } else { r.below(cells) };
                table[i] = r.pick(&[3, 4, 255]);
            }
            let filled = table.iter().filter(|&&v| v == 1 || v == 2).count() as u32;
            table.extend(count(r, filled));
            let len = table_buffer_len(r, cells);
            while table.len() < len {
                table.push(r.byte());
            }
            table.truncate(len);
            let state = match r.below(15) {
                0 => states as u8,
                1 => r.byte(),
                _ => r.below(states) as u8,
            };
            Request::Query { sheet, state, table }
        }
        7 => pattern_gen::request(r),
        8 => Request::Children(if r.chance(50) { r.below(12) as u8 } else { r.byte() }),
        9 => line_gen::request(r),
        10 => report_gen::request(r),
        11 => aut_gen::request(r),
        12 => branch_gen::propose(r),
        13 => branch_gen::commit(r),
        14 => recording_gen::request(r),
        15 => audit_gen::request(r),
        16 => allowance_gen::request(r),
        17 => closest_gen::request(r),
        _ => {
            let mut b = bodies(r);
            if r.chance(1) {
                // a body as long as a blob can be
                let (i, n) = (r.below(3), 65535 - r.below(20));
                b[i].resize(n, 0);
            }
            let exact = 17 + b.iter().map(Vec::len).sum::<usize>();
            Request::Write { out_len: buffer_len(r, exact) as u16, bodies: b, fill: r.byte() }
        }
    }
}

/// Bytes that end a run: a request cut short, or an unknown byte with more after it.
pub fn tail(r: &mut Rng, numbers: &[u8]) -> Vec<u8> {
    let mut b = Vec::new();
    match r.below(3) {
        0 => {}
        1 => {
            request(r, numbers).bytes(&mut b);
            let k = r.below(b.len());
            b.truncate(k);
        }
        _ => {
            b.push(r.pick(&[0, 200, 255]));
            request(r, numbers).bytes(&mut b);
        }
    }
    b
}
