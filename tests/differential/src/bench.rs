//! The benchmark: the trial driver and this program, each a process that reads the same stored requests.

use crate::allowances::{self, MOST as BENCHES};
use crate::audit_gen;
use crate::audits;
use crate::aut;
use crate::aut_gen::{self, Line};
use crate::branch_gen;
use crate::branches::{self, Branch};
use crate::closest;
use crate::compare::drive;
use crate::gen::{self, Loops, Parts, Rng, Size};
use crate::line_gen;
use crate::lines;
use crate::oracle;
use crate::pattern_gen;
use crate::patterns;
use crate::protocol::Request;
use crate::recordings::{self, Which};
use crate::reports::{MOST, ROOM};
use std::collections::BTreeSet;
use std::fmt::Write as _;
use std::ops::Range;
use std::path::{Path, PathBuf};
use std::process::{Command, Stdio};
use std::time::Instant;

const SEED: u64 = 20_261_115;
const SHEETS: usize = 4;
const SIZES: [(usize, usize); 5] = [(8, 1), (16, 2), (32, 3), (64, 4), (128, 6)];
/// K's states and binders.
const K_SIZE: [(usize, usize); 1] = [(3, 2)];
/// The actions of recordings, and the binders of the rule.
const RUN_SIZES: [(usize, usize); 3] = [(10, 3), (50, 3), (127, 3)];
/// States and binders for which eight tables fit in a request, and those of the largest table.
const BENCH_SIZES: [(usize, usize); 3] = [(8, 1), (32, 3), (128, 2)];
const LARGEST_SIZE: [(usize, usize); 1] = [(128, 6)];
/// States and binders of plans that are searched for the closest state.
const SEARCH_SIZES: [(usize, usize); 3] = [(8, 1), (32, 3), (128, 6)];

/// A plan of `n` states, each with 16 transitions of 4 actions to the next 8 states (fewer near the end).
fn plan(r: &mut Rng, n: usize, back: bool) -> Vec<[u8; 3]> {
    let mut t = Vec::new();
    for i in 0..n {
        let mut ways: Vec<[u8; 3]> = Vec::new();
        for j in i + 1..(i + 9).min(n) {
            (0..4).for_each(|a| ways.push([i as u8, a, j as u8]));
        }
        r.shuffle(&mut ways);
        t.extend(ways.into_iter().take(16));
        if back && i % 4 == 3 {
            t.push([i as u8, r.below(4) as u8, r.below(i) as u8]);
        }
    }
    t.sort();
    t.dedup();
    t
}

/// Sheets of a size: out of many made at random those about the upper quarter by the work they make.
fn sheets(n: usize, binders: usize, loops: bool) -> Vec<Vec<u8>> {
    let mut all: Vec<(u64, Vec<u8>)> = Vec::new();
    let mut index = 0;
    while all.len() < 60 {
        let mut r = Rng::new(SEED, 1000 * n as u64 + 7 * index + u64::from(loops));
        index += 1;
        let z = Size {
            states: n,
            actions: 4,
            transitions: 0,
            entries: 8,
            nodes: (n / 2).min(64),
            binders,
            loops: Loops::Nowhere,
            guarded: false,
        };
        let p: Parts = gen::valid(&mut r, z);
        let p = Parts { transitions: plan(&mut r, n, loops), ..p };
        if p.nodes.iter().filter(|x| x[0] >= 7).count() != binders || p.nodes.len() != z.nodes {
            continue;
        }
        let sheet = p.sheet();
        let ok = oracle::read(&sheet).expect("a valid sheet").parts;
        let work = if loops {
            match oracle::meaning(&ok, 200_000) {
                Some((_, w)) => w,
                None => continue,
            }
        } else {
            let mut table = vec![0; ok.table_len()];
            (0..n).map(|s| oracle::query(&sheet, s as u8, &mut table).map_or(0, |q| q.1 as u64)).sum()
        };
        all.push((work, sheet));
    }
    all.sort();
    all[45 - SHEETS / 2..45 + SHEETS / 2].iter().map(|v| v.1.clone()).collect()
}

/// Sheets of a size with a rule of n / 16 nodes, each with a pattern that makes n / 2 + 2 nodes (64 at most) and so many binders of it.
fn translations(n: usize, binders: usize) -> Vec<(Vec<u8>, Vec<u8>)> {
    let nodes = (n / 2 + 2).min(64) as u64;
    let mut found = Vec::new();
    let mut index = 0;
    while found.len() < SHEETS {
        let mut r = Rng::new(SEED, 1_000_000 + 1000 * n as u64 + index);
        index += 1;
        let z = Size {
            states: n,
            actions: 4,
            transitions: 0,
            entries: 8,
            nodes: (n / 16).max(1),
            binders: 0,
            loops: Loops::Nowhere,
            guarded: false,
        };
        let p: Parts = gen::valid(&mut r, z);
        let sheet = Parts { transitions: plan(&mut r, n, false), ..p }.sheet();
        let ok = oracle::read(&sheet).expect("a valid sheet").parts;
        let items = r.range(2, n / 2);
        let mut b = pattern_gen::pattern(&mut r, z.entries, items);
        pattern_gen::pad(&mut r, &ok, &mut b, nodes, binders as u64);
        let (_, read) = patterns::read(&b, z.entries).expect("a well-formed pattern");
        // one that copies what follows it, where there is room for two copies
        let made = pattern_gen::size(&read, (ok.node_count() as u64, 0));
        if made == (nodes, binders as u64) && (pattern_gen::copies(&read) > 1 || n < 32) {
            found.push((sheet, b));
        }
    }
    found
}

fn translating(made: &[(Vec<u8>, Vec<u8>)], pattern: impl Fn(&[u8]) -> Vec<u8>) -> Vec<Request> {
    // room for the longest rule body
    made.iter().map(|(s, b)| Request::Pattern { sheet: s.clone(), pattern: pattern(b), out_len: 193, fill: 7 }).collect()
}

/// For how many actions lines are read.
const ACTIONS: u8 = 100;

/// Lines of a size. Those that one would type have n / 4 entries and are, out of many made at random, about the upper quarter by their
/// length; the others have about 500 n bytes.
fn typed(name: &str, n: usize) -> Vec<Vec<u8>> {
    let long = match name {
        LINE => {
            let mut all = Vec::new();
            let mut index = 0;
            while all.len() < 60 {
                let mut r = Rng::new(SEED, 2_000_000 + 1000 * n as u64 + index);
                index += 1;
                let line = line_gen::line(&mut r, ACTIONS, n / 4, 0);
                if lines::body(ACTIONS, &line).is_ok() {
                    all.push(line);
                }
            }
            all.sort_by_key(Vec::len);
            return all[45 - SHEETS / 2..45 + SHEETS / 2].to_vec();
        }
        PARENTHESES => [vec![b'('; 250 * n - 1], b"12".to_vec(), vec![b')'; 250 * n - 1]].concat(),
        NOTS => [&b"not ".repeat(125 * n)[..], b"12"].concat(),
        _ => vec![b'1'; 500 * n],
    };
    vec![long; SHEETS]
}

fn typing(made: Vec<Vec<u8>>) -> Vec<Request> {
    // room for the longest body
    made.into_iter().map(|line| Request::Line { actions: ACTIONS, line, out_len: 97, fill: 7 }).collect()
}

/// The transitions of a text as its lines: labels by number.
fn ways(r: &mut Rng, states: usize, labels: usize, count: usize) -> Vec<(usize, usize, usize)> {
    let mut ways = aut_gen::transitions(r, states, labels, count);
    // labels are numbered by first appearance, and so the lines are in the plan's order
    let mut numbers: Vec<usize> = Vec::new();
    for way in &mut ways {
        way.1 = numbers.iter().position(|&label| label == way.1).unwrap_or_else(|| {
            numbers.push(way.1);
            numbers.len() - 1
        });
    }
    ways.sort();
    ways
}

/// The text of an .aut file of a size.
fn drawn(name: &str, n: usize, index: u64) -> Vec<u8> {
    let mut r = Rng::new(SEED, 3_000_000 + 1000 * n as u64 + index);
    let alike = "y".repeat(400);
    let lines: Vec<(usize, String, usize)> = match name {
        AUT_LONG_LABEL => vec![(0, "x".repeat(500 * n), 1)],
        AUT_LONG_LABELS => (0..n).map(|k| (k, format!("{alike}{k}"), 0)).collect(),
        AUT_LONG_NUMBER => {
            let digits = "1".repeat(250 * n - 1);
            return format!("des (0, 1, {digits}2)\n({digits}1, \"probe\", 0)\n").into_bytes();
        }
        _ => {
            let mut ways = match name {
                AUT_SHORT => ways(&mut r, n / 8, 4, n / 4),
                AUT_ONE_LABEL => ways(&mut r, n, 1, (16 * n).min(n * n)),
                AUT_EQUAL => ways(&mut r, n, 4, n).repeat(24),
                _ => ways(&mut r, n, 2 * n - 1, 16 * n),
            };
            match name {
                AUT_IN_ORDER => {}
                AUT_IN_REVERSE => ways.reverse(),
                _ => r.shuffle(&mut ways),
            }
            ways.into_iter().map(|(from, label, to)| (from, format!("probe{label}"), to)).collect()
        }
    };
    let states = if name == AUT_SHORT { n / 8 } else { n };
    let line = |(from, label, to): (usize, String, usize)| Line { from: from.to_string(), label: label.into_bytes(), to: to.to_string() };
    let lines = lines.into_iter().map(line).collect();
    aut_gen::spelt(&mut r, 100, &aut_gen::Parts { first: "0".into(), stated: None, states: states.to_string(), lines })
}

fn drawing(made: Vec<Vec<u8>>) -> Vec<Request> {
    made.into_iter().map(|text| Request::Aut { text, out_len: aut::ROOM as u16, fill: 7 }).collect()
}

/// A sheet of n states, 2 n - 1 actions, n / 4 action entries and n / 2 nodes, and three branches for it: before all its 16 n - 1
/// transitions, among them and behind them. They all lead onward, to one of the next 8 states, and each state leads to the next.
fn branchable(n: usize, binders: usize, index: u64) -> (Vec<u8>, [Branch; 3]) {
    let mut r = Rng::new(SEED, 4_000_000 + 1000 * n as u64 + index);
    let (nodes, actions) = (n / 2, 2 * n - 1);
    let (last, most) = (n as u8 - 1, actions as u8 - 1);
    let branches = [[0, 0, 1], [last / 2, most / 2, last / 2 + 1], [last - 1, most, last]];
    let z = Size { states: n, actions, transitions: 0, entries: n / 4, nodes, binders, loops: Loops::Nowhere, guarded: false };
    loop {
        let p: Parts = gen::valid(&mut r, z);
        if p.nodes.iter().filter(|x| x[0] >= 7).count() != binders || p.nodes.len() != nodes {
            continue;
        }
        let mut found: BTreeSet<Branch> = (0..last).map(|s| [s, 1 + r.below(actions - 2) as u8, s + 1]).collect();
        while found.len() < 16 * n - 1 {
            let from = r.below(n - 1);
            let to = r.range(from + 1, (from + 8).min(n - 1));
            found.insert([from as u8, r.below(actions) as u8, to as u8]);
            branches.iter().for_each(|branch| {
                found.remove(branch);
            });
        }
        return (Parts { transitions: found.into_iter().collect(), ..p }.sheet(), branches);
    }
}

/// The request for a branch, and the same with a sheet of no bytes.
fn parking(name: &str, n: usize, binders: usize, index: u64) -> (Request, Request) {
    let (sheet, branch) = match name {
        PROPOSE_K | COMMIT_K => (gen::key(), [0, 2, 2]),
        _ => {
            let (sheet, [front, middle, end]) = branchable(n, binders, index);
            let branch = match name {
                PROPOSE => middle,
                PROPOSE_LOOP => [n as u8 - 1, 0, 0],
                COMMIT_FRONT => front,
                _ => end,
            };
            (sheet, branch)
        }
    };
    let right = if name == PROPOSE_LOOP { Err((12, 0)) } else { Ok(branch_gen::likely(&sheet, branch)) };
    assert_eq!(branches::propose(&sheet, branch), right, "{name}, n = {n}");
    if [PROPOSE, PROPOSE_LOOP, PROPOSE_K].contains(&name) {
        return (Request::Propose { sheet, branch }, Request::Propose { sheet: vec![], branch });
    }
    let (proposal, out_len) = (branch_gen::likely(&sheet, branch), sheet.len() as u16 + 3);
    let request = |sheet: Vec<u8>| Request::Commit { sheet, branch, proposal, out_len, fill: 7 };
    (request(sheet), request(vec![]))
}

/// The sheet of `examples/service.sheet`: a machine that takes one blank after the other, and a rule that holds until one is cut that was
/// not probed, or one clamped before the last was released.
fn service() -> Vec<u8> {
    let nodes = [
        [8, 0, 1], [3, 2, 16], [5, 0, 3], [3, 4, 10], [8, 1, 5], [3, 6, 8], [5, 1, 7], [0, 0, 0], [5, 3, 9],
        [6, 1, 0], [8, 2, 11], [3, 12, 14], [5, 0, 13], [0, 0, 0], [5, 5, 15], [6, 2, 0], [5, 6, 17], [6, 0, 0],
    ];
    let transitions = vec![[0, 0, 1], [1, 1, 2], [1, 2, 3], [2, 3, 4], [3, 5, 0], [4, 4, 5], [5, 5, 0]];
    let entries = vec![[2, 0, 0], [2, 3, 0], [6, 1, 2], [5, 2, 0], [2, 5, 0], [5, 4, 0], [1, 0, 0]];
    Parts { states: 6, actions: 6, transitions, entries, nodes: nodes.to_vec() }.sheet()
}

/// The rule on which a query nests deepest, its kinds exchanged, so that it holds; the plan is a chain.
fn deepest(states: u8) -> Vec<u8> {
    let mut nodes: Vec<[u8; 3]> = (0..6).map(|k| [8, k, k + 1]).collect();
    for tooth in [vec![[1, 0, 0]; 23], (0..5).rev().map(|k| [6, k, 0]).collect()].concat() {
        let at = nodes.len() as u8;
        nodes.extend([[3, at + 1, at + 2], tooth]);
    }
    nodes.extend([[5, 0, 63], [6, 5, 0]]);
    let transitions = (1..states).map(|s| [s - 1, 0, s]).collect();
    Parts { states, actions: 1, transitions, entries: vec![[1, 0, 0]], nodes }.sheet()
}

/// A recording of n actions of the machine, blank after blank, some of them worn.
fn good_run(r: &mut Rng, n: usize) -> Vec<u8> {
    let mut run = Vec::new();
    while run.len() < n {
        run.extend(r.pick(&[&[0, 1, 3, 4, 5][..], &[0, 2, 5]]));
    }
    run.truncate(n);
    run
}

/// The request for two recordings of n actions, and the same with a sheet of no bytes.
fn searching(name: &str, n: usize, index: u64) -> (Request, Request) {
    let mut r = Rng::new(SEED, 5_000_000 + 1000 * n as u64 + index);
    let (sheet, [first, mut second]) = match name {
        RUNS_DEEP => (deepest(1), [vec![0; n], vec![0; n]]),
        _ => (service(), [good_run(&mut r, n), good_run(&mut r, n)]),
    };
    let mut right = None;
    if name == RUNS_EARLY {
        second[..2].copy_from_slice(&[0, 3]);
        right = Some((Which::Second, &second[..2]));
    }
    assert_eq!(recordings::shortest(&sheet, &first, &second), Ok(right), "{name}, n = {n}");
    let request = |sheet: Vec<u8>| Request::Shortest { sheet, first: first.clone(), second: second.clone() };
    (request(sheet), request(vec![]))
}

/// A rule of so many nodes, its binders one inside the other above all else, so that nearly every mark may be at every node; below them
/// pairs, each with a leaf and a modal node above the next.
fn comb(r: &mut Rng, nodes: usize, binders: usize, entries: usize) -> Vec<[u8; 3]> {
    let mut out: Vec<[u8; 3]> = (0..binders as u8).map(|k| [7 + r.below(2) as u8, k, k + 1]).collect();
    loop {
        let at = out.len() as u8;
        let leaf = if r.chance(70) { [6, r.below(binders) as u8, 0] } else { [r.below(2) as u8, 0, 0] };
        let mut modal = |next: u8| [4 + r.below(2) as u8, r.below(entries) as u8, next];
        match nodes - out.len() {
            0 | 1 => {
                out.push(leaf);
                return out;
            }
            2 | 3 => out.push(modal(at + 1)),
            _ => {
                let below = modal(at + 3);
                out.extend([[2 + r.below(2) as u8, at + 1, at + 2], leaf, below]);
            }
        }
    }
}

/// The table that queries of all states leave.
fn left(sheet: &[u8]) -> Vec<u8> {
    let p = oracle::read(sheet).expect("a valid sheet").parts;
    let mut table = vec![0; p.table_len()];
    for s in 0..p.states as u8 {
        oracle::query(sheet, s, &mut table).expect("a plan without loops");
    }
    table
}

/// A sheet of n states and 16 n transitions, without loops, with a rule of so many nodes.
fn combed(n: usize, nodes: usize, binders: usize, index: u64) -> Vec<u8> {
    let (old, [_, branch, _]) = branchable(n, binders, index);
    let mut sheet = vec![0; old.len() + 3];
    branches::commit(&old, branch, branch_gen::likely(&old, branch), &mut sheet).expect("a branch that is taken");
    let [plan, entries, _] = oracle::contents(&sheet).expect("a valid sheet").map(|(at, length)| &sheet[at..at + length]);
    let mut r = Rng::new(SEED, 6_000_000 + 1000 * n as u64 + index);
    oracle::assemble(plan, entries, &gen::list_body(&comb(&mut r, nodes, binders, n / 4)))
}

/// A sheet with a table that a supplier filled, for a rule of n / 2 nodes.
fn supplied(name: &str, n: usize, binders: usize, index: u64) -> (Vec<u8>, Vec<u8>) {
    if name == AUDIT_K {
        let sheet = gen::key();
        let table = left(&sheet);
        return (sheet, table);
    }
    let sheet = combed(n, n / 2, binders, index);
    let ok = oracle::read(&sheet).expect("a valid sheet");
    let table = match name {
        AUDIT_FULL => audit_gen::counted(audit_gen::full(&ok.parts, false)),
        AUDIT_LIST => left(&sheet),
        _ => vec![0; ok.parts.table_len()],
    };
    (sheet, table)
}

/// The request for an audit, and the same with a sheet of no bytes.
fn auditing(name: &str, n: usize, binders: usize, index: u64) -> (Request, Request) {
    let (sheet, table) = supplied(name, n, binders, index);
    assert_eq!(audits::audit(&sheet, &table), Ok(true), "{name}, n = {n}");
    (Request::Audit { sheet, table: table.clone() }, Request::Audit { sheet: vec![], table })
}

/// What benches of these states need with tables just cleared.
fn needs(sheet: &[u8], states: &[u8]) -> Vec<usize> {
    let size = oracle::read(sheet).expect("a valid sheet").parts.table_len();
    let need = |&s: &u8| oracle::query(sheet, s, &mut vec![0; size]).expect("a plan without loops").1;
    states.iter().map(need).collect()
}

/// The request for an allowance, and the same with a sheet of no bytes. Of twelve sheets the one is taken whose benches need most.
fn granting(name: &str, n: usize, binders: usize, index: u64) -> (Request, Request) {
    let (nodes, states): (usize, Vec<u8>) = match name {
        GRANT_K => (0, vec![0, 1, 2]),
        GRANT_LARGEST => (n / 2, vec![0]),
        _ => ((n / 2).min(21), (0..BENCHES).map(|i| (i * n / BENCHES) as u8).collect()),
    };
    let made = (0..12).map(|k| combed(n, nodes, binders, index + SHEETS as u64 * k));
    let sheet = match name {
        GRANT_K => gen::key(),
        _ => made.max_by_key(|s| needs(s, &states).iter().sum::<usize>()).expect("one at least"),
    };
    let mut needs = needs(&sheet, &states);
    let size = oracle::read(&sheet).expect("a valid sheet").parts.table_len();
    let mut tables = vec![0; states.len() * size];
    let ask = |tables: &mut [u8], visits| allowances::allowance(&sheet, &states, visits, tables).expect("a plan without loops");
    if name == GRANT_FULL {
        ask(&mut tables, u32::MAX);
    }
    needs.sort();
    let visits = match name {
        GRANT_NONE | GRANT_FULL => 0,
        // enough for four of them
        GRANT_HALF => needs.iter().map(|&need| need.min(needs[3])).sum(),
        _ => needs.iter().sum::<usize>(),
    } as u32;
    let short = ask(&mut tables.clone(), visits).iter().filter(|bench| bench.short).count();
    let right = match name {
        GRANT_NONE => BENCHES,
        GRANT_HALF => needs.iter().filter(|&&need| need > needs[3]).count(),
        _ => 0,
    };
    assert_eq!(short, right, "{name}, n = {n}");
    let request = |sheet: Vec<u8>| Request::Allowance { sheet, states: states.clone(), visits, tables: tables.clone() };
    (request(sheet.clone()), request(vec![]))
}

/// A search on a table just cleared.
fn searched(sheet: &[u8]) -> (Option<(u8, u8)>, usize) {
    let size = oracle::read(sheet).expect("a valid sheet").parts.table_len();
    closest::closest(sheet, &mut vec![0; size]).expect("a plan without loops")
}

/// A rule with another beside it below an "and", a modal node over a constant: `every` T, `some` T or `every` F, of any action.
fn beside(sheet: &[u8], modal: u8, constant: u8) -> Vec<u8> {
    let [plan, entries, rule] = oracle::contents(sheet).expect("a valid sheet").map(|(at, length)| &sheet[at..at + length]);
    let mut entries = entries.to_vec();
    let (any, last) = (entries[0] - 1, entries.len() - 3);
    entries[last..].copy_from_slice(&[1, 0, 0]);
    let mut nodes = vec![[3, 1, 1 + rule[0]]];
    nodes.extend(rule[1..].chunks_exact(3).map(|c| match c[0] {
        2 | 3 => [c[0], c[1] + 1, c[2] + 1],
        4 | 5 | 7 | 8 => [c[0], c[1], c[2] + 1],
        _ => [c[0], c[1], c[2]],
    }));
    nodes.extend([[modal, any, 2 + rule[0]], [constant, 0, 0]]);
    oracle::assemble(plan, &entries, &gen::list_body(&nodes))
}

/// The request for the closest state, and the same with a sheet of no bytes. Of the first six combs that hold at every state the one is
/// taken for which a search fills most.
fn looking(name: &str, n: usize, binders: usize, index: u64) -> (Request, Request) {
    let holding = |k: u64| {
        let sheet = beside(&combed(n, (n / 2 - 3).max(binders + 1), binders, index + SHEETS as u64 * k), 5, 1);
        searched(&sheet).0.is_none().then_some(sheet)
    };
    let comb = || (0..).filter_map(holding).take(6).max_by_key(|s| searched(s).1).expect("one at least");
    let sheet = match name {
        CLOSEST_K => gen::key(),
        CLOSEST_DEEP => deepest(n as u8),
        CLOSEST_NONE => comb(),
        // what stands beside the comb is exchanged
        _ => {
            let mut sheet = comb();
            let at = sheet.len() - 6;
            (sheet[at], sheet[at + 3]) = if name == CLOSEST_LAST { (4, 1) } else { (5, 0) };
            sheet
        }
    };
    let state = searched(&sheet).0.map(|found| usize::from(found.0));
    let right = match name {
        CLOSEST_K => Some(2),
        CLOSEST_LAST => Some(n - 1),
        CLOSEST_FIRST => Some(0),
        _ => None,
    };
    assert_eq!(state, right, "{name}, n = {n}");
    let table = vec![0; oracle::read(&sheet).expect("a valid sheet").parts.table_len()];
    (Request::Closest { sheet, table: table.clone() }, Request::Closest { sheet: vec![], table })
}

struct Program {
    path: String,
    args: Vec<String>,
}

impl Program {
    fn command(&self, under: &[String], input: &Path) -> Command {
        let mut all: Vec<&String> = under.iter().collect();
        all.push(&self.path);
        all.extend(&self.args);
        let mut c = Command::new(all[0]);
        c.args(&all[1..]);
        c.stdin(std::fs::File::open(input).expect("the stored requests")).stdout(Stdio::null()).stderr(Stdio::null());
        c
    }

    fn instructions(&self, input: &Path, dir: &Path) -> Option<f64> {
        let out = dir.join("callgrind.out");
        let _ = std::fs::remove_file(&out);
        let under = ["valgrind".into(), "--tool=callgrind".into(), format!("--callgrind-out-file={}", out.display())];
        let ok = self.command(&under, input).status().ok()?.success();
        let text = std::fs::read_to_string(&out).ok()?;
        let line = text.lines().find(|l| l.starts_with("summary:")).or_else(|| text.lines().find(|l| l.starts_with("totals:")))?;
        let n = line.split_whitespace().nth(1)?.parse().ok()?;
        ok.then_some(n)
    }

    /// The shortest of some runs, in seconds.
    fn time(&self, input: &Path, runs: usize) -> f64 {
        (0..runs)
            .map(|_| {
                let mut c = self.command(&[], input);
                let begun = Instant::now();
                let _ = c.status();
                begun.elapsed().as_secs_f64()
            })
            .fold(f64::INFINITY, f64::min)
    }

    fn output(&self, input: &Path) -> Vec<u8> {
        self.command(&[], input).stdout(Stdio::piped()).output().map(|o| o.stdout).unwrap_or_default()
    }
}

struct Row {
    op: usize,
    size: usize,
    /// driver, Rust
    instructions: [f64; 2],
    seconds: [f64; 2],
    /// Neither time is within the noise.
    clear: bool,
}

const READING: &str = "reading";
const REFERENCE: &str = "reference";
const FIRST_QUERY: &str = "first query";
const LIST: &str = "list of all states";
const END_STATE: &str = "query of an end state";
const REPORT: &str = "report of 64 queries";
const PATTERN: &str = "translating a pattern";
const LONG_PATTERN: &str = "refusing a long pattern";
const LINE: &str = "reading a line";
const PARENTHESES: &str = "reading many parentheses";
const NOTS: &str = "refusing many nots";
const LONG_NUMBER: &str = "refusing a long number";
const AUT_SHORT: &str = "reading a short .aut text";
const AUT_IN_ORDER: &str = "reading .aut lines in order";
const AUT_IN_REVERSE: &str = "reading .aut lines in reverse";
const AUT_ANY_ORDER: &str = "reading .aut lines in any order";
const AUT_ONE_LABEL: &str = "reading .aut lines of one label";
const AUT_EQUAL: &str = "reading equal .aut lines";
const AUT_LONG_LABEL: &str = "reading a long .aut label";
const AUT_LONG_LABELS: &str = "reading long .aut labels";
const AUT_LONG_NUMBER: &str = "refusing a long .aut number";
const PROPOSE: &str = "proposing a branch";
const PROPOSE_LOOP: &str = "refusing a branch back to the start";
const COMMIT_FRONT: &str = "adding a branch in front";
const COMMIT_END: &str = "adding a branch at the end";
const PROPOSE_K: &str = "proposing a branch for K";
const COMMIT_K: &str = "adding a branch to K";
const RUNS: &str = "searching good runs";
const RUNS_EARLY: &str = "searching runs, one bad early";
const RUNS_DEEP: &str = "searching runs, deepest rule";
const AUDIT_FULL: &str = "auditing a full table";
const AUDIT_LIST: &str = "auditing the table of a list";
const AUDIT_EMPTY: &str = "auditing an empty table";
const AUDIT_K: &str = "auditing a table for K";
const GRANT_ALL: &str = "granting 8 benches all";
const GRANT_HALF: &str = "granting 8 benches half";
const GRANT_NONE: &str = "granting 8 benches nothing";
const GRANT_FULL: &str = "granting 8 benches that need nothing";
const GRANT_LARGEST: &str = "granting a bench of the largest table";
const GRANT_K: &str = "granting 3 benches of K";
const CLOSEST_NONE: &str = "searching a plan, none fails";
const CLOSEST_LAST: &str = "searching a plan, the last fails";
const CLOSEST_FIRST: &str = "searching a plan, state 0 fails";
const CLOSEST_DEEP: &str = "searching the deepest sheet, none fails";
const CLOSEST_K: &str = "searching K";

/// Each with its request.
const OPS: [(&str, u8); 45] = [
    (READING, 1),
    (REFERENCE, 3),
    (FIRST_QUERY, 4),
    (LIST, 4),
    (END_STATE, 4),
    (REPORT, 10),
    (PATTERN, 7),
    (LONG_PATTERN, 7),
    (LINE, 9),
    (PARENTHESES, 9),
    (NOTS, 9),
    (LONG_NUMBER, 9),
    (AUT_SHORT, 11),
    (AUT_IN_ORDER, 11),
    (AUT_IN_REVERSE, 11),
    (AUT_ANY_ORDER, 11),
    (AUT_ONE_LABEL, 11),
    (AUT_EQUAL, 11),
    (AUT_LONG_LABEL, 11),
    (AUT_LONG_LABELS, 11),
    (AUT_LONG_NUMBER, 11),
    (PROPOSE, 12),
    (PROPOSE_LOOP, 12),
    (COMMIT_FRONT, 13),
    (COMMIT_END, 13),
    (PROPOSE_K, 12),
    (COMMIT_K, 13),
    (RUNS, 14),
    (RUNS_EARLY, 14),
    (RUNS_DEEP, 14),
    (AUDIT_FULL, 15),
    (AUDIT_LIST, 15),
    (AUDIT_EMPTY, 15),
    (AUDIT_K, 15),
    (GRANT_ALL, 16),
    (GRANT_HALF, 16),
    (GRANT_NONE, 16),
    (GRANT_FULL, 16),
    (GRANT_LARGEST, 16),
    (GRANT_K, 16),
    (CLOSEST_NONE, 17),
    (CLOSEST_LAST, 17),
    (CLOSEST_FIRST, 17),
    (CLOSEST_DEEP, 17),
    (CLOSEST_K, 17),
];

/// The plots, each with what it shows and its calls. What is measured for K or for the largest table has one size and no plot.
const PLOTS: [(&str, &str, Range<usize>); 7] = [
    ("benchmark.svg", "Instructions for one request, and their ratio, by n", 0..12),
    ("benchmark-aut.svg", "The same for .aut texts", 12..21),
    ("benchmark-branches.svg", "The same for branches", 21..25),
    ("benchmark-recordings.svg", "The same for recordings", 27..30),
    ("benchmark-audits.svg", "The same for audits", 30..33),
    ("benchmark-allowances.svg", "The same for allowances", 34..38),
    ("benchmark-closest.svg", "The same for the closest state", 40..43),
];

fn stream(requests: &[Request], times: usize) -> Vec<u8> {
    let mut one = Vec::new();
    requests.iter().for_each(|r| r.bytes(&mut one));
    one.repeat(times)
}

fn list(sheets: &[Vec<u8>], states: &[u8]) -> Vec<Request> {
    let make = |s: &Vec<u8>| {
        let len = oracle::read(s).expect("a valid sheet").parts.table_len();
        Request::List { sheet: s.clone(), table_len: len as u16, fill: 7, states: states.to_vec() }
    };
    sheets.iter().map(make).collect()
}

/// As many queries as a report may have, of states all over the plan.
fn reported(n: usize) -> Vec<u8> {
    (0..MOST).map(|i| (i * n / MOST) as u8).collect()
}

fn report(sheets: &[Vec<u8>], states: &[u8]) -> Vec<Request> {
    let make = |s: &Vec<u8>| {
        let len = oracle::read(s).expect("a valid sheet").parts.table_len();
        Request::Report { sheet: s.clone(), states: states.to_vec(), table_len: len as u16, fill: 7, out_len: ROOM as u16, out_fill: 7 }
    };
    sheets.iter().map(make).collect()
}

pub fn bench(trials: &str, numbers: &[u8], out: &str) -> i32 {
    let load = load();
    let me = std::env::current_exe().expect("the path of this program");
    let dir: PathBuf = me.parent().expect("a folder").join("bench");
    if let Err(e) = std::fs::create_dir_all(&dir).and_then(|_| std::fs::create_dir_all(out)) {
        eprintln!("{e}");
        return 2;
    }
    let trials = match std::fs::canonicalize(trials) {
        Ok(p) => p.display().to_string(),
        Err(e) => {
            eprintln!("{trials}: {e}");
            return 2;
        }
    };
    let driver = Program { path: trials.clone(), args: vec![] };
    let rust = Program { path: me.display().to_string(), args: vec!["serve".into()] };
    let both = [&driver, &rust];
    let store = |name: &str, bytes: &[u8]| {
        let p = dir.join(format!("{name}.stdin"));
        std::fs::write(&p, bytes).expect("the stored requests");
        p
    };
    // the kinds of request that the driver answers
    let tried = |k: u8| [&[k][..], &[0; 20]].concat();
    let has = |k: u8| numbers.contains(&k) && drive(&trials, &tried(k), 20).is_ok_and(|o| !o.0.is_empty());

    let empty = store("empty", &[]);
    let start: Vec<f64> = both.iter().map(|p| p.instructions(&empty, &dir).unwrap_or(f64::NAN)).collect();
    if start.iter().any(|v| v.is_nan()) {
        eprintln!("valgrind --tool=callgrind gave no count; is valgrind installed?");
        return 2;
    }
    let start_time: Vec<f64> = both.iter().map(|p| p.time(&empty, 20)).collect();
    // what a request costs by itself: a hundred readings of an empty sheet
    let nothing = store("nothing", &[1, 0, 0].repeat(100));
    let each: Vec<f64> = (0..2).map(|k| (both[k].instructions(&nothing, &dir).unwrap_or(f64::NAN) - start[k]) / 100.0).collect();

    let mut rows: Vec<Row> = Vec::new();
    let mut missing = Vec::new();
    for (op, &(name, number)) in OPS.iter().enumerate() {
        if !has(number) {
            missing.push(name);
            continue;
        }
        let sizes = match name {
            PROPOSE_K | COMMIT_K | AUDIT_K | GRANT_K | CLOSEST_K => &K_SIZE[..],
            RUNS | RUNS_EARLY | RUNS_DEEP => &RUN_SIZES,
            GRANT_ALL | GRANT_HALF | GRANT_NONE | GRANT_FULL => &BENCH_SIZES,
            GRANT_LARGEST | CLOSEST_DEEP => &LARGEST_SIZE,
            CLOSEST_NONE | CLOSEST_LAST | CLOSEST_FIRST => &SEARCH_SIZES,
            _ => &SIZES,
        };
        for &(n, binders) in sizes {
            if name == REFERENCE && n > 64 {
                continue;
            }
            let (requests, base): (Vec<Request>, Vec<Request>) = match name {
                READING => (sheets(n, binders, false).into_iter().map(Request::Read).collect(), vec![Request::Read(vec![]); SHEETS]),
                REFERENCE => {
                    let s = sheets(n, binders.min(2), true);
                    (s.into_iter().map(Request::Reference).collect(), vec![Request::Reference(vec![]); SHEETS])
                }
                FIRST_QUERY | LIST | END_STATE => {
                    let s = sheets(n, binders, false);
                    // no transition of these plans leaves the last state
                    let states: Vec<u8> = match name {
                        FIRST_QUERY => vec![0],
                        LIST => (0..n as u8).collect(),
                        _ => vec![n as u8 - 1],
                    };
                    (list(&s, &states), list(&s, &[]))
                }
                REPORT => {
                    let s = sheets(n, binders, false);
                    (report(&s, &reported(n)), report(&s, &[]))
                }
                PATTERN | LONG_PATTERN => {
                    let made = translations(n, binders);
                    let long = [&[0][..], &vec![3; 500 * n - 3], &[0, 0]].concat();
                    let whole = translating(&made, |b| if name == PATTERN { b.to_vec() } else { long.clone() });
                    (whole, translating(&made, |_| vec![]))
                }
                PROPOSE | PROPOSE_LOOP | COMMIT_FRONT | COMMIT_END | PROPOSE_K | COMMIT_K => {
                    (0..SHEETS as u64).map(|index| parking(name, n, binders, index)).unzip()
                }
                RUNS | RUNS_EARLY | RUNS_DEEP => (0..SHEETS as u64).map(|index| searching(name, n, index)).unzip(),
                AUDIT_FULL | AUDIT_LIST | AUDIT_EMPTY | AUDIT_K => {
                    (0..SHEETS as u64).map(|index| auditing(name, n, binders, index)).unzip()
                }
                GRANT_ALL | GRANT_HALF | GRANT_NONE | GRANT_FULL | GRANT_LARGEST | GRANT_K => {
                    (0..SHEETS as u64).map(|index| granting(name, n, binders, index)).unzip()
                }
                CLOSEST_NONE | CLOSEST_LAST | CLOSEST_FIRST | CLOSEST_DEEP | CLOSEST_K => {
                    (0..SHEETS as u64).map(|index| looking(name, n, binders, index)).unzip()
                }
                LINE | PARENTHESES | NOTS | LONG_NUMBER => (typing(typed(name, n)), typing(vec![vec![]; SHEETS])),
                _ => {
                    let made = (0..SHEETS as u64).map(|index| drawn(name, n, index)).collect();
                    (drawing(made), drawing(vec![vec![]; SHEETS]))
                }
            };
            let tag = format!("{}-{n}", name.replace(' ', "-"));
            let input = store(&tag, &stream(&requests, 1));
            if driver.output(&input) != rust.output(&input) {
                eprintln!("{name}, n = {n}: the two programs do not answer alike; run compare");
                return 1;
            }
            let base_input = store(&format!("{tag}-base"), &stream(&base, 1));
            let mut row = Row { op, size: n, instructions: [0.0; 2], seconds: [0.0; 2], clear: true };
            for k in 0..2 {
                let whole = both[k].instructions(&input, &dir).unwrap_or(f64::NAN);
                let without = both[k].instructions(&base_input, &dir).unwrap_or(f64::NAN);
                row.instructions[k] = (whole - without) / SHEETS as f64;
            }
            // as many times over as Rust needs for a twentieth of a second, within 8 megabytes of input and output
            let once = (row.instructions[1] * SHEETS as f64 / 3e9).max(1e-7);
            let bytes = stream(&requests, 1).len() + driver.output(&input).len();
            let times = ((0.05 / once) as usize).clamp(1, (8 << 20) / bytes.max(1) + 1);
            let long = store(&tag, &stream(&requests, times));
            let long_base = store(&format!("{tag}-base"), &stream(&base, times));
            // the four runs take turns, so that a busy moment of the machine does not fall on one of them alone
            let mut whole = [f64::INFINITY; 2];
            let mut without = [f64::INFINITY; 2];
            for _ in 0..9 {
                for k in 0..2 {
                    whole[k] = both[k].time(&long, 1).min(whole[k]);
                    without[k] = both[k].time(&long_base, 1).min(without[k]);
                }
            }
            for k in 0..2 {
                row.seconds[k] = (whole[k] - without[k]) / (times * SHEETS) as f64;
                row.clear &= whole[k] - without[k] > 0.15 * whole[k];
            }
            eprintln!(
                "{name}, n = {n}: instructions {:.0} / {:.0} = {:.2}, time {:.2} / {:.2} us = {:.2} ({times} times over)",
                row.instructions[0],
                row.instructions[1],
                row.instructions[0] / row.instructions[1],
                row.seconds[0] * 1e6,
                row.seconds[1] * 1e6,
                row.seconds[0] / row.seconds[1],
            );
            rows.push(row);
        }
    }
    let mut files = vec![("BENCHMARK.md", page(&rows, &missing, &start, &start_time, &each, &load))];
    files.extend(plots(&rows).map(|(name, _, ops)| (name, plot(&rows, ops))));
    for (name, text) in files {
        let p = Path::new(out).join(name);
        if let Err(e) = std::fs::write(&p, text) {
            eprintln!("{}: {e}", p.display());
            return 2;
        }
        println!("{}", p.display());
    }
    0
}

/// The plots of which something was measured.
fn plots(rows: &[Row]) -> impl Iterator<Item = (&'static str, &'static str, Range<usize>)> + '_ {
    PLOTS.into_iter().filter(|(_, _, ops)| rows.iter().any(|r| ops.contains(&r.op)))
}

fn grouped(v: f64) -> String {
    let s = format!("{:.0}", v);
    let mut out = String::new();
    for (i, c) in s.chars().enumerate() {
        if i > 0 && (s.len() - i) % 3 == 0 && c.is_ascii_digit() {
            out.push(',');
        }
        out.push(c);
    }
    out
}

fn ratio(a: f64, b: f64, clear: bool) -> String {
    if clear && a > 0.0 && b > 0.0 { format!("{:.2}", a / b) } else { "in the noise".into() }
}

fn cpu() -> String {
    let text = std::fs::read_to_string("/proc/cpuinfo").unwrap_or_default();
    let line = text.lines().find(|l| l.starts_with("model name")).and_then(|l| l.split(':').nth(1));
    line.map_or("an unnamed processor".into(), |v| v.trim().to_string())
}

/// How busy the machine is with other work, read before the first run.
fn load() -> String {
    let text = std::fs::read_to_string("/proc/loadavg").unwrap_or_default();
    let cores = std::thread::available_parallelism().map_or(1, |n| n.get());
    format!("{} on {cores} cores", text.split(' ').next().filter(|v| !v.is_empty()).unwrap_or("unknown"))
}

/// A paragraph of at most 100 columns; what stands in backticks is not broken.
fn paragraph(text: &str) -> String {
    let mut out = String::new();
    let mut column = 0;
    let mut word = String::new();
    for piece in text.split_whitespace() {
        if !word.is_empty() {
            word.push(' ');
        }
        word += piece;
        if word.matches('`').count() % 2 == 1 {
            continue;
        }
        let length = word.chars().count();
        if column > 0 && column + 1 + length > 100 {
            out.push('\n');
            column = 0;
        } else if column > 0 {
            out.push(' ');
            column += 1;
        }
        out += &word;
        column += length;
        word.clear();
    }
    out + "\n\n"
}

fn page(rows: &[Row], missing: &[&str], start: &[f64], start_time: &[f64], each: &[f64], load: &str) -> String {
    let mut o = String::new();
    o += "# Benchmark: the trial driver against a plain Rust program\n\n";
    o += &paragraph("Made by one command, in `tests/differential` (this page and its plots are written anew by it):");
    o += "    cargo run --release --offline -- bench ../../target/bin/trials\n\n";
    o += &paragraph(
        "Both programs are processes that read the same stored requests (`target/release/bench/*.stdin`)
        on standard input and write the same lines; the command checks that they do. The driver is the
        compiled Rattle program. The Rust program is `differential serve`, the implementation that the
        differential tests compare with: linear reading, a successor index, one mask for each action
        formula, the lent table as its memo, a formula with shared parts for a pattern, a stack of waiting
        operators for a line, a hash table of the labels and a sort of the transitions for an .aut text, a
        search by halving, one through the transitions and one copy for a branch, a table of just the
        size for each beginning of a recording, one search for loops and one pass over the cells for an
        audit, at most two queries of each bench, one of them on a copy, and whole rounds dealt at once for
        an allowance, one look at the table and one search by steps, the states of each step count a set of
        bits, for the closest state; each call that takes a sheet reads it, as in the driver.",
    );
    o += &paragraph(
        "Sheets grow in every part: n states, about 16 n transitions of 4 actions, 8 action entries of any
        kind, n / 2 nodes, 1 to 6 binders (reference: at most 2 binders, some transitions back, and n up to
        64). Each figure is for one request, the mean over 4 sheets about the upper quarter, by the work
        they make, of 60 made at random. A query's figure is that of the request less that of the same
        request with no query (clearing and writing out the table); those of reading and reference are less
        that of the same request with a sheet of no bytes. A report has 64 queries, of states spread evenly
        over the plan, each asked for several times where n is under 64; its figure is less that of the
        same request with no state (clearing, the line `total 0`, writing out both buffers). Patterns are
        translated on 4 sheets with a rule
        of n / 16 nodes; they make n / 2 + 2 nodes, at most 64, and 1 to 6 binders. A long pattern has 500 n
        bytes, an action any number of times, any number of times, and so on, and is refused with 31. The
        figures of patterns are less that of the same request with a pattern of no bytes, for which the
        sheet is read as well.",
    );
    o += &paragraph(
        "Lines need no sheet; they are read for 100 actions. \"Reading a line\" is for lines of n / 4 entries,
        4 about the upper quarter, by their length, of 60 made at random. The other lines have about 500 n
        bytes: a number in parentheses, one pair inside the other, which becomes one entry; 125 n times
        `not` before a number, refused with 34; a number of 500 n digits, refused with 33. The figures of
        lines are less that of the same request with a line of no bytes.",
    );
    o += &paragraph(
        "Texts of .aut files need no sheet either. Their lines have every space that may be there, and
        labels such as `probe7`. A short text has n / 8 states, n / 4 lines and up to 4 labels. Lines in
        order are 16 n transitions of n states with 2 n - 1 labels, as they stand in the plan; then the same
        from the last to the first, and in any order. Lines of one label are 16 n transitions (64 where n is
        8) of n states, equal lines are 24 n with n different transitions of 4 labels, both in any order. A
        long label has 500 n bytes and stands in the only line; long labels are n, each in one line, and
        have 400 bytes alike and then a number. A long number: the number of states has 250 n digits, and
        the only line leaves the state with the number before it; refused with 39. The figures of texts are
        less that of the same request with a text of no bytes.",
    );
    o += &paragraph(
        "Branches are proposed for and added to 4 sheets of n states, 2 n - 1 actions, 16 n - 1 transitions,
        n / 4 action entries, n / 2 nodes and 1 to 6 binders: where n is 128, the new sheet is the longest
        that there is. Every state can be reached from state 0, and each transition leads onward, to one of
        the next 8 states. A proposed branch has its place about the middle; one from the last state back to
        state 0 closes a loop, refused with 12; a branch in front is added before all the others, one at the
        end behind them, with an output that has just the room. Then the same for K, 74 bytes with 3 states,
        and the branch 0,2,2. The figures of branches are less that of the same request with a sheet of no
        bytes, and so they have in them the reading of the sheet and its tag, which takes each of its bytes;
        adding a branch proposes it afresh first.",
    );
    o += &paragraph(
        "Two recordings are searched for the shortest beginning on which a rule fails; n is the number of
        actions of each, 10, 50 and 127. Good runs are of the machine of `examples/service.sheet`, with its
        rule of 18 nodes and 3 binders, which fails on none of their 2 n + 2 beginnings: all are judged. One
        bad early: the rule fails on the first 2 actions of the second recording. The deepest rule has 64
        nodes and 6 binders, those on which a query nests deepest, with kinds exchanged so that it fails on
        no beginning. The figures of recordings are less that of the same request with a sheet of no bytes.",
    );
    o += &paragraph(
        "Tables are audited for 4 sheets of n states, 2 n - 1 actions, 16 n transitions, n / 4 action entries,
        n / 2 nodes and 1 to 6 binders. The binders stand one inside the other above all other nodes, which
        are by turns a pair, a leaf, and a \"some\" or an \"every\". In a full table every cell with a right
        mark is filled: where n is 128, that is 128 states, 64 nodes and 7 marks, 57,344 bytes
        but for the marks that a binder's own node may not have. The table of a list is the one that queries
        of all states leave; of an empty one no cell is filled. Then K with the table that its three states
        leave. All get a yes. The figures of audits are less that of the same request with a sheet of no
        bytes, and so they have in them the reading of the sheet.",
    );
    o += &paragraph(
        "An allowance is granted on 4 sheets like those of audits, each that of twelve whose benches need
        most, with fewer nodes where eight tables would not fit in a request: n is 8, 32 and 128, there are
        4, 16 and 21 nodes, and 1, 3 and 2 binders. The states of the 8 benches are spread evenly over the
        plan. All: the tables are just cleared, and there are as many visits as are needed. Half: as many as
        are enough for four of the benches. Nothing: no visit, so that each bench is short. Benches that
        need nothing have asked before, each in its table. Then one bench with the largest table,
        128 states, 64 nodes and 7 marks, and all the visits it needs; and K with benches of states 0, 1 and
        2 and 30 visits, all they need. The figures of allowances are less that of the same request with a
        sheet of no bytes, and so they have in them the reading of the sheet, once and then in each query.",
    );
    o += &paragraph(
        "The closest state that breaks the rule is searched for on tables just cleared, for 4 sheets with
        plans and binders like those of audits: n is 8, 32 and 128, and there are 5, 16 and 64 nodes, so that
        the largest table is that of 128 states, 64 nodes and 7 marks. The rule is an \"and\"; its first
        part is a rule like those of audits that holds at every state, of six the one for which most cells
        are filled, and its second part says by every or some action whether it fails: nowhere, so that all n
        states are judged; at the last state alone, the only one that no transition leaves; or at state 0.
        Then the sheet on which a query nests deepest, with kinds exchanged so that its rule holds at each of
        128 states; and K, where state 2 is the closest. The figures of searches are less that of the same
        request with a sheet of no bytes, and so they have in them the reading of the sheet.",
    );
    o += &paragraph(
        "Instructions are those of `valgrind --tool=callgrind`; times are the shortest of 9 runs, the programs
        taking turns, and \"in the noise\" stands where what is left after taking away is under 15% of what
        was measured.",
    );
    o += &paragraph(&format!(
        "An empty run: driver {} instructions and {:.2} ms, Rust {} and {:.2} ms. A request with a sheet of
        no bytes, which is not in the figures below: driver {} instructions, Rust {}. Processor: {}; load
        average when the runs began: {load}. Other work on the machine lengthens times, not instructions.",
        grouped(start[0]), start_time[0] * 1e3, grouped(start[1]), start_time[1] * 1e3, grouped(each[0]), grouped(each[1]), cpu()
    ));
    if !missing.is_empty() {
        o += &paragraph(&format!("Not measured, since this driver does not answer the request: {}.", missing.join(", ")));
    }
    for (name, shown, _) in plots(rows) {
        let _ = writeln!(o, "![{shown}]({name})\n");
    }
    o += &paragraph(
        "\"Growth\" is the factor over the row before, where n is half as large; of recordings, where it is 10
        or 50; of allowances and closest states, where it is a quarter.",
    );
    o += "| call | n | driver, instructions | growth | Rust, instructions | growth | ratio | driver, us | Rust, us | ratio of time |\n";
    o += "|---|---:|---:|---:|---:|---:|---:|---:|---:|---:|\n";
    for (i, r) in rows.iter().enumerate() {
        let before = (i > 0 && rows[i - 1].op == r.op).then(|| &rows[i - 1]);
        let growth = |k: usize| before.map_or(String::new(), |b| format!("{:.1}", r.instructions[k] / b.instructions[k]));
        let _ = writeln!(
            o,
            "| {} | {} | {} | {} | {} | {} | {} | {:.2} | {:.2} | {} |",
            OPS[r.op].0, r.size, grouped(r.instructions[0]), growth(0), grouped(r.instructions[1]), growth(1),
            ratio(r.instructions[0], r.instructions[1], true), r.seconds[0] * 1e6, r.seconds[1] * 1e6, ratio(r.seconds[0], r.seconds[1], r.clear)
        );
    }
    o += "\n";
    o += &paragraph(
        "Each query of a list or a report reads the sheet again and looks at every cell of its table for a byte over 2
        (refusal 21); the same pass counts the filled cells, with which the stored count is compared (35).
        That is S × N × (B + 1) bytes, 57,344 at the largest size, which both programs take many at a step.
        So a list grows faster than its sheet.",
    );
    let of = |name: &str, n: usize| rows.iter().find(|r| OPS[r.op].0 == name && r.size == n);
    let beside: Vec<(&Row, &Row)> = SIZES.iter().filter_map(|&(n, _)| Some((of(READING, n)?, of(END_STATE, n)?))).collect();
    if !beside.is_empty() {
        o += &paragraph(
            "Beyond reading the sheet, the driver's query looks at the transitions of the states that can be
            reached from its own, and at a few others to find where those begin; the Rust program indexes all
            transitions first. No transition leaves an end state: what its query takes beyond the reading is
            for the rule, for the table's bytes and for a few rows. Beside the reading of the same sheets, in
            instructions:",
        );
        o += "| states | driver, reading | driver, query of an end state | ratio | Rust, reading | Rust, query of an end state | ratio |\n";
        o += "|---:|---:|---:|---:|---:|---:|---:|\n";
        for (read, end) in beside {
            let _ = write!(o, "| {} |", read.size);
            for k in 0..2 {
                let (a, b) = (read.instructions[k], end.instructions[k]);
                let _ = write!(o, " {} | {} | {} |", grouped(a), grouped(b), ratio(b, a, true));
            }
            o += "\n";
        }
    }
    o.truncate(o.trim_end().len());
    o + "\n"
}

fn plot(rows: &[Row], ops: Range<usize>) -> String {
    const COLOURS: [&str; 12] = [
        "#0072b2", "#d55e00", "#009e73", "#cc79a7", "#e69f00", "#aa4499", "#56b4e9", "#777777", "#332288", "#117733", "#882255",
        "#999933",
    ];
    let mut o = String::new();
    o += "<svg xmlns=\"http://www.w3.org/2000/svg\" width=\"960\" height=\"540\" viewBox=\"0 0 960 540\" font-family=\"sans-serif\" font-size=\"13\">\n";
    o += "<rect width=\"960\" height=\"540\" fill=\"#ffffff\"/>\n";
    let good: Vec<&Row> = rows.iter().filter(|r| ops.contains(&r.op) && r.instructions.iter().all(|v| *v > 0.0)).collect();
    let sizes: BTreeSet<usize> = good.iter().map(|r| r.size).collect();
    let x = |left: f64, n: usize| left + (n as f64 / 8.0).log2() * 92.0;
    // the left panel: instructions
    let low = good.iter().flat_map(|r| r.instructions).fold(f64::INFINITY, f64::min).log10().floor();
    let high = good.iter().flat_map(|r| r.instructions).fold(1.0, f64::max).log10().ceil();
    let y = |v: f64| 370.0 - (v.log10() - low) / (high - low).max(1.0) * 310.0;
    // the right panel: ratios, from 0
    let top = good.iter().map(|r| r.instructions[0] / r.instructions[1]).fold(1.0, f64::max).ceil();
    let z = |v: f64| 370.0 - v / top * 310.0;
    let mut frame = |left: f64, title: &str| {
        let _ = writeln!(o, "<text x=\"{}\" y=\"34\" font-size=\"15\" fill=\"#222\">{title}</text>", left - 10.0);
        let _ = writeln!(o, "<line x1=\"{}\" y1=\"370\" x2=\"{}\" y2=\"370\" stroke=\"#444\"/>", left - 10.0, left + 378.0);
        for &n in &sizes {
            let _ = writeln!(o, "<text x=\"{}\" y=\"390\" text-anchor=\"middle\" fill=\"#444\">{n}</text>", x(left, n));
        }
        let _ = writeln!(o, "<text x=\"{}\" y=\"410\" text-anchor=\"middle\" fill=\"#444\">n</text>", left + 184.0);
    };
    frame(80.0, "Instructions for one request (log scale)");
    frame(560.0, "Driver's instructions over Rust's");
    let mut tick = |left: f64, at: f64, text: String| {
        let _ = writeln!(o, "<line x1=\"{}\" y1=\"{at:.1}\" x2=\"{}\" y2=\"{at:.1}\" stroke=\"#e2e2e2\"/>", left - 10.0, left + 378.0);
        let _ = writeln!(o, "<text x=\"{}\" y=\"{:.1}\" text-anchor=\"end\" fill=\"#444\">{text}</text>", left - 16.0, at + 4.0);
    };
    let mut e = low;
    while e <= high {
        let text = match e as i32 {
            v if v >= 9 => format!("{}G", 10u64.pow(v as u32 - 9)),
            v if v >= 6 => format!("{}M", 10u64.pow(v as u32 - 6)),
            v if v >= 3 => format!("{}k", 10u64.pow(v as u32 - 3)),
            v => format!("{}", 10u64.pow(v.max(0) as u32)),
        };
        tick(80.0, y(10f64.powf(e)), text);
        e += 1.0;
    }
    let step = (top / 6.0).ceil().max(1.0);
    let mut v = 0.0;
    while v <= top {
        tick(560.0, z(v), format!("{v:.0}"));
        v += step;
    }
    let line = |points: &[(f64, f64)], colour: &str, dash: &str| {
        let path: Vec<String> = points.iter().map(|p| format!("{:.1},{:.1}", p.0, p.1)).collect();
        let mut s = format!("<polyline points=\"{}\" fill=\"none\" stroke=\"{colour}\" stroke-width=\"2\"{dash}/>\n", path.join(" "));
        for p in points {
            let _ = writeln!(s, "<circle cx=\"{:.1}\" cy=\"{:.1}\" r=\"3\" fill=\"{colour}\"/>", p.0, p.1);
        }
        s
    };
    // the legend, in as many lines as it takes
    let (mut at, mut down) = (70.0, 440.0);
    for (op, (name, _)) in OPS.iter().enumerate() {
        let mine: Vec<&&Row> = good.iter().filter(|r| r.op == op).collect();
        if mine.is_empty() {
            continue;
        }
        let colour = COLOURS[op - ops.start];
        for k in 0..2 {
            let points: Vec<(f64, f64)> = mine.iter().map(|r| (x(80.0, r.size), y(r.instructions[k]))).collect();
            o += &line(&points, colour, if k == 0 { "" } else { " stroke-dasharray=\"5 4\"" });
        }
        let points: Vec<(f64, f64)> = mine.iter().map(|r| (x(560.0, r.size), z(r.instructions[0] / r.instructions[1]))).collect();
        o += &line(&points, colour, "");
        let wide = 60.0 + 7.5 * name.len() as f64;
        if at + wide > 960.0 {
            (at, down) = (70.0, down + 24.0);
        }
        let _ = writeln!(o, "<line x1=\"{at}\" y1=\"{down}\" x2=\"{}\" y2=\"{down}\" stroke=\"{}\" stroke-width=\"3\"/>", at + 24.0, colour);
        let _ = writeln!(o, "<text x=\"{}\" y=\"{}\" fill=\"#222\">{}</text>", at + 30.0, down + 4.0, name);
        at += wide;
    }
    let _ = writeln!(o, "<text x=\"70\" y=\"{}\" fill=\"#222\">solid: driver, dashed: Rust</text>", down + 30.0);
    o += "</svg>\n";
    o
}
