//! Comparisons: stored vectors, the oracle with itself, and the trial driver with the oracle.

use crate::allowance_check;
use crate::allowance_gen;
use crate::audit_check;
use crate::audit_gen;
use crate::aut;
use crate::aut_check;
use crate::aut_gen;
use crate::branch_check;
use crate::branch_gen;
use crate::branches::{Branch, Proposal};
use crate::closest_check;
use crate::gen::{self, Parts, Rng};
use crate::line_check;
use crate::line_gen;
use crate::lines;
use crate::oracle;
use crate::pattern_check;
use crate::pattern_gen;
use crate::patterns;
use crate::protocol::{self, Request};
use crate::recording_check;
use crate::recording_gen;
use crate::report_check;
use crate::reports;
use std::io::{Read, Write};
use std::process::{Command, Stdio};
use std::time::{Duration, Instant};

pub fn clock() -> u64 {
    std::time::SystemTime::now().duration_since(std::time::UNIX_EPOCH).map_or(1, |d| d.as_secs())
}

pub fn vectors(dir: &str) -> i32 {
    let mut names: Vec<_> = match std::fs::read_dir(dir) {
        Ok(d) => d.flatten().map(|e| e.path()).filter(|p| p.extension().is_some_and(|x| x == "stdin")).collect(),
        Err(e) => {
            eprintln!("{dir}: {e}");
            return 2;
        }
    };
    names.sort();
    let mut bad = i32::from(names.is_empty());
    for p in names {
        let (Ok(input), Ok(want)) = (std::fs::read(&p), std::fs::read(p.with_extension("stdout"))) else {
            println!("{}: cannot be read", p.display());
            bad = 1;
            continue;
        };
        let mut count = 0;
        let mut rest = &want[..];
        let mut inp = protocol::Input { rest: &input };
        let mut good = true;
        while let Some(r) = inp.request() {
            let mut got = Vec::new();
            protocol::answer(&r, &mut got);
            if !rest.starts_with(&got) {
                println!("{}: request {count} differs:", p.display());
                println!("  oracle {}", clip(&got));
                println!("  stored {}", clip(&rest[..got.len().min(rest.len())]));
                good = false;
                break;
            }
            rest = &rest[got.len()..];
            count += 1;
        }
        if good && !rest.is_empty() {
            println!("{}: {} stored bytes more than the oracle gives", p.display(), rest.len());
            good = false;
        }
        println!("{}: {count} requests {}", p.display(), if good { "equal" } else { "NOT equal" });
        bad |= i32::from(!good);
    }
    bad
}

/// A query is refused by 12 exactly at the states from which a loop can be reached; elsewhere its verdict is Table 1's.
/// Visits add up to the cells filled and to the stored count; a second query fills none. The children of the nodes are all
/// nodes but the root.
pub fn selfcheck(seed: u64, count: u64) -> i32 {
    let (mut sheets, mut done, mut yes) = (0u64, 0u64, 0u64);
    let mut loops = LoopTally::default();
    for i in 0..count {
        let mut r = Rng::new(seed, i);
        let z = gen::any_size(&mut r);
        let sheet = gen::valid(&mut r, z).sheet();
        let p = match oracle::read(&sheet) {
            Ok(s) => s.parts,
            Err(e) => {
                println!("seed {seed}, sheet {i}: a valid sheet was refused {e:?}");
                return 1;
            }
        };
        // each node but the root is a child of one node
        if 1 + p.nodes.chunks_exact(3).map(|n| oracle::children(n[0])).sum::<usize>() != p.node_count() {
            println!("seed {seed}, sheet {i}: the children are not the nodes below the root: {sheet:?}");
            return 1;
        }
        let Some((truth, _)) = oracle::meaning(&p, 300_000) else { continue };
        if p.states <= 64 && oracle::reference(&sheet) != Ok(truth as u64) {
            println!("seed {seed}, sheet {i}: the two reference judges differ");
            return 1;
        }
        let looping = oracle::loop_reachable_states(&p);
        let mut table = vec![r.byte(); p.table_len()];
        if oracle::clear(&sheet, &mut table).is_err() {
            println!("seed {seed}, sheet {i}: clearing was refused");
            return 1;
        }
        let (mut sum, mut refused) = (0, 0);
        for s in 0..p.states as u8 {
            let (found, again) = (oracle::query(&sheet, s, &mut table), oracle::query(&sheet, s, &mut table));
            let good = match found {
                Ok((v, k)) => {
                    sum += k;
                    done += 1;
                    yes += u64::from(v);
                    looping >> s & 1 == 0 && v == (truth >> s & 1 == 1) && again == Ok((v, 0))
                }
                refusal => {
                    refused += 1;
                    looping >> s & 1 == 1 && refusal == Err((12, 0)) && again == refusal
                }
            };
            if !good {
                println!("seed {seed}, sheet {i}, state {s}: the query differs from Table 1: {sheet:?}");
                return 1;
            }
        }
        let filled = table[..p.cells()].iter().filter(|&&v| v != 0).count();
        if sum != filled || sum != oracle::stored_count(&table, p.cells()) as usize {
            println!("seed {seed}, sheet {i}: visits are not the cells filled or not the stored count");
            return 1;
        }
        sheets += 1;
        if looping != 0 {
            loops.add(refused, p.states as u64 - refused);
        }
    }
    println!("seed {seed}: {sheets} sheets, {done} states agree with Table 1 ({yes} true)");
    println!("  plans with a loop: {loops}");
    0
}

/// What was asked of plans with a loop.
#[derive(Default)]
struct LoopTally {
    sheets: u64,
    refused: u64,
    judged: u64,
    /// Sheets of which some queries were refused by 12 and others judged.
    both: u64,
}

impl LoopTally {
    fn add(&mut self, refused: u64, judged: u64) {
        self.sheets += 1;
        self.refused += refused;
        self.judged += judged;
        self.both += u64::from(refused > 0 && judged > 0);
    }

    fn count(&mut self, r: &Request, answer: &str) {
        let (Request::List { sheet, .. } | Request::Query { sheet, .. }) = r else { return };
        let Ok(ok) = oracle::read(sheet) else { return };
        if oracle::loop_reachable_states(&ok.parts) != 0 {
            let lines = |start: &str| answer.lines().filter(|l| l.starts_with(start)).count() as u64;
            self.add(lines("query 12 "), lines("query 0 "));
        }
    }
}

impl std::fmt::Display for LoopTally {
    fn fmt(&self, f: &mut std::fmt::Formatter) -> std::fmt::Result {
        let LoopTally { sheets, refused, judged, both } = self;
        write!(f, "{sheets} sheets; of their queries {refused} refused by 12 and {judged} judged; {both} sheets had both")
    }
}

/// At most so many characters of a text.
fn cut(s: &str, most: usize) -> String {
    if s.len() > most { format!("{}... ({} characters)", s.chars().take(most).collect::<String>(), s.len()) } else { s.into() }
}

/// An answer in one line, long lines of it cut, so that what stands behind a table is seen.
pub fn clip(b: &[u8]) -> String {
    let s = String::from_utf8_lossy(b);
    let lines: Vec<String> = s.trim_end_matches('\n').split('\n').map(|line| cut(line, 300)).collect();
    cut(&lines.join(" | "), 900)
}

/// Runs the driver on an input; what it wrote, and a word on how it ended where that was not well.
pub fn drive(trials: &str, input: &[u8], seconds: u64) -> Result<(Vec<u8>, Option<String>), String> {
    let mut child = Command::new(trials)
        .stdin(Stdio::piped())
        .stdout(Stdio::piped())
        .stderr(Stdio::null())
        .spawn()
        .map_err(|e| format!("{trials}: {e}"))?;
    let mut to = child.stdin.take().expect("a pipe");
    let mut from = child.stdout.take().expect("a pipe");
    let bytes = input.to_vec();
    let writer = std::thread::spawn(move || {
        let _ = to.write_all(&bytes);
    });
    let reader = std::thread::spawn(move || {
        let mut out = Vec::new();
        let _ = from.read_to_end(&mut out);
        out
    });
    let begun = Instant::now();
    let mut ended = None;
    let mut nap = Duration::from_micros(200);
    loop {
        match child.try_wait() {
            Ok(Some(status)) => {
                if !status.success() {
                    ended = Some(format!("{status}"));
                }
                break;
            }
            Ok(None) if begun.elapsed().as_secs() >= seconds => {
                let _ = child.kill();
                let _ = child.wait();
                ended = Some(format!("no end within {seconds} s"));
                break;
            }
            Ok(None) => {
                std::thread::sleep(nap);
                nap = (nap * 2).min(Duration::from_millis(20));
            }
            Err(e) => return Err(e.to_string()),
        }
    }
    let _ = writer.join();
    Ok((reader.join().unwrap_or_default(), ended))
}

/// Does the driver answer this one request otherwise than the oracle?
fn differs(trials: &str, request: &Request) -> bool {
    let mut b = Vec::new();
    request.bytes(&mut b);
    match drive(trials, &b, 20) {
        Ok((out, ended)) => ended.is_some() || out != protocol::answers(&b),
        Err(_) => false,
    }
}

/// What was made of rules with three binders or more, least and greatest in turn.
#[derive(Default)]
struct Turns {
    /// Guard checks, references.
    made: [u64; 2],
    /// By the number of binders.
    binders: [u64; 7],
    loops: u64,
    guarded: u64,
    /// References by how many binders tell.
    telling: [u64; 7],
}

impl Turns {
    fn count(&mut self, r: &Request) {
        let (kind, sheet) = match r {
            Request::Guard(s) => (0, s),
            Request::Reference(s) => (1, s),
            _ => return,
        };
        let Ok(ok) = oracle::read(sheet) else { return };
        let n = gen::turns(&ok.parts);
        if n < 3 {
            return;
        }
        self.made[kind] += 1;
        self.binders[n] += 1;
        self.loops += u64::from(oracle::loop_reachable_states(&ok.parts) != 0);
        self.guarded += u64::from(oracle::guarded(&ok.parts));
        if kind == 1 {
            self.telling[gen::telling(sheet)] += 1;
        }
    }
}

impl std::fmt::Display for Turns {
    fn fmt(&self, f: &mut std::fmt::Formatter) -> std::fmt::Result {
        let list = |v: &[u64], from: usize| {
            v.iter().enumerate().skip(from).map(|(i, n)| format!(" {i}:{n}")).collect::<String>()
        };
        writeln!(f, "least and greatest in turn, three binders or more: {} guard checks, {} references", self.made[0], self.made[1])?;
        writeln!(f, "  binders{}; {} with a loop in the plan, {} guarded", list(&self.binders, 3), self.loops, self.guarded)?;
        write!(f, "  references by how many binders tell (exchanged, the word is another):{}", list(&self.telling, 0))
    }
}

const BATCH: u64 = 100;

pub fn compare(trials: &str, seed: u64, count: u64, numbers: &[u8], shrinking: bool) -> i32 {
    println!("seed {seed}, {count} requests of the kinds {numbers:?}");
    let begun = Instant::now();
    let mut tally: std::collections::BTreeMap<(u8, String), u64> = Default::default();
    let (mut turns, mut loops) = (Turns::default(), LoopTally::default());
    let (mut made, mut typed) = (pattern_check::Tally::default(), line_check::Tally::default());
    let (mut reported, mut drawn) = (report_check::Tally::default(), aut_check::Tally::default());
    let (mut parked, mut recorded) = (branch_check::Tally::default(), recording_check::Tally::default());
    let (mut audited, mut allowed) = (audit_check::Tally::default(), allowance_check::Tally::default());
    let mut searched = closest_check::Tally::default();
    let (mut done, mut differences, mut told) = (0u64, 0u64, 0);
    while done < count {
        let n = BATCH.min(count - done);
        let batch: Vec<Request> = (done..done + n).map(|i| gen::request_at(seed, i, numbers)).collect();
        let mut input = Vec::new();
        batch.iter().for_each(|r| r.bytes(&mut input));
        let mut ending = Rng::new(seed ^ 0x5eed, done);
        input.extend(gen::tail(&mut ending, numbers));
        let (out, ended) = match drive(trials, &input, 300) {
            Ok(v) => v,
            Err(e) => {
                println!("{e}");
                return 2;
            }
        };
        let mut rest = &out[..];
        for (k, r) in batch.iter().enumerate() {
            turns.count(r);
            made.count(r);
            typed.count(r);
            reported.count(r);
            drawn.count(r);
            parked.count(r);
            recorded.count(r);
            audited.count(r);
            allowed.count(r);
            searched.count(r);
            let want = protocol::expected(r);
            let text = String::from_utf8_lossy(&want);
            loops.count(r, &text);
            let refusal = text.split([' ', '\n']).nth(1).unwrap_or("").to_string();
            *tally.entry((r.number(), refusal)).or_default() += 1;
            // resynchronise by the number of lines
            let lines = want.iter().filter(|&&c| c == b'\n').count();
            let end = rest.iter().enumerate().filter(|(_, &c)| c == b'\n').nth(lines - 1).map_or(rest.len(), |(i, _)| i + 1);
            let got = &rest[..end];
            rest = &rest[end..];
            if got != want {
                differences += 1;
                if told < 5 {
                    told += 1;
                    println!("DIFFERENCE at request {} of seed {seed} (a request {})", done + k as u64, r.number());
                    println!("  oracle {}", clip(&want));
                    println!("  driver {}", clip(got));
                    if !shrinking {
                        continue;
                    }
                    if differs(trials, r) {
                        let small = shrink(r.clone(), &|r| differs(trials, r));
                        describe(trials, &small);
                    } else {
                        println!("  alone, the request is answered alike: the difference needs what stands before it in its batch");
                    }
                }
            }
        }
        if !rest.is_empty() {
            differences += 1;
            println!("DIFFERENCE after the batch at {done} of seed {seed}: more is written than asked: {}", clip(rest));
        }
        if let Some(e) = ended {
            println!("the driver ended with {e} in the batch at {done} of seed {seed}");
            differences += 1;
            if e.starts_with("no end") {
                return 1;
            }
        }
        done += n;
        if done % 2000 == 0 {
            eprintln!("{done} requests, {differences} differences, {:.1} s", begun.elapsed().as_secs_f64());
        }
    }
    let mut line = String::new();
    let mut last = 0;
    for ((kind, refusal), n) in &tally {
        if *kind != last {
            line += &format!("\n  request {kind}: {}", if *kind == 8 { "children" } else { "number" });
            last = *kind;
        }
        line += &format!(" {refusal}:{n}");
    }
    println!("refusal numbers met (in a request's first line), and numbers of children:{line}");
    println!("lists and queries on plans with a loop: {loops}");
    println!("{turns}");
    if numbers.contains(&7) {
        println!("{made}");
    }
    if numbers.contains(&9) {
        println!("{typed}");
    }
    if numbers.contains(&10) {
        println!("{reported}");
    }
    if numbers.contains(&11) {
        println!("{drawn}");
    }
    if numbers.contains(&12) || numbers.contains(&13) {
        println!("{parked}");
    }
    if numbers.contains(&14) {
        println!("{recorded}");
    }
    if numbers.contains(&15) {
        println!("{audited}");
    }
    if numbers.contains(&16) {
        println!("{allowed}");
    }
    if numbers.contains(&17) {
        println!("{searched}");
    }
    println!("seed {seed}: {done} requests compared, {differences} differences, {:.1} s", begun.elapsed().as_secs_f64());
    i32::from(differences > 0)
}

fn describe(trials: &str, r: &Request) {
    let mut b = Vec::new();
    r.bytes(&mut b);
    println!("  shrunk: request {} of {} bytes", r.number(), b.len());
    match r {
        Request::Read(s) | Request::Guard(s) | Request::Reference(s) => println!("    sheet {s:?}"),
        Request::List { sheet, table_len, fill, states } => {
            println!("    sheet {sheet:?}\n    table of {table_len} bytes {fill}, states {states:?}")
        }
        Request::Query { sheet, state, table } => println!("    sheet {sheet:?}\n    state {state}, table {table:?}"),
        Request::Write { bodies, out_len, fill } => {
            println!("    plan {:?}\n    actions {:?}\n    rule {:?}\n    output of {out_len} bytes {fill}", bodies[0], bodies[1], bodies[2])
        }
        Request::Pattern { sheet, pattern, out_len, fill } => {
            println!("    sheet {sheet:?}\n    pattern {pattern:?}\n    output of {out_len} bytes {fill}")
        }
        Request::Children(kind) => println!("    kind {kind}"),
        Request::Line { actions, line, out_len, fill } => {
            println!("    {actions} actions, line {:?}\n    output of {out_len} bytes {fill}", String::from_utf8_lossy(line))
        }
        Request::Report { sheet, states, table_len, fill, out_len, out_fill } => {
            println!("    sheet {sheet:?}\n    states {states:?}");
            println!("    table of {table_len} bytes {fill}, output of {out_len} bytes {out_fill}")
        }
        Request::Aut { text, out_len, fill } => {
            println!("    text {:?}\n    output of {out_len} bytes {fill}", String::from_utf8_lossy(text))
        }
        Request::Propose { sheet, branch } => println!("    sheet {sheet:?}\n    branch {branch:?}"),
        Request::Commit { sheet, branch, proposal, out_len, fill } => {
            println!("    sheet {sheet:?}\n    branch {branch:?}, {proposal:?}\n    output of {out_len} bytes {fill}")
        }
        Request::Shortest { sheet, first, second } => {
            println!("    sheet {sheet:?}\n    recordings {first:?} and {second:?}")
        }
        Request::Audit { sheet, table } | Request::Closest { sheet, table } => {
            let (cells, rest) = table.split_at(cells(sheet).min(table.len()));
            let filled: Vec<(usize, u8)> = (0..cells.len()).map(|i| (i, cells[i])).filter(|v| v.1 != 0).collect();
            println!("    sheet {sheet:?}\n    table of {} cells, those that are not 0 {filled:?}, then {rest:?}", cells.len())
        }
        Request::Allowance { sheet, states, visits, tables } => {
            println!("    sheet {sheet:?}\n    states {states:?}, {visits} visits\n    tables {tables:?}")
        }
    }
    println!("    oracle {}", clip(&protocol::answers(&b)));
    if let Ok((out, ended)) = drive(trials, &b, 20) {
        println!("    driver {}{}", clip(&out), ended.map_or(String::new(), |e| format!(" ({e})")));
    }
}

// ---- shrinking

/// A rule as a tree.
#[derive(Clone)]
struct Tree {
    kind: u8,
    x: u8,
    below: Vec<Tree>,
}

fn tree(nodes: &[[u8; 3]], i: usize) -> Tree {
    let [kind, x, y] = nodes[i];
    let below = match oracle::children(kind) {
        2 => vec![tree(nodes, x as usize), tree(nodes, y as usize)],
        1 => vec![tree(nodes, y as usize)],
        _ => vec![],
    };
    Tree { kind, x, below }
}

/// The nodes of a tree, its binders numbered afresh; None where a variable lost its binder.
fn flat(t: &Tree, open: &mut Vec<(u8, u8)>, bound: &mut u8, out: &mut Vec<[u8; 3]>) -> Option<()> {
    let at = out.len();
    let next = at as u8 + 1;
    match t.kind {
        2 | 3 => {
            out.push([t.kind, next, 0]);
            flat(&t.below[0], open, bound, out)?;
            out[at][2] = out.len() as u8;
            flat(&t.below[1], open, bound, out)?;
        }
        4 | 5 => {
            out.push([t.kind, t.x, next]);
            flat(&t.below[0], open, bound, out)?;
        }
        7 | 8 => {
            out.push([t.kind, *bound, next]);
            open.push((t.x, *bound));
            *bound += 1;
            flat(&t.below[0], open, bound, out)?;
            open.pop();
        }
        6 => out.push([6, open.iter().rev().find(|b| b.0 == t.x)?.1, 0]),
        _ => out.push([t.kind, 0, 0]),
    }
    Some(())
}

/// Every tree with one part replaced by one of its children or by a leaf.
fn smaller(t: &Tree) -> Vec<Tree> {
    let mut out = t.below.clone();
    if t.kind > 1 {
        for kind in 0..2 {
            out.push(Tree { kind, x: 0, below: vec![] });
        }
    }
    for i in 0..t.below.len() {
        for c in smaller(&t.below[i]) {
            let mut u = t.clone();
            u.below[i] = c;
            out.push(u);
        }
    }
    out
}

fn split3(b: &[u8]) -> Vec<[u8; 3]> {
    b.chunks_exact(3).map(|c| [c[0], c[1], c[2]]).collect()
}

/// Smaller bodies of a plan, an action table and a rule that are valid.
fn smaller_parts(b: &[Vec<u8>; 3]) -> Vec<[Vec<u8>; 3]> {
    let Ok(ok) = oracle::read_parts(&b[0], &b[1], &b[2]) else { return vec![] };
    let p = Parts {
        states: b[0][0],
        actions: b[0][1],
        transitions: split3(ok.transitions),
        entries: split3(ok.entries),
        nodes: split3(ok.nodes),
    };
    let mut out = Vec::new();
    // transitions, in halves first
    let n = p.transitions.len();
    let mut step = n;
    while step > 0 {
        let mut i = 0;
        while i < n && out.len() < 400 {
            let mut q = p.clone();
            q.transitions.drain(i..(i + step).min(n));
            out.push(q);
            i += step;
        }
        step /= 2;
    }
    // the rule
    for t in smaller(&tree(&p.nodes, 0)) {
        let mut nodes = Vec::new();
        if flat(&t, &mut Vec::new(), &mut 0, &mut nodes).is_some() {
            let mut q = p.clone();
            q.nodes = nodes;
            out.push(q);
        }
    }
    // entries: one out, the numbers above it one down
    for i in (0..p.entries.len()).rev() {
        let mut q = p.clone();
        q.entries.remove(i);
        let down = |v: &mut u8| if *v as usize >= i && *v > 0 { *v -= 1 };
        for e in q.entries.iter_mut() {
            if (3..6).contains(&e[0]) {
                down(&mut e[1]);
            }
            if e[0] == 3 || e[0] == 4 {
                down(&mut e[2]);
            }
        }
        for e in q.nodes.iter_mut() {
            if e[0] == 4 || e[0] == 5 {
                down(&mut e[1]);
            }
        }
        out.push(q);
    }
    // states and actions
    for s in [p.states / 2, p.states - 1] {
        let mut q = p.clone();
        q.states = s;
        q.transitions.retain(|t| t[0] < s && t[2] < s);
        out.push(q);
    }
    for a in [p.actions / 2, p.actions.saturating_sub(1)] {
        let mut q = p.clone();
        q.actions = a;
        q.transitions.retain(|t| t[1] < a);
        if a < p.actions {
            out.push(q);
        }
    }
    out.into_iter().map(|q| q.bodies()).collect()
}

/// Smaller byte strings, in pieces of falling size; with `triples`, pieces of three bytes after the first `head`.
fn smaller_bytes(b: &[u8]) -> Vec<Vec<u8>> {
    let mut out = Vec::new();
    let mut step = b.len();
    while step > 0 {
        let mut i = 0;
        while i < b.len() && out.len() < 300 {
            let mut c = b.to_vec();
            c.drain(i..(i + step).min(b.len()));
            out.push(c);
            i += step;
        }
        step /= 2;
    }
    out
}

/// Smaller bodies where some are damaged: a triple out and the count one down.
fn smaller_bodies(b: &[Vec<u8>; 3]) -> Vec<[Vec<u8>; 3]> {
    let mut out = smaller_parts(b);
    for k in 0..3 {
        let head = if k == 0 { 4 } else { 1 };
        if b[k].len() >= head + 3 {
            let n = (b[k].len() - head) / 3;
            let mut step = n;
            while step > 0 {
                let mut i = 0;
                while i < n && out.len() < 900 {
                    let m = (i + step).min(n) - i;
                    let mut c = b.clone();
                    c[k].drain(head + 3 * i..head + 3 * (i + m));
                    if k == 0 {
                        let t = (c[0][2] as u16 | (c[0][3] as u16) << 8).wrapping_sub(m as u16);
                        c[0][2..4].copy_from_slice(&t.to_le_bytes());
                    } else {
                        c[k][0] = c[k][0].wrapping_sub(m as u8);
                    }
                    out.push(c);
                    i += step;
                }
                step /= 2;
            }
        }
        for c in smaller_bytes(&b[k]).into_iter().take(60) {
            let mut d = b.clone();
            d[k] = c;
            out.push(d);
        }
    }
    out
}

fn smaller_sheets(s: &[u8]) -> Vec<Vec<u8>> {
    let mut out = Vec::new();
    if let Ok(c) = oracle::contents(s) {
        let b = c.map(|(o, l)| s[o..o + l].to_vec());
        out.extend(smaller_bodies(&b).iter().map(|b| oracle::assemble(&b[0], &b[1], &b[2])));
    }
    out.extend(smaller_bytes(s));
    out
}

fn cells(sheet: &[u8]) -> usize {
    oracle::read(sheet).map_or(0, |s| s.parts.cells())
}

/// Gives the other table a count that is off its filled cells by as much as that of the table is; nothing where one of them
/// has no room for a count.
fn recount(table: &[u8], was: usize, other: &mut [u8], now: usize) {
    if table.len() >= was + 4 && other.len() >= now + 4 {
        let filled = |t: &[u8]| t.iter().filter(|&&v| v == 1 || v == 2).count() as u32;
        let off = oracle::stored_count(table, was).wrapping_sub(filled(&table[..was]));
        let count = filled(&other[..now]).wrapping_add(off);
        other[now..now + 4].copy_from_slice(&count.to_le_bytes());
    }
}

/// A table for a sheet with `now` cells in place of `was`: the first of the cells, a count that is off by as much, the bytes
/// past it.
fn refitted(table: &[u8], was: usize, now: usize) -> Vec<u8> {
    let cells = was.min(table.len());
    let mut out = table[..cells].to_vec();
    out.resize((cells + now).saturating_sub(was), 0);
    out.extend(&table[cells..]);
    recount(table, was, &mut out, now);
    out
}

/// Cells with a piece of them emptied that has some filled.
fn emptied_pieces(cells: &[u8]) -> Vec<Vec<u8>> {
    let mut out = Vec::new();
    let mut step = cells.len();
    while step > 0 {
        for at in (0..cells.len()).step_by(step) {
            let piece = at..(at + step).min(cells.len());
            if cells[piece.clone()].iter().any(|&v| v != 0) && out.len() < 300 {
                let mut c = cells.to_vec();
                c[piece].fill(0);
                out.push(c);
            }
        }
        step /= 2;
    }
    out
}

/// Tables with a byte set to 0, a count that is off by as much as before.
fn emptied(table: &[u8], cells: usize) -> Vec<Vec<u8>> {
    let without = |i: usize| {
        let mut t = table.to_vec();
        t[i] = 0;
        recount(table, cells, &mut t, cells);
        t
    };
    (0..table.len()).filter(|&i| table[i] != 0).take(200).map(without).collect()
}

fn candidates(r: &Request) -> Vec<Request> {
    match r {
        Request::Read(s) => smaller_sheets(s).into_iter().map(Request::Read).collect(),
        Request::Guard(s) => smaller_sheets(s).into_iter().map(Request::Guard).collect(),
        Request::Reference(s) => smaller_sheets(s).into_iter().map(Request::Reference).collect(),
        Request::Children(kind) => (0..*kind).map(Request::Children).collect(),
        Request::List { sheet, table_len, fill, states } => {
            let mut out: Vec<Request> = smaller_bytes(states)
                .into_iter()
                .map(|states| Request::List { sheet: sheet.clone(), table_len: *table_len, fill: *fill, states })
                .collect();
            for s in smaller_sheets(sheet) {
                // a table that is too long by as much as before, or the same
                let fit = (*table_len as usize + cells(&s)).saturating_sub(cells(sheet)) as u16;
                for table_len in [fit, *table_len] {
                    out.push(Request::List { sheet: s.clone(), table_len, fill: *fill, states: states.clone() });
                }
            }
            out
        }
        Request::Query { sheet, state, table } => {
            let mut out = Vec::new();
            if table.iter().any(|&v| v != 0) {
                out.push(Request::Query { sheet: sheet.clone(), state: *state, table: vec![0; table.len()] });
            }
            let was = cells(sheet);
            for s in smaller_sheets(sheet) {
                let t = refitted(table, was, cells(&s));
                out.push(Request::Query { sheet: s.clone(), state: *state, table: vec![0; t.len()] });
                out.push(Request::Query { sheet: s, state: *state, table: t });
            }
            for t in emptied(table, was) {
                out.push(Request::Query { sheet: sheet.clone(), state: *state, table: t });
            }
            for s in 0..*state {
                out.push(Request::Query { sheet: sheet.clone(), state: s, table: table.clone() });
            }
            out
        }
        Request::Write { bodies, out_len, fill } => {
            let was: usize = bodies.iter().map(Vec::len).sum();
            let mut out = Vec::new();
            for b in smaller_bodies(bodies) {
                let now: usize = b.iter().map(Vec::len).sum();
                let fit = (*out_len as usize + now).saturating_sub(was) as u16;
                for out_len in [fit, *out_len] {
                    out.push(Request::Write { bodies: b.clone(), out_len, fill: *fill });
                }
            }
            for l in [0, out_len / 2, out_len.saturating_sub(1)] {
                if l < *out_len {
                    out.push(Request::Write { bodies: bodies.clone(), out_len: l, fill: *fill });
                }
            }
            out
        }
        Request::Pattern { sheet, pattern, out_len, fill } => {
            let length = |s: &[u8], b: &[u8]| {
                oracle::read(s).ok().and_then(|s| patterns::body(&s.parts, b).ok()).map_or(0, |body| body.len())
            };
            let was = length(sheet, pattern);
            let mut out = Vec::new();
            let mut put = |sheet: &[u8], pattern: &[u8], out_len: u16| {
                out.push(Request::Pattern { sheet: sheet.to_vec(), pattern: pattern.to_vec(), out_len, fill: *fill })
            };
            for b in pattern_gen::smaller(pattern).iter().chain(&smaller_bytes(pattern)) {
                put(sheet, b, (*out_len as usize + length(sheet, b)).saturating_sub(was) as u16);
                put(sheet, b, *out_len);
            }
            for s in smaller_sheets(sheet) {
                put(&s, pattern, (*out_len as usize + length(&s, pattern)).saturating_sub(was) as u16);
                put(&s, pattern, *out_len);
            }
            for l in [0, out_len / 2, out_len.saturating_sub(1)] {
                if l < *out_len {
                    put(sheet, pattern, l);
                }
            }
            out
        }
        Request::Line { actions, line, out_len, fill } => {
            let length = |actions: u8, line: &[u8]| lines::body(actions, line).map_or(0, |body| body.len());
            let was = length(*actions, line);
            let mut out = Vec::new();
            let mut put = |actions: u8, line: &[u8], out_len: u16| {
                out.push(Request::Line { actions, line: line.to_vec(), out_len, fill: *fill })
            };
            for l in line_gen::smaller(line).iter().chain(&smaller_bytes(line)) {
                put(*actions, l, (*out_len as usize + length(*actions, l)).saturating_sub(was) as u16);
                put(*actions, l, *out_len);
            }
            for a in [0, actions / 2, actions.saturating_sub(1)] {
                if a < *actions {
                    put(a, line, *out_len);
                }
            }
            for l in [0, out_len / 2, out_len.saturating_sub(1)] {
                if l < *out_len {
                    put(*actions, line, l);
                }
            }
            out
        }
        Request::Report { sheet, states, table_len, fill, out_len, out_fill } => {
            let mut out = Vec::new();
            let mut put = |sheet: &[u8], states: &[u8], table_len: u16, out_len: u16| {
                let (sheet, states) = (sheet.to_vec(), states.to_vec());
                out.push(Request::Report { sheet, states, table_len, fill: *fill, out_len, out_fill: *out_fill })
            };
            for states in smaller_bytes(states) {
                put(sheet, &states, *table_len, *out_len);
            }
            for s in smaller_sheets(sheet) {
                let fit = (*table_len as usize + cells(&s)).saturating_sub(cells(sheet)) as u16;
                put(&s, states, fit, *out_len);
                put(&s, states, *table_len, *out_len);
            }
            for l in [0, reports::ROOM as u16 - 1, reports::ROOM as u16] {
                if l < *out_len {
                    put(sheet, states, *table_len, l);
                }
            }
            out
        }
        Request::Aut { text, out_len, fill } => {
            let length = |text: &[u8]| aut::body(text).map_or(0, |body| body.len());
            let was = length(text);
            let mut out = Vec::new();
            let mut put = |text: &[u8], out_len: u16| out.push(Request::Aut { text: text.to_vec(), out_len, fill: *fill });
            for t in aut_gen::smaller(text).iter().chain(&smaller_bytes(text)) {
                put(t, (*out_len as usize + length(t)).saturating_sub(was) as u16);
                put(t, *out_len);
            }
            for l in [0, out_len / 2, out_len.saturating_sub(1)] {
                if l < *out_len {
                    put(text, l);
                }
            }
            out
        }
        Request::Propose { sheet, branch } => {
            let fewer = smaller_sheets(sheet).into_iter().map(|sheet| Request::Propose { sheet, branch: *branch });
            let lower = branch_gen::smaller(*branch).into_iter().map(|branch| Request::Propose { sheet: sheet.clone(), branch });
            fewer.chain(lower).collect()
        }
        Request::Commit { sheet, branch, proposal, out_len, fill } => {
            let was = branch_gen::likely(sheet, *branch);
            let mut out = Vec::new();
            let mut put = |sheet: &[u8], branch: Branch, proposal: Proposal, out_len: u16| {
                out.push(Request::Commit { sheet: sheet.to_vec(), branch, proposal, out_len, fill: *fill })
            };
            for s in smaller_sheets(sheet) {
                // a proposal that is off by as much as before and an output that is too long by as much, or the same
                let fit = (*out_len as usize + s.len()).saturating_sub(sheet.len()) as u16;
                put(&s, *branch, branch_gen::moved(*proposal, was, branch_gen::likely(&s, *branch)), fit);
                put(&s, *branch, *proposal, *out_len);
            }
            for b in branch_gen::smaller(*branch) {
                put(sheet, b, branch_gen::moved(*proposal, was, branch_gen::likely(sheet, b)), *out_len);
            }
            for l in [0, out_len / 2, out_len.saturating_sub(1)] {
                if l < *out_len {
                    put(sheet, *branch, *proposal, l);
                }
            }
            out
        }
        Request::Shortest { sheet, first, second } => {
            let mut out = Vec::new();
            let mut put = |sheet: &[u8], first: &[u8], second: &[u8]| {
                out.push(Request::Shortest { sheet: sheet.to_vec(), first: first.to_vec(), second: second.to_vec() })
            };
            smaller_bytes(first).iter().for_each(|run| put(sheet, run, second));
            smaller_bytes(second).iter().for_each(|run| put(sheet, first, run));
            smaller_sheets(sheet).iter().for_each(|s| put(s, first, second));
            recording_gen::lower(first).iter().for_each(|run| put(sheet, run, second));
            recording_gen::lower(second).iter().for_each(|run| put(sheet, first, run));
            out
        }
        Request::Audit { sheet, table } => {
            let was = cells(sheet);
            let mut out = Vec::new();
            let mut put = |sheet: &[u8], table: Vec<u8>| out.push(Request::Audit { sheet: sheet.to_vec(), table });
            if table.len() >= was + 4 {
                // cells emptied, in pieces of falling size, and then all that do not follow any more
                for cells in emptied_pieces(&table[..was]) {
                    let mut t = [&cells[..], &table[was..]].concat();
                    put(sheet, audit_gen::following(sheet, &cells));
                    recount(table, was, &mut t, was);
                    put(sheet, t);
                }
            }
            for s in smaller_sheets(sheet) {
                let t = refitted(table, was, cells(&s));
                if t.len() >= cells(&s) + 4 {
                    put(&s, audit_gen::following(&s, &t[..cells(&s)]));
                    put(&s, audit_gen::whole(&s));
                }
                put(&s, t);
            }
            out
        }
        Request::Allowance { sheet, states, visits, tables } => {
            let was = cells(sheet);
            let size = was + 4;
            let mut out = Vec::new();
            let mut put = |sheet: &[u8], states: &[u8], visits: u32, tables: Vec<u8>| {
                out.push(Request::Allowance { sheet: sheet.to_vec(), states: states.to_vec(), visits, tables })
            };
            // a bench less, with its table
            for i in 0..states.len() {
                let own = (i * size).min(tables.len())..((i + 1) * size).min(tables.len());
                let others = [&states[..i], &states[i + 1..]].concat();
                put(sheet, &others, *visits, [&tables[..own.start], &tables[own.end..]].concat());
                put(sheet, &others, *visits, tables.clone());
            }
            let each: Vec<&[u8]> = tables.chunks(size).collect();
            for (i, own) in each.iter().enumerate().filter(|v| v.1.len() == size) {
                let with = |t: &[u8]| [&each[..i], &[t], &each[i + 1..]].concat().concat();
                put(sheet, states, *visits, with(&vec![0; size]));
                emptied(own, was).iter().for_each(|t| put(sheet, states, *visits, with(t)));
            }
            put(sheet, states, *visits, tables[..tables.len().min(states.len() * size)].to_vec());
            for v in [0, visits / 2, visits.saturating_sub(1)] {
                if v < *visits {
                    put(sheet, states, v, tables.clone());
                }
            }
            for (i, &s) in states.iter().enumerate().filter(|v| *v.1 > 0) {
                let mut lower = states.clone();
                lower[i] = s - 1;
                put(sheet, &lower, *visits, tables.clone());
            }
            // visits that are off the needs by as much as before, or the same
            let off = visits.wrapping_sub(allowance_gen::needs(sheet, states, tables, size));
            for s in smaller_sheets(sheet) {
                let other: Vec<u8> = each.iter().flat_map(|t| refitted(t, was, cells(&s))).collect();
                let fit = allowance_gen::needs(&s, states, &other, cells(&s) + 4).wrapping_add(off);
                for v in [fit, *visits] {
                    put(&s, states, v, other.clone());
                }
            }
            out
        }
        Request::Closest { sheet, table } => {
            let was = cells(sheet);
            let mut out = Vec::new();
            let mut put = |sheet: &[u8], table: Vec<u8>| out.push(Request::Closest { sheet: sheet.to_vec(), table });
            if table.iter().any(|&v| v != 0) {
                put(sheet, vec![0; table.len()]);
            }
            for s in smaller_sheets(sheet) {
                let t = refitted(table, was, cells(&s));
                put(&s, vec![0; t.len()]);
                put(&s, t);
            }
            emptied(table, was).into_iter().for_each(|t| put(sheet, t));
            out
        }
    }
}

/// The first smaller request that still differs, again and again, for at most a minute.
pub fn shrink(mut r: Request, bad: &dyn Fn(&Request) -> bool) -> Request {
    let begun = Instant::now();
    'again: loop {
        for c in candidates(&r) {
            if begun.elapsed().as_secs() > 60 {
                return r;
            }
            if c != r && bad(&c) {
                r = c;
                continue 'again;
            }
        }
        return r;
    }
}
