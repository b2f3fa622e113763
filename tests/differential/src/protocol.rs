//! The trial driver's protocol (TRIALS.md): requests from bytes, and the lines that answer each.

use crate::allowances::Bench;
use crate::branches::{self, Branch, Proposal};
use crate::recordings::{self, Which};
use crate::{allowances, audits, aut, closest, lines, oracle, patterns, reports};
use std::io::Write;

#[derive(Clone, PartialEq, Eq, Debug)]
pub enum Request {
    Read(Vec<u8>),
    Guard(Vec<u8>),
    Reference(Vec<u8>),
    List { sheet: Vec<u8>, table_len: u16, fill: u8, states: Vec<u8> },
    Query { sheet: Vec<u8>, state: u8, table: Vec<u8> },
    Write { bodies: [Vec<u8>; 3], out_len: u16, fill: u8 },
    Pattern { sheet: Vec<u8>, pattern: Vec<u8>, out_len: u16, fill: u8 },
    Children(u8),
    Line { actions: u8, line: Vec<u8>, out_len: u16, fill: u8 },
    Report { sheet: Vec<u8>, states: Vec<u8>, table_len: u16, fill: u8, out_len: u16, out_fill: u8 },
    Aut { text: Vec<u8>, out_len: u16, fill: u8 },
    Propose { sheet: Vec<u8>, branch: Branch },
    Commit { sheet: Vec<u8>, branch: Branch, proposal: Proposal, out_len: u16, fill: u8 },
    Shortest { sheet: Vec<u8>, first: Vec<u8>, second: Vec<u8> },
    Audit { sheet: Vec<u8>, table: Vec<u8> },
    Allowance { sheet: Vec<u8>, states: Vec<u8>, visits: u32, tables: Vec<u8> },
    Closest { sheet: Vec<u8>, table: Vec<u8> },
}

fn blob(out: &mut Vec<u8>, b: &[u8]) {
    out.extend((b.len() as u16).to_le_bytes());
    out.extend(b);
}

impl Request {
    pub fn number(&self) -> u8 {
        match self {
            Request::Read(_) => 1,
            Request::Guard(_) => 2,
            Request::Reference(_) => 3,
            Request::List { .. } => 4,
            Request::Query { .. } => 5,
            Request::Write { .. } => 6,
            Request::Pattern { .. } => 7,
            Request::Children(_) => 8,
            Request::Line { .. } => 9,
            Request::Report { .. } => 10,
            Request::Aut { .. } => 11,
            Request::Propose { .. } => 12,
            Request::Commit { .. } => 13,
            Request::Shortest { .. } => 14,
            Request::Audit { .. } => 15,
            Request::Allowance { .. } => 16,
            Request::Closest { .. } => 17,
        }
    }

    pub fn bytes(&self, out: &mut Vec<u8>) {
        out.push(self.number());
        match self {
            Request::Read(s) | Request::Guard(s) | Request::Reference(s) => blob(out, s),
            Request::List { sheet, table_len, fill, states } => {
                blob(out, sheet);
                out.extend(table_len.to_le_bytes());
                out.push(*fill);
                blob(out, states);
            }
            Request::Query { sheet, state, table } => {
                blob(out, sheet);
                out.push(*state);
                blob(out, table);
            }
            Request::Write { bodies, out_len, fill } => {
                bodies.iter().for_each(|b| blob(out, b));
                out.extend(out_len.to_le_bytes());
                out.push(*fill);
            }
            Request::Pattern { sheet, pattern, out_len, fill } => {
                blob(out, sheet);
                blob(out, pattern);
                out.extend(out_len.to_le_bytes());
                out.push(*fill);
            }
            Request::Children(kind) => out.push(*kind),
            Request::Line { actions, line, out_len, fill } => {
                out.push(*actions);
                blob(out, line);
                out.extend(out_len.to_le_bytes());
                out.push(*fill);
            }
            Request::Report { sheet, states, table_len, fill, out_len, out_fill } => {
                blob(out, sheet);
                blob(out, states);
                out.extend(table_len.to_le_bytes());
                out.push(*fill);
                out.extend(out_len.to_le_bytes());
                out.push(*out_fill);
            }
            Request::Aut { text, out_len, fill } => {
                blob(out, text);
                out.extend(out_len.to_le_bytes());
                out.push(*fill);
            }
            Request::Propose { sheet, branch } => {
                blob(out, sheet);
                out.extend(branch);
            }
            Request::Commit { sheet, branch, proposal, out_len, fill } => {
                blob(out, sheet);
                out.extend(branch);
                out.extend(proposal.place.to_le_bytes());
                out.extend(proposal.length.to_le_bytes());
                out.extend(proposal.tag.to_le_bytes());
                out.extend(out_len.to_le_bytes());
                out.push(*fill);
            }
            Request::Shortest { sheet, first, second } => [sheet, first, second].into_iter().for_each(|b| blob(out, b)),
            Request::Audit { sheet, table } | Request::Closest { sheet, table } => {
                [sheet, table].into_iter().for_each(|b| blob(out, b))
            }
            Request::Allowance { sheet, states, visits, tables } => {
                blob(out, sheet);
                blob(out, states);
                out.extend(visits.to_le_bytes());
                blob(out, tables);
            }
        }
    }
}

/// A request as it lies in the input, without a copy.
pub enum View<'a> {
    Read(&'a [u8]),
    Guard(&'a [u8]),
    Reference(&'a [u8]),
    List { sheet: &'a [u8], table_len: usize, fill: u8, states: &'a [u8] },
    Query { sheet: &'a [u8], state: u8, table: &'a [u8] },
    Write { bodies: [&'a [u8]; 3], out_len: usize, fill: u8 },
    Pattern { sheet: &'a [u8], pattern: &'a [u8], out_len: usize, fill: u8 },
    Children(u8),
    Line { actions: u8, line: &'a [u8], out_len: usize, fill: u8 },
    Report { sheet: &'a [u8], states: &'a [u8], table_len: usize, fill: u8, out_len: usize, out_fill: u8 },
    Aut { text: &'a [u8], out_len: usize, fill: u8 },
    Propose { sheet: &'a [u8], branch: Branch },
    Commit { sheet: &'a [u8], branch: Branch, proposal: Proposal, out_len: usize, fill: u8 },
    Shortest { sheet: &'a [u8], first: &'a [u8], second: &'a [u8] },
    Audit { sheet: &'a [u8], table: &'a [u8] },
    Allowance { sheet: &'a [u8], states: &'a [u8], visits: u32, tables: &'a [u8] },
    Closest { sheet: &'a [u8], table: &'a [u8] },
}

pub struct Input<'a> {
    pub rest: &'a [u8],
}

impl<'a> Input<'a> {
    fn take(&mut self, n: usize) -> Option<&'a [u8]> {
        if self.rest.len() < n {
            return None;
        }
        let (a, b) = self.rest.split_at(n);
        self.rest = b;
        Some(a)
    }
    fn byte(&mut self) -> Option<u8> {
        self.take(1).map(|b| b[0])
    }
    fn word(&mut self) -> Option<usize> {
        self.take(2).map(|b| b[0] as usize + 256 * b[1] as usize)
    }
    fn blob(&mut self) -> Option<&'a [u8]> {
        let n = self.word()?;
        self.take(n)
    }
    fn long(&mut self) -> Option<u32> {
        Some(self.word()? as u32 | (self.word()? as u32) << 16)
    }
    fn branch(&mut self) -> Option<Branch> {
        Some([self.byte()?, self.byte()?, self.byte()?])
    }
    fn proposal(&mut self) -> Option<Proposal> {
        let (place, length) = (self.word()? as u16, self.word()? as u16);
        Some(Proposal { place, length, tag: self.long()? })
    }
    /// The next request; None at the end, on a request cut short and on an unknown byte.
    pub fn request(&mut self) -> Option<View<'a>> {
        Some(match self.byte()? {
            1 => View::Read(self.blob()?),
            2 => View::Guard(self.blob()?),
            3 => View::Reference(self.blob()?),
            4 => View::List { sheet: self.blob()?, table_len: self.word()?, fill: self.byte()?, states: self.blob()? },
            5 => View::Query { sheet: self.blob()?, state: self.byte()?, table: self.blob()? },
            6 => View::Write {
                bodies: [self.blob()?, self.blob()?, self.blob()?],
                out_len: self.word()?,
                fill: self.byte()?,
            },
            7 => View::Pattern { sheet: self.blob()?, pattern: self.blob()?, out_len: self.word()?, fill: self.byte()? },
            8 => View::Children(self.byte()?),
            9 => View::Line { actions: self.byte()?, line: self.blob()?, out_len: self.word()?, fill: self.byte()? },
            10 => View::Report {
                sheet: self.blob()?,
                states: self.blob()?,
                table_len: self.word()?,
                fill: self.byte()?,
                out_len: self.word()?,
                out_fill: self.byte()?,
            },
            11 => View::Aut { text: self.blob()?, out_len: self.word()?, fill: self.byte()? },
            12 => View::Propose { sheet: self.blob()?, branch: self.branch()? },
            13 => View::Commit {
                sheet: self.blob()?,
                branch: self.branch()?,
                proposal: self.proposal()?,
                out_len: self.word()?,
                fill: self.byte()?,
            },
            14 => View::Shortest { sheet: self.blob()?, first: self.blob()?, second: self.blob()? },
            15 => View::Audit { sheet: self.blob()?, table: self.blob()? },
            16 => View::Allowance { sheet: self.blob()?, states: self.blob()?, visits: self.long()?, tables: self.blob()? },
            17 => View::Closest { sheet: self.blob()?, table: self.blob()? },
            _ => return None,
        })
    }
}

fn hex(name: &str, b: &[u8], out: &mut Vec<u8>) {
    const DIGITS: &[u8; 16] = b"0123456789abcdef";
    out.extend(name.as_bytes());
    out.push(b' ');
    out.reserve(2 * b.len() + 1);
    for &v in b {
        out.extend([DIGITS[v as usize >> 4], DIGITS[v as usize & 15]]);
    }
    out.push(b'\n');
}

fn query(sheet: &[u8], state: u8, table: &mut [u8], out: &mut Vec<u8>) {
    let ((n, p), v, k) = match oracle::query(sheet, state, table) {
        Ok((v, k)) => ((0, 0), v, k),
        Err(r) => (r, false, 0),
    };
    let _ = writeln!(out, "query {n} {p} {v} {k}");
}

pub fn answer(request: &View, out: &mut Vec<u8>) {
    let _ = match request {
        View::Read(s) => {
            let ((n, p), b) = match oracle::read(s) {
                Ok(sheet) => ((0, 0), sheet.bodies),
                Err(r) => (r, [(0, 0); 3]),
            };
            writeln!(out, "read {n} {p} {} {} {} {} {} {}", b[0].0, b[0].1, b[1].0, b[1].1, b[2].0, b[2].1)
        }
        View::Guard(s) => match oracle::guard(s) {
            Ok(g) => writeln!(out, "guard 0 0 {g}"),
            Err((n, p)) => writeln!(out, "guard {n} {p} false"),
        },
        View::Reference(s) => match oracle::reference(s) {
            Ok(w) => writeln!(out, "reference 0 0 {w}"),
            Err((n, p)) => writeln!(out, "reference {n} {p} 0"),
        },
        View::List { sheet, table_len, fill, states } => {
            let mut table = vec![*fill; *table_len];
            let (n, p) = oracle::clear(sheet, &mut table).err().unwrap_or((0, 0));
            let _ = writeln!(out, "clear {n} {p}");
            for &s in *states {
                query(sheet, s, &mut table, out);
            }
            hex("table", &table, out);
            Ok(())
        }
        View::Query { sheet, state, table } => {
            let mut table = table.to_vec();
            query(sheet, *state, &mut table, out);
            hex("table", &table, out);
            Ok(())
        }
        View::Write { bodies, out_len, fill } => {
            let mut buffer = vec![*fill; *out_len];
            let ((n, p), len) = match oracle::write(bodies[0], bodies[1], bodies[2], &mut buffer) {
                Ok(len) => ((0, 0), len),
                Err(r) => (r, 0),
            };
            let _ = writeln!(out, "write {n} {p} {len}");
            hex("out", &buffer, out);
            Ok(())
        }
        View::Pattern { sheet, pattern, out_len, fill } => {
            let mut buffer = vec![*fill; *out_len];
            let ((n, p), len) = match patterns::translate(sheet, pattern, &mut buffer) {
                Ok(len) => ((0, 0), len),
                Err(r) => (r, 0),
            };
            let _ = writeln!(out, "pattern {n} {p} {len}");
            hex("out", &buffer, out);
            Ok(())
        }
        View::Children(kind) => writeln!(out, "children {}", oracle::children(*kind)),
        View::Line { actions, line, out_len, fill } => {
            let mut buffer = vec![*fill; *out_len];
            let ((n, p), len) = match lines::read(*actions, line, &mut buffer) {
                Ok(len) => ((0, 0), len),
                Err(r) => (r, 0),
            };
            let _ = writeln!(out, "line {n} {p} {len}");
            hex("out", &buffer, out);
            Ok(())
        }
        View::Report { sheet, states, table_len, fill, out_len, out_fill } => {
            let (mut table, mut buffer) = (vec![*fill; *table_len], vec![*out_fill; *out_len]);
            let ((n, p), len) = match reports::report(sheet, states, &mut table, &mut buffer) {
                Ok(len) => ((0, 0), len),
                Err(r) => (r, 0),
            };
            let _ = writeln!(out, "report {n} {p} {len}");
            hex("table", &table, out);
            hex("out", &buffer, out);
            Ok(())
        }
        View::Aut { text, out_len, fill } => {
            let mut buffer = vec![*fill; *out_len];
            let ((n, p), len) = match aut::read(text, &mut buffer) {
                Ok(len) => ((0, 0), len),
                Err(r) => (r, 0),
            };
            let _ = writeln!(out, "aut {n} {p} {len}");
            hex("out", &buffer, out);
            Ok(())
        }
        View::Propose { sheet, branch } => match branches::propose(sheet, *branch) {
            Ok(Proposal { place, length, tag }) => writeln!(out, "propose 0 0 {place} {length} {tag}"),
            Err((n, p)) => writeln!(out, "propose {n} {p} 0 0 0"),
        },
        View::Commit { sheet, branch, proposal, out_len, fill } => {
            let mut buffer = vec![*fill; *out_len];
            let ((n, p), len) = match branches::commit(sheet, *branch, *proposal, &mut buffer) {
                Ok(len) => ((0, 0), len),
                Err(r) => (r, 0),
            };
            let _ = writeln!(out, "commit {n} {p} {len}");
            hex("out", &buffer, out);
            Ok(())
        }
        View::Shortest { sheet, first, second } => {
            let ((n, p), which, part) = match recordings::shortest(sheet, first, second) {
                Ok(Some((Which::First, part))) => ((0, 0), "first", part),
                Ok(Some((Which::Second, part))) => ((0, 0), "second", part),
                Ok(None) => ((0, 0), "none", &[][..]),
                Err(r) => (r, "none", &[][..]),
            };
            hex(&format!("shortest {n} {p} {which}"), part, out);
            Ok(())
        }
        View::Audit { sheet, table } => match audits::audit(sheet, table) {
            Ok(yes) => writeln!(out, "audit 0 0 {yes}"),
            Err((n, p)) => writeln!(out, "audit {n} {p} false"),
        },
        View::Allowance { sheet, states, visits, tables } => {
            let mut tables = tables.to_vec();
            let ((n, p), benches) = match allowances::allowance(sheet, states, *visits, &mut tables) {
                Ok(benches) => ((0, 0), benches),
                Err(r) => (r, vec![]),
            };
            let _ = writeln!(out, "allowance {n} {p}");
            for Bench { need, grant, short, verdict, visits } in benches {
                let _ = writeln!(out, "bench {need} {grant} {short} {verdict} {visits}");
            }
            hex("table", &tables, out);
            Ok(())
        }
        View::Closest { sheet, table } => {
            let mut table = table.to_vec();
            let ((n, p), found, visits) = match closest::closest(sheet, &mut table) {
                Ok((found, visits)) => ((0, 0), found, visits),
                Err(r) => (r, None, 0),
            };
            let (state, steps) = found.unwrap_or((0, 0));
            let _ = writeln!(out, "closest {n} {p} {} {state} {steps} {visits}", found.is_some());
            hex("table", &table, out);
            Ok(())
        }
    };
}

/// Every answer to an input, after what `out` holds.
pub fn answer_all(input: &[u8], out: &mut Vec<u8>) {
    let mut input = Input { rest: input };
    while let Some(r) = input.request() {
        answer(&r, out);
    }
}

/// Every answer to an input.
pub fn answers(input: &[u8]) -> Vec<u8> {
    let mut out = Vec::new();
    answer_all(input, &mut out);
    out
}

/// The answer to one request.
pub fn expected(request: &Request) -> Vec<u8> {
    let mut b = Vec::new();
    request.bytes(&mut b);
    answers(&b)
}
