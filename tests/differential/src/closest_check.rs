//! The closest state: against ways of each length, against queries of each state on a copy of the first table, against queries one after
//! the other and against Table 1; and a tally of the searches that were made.

use crate::audit_gen;
use crate::audits;
use crate::closest::{self, Broken};
use crate::closest_gen;
use crate::gen::{self, Parts, Rng};
use crate::oracle::{self, Refusal};
use crate::protocol::Request;
use crate::tell;

/// The reachable states with their steps, by steps and then by number: a state has k steps where a way of k transitions ends at it and no
/// shorter one does.
fn ordered(p: &oracle::Parts) -> Vec<Broken> {
    let (mut out, mut ends): (Vec<Broken>, Vec<bool>) = (Vec::new(), (0..p.states).map(|s| s == 0).collect());
    for steps in 0..p.states as u8 {
        let new = (0..p.states as u8).filter(|&s| ends[s as usize] && out.iter().all(|v| v.0 != s)).collect::<Vec<u8>>();
        out.extend(new.into_iter().map(|s| (s, steps)));
        let mut after = vec![false; p.states];
        p.transitions.chunks_exact(3).filter(|c| ends[c[0] as usize]).for_each(|c| after[c[2] as usize] = true);
        ends = after;
    }
    out
}

/// By the second reading: what is given, and the table then. Each state is judged by a query on a copy of the first table, and the cells
/// that any of them fills are filled.
fn right(sheet: &[u8], table: &[u8]) -> Result<(Option<Broken>, usize, Vec<u8>), Refusal> {
    oracle::query(sheet, 0, &mut table.to_vec())?;
    let p = oracle::read(sheet)?.parts;
    let (mut left, mut found) = (table.to_vec(), None);
    for (state, steps) in ordered(&p) {
        let mut copy = table.to_vec();
        let (verdict, _) = oracle::query(sheet, state, &mut copy)?;
        for (cell, value) in left[..p.cells()].iter_mut().zip(copy) {
            *cell = value.max(*cell);
        }
        if !verdict {
            found = Some((state, steps));
            break;
        }
    }
    let filled = |t: &[u8]| t[..p.cells()].iter().filter(|&&v| v > 0).count();
    let visits = filled(&left) - filled(table);
    let count = filled(&left) as u32;
    left[p.cells()..p.cells() + 4].copy_from_slice(&count.to_le_bytes());
    Ok((found, visits, left))
}

/// What was found to agree.
#[derive(Default)]
struct Agreed {
    /// By the steps: 0, 1, 2, more.
    fails: [u64; 4],
    everywhere: u64,
    /// Searches whose verdicts are Table 1's.
    by_table_1: u64,
    /// With 1 to 10, 12, 20, 21, 35.
    refused: [u64; 5],
}

impl std::fmt::Display for Agreed {
    fn fmt(&self, f: &mut std::fmt::Formatter) -> std::fmt::Result {
        let Agreed { fails: [none, one, two, more], everywhere, by_table_1, refused: [sheets, loops, short, bytes, count] } = self;
        write!(f, "searches are right: the closest state is 0 {none}, by one step {one}, by two {two}, by more {more}; ")?;
        write!(f, "the rule holds everywhere {everywhere}")?;
        if *by_table_1 > 0 {
            write!(f, "; {by_table_1} answers are Table 1's")?;
        }
        write!(f, "; refused as they should be: 1 to 10:{sheets} 12:{loops} 20:{short} 21:{bytes} 35:{count}")
    }
}

impl Agreed {
    /// Answer and table are those of the second reading, and those of queries one after the other; where the audit says yes of the table,
    /// the answer is Table 1's.
    fn check(&mut self, sheet: &[u8], table: &[u8]) -> Result<(), String> {
        const WORK: u64 = 100_000;
        let told = |what: String| format!("sheet {sheet:?}, table {table:?}: {what}");
        let mut left = table.to_vec();
        let found = match (closest::closest(sheet, &mut left), right(sheet, table)) {
            (Ok((found, visits)), Ok(right)) if (found, visits, &left) == (right.0, right.1, &right.2) => found,
            (Err(number), Err(right)) if number == right && left == table => {
                self.refused[[12, 20, 21, 35].iter().position(|&n| n == number.0).map_or(0, |at| at + 1)] += 1;
                return Ok(());
            }
            (found, right) => return Err(told(format!("{found:?} and {left:?}, where {right:?} is right"))),
        };
        match found {
            None => self.everywhere += 1,
            Some((_, steps)) => self.fails[usize::from(steps).min(3)] += 1,
        }
        let p = oracle::read(sheet).map_err(|e| told(format!("{e:?}")))?.parts;
        let (order, mut one) = (ordered(&p), table.to_vec());
        let verdicts = order.iter().map(|v| oracle::query(sheet, v.0, &mut one));
        // to the first that fails
        let first = verdicts.take_while(|v| matches!(v, Ok((true, _)))).count();
        if order.get(first).copied() != found || one != left {
            return Err(told("queries one after the other find or leave another".into()));
        }
        if let (Some((truth, _)), Ok(true)) = (oracle::meaning(&p, WORK), audits::audit(sheet, table)) {
            if order.into_iter().find(|v| truth >> v.0 & 1 == 0) != found {
                return Err(told("the answer is not Table 1's".into()));
            }
            self.by_table_1 += 1;
        }
        Ok(())
    }
}

fn random(seed: u64, count: u64) -> Result<Agreed, String> {
    let mut agreed = Agreed::default();
    for i in 0..count {
        let mut r = Rng::new(seed ^ 0xc105, i);
        let (sheet, table) = closest_gen::any(&mut r);
        agreed.check(&sheet, &table).map_err(|e| format!("seed {seed}, search {i}, {e}"))?;
    }
    Ok(agreed)
}

/// Rules of few nodes: nothing, anything, an action can be done, none can, and one can after each.
const RULES: [&[[u8; 3]]; 6] = [
    &[[0, 0, 0]],
    &[[1, 0, 0]],
    &[[4, 0, 1], [1, 0, 0]],
    &[[5, 0, 1], [0, 0, 0]],
    &[[5, 0, 1], [4, 0, 2], [1, 0, 0]],
    &[[7, 0, 1], [4, 0, 2], [6, 0, 0]],
];

/// Every choice of transitions between pairs of states.
fn plans(states: u8, pairs: Vec<[u8; 3]>) -> impl Iterator<Item = (u8, Vec<[u8; 3]>)> {
    (0..1u32 << pairs.len()).map(move |chosen| {
        let some = pairs.iter().enumerate().filter(|(k, _)| chosen >> k & 1 == 1);
        (states, some.map(|(_, &pair)| pair).collect())
    })
}

/// Every plan of up to three states and one action, and every one of four whose transitions lead to higher numbers, for each rule; tables
/// with the roots' cells filled in every way, and some at random.
fn small(seed: u64) -> Result<Agreed, String> {
    let mut agreed = Agreed::default();
    let pairs = |n: u8| (0..n * n).map(move |k| [k / n, 0, k % n]);
    let every = (1..=3).flat_map(|n| plans(n, pairs(n).collect()));
    let rising = plans(4, pairs(4).filter(|c| c[0] < c[2]).collect());
    for (i, (states, transitions)) in every.chain(rising).enumerate() {
        for (rule, nodes) in RULES.iter().enumerate() {
            let transitions = transitions.clone();
            let sheet = Parts { states, actions: 1, transitions, entries: vec![[1, 0, 0]], nodes: nodes.to_vec() }.sheet();
            let (n, states) = (gen::cells(&sheet), usize::from(states));
            for k in 0..3usize.pow(states as u32) {
                let mut cells = vec![0; n];
                (0..states).for_each(|s| cells[s * (n / states)] = (k / 3usize.pow(s as u32) % 3) as u8);
                agreed.check(&sheet, &audit_gen::counted(cells))?;
            }
            let mut r = Rng::new(seed, 1000 * i as u64 + rule as u64);
            for often in [10, 30, 60] {
                let cells = (0..n).map(|_| if r.chance(often) { 1 + r.below(2) as u8 } else { 0 }).collect();
                agreed.check(&sheet, &audit_gen::counted(cells))?;
            }
        }
    }
    Ok(agreed)
}

/// The key sheet with tables just cleared and filled: every count up to 300 and every bit of it, every length, every byte in the place of
/// every cell, with the count that is then right and with the one before.
fn key() -> Result<Agreed, String> {
    let sheet = gen::key();
    let mut agreed = Agreed::default();
    let mut full = vec![0; 112];
    if closest::closest(&sheet, &mut full) != Ok((Some((2, 2)), 26)) {
        return Err("the key sheet".into());
    }
    for table in [vec![0; 112], full] {
        let filled = oracle::stored_count(&table, 108);
        for count in (0..300).chain((0..32).map(|bit| filled ^ 1 << bit)) {
            agreed.check(&sheet, &[&table[..108], &u32::to_le_bytes(count)].concat())?;
        }
        for length in 0..130 {
            let mut other = table.clone();
            other.resize(length, 9);
            agreed.check(&sheet, &other)?;
        }
        for i in 0..108 {
            for v in 0..=255 {
                let mut other = table.clone();
                other[i] = v;
                agreed.check(&sheet, &other)?;
                agreed.check(&sheet, &audit_gen::counted(other[..108].to_vec()))?;
            }
        }
    }
    Ok(agreed)
}

pub fn selfcheck(seed: u64, count: u64) -> i32 {
    tell([
        (format!("seed {seed}"), random(seed, count)),
        ("small plans".into(), small(seed)),
        ("the closest state of the key sheet".into(), key()),
    ])
}

/// What was made of searches, for `compare`.
#[derive(Default)]
pub struct Tally {
    /// By the steps: 0, 1, 2, 3 to 9, more.
    fails: [u64; 5],
    /// The rule holds everywhere, by the number of reachable states: 1, 2 to 9, more.
    everywhere: [u64; 3],
    /// Others that break the rule: as near with a higher number, farther with a lower number, out of reach.
    others: [u64; 3],
    /// On a plan with a loop that can't be reached.
    loops: u64,
    /// A table with filled cells, and one whose audit says no.
    filled: [u64; 2],
    steps: u8,
    visits: usize,
}

impl Tally {
    pub fn count(&mut self, r: &Request) {
        let Request::Closest { sheet, table } = r else { return };
        let (Ok(ok), Ok((found, visits))) = (oracle::read(sheet), closest::closest(sheet, &mut table.clone())) else { return };
        let (p, order) = (&ok.parts, ordered(&ok.parts));
        let looping = oracle::loop_reachable_states(p);
        let fails = |s: u8| looping >> s & 1 == 0 && oracle::query(sheet, s, &mut table.clone()).is_ok_and(|v| !v.0);
        self.loops += u64::from(looping != 0);
        self.filled[0] += u64::from(oracle::stored_count(table, p.cells()) > 0);
        self.filled[1] += u64::from(audits::audit(sheet, table) == Ok(false));
        self.visits = self.visits.max(visits);
        let away = |s: u8| order.iter().all(|v| v.0 != s);
        self.others[2] += u64::from((0..p.states as u8).any(|s| away(s) && fails(s)));
        let Some((state, steps)) = found else {
            self.everywhere[match order.len() {
                1 => 0,
                2..=9 => 1,
                _ => 2,
            }] += 1;
            return;
        };
        self.fails[match steps {
            0..=2 => usize::from(steps),
            3..=9 => 3,
            _ => 4,
        }] += 1;
        self.steps = self.steps.max(steps);
        self.others[0] += u64::from(order.iter().any(|v| v.1 == steps && v.0 > state && fails(v.0)));
        self.others[1] += u64::from(order.iter().any(|v| v.1 > steps && v.0 < state && fails(v.0)));
    }
}

impl std::fmt::Display for Tally {
    fn fmt(&self, f: &mut std::fmt::Formatter) -> std::fmt::Result {
        let Tally { fails: [none, one, two, few, many], everywhere: [alone, some, more], others: [near, lower, out], .. } = self;
        let Tally { loops, filled: [filled, wrong], steps, visits, .. } = self;
        writeln!(f, "closest states: 0 {none}, by one step {one}, by two {two}, by 3 to 9 {few}, by more {many} (the most {steps});")?;
        write!(f, "  the rule holds everywhere, of one reachable state {alone}, of 2 to 9 {some}, of more {more}; ")?;
        writeln!(f, "others fail, as near {near}, farther with a lower number {lower}, out of reach {out};")?;
        write!(f, "  on a plan with a loop {loops}; tables with filled cells {filled}, with a no of the audit {wrong}; ")?;
        write!(f, "the most visits {visits}")
    }
}
