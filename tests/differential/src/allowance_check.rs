//! Allowances: dealing against a queue of benches, the results against queries on each table alone and against Table 1, and a tally of the
//! benches that were made.

use crate::allowance_gen;
use crate::allowances::{self, Bench, MOST};
use crate::audits;
use crate::gen::{self, Rng};
use crate::oracle::{self, Refusal};
use crate::protocol::Request;
use crate::tell;
use std::collections::VecDeque;

/// A second reading of dealing: the benches still short wait in a queue; the first gets a visit and, where it still is short, goes to the
/// end.
fn queued(needs: &[usize], visits: usize) -> Vec<usize> {
    let mut grants = vec![0; needs.len()];
    let mut short: VecDeque<usize> = (0..needs.len()).filter(|&i| needs[i] > 0).collect();
    for _ in 0..visits {
        let Some(i) = short.pop_front() else { break };
        grants[i] += 1;
        if grants[i] < needs[i] {
            short.push_back(i);
        }
    }
    grants
}

/// The grants are those of the queue; each has at least the lesser of its need and an equal share, and all together the visits or what is
/// needed.
fn dealt(needs: &[usize], visits: usize) -> Result<(), String> {
    let mut benches: Vec<Bench> = needs.iter().map(|&need| Bench { need, ..Bench::default() }).collect();
    allowances::deal(&mut benches, visits);
    let (grants, right): (Vec<usize>, _) = (benches.iter().map(|b| b.grant).collect(), queued(needs, visits));
    let share = visits / needs.len().max(1);
    let fair = needs.iter().zip(&grants).all(|(&need, &grant)| need.min(share) <= grant && grant <= need);
    let all = grants.iter().sum::<usize>() == needs.iter().sum::<usize>().min(visits);
    match grants == right && fair && all {
        true => Ok(()),
        false => Err(format!("needs {needs:?}, {visits} visits: dealt {grants:?}, where {right:?} is right")),
    }
}

/// By the second reading: what is given, and the buffer then.
fn right(sheet: &[u8], states: &[u8], visits: u32, tables: &[u8]) -> Result<(Vec<Bench>, Vec<u8>), Refusal> {
    if !(1..=8).contains(&states.len()) {
        return Err((44, 0));
    }
    let p = oracle::read(sheet)?.parts;
    let (cells, size) = (p.cells(), p.cells() + 4);
    // each bench's table before and after its query
    let mut pairs = Vec::new();
    for (i, &state) in states.iter().enumerate() {
        let before: Vec<u8> = tables.iter().skip(i * size).take(size).copied().collect();
        let mut after = before.clone();
        let (verdict, _) = oracle::query(sheet, state, &mut after)?;
        let need = (0..cells).filter(|&c| before[c] == 0 && after[c] != 0).count();
        pairs.push((before, after, verdict, need));
    }
    let needs: Vec<usize> = pairs.iter().map(|v| v.3).collect();
    let grants = queued(&needs, visits as usize);
    let (mut benches, mut left) = (Vec::new(), Vec::new());
    for ((before, after, verdict, need), grant) in pairs.into_iter().zip(grants) {
        let short = grant != need;
        benches.push(Bench { need, grant, short, verdict: verdict && !short, visits: if short { 0 } else { need } });
        left.extend(if short { before } else { after });
    }
    left.extend(&tables[left.len()..]);
    Ok((benches, left))
}

/// What was found to agree.
#[derive(Default)]
struct Agreed {
    calls: u64,
    /// Benches that queried and that were short.
    queried: u64,
    short: u64,
    /// Verdicts that are Table 1's.
    verdicts: u64,
    /// With 1 to 10, 11, 12, 20, 21, 35, 44.
    refused: [u64; 7],
}

impl std::fmt::Display for Agreed {
    fn fmt(&self, f: &mut std::fmt::Formatter) -> std::fmt::Result {
        let Agreed { calls, queried, short, verdicts, refused: [sheets, eleven, twelve, twenty, over, count, benches] } = self;
        write!(f, "{calls} allowances are right: {queried} benches queried, {short} short")?;
        if *verdicts > 0 {
            write!(f, "; {verdicts} verdicts are Table 1's")?;
        }
        write!(f, "; refused as they should be: 1 to 10:{sheets} 11:{eleven} 12:{twelve} 20:{twenty} 21:{over} 35:{count} 44:{benches}")
    }
}

impl Agreed {
    /// Results and buffer are those of the second reading; on a table whose audit says yes the verdict of a bench that queried is Table
    /// 1's.
    fn check(&mut self, sheet: &[u8], states: &[u8], visits: u32, tables: &[u8]) -> Result<(), String> {
        const WORK: u64 = 100_000;
        let told = |what: String| format!("sheet {sheet:?}, states {states:?}, {visits} visits, tables {tables:?}: {what}");
        let mut left = tables.to_vec();
        let found = allowances::allowance(sheet, states, visits, &mut left);
        let right = right(sheet, states, visits, tables);
        let benches = match (found, right) {
            (Ok(benches), Ok(right)) if (&benches, &left) == (&right.0, &right.1) => benches,
            (Err(number), Err(right)) if number == right && left == tables => {
                self.refused[[11, 12, 20, 21, 35, 44].iter().position(|&n| n == number.0).map_or(0, |at| at + 1)] += 1;
                return Ok(());
            }
            (found, right) => return Err(told(format!("{found:?} and {left:?}, where {right:?} is right"))),
        };
        self.calls += 1;
        let p = oracle::read(sheet).map_err(|e| told(format!("{e:?}")))?.parts;
        let truth = oracle::meaning(&p, WORK);
        for ((bench, &state), before) in benches.iter().zip(states).zip(tables.chunks_exact(p.table_len())) {
            if bench.short {
                self.short += 1;
                continue;
            }
            self.queried += 1;
            if let (Some((truth, _)), Ok(true)) = (truth, audits::audit(sheet, before)) {
                if bench.verdict != (truth >> state & 1 == 1) {
                    return Err(told(format!("the verdict of state {state} is not Table 1's")));
                }
                self.verdicts += 1;
            }
        }
        Ok(())
    }
}

fn random(seed: u64, count: u64) -> Result<Agreed, String> {
    let mut agreed = Agreed::default();
    for i in 0..count {
        let mut r = Rng::new(seed ^ 0xa110, i);
        let (sheet, states, visits, tables) = allowance_gen::any(&mut r);
        agreed.check(&sheet, &states, visits, &tables).map_err(|e| format!("seed {seed}, allowance {i}, {e}"))?;
    }
    Ok(agreed)
}

/// Needs dealt with, in all.
struct Dealt(u64);

impl std::fmt::Display for Dealt {
    fn fmt(&self, f: &mut std::fmt::Formatter) -> std::fmt::Result {
        write!(f, "{} dealings are those of a queue of benches, fair and complete", self.0)
    }
}

/// Each need up to 4 of up to five benches with each number of visits up to two more than are needed; then larger needs of up to eight.
fn dealings(seed: u64, count: u64) -> Result<Dealt, String> {
    let mut done = 0;
    for benches in 0..=5 {
        for chosen in 0..5usize.pow(benches) {
            let needs: Vec<usize> = (0..benches).map(|i| chosen / 5usize.pow(i) % 5).collect();
            for visits in 0..=needs.iter().sum::<usize>() + 2 {
                dealt(&needs, visits)?;
                done += 1;
            }
        }
    }
    let mut r = Rng::new(seed, 0xdea1);
    for _ in 0..count {
        let (benches, most) = (r.range(1, MOST), r.pick(&[3, 20, 400, 60_000]));
        let needs: Vec<usize> = (0..benches).map(|_| if r.chance(15) { 0 } else { r.below(most) }).collect();
        let sum = needs.iter().sum::<usize>();
        let visits = if r.chance(80) { r.below(sum + 2) } else { u32::MAX as usize };
        dealt(&needs, visits)?;
        done += 1;
    }
    Ok(Dealt(done))
}

/// The key sheet: benches of its three states with each number of visits up to two more than are needed, cleared tables and filled ones,
/// every length of the buffer, and every byte set to 3 and to 1.
fn key() -> Result<Agreed, String> {
    let sheet = gen::key();
    let mut agreed = Agreed::default();
    for chosen in 0..4usize.pow(4) {
        let states: Vec<u8> = (0..4).map(|i| (chosen / 4usize.pow(i) % 4) as u8).take_while(|&s| s < 3).collect();
        for asked in 0..3 {
            let mut tables = vec![0; 112 * states.len()];
            if let Some(own) = tables.chunks_exact_mut(112).nth(asked) {
                oracle::query(&sheet, asked as u8, own).map_err(|e| format!("{e:?}"))?;
            }
            for visits in 0..=17 * states.len() as u32 + 1 {
                agreed.check(&sheet, &states, visits, &tables)?;
            }
        }
    }
    let tables = vec![0; 112 * 3 + 5];
    for length in 0..tables.len() {
        agreed.check(&sheet, &[0, 1, 2], 30, &tables[..length])?;
        for (v, visits) in [(1, 30), (3, 30), (1, 29), (0, 12)] {
            let mut other = tables.clone();
            other[length] = v;
            agreed.check(&sheet, &[0, 1, 2], visits, &other)?;
        }
    }
    for count in 0..20 {
        agreed.check(&sheet, &vec![0; count], 40, &vec![0; 112 * count])?;
        agreed.check(&sheet[1..], &vec![0; count], 40, &[])?;
    }
    Ok(agreed)
}

pub fn selfcheck(seed: u64, count: u64) -> i32 {
    let code = tell([("dealing".to_string(), dealings(seed, count))]);
    let more = || tell([(format!("seed {seed}"), random(seed, count)), ("benches of the key sheet".into(), key())]);
    if code == 0 { more() } else { code }
}

/// What was made of benches, for `compare`.
#[derive(Default)]
pub struct Tally {
    /// Allowances by their numbers of benches.
    by_count: [u64; MOST],
    /// All benches queried, all short, some of either.
    kinds: [u64; 3],
    /// Benches that needed nothing, that got all they needed, that were short with a grant and without.
    benches: [u64; 4],
    /// A round of visits that ended with some benches short of it.
    within: u64,
    /// Refused by a bench that is not the first.
    later: u64,
    most: usize,
}

impl Tally {
    pub fn count(&mut self, r: &Request) {
        let Request::Allowance { sheet, states, visits, tables } = r else { return };
        let mut left = tables.clone();
        let Ok(benches) = allowances::allowance(sheet, states, *visits, &mut left) else {
            let first = states.first().is_some_and(|_| allowances::allowance(sheet, &states[..1], 0, &mut left).is_ok());
            self.later += u64::from(states.len() <= MOST && first);
            return;
        };
        self.by_count[benches.len() - 1] += 1;
        let short = benches.iter().filter(|b| b.short).count();
        self.kinds[if short == 0 { 0 } else if short == benches.len() { 1 } else { 2 }] += 1;
        for b in &benches {
            self.benches[match (b.need, b.short, b.grant) {
                (0, ..) => 0,
                (_, false, _) => 1,
                (_, true, 1..) => 2,
                _ => 3,
            }] += 1;
            self.most = self.most.max(b.need);
        }
        let grants = || benches.iter().filter(|b| b.short).map(|b| b.grant);
        self.within += u64::from(grants().max() != grants().min());
    }
}

impl std::fmt::Display for Tally {
    fn fmt(&self, f: &mut std::fmt::Formatter) -> std::fmt::Result {
        let Tally { by_count, kinds: [all, none, some], benches: [nothing, whole, part, bare], within, later, most } = self;
        let counts: Vec<String> = by_count.iter().enumerate().map(|(i, n)| format!("{}:{n}", i + 1)).collect();
        writeln!(f, "allowances by benches: {}; all query {all}, all are short {none}, some of either {some};", counts.join(" "))?;
        write!(f, "  benches that need nothing {nothing}, that get their needs {whole}, short with a grant {part} and without {bare}; ")?;
        write!(f, "the visits end within a round {within}; the largest need {most}; refused by a later bench {later}")
    }
}
