//! Reports: lines against Table 1 and the table left, and a tally of the reports that were made.

use crate::gen::{self, Rng};
use crate::oracle::{self, assemble};
use crate::protocol::Request;
use crate::report_gen;
use crate::reports::{self, MOST, ROOM};
use crate::tell;

/// What was found to agree.
#[derive(Default)]
struct Agreed {
    reports: u64,
    /// Lines with true, false, refused.
    lines: [u64; 3],
    visits: u64,
    longest: usize,
}

impl std::fmt::Display for Agreed {
    fn fmt(&self, f: &mut std::fmt::Formatter) -> std::fmt::Result {
        let Agreed { reports, lines: [yes, no, refused], visits, longest } = self;
        write!(f, "{reports} reports, lines agree with Table 1: {yes} true, {no} false, {refused} refused; ")?;
        write!(f, "their visits, {visits}, are the totals and the stored counts; the longest text has {longest} bytes")
    }
}

/// A line: the state, the word, the visits.
fn words(line: &str) -> Option<(usize, &str, usize)> {
    let words: Vec<&str> = line.split(' ').collect();
    let [state, word, visits] = words[..] else { return None };
    Some((state.parse().ok()?, word, visits.parse().ok()?))
}

impl Agreed {
    /// Each line of a report has its state; `refused` exactly where the plan does not have the state or a loop can be reached from it,
    /// else Table 1's verdict. The last line has the sum of the visits, which is the stored count and the number of filled cells. Bytes
    /// past the table and past the text are as they were. The list in another order leaves the same table.
    fn check(&mut self, sheet: &[u8], states: &[u8], fill: u8) -> Result<(), String> {
        const WORK: u64 = 300_000;
        let p = oracle::read(sheet).map_err(|e| format!("a valid sheet was refused {e:?}"))?.parts;
        let Some((truth, _)) = oracle::meaning(&p, WORK) else { return Ok(()) };
        let (looping, cells, len) = (oracle::loop_reachable_states(&p), p.cells(), p.table_len());
        let (mut table, mut out) = (vec![fill; len + 2], vec![fill; ROOM + 2]);
        let n = reports::report(sheet, states, &mut table, &mut out).map_err(|e| format!("refused {e:?}"))?;
        let text = std::str::from_utf8(&out[..n]).map_err(|e| format!("no text: {e}"))?;
        let told = |what: &str| format!("{what}: {text:?}");
        let mut lines: Vec<&str> = text.strip_suffix('\n').ok_or_else(|| told("no line feed at the end"))?.split('\n').collect();
        let last = lines.pop().unwrap_or_default();
        if lines.len() != states.len() {
            return Err(told("not a line for each state"));
        }
        let mut sum = 0;
        for (line, &state) in lines.iter().zip(states) {
            let state = usize::from(state);
            let right = match () {
                _ if state >= p.states || looping >> state & 1 == 1 => "refused",
                _ if truth >> state & 1 == 1 => "true",
                _ => "false",
            };
            match words(line) {
                Some((number, word, visits)) if number == state && word == right && (word != "refused" || visits == 0) => sum += visits,
                _ => return Err(told(&format!("line {line:?}, where {right} is right"))),
            }
            self.lines[["true", "false", "refused"].iter().position(|w| *w == right).unwrap_or(0)] += 1;
        }
        let filled = table[..cells].iter().filter(|&&v| v == 1 || v == 2).count();
        if last != format!("total {sum}") || sum != filled || sum != oracle::stored_count(&table, cells) as usize {
            return Err(told(&format!("{sum} visits, {filled} cells filled")));
        }
        if table[len..] != [fill; 2] || out[n..].iter().any(|&v| v != fill) {
            return Err(told("bytes past the table or past the text have changed"));
        }
        let turned: Vec<u8> = states.iter().rev().copied().collect();
        let (mut other, mut unread) = (vec![!fill; len], vec![0; ROOM]);
        if reports::report(sheet, &turned, &mut other, &mut unread).is_err() || other != table[..len] {
            return Err(told("the states in another order leave another table"));
        }
        self.reports += 1;
        self.visits += sum as u64;
        self.longest = self.longest.max(n);
        Ok(())
    }

    /// A report is refused by the first of 36, clearing's number and 22 that is right, and then changes neither buffer.
    fn refusals(&self, sheet: &[u8], fill: u8) -> Result<(), String> {
        let cleared = |len: usize| oracle::clear(sheet, &mut vec![0; len]).err();
        let len = oracle::read(sheet).map_or(9, |s| s.parts.table_len());
        for (count, short, room) in (0..8).map(|k| (MOST + (k & 1), k >> 1 & 1, ROOM - (k >> 2))) {
            let (was, before) = (vec![fill; len - short], vec![fill; room]);
            let (mut table, mut out) = (was.clone(), before.clone());
            let right = match () {
                _ if count > MOST => Some((36, 0)),
                _ => cleared(len - short).or((room < ROOM).then_some((22, 0))),
            };
            let found = reports::report(sheet, &vec![0; count], &mut table, &mut out).err();
            if found != right || found.is_some() && (table != was || out != before) {
                let given = format!("{count} states, a table of {} bytes, an output of {room}", len - short);
                return Err(format!("{given}: {found:?}, where {right:?} is right"));
            }
        }
        Ok(())
    }
}

/// Document 01's key sheet with P1 to P3, and a state that it does not have.
fn key() -> Result<Agreed, String> {
    let sheet = gen::key();
    let (mut table, mut out) = ([5; 112], [5; ROOM]);
    let text = b"0 true 17\n1 true 0\n2 false 9\n3 refused 0\ntotal 26\n";
    if reports::report(&sheet, &[0, 1, 2, 3], &mut table, &mut out) != Ok(text.len()) || !out.starts_with(text) {
        return Err(format!("the key sheet gives {:?}", String::from_utf8_lossy(&out)));
    }
    let mut agreed = Agreed::default();
    for list in 0..4 * 4 * 4u8 {
        agreed.check(&sheet, &[list / 16, list / 4 % 4, list % 4], list)?;
    }
    agreed.refusals(&sheet, 1)?;
    Ok(agreed)
}

/// Every plan of two states and two actions with every list of up to three of their states and the next, for some rules.
fn exhaustive() -> Result<Agreed, String> {
    let list = |n: u32, k: u32| (0..n).map(|i| (k / 3u32.pow(i) % 3) as u8).collect();
    let lists: Vec<Vec<u8>> = (0..4).flat_map(|n| (0..3u32.pow(n)).map(move |k| list(n, k))).collect();
    let rules = [
        &[1u8, 1, 0, 0][..],
        &[2, 5, 1, 1, 0, 0, 0],
        &[5, 7, 0, 1, 2, 2, 3, 6, 0, 0, 4, 1, 4, 1, 0, 0],
        &[5, 8, 0, 1, 3, 2, 4, 5, 0, 3, 6, 0, 0, 1, 0, 0],
        &[6, 7, 0, 1, 2, 2, 4, 4, 0, 3, 6, 0, 0, 4, 1, 5, 1, 0, 0],
    ];
    let mut agreed = Agreed::default();
    for chosen in 0..256usize {
        let transitions: Vec<u8> = (0..8u8).filter(|k| chosen >> k & 1 == 1).flat_map(|k| [k / 4, k / 2 % 2, k % 2]).collect();
        let plan = [&[2, 2, transitions.len() as u8 / 3, 0][..], &transitions].concat();
        for rule in rules {
            let sheet = assemble(&plan, &[2, 2, 0, 0, 2, 1, 0], rule);
            for states in &lists {
                agreed.check(&sheet, states, chosen as u8).map_err(|e| format!("sheet {sheet:?}, states {states:?}: {e}"))?;
            }
        }
    }
    Ok(agreed)
}

fn random(seed: u64, count: u64) -> Result<Agreed, String> {
    let mut agreed = Agreed::default();
    for i in 0..count {
        let mut r = Rng::new(seed ^ 0x4e90, i);
        let (any, mut states) = report_gen::any(&mut r);
        let told = |sheet: &[u8], e: String| format!("seed {seed}, report {i}, sheet {sheet:?}: {e}");
        agreed.refusals(&any, r.byte()).map_err(|e| told(&any, e))?;
        let z = gen::any_size(&mut r);
        let whole = if oracle::read(&any).is_ok() { any } else { gen::valid(&mut r, z).sheet() };
        states.truncate(MOST);
        agreed.check(&whole, &states, r.byte()).map_err(|e| told(&whole, format!("states {states:?}: {e}")))?;
    }
    Ok(agreed)
}

pub fn selfcheck(seed: u64, count: u64) -> i32 {
    tell([
        (format!("seed {seed}"), random(seed, count)),
        ("the key sheet".into(), key()),
        ("two states, three queries at most".into(), exhaustive()),
    ])
}

/// What was made of reports, for `compare`.
#[derive(Default)]
pub struct Tally {
    written: u64,
    /// Lines with true, false, refused.
    lines: [u64; 3],
    /// With all three words; with 64 lines.
    mixed: u64,
    full: u64,
    /// With visits of four digits in a line, or more.
    large: u64,
    longest: usize,
}

impl Tally {
    pub fn count(&mut self, r: &Request) {
        let Request::Report { sheet, states, table_len, fill, out_len, .. } = r else { return };
        let (mut table, mut out) = (vec![*fill; usize::from(*table_len)], vec![0; usize::from(*out_len)]);
        let Ok(n) = reports::report(sheet, states, &mut table, &mut out) else { return };
        let text = String::from_utf8_lossy(&out[..n]);
        let found: Vec<(usize, &str, usize)> = text.lines().filter_map(words).collect();
        let lines = ["true", "false", "refused"].map(|word| found.iter().filter(|line| line.1 == word).count() as u64);
        self.written += 1;
        self.mixed += u64::from(lines.iter().all(|&n| n > 0));
        self.full += u64::from(states.len() == MOST);
        self.large += u64::from(found.iter().any(|line| line.2 > 999));
        self.longest = self.longest.max(n);
        (0..3).for_each(|k| self.lines[k] += lines[k]);
    }
}

impl std::fmt::Display for Tally {
    fn fmt(&self, f: &mut std::fmt::Formatter) -> std::fmt::Result {
        let Tally { written, lines: [yes, no, refused], mixed, full, large, longest } = self;
        writeln!(f, "reports written: {written}, with {yes} lines true, {no} false, {refused} refused; {mixed} have all three words;")?;
        write!(f, "  {full} have 64 lines, {large} visits of four digits or more in a line; the longest text has {longest} bytes")
    }
}
