//! Patterns: translated rules against what is said of runs, and a tally of the patterns that were made.

use crate::gen::{self, Rng};
use crate::oracle::{self, assemble};
use crate::pattern_gen;
use crate::patterns::{self, Part, Pattern};
use crate::protocol::Request;
use crate::tell;

/// What was found to agree.
#[derive(Default)]
struct Agreed {
    patterns: u64,
    loops: u64,
    states: u64,
    holding: u64,
}

impl std::fmt::Display for Agreed {
    fn fmt(&self, f: &mut std::fmt::Formatter) -> std::fmt::Result {
        let Agreed { patterns, loops, states, holding } = self;
        write!(f, "{patterns} patterns, {loops} of them on plans with a loop; {states} states agree with the runs ({holding} true)")
    }
}

impl Agreed {
    /// The rule that a pattern becomes is accepted, and holds by Table 1 where the sentence about runs does. Nothing is said of
    /// a pattern that is refused, or of a rule that takes long to work out.
    fn check(&mut self, sheet: &[u8], b: &[u8]) -> Result<(), String> {
        const WORK: u64 = 300_000;
        let read = oracle::read(sheet).map_err(|e| format!("a valid sheet was refused {e:?}"))?;
        let Ok(body) = patterns::body(&read.parts, b) else { return Ok(()) };
        let cut = |i: usize| &sheet[read.bodies[i].0..read.bodies[i].0 + read.bodies[i].1];
        let p = oracle::read_parts(cut(0), cut(1), &body).map_err(|e| format!("the translated rule was refused {e:?}"))?;
        let (every, r) = patterns::read(b, p.entries.len() / 3).ok_or("a translated pattern is malformed")?;
        let (Some((own, _)), Some((found, _))) = (oracle::meaning(&read.parts, WORK), oracle::meaning(&p, WORK)) else { return Ok(()) };
        let said = patterns::sentence(&p, every, &r, own);
        if found != said {
            return Err(format!("holds at {found:#b}, and the runs say {said:#b}"));
        }
        self.patterns += 1;
        self.loops += u64::from(oracle::loop_reachable_states(&p) != 0);
        self.states += p.states as u64;
        self.holding += u64::from(said.count_ones());
        Ok(())
    }
}

/// Every pattern of exactly so many operators over two action entries, without its leading byte.
fn all(operators: usize) -> Vec<Vec<u8>> {
    if operators == 0 {
        return vec![vec![0, 0], vec![0, 1]];
    }
    let mut out: Vec<Vec<u8>> = all(operators - 1).iter().map(|part| [&[3][..], part].concat()).collect();
    for first in 0..operators {
        for a in all(first) {
            for b in all(operators - 1 - first) {
                out.extend([1, 2].map(|op| [&[op][..], &a, &b].concat()));
            }
        }
    }
    out
}

/// Every plan of two states and two actions with every pattern of up to two operators, for rules of one and two nodes.
fn exhaustive() -> Result<Agreed, String> {
    let patterns: Vec<Vec<u8>> = (0..3).flat_map(all).collect();
    let rules = [&[1u8, 0, 0, 0][..], &[1, 1, 0, 0], &[2, 4, 0, 1, 1, 0, 0], &[2, 5, 1, 1, 0, 0, 0]];
    let mut agreed = Agreed::default();
    for chosen in 0..256usize {
        let transitions: Vec<u8> =
            (0..8u8).filter(|k| chosen >> k & 1 == 1).flat_map(|k| [k / 4, k / 2 % 2, k % 2]).collect();
        let plan = [&[2, 2, transitions.len() as u8 / 3, 0][..], &transitions].concat();
        for rule in rules {
            let sheet = assemble(&plan, &[2, 2, 0, 0, 2, 1, 0], rule);
            for b in &patterns {
                for lead in [0, 1] {
                    let b = [&[lead][..], b].concat();
                    agreed.check(&sheet, &b).map_err(|e| format!("sheet {sheet:?}, pattern {b:?}: {e}"))?;
                }
            }
        }
    }
    Ok(agreed)
}

fn random(seed: u64, count: u64) -> Result<Agreed, String> {
    let mut agreed = Agreed::default();
    for i in 0..count {
        let mut r = Rng::new(seed ^ 0x9a77, i);
        let parts = if r.chance(85) {
            pattern_gen::small(&mut r)
        } else {
            let mut z = gen::any_size(&mut r);
            (z.nodes, z.binders) = (z.nodes.min(8), z.binders.min(2));
            gen::valid(&mut r, z)
        };
        let sheet = parts.sheet();
        let most = r.pick(&[3, 6, 12]);
        let items = r.range(1, most);
        let b = pattern_gen::pattern(&mut r, parts.entries.len(), items);
        agreed.check(&sheet, &b).map_err(|e| format!("seed {seed}, pattern {i}, sheet {sheet:?}, pattern {b:?}: {e}"))?;
    }
    Ok(agreed)
}

pub fn selfcheck(seed: u64, count: u64) -> i32 {
    tell([(format!("seed {seed}"), random(seed, count)), ("two states, two operators at most".into(), exhaustive())])
}

/// What was made of patterns, for `compare`.
#[derive(Default)]
pub struct Tally {
    /// Some run, every run.
    translated: [u64; 2],
    /// A repetition inside another.
    nested: u64,
    /// Several copies of a rule that has binders.
    copied: u64,
    nodes: u64,
    binders: u64,
    /// Well formed, and one node or one binder over.
    over: u64,
    longest: usize,
}

fn has_nested(r: &Pattern, at: usize, inside: bool) -> bool {
    match r.part(at) {
        Part::Action(_) => false,
        Part::Sequence(a, b) | Part::Choice(a, b) => has_nested(r, a, inside) || has_nested(r, b, inside),
        Part::Repetition(a) => inside || has_nested(r, a, true),
    }
}

impl Tally {
    pub fn count(&mut self, r: &Request) {
        let Request::Pattern { sheet, pattern, .. } = r else { return };
        self.longest = self.longest.max(pattern.len());
        let Ok(ok) = oracle::read(sheet) else { return };
        let Some((every, r)) = patterns::read(pattern, ok.parts.entries.len() / 3) else { return };
        let (nodes, binders) = pattern_gen::size(&r, (ok.parts.node_count() as u64, ok.parts.binders as u64));
        if nodes <= 64 && binders <= 6 {
            self.translated[usize::from(every)] += 1;
            self.nested += u64::from(has_nested(&r, 0, false));
            self.copied += u64::from(pattern_gen::copies(&r) > 1 && ok.parts.binders > 0);
            self.nodes += u64::from(nodes == 64);
            self.binders += u64::from(binders == 6);
        } else {
            self.over += u64::from(nodes == 65 && binders <= 6 || nodes <= 64 && binders == 7);
        }
    }
}

impl std::fmt::Display for Tally {
    fn fmt(&self, f: &mut std::fmt::Formatter) -> std::fmt::Result {
        let [some, every] = self.translated;
        writeln!(f, "patterns that fit: {some} of some run, {every} of every run; {} with a repetition inside another,", self.nested)?;
        writeln!(f, "  {} with several copies of a rule that has binders, {} of 64 nodes, {} of 6 binders;", self.copied, self.nodes, self.binders)?;
        write!(f, "  {} one node or one binder too large; the longest pattern has {} bytes", self.over, self.longest)
    }
}
