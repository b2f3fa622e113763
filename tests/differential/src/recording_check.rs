//! Recorded runs: the shortest beginning against Table 1, against the query and against sentences about runs, and a tally of the
//! recordings that were made.

use crate::gen::{self, Rng};
use crate::oracle::{self, Parts, Refusal};
use crate::protocol::Request;
use crate::recording_gen;
use crate::recordings::{self, Which, MOST};
use crate::tell;

/// Which recording, and how many actions.
type Found = Option<(Which, usize)>;

fn shortest(sheet: &[u8], first: &[u8], second: &[u8]) -> Result<Found, Refusal> {
    recordings::shortest(sheet, first, second).map(|found| found.map(|(which, part)| (which, part.len())))
}

/// By Table 1, whether the rule holds on a run; None where plain iteration does not end soon.
fn holds(p: &Parts, run: &[u8]) -> Option<bool> {
    const WORK: u64 = 100_000;
    let transitions = recordings::chain(run);
    let chain = Parts { states: run.len() + 1, transitions: &transitions, ..*p };
    oracle::meaning(&chain, WORK).map(|(states, _)| states & 1 == 1)
}

/// The least of all beginnings of which a sentence is not true, by length and then by recording.
fn least(first: &[u8], second: &[u8], holds: impl Fn(&[u8]) -> Option<bool>) -> Option<Found> {
    let mut failing = Vec::new();
    for (place, run) in [first, second].into_iter().enumerate() {
        for n in 0..=run.len() {
            if !holds(&run[..n])? {
                failing.push((n, place));
            }
        }
    }
    let found = failing.into_iter().min();
    Some(found.map(|(n, place)| ([Which::First, Which::Second][place], n)))
}

/// The first refusal that is right.
fn refusal(sheet: &[u8], first: &[u8], second: &[u8]) -> Option<Refusal> {
    let actions = match oracle::read(sheet) {
        Ok(ok) => ok.parts.actions,
        Err(e) => return Some(e),
    };
    let both = [first, second];
    if both.iter().any(|run| run.len() > MOST) {
        return Some((42, 0));
    }
    let known = both.iter().all(|run| run.iter().all(|&action| usize::from(action) < actions));
    (!known).then_some((43, 0))
}

/// The verdict of a query of the run's first state, in a sheet with a chain in place of the plan.
fn queried(sheet: &[u8], run: &[u8]) -> Result<bool, Refusal> {
    let ok = oracle::read(sheet)?;
    let n = run.len() as u8;
    let plan = [&[n + 1, ok.parts.actions as u8, n, 0][..], &recordings::chain(run)].concat();
    let [_, acts, rule] = ok.bodies.map(|(at, length)| &sheet[at..at + length]);
    let chain = oracle::assemble(&plan, acts, rule);
    let mut table = vec![0; oracle::read(&chain)?.parts.table_len()];
    oracle::query(&chain, 0, &mut table).map(|(verdict, _)| verdict)
}

/// What was found to agree.
#[derive(Default)]
struct Agreed {
    /// First, second, none.
    found: [u64; 3],
    /// With 1 to 10, 42, 43.
    refused: [u64; 3],
    longest: usize,
}

impl std::fmt::Display for Agreed {
    fn fmt(&self, f: &mut std::fmt::Formatter) -> std::fmt::Result {
        let Agreed { found: [first, second, none], refused: [sheets, long, actions], longest } = self;
        write!(f, "the shortest beginnings are right: the first recording's {first}, the second's {second}, none {none}; ")?;
        write!(f, "the longest has {longest} actions; refused as they should be: 1 to 10:{sheets} 42:{long} 43:{actions}")
    }
}

impl Agreed {
    /// The answer is the one that is right; the part is the recording's own; a query of its chain is false, and true of the beginning
    /// before it in either recording.
    fn check(&mut self, sheet: &[u8], first: &[u8], second: &[u8], right: Result<Found, Refusal>) -> Result<(), String> {
        let told = |what: String| format!("sheet {sheet:?}, recordings {first:?} and {second:?}: {what}");
        let found = shortest(sheet, first, second);
        if found != right {
            return Err(told(format!("{found:?}, where {right:?} is right")));
        }
        if let Ok(Some((which, part))) = recordings::shortest(sheet, first, second) {
            let run = if which == Which::First { first } else { second };
            if part.as_ptr() != run.as_ptr() || !run.starts_with(part) {
                return Err(told(format!("{part:?} is no beginning of the {which:?}")));
            }
            let before = part.len().saturating_sub(1);
            let earlier = [first, second].map(|run| queried(sheet, &run[..before.min(run.len())]));
            if queried(sheet, part) != Ok(false) || !part.is_empty() && earlier != [Ok(true); 2] {
                return Err(told(format!("a query of {part:?} or of the beginnings before it says otherwise")));
            }
        }
        match found {
            Ok(found) => {
                self.found[found.map_or(2, |(which, _)| which as usize)] += 1;
                self.longest = self.longest.max(found.map_or(0, |(_, n)| n));
            }
            Err((number, _)) => self.refused[[42, 43].iter().position(|&n| n == number).map_or(0, |at| at + 1)] += 1,
        }
        Ok(())
    }
}

fn random(seed: u64, count: u64) -> Result<Agreed, String> {
    let mut agreed = Agreed::default();
    for i in 0..count {
        let (sheet, first, second) = recording_gen::any(&mut Rng::new(seed ^ 0x4ec0, i));
        let right = match (refusal(&sheet, &first, &second), oracle::read(&sheet)) {
            (Some(refusal), _) => Err(refusal),
            (None, Ok(ok)) => match least(&first, &second, |run| holds(&ok.parts, run)) {
                Some(found) => Ok(found),
                None => continue,
            },
            (None, Err(e)) => return Err(format!("seed {seed}, recordings {i}: {e:?}")),
        };
        agreed.check(&sheet, &first, &second, right).map_err(|e| format!("seed {seed}, recordings {i}, {e}"))?;
    }
    Ok(agreed)
}

/// The runs of up to so many of the first actions.
fn runs(actions: u8, most: usize) -> Vec<Vec<u8>> {
    let mut all = vec![vec![]];
    let mut from = 0;
    for _ in 0..most {
        let upto = all.len();
        for i in from..upto {
            for action in 0..actions {
                all.push([&all[i][..], &[action]].concat());
            }
        }
        from = upto;
    }
    all
}

/// Rules with what they say of a run. Entries: actions 0, 1 and 2, any.
const SENTENCES: [(&[[u8; 3]], fn(&[u8]) -> bool); 10] = [
    (&[[1, 0, 0]], |_| true),
    (&[[0, 0, 0]], |_| false),
    // some 0 T
    (&[[4, 0, 1], [1, 0, 0]], |run| run.first() == Some(&0)),
    // every any every any F
    (&[[5, 3, 1], [5, 3, 2], [0, 0, 0]], |run| run.len() < 2),
    // greatest X. every 0 F and every any X
    (&[[8, 0, 1], [3, 2, 4], [5, 0, 3], [0, 0, 0], [5, 3, 5], [6, 0, 0]], |run| !run.contains(&0)),
    // least X. some 0 T or some any X
    (&[[7, 0, 1], [2, 2, 4], [4, 0, 3], [1, 0, 0], [4, 3, 5], [6, 0, 0]], |run| run.contains(&0)),
    // greatest X. every 0 some 1 T and every any X
    (&[[8, 0, 1], [3, 2, 5], [5, 0, 3], [4, 1, 4], [1, 0, 0], [5, 3, 6], [6, 0, 0]], |run| {
        run.iter().enumerate().all(|(i, &action)| action != 0 || run.get(i + 1) == Some(&1))
    }),
    // greatest X. every 0 (least Y. some 1 T or some any Y) and every any X
    (
        &[
            [8, 0, 1], [3, 2, 9], [5, 0, 3], [7, 1, 4], [2, 5, 7], [4, 1, 6], [1, 0, 0], [4, 3, 8], [6, 1, 0], [5, 3, 10],
            [6, 0, 0],
        ],
        |run| run.iter().enumerate().all(|(i, &action)| action != 0 || run[i..].contains(&1)),
    ),
    // least X. every any F or some any some any X
    (&[[7, 0, 1], [2, 2, 4], [5, 3, 3], [0, 0, 0], [4, 3, 5], [4, 3, 6], [6, 0, 0]], |run| run.len() % 2 == 0),
    // the key sheet's: least X. some 2 T or some 0 X or least Y. (X or some 1 Y)
    (
        &[
            [7, 0, 1], [2, 2, 4], [4, 2, 3], [1, 0, 0], [2, 5, 7], [4, 0, 6], [6, 0, 0], [7, 1, 8], [2, 9, 10], [6, 0, 0],
            [4, 1, 11], [6, 1, 0],
        ],
        |run| run.contains(&2),
    ),
];

/// Each of some rules with every two recordings of up to three of three actions, on a plan that loops.
fn exhaustive() -> Result<Agreed, String> {
    let mut agreed = Agreed::default();
    let every = runs(3, 3);
    for (nodes, says) in SENTENCES {
        let entries = vec![[2, 0, 0], [2, 1, 0], [2, 2, 0], [1, 0, 0]];
        let sheet = gen::Parts { states: 2, actions: 3, transitions: vec![[0, 0, 1], [1, 2, 0]], entries, nodes: nodes.to_vec() }.sheet();
        for first in &every {
            for second in &every {
                let right = least(first, second, |run| Some(says(run))).expect("a sentence tells");
                agreed.check(&sheet, first, second, Ok(right))?;
            }
        }
    }
    Ok(agreed)
}

/// Every number of actions up to 130 in either recording, and every number of actions of the sheet with every action.
fn limits() -> Result<Agreed, String> {
    let mut agreed = Agreed::default();
    let sheet = |actions: u8, kind: u8| {
        gen::Parts { states: 1, actions, transitions: vec![], entries: vec![], nodes: vec![[kind, 0, 0]] }.sheet()
    };
    for kind in 0..2 {
        let answer = (kind == 0).then_some((Which::First, 0));
        for n in 0..=130 {
            let (sheet, run) = (sheet(1, kind), vec![0; n]);
            let right = if n > MOST { Err((42, 0)) } else { Ok(answer) };
            for (first, second) in [(&run[..], &[][..]), (&[0][..], &run[..]), (&run[..], &run[..])] {
                agreed.check(&sheet, first, second, right)?;
            }
            // 42 comes before 43
            let wrong = if n > MOST { Err((42, 0)) } else { Err((43, 0)) };
            agreed.check(&sheet, &run, &[1], wrong)?;
            agreed.check(&sheet, &[255], &run, wrong)?;
        }
        for actions in 0..=255 {
            for action in 0..=255 {
                let right = if action < actions { Ok(answer) } else { Err((43, 0)) };
                agreed.check(&sheet(actions, kind), &[action], &[], right)?;
                agreed.check(&sheet(actions, kind), &[], &[action], right)?;
            }
        }
    }
    Ok(agreed)
}

pub fn selfcheck(seed: u64, count: u64) -> i32 {
    tell([
        (format!("seed {seed}"), random(seed, count)),
        ("every two of up to three of three actions".into(), exhaustive()),
        ("lengths and actions".into(), limits()),
    ])
}

/// What was made of recordings, for `compare`.
#[derive(Default)]
pub struct Tally {
    /// The first recording's, the second's, none; no action among those found, the whole recording, 64 actions and more.
    found: [u64; 3],
    size: [u64; 3],
    /// Both recordings fail at the same length; both at all.
    equal: u64,
    both: u64,
    /// With a common beginning of an action or more; the same.
    alike: [u64; 2],
    /// A recording of 127 actions; the sheet's plan has a loop.
    full: u64,
    loops: u64,
    /// 42: in the first recording alone, in the second alone, in both; then 43.
    refused: [[u64; 3]; 2],
}

impl Tally {
    pub fn count(&mut self, r: &Request) {
        let Request::Shortest { sheet, first, second } = r else { return };
        let Ok(ok) = oracle::read(sheet) else { return };
        let found = match shortest(sheet, first, second) {
            Ok(found) => found,
            Err((number, _)) => {
                let bad = |run: &[u8]| match number {
                    42 => run.len() > MOST,
                    _ => run.iter().any(|&action| usize::from(action) >= ok.parts.actions),
                };
                self.refused[usize::from(number == 43)][usize::from(bad(second)) * (1 + usize::from(bad(first)))] += 1;
                return;
            }
        };
        self.found[found.map_or(2, |(which, _)| which as usize)] += 1;
        if let Some((which, n)) = found {
            let length = [first, second][which as usize].len();
            for (slot, here) in self.size.iter_mut().zip([n == 0, n == length, n >= 64]) {
                *slot += u64::from(here);
            }
            let [one, other] = [first, second].map(|run| shortest(sheet, run, run).ok().flatten().map(|(_, n)| n));
            self.both += u64::from(one.is_some() && other.is_some());
            self.equal += u64::from(n > 0 && one == other);
        }
        self.alike[0] += u64::from(first.first().is_some_and(|action| second.first() == Some(action)));
        self.alike[1] += u64::from(first == second);
        self.full += u64::from(first.len().max(second.len()) == MOST);
        self.loops += u64::from(oracle::loop_reachable_states(&ok.parts) != 0);
    }
}

impl std::fmt::Display for Tally {
    fn fmt(&self, f: &mut std::fmt::Formatter) -> std::fmt::Result {
        let Tally { found: [first, second, none], size: [empty, whole, long], equal, both, alike, full, loops, refused } = self;
        writeln!(f, "shortest beginnings: the first recording's {first}, the second's {second}, none {none}; of no action {empty},")?;
        write!(f, "  of a whole recording {whole}, of 64 actions or more {long}; ")?;
        writeln!(f, "both recordings fail {both}, at one length, not 0, {equal};")?;
        let [begin, same] = alike;
        writeln!(f, "  recordings that begin alike {begin}, the same {same}, of 127 actions {full}; plans with a loop {loops};")?;
        let [long, actions] = refused.map(|[a, b, c]| format!("first {a}, second {b}, both {c}"));
        write!(f, "  42: {long}; 43: {actions}")
    }
}
