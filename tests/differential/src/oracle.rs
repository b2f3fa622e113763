//! An independent implementation of document 01, with requests (a), (b), (d) and (f) of document 02, written from the
//! documents.
//!
//! Plain Rust: the sheet is read in one pass, the plan gets a successor index, each action formula becomes one mask,
//! and the lent table is the memo of the query.

pub const LONGEST: usize = 6455;

/// A refusal: the number and the place.
pub type Refusal = (u8, usize);

#[inline]
fn word(b: &[u8], at: usize) -> usize {
    b[at] as usize + 256 * b[at + 1] as usize
}

/// A set of actions.
pub type Mask = [u64; 4];

/// A sheet that was accepted.
pub struct Sheet<'a> {
    /// Offset and length of each body.
    pub bodies: [(usize, usize); 3],
    pub parts: Parts<'a>,
}

/// The three bodies, accepted.
pub struct Parts<'a> {
    pub states: usize,
    pub transitions: &'a [u8],
    pub actions: usize,
    pub entries: &'a [u8],
    pub nodes: &'a [u8],
    pub binders: usize,
    /// Node of each binder.
    pub binder_node: [usize; 6],
}

impl Parts<'_> {
    pub fn node_count(&self) -> usize {
        self.nodes.len() / 3
    }
    pub fn cells(&self) -> usize {
        self.states * self.node_count() * (self.binders + 1)
    }
    /// The cells and the count of those filled.
    pub fn table_len(&self) -> usize {
        self.cells() + 4
    }
}

/// Where the three bodies lie, by the table of contents.
pub fn contents(b: &[u8]) -> Result<[(usize, usize); 3], Refusal> {
    if b.len() < 17 {
        return Err((1, 0));
    }
    if b[0] != 1 || b[1] != 3 {
        return Err((2, 0));
    }
    let mut out = [(0, 0); 3];
    let mut next = 17;
    for (i, slot) in out.iter_mut().enumerate() {
        let at = 2 + 5 * i;
        let (offset, length) = (word(b, at + 1), word(b, at + 3));
        if b[at] as usize != i + 1 || offset != next {
            return Err((3, 0));
        }
        *slot = (offset, length);
        next = offset + length;
    }
    if next != b.len() || b.len() > LONGEST {
        return Err((3, 0));
    }
    Ok(out)
}

pub fn read(b: &[u8]) -> Result<Sheet<'_>, Refusal> {
    let bodies = contents(b)?;
    let cut = |i: usize| &b[bodies[i].0..bodies[i].0 + bodies[i].1];
    let parts = read_parts(cut(0), cut(1), cut(2))?;
    Ok(Sheet { bodies, parts })
}

/// Refusals 4 to 10, in rising order.
pub fn read_parts<'a>(plan: &'a [u8], acts: &'a [u8], rule: &'a [u8]) -> Result<Parts<'a>, Refusal> {
    // 4 and 5
    if plan.len() < 4 {
        return Err((4, 0));
    }
    let (states, actions, t) = (plan[0] as usize, plan[1] as usize, word(plan, 2));
    if states < 1 || states > 128 || t > 2048 || plan.len() != 4 + 3 * t {
        return Err((4, 0));
    }
    let transitions = &plan[4..];
    let mut last = -1;
    for (i, c) in transitions.chunks_exact(3).enumerate() {
        let now = (c[0] as i32) << 16 | (c[1] as i32) << 8 | c[2] as i32;
        let in_range = (c[0] as usize) < states && (c[1] as usize) < actions && (c[2] as usize) < states;
        if !in_range || now <= last {
            return Err((5, i));
        }
        last = now;
    }
    // 6 and 7
    if acts.is_empty() || acts[0] > 32 || acts.len() != 1 + 3 * acts[0] as usize {
        return Err((6, 0));
    }
    let entries = &acts[1..];
    for (i, c) in entries.chunks_exact(3).enumerate() {
        let (x, y) = (c[1] as usize, c[2] as usize);
        let good = match c[0] {
            0 | 1 => x == 0 && y == 0,
            2 => x < actions && y == 0,
            3 | 4 => x < i && y < i,
            5 => x < i && y == 0,
            6 => x <= y && y < actions,
            _ => false,
        };
        if !good {
            return Err((7, i));
        }
    }
    // 8
    if rule.is_empty() || rule[0] < 1 || rule[0] > 64 || rule.len() != 1 + 3 * rule[0] as usize {
        return Err((8, 0));
    }
    let nodes = &rule[1..];
    // 9: the shape
    let n = rule[0] as usize;
    let mut end = [0usize; 64];
    let stop = shape(nodes, entries.len() / 3, 0, &mut end).map_err(|p| (9, p))?;
    if stop < n {
        return Err((9, stop));
    }
    // 10: binders and variables
    let mut binders = 0;
    let mut binder_node = [0usize; 6];
    for i in 0..n {
        let x = nodes[3 * i + 1] as usize;
        match nodes[3 * i] {
            7 | 8 => {
                if binders == 6 || x != binders {
                    return Err((10, i));
                }
                binder_node[binders] = i;
                binders += 1;
            }
            6 => {
                // i stands below the binder exactly when it is inside the binder's part
                if x >= binders || i >= end[binder_node[x]] {
                    return Err((10, i));
                }
            }
            _ => {}
        }
    }
    Ok(Parts { states, transitions, actions, entries, nodes, binders, binder_node })
}

/// How many children a node of the kind has; none where the number is no kind.
pub fn children(kind: u8) -> usize {
    match kind {
        2 | 3 => 2,
        4 | 5 | 7 | 8 => 1,
        _ => 0,
    }
}

/// Walks the part that starts at node `i`; gives the first node after it, or the first faulty node.
fn shape(nodes: &[u8], entries: usize, i: usize, end: &mut [usize; 64]) -> Result<usize, usize> {
    let n = nodes.len() / 3;
    let (kind, x, y) = (nodes[3 * i], nodes[3 * i + 1] as usize, nodes[3 * i + 2] as usize);
    let after = match kind {
        0 | 1 => {
            if x != 0 || y != 0 {
                return Err(i);
            }
            i + 1
        }
        6 => {
            if y != 0 {
                return Err(i);
            }
            i + 1
        }
        2 | 3 => {
            if x != i + 1 || i + 1 >= n {
                return Err(i);
            }
            let second = shape(nodes, entries, i + 1, end)?;
            if y != second || second >= n {
                return Err(i);
            }
            shape(nodes, entries, second, end)?
        }
        4 | 5 => {
            if x >= entries || y != i + 1 || i + 1 >= n {
                return Err(i);
            }
            shape(nodes, entries, i + 1, end)?
        }
        7 | 8 => {
            if y != i + 1 || i + 1 >= n {
                return Err(i);
            }
            shape(nodes, entries, i + 1, end)?
        }
        _ => return Err(i),
    };
    end[i] = after;
    Ok(after)
}

/// Definition 2, g(rule, empty set).
pub fn guarded(p: &Parts) -> bool {
    fn g(nodes: &[u8], i: usize, open: u8) -> bool {
        let (x, y) = (nodes[3 * i + 1], nodes[3 * i + 2] as usize);
        match nodes[3 * i] {
            2 | 3 => g(nodes, x as usize, open) && g(nodes, y, open),
            4 | 5 => g(nodes, y, 0),
            6 => open >> x & 1 == 0,
            7 | 8 => g(nodes, y, open | 1 << x),
            _ => true,
        }
    }
    g(p.nodes, 0, 0)
}

/// The actions below n.
pub fn below(n: usize) -> Mask {
    let mut m: Mask = [0; 4];
    m[..n / 64].fill(u64::MAX);
    if n < 256 {
        m[n / 64] = (1 << (n % 64)) - 1;
    }
    m
}

/// The actions that meet each entry, "not" taken among the A actions.
pub fn masks(p: &Parts) -> Vec<Mask> {
    let all = below(p.actions);
    let mut out: Vec<Mask> = Vec::with_capacity(32);
    for c in p.entries.chunks_exact(3) {
        let (x, y) = (c[1] as usize, c[2] as usize);
        let mut m: Mask = [0; 4];
        match c[0] {
            0 => {}
            1 => m = all,
            2 => m[x / 64] = 1 << (x % 64),
            3 => (0..4).for_each(|w| m[w] = out[x][w] | out[y][w]),
            4 => (0..4).for_each(|w| m[w] = out[x][w] & out[y][w]),
            5 => (0..4).for_each(|w| m[w] = all[w] & !out[x][w]),
            _ => {
                let (upto, before) = (below(y + 1), below(x));
                (0..4).for_each(|w| m[w] = upto[w] & !before[w]);
            }
        }
        out.push(m);
    }
    out
}

#[inline]
pub fn meets(m: &Mask, a: u8) -> bool {
    m[a as usize / 64] >> (a % 64) & 1 == 1
}

/// For each state the numbers of its transitions: `first[s]..first[s + 1]`.
pub fn successors(p: &Parts) -> [u16; 130] {
    let mut first = [0u16; 130];
    for c in p.transitions.chunks_exact(3) {
        first[c[0] as usize + 1] += 1;
    }
    for s in 0..p.states {
        first[s + 1] += first[s];
    }
    first
}

/// Table 1 by plain iteration, on sets of up to 128 states; also how many node meanings were worked out.
/// Gives up (None) above `limit` of them.
pub fn meaning(p: &Parts, limit: u64) -> Option<(u128, u64)> {
    struct Run<'a> {
        p: &'a Parts<'a>,
        masks: Vec<Mask>,
        all: u128,
        env: [u128; 6],
        work: u64,
        limit: u64,
    }
    fn eval(r: &mut Run, i: usize) -> Option<u128> {
        r.work += 1;
        if r.work > r.limit {
            return None;
        }
        let nodes = r.p.nodes;
        let (kind, x, y) = (nodes[3 * i], nodes[3 * i + 1] as usize, nodes[3 * i + 2] as usize);
        Some(match kind {
            0 => 0,
            1 => r.all,
            2 => eval(r, x)? | eval(r, y)?,
            3 => eval(r, x)? & eval(r, y)?,
            4 | 5 => {
                let child = eval(r, y)?;
                let into = if kind == 4 { child } else { r.all & !child };
                let mut hit = 0u128;
                for c in r.p.transitions.chunks_exact(3) {
                    if into >> c[2] & 1 == 1 && meets(&r.masks[x], c[1]) {
                        hit |= 1 << c[0];
                    }
                }
                if kind == 4 { hit } else { r.all & !hit }
            }
            6 => r.env[x],
            _ => {
                let mut now = if kind == 7 { 0 } else { r.all };
                loop {
                    r.env[x] = now;
                    let next = eval(r, y)?;
                    if next == now {
                        break now;
                    }
                    now = next;
                }
            }
        })
    }
    let all = if p.states == 128 { u128::MAX } else { (1u128 << p.states) - 1 };
    let mut r = Run { p, masks: masks(p), all, env: [0; 6], work: 0, limit };
    let m = eval(&mut r, 0)?;
    Some((m, r.work))
}

/// Table 1 by plain iteration on 64-bit words.
fn word_of(p: &Parts) -> u64 {
    fn eval(p: &Parts, masks: &[Mask], all: u64, env: &mut [u64; 6], i: usize) -> u64 {
        let nodes = p.nodes;
        let (kind, x, y) = (nodes[3 * i], nodes[3 * i + 1] as usize, nodes[3 * i + 2] as usize);
        match kind {
            0 => 0,
            1 => all,
            2 => eval(p, masks, all, env, x) | eval(p, masks, all, env, y),
            3 => eval(p, masks, all, env, x) & eval(p, masks, all, env, y),
            4 | 5 => {
                let child = eval(p, masks, all, env, y);
                let into = if kind == 4 { child } else { all & !child };
                let mut hit = 0u64;
                for c in p.transitions.chunks_exact(3) {
                    if into >> c[2] & 1 == 1 && meets(&masks[x], c[1]) {
                        hit |= 1 << c[0];
                    }
                }
                if kind == 4 { hit } else { all & !hit }
            }
            6 => env[x],
            _ => {
                let mut now = if kind == 7 { 0 } else { all };
                loop {
                    env[x] = now;
                    let next = eval(p, masks, all, env, y);
                    if next == now {
                        return now;
                    }
                    now = next;
                }
            }
        }
    }
    let all = if p.states == 64 { u64::MAX } else { (1u64 << p.states) - 1 };
    eval(p, &masks(p), all, &mut [0; 6], 0)
}

pub fn reference(b: &[u8]) -> Result<u64, Refusal> {
    let sheet = read(b)?;
    if sheet.parts.states > 64 {
        return Err((13, 0));
    }
    Ok(word_of(&sheet.parts))
}

pub fn guard(b: &[u8]) -> Result<bool, Refusal> {
    Ok(guarded(&read(b)?.parts))
}

pub fn clear(b: &[u8], table: &mut [u8]) -> Result<(), Refusal> {
    let sheet = read(b)?;
    let len = sheet.parts.table_len();
    if table.len() < len {
        return Err((20, 0));
    }
    table[..len].fill(0);
    Ok(())
}

/// The count that a table stores after its cells.
pub fn stored_count(table: &[u8], cells: usize) -> u32 {
    u32::from_le_bytes([table[cells], table[cells + 1], table[cells + 2], table[cells + 3]])
}

/// The largest of at most 255 bytes, and how many are not 0: both fit in a byte, so that many bytes are taken at a step.
fn look_at(block: &[u8]) -> (u8, u8) {
    block.iter().fold((0, 0), |(most, filled), &v| (v.max(most), filled + u8::from(v != 0)))
}

/// The largest byte of the cells, and how many are not 0.
pub fn look(cells: &[u8]) -> (u8, u32) {
    // at most 255, and whole steps of 32
    let (blocks, rest) = cells.as_chunks::<224>();
    let (mut most, last) = look_at(rest);
    let mut filled = u32::from(last);
    for block in blocks {
        let (high, n) = look_at(block);
        most = most.max(high);
        filled += u32::from(n);
    }
    (most, filled)
}

#[derive(Clone, Copy)]
pub enum Met {
    Unseen,
    Open,
    Done,
}

/// Can a loop be reached from a state? Depth first: a transition to a state that is still open closes one.
pub fn loop_reachable(p: &Parts, first: &[u16; 130], met: &mut [Met; 128], s: usize) -> bool {
    met[s] = Met::Open;
    for c in p.transitions[3 * first[s] as usize..3 * first[s + 1] as usize].chunks_exact(3) {
        let to = c[2] as usize;
        match met[to] {
            Met::Open => return true,
            Met::Done => {}
            Met::Unseen => {
                if loop_reachable(p, first, met, to) {
                    return true;
                }
            }
        }
    }
    met[s] = Met::Done;
    false
}

/// The states from which a loop can be reached, by Table 1 and not by the search above: they are those from which
/// transitions can be followed for ever, greatest X of "some" true X.
pub fn loop_reachable_states(p: &Parts) -> u128 {
    let ever = Parts { entries: &[1, 0, 0], nodes: &[8, 0, 1, 4, 0, 2, 6, 0, 0], binders: 1, binder_node: [0; 6], ..*p };
    meaning(&ever, u64::MAX).map_or(0, |m| m.0)
}

pub struct Query<'a> {
    pub p: &'a Parts<'a>,
    pub first: [u16; 130],
    pub masks: &'a [Mask],
    pub table: &'a mut [u8],
    pub visits: usize,
}

impl Query<'_> {
    /// The solution at a cell; fills the needed cells that were empty.
    pub fn cell(&mut self, m: usize, n: usize, s: usize) -> bool {
        let p = self.p;
        let at = (s * p.node_count() + n) * (p.binders + 1) + m;
        match self.table[at] {
            1 => return false,
            2 => return true,
            _ => {}
        }
        let (kind, x, y) = (p.nodes[3 * n], p.nodes[3 * n + 1] as usize, p.nodes[3 * n + 2] as usize);
        let value = match kind {
            0 => false,
            1 => true,
            2 => self.cell(m, x, s) || self.cell(m, y, s),
            3 => self.cell(m, x, s) && self.cell(m, y, s),
            4 | 5 => {
                let decides = kind == 4;
                let mut value = !decides;
                for i in self.first[s] as usize..self.first[s + 1] as usize {
                    let (a, to) = (p.transitions[3 * i + 1], p.transitions[3 * i + 2] as usize);
                    if meets(&self.masks[x], a) && self.cell(0, y, to) == decides {
                        value = decides;
                        break;
                    }
                }
                value
            }
            6 => {
                let binder = p.binder_node[x];
                if m == 0 || x < m - 1 {
                    self.cell(0, binder, s)
                } else {
                    p.nodes[3 * binder] == 8
                }
            }
            _ => self.cell(if m == 0 { x + 1 } else { m }, y, s),
        };
        self.table[at] = if value { 2 } else { 1 };
        self.visits += 1;
        value
    }
}

/// Looks for what a query of a state is refused for; the successor index, and how many cells are filled.
pub fn examine(p: &Parts, state: u8, table: &[u8]) -> Result<([u16; 130], u32), Refusal> {
    if state as usize >= p.states {
        return Err((11, 0));
    }
    let first = successors(p);
    if loop_reachable(p, &first, &mut [Met::Unseen; 128], state as usize) {
        return Err((12, 0));
    }
    let cells = p.cells();
    if table.len() < p.table_len() {
        return Err((20, 0));
    }
    let (most, filled) = look(&table[..cells]);
    if most > 2 {
        return Err((21, 0));
    }
    if stored_count(table, cells) != filled {
        return Err((35, 0));
    }
    Ok((first, filled))
}

/// Stores the count behind the cells.
pub fn store_count(table: &mut [u8], cells: usize, count: u32) {
    table[cells..cells + 4].copy_from_slice(&count.to_le_bytes());
}

pub fn query(b: &[u8], state: u8, table: &mut [u8]) -> Result<(bool, usize), Refusal> {
    let sheet = read(b)?;
    let p = &sheet.parts;
    let (first, filled) = examine(p, state, table)?;
    let mut q = Query { p, first, masks: &masks(p), table, visits: 0 };
    let verdict = q.cell(0, 0, state as usize);
    let visits = q.visits;
    store_count(table, p.cells(), filled + visits as u32);
    Ok((verdict, visits))
}

/// The verdict at a state from which no loop can be reached, by a table of its own.
pub fn verdict(p: &Parts, masks: &[Mask], state: usize) -> bool {
    let mut table = vec![0; p.cells()];
    Query { p, first: successors(p), masks, table: &mut table, visits: 0 }.cell(0, 0, state)
}

/// The cells of a table, each with its solution: those whose mark, node and state are chosen, from states from which no loop can be
/// reached, and all that are needed for them.
pub fn solved(p: &Parts, chosen: impl Fn(usize, usize, usize) -> bool) -> Vec<u8> {
    let (mut table, looping) = (vec![0; p.cells()], loop_reachable_states(p));
    let mut q = Query { p, first: successors(p), masks: &masks(p), table: &mut table, visits: 0 };
    for s in (0..p.states).filter(|s| looping >> s & 1 == 0) {
        for n in 0..p.node_count() {
            for m in (0..=p.binders).filter(|&m| chosen(m, n, s)) {
                q.cell(m, n, s);
            }
        }
    }
    table
}

pub fn write(plan: &[u8], acts: &[u8], rule: &[u8], out: &mut [u8]) -> Result<usize, Refusal> {
    read_parts(plan, acts, rule)?;
    let sheet = assemble(plan, acts, rule);
    if out.len() < sheet.len() {
        return Err((22, 0));
    }
    out[..sheet.len()].copy_from_slice(&sheet);
    Ok(sheet.len())
}

/// The three bodies under their table of contents, whatever they hold.
pub fn assemble(plan: &[u8], acts: &[u8], rule: &[u8]) -> Vec<u8> {
    let mut out = Vec::with_capacity(17 + plan.len() + acts.len() + rule.len());
    out.extend([1, 3]);
    let mut at = 17;
    for (i, body) in [plan, acts, rule].iter().enumerate() {
        out.push(i as u8 + 1);
        out.extend((at as u16).to_le_bytes());
        out.extend((body.len() as u16).to_le_bytes());
        at += body.len();
    }
    for body in [plan, acts, rule] {
        out.extend(body);
    }
    out
}
