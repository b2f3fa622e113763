#!/usr/bin/env python3
"""The read-only data of what is compiled.

    read_only.py function          builds sheet::kinds::child_count alone as a library: no
                                   read-only data may be in it, and the numbers of children may
                                   stand nowhere in it in a row. The same function as a `match` is
                                   built too, and its table must be found
    read_only.py sizes [REVISION]  how many bytes there are of it in the sheet crate and in the
                                   programs' object files, and which functions use them; the same
                                   of another revision, which is cloned and proved for that, and
                                   the two compared

Run `rt check` first: the programs are taken as it last built them. The libraries are built in a
temporary folder.
"""
import struct
import sys
import tempfile
from pathlib import Path

from native import HERE, archive, run
from oracle.sheet import children

ALONE = '''
#[unsafe(no_mangle)]
pub extern "C" fn child_count(kind: u8) -> u8 {
    sheet::kinds::child_count(kind)
}
'''

# a number for each kind: LLVM makes a table of it, in read-only data or in one wide constant
MATCH = '''
#[unsafe(no_mangle)]
pub extern "C" fn child_count(kind: u8) -> %s {
    match kind {
%s        _ => 0,
    }
}
'''

# every public function of the sheet crate but child_count, which an earlier revision need not have
# and which the reader asks: so every function
WHOLE = '''
use sheet::kinds::{EntryKind, NodeKind};
use sheet::{Node, Numbered, Variable};

#[unsafe(no_mangle)]
pub extern "C" fn refusal_number(sheet: &[u8]) -> u8 {
    let read = sheet::reader::read(sheet);
    read.number()
}

#[unsafe(no_mangle)]
pub extern "C" fn refusal_place(sheet: &[u8]) -> u16 {
    let checked = sheet::reader::check(sheet);
    checked.place()
}

#[unsafe(no_mangle)]
pub extern "C" fn write_sheet(plan: &[u8], actions: &[u8], rule: &[u8], out: &mut [u8]) -> usize {
    let written = sheet::writer::write(plan, actions, rule, out);
    written.unwrap_or(0)
}

#[unsafe(no_mangle)]
pub extern "C" fn check_plan(plan: &[u8]) -> bool {
    let checked = sheet::plan::check_plan(plan);
    checked.is_ok()
}

#[unsafe(no_mangle)]
pub extern "C" fn transition_count(sheet: &[u8]) -> u16 {
    sheet::plan::transition_count(sheet::reader::plan_body(sheet))
}

#[unsafe(no_mangle)]
pub extern "C" fn plan_fields(plan: &[u8], i: u16) -> u8 {
    let t = sheet::plan::transition(plan, i);
    let counts = sheet::plan::state_count(plan) ^ sheet::plan::action_count(plan);
    counts ^ t.from.0 ^ t.action.0 ^ t.to.0
}

#[unsafe(no_mangle)]
pub extern "C" fn action_fields(sheet: &[u8], i: u8) -> u8 {
    let actions = sheet::reader::actions_body(sheet);
    let e = sheet::actions::entry(actions, i);
    sheet::actions::entry_count(actions) ^ e.kind ^ e.x ^ e.y
}

#[unsafe(no_mangle)]
pub extern "C" fn rule_fields(sheet: &[u8], i: u8) -> u8 {
    let rule = sheet::reader::rule_body(sheet);
    let n = sheet::rule::node(rule, Node(i));
    sheet::rule::node_count(rule) ^ sheet::rule::binder_count(rule) ^ n.kind ^ n.x ^ n.y
}

#[unsafe(no_mangle)]
pub extern "C" fn is_binder(rule: &[u8], i: u8) -> bool {
    sheet::rule::is_binder(rule, Node(i))
}

#[unsafe(no_mangle)]
pub extern "C" fn bound_before(rule: &[u8], k: u8, i: u8) -> bool {
    sheet::rule::bound_before(rule, Variable(k), Node(i))
}

#[unsafe(no_mangle)]
pub extern "C" fn are_binders(node: u8, entry: u8) -> bool {
    let least = matches!(NodeKind::try_from(node), Ok(NodeKind::Least | NodeKind::Greatest));
    least && EntryKind::try_from(entry) == Ok(EntryKind::Not)
}
'''

READER = 'sheet::rule::subtree_from'


class Section:
    """a section of an object file that is loaded with the program"""

    def __init__(self, name, flags, held):
        self.name, self.held, self.users = name, held, set()
        self.code = bool(flags & 4)
        self.read_only = not self.code and (not flags & 1 or name.startswith('.data.rel.ro'))

    def row(self, numbers):
        """whether the numbers stand in it one after the other, from a byte on, at some width"""
        bits = int.from_bytes(self.held, 'little')
        for width in (2, 4, 8, 16, 32, 64):
            wanted = sum(n << width * i for i, n in enumerate(numbers))
            size = width * len(numbers)
            if any(bits >> at & (1 << size) - 1 == wanted
                   for at in range(0, 8 * len(self.held) - size + 1, 8)):
                return True
        return False


def sections(held):
    """the sections of an ELF object file of 64 bits, low byte first, and the code that uses each"""
    assert held[:6] == b'\x7fELF\x02\x01'
    start, = struct.unpack_from('<Q', held, 40)
    size, count, names = struct.unpack_from('<3H', held, 58)
    heads = [struct.unpack_from('<IIQQQQII', held, start + size * i) for i in range(count)]
    found = {}
    for i, (name, kind, flags, _, at, length, _, _) in enumerate(heads):
        # allocated, and not without bytes as .bss is
        if flags & 2 and kind != 8 and length:
            text = held[heads[names][4] + name:]
            found[i] = Section(text[:text.index(0)].decode(), flags, held[at:at + length])
    for _, kind, _, _, at, length, symbols, user in heads:
        # relocations with addends: each names a symbol, and the symbol its section
        if kind == 4 and user in found and found[user].code:
            for place in range(at, at + length, 24):
                symbol = struct.unpack_from('<Q', held, place + 8)[0] >> 32
                used, = struct.unpack_from('<H', held, heads[symbols][4] + 24 * symbol + 6)
                if used in found:
                    found[used].users.add(found[user].name.removeprefix('.text.'))
    return [*found.values()]


def member(archive):
    """the object file of a static library, which has one"""
    assert archive[:8] == b'!<arch>\n'
    at, found = 8, []
    while at < len(archive):
        name, size = archive[at:at + 16].strip(), int(archive[at + 48:at + 58])
        if name not in (b'/', b'//'):
            found.append(archive[at + 60:at + 60 + size])
        at += 60 + size + size % 2
    assert len(found) == 1
    return found[0]


def library(root, source):
    """the sections of a library over the sheet crate of a repository that rt has proved"""
    return sections(member(archive(root, source, 'sheet')))


def function():
    answers = [children(kind) for kind in range(9)]
    arms = ''.join('        %d => %d,\n' % pair for pair in enumerate(answers))
    bad = 0
    for what, source, table in (('child_count alone', ALONE, False),
                                ('as a match, 64 bits', MATCH % ('usize', arms), True),
                                ('as a match, 8 bits', MATCH % ('u8', arms), True)):
        found = library(HERE, source)
        data = sum(len(s.held) for s in found if s.read_only)
        # kinds 0 and 1 have no child, which a table may leave out
        rows = [s.name for s in found if s.row(answers) or s.row(answers[2:])]
        print('%-20s %3d bytes of code, %2d of read-only data%s' % (
            what + ':', sum(len(s.held) for s in found if s.code), data,
            ''.join('; the numbers in a row in ' + name for name in rows)))
        if bool(data or rows) != table:
            print('  that is wrong: there is %s table' % ('a' if data or rows else 'no'))
            bad = 1
    return bad


def measured(root):
    """the sections of the sheet crate and of each program"""
    yield 'sheet crate', library(root, WHOLE)
    for main in sorted(root.glob('crates/*/src/main.rt')):
        name = main.parent.parent.name
        yield name, sections((root / 'crates' / name / 'out' / (name + '.o')).read_bytes())


def sizes(root, title):
    """how many bytes each has, printed by section, and how many of them the reader's match uses"""
    totals = {}
    print(title)
    for what, found in measured(root):
        data = [s for s in found if s.read_only]
        assert any(s.code and s.name.endswith(READER) for s in found), 'no ' + READER
        reader = sum(len(s.held) for s in data if any(u.endswith(READER) for u in s.users))
        totals[what] = sum(len(s.held) for s in data), reader
        print('  %s: %d bytes, %d of them used by the reader\'s match on the kind' % (
            what, *totals[what]))
        for s in data:
            print('    %4d %s, used by %s' % (len(s.held), s.name, ', '.join(sorted(s.users))))
    return totals


def main(args):
    if args == ['function']:
        return function()
    if args[:1] == ['sizes'] and len(args) <= 2:
        here = sizes(HERE, 'here')
        for revision in args[1:]:
            with tempfile.TemporaryDirectory() as folder:
                run(HERE, 'git', 'clone', '--quiet', '.', folder)
                run(folder, 'git', 'checkout', '--quiet', revision)
                run(folder, 'rt', 'check')
                before = sizes(Path(folder), revision)
            print('bytes of read-only data, and of them used by the reader\'s match, at %s and here'
                  % revision)
            for what in sorted({*before, *here}):
                print('  %-12s %s -> %s' % (what, *(
                    '%d (%d)' % found[what] if what in found else 'none'
                    for found in (before, here))))
        return 0
    print(__doc__)
    return 2


if __name__ == '__main__':
    sys.exit(main(sys.argv[1:]))
