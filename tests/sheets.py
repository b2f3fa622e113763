#!/usr/bin/env python3
"""The example sheets, the text of one's plan, the recordings for another, the example report, the
example tables, the example benches and an example of the closest state, with pages that explain
them.

    sheets.py write DIR              writes DIR/NAME.sheet, DIR/NAME.report, DIR/NAME-WHICH.table or
                                     DIR/NAME-WHICH.tables, and DIR/NAME.txt for each, DIR/NAME.aut
                                     for a plan that has a text, and DIR/NAME-WHICH.run for each
                                     recording
    sheets.py check DIR PROGRAM      runs PROGRAM on each sheet of DIR and compares with the last
                                     line of its page; then on sheets at the limits and on refused
                                     ones, and compares with what docs/FORMAT.md says
    sheets.py texts DIR DRIVER       makes each sheet of DIR that has an .aut text anew from it, by
                                     tests/aut_sheet.py and the trial driver DRIVER, and compares
                                     with the sheet; then others, and refused ones
    sheets.py branches DIR DRIVER    makes the sheet of DIR that has a branch anew, by
                                     tests/branch_sheet.py and the trial driver DRIVER, and compares
                                     with the sheet; then others, and refused ones
    sheets.py recordings DIR DRIVER  searches the recordings of DIR, by tests/shortest_run.py and
                                     the trial driver DRIVER, and compares with the page; then
                                     others, and refused ones
    sheets.py tables DIR DRIVER      audits the tables of DIR, by tests/audit_table.py and the trial
                                     driver DRIVER, and compares with the page; then others, and
                                     refused ones
    sheets.py benches DIR DRIVER     grants what the benches of DIR get, by
                                     tests/allowance_benches.py and the trial driver DRIVER, and
                                     compares with the page; then others, and refused ones
    sheets.py closest DIR DRIVER     looks for the closest state of a sheet of DIR, by
                                     tests/closest_state.py and the trial driver DRIVER, and
                                     compares with the page; then others, and refused ones
    sheets.py deepest FILE           the sheet on which a query nests deepest
"""
import re
import subprocess
import sys
import tempfile
import textwrap
from pathlib import Path

import allowance_benches
import audit_table
import closest_state
import shortest_run
from inputs.audit_parts import cells_left, solved_cells, turned
from inputs.aut_parts import text
from inputs.counts import AT_0_AND_2
from inputs.examples import (
    BENCHES, CLOSEST, CLOSEST_RELEASED, COUNTER, CUT, KEY, KEY_BRANCH, LOOP_AHEAD, SERVICE, SPARE,
    SUPPLIER, WORN_KEPT)
from inputs.parts import (
    GREATEST_X, K, K8, K_ACTIONS, K_PLAN, K_RULE, LEAST, LEAST_LOOP, LEAST_X, LONG, counted,
    deepest, faults, plan, refusals, rule, set_at, table)
from native import HERE
from oracle.allowances import allowance
from oracle.aut import read_text
from oracle.branches import branched, propose
from oracle.closest import closest as search
from oracle.program import line_of, lines_of
from oracle.protocol import yes
from oracle.recordings import shortest
from oracle.rows import Sheet
from oracle.sheet import bodies_at, read_sheet, sheet_of, triples, word

KINDS = ('F', 'T', 'or', 'and', 'some', 'every', 'variable', 'least', 'greatest')


def node_text(node):
    kind, x, y = node
    if kind in (2, 3):
        return '%s of nodes %d and %d' % (KINDS[kind], x, y)
    if kind in (4, 5):
        return '%s, action entry %d, of node %d' % (KINDS[kind], x, y)
    if kind == 6:
        return 'variable %d' % x
    if kind in (7, 8):
        return '%s fixed point, binds variable %d, of node %d' % (KINDS[kind], x, y)
    return KINDS[kind]


def byte_rows(example):
    """the bytes of the sheet, a piece to a line, with what each says"""
    p, a, r = example['bodies']
    s = sheet_of(p, a, r)
    states, actions = example['states'], example['actions']
    yield s[:2], 'edition 1, three entries'
    for k, what in enumerate(('plan', 'action formulas', 'rule')):
        yield s[2 + 5 * k:7 + 5 * k], '%s: kind, offset, length' % what
    yield p[:4], '%d states, %d actions, %d transitions' % (p[0], p[1], word(p, 2))
    for t in triples(p, 4):
        yield t, '%s -- %s --> %s' % (states[t[0]], actions[t[1]], states[t[2]])
    yield a[:1], 'action formulas'
    for i, (e, text) in enumerate(zip(triples(a, 1), example['entries'])):
        yield e, '%d: %s' % (i, text)
    yield r[:1], 'nodes of the rule'
    for i, n in enumerate(triples(r, 1)):
        yield n, '%d: %s' % (i, node_text(n))


def filled(text):
    return textwrap.wrap(text, 100, break_long_words=False, break_on_hyphens=False)


def shown(rows):
    return ['  %-18s %s' % (','.join(map(str, b)), text) for b, text in rows]


def text_rows(example):
    """the lines of the plan's text, each with what it says or becomes"""
    first, *lines = example['text'].decode().splitlines()
    states, transitions = read_text(example['text'])
    yield first, 'first state 0, %d transitions, %s states' % (len(transitions), states.decode())
    labels = []
    for line, (source, label, to) in zip(lines, transitions):
        new = '' if label in labels else ': "%s" is action %d' % (label.decode(), len(labels))
        labels += [label] if new else []
        yield line, '%s,%d,%s%s' % (source.decode(), labels.index(label), to.decode(), new)


def run_name(example, which):
    return '%s-%s.run' % (example['name'], which)


def shortest_line(s, first, second):
    """what tests/shortest_run.py says of recordings that are not refused"""
    which, part = shortest(s, first, second)
    return shortest_run.answer_line(which, bytes.fromhex(part))


def run_rows(example):
    """the bytes of each recording with their actions, and what is found"""
    s, recordings = sheet_of(*example['bodies']), example['recordings']
    for which, run in recordings.items():
        yield ''
        yield 'The %s recording, %s, %d bytes' % (which, run_name(example, which), len(run))
        yield from shown(([action], example['actions'][action]) for action in run)
    yield from ('', *filled(example['of the recordings']), '', 'The command')
    yield '  python3 tests/shortest_run.py examples/%s.sheet \\' % example['name']
    yield '      ' + ' '.join('examples/' + run_name(example, which) for which in recordings)
    yield from ('prints', '  ' + shortest_line(s, **recordings))


def searched(s, tab):
    """what tests/closest_state.py says of a table that is not refused, and the table left"""
    left = bytearray(tab)
    return closest_state.answer_line(*search(s, left)), bytes(left)


def closest_rows(example):
    """what is found on a table just cleared, and the cells it leaves"""
    s = sheet_of(*example['bodies'])
    line, left = searched(s, bytes(Sheet(s).table_size()))
    yield from ('', 'The closest state', *filled(example['of the search']), '', 'The command')
    yield '  python3 tests/closest_state.py examples/%s.sheet' % example['name']
    yield from ('prints', '  ' + line, '', 'The cells filled, of a table of %d bytes' % len(left))
    yield from shown(table_rows({'sheet': s}, left))


def page(example):
    s = sheet_of(*example['bodies'])
    out = [*filled(example['title']), '', 'Plan', *filled(example['plan']), '',
           'Rule', *example['formula'], *filled(example['rule']), '', 'The %d bytes' % len(s),
           *shown(byte_rows(example))]
    if 'also' in example:
        out += ['', *filled(example['also'])]
    if 'text' in example:
        out += ['', 'The plan as a text, %s.aut' % example['name'],
                *('  %-24s %s' % row for row in text_rows(example)),
                *filled(example['of the text'])]
    if 'recordings' in example:
        out += run_rows(example)
    if 'of the search' in example:
        out += closest_rows(example)
    return '\n'.join([*out, '', 'The program plan_judge prints', line_of(s), ''])


def report_input(example):
    return bytes([len(example['states']), *example['states']]) + example['sheet']


def report_page(example):
    states, s = example['states'], example['sheet']
    given = report_input(example)
    rows = zip(([len(states)], states, [*s[:4], '...']), example['rows'])
    return '\n'.join([*filled(example['title']), '', 'The %d bytes' % len(given), *shown(rows), '',
                      *filled(example['also']), '', 'The program counter_report prints',
                      lines_of(given), ''])


def table_name(example, which):
    return '%s-%s.table' % (example['name'], which)


def table_rows(example, tab):
    """of each state the nodes that have a filled cell, with the bytes of their marks; the count"""
    sheet = Sheet(example['sheet'])
    marks, nodes = len(sheet.binders) + 1, len(sheet.nodes)
    for at in range(0, sheet.cells(), marks):
        if any(tab[at:at + marks]):
            state, node = divmod(at // marks, nodes)
            yield tab[at:at + marks], 'byte %d: state %d, node %d: %s' % (
                at, state, node, node_text(sheet.nodes[node]))
    yield tab[sheet.cells():], 'byte %d: the stored count' % sheet.cells()


def tables_page(example):
    out = [*filled(example['title']), '', *filled(
        'A byte of a cell is 0 where it is empty, 1 where it is false, 2 where it is true. The '
        'three of a node stand for marks 0, 1 and 2. Nodes of which no cell is filled are left '
        'out. The command names a cell by its mark, its node and its state.')]
    for which, tab in example['tables'].items():
        out += ['', 'The %s table, %s, %d bytes' % (which, table_name(example, which), len(tab)),
                *shown(table_rows(example, tab)), '', *filled(example['of ' + which]), '',
                'The command',
                '  python3 tests/audit_table.py examples/%s examples/%s' % (
                    example['sheet name'], table_name(example, which)),
                'prints', '  ' + audit_table.answer_line(example['sheet'], tab)]
    return '\n'.join([*out, ''])


def left_name(example, which):
    return '%s-%s.tables' % (example['name'], which)


def granted(s, states, visits, tables):
    """what tests/allowance_benches.py says of benches that are not refused, and the tables left"""
    left = bytearray(tables)
    benches = [(str(need), str(grant), yes(short), yes(verdict), str(filled))
               for need, grant, short, verdict, filled in allowance(s, states, visits, left)]
    return '\n'.join(allowance_benches.bench_lines(states, benches)), bytes(left)


def benches_page(example):
    s, states = example['sheet'], example['states']
    size = Sheet(s).table_size()
    tables, before = bytes(size * len(states)), ''
    out = [*filled(example['title'])]
    for which, left in example['left'].items():
        out += ['', 'The %s allowance' % which, '', 'The command',
                "  python3 tests/allowance_benches.py examples/%s '%s' %d%s" % (
                    example['sheet name'], ' '.join(map(str, states)), example['visits'], before),
                'prints', *('  ' + line for line in granted(
                    s, states, example['visits'], tables)[0].split('\n')),
                '', *filled(example['of ' + which])]
        out += ['', 'It leaves %s, %d bytes' % (left_name(example, which), len(left))]
        for i in range(len(states)):
            own = left[i * size:(i + 1) * size]
            same = own == tables[i * size:(i + 1) * size]
            out += ['  bench %d, from byte %d%s' % (i, i * size, ': as before' if same else '')]
            out += [] if same else shown(table_rows(example, own))
        tables, before = left, ' examples/' + left_name(example, which)
    return '\n'.join([*out, '', *filled(
        'The bytes of a table are counted from its start; supplier.txt says what they mean. With '
        "the name of a file as its last word, behind that of the tables or '', the command writes "
        'there what it leaves.'), ''])


def further():
    """sheets at the limits, sheets with loops, a sheet for each refusal, and inputs longer than any
    sheet"""
    yield sheet_of(*LEAST)
    yield sheet_of(*LONG)
    yield deepest()
    yield K8
    yield LEAST_X
    yield GREATEST_X
    yield LEAST_LOOP
    # K with a loop that state 0 does not lead to, behind it as well, and with one ahead of it
    for more in ([(3, 0, 3)], [(3, 0, 3), (3, 1, 0)], [(2, 0, 2)]):
        yield sheet_of(plan(4, 3, [(0, 1, 1), (1, 2, 2)] + more), K_ACTIONS, K_RULE)
    yield WORN_KEPT
    yield LOOP_AHEAD
    yield from refusals()
    yield b''
    yield sheet_of(*LONG) + b'\0'
    yield sheet_of(K_PLAN, K_ACTIONS, K_RULE + b'\7' * (65535 - len(K)))


def check(folder, program):
    wrong = 0

    def run(name, want, **given):
        nonlocal wrong
        found = subprocess.run([program], capture_output=True, **given).stdout.decode()
        wrong += found != want + '\n'
        print(name + ':', found.strip(), '' if found == want + '\n' else 'and not ' + want)

    for file in sorted(Path(folder).glob('*.sheet')):
        want = file.with_suffix('.txt').read_text().split('\n')[-2]
        run(str(file), want, input=file.read_bytes())
    for i, sheet in enumerate(further()):
        run('input %d' % i, line_of(sheet), input=sheet)
    with open('/dev/zero', 'rb') as endless:
        run('input without end', 'refused 2 0', stdin=endless)
    print('all as expected' if wrong == 0 else '%d wrong' % wrong)
    return min(wrong, 1)


TOO_LONG = 'a request of the trial driver has room for 65,535 bytes'


def typed(body):
    return ','.join(map(str, body))


def from_texts(folder):
    """.aut texts with action formulas and rules as they are typed; the sheet of each, or what is
    said of it"""
    for file in sorted(Path(folder).glob('*.aut')):
        s = file.with_suffix('.sheet').read_bytes()
        _, a, r = bodies_at(s, read_sheet(s))
        yield file.read_bytes(), typed(a), typed(r), s
        yield file.read_bytes(), typed(a).replace(',', ' '), typed(r).replace(',', ', '), s
    # the command of the page for designers
    found = re.search(r"aut_sheet.py (.*) \\\n *'(.*)' \\\n *'([^']*)'",
                      (HERE / 'docs/AUT.md').read_text())
    file = HERE / found[1]
    yield file.read_bytes(), found[2], found[3], file.with_suffix('.sheet').read_bytes()
    p, a, r = CUT['bodies']
    given, actions, nodes = CUT['text'], typed(a), typed(r)
    either = table((2, 4, 0), (2, 5, 0), (3, 0, 1))
    yield given, 'line 4 or 5', '2 4,2,1 1,0,0', sheet_of(p, either, rule((4, 2, 1), (1, 0, 0)))
    yield text(1), '0', '1 1 0 0', sheet_of(*LEAST)
    for other, line in ((given[:-1], 'refused 37 0'), (text(7, (0, b'a', 7)), 'refused 38 0'),
                        (text(129), 'refused 39 0')):
        yield other, actions, nodes, line
    for other, line in (('line 4 5', 'refused 32 0'), ('line 6', 'refused 33 0'),
                        ('line' + ' not' * 32 + ' 5', 'refused 34 0'), ('', 'refused 6 0'),
                        ('2 1,0,0 2,6,0', 'refused 7 1'), ('1 256,0,0', '256 is no byte')):
        yield given, other, nodes, line
    for other, line in (('', 'refused 8 0'), ('2 3,1,2 1,0,0', 'refused 9 0'),
                        ('1 6,0,0', 'refused 10 0'), ('one', 'one is no byte')):
        yield given, actions, other, line
    yield b'(' * 65536, actions, nodes, TOO_LONG


def texts(folder, driver):
    wrong = 0
    command = [sys.executable, str(HERE / 'tests/aut_sheet.py'), '--driver', driver]
    with tempfile.TemporaryDirectory() as made:
        for i, (given, actions, nodes, wanted) in enumerate(from_texts(folder)):
            file, sheet = Path(made, '%d.aut' % i), Path(made, '%d.sheet' % i)
            file.write_bytes(given)
            words = [*command, str(file), actions, nodes]
            one = subprocess.run(words, capture_output=True)
            two = subprocess.run([*words, str(sheet)], capture_output=True)
            held = sheet.read_bytes() if sheet.exists() else b''
            found = one.stdout, one.stderr, two.stdout, two.stderr, held
            if isinstance(wanted, bytes):
                said, right = 'a sheet of %d bytes' % len(wanted), (wanted, b'', b'', b'', wanted)
            else:
                line = wanted.encode() + b'\n'
                said, right = wanted, (b'', line, b'', line, b'')
            wrong += found != right
            print('text %d:' % i, said if found == right else '%s and not %s' % (found, right))
    print('all as expected' if wrong == 0 else '%d wrong' % wrong)
    return min(wrong, 1)


def to_branch(folder):
    """sheets and branches as they are typed; the new sheet of each, or what is said of it"""
    sheet = Path(folder, KEY['name'] + '.sheet').read_bytes()
    new = Path(folder, KEY_BRANCH['name'] + '.sheet').read_bytes()
    yield sheet, [*map(str, KEY_BRANCH['branch'])], new
    yield sheet, ['000', '2', ' 2'], new
    # the command of the page
    found = re.search(r'branch_sheet.py (\S+) (\S+) (\S+) (\S+) new.sheet',
                      (HERE / 'docs/BRANCHES.md').read_text())
    yield (HERE / found[1]).read_bytes(), [*found.groups()[1:]], new
    # one more, and one at either end
    for s, branch in ((new, (0, 0, 2)), (sheet, (0, 0, 1)), (sheet, (1, 1, 2)),
                      (sheet_of(*SPARE['bodies']), (8, 5, 8)),
                      (sheet_of(plan(2, 255, []), *LEAST[1:]), (0, 254, 1))):
        yield s, [*map(str, branch)], branched(s, branch)[0]
    for branch, line in (('0 1 1', 'refused 40 0'), ('3 0 0', 'refused 40 0'),
                         ('2 0 0', 'refused 12 0'), ('0 256 0', '256 is no byte'),
                         ('0 0 one', 'one is no byte'), ('-1 0 0', '-1 is no byte')):
        yield sheet, branch.split(), line
    yield sheet, ['0', '', '0'], 'nothing is no byte'
    yield sheet, ['0', '1 2', '0'], '1 2 is no byte'
    yield new[:-1], ['0', '0', '2'], 'refused 3 0'
    yield sheet_of(*LONG), ['0', '0', '0'], 'refused 40 0'
    yield b'(' * 65536, ['0', '0', '1'], TOO_LONG


def branches(folder, driver):
    wrong = 0
    command = [sys.executable, str(HERE / 'tests/branch_sheet.py'), '--driver', driver]
    with tempfile.TemporaryDirectory() as made:
        for i, (given, branch, wanted) in enumerate(to_branch(folder)):
            old, new = Path(made, '%d.old' % i), Path(made, '%d.new' % i)
            old.write_bytes(given)
            words = [*command, str(old), *branch]
            one = subprocess.run(words, capture_output=True)
            two = subprocess.run([*words, str(new)], capture_output=True)
            held = new.read_bytes() if new.exists() else b''
            found = one.stdout, one.stderr, two.stdout, two.stderr, held, two.returncode
            if isinstance(wanted, bytes):
                proposal = propose(given, tuple(map(int, branch)))
                line = b'proposal %d %d %d\n' % proposal
                said, right = 'a sheet of %d bytes' % len(wanted), (line, b'', line, b'', wanted, 0)
            else:
                line = wanted.encode() + b'\n'
                said, right = wanted, (b'', line, b'', line, b'', 1)
            good = found == right and old.read_bytes() == given
            wrong += not good
            print('branch %d:' % i, said if good else '%s and not %s' % (found, right))
    print('all as expected' if wrong == 0 else '%d wrong' % wrong)
    return min(wrong, 1)


def to_search(folder):
    """sheets and two recordings; what is said of them"""
    sheet = Path(folder, SERVICE['name'] + '.sheet').read_bytes()
    first, second = (Path(folder, run_name(SERVICE, which)).read_bytes()
                     for which in SERVICE['recordings'])
    words = Path(folder, SERVICE['name'] + '.txt').read_text()
    # the commands of the pages, and what they print; a recording as a shell writes it
    page = (HERE / 'docs/RECORDINGS.md').read_text()
    for form, given in ((r'run.py (\S+) \\\n *(\S+) (\S+)\nprints\n *(.*)\n', words),
                        (r'SHEET=(\S+) FIRST=(\S+) \\\n *SECOND=(\S+)\n\n.*\n\n *(.*)\n', page)):
        *files, line = re.search(form, given).groups()
        yield *((HERE / file).read_bytes() for file in files), line
    octal = re.search(r"printf '(.*)' > second.run", page)[1].split('\\')[1:]
    assert bytes(int(digits, 8) for digits in octal) == second
    said = 'the rule fails on the first %s recording: %s'
    yield sheet, first, second, said % ('5 actions of the second', '0 2 5 0 3')
    yield sheet, second, first, said % ('5 actions of the first', '0 2 5 0 3')
    yield sheet, first, b'\3', said % ('8 actions of the first', '0 1 3 4 5 0 2 0')
    no_1 = sheet_of(K_PLAN, K_ACTIONS, rule((5, 1, 1), (0, 0, 0)))
    yield no_1, b'\2\1', b'\1\2', said % ('action of the second', '1')
    for one, other in ((first, second[:4]), (first[:7], second[:4]), (b'', b''), (b'', second),
                       (second[3:], first), (b'\0' * 127, b'\5' * 127), (b'\5' * 127, b'\5' * 9)):
        yield sheet, one, other, shortest_line(sheet, one, other)
    for s in (K, K8, sheet_of(*CUT['bodies']), sheet_of(*LONG)):
        yield s, b'\1\2', b'\2', shortest_line(s, b'\1\2', b'\2')
    yield sheet, b'\0' * 128, second, shortest_run.refusal_line(42, 0)
    yield sheet, first, b'\6', shortest_run.refusal_line(43, 0)
    yield sheet_of(*LEAST), b'', b'\0', shortest_run.refusal_line(43, 0)
    yield sheet[:-1], first, second, shortest_run.refusal_line(3, 0)
    for number, place, s in faults():
        yield s, first, b'\0' * 128, shortest_run.refusal_line(number, place)
    yield b'(' * 65536, first, second, TOO_LONG
    yield sheet, b'\1' * 65536, second, TOO_LONG


def recordings(folder, driver):
    wrong = 0
    command = [sys.executable, str(HERE / 'tests/shortest_run.py'), '--driver', driver]
    with tempfile.TemporaryDirectory() as made:
        for i, (*given, wanted) in enumerate(to_search(folder)):
            files = [Path(made, '%d.%s' % (i, which)) for which in ('sheet', 'first', 'second')]
            for file, content in zip(files, given):
                file.write_bytes(content)
            done = subprocess.run([*command, *map(str, files)], capture_output=True)
            line = wanted.encode() + b'\n'
            right = (line, b'', 0) if wanted.startswith('the rule') else (b'', line, 1)
            found = done.stdout, done.stderr, done.returncode
            good = found == right and all(file.read_bytes() == content
                                          for file, content in zip(files, given))
            wrong += not good
            print('recordings %d:' % i, wanted if good else '%s and not %s' % (found, right))
    print('all as expected' if wrong == 0 else '%d wrong' % wrong)
    return min(wrong, 1)


def to_audit(folder):
    """sheets and tables; what is said of them"""
    # the commands of the pages, and what they print
    page = (HERE / 'docs/AUDIT.md').read_text()
    key = re.search(r'make audit SHEET=(\S+)', page)[1]
    found = re.findall(r'TABLE=([\w/.-]+)`?(?:\n\n.* | it )prints\n\n *(.*)\n', page)
    assert len(found) == len(SUPPLIER['tables'])
    for tab, line in found:
        yield (HERE / key).read_bytes(), (HERE / tab).read_bytes(), line
    words = Path(folder, SUPPLIER['name'] + '.txt').read_text()
    found = re.findall(r'table.py (\S+) (\S+)\nprints\n *(.*)\n', words)
    assert len(found) == len(SUPPLIER['tables'])
    for sheet, tab, line in found:
        yield (HERE / sheet).read_bytes(), (HERE / tab).read_bytes(), line
    for cells, off, line in (
            (bytes(108), 0, 'yes: the count, 0, is right, and each filled cell follows'),
            (AT_0_AND_2, -26, 'no: the stored count is 0, and the number of filled cells is 26'),
            (set_at(bytes(108), 2, 2), 0,
             'no: the cell (2, 0, 0) is filled, but node 0 does not stand below binder 1'),
            (set_at(bytes(108), 81, 1), 0,
             'no: the cell (0, 3, 2) is false, but its row is empty, which makes it true'),
            (set_at(AT_0_AND_2, 4, 0), 0, 'no: the cell (0, 0, 0) is true, but (1, 1, 0) in its '
             'row is empty, and none decides it'),
            (turned(AT_0_AND_2, 40), 0, 'no: the cell (0, 0, 1) is true, but (1, 1, 1) in its row '
             'is false, which makes it false'),
            (turned(AT_0_AND_2, 85), 0, 'no: the cell (1, 1, 2) is false, but (1, 4, 2) in its row '
             'is true, which makes it true'),
            (set_at(turned(AT_0_AND_2, 76), 72, 0), 0, 'no: the cell (1, 1, 2) is true, but all 2 '
             'in its row are false, which makes it false')):
        yield K, counted(cells, off), line
    for s in (K8, LEAST_X, GREATEST_X, sheet_of(*CUT['bodies']), sheet_of(*SPARE['bodies'])):
        for cells in (cells_left(s, [0]), cells_left(s, range(9)), solved_cells(s)):
            yield s, counted(cells) + b'\3', audit_table.answer_line(s, counted(cells))
    yield K, bytes(111), audit_table.refusal_line(20, 0)
    yield K, b'\3' + bytes(111), audit_table.refusal_line(21, 0)
    yield LEAST_LOOP, counted(b'\0\0\0\0\0\1'), audit_table.refusal_line(12, 0)
    for number, place, s in faults():
        yield s, bytes(112), audit_table.refusal_line(number, place)
    yield b'(' * 65536, bytes(112), TOO_LONG
    yield K, bytes(65536), TOO_LONG


def tables(folder, driver):
    wrong = 0
    command = [sys.executable, str(HERE / 'tests/audit_table.py'), '--driver', driver]
    with tempfile.TemporaryDirectory() as made:
        for i, (*given, wanted) in enumerate(to_audit(folder)):
            files = [Path(made, '%d.%s' % (i, which)) for which in ('sheet', 'table')]
            for file, content in zip(files, given):
                file.write_bytes(content)
            done = subprocess.run([*command, *map(str, files)], capture_output=True)
            line = wanted.encode() + b'\n'
            answers = wanted.startswith(('yes', 'no'))
            right = (line, b'', 0) if answers else (b'', line, 1)
            found = done.stdout, done.stderr, done.returncode
            good = found == right and all(file.read_bytes() == content
                                          for file, content in zip(files, given))
            wrong += not good
            print('table %d:' % i, wanted if good else '%s and not %s' % (found, right))
    print('all as expected' if wrong == 0 else '%d wrong' % wrong)
    return min(wrong, 1)


def to_grant(folder):
    """sheets, states, visits, tables or None for cleared ones; what is said of them, and what is
    left, None where it is refused"""
    # the commands of the pages, and what they print
    page = (HERE / 'docs/ALLOWANCE.md').read_text()
    found = re.findall(r"make allowance SHEET=(\S+) STATES='(.*)' VISITS=(\d+)"
                       r'(?: TABLES=([\w/.-]+))?\n\n.*prints\n\n((?: +bench .*\n)+)', page)
    assert found
    words = Path(folder, BENCHES['name'] + '.txt').read_text()
    own = re.findall(r"benches.py (\S+) '(.*)' (\d+)(?: (\S+))?\nprints\n((?: +bench .*\n)+)",
                     words)
    assert len(own) == len(BENCHES['left'])
    for sheet, states, visits, tables, lines in (*found, *own):
        s, given = (HERE / sheet).read_bytes(), [*map(int, states.split())]
        before = (HERE / tables).read_bytes() if tables else None
        left = granted(s, given, int(visits), before or bytes(
            Sheet(s).table_size() * len(given)))[1]
        yield s, states, visits, before, textwrap.dedent(lines).strip(), left
    for which, (_, _, _, tables, _) in zip(BENCHES['left'], own):
        s, states, visits = BENCHES['sheet'], BENCHES['states'], BENCHES['visits']
        before = (HERE / tables).read_bytes() if tables else bytes(336)
        after = Path(folder, left_name(BENCHES, which)).read_bytes()
        yield (s, ','.join(map(str, states)), str(visits), before,
               granted(s, states, visits, before)[0], after)
    for s in (K, K8, LEAST_X, sheet_of(*CUT['bodies']), sheet_of(*SPARE['bodies'])):
        for states, visits in (([0], 0), ([0, 0, 2], 7), ([2, 1] * 4, 25), ([1, 0], 4294967295)):
            tables = bytes(Sheet(s).table_size() * len(states))
            for past in (b'', b'\3\0\xff'):
                lines, left = granted(s, states, visits, tables + past)
                yield (s, ' '.join(map(str, states)), str(visits), tables + past if past else None,
                       lines, left)
    said = allowance_benches.refusal_line
    yield K, '', '5', None, said(44, 0), None
    yield K, '0 ' * 9, '5', None, said(44, 0), None
    yield K, '0 3', '5', None, said(11, 0, 1), None
    yield LOOP_AHEAD, '6 0', '5', None, said(12, 0, 1), None
    yield K, '0 1 2', '5', bytes(335), said(20, 0, 2), None
    yield K, '0 1 2', '5', bytes(111), said(20, 0, 0), None
    yield K, '0 1', '5', bytes(112) + b'\3' + bytes(111), said(21, 0, 1), None
    yield K, '0 1', '5', counted(AT_0_AND_2, 1) + bytes(112), said(35, 0, 0), None
    for number, place, s in faults():
        yield s, '0 1', '5', None, said(number, place), None
    yield K, '0 256', '5', None, '256 is no byte', None
    for word in ('', '-1', '4294967296', '1e3'):
        yield K, '0', word, None, '%s is no number of visits' % (word or 'nothing'), None
    yield b'(' * 65536, '0', '5', None, TOO_LONG, None
    yield K, '0', '5', bytes(65536), TOO_LONG, None
    yield deepest(), '0 1', '5', None, TOO_LONG, None


def benches(folder, driver):
    wrong = 0
    command = [sys.executable, str(HERE / 'tests/allowance_benches.py'), '--driver', driver]
    with tempfile.TemporaryDirectory() as made:
        for i, (s, states, visits, tables, wanted, left) in enumerate(to_grant(folder)):
            sheet, given, after = (Path(made, '%d.%s' % (i, which))
                                   for which in ('sheet', 'tables', 'left'))
            sheet.write_bytes(s)
            if tables is not None:
                given.write_bytes(tables)
            words = [sheet, states, visits, '' if tables is None else given, after]
            done = subprocess.run([*command, *map(str, words)], capture_output=True)
            line = wanted.encode() + b'\n'
            right = (b'', line, 1, None) if left is None else (line, b'', 0, left)
            found = (done.stdout, done.stderr, done.returncode,
                     after.read_bytes() if after.exists() else None)
            good = found == right and (tables is None or given.read_bytes() == tables)
            wrong += not good
            print('benches %d:' % i, wanted.replace('\n', '; ') if good else '%s and not %s' % (
                found, right))
    print('all as expected' if wrong == 0 else '%d wrong' % wrong)
    return min(wrong, 1)


def to_look(folder):
    """sheets, tables or None for a cleared one; what is said of them"""
    sheet = Path(folder, CLOSEST['name'] + '.sheet').read_bytes()
    words = Path(folder, CLOSEST['name'] + '.txt').read_text()
    # the command of its page, and what it prints
    name, line = re.search(r'closest_state.py (\S+)\nprints\n *(.*)\n', words).groups()
    yield (HERE / name).read_bytes(), None, line
    # those of the page for designers
    for page in HERE.glob('docs/CLOSEST.md'):
        found = re.findall(r'make closest SHEET=(\S+)(?: TABLE=([\w/.-]+))?\n\n.*prints\n\n'
                           r' *(.*)\n', page.read_text())
        assert found
        for name, tab, line in found:
            yield (HERE / name).read_bytes(), (HERE / tab).read_bytes() if tab else None, line
    said = closest_state.answer_line
    yield sheet, None, said(True, 2, 2, 12)
    yield CLOSEST_RELEASED, None, searched(CLOSEST_RELEASED, bytes(28))[0]
    yield K, None, 'the rule fails at state 2, 2 steps from state 0; 26 cells filled'
    yield K8, None, 'the rule holds at every reachable state; 20 cells filled'
    # the tables of the two suppliers: by the second the rule fails at state 0
    first, second = (Path(folder, table_name(SUPPLIER, which)).read_bytes()
                     for which in SUPPLIER['tables'])
    yield K, first, said(True, 2, 2, 0)
    yield K, second, said(True, 0, 0, 0)
    yield K, counted(set_at(bytes(108), 72, 2)), said(False, 0, 0, 17)
    one = sheet_of(plan(2, 1, [(0, 0, 1)]), table((1, 0, 0)), rule((4, 0, 1), (1, 0, 0)))
    yield one, counted(b'\2\0\0\0'), 'the rule fails at state 1, 1 step from state 0; 1 cell filled'
    for s in (LEAST_X, GREATEST_X, sheet_of(*LEAST), sheet_of(*CUT['bodies']),
              sheet_of(*SPARE['bodies']), WORN_KEPT, deepest()):
        yield s, None, searched(s, bytes(Sheet(s).table_size()))[0]
        yield s, bytes(Sheet(s).table_size()) + b'\3', searched(s, bytes(Sheet(s).table_size()))[0]
    refused = closest_state.refusal_line
    yield LOOP_AHEAD, None, refused(12, 0)
    yield LEAST_LOOP, bytes(10), refused(12, 0)
    yield K, bytes(111), refused(20, 0)
    yield K, b'\3' + bytes(111), refused(21, 0)
    yield K, counted(AT_0_AND_2, 1), refused(35, 0)
    for number, place, s in faults():
        yield s, None, refused(number, place)
    yield b'(' * 65536, None, TOO_LONG
    yield K, bytes(65536), TOO_LONG


def closest(folder, driver):
    wrong = 0
    command = [sys.executable, str(HERE / 'tests/closest_state.py'), '--driver', driver]
    with tempfile.TemporaryDirectory() as made:
        for i, (s, tab, wanted) in enumerate(to_look(folder)):
            sheet, given = (Path(made, '%d.%s' % (i, which)) for which in ('sheet', 'table'))
            sheet.write_bytes(s)
            words = [sheet] if i % 2 else [sheet, '']
            if tab is not None:
                given.write_bytes(tab)
                words = [sheet, given]
            done = subprocess.run([*command, *map(str, words)], capture_output=True)
            line = wanted.encode() + b'\n'
            right = (line, b'', 0) if wanted.startswith('the rule') else (b'', line, 1)
            found = done.stdout, done.stderr, done.returncode
            good = found == right and sheet.read_bytes() == s and (
                tab is None or given.read_bytes() == tab)
            wrong += not good
            print('closest %d:' % i, wanted if good else '%s and not %s' % (found, right))
    print('all as expected' if wrong == 0 else '%d wrong' % wrong)
    return min(wrong, 1)


def main(args):
    if args[:1] == ['write'] and len(args) == 2:
        for example in (KEY, KEY_BRANCH, CUT, SPARE, SERVICE, CLOSEST):
            sheet = sheet_of(*example['bodies'])
            Path(args[1], example['name'] + '.sheet').write_bytes(sheet)
            Path(args[1], example['name'] + '.txt').write_text(page(example))
            if 'text' in example:
                Path(args[1], example['name'] + '.aut').write_bytes(example['text'])
            for which, run in example.get('recordings', {}).items():
                Path(args[1], run_name(example, which)).write_bytes(run)
        Path(args[1], COUNTER['name'] + '.report').write_bytes(report_input(COUNTER))
        Path(args[1], COUNTER['name'] + '.txt').write_text(report_page(COUNTER))
        for which, tab in SUPPLIER['tables'].items():
            Path(args[1], table_name(SUPPLIER, which)).write_bytes(tab)
        Path(args[1], SUPPLIER['name'] + '.txt').write_text(tables_page(SUPPLIER))
        for which, left in BENCHES['left'].items():
            Path(args[1], left_name(BENCHES, which)).write_bytes(left)
        Path(args[1], BENCHES['name'] + '.txt').write_text(benches_page(BENCHES))
        return 0
    if args[:1] == ['check'] and len(args) == 3:
        return check(*args[1:])
    if args[:1] == ['texts'] and len(args) == 3:
        return texts(*args[1:])
    if args[:1] == ['branches'] and len(args) == 3:
        return branches(*args[1:])
    if args[:1] == ['recordings'] and len(args) == 3:
        return recordings(*args[1:])
    if args[:1] == ['tables'] and len(args) == 3:
        return tables(*args[1:])
    if args[:1] == ['benches'] and len(args) == 3:
        return benches(*args[1:])
    if args[:1] == ['closest'] and len(args) == 3:
        return closest(*args[1:])
    if args[:1] == ['deepest'] and len(args) == 2:
        Path(args[1]).write_bytes(deepest())
        return 0
    print(__doc__)
    return 2


if __name__ == '__main__':
    sys.exit(main(sys.argv[1:]))
