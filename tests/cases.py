#!/usr/bin/env python3
"""The requests of the trial driver (docs/TRIALS.md) and what they must give, computed from
docs/FORMAT.md, docs/PATTERNS.md, docs/LINES.md, docs/REPORT.md, docs/AUT.md, docs/BRANCHES.md,
docs/RECORDINGS.md, docs/AUDIT.md, docs/ALLOWANCE.md and docs/CLOSEST.md and not by the crates.

    cases.py store DIR             DIR/stdin and DIR/stdout: the vectors of tests/vectors, then the
                                   cases of tests/inputs
    cases.py searches DIR          the vectors and cases of request 17, which are not stored yet
    cases.py large DIR             longer and random cases, for a run that is not stored
    cases.py check STDIN STDOUT    recomputes STDOUT from STDIN
    cases.py runs COUNT            so many random patterns: what each becomes holds by Table 1 at
                                   the states where its sentence about runs does
    cases.py lines COUNT           so many random lines: the last entry of the body that each
                                   becomes is met by the actions that the line says
    cases.py tables COUNT          so many random tables: where the audit says yes, each filled cell
                                   has its solution; and it says yes of what lists leave

A last word NUMBERS, as 1,2,10, to `store` and `large` keeps these requests alone.
"""
import random
import sys
from pathlib import Path

from inputs.audit_parts import cells_left
from inputs.chance import (
    random_change, random_filling, random_line, random_sentence, random_sheet, random_states)
from inputs.parts import T, counted, plan, rule
from inputs.pattern_parts import body_of, with_rule
from inputs.streams import CUT, ENDING, large, stored, stored_searches
from oracle.audits import audit, filled_cells
from oracle.line_actions import actions_said, refusal_of
from oracle.lines import line_body
from oracle.protocol import answered, answers
from oracle.rows import Sheet, solve
from oracle.runs import sentence
from oracle.sheet import Refused, sheet_of
from oracle.table1 import meaning

VECTORS = Path(__file__).parent / 'vectors'
NOT_STORED = ('m',)  # request 17 is not among the stored trials yet


def vectors(stored=True):
    """the stored requests with their answers, which have to be the oracle's"""
    for stdin in sorted(VECTORS.glob('*.stdin')):
        if (stdin.stem in NOT_STORED) == stored:
            continue
        found = list(answered(stdin.read_bytes()))
        text = b''.join(text for _, text in found)
        assert text == stdin.with_suffix('.stdout').read_bytes(), stdin
        yield from found


def put(where, given, end, numbers):
    """the requests to keep, and what they give; then an end that gives nothing"""
    kept = [(r, text) for r, text in given if not numbers or r[0] in numbers]
    Path(where, 'stdin').write_bytes(b''.join(r for r, _ in kept) + end)
    Path(where, 'stdout').write_bytes(b''.join(text for _, text in kept))


def check(stdin, stdout):
    given, found = Path(stdout).read_bytes(), answers(Path(stdin).read_bytes())
    if given == found:
        print('the same')
        return 0
    for i, (x, y) in enumerate(zip(given.split(b'\n'), found.split(b'\n'))):
        if x != y:
            print('line', i + 1, 'given', x[:100], 'computed', y[:100])
            return 1
    print('one is longer:', len(given), len(found))
    return 1


def runs(count):
    rng, states, true, loops, refused = random.Random(5), 0, 0, 0, 0
    for i in range(count):
        s, pattern = random_sentence(rng, (1, 2, 3, 4, 6, 9, 14))
        body = body_of(s, pattern)
        if not body:
            refused += 1
            continue
        sheet = Sheet(with_rule(s, body))
        found, said = meaning(sheet, 0, {}), sentence(s, pattern)
        if found != said:
            print('pattern', i, 'sheet', [*s], 'pattern', [*pattern], 'holds at', sorted(found),
                  'and is said of', sorted(said))
            return 1
        states, true = states + sheet.states, true + len(said)
        loops += any(map(sheet.loop_reachable, range(sheet.states)))
    print('%d patterns, %d of them on plans with loops: %d states agree (%d true); %d refused' % (
        count - refused, loops, states, true, refused))
    return 0


def lines(count):
    rng, found, met, actions = random.Random(7), {0: 0, 32: 0, 33: 0, 34: 0}, 0, 0
    for i in range(count):
        below, line = random_line(rng, (1, 2, 3, 4, 5, 8, 12, 16, 17))
        said = last = actions_said(line, below)
        try:
            number, body = 0, line_body(below, line, 97)
            last = Sheet(sheet_of(plan(1, below, []), body, rule(T))).formulas[-1]
            met, actions = met + len(last), actions + below
        except Refused as refused:
            number = refused.number
        if number != refusal_of(line, below) or last != said:
            print('line', i, line, 'for', below, 'actions: number', number, 'and not',
                  refusal_of(line, below), 'or met by', last, 'and not by', said)
            return 1
        found[number] += 1
    print('%d lines: the actions that meet their bodies agree (%d of %d); refused with 32: %d, '
          'with 33: %d, with 34: %d' % (found[0], met, actions, found[32], found[33], found[34]))
    return 0


def tables(count):
    rng, found, cells, lists = random.Random(9), {True: 0, False: 0}, 0, 0
    for i in range(count):
        s = random_sheet(rng, (3, 8, 16, 40))
        try:
            sheet, filling = Sheet(s), random_filling(rng, s)
            for _ in range(rng.choice((0, 1, 1, 2))):
                filling = random_change(rng, filling)
            right = audit(s, counted(filling))
        except Refused:
            continue
        found[right] += 1
        if right:
            filled = filled_cells(sheet, filling)
            cells += len(filled)
            empty = bytes(sheet.cells())
            wrong = [cell for cell in filled if solve(sheet, empty, cell)[0][cell]
                     != (filling[sheet.place(cell)] == 2)]
            if wrong:
                print('table', i, 'sheet', [*s], 'cells', [*filling], 'says yes, but', wrong)
                return 1
        states = random_states(rng, sheet)
        lists += 1
        if not audit(s, counted(cells_left(s, states))):
            print('table', i, 'sheet', [*s], 'says no of what the list', states, 'leaves')
            return 1
    print('%d tables with a yes: their %d filled cells have their solutions; %d with a no; the '
          'tables that %d lists leave get a yes' % (found[True], cells, found[False], lists))
    return 0


def main(args):
    if args[:1] == ['check'] and len(args) == 3:
        return check(*args[1:])
    if args[:1] == ['runs'] and len(args) == 2:
        return runs(int(args[1]))
    if args[:1] == ['lines'] and len(args) == 2:
        return lines(int(args[1]))
    if args[:1] == ['tables'] and len(args) == 2:
        return tables(int(args[1]))
    numbers = b''
    if len(args) > 2 and args[-1].replace(',', '').isdigit():
        numbers = bytes(map(int, args.pop().split(',')))
    if args[:1] == ['store'] and len(args) == 2:
        put(args[1], [*vectors(), *answered(b''.join(stored()))], ENDING, numbers)
        return 0
    if args[:1] == ['searches'] and len(args) == 2:
        put(args[1], [*vectors(False), *answered(b''.join(stored_searches()))], ENDING, numbers)
        return 0
    if args[:1] == ['large'] and len(args) == 2:
        put(args[1], answered(b''.join(large())), CUT, numbers)
        return 0
    print(__doc__)
    return 2


if __name__ == '__main__':
    sys.exit(main(sys.argv[1:]))
