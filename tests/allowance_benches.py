#!/usr/bin/env python3
"""Deals one allowance of visits to several benches on a sheet, each with a state and a table; those
that get all they need query.

    allowance_benches.py SHEET STATES VISITS [TABLES [LEFT]]
                                  says of each bench its state, its need and its grant, and that it
                                  is short, or its verdict and its visits

STATES are bytes in decimal, one for each bench, with spaces or commas between them; VISITS is a
number below 4,294,967,296. TABLES is a file with the benches' tables end to end, in bench order;
without it, or where it is '', all of them are just cleared. What stands behind them is kept. LEFT
is a file that is written: the tables as the call leaves them, for the next allowance. It may be
TABLES itself.

The trial driver makes the call (docs/TRIALS.md, request 16), and it alone decides. Where it
refuses, `refused`, its number and its place go to standard error, with what they mean; which bench
is the lowest that is refused is by tests/oracle, a reading of the format in Python, and so is the
length of a cleared table. Nothing is written then.
Run `tools/build trials` first, or name another driver by `--driver PROGRAM` before SHEET.

It ends with 0 where the visits are dealt; with 1 where the call refuses, or a word, a file or the
driver can't be used; with 2 where it isn't called with three to five words.
"""
import re
import sys
from pathlib import Path

from driver import answered, fitting, in_words, run, typed
from oracle.allowances import MOST, queried
from oracle.protocol import allowance_request
from oracle.rows import Sheet
from oracle.sheet import Refused

BENCHES = {44: 'there have to be 1 to %d benches' % MOST}
# of a bench
OWN = {
    11: 'the plan does not have its state',
    12: 'a loop can be reached from its state',
    20: 'the file is too short for its table',
    21: 'a byte of its cells is over 2',
    35: 'the stored count of its table is not the number of filled cells',
}
FORM = rb'((?:bench \d+ \d+ \w+ \w+ \d+\n)*)table (\w*)\n'


def bench_lines(states, benches):
    """of each bench what it got, by its need, grant, short, verdict and visits in an answer"""
    for i, (state, (need, grant, short, verdict, visits)) in enumerate(zip(states, benches)):
        queries = '%s with %s visit%s' % (verdict, visits, '' if visits == '1' else 's')
        yield 'bench %d, state %d: need %s, grant %s, %s' % (
            i, state, need, grant, 'short' if short == 'true' else queries)


def refusal_line(number, place, bench=0):
    own = {n: 'bench %d: %s' % (bench, meaning) for n, meaning in OWN.items()}
    return in_words({**BENCHES, **own}, number, place)


def lowest_refused(s, states, tables):
    size = Sheet(s).table_size()
    for i, state in enumerate(states):
        try:
            queried(s, state, tables[i * size:(i + 1) * size])
        except Refused:
            return i


def cleared_tables(s, benches):
    """nothing where the call is refused for the sheet or for the number of benches"""
    try:
        return bytes(Sheet(s).table_size() * benches) if benches <= MOST else b''
    except Refused:
        return b''


def number_of_visits(word):
    if not re.fullmatch('[0-9]{1,10}', word) or int(word) >= 1 << 32:
        sys.exit('%s is no number of visits' % (word or 'nothing'))
    return int(word)


def granted(driver, args):
    sheet, states, visits, before, left = [*args, '', ''][:5]
    s, states, visits = Path(sheet).read_bytes(), typed(states), number_of_visits(visits)
    tables = Path(before).read_bytes() if before else cleared_tables(s, len(states))
    request = allowance_request(fitting(s), states, visits, fitting(tables))
    try:
        lines, after = answered(driver, request, FORM)
    except Refused as refused:
        bench = lowest_refused(s, states, tables) if refused.number in OWN else 0
        sys.exit(refusal_line(refused.number, refused.place, bench))
    if left:
        Path(left).write_bytes(bytes.fromhex(after))
    print(*bench_lines(states, (line.split()[1:] for line in lines.splitlines())), sep='\n')


if __name__ == '__main__':
    sys.exit(run(granted, (3, 4, 5), sys.argv[1:], __doc__))
