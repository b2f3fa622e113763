#!/usr/bin/env python3
"""The closest state that breaks the rule: of the states that can be reached from state 0, the one
with the fewest steps at which the rule of a sheet fails, and the lowest number between equals.

    closest_state.py SHEET [TABLE]    says which state it is, how many steps from state 0, and how
                                      many cells of the table were filled; or that the rule holds at
                                      every reachable state

TABLE is a file with the bytes of a table for SHEET: those of the cells, then the four of the count.
Where it was filled elsewhere, its filled cells say where the rule fails. Without it, or where it is
'', the table is just cleared. No file is changed.

The trial driver makes the call (docs/TRIALS.md, request 17), and it alone decides. Where it
refuses, `refused`, its number and its place go to standard error, with what they mean; the length
of a cleared table is by tests/oracle, a reading of the format in Python.
Run `tools/build trials` first, or name another driver by `--driver PROGRAM` before SHEET.

It ends with 0 where the call answers, whether the rule fails or holds; with 1 where it refuses, or
a file or the driver can't be used; with 2 where it isn't called with one file or two.
"""
import sys
from pathlib import Path

from driver import answered, fitting, in_words, run
from oracle.protocol import closest_request
from oracle.rows import Sheet
from oracle.sheet import Refused

FURTHER = {
    12: 'a loop can be reached from state 0',
    20: 'the table is too short for the cells of the sheet and their count',
    21: 'a byte of the cells is over 2',
    35: 'the stored count of the table is not the number of filled cells',
}
FORM = rb'(true|false) (\d+) (\d+) (\d+)\ntable \w*\n'


def counted(number, noun):
    return '%d %s%s' % (number, noun, '' if number == 1 else 's')


def answer_line(found, state, steps, visits):
    filled = counted(visits, 'cell') + ' filled'
    if not found:
        return 'the rule holds at every reachable state; ' + filled
    return 'the rule fails at state %d, %s from state 0; %s' % (
        state, counted(steps, 'step'), filled)


def refusal_line(number, place):
    return in_words(FURTHER, number, place)


def cleared_table(s):
    """nothing where the call is refused for the sheet"""
    try:
        return bytes(Sheet(s).table_size())
    except Refused:
        return b''


def searched(driver, args):
    sheet, table = [*args, ''][:2]
    s = fitting(Path(sheet).read_bytes())
    tab = fitting(Path(table).read_bytes()) if table else cleared_table(s)
    try:
        found, *numbers = answered(driver, closest_request(s, tab), FORM)
    except Refused as refused:
        sys.exit(refusal_line(refused.number, refused.place))
    print(answer_line(found == 'true', *map(int, numbers)))


if __name__ == '__main__':
    sys.exit(run(searched, (1, 2), sys.argv[1:], __doc__))
