#!/usr/bin/env python3
"""Audits a table that was filled elsewhere: whether its count is right, each filled cell has a mark
that it may have, and each follows from filled cells of its row.

    audit_table.py SHEET TABLE    says yes, or no and the first reason, in which a cell is its mark,
                                  its node and its state; a yes means that each filled cell has the
                                  solution of the rows of SHEET

TABLE is a file with the bytes of the table: those of the cells, then the four of the count. What
stands behind them is not looked at.

The trial driver makes the call (docs/TRIALS.md, request 15), and it alone decides. The reason for a
no is by tests/oracle, a reading of the format in Python: the count, or the first cell, by its byte,
whose mark is wrong or that does not follow. Where the call refuses, `refused`, its number and its
place go to standard error, with what they mean.
Run `tools/build trials` first, or name another driver by `--driver PROGRAM` before SHEET.

It ends with 0 where the call answers, yes or no; with 1 where it refuses, or a file or the driver
can't be used; with 2 where it isn't called with two files.
"""
import sys
from pathlib import Path

from driver import answered, fitting, in_words, run
from oracle.audits import WORDS, first_doubt
from oracle.protocol import audit_request
from oracle.rows import Sheet
from oracle.sheet import Refused

FURTHER = {
    12: 'a loop can be reached from a state that has a filled cell',
    20: 'the table is too short for the cells of the sheet and their count',
    21: 'a byte of the cells is over 2',
}


def reason(sheet, tab, what, *found):
    """a doubt in words"""
    if what == 'count':
        return 'the stored count is %d, and the number of filled cells is %d' % found
    cell = found[0]
    if what == 'mark':
        return 'the cell %s is filled, but node %d does not stand below binder %d' % (
            cell, cell[1], cell[0] - 1)
    value, others = found[1:]
    claim = 'the cell %s is %s, but ' % (cell, WORDS[tab[sheet.place(cell)]])
    if not others:
        return claim + 'its row is empty, which makes it ' + WORDS[value]
    if value == 0:
        return claim + '%s in its row is empty, and none decides it' % (others[0],)
    either, entries = sheet.row(cell)
    by_one = len(entries) == 1 or value == (2 if either else 1)
    named = '%s in its row is' % (others[0],) if by_one else 'all %d in its row are' % len(entries)
    return claim + '%s %s, which makes it %s' % (named, WORDS[value], WORDS[value])


def answer_line(s, tab):
    """what is said of a table that is not refused"""
    doubt = first_doubt(s, tab)
    if doubt:
        return 'no: ' + reason(Sheet(s), tab, *doubt)
    return 'yes: the count, %d, is right, and each filled cell follows' % Sheet(s).stored_count(tab)


def refusal_line(number, place):
    return in_words(FURTHER, number, place)


def audited(driver, args):
    s, tab = (fitting(Path(file).read_bytes()) for file in args)
    try:
        answer, = answered(driver, audit_request(s, tab), rb'(true|false)\n')
    except Refused as refused:
        sys.exit(refusal_line(refused.number, refused.place))
    line = answer_line(s, tab)
    if (answer == 'true') != line.startswith('yes'):
        sys.exit('%s and tests/oracle do not say the same' % driver)
    print(line)


if __name__ == '__main__':
    sys.exit(run(audited, (2,), sys.argv[1:], __doc__))
