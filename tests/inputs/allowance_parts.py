"""Benches for an allowance, and requests that the cases are made of."""
from inputs.counts import AT_0, AT_0_AND_2
from inputs.parts import TRUE, chain, line, plan, rule
from oracle.protocol import allowance_request, yes
from oracle.rows import Sheet, query
from oracle.sheet import sheet_of

MOST_VISITS = 0xffffffff

# K's cells as the query of each state leaves them in a table just cleared
K_CELLS = {
    0: AT_0,
    1: bytes(2 if i in (36, 40, 43, 81) else 0 for i in range(108)),
    2: bytes(1 if i >= 72 and b == 1 else 0 for i, b in enumerate(AT_0_AND_2)),
}

# State 0 needs two cells, state 1 one, from state 2 a loop can be reached; 10 bytes a table.
SIDE = sheet_of(plan(3, 1, [(0, 0, 1), (2, 0, 2)]), TRUE, rule((4, 0, 1), (1, 0, 0)))


def stairs(n):
    """A sheet of n states, of which state s needs n - s cells of a cleared table."""
    return sheet_of(line(n), TRUE, rule(*chain(n)))


def cleared(s):
    return bytes(Sheet(s).table_size())


def left_by(s, *states):
    """a table just cleared, after these queries"""
    tab = bytearray(cleared(s))
    for state in states:
        query(s, state, tab)
    return bytes(tab)


def given(s, states, visits, tables, benches, left):
    """a call with all that it must give, of each bench its need, its grant, whether it is short,
    the verdict and the visits"""
    lines = ['bench %d %d %s %s %d' % (need, grant, yes(short), yes(verdict), filled)
             for need, grant, short, verdict, filled in benches]
    return allowance_request(s, states, visits, tables), '|'.join(
        ('allowance 0 0', *lines, 'table %s|' % left.hex()))


def dealt(s, states, visits, tabs, grants, past=b''):
    """a call with the grants that it must give; what the benches with their whole needs do then is
    by queries, each on its table alone"""
    benches, left = [], b''
    for state, tab, grant in zip(states, tabs, grants, strict=True):
        after = bytearray(tab)
        verdict, need = query(s, state, after)
        whole = grant == need
        benches.append((need, grant, not whole, verdict and whole, need if whole else 0))
        left += after if whole else tab
    return given(s, states, visits, b''.join(tabs) + past, benches, left + past)


def refused(number, s, states, visits, tables, place=0):
    return allowance_request(s, states, visits, tables), (
        'allowance %d %d|table %s|' % (number, place, tables.hex()))
