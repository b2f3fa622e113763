"""Benches on the key sheet and on others: tables just cleared, filled before, or from elsewhere;
each with what it must give."""
from itertools import permutations, product

from inputs.allowance_parts import K_CELLS, MOST_VISITS, SIDE, cleared, dealt, given, left_by
from inputs.audit_limits import ASIDE
from inputs.audit_parts import solved_cells, turned
from inputs.counts import AT_0, AT_0_AND_2
from inputs.examples import CUT, SPARE
from inputs.parts import GREATEST_X, K, K8, LEAST, LEAST_X, counted, set_at
from oracle.sheet import sheet_of

EMPTY = bytes(112)
# K's table by the query of each state, with what that gives: need, verdict
BY_STATE = {
    0: (17, True, counted(K_CELLS[0])),
    1: (4, True, counted(K_CELLS[1])),
    2: (9, False, counted(K_CELLS[2])),
}


def on_cleared(states, visits, grants, past=b''):
    """benches of K that ask for the first time"""
    benches, left = [], b''
    for state, grant in zip(states, grants, strict=True):
        need, verdict, after = BY_STATE[state]
        if grant < need:
            benches.append((need, grant, True, False, 0))
            left += EMPTY
        else:
            benches.append((need, grant, False, verdict, need))
            left += after
    return given(K, states, visits, EMPTY * len(states) + past, benches, left + past)


def of_the_key():
    """as docs/ALLOWANCE.md works them through, and the same benches in another order"""
    for visits, grants in ((0, (0, 0, 0)), (1, (1, 0, 0)), (2, (1, 1, 0)), (3, (1, 1, 1)),
                           (11, (4, 4, 3)), (12, (4, 4, 4)), (13, (5, 4, 4)), (14, (5, 4, 5)),
                           (21, (9, 4, 8)), (22, (9, 4, 9)), (23, (10, 4, 9)), (29, (16, 4, 9)),
                           (30, (17, 4, 9)), (31, (17, 4, 9)), (40, (17, 4, 9)),
                           (MOST_VISITS, (17, 4, 9))):
        yield on_cleared((0, 1, 2), visits, grants)
    for states in permutations(range(3)):
        yield on_cleared(states, 30, [BY_STATE[state][0] for state in states])
        yield on_cleared(states, 12, (4, 4, 4))
        yield on_cleared(states, 22, [{0: 9, 1: 4, 2: 9}[state] for state in states])
    for state, (need, _, _) in BY_STATE.items():
        for visits in (0, 1, need - 1, need, MOST_VISITS):
            yield on_cleared([state], visits, [min(need, visits)])
    # one state at several benches, each with a table of its own
    for count, visits, grants in ((2, 8, (4, 4)), (2, 7, (4, 3)), (2, 4, (2, 2)), (2, 5, (3, 2)),
                                  (3, 11, (4, 4, 3)), (3, 10, (4, 3, 3)),
                                  (8, 32, (4,) * 8), (8, 31, (4,) * 7 + (3,)),
                                  (8, 25, (4,) + (3,) * 7), (8, 7, (1,) * 7 + (0,))):
        yield on_cleared([1] * count, visits, grants)
    yield on_cleared((0, 1, 2, 0, 1, 2, 0, 1), 49, (8, 4, 8, 7, 4, 7, 7, 4))
    yield on_cleared((2, 1, 2, 1, 2, 1, 2, 1), 51, (9, 4, 9, 4, 9, 4, 8, 4))
    yield on_cleared((1, 2, 0, 0, 0, 0, 0, 0), 114, (4, 9, 17, 17, 17, 17, 17, 16))


def past_the_tables():
    """bytes after the tables stay, granted or not, those of a further table too"""
    for past in (b'\0', b'\3\4', b'\xff' * 9, counted(AT_0), bytes(112)):
        yield on_cleared((1, 2), 13, (4, 9), past)
        yield on_cleared((1, 2), 12, (4, 8), past)
        yield on_cleared((2,), 0, (0,), past)
    yield on_cleared((1,) * 8, 32, (4,) * 8, EMPTY)
    yield on_cleared((1,) * 8, 31, (4,) * 7 + (3,), b'\3' * 112)


def filled_before():
    """needs of 0, for which no visit is enough, and needs that are smaller on a filled table"""
    first, both, last = counted(AT_0), counted(AT_0_AND_2), BY_STATE[2][2]
    for visits in (0, 1, 2, MOST_VISITS):
        yield given(K, [1], visits, first, [(0, 0, False, True, 0)], first)
        yield given(K, [0, 1, 2], visits, both * 3,
                    [(0, 0, False, True, 0), (0, 0, False, True, 0), (0, 0, False, False, 0)],
                    both * 3)
        yield given(K, [2] * 8, visits, last * 8, [(0, 0, False, False, 0)] * 8, last * 8)
    # beside others, the visits of which they leave to them
    for visits, grant in ((0, 0), (1, 1), (8, 8), (9, 9), (10, 9)):
        whole = grant == 9
        bench = 9, grant, not whole, False, 9 if whole else 0
        yield given(K, [2, 1], visits, first * 2, [bench, (0, 0, False, True, 0)],
                    (both if whole else first) + first)
        yield given(K, [1, 2], visits, first * 2, [(0, 0, False, True, 0), bench],
                    first + (both if whole else first))
        yield given(K, [0, 2, 1], visits, both + first + first,
                    [(0, 0, False, True, 0), bench, (0, 0, False, True, 0)],
                    both + (both if whole else first) + first)
    # one state, a table that is cleared and others that are not
    for visits, grants in ((12, (6, 6, 0)), (17, (9, 8, 0)), (25, (13, 12, 0)), (26, (13, 13, 0)),
                           (27, (14, 13, 0)), (29, (16, 13, 0)), (30, (17, 13, 0))):
        yield dealt(K, [0, 0, 0], visits, [EMPTY, BY_STATE[1][2], first], grants)


def from_elsewhere():
    """Filled cells stand for their rows in their own table alone."""
    root = counted(set_at(bytes(108), 72, 2))
    for visits in (0, 8, 9):
        grant = min(visits, 9)
        yield dealt(K, [2, 2], visits, [root, EMPTY], (0, grant))
        yield dealt(K, [2, 2], visits, [EMPTY, root], (grant, 0))
    # each filled cell of a list's table turned round, at the second of three benches
    for place in (0, 4, 13, 36, 40, 43, 72, 76, 81):
        odd = counted(turned(AT_0_AND_2, place))
        yield dealt(K, [0, 0, 2], 26, [EMPTY, odd, EMPTY], (17, 0, 9))
    for b, (place, need) in product((1, 2), ((4, 9), (40, 9), (72, 0), (76, 1))):
        odd = counted(set_at(bytes(108), place, b))
        yield dealt(K, [2, 2], 9 + need, [odd, EMPTY], (need, 9))
        yield dealt(K, [2, 2], 9 + need, [EMPTY, odd], (9, need))
    full = counted(solved_cells(K))
    yield dealt(K, range(3), 0, [full] * 3, (0, 0, 0))


def of_others():
    """other sheets, loops aside among them"""
    for s, states, grants in ((K8, (2, 2), (8, 8)), (LEAST_X, (0, 2), (2, 2)),
                              (GREATEST_X, (1, 0), (2, 2)), (SIDE, (0, 1, 0), (2, 1, 2)),
                              (ASIDE, (0, 2), (17, 9)), (sheet_of(*LEAST), (0, 0), (1, 1))):
        tabs = [cleared(s)] * len(states)
        yield dealt(s, states, sum(grants), tabs, grants)
        yield dealt(s, states, sum(grants) + 1, tabs, grants)
        yield dealt(s, states, 0, tabs, [0] * len(states))
    for s in (sheet_of(*CUT['bodies']), sheet_of(*SPARE['bodies'])):
        yield dealt(s, [0, 6], 0, [left_by(s, 0), left_by(s, 6)], (0, 0))
        yield dealt(s, [6, 0], 1, [left_by(s, 6, 0), left_by(s, 0)], (0, 0))


def examples():
    yield from of_the_key()
    yield from past_the_tables()
    yield from filled_before()
    yield from from_elsewhere()
    yield from of_others()
