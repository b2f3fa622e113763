"""The closest state on the key sheet and on others: tables just cleared, filled before, or from
elsewhere; each with what it must give."""
from itertools import combinations, product

from inputs.allowance_parts import K_CELLS, cleared, left_by
from inputs.audit_limits import ASIDE
from inputs.audit_parts import solved_cells, turned
from inputs.closest_parts import (
    barred, by_levels, ended, fails, given, holds, levels_of, refused)
from inputs.counts import AT_0, AT_0_AND_2
from inputs.examples import CLOSEST, CLOSEST_RELEASED, CUT, LOOP_AHEAD, SPARE, WORN_KEPT
from inputs.parts import (
    F, GREATEST_X, K, K8, K_PLAN, LEAST, LEAST_X, T, TRUE, counted, plan, rule, set_at, table)
from oracle.sheet import sheet_of

BOTH = counted(AT_0_AND_2)
K_LEVELS = [0], [1], [2]


def of_the_key():
    """Cells that states 0, 1 and 2 need: 17, none more, 9 more."""
    yield given(K, bytes(112), (2, 2), 26, BOTH)
    yield given(K, counted(AT_0), (2, 2), 9, BOTH)
    yield given(K, BOTH, (2, 2), 0, BOTH)
    # state 1 has asked, or state 2
    yield given(K, counted(K_CELLS[1]), (2, 2), 22, BOTH)
    yield given(K, counted(K_CELLS[2]), (2, 2), 17, BOTH)
    # all cells filled, with their solutions
    full = counted(solved_cells(K))
    yield given(K, full, (2, 2), 0, full)
    # bytes after the table stay
    for past in (b'\0', b'\3\4', b'\xff' * 9, counted(AT_0), bytes(112)):
        yield given(K, bytes(112) + past, (2, 2), 26, BOTH + past)
        yield given(K, BOTH + past, (2, 2), 0, BOTH + past)


def from_elsewhere():
    """filled cells stand for their rows, whether or not they are right"""
    root = counted(set_at(bytes(108), 72, 2))
    left = counted(set_at(AT_0, 72, 2))
    yield given(K, root, None, 17, left)
    yield given(K, left, None, 0, left)
    for place in (0, 4):
        first = counted(set_at(bytes(108), place, 1))
        yield given(K, first, (0, 0), 1 if place else 0,
                    counted(set_at(set_at(bytes(108), place, 1), 0, 1)))
    # what state 0 needs at state 1 is false, and so is state 0
    yield by_levels(K, counted(set_at(bytes(108), 69, 1)), *K_LEVELS)
    yield given(K, counted(set_at(AT_0, 36, 1)), (1, 1), 0, counted(set_at(AT_0, 36, 1)))
    # each filled cell of a list's table turned round, the others as they were or empty
    for place, b in enumerate(AT_0_AND_2):
        if b:
            yield by_levels(K, counted(turned(AT_0_AND_2, place)), *K_LEVELS)
        if b and place % 9 < 5:
            yield by_levels(K, counted(set_at(bytes(108), place, 3 - b)), *K_LEVELS)
    # cells under marks that a query does not come to, and of a state that it does not either
    for cells in (set_at(bytes(108), 2, 2), set_at(bytes(108), 107, 1), b'\0\1\2' * 36,
                  b'\0\0\1' * 36, b'\2\0\0' * 36, b'\1' * 108, b'\2' * 108):
        yield by_levels(K, counted(cells), *K_LEVELS)
    # the first table says that the rule holds at all states but one, by their roots alone
    s = ended(4, [(0, 1), (0, 2), (1, 3), (2, 3)])
    for bad in range(4):
        cells = bytes(0 if i % 2 else 1 if i // 2 == bad else 2 for i in range(8))
        steps = (0, 1, 1, 2)[bad]
        yield given(s, counted(cells), (bad, steps), 0, counted(cells))
    yield given(s, counted(b'\2\0' * 4), None, 0, counted(b'\2\0' * 4))
    yield given(s, counted(b'\0\0' * 3 + b'\2\0'), None, 5, counted(b'\2\0\2\2\2\0\2\2'))
    # T's cell is false: state 1 breaks the rule, and state 0 too where it has no other way
    yield given(s, counted(bytes(7) + b'\1'), (1, 1), 3, counted(b'\2\0\1\2\0\0\0\1'))
    yield given(s, counted(b'\0\0\0\1\0\0\0\1'), (1, 1), 3, counted(b'\2\0\1\1\0\2\0\1'))
    yield given(s, counted(b'\0\0\0\1\0\1\0\0'), (0, 0), 1, counted(b'\1\0\0\1\0\1\0\0'))


# states, transitions (actions 0 and 1 lead on), bad states, the states to look at, the steps
SHAPES = [
    (1, [], [], [0], None),
    (1, [], [0], [0], 0),
    (2, [], [1], [0], None),
    (2, [(0, 0, 1)], [], [0, 1], None),
    (2, [(0, 0, 1)], [1], [0, 1], 1),
    (2, [(0, 1, 1)], [0, 1], [0], 0),
    (3, [(0, 0, 1), (1, 0, 2)], [0, 1, 2], [0], 0),
    # two equally near: the lower number, whichever transition comes first
    (3, [(0, 0, 1), (0, 1, 2)], [1, 2], [0, 1], 1),
    (3, [(0, 0, 2), (0, 1, 1)], [1, 2], [0, 1], 1),
    (3, [(0, 0, 1), (0, 1, 2)], [2], [0, 1, 2], 1),
    (3, [(0, 0, 2), (0, 1, 1)], [2], [0, 1, 2], 1),
    (3, [(0, 0, 2), (0, 1, 1)], [], [0, 1, 2], None),
    # a nearer state with a higher number
    (4, [(0, 0, 3), (0, 1, 1), (1, 0, 2)], [2, 3], [0, 1, 3], 1),
    (4, [(0, 0, 1), (0, 1, 3), (1, 0, 2)], [2], [0, 1, 3, 2], 2),
    (6, [(0, 0, 5), (5, 0, 4), (4, 0, 1), (0, 1, 3), (3, 0, 2)], [1, 2], [0, 3, 5, 2], 2),
    (6, [(0, 0, 5), (5, 0, 4), (4, 0, 1), (0, 1, 3), (3, 0, 2)], [1], [0, 3, 5, 2, 4, 1], 3),
    # a chain whose numbers rise, fall, do either
    (4, [(0, 0, 1), (1, 0, 2), (2, 0, 3)], [3], [0, 1, 2, 3], 3),
    (4, [(0, 0, 3), (3, 0, 2), (2, 0, 1)], [1], [0, 3, 2, 1], 3),
    (4, [(0, 0, 3), (3, 0, 2), (2, 0, 1)], [1, 2], [0, 3, 2], 2),
    (4, [(0, 0, 2), (2, 1, 1), (1, 0, 3)], [3], [0, 2, 1, 3], 3),
    (4, [(0, 0, 2), (2, 1, 1), (1, 0, 3)], [], [0, 2, 1, 3], None),
    # of equal steps by number, not in the order in which they are come to
    (5, [(0, 0, 1), (0, 0, 2), (1, 0, 4), (2, 0, 3)], [3, 4], [0, 1, 2, 3], 2),
    (5, [(0, 0, 1), (0, 0, 2), (1, 0, 4), (2, 0, 3)], [4], [0, 1, 2, 3, 4], 2),
    (5, [(0, 0, 4), (0, 1, 3), (3, 0, 2), (4, 0, 1)], [1, 2], [0, 3, 4, 1], 2),
    (5, [(0, 0, 4), (0, 1, 3), (3, 0, 2), (4, 0, 1)], [2], [0, 3, 4, 1, 2], 2),
    # several ways to a state: the shortest counts, and it is looked at once
    (4, [(0, 0, 1), (0, 1, 3), (1, 0, 2), (2, 0, 3)], [3], [0, 1, 3], 1),
    (4, [(0, 0, 1), (1, 0, 2), (1, 1, 3), (2, 0, 3)], [3], [0, 1, 2, 3], 2),
    (4, [(0, 0, 1), (0, 0, 2), (1, 0, 3), (2, 0, 3)], [3], [0, 1, 2, 3], 2),
    (4, [(0, 0, 1), (0, 0, 2), (1, 0, 3), (2, 0, 3)], [], [0, 1, 2, 3], None),
    (4, [(0, 0, 1), (0, 1, 1), (1, 0, 2), (1, 1, 2), (2, 0, 3), (2, 1, 3)], [3], [0, 1, 2, 3], 3),
    (5, [(0, 0, 1), (1, 0, 2), (2, 0, 3), (0, 1, 4), (4, 0, 3)], [3], [0, 1, 4, 2, 3], 2),
    # states that can't be reached break the rule, with loops among them and ways to the others
    (3, [(0, 0, 2)], [1], [0, 2], None),
    (3, [(0, 0, 2), (1, 0, 0)], [1], [0, 2], None),
    (3, [(0, 0, 2), (1, 0, 1), (1, 1, 2)], [1], [0, 2], None),
    (3, [(0, 0, 2), (1, 0, 0), (1, 0, 1)], [1, 2], [0, 2], 1),
    (5, [(0, 0, 3), (1, 0, 2), (2, 0, 1), (2, 1, 3), (4, 0, 0)], [1, 2, 4], [0, 3], None),
    (5, [(0, 0, 3), (1, 0, 2), (2, 0, 1), (2, 1, 3), (4, 0, 4)], [1, 2, 3, 4], [0, 3], 1),
    (5, [(1, 0, 2), (2, 0, 3), (3, 0, 4), (4, 0, 1)], [1, 2, 3, 4], [0], None),
]


def of_shapes():
    for states, transitions, bad, order, steps in SHAPES:
        s = barred(states, transitions, bad)
        yield holds(s, order) if steps is None else fails(s, order, steps)


def of_ends():
    """each plan of four states whose transitions lead to higher numbers"""
    pairs = [*combinations(range(4), 2)]
    for chosen in range(1 << len(pairs)):
        some = [pair for i, pair in enumerate(pairs) if chosen >> i & 1]
        s = ended(4, some)
        yield by_levels(s, cleared(s), *levels_of(some))


def filled_before():
    """what a state needs may be there already, of states nearer and farther, ahead of the answer
    and behind it"""
    s = barred(5, [(0, 0, 1), (0, 0, 2), (1, 0, 4), (2, 0, 3)], [3])
    for asked in ([0], [1], [2], [3], [4], [5], [4, 3], [0, 1, 2, 3, 4, 5], [5, 4, 3, 2, 1, 0]):
        yield fails(s, [0, 1, 2, 3], 2, left_by(s, *asked))
    deep = sheet_of(plan(4, 1, [(0, 0, 1), (1, 0, 2), (2, 0, 3)]), TRUE,
                    rule((2, 1, 3), (4, 0, 2), T, (8, 0, 4), (5, 0, 5), (6, 0, 0)))
    for asked in product((False, True), repeat=4):
        yield holds(deep, range(4), left_by(deep, *(q for q in range(4) if asked[q])))


def of_others():
    yield holds(K8, range(3))
    yield fails(LEAST_X, [0], 0)
    yield holds(GREATEST_X, range(3))
    yield holds(sheet_of(*LEAST), [0])
    yield given(sheet_of(*LEAST), bytes(5) + b'\3', None, 1, b'\2\1\0\0\0\3')
    yield holds(sheet_of(K_PLAN, TRUE, rule(T)), range(3))
    yield fails(sheet_of(K_PLAN, TRUE, rule(F)), [0], 0)
    yield fails(sheet_of(K_PLAN, TRUE, rule((4, 0, 1), T)), [0, 1, 2], 2)
    yield fails(sheet_of(K_PLAN, TRUE, rule((4, 0, 1), (4, 0, 2), T)), [0, 1], 1)
    # at the state behind which only the last lies
    yield fails(sheet_of(K_PLAN, table((2, 2, 0)), rule((5, 0, 1), F)), [0, 1], 1)
    yield by_levels(ASIDE, cleared(ASIDE), *K_LEVELS)
    yield by_levels(ASIDE, counted(bytes(108) + b'\1\2' * 36), *K_LEVELS)
    levels = [0], [1], [2, 3], [4, 6], [5]
    for s in (sheet_of(*CUT['bodies']), sheet_of(*SPARE['bodies'])):
        yield by_levels(s, cleared(s), *levels)
        yield by_levels(s, left_by(s, 6), *levels)
    yield by_levels(WORN_KEPT, cleared(WORN_KEPT), [0], [1], [2, 3], [4], [5], [6])
    yield refused(12, LOOP_AHEAD, cleared(LOOP_AHEAD))
    yield fails(sheet_of(*CLOSEST['bodies']), [0, 1, 2], 2)
    yield holds(CLOSEST_RELEASED, [0, 1, 2, 3, 4, 6, 7, 5])


def examples():
    yield from of_the_key()
    yield from from_elsewhere()
    yield from of_shapes()
    yield from of_ends()
    yield from filled_before()
    yield from of_others()
