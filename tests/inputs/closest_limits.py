"""The closest state at the limits: refusals in their order, lengths, counts, loops, faults of the
sheet, long ways, wide plans, the largest tables."""
from inputs.allowance_parts import K_CELLS, cleared
from inputs.audit_limits import ASIDE
from inputs.closest_parts import (
    barred, by_levels, ended, fails, given, holds, levels_of, refused)
from inputs.counts import AT_0, AT_0_AND_2
from inputs.loop_plans import acting, loop_plans
from inputs.parts import (
    F, GREATEST_LOOP, K, K_ACTIONS, K_RULE, LEAST_LOOP, LONG, SELF, T, TRUE, counted, deepest,
    faults, many, plan, rule, set_at, table)
from oracle.sheet import four, sheet_of

BOTH = counted(AT_0_AND_2)
# a loop ahead of state 0: at its last state, and through state 0 itself
AHEAD = sheet_of(plan(3, 3, [(0, 1, 1), (1, 2, 2), (2, 0, 2)]), K_ACTIONS, K_RULE)
ROUND = sheet_of(plan(3, 3, [(0, 1, 1), (1, 2, 2), (2, 0, 0)]), K_ACTIONS, K_RULE)


def lengths():
    """every length about the right one; what stands behind the count is not looked at"""
    for size in (0, 1, 107, 108, 109, 110, 111):
        for tab in (BOTH, b'\xff' * 112):
            yield refused(20, K, tab[:size])
    for past in (b'', b'\0', b'\3', b'\x1a\0\0\0', b'\xff' * 200):
        yield given(K, counted(AT_0) + past, (2, 2), 9, BOTH + past)
    for s, size in ((ended(1, []), 6), (sheet_of(plan(1, 0, []), table(), rule(T)), 5)):
        yield refused(20, s, bytes(size - 1))
        yield by_levels(s, bytes(size), [0])
        yield by_levels(s, bytes(size) + b'\3', [0])


def bytes_over_two():
    """21 reads the cells alone, also those of states that are not looked at and of marks that are
    not needed, and comes before the count"""
    for b, cells, off in ((3, bytes(108), 0), (255, AT_0_AND_2, 0), (128, b'\1' * 108, 1)):
        for place in (0, 2, 36, 71, 107):
            yield refused(21, K, counted(set_at(cells, place, b), off))
    first = sheet_of(plan(4, 1, [(0, 0, 1), (2, 0, 2)]), TRUE, rule(F))
    for place in range(4):
        yield refused(21, first, counted(set_at(bytes(4), place, 3)))
    # in the count it is a wrong count, and behind it nothing
    for place in range(4):
        yield refused(35, K, AT_0 + set_at(four(17), place, 3))
    yield given(K, BOTH + b'\3\xff', (2, 2), 0, BOTH + b'\3\xff')


def counts():
    """off by one, in each byte, by all; right ones of two bytes"""
    for cells in (bytes(108), AT_0_AND_2):
        filled = sum(map(bool, cells))
        for off in (1, -1, 256, 65536, 1 << 24, -filled):
            if off:
                yield refused(35, K, counted(cells, off))
    # the count grows past 255: states 1 and 2 are looked at, and none of the others is filled
    s = sheet_of(plan(128, 1, [(0, 0, 1), (1, 0, 2)]), TRUE, rule((2, 1, 2), F, (4, 0, 3), T))
    for n in (246, 247, 248, 249, 256):
        cells = bytes(512 - n) + b'\2' * n
        yield fails(s, [0, 1, 2], 2, counted(cells))
        yield refused(35, s, cells + bytes([*reversed(four(n))]))


def in_order():
    """each refusal with all that have higher numbers, and without the ones in between"""
    off, over = counted(bytes(108), 1), b'\3' * 112
    both = b'\3' + counted(bytes(107))
    for s in (AHEAD, ROUND):
        for tab in (bytes(112), BOTH, off, over, both, bytes(111), over[:111]):
            yield refused(12, s, tab)
    for tab in (off[:111], over[:111], both[:108]):
        yield refused(20, K, tab)
    for tab in (over, both, set_at(off, 107, 4)):
        yield refused(21, K, tab)
    yield refused(35, K, off)
    for number, place, s in faults():
        for tab in (BOTH, over[:80]):
            yield refused(number, s, tab, place)
    for s, number in ((b'', 1), (K[:1], 1), (K[:73], 3), (K + b'\0', 3)):
        yield refused(number, s, BOTH)
    # behind a plan with a loop
    for number, a, r in ((6, b'', rule(T)), (7, table((7, 0, 0)), rule(T)), (8, TRUE, rule()),
                         (9, TRUE, rule((4, 1, 1), T)), (10, TRUE, rule((6, 0, 0)))):
        yield refused(number, sheet_of(SELF, a, r), b'\3\3')


def loops():
    """of every plan with loops: refused where one can be reached from state 0, and only there"""
    for states, pairs, looping in loop_plans():
        s = ended(states, pairs)
        yield (refused(12, s, cleared(s)) if 0 in looping else
               by_levels(s, cleared(s), *levels_of(pairs)))
    # the rule fails at state 0, so that nothing more need be looked at
    for states, pairs in ((2, [(0, 1), (1, 1)]), (8, [(7, 7), *((q, q + 1) for q in range(7))])):
        s = sheet_of(plan(states, 1, acting(pairs, lambda i: 0)), TRUE, rule(F))
        yield refused(12, s, bytes(states + 4))
        yield refused(12, s, counted(b'\1' * states))
    for s in (LEAST_LOOP, GREATEST_LOOP):
        yield refused(12, s, bytes(10))
        yield refused(12, s, counted(b'\1' * 6))
    # states ahead of a loop that state 0 does not lead to may have any cells
    for b in (0, 1, 2):
        yield by_levels(ASIDE, counted(bytes(108) + bytes([b]) * 72), [0], [1], [2])
        yield by_levels(ASIDE, counted(K_CELLS[2] + bytes([b]) * 72), [0], [1], [2])
    # actions that no formula takes are steps, and loops, all the same
    for transitions, number in (([(0, 2, 0)], 12), ([(0, 2, 1), (1, 2, 0)], 12), ([(1, 2, 1)], 0),
                                ([(0, 2, 2), (1, 2, 1)], 0)):
        s = sheet_of(plan(3, 3, transitions), table((2, 0, 0)), rule((5, 0, 1), F))
        if number:
            yield refused(number, s, bytes(10))
        else:
            yield by_levels(s, bytes(10), *levels_of([(a, b) for a, _, b in transitions]))


def long_ways():
    """128 states in a chain, rising and falling, that fails at its end, in the middle, nowhere; one
    that has shorter ways beside it"""
    up = [(s, s + 1) for s in range(127)]
    down = [(0, 127), *((s + 1, s) for s in range(1, 127))]
    yield fails(ended(128, up), range(128), 127)
    yield fails(ended(128, down), [0, *range(127, 0, -1)], 127)
    acts = [(a, 0, b) for a, b in up[:-1]]
    for bad, order, steps in (([], range(127), None), ([126], range(127), 126),
                              ([63, 64], range(64), 63), ([0, 126], [0], 0)):
        s = barred(127, acts, bad)
        yield holds(s, order) if steps is None else fails(s, order, steps)
    # ways over every second state are half as long
    twos = [(s, 1, s + 2) for s in range(0, 125, 2)]
    s = barred(127, [*acts, *twos], [125, 126])
    order = [0, *(q for k in range(1, 63) for q in (2 * k - 1, 2 * k)), 125]
    yield fails(s, order, 63)


def wide():
    """one state that leads to 126 others: the last of them fails, the first, all, none; two levels
    of which the farther has the lower numbers; transitions past number 255"""
    star = [(0, 0, to) for to in range(1, 127)]
    yield holds(barred(127, star, []), range(127))
    yield fails(barred(127, star, [126]), range(127), 1)
    yield fails(barred(127, star, range(1, 127)), [0, 1], 1)
    yield fails(barred(127, star, range(127)), [0], 0)
    two = [(0, 0, to) for to in range(64, 127)] + [(to, 0, 127 - to) for to in range(64, 127)]
    yield fails(barred(127, two, [1]), [0, *range(64, 127), 1], 2)
    yield fails(barred(127, two, [1, 126]), [0, *range(64, 127)], 1)
    yield holds(barred(127, two, []), [0, *range(64, 127), *range(1, 64)])
    s = sheet_of(plan(128, 16, many(1792)), TRUE, rule((4, 0, 1), T))
    yield fails(s, [0, 112], 1)
    # each state leads to the next 16
    dense = plan(128, 16, [(i // 16, i % 16, min(127, i // 16 + 1 + i % 16)) for i in range(2032)])
    yield holds(sheet_of(dense, TRUE, rule((5, 0, 1), T)), range(128))
    yield fails(sheet_of(dense, TRUE, rule((4, 0, 1), T)), range(128), 8)


def largest():
    """the most cells that there are: the rule fails at state 0, for which a query nests deepest; it
    holds at each of 128 states"""
    yield fails(deepest(), [0], 0)
    yield holds(deepest(least=False), range(128))


def longest_searches():
    """further ones, for a run that is not stored: with the root's cell at one state from elsewhere,
    and with bytes behind the tables as far as a request has room"""
    s, past = deepest(least=False), b'\3' * 8187
    for state in (0, 1, 63, 127):
        cells = set_at(bytes(57344), state * 448, 1)
        yield by_levels(s, counted(cells) + past, *([q] for q in range(128)))
    full = counted(b'\2' * 57344)
    yield given(s, full + past, None, 0, full + past)
    yield refused(35, s, counted(b'\2' * 57344, 1) + past)
    yield refused(21, s, b'\3' * 65535)
    yield refused(20, s, full[:-1])
    long = sheet_of(*LONG)
    yield refused(12, long, b'\3' * 65535)
    yield refused(12, long, b'')
    yield refused(1, b'', b'\3' * 65535)
    yield refused(3, b'\1\3' * 32767, b'\3' * 65535)


def at_limits():
    yield from lengths()
    yield from bytes_over_two()
    yield from counts()
    yield from in_order()
    yield from loops()
    yield from long_ways()
    yield from wide()
    yield from largest()
