"""Audits at the limits: refusals in their order, lengths, counts, loops, faults of the sheet, the
largest tables."""
from inputs.audit_parts import (
    answered, cells_left, cells_of, no, refused, solved_cells, table_of, turned, yes)
from inputs.counts import AT_0_AND_2, PAIRS, last_filled
from inputs.loop_plans import acting, loop_plans
from inputs.loops import FIRST_TWO, guarded_rule
from inputs.parts import (
    F, K, K_ACTIONS, K_RULE, LEAST_LOOP, LONG, SELF, T, TRUE, counted, deepest, faults, many, plan,
    rule, set_at, table)
from oracle.rows import Sheet
from oracle.sheet import four, sheet_of

# K's plan, with two states more that lead to one another and to state 2
ASIDE = sheet_of(plan(5, 3, [(0, 1, 1), (1, 2, 2), (3, 0, 4), (4, 0, 2), (4, 1, 3)]), K_ACTIONS,
                 K_RULE)


def lengths():
    """every length about the right one; what stands behind the count is not looked at"""
    whole = counted(AT_0_AND_2)
    for size in (0, 1, 26, 107, 108, 109, 110, 111):
        for tab in (whole, bytes(112), b'\3' * 112, b'\xff' * 112):
            yield refused(20, K, tab[:size])
    for past in (b'\0', b'\1', b'\3', b'\x1a\0\0\0', b'\xff' * 200):
        yield yes(K, whole + past)
        yield yes(K, bytes(112) + past)
        yield no(K, counted(AT_0_AND_2, 1) + past)


def counts():
    """right ones of one byte and of two; wrong ones by one, in each byte, in another order; a wrong
    one is a no and never 35"""
    for n in (0, 1, 25, 27, 52, 108, 112, 255, 256, 26 + 256, 26 << 8, 26 << 16, 26 << 24,
              26 | 1 << 31, 0xffffffff, 0xffffffe6):
        yield no(K, AT_0_AND_2 + four(n))
    for n in (1, 256, 1 << 16, 1 << 24, 0xffffffff):
        yield no(K, bytes(108) + four(n))
    # F and T right, below a pair that is empty or not: counts past 255
    for n in (85, 86, 128):
        for cells in (b'\2\1\2' * n + bytes(384 - 3 * n), b'\0\1\2' * n + bytes(384 - 3 * n)):
            filled = sum(map(bool, cells))
            low, high = filled % 256, filled // 256
            for count in ([low, high, 0, 0], [low + 1 & 255, high, 0, 0],
                          [low - 1 & 255, high, 0, 0], [low, high + 1, 0, 0],
                          [low, high - 1 & 255, 0, 0], [low, high, 1, 0], [low, high, 0, 1],
                          [0, 0, high, low], [high, low, 0, 0], [0, 0, low, high]):
                yield answered(count == [low, high, 0, 0], PAIRS, cells + bytes(count))
    # a count that is right beside cells that are not
    for n in (1, 255, 256, 384):
        yield no(PAIRS, counted(last_filled(n)))


def bytes_over_two():
    """21 reads the cells alone, and comes before the count and before what does not follow"""
    for b in (3, 128, 255):
        for place in (0, 7, 107):
            for cells in (bytes(108), AT_0_AND_2, b'\1' * 108):
                yield refused(21, K, counted(set_at(cells, place, b)))
                yield refused(21, K, counted(set_at(cells, place, b), 1))
        for place in range(4):
            yield no(K, AT_0_AND_2 + set_at(four(26), place, b))
        yield yes(K, counted(AT_0_AND_2) + bytes([b]))


def orders():
    """20 comes before 21, that before 12, that before a no; each with all that comes after it"""
    for wrong in (0, 1):
        # at state 0 of a plan that is a loop
        for cells in (b'\1\0\0\0\0\0', b'\0\0\0\0\0\2', b'\2\2\2\2\2\2'):
            yield refused(12, LEAST_LOOP, counted(cells, wrong))
            for place in range(6):
                yield refused(21, LEAST_LOOP, counted(set_at(cells, place, 3), wrong))
            for short in (1, 4, 6):
                yield refused(20, LEAST_LOOP, counted(set_at(cells, 0, 9), wrong)[:-short])
                yield refused(20, LEAST_LOOP, counted(cells, wrong)[:-short])
        # a byte over 2 where nothing is filled that is ahead of a loop, and where nothing is filled
        yield refused(21, LEAST_LOOP, counted(b'\0\0\3\0\0\0', wrong))
        yield refused(21, ASIDE, counted(set_at(AT_0_AND_2 + bytes(72), 179, 3), wrong))
        yield refused(21, ASIDE, counted(set_at(AT_0_AND_2 + b'\2' * 72, 0, 3), wrong))
        yield refused(12, ASIDE, counted(AT_0_AND_2 + bytes(71) + b'\1', wrong))
        yield refused(12, ASIDE, counted(b'\1' * 180, wrong))
        yield answered(not wrong, ASIDE, counted(AT_0_AND_2 + bytes(72), wrong))


def faulty():
    """a fault of the sheet comes first, with its place, whatever the table is"""
    for number, place, s in faults():
        for tab in (b'', b'\0' * 4, counted(AT_0_AND_2), b'\3' * 112, b'\1' * 300):
            yield refused(number, s, tab, place)
    for s, number in ((b'', 1), (K[:1], 1), (K[:73], 3), (K[:40], 3), (K + b'\0', 3)):
        yield refused(number, s, counted(AT_0_AND_2))
    transitions = many(301)
    s = sheet_of(plan(128, 16, [*transitions, transitions[-1]]), TRUE, rule(T))
    yield refused(5, s, bytes(132), 301)
    # behind a plan with a loop
    for number, a, r in ((6, b'', rule(T)), (7, table((7, 0, 0)), rule(T)), (8, TRUE, rule()),
                         (9, TRUE, rule((4, 1, 1), T)), (10, TRUE, rule((6, 0, 0)))):
        yield refused(number, sheet_of(SELF, a, r), b'\2\1\0\0\0')


def loops():
    """of every plan with loops: T's cell filled at one state, at all from which no loop can be
    reached, at those and one more, where it is wrong"""
    for states, pairs, looping in loop_plans():
        s = sheet_of(plan(states, 1, acting(pairs, lambda i: 0)), table(), rule(T))
        free = bytes(0 if q in looping else 2 for q in range(states))
        yield yes(s, counted(bytes(states)))
        yield yes(s, counted(free))
        yield no(s, counted(free, 1))
        for q in range(states):
            tab = counted(set_at(bytes(states), q, 2))
            yield refused(12, s, tab) if q in looping else yes(s, tab)
        for q in [*looping][:1]:
            yield refused(12, s, counted(set_at(free, q, 1)))


def loops_ahead():
    """12 asks for the states with a filled cell and no others: not for those that lead to them, not
    for what the cell is, and whether or not the rule looks at any transition"""
    s, width = ASIDE, 36
    yield yes(s, counted(solved_cells(s)))
    yield yes(s, counted(cells_left(s, range(6))))
    for place in range(3 * width, 5 * width, 5):
        yield refused(12, s, table_of(s, {(place % 3, place // 3 % 12, place // width): True}))
    # under a mark whose binder does not stand above, and none else is filled
    for state in (3, 4):
        for mark, node in ((1, 0), (2, 0), (2, 1), (2, 7), (2, 3)):
            yield refused(12, s, table_of(s, {(mark, node, state): False}))
            yield no(s, table_of(s, {(mark, node, state - 2): False}))
    # actions that no formula takes are ways all the same
    for transitions, looping in (([(0, 2, 0)], [0]), ([(0, 2, 1), (1, 2, 0), (2, 0, 2)], [0, 1, 2]),
                                 ([(0, 0, 1), (0, 2, 2), (2, 2, 2)], [0, 2]),
                                 ([(1, 0, 2), (2, 2, 0), (2, 2, 1)], [1, 2]),
                                 ([(0, 0, 1), (0, 1, 1), (0, 2, 1), (1, 1, 2), (1, 2, 2)], [])):
        for r in (rule(F), rule((2, 1, 2), T, F), rule((8, 0, 1), (6, 0, 0)), rule((5, 0, 1), F)):
            s = sheet_of(plan(3, 3, transitions), FIRST_TWO, r)
            cells, width = solved_cells(s), Sheet(s).cells() // 3
            yield yes(s, counted(cells))
            for state in range(3):
                tab = counted(set_at(bytes(3 * width), (state + 1) * width - 1, 2))
                if state in looping:
                    yield refused(12, s, tab)
                    yield refused(12, s, counted(set_at(cells, state * width, 1)))
    # a step ahead of a loop, with the cells it follows from at states without one
    p = plan(4, 3, [(0, 0, 1), (0, 2, 2), (1, 1, 3), (2, 0, 2)])
    for kind in (7, 8):
        s = sheet_of(p, FIRST_TWO, guarded_rule(kind))
        yield yes(s, counted(solved_cells(s)))
        yield yes(s, counted(cells_left(s, [0, 1, 2, 3])))
        yield refused(12, s, table_of(s, {(0, 4, 0): False}))
        yield refused(12, s, counted([a or b for a, b in zip(
            solved_cells(s), cells_of(s, {(1, 3, 2): kind == 8}))]))


def long_ways():
    """128 states: a loop at the end of the longest way, before it, at its start; T's cell at one
    state or at all from which none can be reached"""
    up, down = [(s, s + 1) for s in range(127)], [(s + 1, s) for s in range(127)]
    for pairs, looping in ((up + [(127, 127)], range(128)), (up + [(0, 0)], range(1)),
                           (up + [(126, 126)], range(127)), (up + [(64, 63)], range(65)),
                           (down + [(0, 0)], range(128)), (down + [(127, 127)], range(127, 128)),
                           (up, range(0)), (down, range(0))):
        s = sheet_of(plan(128, 1, acting(pairs, lambda k: 0)), TRUE, rule(T))
        yield yes(s, counted([0 if q in looping else 2 for q in range(128)]))
        for q in (0, 1, 62, 63, 64, 65, 126, 127):
            tab = counted(set_at(bytes(128), q, 2))
            yield refused(12, s, tab) if q in looping else yes(s, tab)


def wide():
    """rows of many entries: of 127 transitions one decides, or none does and one cell is empty;
    transitions past number 255"""
    p = plan(128, 2, [(0, 0, to) for to in range(1, 128)])
    for kind, other in ((4, (5, 0, 2)), (5, (4, 0, 2))):
        s = sheet_of(p, TRUE, rule((kind, 0, 1), (kind - 4, 0, 0)))
        child = kind == 5
        cells = {(0, 1, to): child for to in range(1, 128)}
        yield yes(s, table_of(s, {**cells, (0, 0, 0): child}))
        yield no(s, table_of(s, {**cells, (0, 0, 0): not child}))
        for missing in (1, 64, 127):
            some = {cell: value for cell, value in cells.items() if cell[2] != missing}
            yield yes(s, table_of(s, some))
            yield no(s, table_of(s, {**some, (0, 0, 0): child}))
            yield no(s, table_of(s, {**some, (0, 0, 0): not child}))
        # a child that decides at each end state
        s = sheet_of(p, TRUE, rule((kind, 0, 1), other, (5 - kind, 0, 0)))
        for at in (1, 64, 127):
            yield yes(s, table_of(s, {(0, 1, at): kind == 4, (0, 0, 0): kind == 4}))
            yield no(s, table_of(s, {(0, 1, at): kind == 4, (0, 0, 0): kind == 5}))
    s = sheet_of(plan(128, 16, many(300)), TRUE, rule((5, 0, 1), T))
    for state in (0, 15, 16, 17, 18):
        to = range(112, 128) if state < 18 else range(116, 128)
        cells = {(0, 1, q): True for q in to}
        yield yes(s, table_of(s, {**cells, (0, 0, state): True}))
        yield no(s, table_of(s, {**{c: v for c, v in cells.items() if c[2] != 116},
                                 (0, 0, state): True}))


def largest():
    """the most cells that there are: all of them filled that may be, then the last one another"""
    s = deepest()
    full = solved_cells(s)
    yield yes(s, counted(full))
    last = max(place for place, value in enumerate(full) if value)
    yield no(s, counted(turned(full, last)))


def longest_audits():
    """the longest sheet and the most cells, for a run that is not stored: too short by one, none
    filled, one filled or all, with bytes behind them as far as a request has room"""
    s, long = deepest(), sheet_of(*LONG)
    full = solved_cells(s)
    for size in (57343, 57344, 57347):
        yield refused(20, s, counted(full)[:size])
        yield refused(20, long, b'\3' * size)
    for sheet in (s, long):
        yield yes(sheet, counted(bytes(57344)))
        yield yes(sheet, counted(bytes(57344)) + b'\3' * 8187)
        yield no(sheet, counted(bytes(57344), 1))
        yield refused(21, sheet, counted(bytes(57343) + b'\3'))
        yield refused(21, sheet, b'\3' * 65535)
    for b in (1, 2):
        yield refused(12, long, counted(bytes([b]) * 57344))
        yield refused(12, long, counted(bytes(57343) + bytes([b])))
        yield no(s, counted(bytes([b]) * 57344))
    yield yes(s, counted(full) + b'\3' * 8187)
    yield no(s, counted(full, 1))
    yield no(s, counted(solved_cells(s, True)))
    for state in (0, 63, 127):
        yield yes(s, counted(cells_left(s, [state])))
        yield yes(s, counted(cells_left(s, range(state, 128))))
    for place in (0, 448, 57343 - 447, 30000, 30001, 30002, 57343):
        if full[place]:
            yield no(s, counted(turned(full, place)))


def at_limits():
    yield from lengths()
    yield from counts()
    yield from bytes_over_two()
    yield from orders()
    yield from faulty()
    yield from loops()
    yield from loops_ahead()
    yield from long_ways()
    yield from wide()
    yield from largest()
