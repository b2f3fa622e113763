"""Allowances at the limits: numbers of benches, lengths of the buffer, the benches' refusals in
their order, faults of the sheet, the largest tables."""
from itertools import product

from inputs.allowance_parts import MOST_VISITS, SIDE, cleared, dealt, left_by, refused, stairs
from inputs.counts import AT_0
from inputs.parts import K, LEAST_LOOP, LONG, TRUE, chain, counted, deepest, faults, line, rule
from oracle.sheet import four, sheet_of

DEEPEST = 46291                         # cells that state 0 of the deepest sheet needs
WIDTH = 10                              # of a table of SIDE
GOOD = 0, bytes(WIDTH)                  # state and table of a bench there
# what a bench there is refused for, each also with all that has a higher number
SPOILT = {
    11: ((3, bytes(WIDTH)), (255, b'\3' * WIDTH), (3, counted(bytes(6), 1))),
    12: ((2, bytes(WIDTH)), (2, b'\3' * WIDTH), (2, counted(b'\1' * 6, -1))),
    21: ((0, counted(b'\0\0\0\0\0\3')), (1, b'\xff' * WIDTH), (0, counted(b'\3\1\2\0\0\0', 1))),
    35: ((0, counted(bytes(6), 1)), (1, bytes(6) + four(1 << 24)), (1, counted(b'\1' * 6, -1))),
}


def at_benches(count, benches):
    """states and tables of so many benches of SIDE, of which some are given by their numbers"""
    every = [benches.get(i, GOOD) for i in range(count)]
    return [state for state, _ in every], b''.join(tab for _, tab in every)


def bench_counts():
    """44 comes before anything else"""
    for count in (0, 9, 10, 255, 256, 257, 264):
        states = [0] * count
        yield refused(44, SIDE, states, MOST_VISITS, bytes(90))
        yield refused(44, SIDE, states, 0, b'')
        yield refused(44, SIDE, [3] * count, 7, b'\3' * 90)
    for i, (_, _, s) in enumerate(faults()):
        yield refused(44, s, [0] * (9 * (i % 2)), 3, b'\3' * i)
    yield refused(44, b'', b'', 0, b'')
    yield refused(44, K, [0] * 9, 153, bytes(1008))
    yield refused(44, LEAST_LOOP, [0] * 9, 9, bytes(90))
    for count in (1, 2, 7, 8):
        yield dealt(SIDE, [0] * count, 2 * count, [bytes(WIDTH)] * count, [2] * count)
        yield dealt(SIDE, [1] * count, count - 1, [bytes(WIDTH)] * count,
                    [1] * (count - 1) + [0])


def alone():
    """each refusal at each bench, the others being as they should: no table changes"""
    for count in (1, 3, 8):
        for i in range(count):
            for number, ways in SPOILT.items():
                for way in ways if count == 1 else ways[:1]:
                    states, tables = at_benches(count, {i: way})
                    yield refused(number, SIDE, states, MOST_VISITS, tables)
            states, tables = at_benches(count, {})
            for short in (1, WIDTH):
                yield refused(20, SIDE, states, 16, tables[:(i + 1) * WIDTH - short])


def in_pairs():
    """two benches are refused, for any two reasons: the lower bench's number comes"""
    for low, high, count in ((0, 1, 2), (1, 2, 3), (0, 7, 8)):
        for one, other in product(SPOILT, repeat=2):
            states, tables = at_benches(count, {low: SPOILT[one][0], high: SPOILT[other][0]})
            yield refused(one, SIDE, states, 9, tables)
        for one in SPOILT:
            # the buffer ends within the higher bench's table, then within the lower one's
            states, tables = at_benches(count, {low: SPOILT[one][0]})
            yield refused(one, SIDE, states, 9, tables[:high * WIDTH + WIDTH - 1])
            states, tables = at_benches(count, {high: SPOILT[one][0]})
            yield refused(20, SIDE, states, 9, tables[:low * WIDTH + WIDTH - 1])
            # of one bench 11 and 12 come before its 20, and this before what its table holds
            states, tables = at_benches(count, {low: SPOILT[one][0]})
            yield refused(min(one, 20), SIDE, states, 9, tables[:low * WIDTH + WIDTH - 1])
    # all are refused, from the highest number down and from the lowest up
    for numbers in ((35, 21, 12, 11), (11, 12, 21, 35), (21, 35, 11), (12, 11, 35)):
        states, tables = at_benches(len(numbers), {
            i: SPOILT[number][1] for i, number in enumerate(numbers)})
        yield refused(numbers[0], SIDE, states, 0, tables)
        yield refused(44, SIDE, states * 3, 0, tables * 3)


def lengths():
    """of the key sheet's tables, each 112 bytes: too short for the first, a middle and the last"""
    first = counted(AT_0)
    for count in (1, 2, 3, 8):
        for i in sorted({0, count // 2, count - 1}):
            for size in (112 * i, 112 * i + 111):
                yield refused(20, K, [1] * count, MOST_VISITS, (first * count)[:size])
        yield refused(20, K, [1] * count, 0, bytes(112 * count - 4))
        yield refused(11, K, [3] + [1] * (count - 1), 8, first[:107])
    yield refused(20, K, [1, 3], 8, first[:111])
    yield refused(11, K, [1, 3], 8, first)
    yield refused(20, K, [1, 1], 8, first)
    # tables that lie one byte further on than they should
    yield refused(35, K, [0, 0], 34, bytes(1) + first + bytes(112))
    yield refused(35, K, [0, 0, 0], 34, bytes(113) + first + bytes(112))


def unchanged():
    """the first benches are as they should be and have visits enough; the last is refused"""
    for number, spoilt in ((21, counted(bytes(107) + b'\3')), (21, b'\xff' * 112),
                           (35, counted(AT_0, 1)), (35, bytes(111) + b'\1')):
        for count in (2, 8):
            tables = bytes(112 * (count - 1)) + spoilt
            yield refused(number, K, [0] * count, 1000, tables)
            yield refused(number, K, [0] * count, 0, tables + b'\7' * 30)
    # nor do bytes over 2 in a count or past the tables turn a call down
    s = stairs(6)
    full = left_by(s, 0)
    yield dealt(s, [0, 5], 1, [full, cleared(s)], (0, 1), b'\3\xff')
    yield dealt(s, [5, 0], 0, [full, full], (0, 0), b'\xff' * 40)


def faulty():
    """a fault of the sheet is the first bench's, with its place, whatever the others are"""
    for number, place, s in faults():
        for states, tables in (([0], b''), ([255] * 3, counted(AT_0)), ([0] * 8, b'\3' * 80)):
            yield refused(number, s, states, 12, tables, place)
    yield refused(12, LEAST_LOOP, [0], 3, bytes(10))
    yield refused(11, LEAST_LOOP, [1, 0], 3, bytes(20))
    yield refused(12, LEAST_LOOP, [0, 1], 3, bytes(20))


def long_tables():
    """sheets with tables of 2,048, 2,050, 8,192 and 8,194 bytes, and the needs of their first
    states"""
    for states, nodes, binders in ((73, 28, 0), (66, 31, 0), (89, 46, 1), (105, 39, 1)):
        opening = [(8, k, k + 1) for k in range(binders)]
        modal = [(kind, x, y + binders) for kind, x, y in chain(nodes - binders)[:-1]]
        s = sheet_of(line(states), TRUE, rule(*opening, *modal, (0, 0, 0)))
        yield s, nodes


def about_sizes():
    """one bench of each, and two of the smaller ones, the second short by a visit"""
    for s, need in long_tables():
        tab = cleared(s)
        yield dealt(s, [0], need, [tab], [need])
        if len(tab) < 4096:
            yield dealt(s, [1, 0], 2 * need - 1, [tab, tab], (need, need - 1), b'\3')


def largest():
    """one bench with the most cells that there are, for which a query nests deepest"""
    s = deepest()
    tab = bytes(57348)
    yield dealt(s, [0], MOST_VISITS, [tab], [DEEPEST])


def longest_allowances():
    """further ones, for a run that is not stored"""
    s, tab = deepest(), bytes(57348)
    yield dealt(s, [0], DEEPEST, [tab], [DEEPEST], b'\3' * 8187)
    yield dealt(s, [0], DEEPEST - 1, [tab], [DEEPEST - 1], b'\3' * 8187)
    yield dealt(s, [0], 0, [left_by(s, 0)], [0])
    yield refused(20, s, [0], 9, tab[:-1])
    yield refused(20, s, [0, 1], 9, b'\0' * 65535)
    yield refused(11, s, [0, 128], 9, b'\0' * 65535)
    yield refused(35, s, [0, 128], 9, b'\1' * 57344 + four(57343) + b'\1' * 8187)
    yield refused(21, s, [0, 1], 9, b'\3' * 65535)
    long = sheet_of(*LONG)
    yield refused(12, long, [0] * 8, 9, b'\3' * 65535)
    yield refused(44, long, bytes(9), 9, b'\3' * 65535)
    yield refused(44, b'\3' * 65535, b'\3' * 65535, MOST_VISITS, b'\3' * 65535)
    yield refused(1, b'', bytes(8), MOST_VISITS, b'\3' * 65535)
    for s, need in long_tables():
        tab = cleared(s)
        count = min(8, 65535 // len(tab))
        for visits, whole in ((count * need, True), (count * need - 1, False)):
            grants = [need] * (count - 1) + [need if whole else need - 1]
            yield dealt(s, [0] * count, visits, [tab] * count, grants)


def at_limits():
    yield from bench_counts()
    yield from alone()
    yield from in_pairs()
    yield from lengths()
    yield from unchanged()
    yield from faulty()
    yield from about_sizes()
    yield from largest()
