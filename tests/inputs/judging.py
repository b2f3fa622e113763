"""Guard check, reference, clearing and query: requests 2 to 5."""
import random

from inputs.actions import stretches
from inputs.chance import random_judging
from inputs.loops import with_loops
from inputs.parts import (
    F, GREATEST_X, K, K8, LEAST_X, LONG, LONG_ACTIONS, TRUE, counted, plan, refusals, rule, set_at,
    table)
from oracle.protocol import guard_request, list_request, query_request, reference_request
from oracle.rows import Sheet, query
from oracle.sheet import sheet_of


def refused_sheets():
    for s in refusals():
        yield guard_request(s)
        yield reference_request(s)
        yield list_request(s, 5, 3, [0, 200])
        yield query_request(s, 0, b'')
        yield query_request(s, 255, b'\3\2\1\0')


def lists():
    """refused states among others, a state again, none at all, a buffer longer than the table"""
    yield list_request(K, 0, 2, [])
    yield list_request(K, 0, 2, [0, 3])
    yield list_request(K, 124, 77, [0, 3, 1, 255, 2, 0, 1, 2])
    yield list_request(K, 113, 3, [2, 128, 1, 0, 3])
    for order in ([2, 1, 0], [1, 0, 2], [2, 0], [1], [2, 2, 2]):
        for s in (K, K8):
            yield list_request(s, 112, 9, order)
    # each choice of K's two binders
    for kinds in ((7, 7), (7, 8), (8, 7), (8, 8)):
        s = set_at(set_at(K, 38, kinds[0]), 38 + 21, kinds[1])
        yield guard_request(s)
        yield reference_request(s)
        yield list_request(s, 112, 0, [0, 1, 2])


def tables():
    """one query on a table that a list leaves, and on tables from elsewhere"""
    for s in (K, K8):
        tab = bytearray(112)
        for state in (2, 1, 0, 2):
            yield query_request(s, state, bytes(tab))
            query(s, state, tab)
    # cells all of one value, and a byte over 2 at either end and past the count; short ones
    for b in (0, 1, 2, 3, 255):
        for s in (K, LEAST_X, GREATEST_X):
            cells = Sheet(s).cells()
            yield query_request(s, 0, counted(bytes([b]) * cells))
            for at in (0, cells - 1):
                yield query_request(s, 2, counted(set_at(bytes(cells), at, b)) + b'\1')
            yield query_request(s, 2, counted(bytes(cells)) + bytes([b]))
            yield query_request(s, 1, bytes([b]) * (cells + 3))
            yield query_request(s, 3, bytes([b]) * (cells + 3))


def formulas():
    """action formulas: each kind, none and all of the actions"""
    entries = table((2, 1, 0), (2, 2, 0), (3, 0, 1), (4, 0, 1), (5, 2, 0), (0, 0, 0), (1, 0, 0),
                    (5, 6, 0), (5, 5, 0), (4, 4, 8),
                    *[(3 + i % 2, i - 1, i - 1) for i in range(10, 32)])
    fan = plan(6, 4, [(0, 0, 1), (0, 1, 2), (0, 1, 3), (0, 2, 4), (0, 3, 5), (1, 1, 2), (2, 2, 4),
                      (4, 3, 5)])
    for e in range(32):
        for kind in (4, 5):
            s = sheet_of(fan, entries, rule((kind, e, 1), (9 - kind, 1, 2), (kind - 4, 0, 0)))
            yield reference_request(s)
            yield list_request(s, 22, 4, [0, 1, 4])


def largest():
    """the longest sheet, where a loop can be reached from the state asked for; a long one without
    loops; bit 63"""
    s = sheet_of(*LONG)
    yield guard_request(s)
    yield reference_request(s)
    yield query_request(s, 127, b'')
    dense = plan(128, 255, [(i // 16, i % 16 * 17 - i % 16 // 15, 127 - i % 16 % (127 - i // 16))
                            for i in range(2032)])
    r = rule((7, 0, 1), (2, 2, 4), (4, 31, 3), (6, 0, 0), (5, 3, 5), F)
    s = sheet_of(dense, LONG_ACTIONS, r)
    yield guard_request(s)
    yield list_request(s, 1540, 5, [0, 126, 127])
    wide = plan(64, 1, [(s, 0, 63) for s in range(64)])
    for kind in (7, 8):
        yield reference_request(sheet_of(wide, TRUE, rule((kind, 0, 1), (4, 0, 2), (6, 0, 0))))


def judgings():
    yield from refused_sheets()
    yield from lists()
    yield from tables()
    yield from with_loops()
    yield from formulas()
    yield from stretches()
    yield from largest()
    rng = random.Random(2)
    for _ in range(60):
        yield from random_judging(rng)
