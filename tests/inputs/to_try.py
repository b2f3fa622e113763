"""Document 01's sheets to try, each with the start of what the document says it gives."""
from inputs.parts import (
    F, GREATEST_LOOP, GREATEST_X, K, K8, K_PLAN, LEAST, LEAST_LOOP, LEAST_X, T, TRUE, chain,
    deepest, line, rule)
from oracle.protocol import guard_request, list_request, reference_request, yes
from oracle.sheet import sheet_of


def p1_to_p11():
    every = sheet_of(K_PLAN, TRUE, rule((5, 0, 1), F))
    some = sheet_of(K_PLAN, TRUE, rule((4, 0, 1), T))
    yield list_request(K, 112, 165, [0, 1, 2]), (
        'clear 0 0|query 0 0 true 17|query 0 0 true 0|query 0 0 false 9|')
    yield list_request(K8, 112, 0, [2]), 'clear 0 0|query 0 0 true 8|'
    yield reference_request(K), 'reference 0 0 3|'
    yield guard_request(K), 'guard 0 0 false|'
    yield list_request(LEAST_X, 16, 0, [0]), 'clear 0 0|query 0 0 false 2|'
    yield list_request(GREATEST_X, 16, 0, [0]), 'clear 0 0|query 0 0 true 2|'
    yield list_request(every, 10, 0, [2]), 'clear 0 0|query 0 0 true 1|'
    yield list_request(some, 10, 0, [2]), 'clear 0 0|query 0 0 false 1|'
    yield reference_request(LEAST_LOOP), 'reference 0 0 0|'
    yield reference_request(GREATEST_LOOP), 'reference 0 0 1|'
    for s in (LEAST_LOOP, GREATEST_LOOP):
        yield list_request(s, 10, 9, [0, 1]), 'clear 0 0|query 12 0 false 0|query 11 0 false 0|'


def at_limit(s, listed, number, place=0, word=None):
    """a sheet that passes (number 0) or is refused: guard check, word where one is given, a list"""
    passes, word = yes(number == 0), word if number == 0 or word is None else 0
    yield guard_request(s), 'guard %d %d %s|' % (number, place, passes)
    if word is not None:
        yield reference_request(s), 'reference %d %d %d|' % (number, place, word)
    yield list_request(s, *listed), 'clear %d %d|query %d %d %s' % (
        number, place, number, place, passes)


def limits():
    for size in (107, 108, 111):
        yield list_request(K, size, 1, [0, 3]), 'clear 20 0|query 20 0 false 0|query 11 0 false 0|'
    small = sheet_of(*LEAST)
    assert len(small) == 26 and len(K) == 74
    yield list_request(small, 5, 7, [0]), 'clear 0 0|query 0 0 true 1|table 0201000000|'
    for states, number in ((64, 0), (65, 13), (128, 13), (129, 4)):
        s = sheet_of(line(states), TRUE, rule((4, 0, 1), T))
        word = (1 << 63) - 1 if number == 0 else 0
        yield reference_request(s), 'reference %d 0 %d|' % (number, word)
    for states, number in ((128, 0), (129, 4)):
        r = rule((7, 0, 1), (3, 2, 4), (5, 0, 3), (6, 0, 0), T)
        yield from at_limit(sheet_of(line(states), TRUE, r), (1284, 1, [127, 0, 128]), number)
    for n, number in ((64, 0), (65, 8)):
        s = sheet_of(line(3), TRUE, rule(*chain(n)))
        yield from at_limit(s, (196, 3, [0, 2]), number, word=7)
    for n, number, place in ((6, 0, 0), (7, 10, 6)):
        binders = [(7 + k % 2, k, k + 1) for k in range(n)]
        s = sheet_of(line(2), TRUE, rule(*binders, (5, 0, n + 1), (6, n - 1, 0)))
        yield from at_limit(s, (2 * 8 * 7 + 4, 3, [0, 1]), number, place, word=3)
    yield list_request(deepest(), 57348, 255, [0, 127]), 'clear 0 0|query 0 0 false '


def to_try():
    yield from p1_to_p11()
    yield from limits()
