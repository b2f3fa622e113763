"""Rules about runs with regular expressions that say the same, on pairs of recordings with every
kind of answer."""
import random
from itertools import product

from inputs.parts import F, T
from inputs.recording_parts import (
    ANY, END, MIDDLE, NEVER, NONE, NOT_0, NOT_1, OUTER, always, both, by_pattern, either, every,
    failing, greatest, least, repeated, sheet, some, sometime)


def plain():
    """without fixed points"""
    yield T, '.*'
    yield F, NEVER
    yield some(0, T), 'a.*'
    yield every(0, F), '([^a].*)?'
    yield some(ANY, T), '.+'
    yield END, ''
    yield some(NONE, T), NEVER
    yield every(NONE, F), '.*'
    yield some(MIDDLE, T), '[bc].*'
    yield every(OUTER, some(1, T)), '([bc].*)?|[ad]b.*'
    yield every(0, every(1, every(2, F))), '(?!abc).*'
    yield some(0, some(1, END)), 'ab'
    yield both(every(0, F), every(ANY, every(1, F))), '(?!a|.b).*'
    yield either(every(0, F), every(ANY, every(1, F))), '(?!ab).*'
    for count in (1, 2, 3, 5):
        yield repeated(every, count + 1, F), '.{0,%d}' % count
        yield repeated(some, count, T), '.{%d,}' % count
        yield repeated(some, count, END), '.{%d}' % count


def until():
    """they hold until an action comes, or as long as none is missing"""
    yield always(every(0, F)), '[^a]*'
    yield always(every(OUTER, F)), '[bc]*'
    yield always(every(MIDDLE, F)), '[ad]*'
    yield always(every(0, every(1, F))), '(?!.*ab).*'
    yield always(every(1, always(every(0, F), 'Y'))), '[^b]*(b[^a]*)?'
    yield (always(every(0, greatest('Y', both(every(0, F), every(NOT_1, 'Y'))))),
           '([^a]|a[^ab]*b)*(a[^ab]*)?')
    yield (greatest('X', both(every(NOT_0, F), every(0, both(every(NOT_1, F), every(1, 'X'))))),
           '(ab)*a?')
    yield (greatest('X', both(every(0, greatest('Y', both(every(0, F), every(NOT_0, 'Y')))),
                              every(NOT_0, 'X'))), '[^a]*(a[^a]*)?')
    yield both(always(every(0, F)), always(every(1, every(1, F)), 'Y')), '(?!.*a|.*bb).*'
    yield either(always(every(0, F)), always(every(1, F), 'Y')), '[^a]*|[^b]*'


def ending():
    """what has to come before the end"""
    yield sometime(some(0, T)), '.*a.*'
    yield always(every(0, some(1, T))), '([^a]|ab)*'
    yield always(every(0, sometime(some(1, T), 'Y'))), '(.*b)?[^a]*'
    yield sometime(some(2, END)), '.*c'
    yield always(every(2, some(ANY, T))), '(.*[^c])?'
    yield either(always(every(0, F)), sometime(some(1, T), 'Y')), '[^a]*|.*b.*'
    yield both(always(every(0, F)), sometime(some(1, T), 'Y')), '(?!.*a).*b.*'
    for binder in (least, greatest):
        yield binder('X', either(END, some(ANY, some(ANY, 'X')))), '(..)*'
        yield binder('X', either(END, some(0, some(1, 'X')))), '(ab)*'
        yield binder('X', either(END, some(MIDDLE, 'X'))), '[bc]*'


def nested():
    """least and greatest fixed points in one another; without "some" and "every" between"""
    for outer, inner in product((least, greatest), repeat=2):
        yield (outer('X', inner('Y', either(some(0, 'X'), either(some(1, 'Y'), END)))), '[ab]*')
        yield (outer('X', either(END, either(some(NOT_0, 'X'), some(0, inner('Y', either(
            some(NOT_0, 'Y'), some(0, 'X'))))))), '([^a]|a[^a]*a)*')
        yield (outer('X', inner('Y', both(every(0, 'X'), both(every(1, 'Y'), every(2, F))))),
               '(?![ab]*c).*')
        yield outer('X', either(some(2, T), either(some(0, 'X'), inner('Y', either(
            'X', some(1, 'Y')))))), '[ab]*c.*' if outer is least else '.*'
        yield outer('X', inner('Y', either('X', 'Y'))), (
            NEVER if outer is inner is least else '.*')
        yield outer('X', inner('Y', both('X', 'Y'))), (
            '.*' if outer is inner is greatest else NEVER)
    yield least('X', 'X'), NEVER
    yield greatest('X', 'X'), '.*'
    # six, least and greatest in turn
    tree = either(END, either(some(0, '0'), either(some(1, '3'), some(2, '5'))))
    for k in reversed(range(6)):
        tree = (least, greatest)[k % 2](str(k), tree)
    yield tree, '[abc]*'


def sayings():
    for tree, pattern in (*plain(), *until(), *ending(), *nested()):
        yield sheet(tree), pattern


def kind(pattern, first, second):
    """of the answer: which recording, none of its actions, all of them; what the other one does"""
    n, m = failing(pattern, first), failing(pattern, second)
    if n is None and m is None:
        return first == second, len(first) > len(second), first == b'', second == b''
    if m is None or n is not None and n <= m:
        return 1, n == 0, n == len(first), m is None, n == m, len(first) < len(second)
    return 2, m == len(second), n is None, len(first) < m


def run_of(rng):
    return bytes(rng.choices(range(4), (4, 4, 2, 1), k=rng.choice((0, 1, 2, 3, 3, 4, 5, 6, 8, 11))))


def pair_of(rng):
    """two recordings; often they begin alike"""
    shared = run_of(rng) if rng.random() < 0.4 else b''
    return shared + run_of(rng), shared + run_of(rng)


def rules_to_try():
    """of each kind of answer one pair, and another of those in which the second recording's
    beginning is the shortest"""
    rng = random.Random(16)
    for s, pattern in sayings():
        met = {}
        for _ in range(150):
            first, second = pair_of(rng)
            of_kind = met.setdefault(kind(pattern, first, second), [])
            of_kind.append((first, second))
        for of_kind, pairs in met.items():
            for first, second in pairs[:2 if of_kind[0] == 2 else 1]:
                yield by_pattern(s, pattern, first, second)
