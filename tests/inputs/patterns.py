"""What patterns become: request 7, and the reference on the result."""
import random

from inputs.chance import random_translation
from inputs.parts import F, K, SELF, T, TRUE, plan, rule, table
from inputs.pattern_limits import refused_patterns
from inputs.pattern_parts import (
    A0, A1, A2, BINDER, EVERY, NESTED, ONE_NODE, SIDE, SOME, THREE_NODES, TWO_NODES, action,
    body_of, choice, fitting, left_sequence, repetition, sequence, with_rule)
from oracle.protocol import reference_request
from oracle.runs import sentence
from oracle.sheet import sheet_of


def shapes():
    """each operator in each part of each other, and deeper"""
    yield A1
    unary = [A0, repetition(A1)]
    for operator in (sequence, choice):
        for first in (*unary, sequence(A1, A2), choice(A1, A2)):
            for second in (*unary, sequence(A2, A0), choice(A2, A0)):
                yield operator(first, second)
    for part in (sequence(A0, A1), choice(A0, A1), repetition(A2),
                 sequence(repetition(A0), repetition(A1)), choice(repetition(A0), repetition(A1)),
                 sequence(repetition(A0), A1), choice(A0, repetition(A1)),
                 sequence(choice(A0, A1), repetition(A2)),
                 choice(sequence(A0, repetition(A1)), A2)):
        yield repetition(part)
        yield sequence(repetition(part), A2)
    for parts in ([A0, A1, A2, A1], [A0, repetition(A1), choice(A0, A2)]):
        yield sequence(*parts)
        yield left_sequence(*parts)


def translations():
    """every shape, some run and every run in turn, on rules without binders and with"""
    for i, r in enumerate(shapes()):
        for k, s in enumerate((ONE_NODE, BINDER, NESTED)):
            yield from fitting(s, (SOME, EVERY)[(i + k) % 2] + r, i % 3)
    for s in (ONE_NODE, TWO_NODES, THREE_NODES, BINDER, NESTED, SIDE, K):
        for lead in (SOME, EVERY):
            yield from fitting(s, lead + repetition(A0), 0, 3)
            yield from fitting(s, lead + choice(repetition(A1), A2))
    # entry numbers that are also an operator's, and the last of 32
    many = sheet_of(SELF, table(*[(1, 0, 0)] * 32), rule(T))
    for r in (sequence(action(1), action(2)), choice(action(3), action(0)), repetition(action(3)),
              action(31), sequence(action(0), action(0)), action(32)):
        yield from fitting(many, SOME + r)
        yield from fitting(many, EVERY + r, 1)


def meanings():
    """what a pattern becomes, judged on plans with loops; its word is that of the runs"""
    for p in (SELF, plan(2, 1, [(0, 0, 1), (1, 0, 0)]),
              plan(3, 1, [(0, 0, 1), (1, 0, 1), (1, 0, 2)])):
        for r in (rule(T), rule(F), rule((4, 0, 1), T), rule((5, 0, 1), F)):
            s = sheet_of(p, TRUE, r)
            for pattern in (A0, repetition(A0), sequence(repetition(A0), A0), repetition(A0, 2),
                            repetition(sequence(A0, A0)), choice(A0, repetition(sequence(A0, A0)))):
                for lead in (SOME, EVERY):
                    yield s, lead + pattern
    for i, r in enumerate(shapes()):
        yield (BINDER, NESTED, SIDE, TWO_NODES)[i % 4], (SOME, EVERY)[i // 4 % 2] + r


def judged_translations():
    for s, pattern in meanings():
        body = body_of(s, pattern)
        if body:
            word = sum(1 << q for q in sentence(s, pattern))
            yield reference_request(with_rule(s, body)), 'reference 0 0 %d|' % word


def patterns():
    yield from refused_patterns()
    yield from translations()
    rng = random.Random(4)
    for _ in range(60):
        yield from random_translation(rng)
