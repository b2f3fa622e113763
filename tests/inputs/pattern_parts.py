"""Patterns, and sheets for them, that the cases are made of."""
from inputs.parts import F, K_ACTIONS, T, plan, rule
from oracle.patterns import translate
from oracle.protocol import pattern_request
from oracle.sheet import Refused, bodies_at, read_sheet, sheet_of


def action(entry):
    return bytes([0, entry])


def sequence(first, *others):
    """nested to the right"""
    return b'\1' + first + sequence(*others) if others else first


def left_sequence(*parts):
    return b'\1' * (len(parts) - 1) + b''.join(parts)


def choice(first, second):
    return b'\2' + first + second


def repetition(part, times=1):
    return b'\3' * times + part


A0, A1, A2 = map(action, range(3))
SOME, EVERY = b'\0', b'\1'

# one, two and three nodes; a binder; two, one of them below the other; two side by side
FAN = plan(3, 3, [(0, 0, 1), (0, 1, 0), (0, 1, 2), (1, 0, 0), (1, 2, 1), (2, 1, 2), (2, 2, 0)])
ONE_NODE = sheet_of(FAN, K_ACTIONS, rule(T))
TWO_NODES = sheet_of(FAN, K_ACTIONS, rule((5, 2, 1), F))
THREE_NODES = sheet_of(FAN, K_ACTIONS, rule((3, 1, 2), T, F))
BINDER = sheet_of(FAN, K_ACTIONS, rule((8, 0, 1), (3, 2, 3), (6, 0, 0), (4, 2, 4), (6, 0, 0)))
NESTED = sheet_of(FAN, K_ACTIONS, rule((7, 0, 1), (8, 1, 2), (2, 3, 5), (5, 1, 4), (6, 1, 0),
                                       (4, 0, 6), (6, 0, 0)))
SIDE = sheet_of(FAN, K_ACTIONS, rule((2, 1, 3), (7, 0, 2), (6, 0, 0), (8, 1, 4), (4, 1, 5),
                                     (6, 1, 0)))


def with_rule(s, body):
    p, a, _ = bodies_at(s, read_sheet(s))
    return sheet_of(p, a, body)


def body_of(s, pattern):
    """what the pattern becomes, if anything"""
    try:
        return translate(s, pattern, 65535)
    except Refused:
        return b''


def fitting(s, pattern, *more):
    """requests with an output as long as the body, or longer by so many bytes"""
    for extra in more or (0,):
        yield pattern_request(s, pattern, len(body_of(s, pattern)) + extra, 170)
