"""Bodies, sheets and tables that the cases are made of."""
from oracle.sheet import four, sheet_of, two


def plan(states, actions, transitions):
    flat = bytes(x for t in transitions for x in t)
    return bytes([states, actions]) + two(len(transitions)) + flat


def table(*entries):
    return bytes([len(entries)]) + bytes(x for e in entries for x in e)


rule = table
T, F = (1, 0, 0), (0, 0, 0)
TRUE = table((1, 0, 0))

K_PLAN = plan(3, 3, [(0, 1, 1), (1, 2, 2)])
K_ACTIONS = table((2, 0, 0), (2, 1, 0), (2, 2, 0))
K_RULE = rule((7, 0, 1), (2, 2, 4), (4, 2, 3), T, (2, 5, 7), (4, 0, 6), (6, 0, 0),
              (7, 1, 8), (2, 9, 10), (6, 0, 0), (4, 1, 11), (6, 1, 0))
K = sheet_of(K_PLAN, K_ACTIONS, K_RULE)

LEAST = plan(1, 0, []), table(), rule(T)

# each body as long as it may be
LONG_PLAN = plan(128, 255, [(i // 16, i % 16 * 17 - i % 16 // 15, i * 5 % 128)
                            for i in range(2048)])
LONG_ACTIONS = table((2, 254, 0), (1, 0, 0), (0, 0, 0), (5, 2, 0),
                     *[(3 + i % 2, i - 1, i - 3) for i in range(4, 31)], (3, 30, 30))
LONG_RULE = rule(*[(7 + i % 2, i, i + 1) for i in range(6)],
                 *[(4 + i % 2, i % 32, i + 1) for i in range(6, 61)],
                 (3, 62, 63), (6, 5, 0), (6, 0, 0))
LONG = LONG_PLAN, LONG_ACTIONS, LONG_RULE

SELF = plan(1, 1, [(0, 0, 0)])


def set_at(b, at, value):
    return b[:at] + bytes([value]) + b[at + 1:]


def counted(cells, off=0):
    """a table: cells, then how many of them are filled; the count may be off by a number"""
    return bytes(cells) + four(sum(b in (1, 2) for b in cells) + off & 0xffffffff)


K8 = set_at(K, 38, 8)
LEAST_X, GREATEST_X = (sheet_of(K_PLAN, TRUE, rule((kind, 0, 1), (6, 0, 0))) for kind in (7, 8))
LEAST_LOOP, GREATEST_LOOP = (sheet_of(SELF, TRUE, rule((kind, 0, 1), (5, 0, 2), (6, 0, 0)))
                             for kind in (7, 8))


def chain(n):
    """n nodes, one below the other"""
    return [(5, 0, i + 1) for i in range(n - 1)] + [F]


def many(n):
    """n transitions that rise, over 128 states and 16 actions"""
    return [(i // 16, i % 16, 127 - i % 16) for i in range(n)]


def line(states):
    """a chain of states"""
    return plan(states, 1, [(s, 0, s + 1) for s in range(states - 1)])


def deepest(least=True):
    """The sheet on which a query nests deepest. Six binders, one in the other; below them a comb of
    28 "or" whose teeth are padding, then the variables 4 to 0; at its end "some" over variable 5.
    At each state of the chain binder 5 opens, its cells lead down to variable 4, that to binder 4,
    and so on to binder 0, and only below that one is the transition followed. The rule fails at
    every state; with all kinds exchanged for their opposites it holds at every one."""
    binder, pair, padding, modal = (7, 2, F, 4) if least else (8, 3, T, 5)
    teeth = [padding] * 23 + [(6, k, 0) for k in (4, 3, 2, 1, 0)]
    nodes = [(binder, k, k + 1) for k in range(6)]
    for tooth in teeth:
        n = len(nodes)
        nodes += [(pair, n + 1, n + 2), tooth]
    nodes += [(modal, 0, len(nodes) + 1), (6, 5, 0)]
    return sheet_of(line(128), TRUE, rule(*nodes))


def faults():
    """numbers from 1 to 10, each with its place and a sheet that has this fault"""
    yield 1, 0, K[:16]
    yield 2, 0, set_at(K, 1, 2)
    yield 3, 0, K + b'\0'
    yield 4, 0, sheet_of(plan(0, 0, []), TRUE, rule(T))
    yield 5, 1, sheet_of(plan(3, 3, [(0, 1, 1), (0, 1, 1)]), TRUE, rule(T))
    yield 6, 0, sheet_of(K_PLAN, b'', rule(T))
    yield 7, 1, sheet_of(K_PLAN, table((1, 0, 0), (7, 0, 0)), rule(T))
    yield 7, 1, sheet_of(K_PLAN, table((6, 0, 2), (6, 2, 1)), rule(T))
    yield 7, 1, sheet_of(K_PLAN, table((6, 0, 2), (6, 0, 3)), rule(T))
    yield 8, 0, sheet_of(K_PLAN, TRUE, rule())
    yield 9, 1, sheet_of(K_PLAN, TRUE, rule((4, 0, 1), (4, 1, 2), T))
    yield 10, 3, sheet_of(K_PLAN, TRUE, rule((7, 0, 1), (2, 2, 3), T, (6, 1, 0)))


def refusals():
    """sheets with a fault of each number from 1 to 10"""
    return (s for _, _, s in faults())
