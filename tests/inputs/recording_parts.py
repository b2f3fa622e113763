"""Rules about runs, each with what it says of them, and requests that the cases are made of."""
import re

from inputs.parts import F, T, plan, rule, table
from oracle.protocol import shortest_request
from oracle.sheet import bodies_at, read_sheet, sheet_of

# a plan of four actions that loops, and entries: actions 0, 1 and 2; any; not 0; not 1; from 1 to
# 2; the others; none
ROUND = plan(2, 4, [(0, 0, 1), (1, 2, 1), (1, 3, 0)])
ENTRIES = table((2, 0, 0), (2, 1, 0), (2, 2, 0), (1, 0, 0), (5, 0, 0), (5, 1, 0), (6, 1, 2),
                (5, 6, 0), (0, 0, 0))
ANY, NOT_0, NOT_1, MIDDLE, OUTER, NONE = range(3, 9)


# rules as trees; a variable is its name, one name for each binder
def either(first, second):
    return 2, first, second


def both(first, second):
    return 3, first, second


def some(entry, child):
    return 4, entry, child


def every(entry, child):
    return 5, entry, child


def least(name, child):
    return 7, name, child


def greatest(name, child):
    return 8, name, child


def rule_of(tree):
    """nodes in preorder, binders numbered as they come"""
    nodes, binders = [], []

    def put(tree):
        at = len(nodes)
        nodes.append(None)
        if isinstance(tree, str):
            nodes[at] = 6, binders.index(tree), 0
            return
        kind, x, y = tree
        if kind in (7, 8):
            binders.append(x)
            x = len(binders) - 1
        if kind in (2, 3):
            put(x)
            x, second = at + 1, len(nodes)
            put(y)
            y = second
        elif kind > 3:
            put(y)
            y = at + 1
        nodes[at] = kind, x, y

    put(tree)
    return rule(*nodes)


def sheet(tree, p=ROUND, a=ENTRIES):
    return sheet_of(p, a, rule_of(tree))


def as_sheet(s, run):
    """the plan of a sheet exchanged for the chain of a run"""
    p, a, r = bodies_at(s, read_sheet(s))
    return sheet_of(plan(len(run) + 1, p[1], [(i, x, i + 1) for i, x in enumerate(run)]), a, r)


def always(part, name='X'):
    """at each place of a run"""
    return greatest(name, both(part, every(ANY, name)))


def sometime(part, name='X'):
    return least(name, either(part, some(ANY, name)))


def repeated(modal, count, child):
    return modal(ANY, repeated(modal, count - 1, child)) if count else child


END = every(ANY, F)
UNTIL_0 = sheet(always(every(0, F)))    # a sheet whose rule holds until an action 0 comes
NEVER = '(?!)'                          # an expression that says nothing of any run


def said(pattern, run):
    """whether a regular expression says it of a run, whose actions are letters from a on"""
    return re.fullmatch(pattern, ''.join(chr(97 + action) for action in run), re.S) is not None


def found(s, first, second, which, n):
    """the beginning of n actions of a recording, or `none`"""
    part = {'first': first, 'second': second, 'none': b''}[which][:n]
    return shortest_request(s, first, second), 'shortest 0 0 %s %s|' % (which, bytes(part).hex())


def none(s, first, second):
    return found(s, first, second, 'none', 0)


def refused(number, s, first, second, place=0):
    return shortest_request(s, first, second), 'shortest %d %d none |' % (number, place)


def failing(pattern, run):
    """how many actions the shortest beginning has of which it is not said; none or a number"""
    return next((n for n in range(len(run) + 1) if not said(pattern, run[:n])), None)


def by_pattern(s, pattern, first, second):
    """what is right for a rule that holds of the runs that a regular expression says"""
    n, m = failing(pattern, first), failing(pattern, second)
    if n is None and m is None:
        return none(s, first, second)
    if m is None or n is not None and n <= m:
        return found(s, first, second, 'first', n)
    return found(s, first, second, 'second', m)


def comb(node, teeth, last):
    """a pair for each tooth, the next one as its second child"""
    return node(teeth[0], comb(node, teeth[1:], last)) if teeth else last


def deep(binder, node, padding, last):
    """the rule on which a query nests deepest (inputs/parts.py), with other nodes: of six binders
    the innermost opens at each state, its cells lead down to variable 4, and so on to binder 0"""
    tree = comb(node, [*padding, *'43210'], last)
    for name in '543210':
        tree = binder(name, tree)
    return tree


# 64 nodes: it holds of each run; 63: it holds until an action 1 comes; as long as there is only 0
DEEP = deep(greatest, both, [T] * 23, every(ANY, '5'))
DEEP_UNTIL = deep(greatest, both, [T] * 21 + [every(1, F)], every(ANY, '5'))
DEEP_ONLY = deep(least, either, [F] * 21 + [END], some(0, '5'))
