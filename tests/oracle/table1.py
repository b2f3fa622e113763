"""The rule's meaning by Table 1 and the guard check by Definition 2, of document 000."""
from oracle.rows import Sheet
from oracle.sheet import Refused


def guarded(s):
    nodes = Sheet(s).nodes

    def g(n, variables):
        kind, x, y = nodes[n]
        if kind in (2, 3):
            return g(x, variables) and g(y, variables)
        if kind in (4, 5):
            return g(y, frozenset())
        if kind == 6:
            return x not in variables
        if kind in (7, 8):
            return g(y, variables | {x})
        return True

    return g(0, frozenset())


def meaning(sheet, n, context):
    """the states at which a node holds, the variables standing for the sets of the context"""
    kind, x, y = sheet.nodes[n]
    every = frozenset(range(sheet.states))
    if kind in (0, 1):
        return every if kind == 1 else frozenset()
    if kind == 2:
        return meaning(sheet, x, context) | meaning(sheet, y, context)
    if kind == 3:
        return meaning(sheet, x, context) & meaning(sheet, y, context)
    if kind in (4, 5):
        below, met = meaning(sheet, y, context), sheet.formulas[x]
        hits = [[to in below for action, to in sheet.after[s] if action in met] for s in every]
        return frozenset(s for s in every if (any if kind == 4 else all)(hits[s]))
    if kind == 6:
        return context[x]
    now = frozenset() if kind == 7 else every
    while True:
        then = meaning(sheet, y, {**context, x: now})
        if then == now:
            return now
        now = then


def reference(s):
    sheet = Sheet(s)
    if sheet.states > 64:
        raise Refused(13)
    return sum(1 << state for state in meaning(sheet, 0, {}))
