"""Recorded runs of a machine: the shortest beginning, of either of two recordings, on which the
rule fails."""
from oracle.rows import Sheet
from oracle.sheet import Refused

MOST_ACTIONS = 127


class Chain:
    """The plan of a run: action i leads from state i to state i + 1. A set of states is a number
    with bit s set for state s."""

    def __init__(self, sheet, run):
        self.nodes, self.every = sheet.nodes, (1 << len(run) + 1) - 1
        # of each entry the states that an action leaves which meets it
        self.left = [sum(1 << i for i, action in enumerate(run) if action in met)
                     for met in sheet.formulas]

    def meaning(self, n, context):
        """by Table 1 the states at which a node holds, the variables standing for the sets of the
        context"""
        kind, x, y = self.nodes[n]
        if kind in (0, 1):
            return self.every if kind == 1 else 0
        if kind == 2:
            return self.meaning(x, context) | self.meaning(y, context)
        if kind == 3:
            return self.meaning(x, context) & self.meaning(y, context)
        if kind in (4, 5):
            before = self.meaning(y, context) >> 1      # the states that lead into the meaning
            return self.left[x] & before if kind == 4 else self.every & ~self.left[x] | before
        if kind == 6:
            return context[x]
        now = 0 if kind == 7 else self.every
        while True:
            then = self.meaning(y, {**context, x: now})
            if then == now:
                return now
            now = then


def holds(sheet, run):
    return Chain(sheet, run).meaning(0, {}) & 1 == 1


def shortest(s, first, second):
    """which recording, and its beginning in hexadecimal digits"""
    sheet, runs = Sheet(s), {'first': first, 'second': second}
    if any(len(run) > MOST_ACTIONS for run in runs.values()):
        raise Refused(42)
    if any(action >= sheet.actions for run in runs.values() for action in run):
        raise Refused(43)
    beginnings = [(which, run[:n]) for which, run in runs.items() for n in range(len(run) + 1)]
    # those of one length stay in their order
    for which, run in sorted(beginnings, key=lambda found: len(found[1])):
        if not holds(sheet, run):
            return which, run.hex()
    return 'none', ''
