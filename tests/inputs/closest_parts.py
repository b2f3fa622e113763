"""Sheets and requests that the cases of the closest state are made of."""
from inputs.allowance_parts import cleared
from inputs.loop_plans import acting
from inputs.parts import F, T, TRUE, plan, rule, table
from oracle.protocol import closest_request
from oracle.rows import query
from oracle.sheet import sheet_of


def ended(states, pairs):
    """The rule, "some action can be done", fails at the states that no transition leaves."""
    return sheet_of(plan(states, 1, acting(pairs, lambda i: 0)), TRUE, rule((4, 0, 1), T))


def barred(states, transitions, bad):
    """The rule, "no action 2 can be done", fails at the bad states: from each of them action 2
    leads to one state more."""
    more = [(state, 2, states) for state in bad]
    return sheet_of(plan(states + 1, 3, sorted([*transitions, *more])), table((2, 2, 0)),
                    rule((5, 0, 1), F))


def given(s, tab, answer, visits, left):
    """a call with all that it must give: its answer is a state and the steps to it, or None where
    the rule holds everywhere"""
    found = 'false 0 0' if answer is None else 'true %d %d' % answer
    return closest_request(s, tab), (
        'closest 0 0 %s %d|table %s|' % (found, visits, left.hex()))


def refused(number, s, tab, place=0):
    return closest_request(s, tab), (
        'closest %d %d false 0 0 0|table %s|' % (number, place, tab.hex()))


def looked_at(s, tab, states, steps):
    """a call with the states that it must look at, in their order; steps to the last of them, where
    the rule fails there and nowhere before, or None. What they leave is by queries, one after the
    other on the one table."""
    left = bytearray(tab)
    verdicts, visits = zip(*(query(s, state, left) for state in states))
    assert [*verdicts] == [True] * (len(states) - 1) + [steps is None], (verdicts, steps)
    return given(s, tab, None if steps is None else (states[-1], steps), sum(visits), left)


def fails(s, states, steps, tab=None):
    """on a table just cleared, unless one is given"""
    return looked_at(s, cleared(s) if tab is None else tab, states, steps)


def holds(s, states, tab=None):
    return looked_at(s, cleared(s) if tab is None else tab, states, None)


def by_levels(s, tab, *levels):
    """a call with the reachable states, those of each number of steps; where the rule fails first
    is by queries"""
    left, visits = bytearray(tab), 0
    for steps, level in enumerate(levels):
        for state in sorted(level):
            verdict, filled = query(s, state, left)
            visits += filled
            if not verdict:
                return given(s, tab, (state, steps), visits, left)
    return given(s, tab, None, visits, left)


def levels_of(pairs):
    """by all ways from state 0, of which there are few, the states that those of each length are
    the first to end at"""
    ways, levels, seen = [(0,)], [], set()
    while ways:
        levels.append({way[-1] for way in ways} - seen)
        seen |= levels[-1]
        ways = [(*way, to) for way in ways for source, to in pairs if source == way[-1]]
    return levels
