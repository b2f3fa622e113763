"""Branches at the limits: states and actions about their numbers, places among the transitions,
transitions that are there already, as many as there may be, faults of the sheet."""
from itertools import product

from inputs.branch_parts import (
    committed, not_committed, not_proposed, onward, proposed, refused, small, taken)
from inputs.parts import (
    K, K_ACTIONS, K_RULE, LONG, LONG_ACTIONS, LONG_RULE, SELF, T, TRUE, faults, many, plan, rule,
    table)
from oracle.sheet import sheet_of


def about_states():
    """from and to: the last state, the next number, the highest byte"""
    for states in (2, 3, 127, 128):
        s, last = small(states, 1, []), states - 1
        yield from taken(s, (0, 0, last))
        yield from taken(s, (last, 0, 0))
        yield from taken(s, (last, 0, last))
        yield from refused(12, s, (0, 0, 0))
        for number in (states, states + 1, states ^ 128, 255):
            if number >= states:
                yield from refused(40, s, (number, 0, 0))
                yield from refused(40, s, (0, 0, number))
                yield from refused(40, s, (number, 0, number))
    one = small(1, 1, [])
    yield from refused(12, one, (0, 0, 0))
    for branch in ((1, 0, 0), (0, 0, 1), (1, 0, 1), (0, 1, 0), (255, 255, 255)):
        yield from refused(40, one, branch)


def about_actions():
    """the last action, the next number, the highest byte; no action at all"""
    for actions in (1, 2, 127, 128, 129, 254, 255):
        s = small(2, actions, [])
        yield from taken(s, (0, actions - 1, 1))
        yield from taken(s, (1, actions - 1, 1))
        for action in sorted({actions, 255}):
            yield from refused(40, s, (0, action, 1))
            yield from refused(40, s, (0, action, 0))
    for states in (1, 2, 128):
        s = small(states, 0, [])
        for branch in ((0, 0, 0), (0, 0, states - 1), (states - 1, 0, 0), (0, 1, 0),
                       (0, 255, states - 1)):
            yield from refused(40, s, branch)
    # more actions than states, and the other way round
    yield from taken(small(3, 5, []), (0, 4, 2))
    yield from refused(40, small(3, 5, []), (4, 0, 2))
    yield from taken(small(5, 3, []), (4, 2, 3))
    yield from refused(40, small(5, 3, []), (0, 4, 2))


def places():
    """each branch of three states among transitions about it; state 0 leads nowhere"""
    for old in ([], [(2, 1, 2)], [(1, 1, 3), (2, 1, 1), (2, 1, 3), (2, 2, 0), (3, 0, 2)],
                [(1, 0, 1), (3, 2, 3)], [(2, 0, 3), (2, 1, 0), (2, 1, 2), (2, 2, 1)]):
        s = small(4, 3, old)
        for branch in product((1, 2, 3), range(3), range(4)):
            if branch in old:
                yield from refused(40, s, branch)
            else:
                yield proposed(s, branch, sorted([*old, branch]))
                if sum(branch) % 2:
                    yield committed(s, branch, sorted([*old, branch]), sum(branch) % 3)


def fields():
    """where one field decides: a branch next to a transition, by one in each field, or by much"""
    old = [(9, 9, 9), (9, 9, 72), (9, 100, 0), (100, 0, 0)]
    s = small(128, 255, old)
    for branch, place in (((8, 254, 127), 0), ((9, 8, 127), 0), ((9, 9, 8), 0), ((9, 9, 10), 1),
                          ((9, 9, 71), 1), ((9, 9, 73), 2), ((9, 10, 0), 2), ((9, 99, 127), 2),
                          ((9, 100, 1), 3), ((9, 254, 127), 3), ((10, 0, 0), 3),
                          ((99, 254, 127), 3), ((100, 0, 1), 4), ((100, 1, 0), 4),
                          ((101, 0, 0), 4), ((127, 254, 127), 4)):
        yield from taken(s, branch, [*old[:place], branch, *old[place:]], place)


def present():
    """at the first place, at the last, between, alone; one next to each is not"""
    for count in (1, 2, 3, 20):
        old = onward(count)
        s = small(128, 17, old)
        for at in sorted({0, 1, count // 2, count - 1}):
            if at < count:
                source, action, to = old[at]
                yield from refused(40, s, old[at])
                beside = source, action, to - 3
                yield proposed(s, beside, [*old[:at], beside, *old[at:]])


def counts():
    """the number of transitions, the plan's length and the offsets past a byte's range, each from
    both sides; places past 255"""
    for count in (76, 77, 78, 79, 80, 82, 83, 84, 160, 163, 164):
        old = onward(count)
        s = sheet_of(plan(128, 17, old), TRUE, rule((4, 0, 1), T))
        yield committed(s, (0, 0, 5), [(0, 0, 5), *old], count % 3)
        yield proposed(s, (124, 16, 5), [*old, (124, 16, 5)])
    for count in (254, 255, 256, 257):
        old = onward(count)
        s = small(128, 17, old)
        yield proposed(s, (0, 0, 5), [(0, 0, 5), *old])
        yield committed(s, (124, 16, 5), [*old, (124, 16, 5)], 1)
    old = onward(300)
    s = small(128, 17, old)
    for at in (254, 255, 256, 257, 299):
        beside = *old[at][:2], 5
        yield proposed(s, beside, [*old[:at], beside, *old[at:]])
    yield not_proposed(40, s, old[255])
    yield not_proposed(40, s, old[256])
    yield not_proposed(40, s, old[299])


def full():
    """2,047 transitions and 2,048, the new sheet as long as a sheet may be"""
    old, first, last = onward(2048), (0, 0, 5), (124, 16, 5)
    s = sheet_of(plan(128, 255, old[:-1]), LONG_ACTIONS, LONG_RULE)
    assert len(s) == 6452
    yield proposed(s, first, [first, *old[:-1]])
    yield committed(s, last, [*old[:-1], last])
    yield not_committed(22, s, first, size=20)
    s = small(128, 255, old)
    yield not_proposed(40, s, last)
    yield not_committed(40, s, first, size=20)
    yield not_proposed(40, s, old[2047])
    # full, and a loop would be closed; full, with a loop; out of range, with a loop
    yield not_proposed(40, s, (127, 0, 0))
    yield not_proposed(40, sheet_of(*LONG), (0, 1, 127))
    # one less, with a loop of its own
    yield not_proposed(12, small(128, 255, sorted([*old[:-2], (127, 0, 127)])), last)


def longest_branches():
    """the longest sheet but one transition, with a branch at every 128th place, and with no room
    by a byte; the longest sheet"""
    old = onward(2047)
    s = sheet_of(plan(128, 255, old), LONG_ACTIONS, LONG_RULE)
    for at in range(0, 2047, 128):
        branch = *old[at][:2], 5
        yield committed(s, branch, [*old[:at], branch, *old[at:]], at % 3)
        yield not_committed(22, s, branch, size=6454)
        yield from refused(40, s, old[at])
    for branch in ((0, 0, 5), (127, 0, 0), (127, 254, 126), (128, 0, 0)):
        yield from refused(40, sheet_of(*LONG), branch)
        yield from refused(40, small(128, 255, onward(2048)), branch)


def faulty():
    """a fault of the sheet comes first, with its place, whatever is wrong with the branch, the
    proposal and the output"""
    for number, place, s in faults():
        yield from refused(number, s, (0, 2, 2), place)
        yield from refused(number, s, (255, 255, 255), place, 0)
        yield from refused(number, s, (0, 1, 1), place, 9)
        yield from refused(number, s, (0, 0, 0), place, 90)
        yield not_committed(number, s, (0, 2, 2), place, (0, 0, 0), 0)
    for s, number in ((b'', 1), (K[:1], 1), (K[:73], 3), (K[:40], 3)):
        yield from refused(number, s, (0, 2, 2))
    transitions = many(301)
    s = sheet_of(plan(128, 16, [*transitions, transitions[-1]]), TRUE, rule(T))
    yield from refused(5, s, (0, 2, 2), 301, 9)
    # behind a plan with a loop
    for number, a, r in ((6, b'', rule(T)), (7, table((7, 0, 0)), rule(T)), (8, TRUE, rule()),
                         (9, TRUE, rule((4, 1, 1), T)), (10, TRUE, rule((6, 0, 0)))):
        yield from refused(number, sheet_of(SELF, a, r), (0, 0, 0))


def bodies():
    """the action formulas and the rule stay as they are, whatever they hold"""
    for a, r in ((TRUE, rule(T)), (K_ACTIONS, K_RULE), (LONG_ACTIONS, rule(T)),
                 (b'\0', rule((3, 1, 2), T, T)), (LONG_ACTIONS, LONG_RULE)):
        s = sheet_of(plan(3, 255, [(0, 1, 1), (1, 2, 2)]), a, r)
        yield from taken(s, (0, 2, 1), [(0, 1, 1), (0, 2, 1), (1, 2, 2)])
        yield from taken(s, (1, 254, 2), [(0, 1, 1), (1, 2, 2), (1, 254, 2)], 3, 0)


def at_limits():
    yield from about_states()
    yield from about_actions()
    yield from places()
    yield from fields()
    yield from present()
    yield from counts()
    yield from full()
    yield from faulty()
    yield from bodies()
