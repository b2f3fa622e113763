"""Branches and loops: with the branch, 12 exactly where a loop can be reached from state 0."""
from inputs.branch_parts import not_committed, not_proposed, onward, proposed, refused, small, taken
from inputs.loop_plans import acting, loop_plans
from inputs.parts import GREATEST_LOOP, K, LEAST_LOOP


def put_back():
    """of each plan, each transition taken out and put back: the plan that is had then has a loop
    ahead of state 0 or not, as it is known"""
    for states, pairs, ahead in loop_plans():
        for source, to in pairs:
            others = [pair for pair in pairs if pair != (source, to)]
            s = small(states, 1, acting(others, lambda i: 0))
            if 0 in ahead:
                yield from refused(12, s, (source, 0, to))
            else:
                yield from taken(s, (source, 0, to))


def beside():
    """a second transition where there is one already: an old loop ahead of state 0 counts, others
    don't"""
    for states, pairs, ahead in loop_plans():
        s = small(states, 2, acting(pairs, lambda i: 0))
        for source, to in pairs[:2]:
            if 0 in ahead:
                yield from refused(12, s, (source, 1, to))
            else:
                yield from taken(s, (source, 1, to))


def of_two_states():
    """each plan with each branch: a loop at 0, or a way to 1 and a loop there or a way back"""
    every = [(0, 0, 0), (0, 0, 1), (1, 0, 0), (1, 0, 1)]
    for chosen in range(16):
        old = [t for k, t in enumerate(every) if chosen >> k & 1]
        s = small(2, 1, old)
        for branch in every:
            here, onward_to, back, there = (t in old or t == branch for t in every)
            if branch in old:
                yield from refused(40, s, branch)
            elif here or onward_to and (back or there):
                yield from refused(12, s, branch)
            else:
                yield from taken(s, branch)


def kinds():
    """a loop of one step, of two, of many; one that the branch leads to, over some steps; one that
    it leads from; whatever the actions are"""
    pair = [(3, 0, 4), (4, 1, 3)]
    for old, branch, loops in (
            ([], (0, 0, 0), True), ([], (5, 0, 5), False),
            ([(0, 0, 1)], (1, 2, 0), True), ([(1, 0, 0)], (0, 2, 1), True),
            ([(1, 0, 2)], (2, 1, 1), False), ([(2, 0, 1)], (1, 1, 2), False),
            ([(0, 0, 1), (1, 1, 2), (2, 2, 3), (3, 0, 4)], (4, 1, 0), True),
            ([(0, 0, 1), (1, 1, 2), (2, 2, 3), (3, 0, 4)], (4, 1, 2), True),
            ([(0, 0, 1), (1, 1, 2), (2, 2, 3), (3, 0, 4)], (0, 1, 4), False),
            ([(0, 0, 1), (1, 1, 2), (2, 2, 3), (3, 0, 4)], (5, 1, 0), False),
            (pair, (0, 2, 3), True), (pair, (0, 2, 4), True), (pair, (3, 2, 0), False),
            (pair, (4, 2, 5), False), (pair, (5, 2, 3), False), (pair, (0, 2, 5), False),
            ([(0, 0, 1), (1, 0, 2), *pair], (2, 0, 4), True),
            ([(0, 0, 1), (1, 0, 2), *pair], (1, 0, 5), False),
            ([(0, 0, 5), *pair, (5, 0, 1)], (1, 2, 3), True),
            ([(0, 0, 5), *pair, (5, 0, 1)], (3, 2, 1), False),
            ([(0, 0, 3), *pair], (5, 0, 1), True), ([(0, 0, 3), *pair], (5, 0, 5), True),
            ([(0, 0, 0)], (5, 2, 4), True), ([(0, 0, 1), (1, 0, 1)], (5, 2, 4), True)):
        s = small(6, 3, old)
        if loops:
            yield from refused(12, s, branch)
        else:
            yield from taken(s, branch)


def many_states():
    """over 128 states, all of them in a way: back to the first, to itself, to any on it; onward is
    no loop, and a way that joins it isn't"""
    way = [(s, 0, s + 1) for s in range(127)]
    s = small(128, 2, way)
    for branch in ((127, 0, 0), (127, 1, 127), (127, 0, 126), (64, 1, 64), (64, 1, 63), (1, 1, 0),
                   (0, 1, 0)):
        yield not_proposed(12, s, branch)
    for branch in ((0, 1, 127), (126, 1, 127), (63, 1, 65), (0, 1, 1)):
        yield proposed(s, branch, sorted([*way, branch]))
    down = [(s + 1, 0, s) for s in range(127)]
    s = small(128, 2, down)
    yield not_proposed(12, s, (0, 1, 127))
    yield not_proposed(12, s, (0, 1, 1))
    yield proposed(s, (127, 1, 127), sorted([*down, (127, 1, 127)]))
    yield proposed(s, (1, 1, 127), sorted([*down, (1, 1, 127)]))
    # 127 states in a ring, and a way to it
    ring = [(s, 0, s + 1) for s in range(1, 127)] + [(127, 0, 1)]
    s = small(128, 2, ring)
    yield not_proposed(12, s, (0, 0, 64))
    yield not_proposed(12, s, (0, 1, 127))
    yield not_committed(12, s, (0, 1, 1), size=40)
    yield proposed(s, (64, 1, 0), sorted([*ring, (64, 1, 0)]))
    # a great number of ways, none of them round: each state leads to the next three
    ways = [(s, a, s + 1 + a) for s in range(124) for a in range(3)]
    s = small(128, 4, ways)
    yield proposed(s, (0, 3, 126), sorted([*ways, (0, 3, 126)]))
    yield not_proposed(12, s, (126, 3, 0))
    yield not_proposed(12, s, (3, 3, 2))


def before_others():
    """40 comes before 12, and 12 before 41 and 22"""
    for s in (LEAST_LOOP, GREATEST_LOOP):
        for branch in ((0, 0, 0), (1, 0, 0), (0, 1, 0), (0, 0, 1)):
            yield from refused(40, s, branch)
    looping = small(3, 2, [(0, 0, 0), (0, 0, 1), (1, 0, 2)])
    for branch in ((0, 0, 0), (1, 0, 2), (3, 0, 0), (0, 2, 0), (2, 1, 3)):
        yield from refused(40, looping, branch)
        yield not_committed(40, looping, branch, proposal=(0, 0, 0), size=0)
    yield from refused(12, looping, (2, 1, 2))
    for s, branch in ((looping, (2, 1, 2)), (looping, (1, 1, 2)), (K, (2, 0, 0)), (K, (0, 0, 0))):
        yield not_committed(12, s, branch, proposal=(0, 0, 0))
        yield not_committed(12, s, branch, size=0)
        yield not_committed(12, s, branch, proposal=(65535, 65535, 2 ** 32 - 1), size=5)
    # a branch behind many others that closes a loop, or is out of range
    old = onward(40)
    s = small(128, 17, old)
    yield from refused(12, s, (127, 0, 0), size=30)
    yield from refused(40, s, (128, 0, 0), size=30)
    yield from refused(40, s, (127, 17, 0), size=30)


def with_loops():
    yield from put_back()
    yield from beside()
    yield from of_two_states()
    yield from kinds()
    yield from many_states()
    yield from before_others()
