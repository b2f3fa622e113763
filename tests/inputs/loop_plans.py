"""Plans with loops, and which of their states a loop can be reached from."""
from inputs.parts import K_ACTIONS, K_RULE, T, counted, plan, rule, table
from oracle.protocol import list_request
from oracle.sheet import sheet_of


def loop_plans():
    """plans, most of them with loops: how many states, the transitions as from and to, and the
    states from which a loop can be reached, found by hand"""
    # of one and two states: a loop here, elsewhere, ahead, behind
    yield 1, [], []
    yield 1, [(0, 0)], [0]
    yield 2, [(1, 1)], [1]
    yield 2, [(0, 0)], [0]
    yield 2, [(0, 1), (1, 1)], [0, 1]
    yield 2, [(0, 0), (1, 0)], [0, 1]
    yield 2, [(0, 0), (0, 1)], [0]
    yield 2, [(1, 0), (1, 1)], [1]
    yield 2, [(0, 1), (1, 0)], [0, 1]
    yield 2, [(0, 0), (1, 1)], [0, 1]
    # a loop of two states: on its own, with a way to it, with a way from it, with both
    yield 4, [(0, 3), (1, 2), (2, 1)], [1, 2]
    yield 4, [(0, 1), (1, 2), (2, 1)], [0, 1, 2]
    yield 4, [(1, 2), (1, 3), (2, 0), (2, 1)], [1, 2]
    yield 4, [(0, 1), (1, 2), (2, 1), (2, 3)], [0, 1, 2]
    yield 4, [(3, 2), (2, 1), (1, 2), (1, 0)], [1, 2, 3]
    # of all states; of all but one; with the way back missing
    yield 5, [(0, 1), (1, 2), (2, 3), (3, 4), (4, 0)], [0, 1, 2, 3, 4]
    yield 5, [(0, 4), (4, 3), (3, 2), (2, 0), (2, 1)], [0, 2, 3, 4]
    yield 5, [(0, 1), (1, 2), (2, 3), (3, 4), (0, 4)], []
    yield 5, [(4, 3), (3, 2), (2, 1), (1, 0), (4, 0)], []
    # several ways to the same state are no loop; with one at their end, at their start, on one side
    two_ways, two_back = [(0, 1), (0, 2), (1, 3), (2, 3)], [(3, 1), (3, 2), (1, 0), (2, 0)]
    yield 4, two_ways, []
    yield 4, two_back, []
    yield 4, two_ways + [(3, 3)], [0, 1, 2, 3]
    yield 4, two_ways + [(0, 0)], [0]
    yield 4, two_ways + [(1, 1)], [0, 1]
    yield 4, two_back + [(2, 2)], [2, 3]
    yield 4, two_ways + [(3, 0)], [0, 1, 2, 3]
    yield 4, two_ways + [(2, 0)], [0, 2]
    yield 4, [(0, 1), (0, 2), (0, 3), (1, 2), (1, 3), (2, 3)], []
    # of a state's transitions only the first, the last or one in the middle leads to a loop
    yield 6, [(0, 1), (0, 2), (0, 3), (1, 4), (4, 1)], [0, 1, 4]
    yield 6, [(0, 1), (0, 2), (0, 3), (3, 4), (4, 3)], [0, 3, 4]
    yield 6, [(0, 1), (0, 2), (0, 3), (1, 5), (2, 4), (4, 4)], [0, 2, 4]
    yield 6, [(5, 0), (5, 1), (5, 3), (1, 0), (3, 4), (4, 4)], [3, 4, 5]
    # two loops: apart, one behind the other, a state between them, a state in both
    yield 5, [(0, 0), (1, 2), (3, 3)], [0, 3]
    yield 5, [(0, 1), (1, 0), (3, 4), (4, 3)], [0, 1, 3, 4]
    yield 4, [(0, 0), (0, 1), (1, 1), (1, 2), (2, 3)], [0, 1]
    yield 4, [(0, 0), (0, 1), (1, 2), (2, 2), (2, 3)], [0, 1, 2]
    yield 5, [(1, 2), (2, 1), (2, 3), (3, 2), (0, 4)], [1, 2, 3]
    # many steps ahead, and as many behind, with the states rising and falling
    up, down = [(s, s + 1) for s in range(7)], [(s + 1, s) for s in range(7)]
    yield 8, up + [(7, 7)], range(8)
    yield 8, up + [(0, 0)], [0]
    yield 8, up + [(3, 3)], range(4)
    yield 8, up + [(5, 3)], range(6)
    yield 8, down + [(0, 0)], range(8)
    yield 8, down + [(7, 7)], [7]
    yield 8, down + [(4, 4)], [4, 5, 6, 7]
    yield 8, down + [(2, 4)], range(2, 8)
    yield 8, [(2, 6), (6, 1), (1, 4), (4, 2), (4, 0), (3, 5), (5, 7)], [1, 2, 4, 6]
    yield 8, [(0, 7), (7, 1), (1, 6), (6, 2), (2, 5), (5, 3), (3, 4), (4, 6)], range(8)


def acting(pairs, action):
    """transitions from pairs, the action of each by its place"""
    return sorted((source, action(i), to) for i, (source, to) in enumerate(pairs))


def loops_to_try():
    """plans with loops, each with all that a list of every state must give"""
    for states, pairs, refused in loop_plans():
        s = sheet_of(plan(states, 1, acting(pairs, lambda i: 0)), table(), rule(T))
        given = ''.join('query 12 0 false 0|' if q in refused else 'query 0 0 true 1|'
                        for q in range(states))
        left = [0 if q in refused else 2 for q in range(states)]
        yield list_request(s, states + 5, 9, range(states + 1)), (
            'clear 0 0|%squery 11 0 false 0|table %s09|' % (given, counted(left).hex()))
    # K with loops that its states do not lead to gives what K gives
    for more in ([(3, 0, 3)], [(3, 0, 4), (4, 2, 3)], [(3, 1, 0), (3, 2, 3), (4, 0, 3)]):
        s = sheet_of(plan(5, 3, [(0, 1, 1), (1, 2, 2)] + more), K_ACTIONS, K_RULE)
        last = 'query 0 0 false 9|' if len(more) == 1 else 'query 12 0 false 0|'
        yield list_request(s, 184, 4, [0, 1, 3, 2, 4, 5]), (
            'clear 0 0|query 0 0 true 17|query 0 0 true 0|query 12 0 false 0|query 0 0 false 9|'
            + last + 'query 11 0 false 0|')
