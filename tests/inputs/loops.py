"""Rules of every shape on plans with loops: requests 3 to 5."""
from inputs.loop_plans import acting, loop_plans
from inputs.parts import (
    F, K_ACTIONS, K_RULE, SELF, T, TRUE, counted, many, plan, rule, set_at, table)
from oracle.protocol import list_request, query_request, reference_request
from oracle.rows import Sheet
from oracle.sheet import sheet_of

# of three actions the third meets neither
FIRST_TWO = table((2, 0, 0), (2, 1, 0))


def guarded_rule(kind):
    """least (7) or greatest (8) X of: some 0 X or some 1 T"""
    return rule((kind, 0, 1), (2, 2, 4), (4, 0, 3), (6, 0, 0), (4, 1, 5), T)


def unguarded_rule(kind):
    """the outer variable stands below its binder with no modal node between"""
    return rule((kind, 0, 1), (15 - kind, 1, 2), (kind - 5, 3, 4), (6, 0, 0), (kind - 3, 0, 5),
                (6, 1, 0))


def modal_rule(kind):
    """two modal nodes without fixed points: "some" first for 7, "every" first for 8"""
    return rule((kind - 3, 0, 1), (12 - kind, 1, 2), (kind - 7, 0, 0))


def small_plans():
    for i, (states, pairs, _) in enumerate(loop_plans()):
        p, kind = plan(states, 3, acting(pairs, lambda k: 2 - k % 3)), 7 + i % 2
        guarded, others = [guarded_rule(7), guarded_rule(8)], (unguarded_rule, modal_rule)
        for r in guarded if i % 3 == 0 else [others[i % 3 - 1](kind)]:
            s = sheet_of(p, FIRST_TWO, r)
            yield reference_request(s)
            yield list_request(s, Sheet(s).table_size(), i, [*reversed(range(states)), states, 0])
    # K's plan with one transition more, at each of its states
    for more in ((0, 0, 0), (1, 0, 0), (1, 0, 1), (2, 0, 2)):
        p = plan(3, 3, sorted([(0, 1, 1), (1, 2, 2), more]))
        for r in (K_RULE, set_at(K_RULE, 1, 8)):
            yield list_request(sheet_of(p, K_ACTIONS, r), 112, 0, [2, 1, 0])
    # each plan of two states
    for chosen in range(16):
        pairs = [(k // 2, k % 2) for k in range(4) if chosen >> k & 1]
        p = plan(2, 3, acting(pairs, lambda k: k % 2))
        s = sheet_of(p, FIRST_TWO, modal_rule(7 + chosen % 2))
        yield list_request(s, 11, 5, [1, 2, 0, 1])


def mixed_lists():
    """States refused by 11 and by 12 among others, in one table. 11 comes before 12, 12 before 20,
    21 and 35, and a refused query changes nothing."""
    mixed = plan(6, 3, [(0, 0, 1), (0, 0, 3), (1, 0, 0), (2, 0, 0), (2, 1, 3), (3, 1, 4), (5, 0, 3),
                        (5, 2, 5)])
    for kind in (7, 8):
        s = sheet_of(mixed, FIRST_TWO, guarded_rule(kind))
        for order in ([3, 0, 6, 4, 255, 2, 5, 3], [0, 3, 6, 4], [6, 5, 4, 3, 2, 1, 0],
                      [4, 128, 1, 3, 3, 1]):
            for size in (75, 79):
                yield list_request(s, size, 3, order)
        # tables from elsewhere: the cells of the states ahead of a loop, or of the others, all of
        # one value; then cells of any value
        for state in (0, 3, 5):
            for looping, others in ((1, 0), (2, 0), (0, 1), (0, 2), (3, 0), (0, 3)):
                values = [others if q in (3, 4) else looping for q in range(6)]
                yield query_request(s, state, counted([v for v in values for _ in range(12)]))
            yield query_request(s, state, counted([k % 7 % 3 for k in range(72)]))
            yield query_request(s, state, counted([k % 5 % 3 if k // 12 in (3, 4) else 1 + k % 2
                                                   for k in range(72)]))
    # on tables too short, with bytes over 2, with a wrong count, and with a byte past the count
    for state in (0, 2, 3, 5, 6):
        for tab in (b'', b'\3' * 75, b'\3' * 76, counted(bytes(72), 1), bytes(76) + b'\3'):
            yield query_request(s, state, tab)


def unseen_actions():
    """loops of actions that no formula looks at, and rules that need not look at any; in the last
    plan several transitions from one state to another, which are no loop"""
    entries = table((2, 0, 0), (2, 1, 0), (0, 0, 0))
    for transitions in ([(0, 2, 0)],
                        [(0, 2, 1), (1, 2, 0), (2, 0, 2)],
                        [(0, 0, 1), (0, 2, 2), (2, 2, 2)],
                        [(0, 0, 1), (1, 2, 2), (2, 0, 1)],
                        [(1, 0, 2), (2, 2, 0), (2, 2, 1)],
                        [(0, 0, 1), (0, 1, 1), (0, 2, 1), (1, 1, 2), (1, 2, 2)]):
        for r in (rule(F), rule((2, 1, 2), T, F), rule((7, 0, 1), (6, 0, 0)),
                  rule((8, 0, 1), (6, 0, 0)), rule((5, 0, 1), F), rule((4, 2, 1), T),
                  rule((3, 1, 2), F, (4, 0, 3), T)):
            s = sheet_of(plan(3, 3, transitions), entries, r)
            yield list_request(s, Sheet(s).table_size(), 255, [0, 1, 2, 3])


def with_other_faults():
    """a loop and a fault of a lower number, and no room for the table"""
    for p, a, r in ((plan(1, 1, [(0, 0, 0)] * 2), TRUE, rule(T)), (SELF, b'', rule(T)),
                    (SELF, table((7, 0, 0)), rule(T)), (SELF, TRUE, rule()),
                    (SELF, TRUE, rule((4, 1, 1), T)), (SELF, TRUE, rule((6, 0, 0)))):
        yield list_request(sheet_of(p, a, r), 0, 3, [0, 1])


def long_ways():
    """128 states: a loop at the end of the longest way, just before it, at its start, about the
    middle; one of 64 states that no other leads to"""
    up, down = [(s, s + 1) for s in range(127)], [(s + 1, s) for s in range(127)]
    half = [(s, s + 1) for s in range(127) if s != 63] + [(127, 64)]
    for pairs in (up + [(127, 127)], up + [(126, 126)], up + [(0, 0)], up + [(64, 63)],
                  down + [(0, 0)], down + [(1, 1)], down + [(127, 127)], half):
        s = sheet_of(plan(128, 1, acting(pairs, lambda k: 0)), TRUE, rule((4, 0, 1), T))
        yield list_request(s, 260, 1, [127, 126, 0, 1, 2, 62, 63, 64, 65, 66, 125, 128])
    # transitions past number 255, and a loop that only the first or the last of sixteen leads to
    for at in (127, 112):
        s = sheet_of(plan(128, 16, many(300) + [(at, 0, at)]), table(), rule(T))
        yield list_request(s, 132, 4, [0, 15, 17, 18, 19, 111, 112, 113, 126, 127])


def with_loops():
    yield from small_plans()
    yield from mixed_lists()
    yield from unseen_actions()
    yield from with_other_faults()
    yield from long_ways()
