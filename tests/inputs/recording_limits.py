"""Recordings at the limits: their lengths, their actions, faults of the sheet, beginnings from none
of the actions to all of them, the largest plans and rules."""
from inputs.parts import (
    F, K, LONG, LONG_PLAN, SELF, T, TRUE, faults, many, plan, rule, table)
from inputs.recording_parts import (
    ANY, DEEP, DEEP_ONLY, DEEP_UNTIL, ENTRIES, NEVER, UNTIL_0, always, by_pattern, every, found,
    none, refused, repeated, sheet, some)
from oracle.sheet import sheet_of

ALL, NO = sheet(T), sheet(F)


def lengths():
    """127 actions and 128, of either recording and of both; where a byte would count anew"""
    for n in (0, 1, 2, 63, 64, 126, 127):
        one, other = b'\1' * n, b'\2' * (n // 2)
        yield none(ALL, one, other)
        yield none(ALL, other, one)
        yield found(NO, one, one, 'first', 0)
    for i, n in enumerate((128, 129, 130, 255, 256, 257, 300, 383, 384, 1000)):
        s, one = (ALL, NO, UNTIL_0)[i % 3], b'\1' * n
        yield refused(42, s, one, b'')
        yield refused(42, s, b'\1', one)
        yield refused(42, s, one, one)
    yield refused(42, UNTIL_0, b'\0' * 128, b'\0')
    yield refused(42, UNTIL_0, b'\0', b'\0' * 128)


def numbers():
    """the last action, the next number, the highest byte, at each end of either recording; no
    action at all"""
    for actions in (1, 2, 128, 255):
        for tree, pattern in ((T, '.*'), (F, NEVER)):
            s, last = sheet(tree, plan(1, actions, []), TRUE), bytes([actions - 1])
            for one, other in ((last, b''), (b'', last), (last * 3, b'\0' + last), (last, last)):
                yield by_pattern(s, pattern, one, other)
            for wrong in sorted({bytes([actions]), b'\xff'}):
                for bad in (wrong, b'\0' + wrong, wrong + b'\0', last + wrong + last):
                    yield refused(43, s, bad, b'')
                    yield refused(43, s, b'\0', bad)
                yield refused(43, s, wrong, wrong)
    for tree, pattern in ((T, '.*'), (F, NEVER), (some(ANY, T), NEVER), (always(every(0, F)), '')):
        s = sheet(tree, plan(3, 0, []), table((0, 0, 0), *[(1, 0, 0)] * 3))
        yield by_pattern(s, pattern, b'', b'')
        for wrong in (b'\0', b'\1', b'\xfe', b'\xff'):
            yield refused(43, s, wrong, b'')
            yield refused(43, s, b'', wrong)


def orders():
    """42 comes before 43, and both before a beginning that fails, wherever the fault stands"""
    for s in (ALL, NO, UNTIL_0, sheet(every(ANY, F))):
        for one, other, number in ((b'\4' * 128, b'', 42), (b'\4', b'\1' * 128, 42),
                                   (b'\1' * 128, b'\4', 42), (b'', b'\1' * 127 + b'\4', 42),
                                   (b'\4' + b'\1' * 127, b'\4', 42), (b'\1' * 126 + b'\4', b'', 43),
                                   (b'', b'\1' * 126 + b'\4', 43), (b'\0\0\4', b'\0', 43),
                                   (b'\0', b'\0\0\4', 43), (b'\4\0', b'\xff', 43)):
            yield refused(number, s, one, other)
    # no action is one of the sheet's
    s = sheet(T, plan(1, 0, []), table())
    yield refused(42, s, b'\0' * 128, b'')
    yield refused(43, s, b'', b'\0' * 127)


def faulty():
    """a fault of the sheet comes first, with its place, whatever is wrong with the recordings"""
    for number, place, s in faults():
        for one, other in ((b'', b''), (b'\0\1', b'\2'), (b'\1' * 128, b''), (b'\1', b'\1' * 300),
                           (b'\3', b'\0'), (b'\0', b'\xff'), (b'\xff' * 128, b'\xff' * 128)):
            yield refused(number, s, one, other, place)
    for s, number in ((b'', 1), (K[:1], 1), (K[:73], 3), (K[:40], 3), (K + b'\0', 3)):
        yield refused(number, s, b'\1\2', b'\2')
    transitions = many(301)
    s = sheet_of(plan(128, 16, [*transitions, transitions[-1]]), TRUE, rule(T))
    yield refused(5, s, b'\1', b'\xff', 301)
    # behind a plan with a loop; in a plan that a chain takes the place of
    for number, a, r in ((6, b'', rule(T)), (7, table((7, 0, 0)), rule(T)), (8, TRUE, rule()),
                         (9, TRUE, rule((4, 1, 1), T)), (10, TRUE, rule((6, 0, 0)))):
        yield refused(number, sheet_of(SELF, a, r), b'\0', b'\0')
    for states in (0, 129, 255):
        yield refused(4, sheet_of(plan(states, 4, []), ENTRIES, rule(T)), b'\1', b'\1')
    yield refused(5, sheet_of(plan(1, 4, [(0, 0, 1)]), ENTRIES, rule(T)), b'\0', b'\0')


def beginnings():
    """the rule fails from the n-th action on, in one recording or in both; the other ends before,
    or it fails there an action earlier or later"""
    for n in (1, 2, 3, 62, 63, 64, 65, 126, 127):
        one = b'\1' * (n - 1) + b'\0'
        for rest in dict.fromkeys((b'', b'\2' * min(5, 127 - n), b'\2' * (127 - n))):
            bad, good = one + rest, b'\3' * (n + len(rest))
            yield found(UNTIL_0, bad, good, 'first', n)
            yield found(UNTIL_0, good, bad, 'second', n)
            yield found(UNTIL_0, bad, one, 'first', n)
            yield found(UNTIL_0, one, bad, 'first', n)
            yield found(UNTIL_0, bad, b'', 'first', n)
            yield found(UNTIL_0, b'\1' * (n - 1), bad, 'second', n)
            if n > 1:
                yield found(UNTIL_0, bad, one[1:], 'second', n - 1)
                yield found(UNTIL_0, one[1:] + b'\0', bad, 'first', n - 1)


def plans():
    """the sheet's own plan tells the number of actions and no more: one state, loops, 2,048
    transitions"""
    for p in (plan(1, 4, []), plan(128, 4, []), plan(1, 4, [(0, a, 0) for a in range(4)]),
              plan(3, 4, [(1, 0, 2), (2, 1, 1)]), plan(128, 16, many(300)), LONG_PLAN):
        s = sheet(always(every(0, F)), p)
        for one, other in ((b'', b''), (b'\0', b''), (b'\1\2\0', b'\1\2'), (b'\1\2', b'\3\3\0'),
                           (b'\1\2\3', b'\3\2\1\3')):
            yield by_pattern(s, '[^a]*', one, other)
    # "not" is taken among its actions
    for actions in (4, 5, 200, 255):
        s = sheet(always(every(1, F)), plan(1, actions, []),
                  table((2, 1, 0), (5, 0, 0), (1, 0, 0), (1, 0, 0)))
        yield found(s, b'\1\1\2', bytes([1, actions - 1]), 'second', 2)
        yield found(s, b'\1\1', bytes([1, 1, 1, actions - 2]), 'second', 4)


def actions():
    """each action but the last once, in two recordings of 127; rules that hold until one of a
    stretch comes"""
    low, high = bytes(range(127)), bytes(range(127, 254))
    for x, y in ((0, 0), (1, 1), (63, 64), (64, 64), (126, 126), (127, 127), (128, 128), (126, 127),
                 (191, 192), (253, 253), (254, 254), (0, 254), (0, 126), (127, 254), (100, 226)):
        s = sheet(always(every(0, F)), plan(1, 255, []), table((6, x, y), *[(1, 0, 0)] * 3))
        pattern = '[^\\u%04x-\\u%04x]*' % (97 + x, 97 + y)
        yield by_pattern(s, pattern, low, high)
        yield by_pattern(s, pattern, high, low)
        yield by_pattern(s, pattern, low[:x], high[:-1] + b'\xfe')
        yield refused(43, s, low, high[:-1] + b'\xff')


def largest():
    """the longest sheet, whose rule asks for an action; rules of 64 nodes; the deepest ones on runs
    of 127 actions"""
    s = sheet_of(*LONG)
    for one, other in ((b'', b''), (b'\0\1', b'\2'), (b'\xfe' * 127, bytes(range(127)))):
        yield found(s, one, other, 'first', 0)
    s = sheet(repeated(every, 63, F))
    for n, m in ((62, 62), (63, 62), (62, 63), (127, 62), (0, 127), (127, 127), (64, 63)):
        yield by_pattern(s, '.{0,62}', b'\1' * n, b'\2' * m)
    yield found(sheet(repeated(some, 63, T)), b'\1' * 127, b'\2' * 127, 'first', 0)
    zeros, others = b'\0' * 127, b'\2' * 127
    yield none(sheet(DEEP), zeros, others)
    for bad in (zeros[1:] + b'\1', zeros[2:] + b'\1'):
        yield found(sheet(DEEP_UNTIL), bad, zeros, 'first', len(bad))
        yield found(sheet(DEEP_UNTIL), others, bad, 'second', len(bad))
    yield found(sheet(DEEP_ONLY), zeros[1:] + b'\2', b'\0', 'first', 127)


def at_limits():
    yield from lengths()
    yield from numbers()
    yield from orders()
    yield from faulty()
    yield from beginnings()
    yield from plans()
    yield from actions()
    yield from largest()
