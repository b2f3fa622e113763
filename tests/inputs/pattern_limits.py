"""Refusals of patterns: malformed ones, too large ones, in which order, and outputs."""
from inputs.parts import K, T, TRUE, chain, line, plan, refusals, rule, table
from inputs.pattern_parts import (
    A0, A1, A2, BINDER, EVERY, NESTED, ONE_NODE, SOME, TWO_NODES, action, body_of, choice, fitting,
    left_sequence, repetition, sequence)
from oracle.protocol import pattern_request
from oracle.sheet import sheet_of


def malformed():
    """for three action entries"""
    yield b''
    for lead in range(5):
        yield bytes([lead])
        yield bytes([lead]) + A0        # 0 and 1 are right
    yield b'\xff' + A0
    # unknown bytes, alone and in each place of a part
    for b in (4, 5, 128, 255):
        yield SOME + bytes([b])
        yield EVERY + bytes([b]) + A0
        yield SOME + sequence(A0, bytes([b]))
        yield SOME + repetition(bytes([b, 0]))
    # entries about the count
    for entry in (0, 2, 3, 4, 31, 32, 255):
        yield SOME + action(entry)
        yield EVERY + sequence(A0, action(entry))
        yield SOME + choice(action(entry), A0)
    # cut short: an operator without its parts, an action without its entry
    whole = SOME + sequence(choice(A1, repetition(A0)), repetition(A2))
    for n in range(1, len(whole)):
        yield whole[:n]
    yield EVERY + b'\0\1\0'
    # bytes left over, good ones and others
    for more in (b'\0', b'\1', b'\3', b'\4', A0, repetition(A1), b'\0\3'):
        yield SOME + A0 + more
        yield EVERY + sequence(A0, A1) + more
        yield whole + more


def counting():
    """as many parts as the operators ask for, one less, one more, where a byte would count anew"""
    for n in (63, 255, 256):
        for parts in (n, n + 1, n + 2):
            yield SOME + b'\1' * n + A0 * parts
        yield EVERY + b'\2' * n
        yield EVERY + b'\2' * n + A0


def at_limits():
    """sheets with patterns that make 64 nodes or 6 binders, or one more"""
    for n in (62, 63, 64):
        yield ONE_NODE, SOME + sequence(*([A0, A1, A2] * 22)[:n])
    for n in (62, 63):
        yield TWO_NODES, EVERY + left_sequence(*[A1] * n)
    # the rule has 63, 64 nodes already; 6 binders
    for n in (63, 64):
        yield sheet_of(line(2), TRUE, rule(*chain(n))), SOME + A0
    for binders in (5, 6):
        full = [(7 + k % 2, k, k + 1) for k in range(binders)] + [(6, binders - 1, 0)]
        s = sheet_of(line(2), TRUE, rule(*full))
        yield s, EVERY + A0
        yield s, EVERY + repetition(A0)
        yield s, SOME + choice(A0, A0)
    # sixteen copies, of one node and of two, and 21 copies, with actions in front
    doubled, added = [choice(A0, A1)] * 4, b'\2' * 20 + A0 * 21
    for n in (2, 3, 4):
        yield ONE_NODE, SOME + sequence(*[A2] * n, *doubled)
        yield ONE_NODE, EVERY + left_sequence(*[A2] * (n - 1), added)
    yield ONE_NODE, EVERY + left_sequence(*doubled, A2)
    yield TWO_NODES, EVERY + left_sequence(*doubled)
    # nested repetitions, in sequence, side by side; the rule's own binders besides
    for n in (5, 6, 7):
        yield ONE_NODE, EVERY + repetition(A1, n)
        yield ONE_NODE, SOME + sequence(*[repetition(A0)] * n)
        yield ONE_NODE, EVERY + b'\2' * (n - 1) + repetition(A2) * n
        yield BINDER, SOME + repetition(A0, n - 1)
        yield BINDER, SOME + b'\2' * (n - 1) + A1 * n
    for copies in (2, 3, 4):
        yield K, SOME + b'\2' * (copies - 1) + A1 * copies
        yield NESTED, EVERY + sequence(choice(A0, A1), repetition(A2, copies - 1))
    # 64 nodes and 6 binders; one node more; one binder more
    yield ONE_NODE, SOME + sequence(*[A0] * 44, repetition(A1, 6))
    yield ONE_NODE, SOME + sequence(*[A0] * 45, repetition(A1, 6))
    yield ONE_NODE, SOME + sequence(*[A0] * 41, repetition(A1, 7))
    # a repetition copies nothing of what follows it
    for n in (6, 7):
        yield ONE_NODE, EVERY + sequence(*[repetition(choice(A0, A1))] * n)


def copying():
    """Copies that double with each choice of a sequence, so that counts of 8, 16, 32 or 64 bits
    come to their end: n + 2 choices make 2 ^ (n + 2) copies, 67 actions before n choices 64 nodes
    and 2 ^ (n + 2) more."""
    for n in (6, 14, 30, 62):
        yield SOME + sequence(*[choice(A0, A1)] * (n + 2))
        yield EVERY + left_sequence(*[choice(A0, A1)] * (n + 2))
        yield SOME + sequence(*[A2] * 67, *[choice(A0, A1)] * n)
    yield SOME + sequence(*[choice(A0, A1)] * 40)
    yield EVERY + repetition(sequence(*[choice(A0, A1)] * 40))
    # choices in choices, which add and do not double
    yield SOME + b'\2' * 40 + A0 * 41
    yield SOME + choice(A0, b'') * 40 + A1


def long_patterns():
    yield SOME + b'\3' * 3000
    yield EVERY + b'\3' * 3000 + A0
    yield SOME + b'\3' * 1000 + action(3)
    yield SOME + b'\1' * 1000 + A0 * 1000


def refused_first():
    """two faults or more: the sheet's first, then 30, 31, 22"""
    large = SOME + sequence(*[A0] * 70)
    for s in refusals():
        for pattern in (SOME + A0, b'', large):
            yield pattern_request(s, pattern, 2, 7)
    for wrong in (large + A0, large[:-1], large[:-1] + b'\3', b'\2' + large[1:], large + b'\4'):
        yield pattern_request(ONE_NODE, wrong, 30, 7)
    for size in (0, 5, 192, 193, 200):
        yield pattern_request(ONE_NODE, large, size, 9)
        yield pattern_request(ONE_NODE, large[:-1], size, 9)
    # no entries: no pattern is well formed
    bare = sheet_of(plan(1, 0, []), table(), rule(T))
    for pattern in (b'', SOME, EVERY + A0, SOME + action(255), SOME + repetition(A0)):
        yield pattern_request(bare, pattern, 12, 1)


def outputs():
    """outputs about the exact length, that of the longest body among them"""
    longest = SOME + sequence(*[A0] * 63)
    for s, pattern in ((K, SOME + A1), (K, EVERY + repetition(A2)), (ONE_NODE, longest)):
        n = len(body_of(s, pattern))
        for size, fill in ((0, 0), (1, 3), (n - 1, 255), (n, 9), (n + 1, 0), (n + 20, 165)):
            yield pattern_request(s, pattern, size, fill)


def refused_patterns():
    """and those at the limits that are not refused"""
    for pattern in (*malformed(), *counting()):
        yield pattern_request(ONE_NODE, pattern, 8, 5)
    for s, pattern in at_limits():
        yield from fitting(s, pattern)
    for pattern in (*copying(), *long_patterns()):
        yield pattern_request(ONE_NODE, pattern, 4, 6)
    yield from refused_first()
    yield from outputs()
