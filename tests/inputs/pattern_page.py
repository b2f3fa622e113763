"""What docs/PATTERNS.md says, each with the start of what the page says it gives."""
from inputs.examples import CUT
from inputs.parts import F, K, K_ACTIONS, K_PLAN, K_RULE, SELF, T, rule, table
from inputs.pattern_parts import A0, A1, A2, EVERY, SOME, choice, repetition, sequence
from oracle.protocol import pattern_request, reference_request
from oracle.sheet import sheet_of


def documented():
    """the worked examples: the rule, the pattern, the body it becomes, the states where it holds"""
    p, a, _ = CUT['bodies']
    goes_on, release = rule((4, 1, 1), T), rule((4, 0, 1), T)
    later = rule((7, 0, 1), (2, 2, 4), (4, 0, 3), T, (4, 1, 5), (6, 0, 0))
    yield p, a, goes_on, [0, 1, 3, 0, 3, 0, 2], rule(
        (7, 0, 1), (2, 2, 5), (4, 2, 3), (4, 1, 4), T, (4, 3, 6), (6, 0, 0)), [1, 2]
    yield p, a, goes_on, [1, 1, 3, 0, 3, 0, 2], rule(
        (8, 0, 1), (3, 2, 5), (5, 2, 3), (4, 1, 4), T, (5, 3, 6), (6, 0, 0)), range(7)
    yield p, a, rule(F), [1, 1, 3, 0, 3, 0, 2], rule(
        (8, 0, 1), (3, 2, 4), (5, 2, 3), F, (5, 3, 5), (6, 0, 0)), [0, 3, 4, 5, 6]
    yield p, a, rule(T), [0, 1, 2, 0, 3, 0, 2, 0, 1], rule(
        (2, 1, 4), (4, 3, 2), (4, 1, 3), T, (4, 2, 5), (4, 1, 6), T), [1, 2]
    yield p, a, release, [0, 3, 1, 0, 1, 0, 1], rule(
        (7, 0, 1), (2, 2, 4), (4, 0, 3), T, (4, 1, 5), (4, 1, 6), (6, 0, 0)), [0, 2, 3, 5]
    yield p, a, later, [0, 2, 3, 0, 3, 0, 2], rule(
        (2, 1, 11), (7, 0, 2), (2, 3, 9), (7, 1, 4), (2, 5, 7), (4, 0, 6), T, (4, 1, 8), (6, 1, 0),
        (4, 3, 10), (6, 0, 0), (4, 2, 12), (7, 2, 13), (2, 14, 16), (4, 0, 15), T, (4, 1, 17),
        (6, 2, 0)), range(6)
    yield K_PLAN, K_ACTIONS, rule(T), [0, 1, 3, 2, 0, 0, 3, 0, 1, 0, 2], K_RULE, [0, 1]


def documented_sizes():
    """patterns, each with the most nodes and the most binders that it leaves for the rule; no nodes
    where there is no room for a rule at all"""
    twice = choice(A0, A1)
    yield A0, 63, 6
    yield repetition(A0), 60, 5
    yield repetition(A0, 6), 45, 0
    yield sequence(*[repetition(A0)] * 6), 40, 0
    yield twice, 30, 3
    yield sequence(twice, twice), 13, 1
    yield sequence(*[twice] * 4), 1, 0
    yield sequence(*[twice] * 5), 0, 0
    yield sequence(*[A0] * 63), 1, 0


def of_size(nodes, binders):
    """a sheet whose rule has so many nodes and binders"""
    bound = [(7, k, k + 1) for k in range(binders)]
    below = [(5, 0, k + 1) for k in range(binders, nodes - 1)]
    return sheet_of(SELF, table(*[(1, 0, 0)] * 3), rule(*bound, *below, T))


def sizes_to_try():
    """A rule of the largest size leaves 22 to be given for an output of no bytes; one node more, or
    one binder more, 31."""
    for pattern, nodes, binders in documented_sizes():
        given = [(nodes, binders, 22)] if nodes else []
        for n, b, number in (*given, (nodes + 1, binders, 31), (nodes, binders + 1, 31)):
            if n > b and b < 7:
                yield pattern_request(of_size(n, b), SOME + pattern, 0, 0), (
                    'pattern %d 0 0|' % number)


def faults_to_try():
    for fault in ([], [2, 0, 0], [0], [0, 4], [0, 0, 3], [0, 0], [0, 1, 0, 0], [0, 3],
                  [0, 0, 0, 0, 1]):
        yield pattern_request(K, bytes(fault), 40, 165), 'pattern 30 0 0|out %s|' % ('a5' * 40)


def patterns_to_try():
    """the page's worked examples, its sizes and its faults; and docs/TRIALS.md's example"""
    yield pattern_request(K, EVERY + A2, 42, 165), 'pattern 0 0 40|out 0d0502010700020203'
    yield from sizes_to_try()
    yield from faults_to_try()
    for p, a, r, pattern, body, states in documented():
        s = sheet_of(p, a, r)
        yield pattern_request(s, bytes(pattern), len(body) + 1, 165), (
            'pattern 0 0 %d|out %sa5|' % (len(body), body.hex()))
        yield reference_request(sheet_of(p, a, body)), (
            'reference 0 0 %d|' % sum(1 << q for q in states))
