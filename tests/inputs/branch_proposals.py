"""Proposals that differ from the fresh one, sheets with equal tags, outputs, chains of both
calls."""
import random

from inputs.branch_parts import (
    committed, likely, not_committed, onward, proposed, refused, small, taken, transitions_of,
    with_transitions)
from inputs.parts import K, K8, T, TRUE, plan, rule, set_at, table
from oracle.branches import tag_of
from oracle.protocol import read_request
from oracle.sheet import sheet_of

BRANCH = 0, 2, 2                        # of K, at place 1
AFTER = [(0, 1, 1), (0, 2, 2), (1, 2, 2)]
FRESH = likely(K, BRANCH)


def each_part():
    """K's proposal with one part off, by one, by a byte's range, in each byte and each bit"""
    place, length, tag = FRESH
    for other in (0, 2, 3, 257, 1 << 15 | 1, 65535):
        yield other, length, tag
    for other in (0, 1, 74, 76, 78, 80, 77 + 256, 77 - 64, 77 << 8, 77 | 1 << 15, 65535):
        yield place, other, tag
    for bit in range(32):
        yield place, length, tag ^ 1 << bit
    for other in (tag + 1, tag - 1, 0, 1, 2 ** 32 - 1, 2166136261, 2 ** 32 - tag,
                  int.from_bytes(tag.to_bytes(4, 'little'), 'big'), tag & 0xffff,
                  tag & 0xffff0000, (tag << 8 | tag >> 24) & 0xffffffff):
        yield place, length, other


def together():
    """several parts off; parts in one another's place; the tag by other ways of working it out"""
    place, length, tag = FRESH
    yield 0, 0, 0
    yield 65535, 65535, 2 ** 32 - 1
    yield length, place, tag
    yield tag & 0xffff, length, place
    yield place, tag & 0xffff, length
    yield place + 1, length - 1, tag
    yield place - 1, length + 3, tag
    yield 2, 80, tag
    turned = 2166136261
    for byte in K:                      # multiplied first, and the byte then
        turned = turned * 16777619 % 2 ** 32 ^ byte
    yield place, length, turned
    # of other bytes: without the last, with one more, from the last on, of bodies, of the new sheet
    new = with_transitions(K, AFTER)
    for other in (K[:-1], K + b'\0', K[::-1], K[17:], K[17:27], new, b''):
        yield place, length, tag_of(other)


def differing():
    for proposal in dict.fromkeys((*each_part(), *together())):
        yield not_committed(41, K, BRANCH, proposal=proposal)
    yield committed(K, BRANCH, AFTER)
    # of another sheet, and of another branch; one at the same place has the same proposal
    yield not_committed(41, K8, BRANCH, proposal=FRESH)
    yield committed(K8, BRANCH, AFTER)
    yield not_committed(41, K, BRANCH, proposal=likely(K, (0, 0, 1)))
    yield not_committed(41, K, (0, 0, 2), proposal=FRESH)
    for branch in ((0, 1, 2), (0, 2, 1), (1, 0, 2), (1, 1, 2)):
        assert likely(K, branch) == FRESH
        yield from taken(K, branch, [(0, 1, 1), branch, (1, 2, 2)])
    # one byte of the sheet another: of the last node, of the first node, of a transition
    for at, number, place in ((72, 10, 11), (38, 41, 0), (22, 41, 0)):
        yield not_committed(number, set_at(K, at, K[at] + 1), BRANCH, place, FRESH)


def about_parts():
    """parts off by one where the place is 0, past 255 and the last; where the tag is low or high"""
    old = onward(300)
    s = small(128, 17, old)
    for at in (0, 256, 300):
        branch = (124, 16, 5) if at == 300 else (*old[at][:2], 5)
        place, length, tag = likely(s, branch)
        assert place == at
        for proposal in ((place + 1, length, tag), (place - 1 & 0xffff, length, tag),
                         (place ^ 256, length, tag), (place, length ^ 256, tag),
                         (place, length, tag ^ 256)):
            yield not_committed(41, s, branch, proposal=proposal, size=0)
    yield not_committed(22, s, (124, 16, 5), size=len(s) + 2)


def typed(transition, *actions):
    """a sheet of two states, one transition and three action formulas"""
    return sheet_of(plan(2, 255, [transition]), table(*((2, a, 0) for a in actions)), rule(T))


def equal_tags():
    """two sheets with the same tag, on which the branch has the same place and the new sheet the
    same length: what is proposed on one is checked on the other as if nothing were known"""
    branch = 0, 7, 1
    for transition, actions, other, number in (
            ((1, 0, 0), (24, 160, 127), (243, 192, 5), 12),
            ((0, 7, 1), (206, 118, 148), (112, 1, 5), 40),
            ((0, 200, 1), (199, 181, 242), (33, 137, 5), 0)):
        fine, also = typed((0, 9, 1), *other), typed(transition, *actions)
        assert tag_of(fine) == tag_of(also) and fine != also
        yield from taken(fine, branch, [branch, (0, 9, 1)])
        if number:
            yield not_committed(number, also, branch, proposal=likely(fine, branch))
        else:
            assert likely(fine, branch) == likely(also, branch)
            yield from taken(also, branch, [branch, transition])


def outputs():
    """about the exact length; bytes past the new sheet stay"""
    for s, branch in ((K, BRANCH), (small(2, 1, []), (0, 0, 1)),
                      (small(128, 17, onward(20)), (9, 9, 9))):
        after = sorted([*transitions_of(s), branch])
        n = len(s) + 3
        for past, fill in ((0, 0), (0, 255), (1, 0), (1, 165), (2, 7), (20, 255), (100, 1)):
            yield committed(s, branch, after, past, fill)
        for size, fill in ((0, 0), (1, 3), (16, 4), (17, 9), (n - 4, 0), (n - 3, 0), (n - 2, 1),
                           (n - 1, 255)):
            yield not_committed(22, s, branch, size=size, fill=fill)
        # 41 comes before 22
        place, length, tag = likely(s, branch)
        for proposal in ((place + 1, length, tag), (place, length - 1, tag),
                         (place, length, tag ^ 1), (0, 0, 0)):
            for size in (0, n - 1):
                yield not_committed(41, s, branch, proposal=proposal, size=size)


def chained(s, branches):
    """one branch after the other: proposed, committed, the new sheet read, the same branch refused
    and the old proposal too"""
    for branch in branches:
        old, fresh = transitions_of(s), likely(s, branch)
        yield from taken(s, branch)
        s = with_transitions(s, sorted([*old, branch]))
        plan_length = 4 + 3 * (len(old) + 1)
        yield read_request(s), 'read 0 0 17 %d %d ' % (plan_length, 17 + plan_length)
        yield from refused(40, s, branch)
        yield not_committed(40, s, branch, proposal=fresh)


def chains():
    """plans from the first transition to the last: in order, in reverse, in any order; on K until
    no branch is left"""
    whole = [(0, 0, 1), (0, 1, 2), (1, 0, 2), (1, 1, 3), (2, 0, 4), (3, 1, 4)]
    other = random.Random(14).sample(whole, len(whole))
    for order in (whole, whole[::-1], other):
        yield from chained(small(5, 2, []), order)
    yield from chained(K, [(0, 2, 2), (0, 0, 1), (1, 1, 2), (0, 2, 1), (1, 0, 2), (0, 0, 2),
                           (0, 1, 2)])
    full = sheet_of(plan(3, 3, sorted((f, a, t) for f, t in ((0, 1), (0, 2), (1, 2))
                                      for a in range(3))), TRUE, rule(T))
    for branch in ((0, 0, 0), (1, 0, 1), (1, 2, 0), (2, 0, 0), (2, 1, 1), (2, 2, 2)):
        yield from refused(12, full, branch)
    # two proposed on one sheet, one added: the other has to be proposed anew
    first, second = (0, 0, 2), (1, 1, 2)
    yield proposed(K, first, [first, (0, 1, 1), (1, 2, 2)])
    yield proposed(K, second, [(0, 1, 1), second, (1, 2, 2)])
    yield committed(K, first, [first, (0, 1, 1), (1, 2, 2)])
    new = with_transitions(K, [first, (0, 1, 1), (1, 2, 2)])
    yield not_committed(41, new, second, proposal=likely(K, second))
    yield from taken(new, second, [first, (0, 1, 1), second, (1, 2, 2)])


def proposals():
    yield from differing()
    yield from about_parts()
    yield from equal_tags()
    yield from outputs()
    yield from chains()
