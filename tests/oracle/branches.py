"""Parked branches: one more transition for a sheet, proposed and then added."""
from oracle.sheet import Refused, bodies_at, read_sheet, sheet_of, triples, two

MOST_TRANSITIONS = 2048


def tag_of(b):
    """32-bit FNV-1a"""
    tag = 2166136261
    for byte in b:
        tag = (tag ^ byte) * 16777619 % 2 ** 32
    return tag


def reached(transitions, start):
    """the states that a way of any number of transitions leads to, the start itself too"""
    found, wanted = set(), [start]
    while wanted:
        state = wanted.pop()
        if state not in found:
            found.add(state)
            wanted += [to for source, _, to in transitions if source == state]
    return found


def loop_reachable(transitions, start):
    """Of the states that can be reached those are struck out that lead only to struck ones: all of
    them, unless there is a loop."""
    left = reached(transitions, start)
    while True:
        onward = {source for source, _, to in transitions if source in left and to in left}
        if onward == left:
            return len(left) > 0
        left = onward


def branched(s, branch):
    """the new sheet, and its proposal: the insertion place, the new length and the old tag"""
    p, a, r = bodies_at(s, read_sheet(s))
    old, (source, action, to) = triples(p, 4), branch
    if (source >= p[0] or action >= p[1] or to >= p[0] or branch in old
            or len(old) == MOST_TRANSITIONS):
        raise Refused(40)
    transitions = sorted([*old, branch])
    if loop_reachable(transitions, 0):
        raise Refused(12)
    new = sheet_of(p[:2] + two(len(transitions)) + bytes(x for t in transitions for x in t), a, r)
    read_sheet(new)
    return new, (transitions.index(branch), len(new), tag_of(s))


def propose(s, branch):
    return branched(s, branch)[1]


def commit(s, branch, proposal, size):
    """the new sheet, for an output of so many bytes"""
    new, fresh = branched(s, branch)
    if proposal != fresh:
        raise Refused(41)
    if size < len(new):
        raise Refused(22)
    return new
