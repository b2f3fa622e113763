"""Sheets, branches and proposals that the cases are made of."""
from inputs.parts import T, plan, rule, table
from oracle.branches import tag_of
from oracle.protocol import commit_request, propose_request
from oracle.sheet import bodies_at, read_sheet, sheet_of, triples


def small(states, actions, transitions):
    """a sheet with no action formula and the shortest rule"""
    return sheet_of(plan(states, actions, transitions), table(), rule(T))


def onward(count):
    """so many transitions over 128 states and 17 actions, without loops: each leads to one of the
    last three states, which lead nowhere"""
    return [(i // 17, i % 17, 127 - i % 3) for i in range(count)]


def transitions_of(s):
    return triples(bodies_at(s, read_sheet(s))[0], 4)


def with_transitions(s, transitions):
    p, a, r = bodies_at(s, read_sheet(s))
    return sheet_of(plan(p[0], p[1], transitions), a, r)


def likely(s, branch):
    """what would be proposed if nothing were wrong with the sheet or the branch"""
    below = 0
    if len(s) >= 21:
        p = s[17:17 + (s[5] | s[6] << 8)]
        below = sum(t < branch for t in triples(p, 4) if len(t) == 3)
    return below & 0xffff, len(s) + 3 & 0xffff, tag_of(s)


def said(name, *numbers):
    return name + ''.join(' %d' % n for n in numbers) + '|'


def proposed(s, branch, transitions):
    """with the transitions of the new plan"""
    proposal = transitions.index(branch), len(s) + 3, tag_of(s)
    return propose_request(s, branch), said('propose', 0, 0, *proposal)


def committed(s, branch, transitions, past=0, fill=165):
    """with the fresh proposal and an output that is longer than the new sheet by so many bytes"""
    new = with_transitions(s, transitions)
    proposal = transitions.index(branch), len(s) + 3, tag_of(s)
    return commit_request(s, branch, proposal, len(new) + past, fill), said(
        'commit', 0, 0, len(new)) + 'out %s|' % (new + bytes([fill] * past)).hex()


def taken(s, branch, transitions=None, past=0, fill=165):
    """by both calls; the new plan's transitions are the old ones and the branch, in order"""
    transitions = transitions or sorted([*transitions_of(s), branch])
    yield proposed(s, branch, transitions)
    yield committed(s, branch, transitions, past, fill)


def not_proposed(number, s, branch, place=0):
    return propose_request(s, branch), said('propose', number, place, 0, 0, 0)


def not_committed(number, s, branch, place=0, proposal=None, size=None, fill=90):
    """by default the proposal is the likely one, and the output has room"""
    proposal = proposal or likely(s, branch)
    size = len(s) + 3 if size is None else size
    return commit_request(s, branch, proposal, size, fill), said(
        'commit', number, place, 0) + 'out %s|' % (bytes([fill]) * size).hex()


def refused(number, s, branch, place=0, size=None):
    """by both calls"""
    yield not_proposed(number, s, branch, place)
    yield not_committed(number, s, branch, place, size=size)
