"""What docs/BRANCHES.md says, each with what the page says it gives; and docs/TRIALS.md's
example."""
from inputs.branch_parts import committed, not_committed, refused, small, taken, with_transitions
from inputs.branch_proposals import typed
from inputs.examples import KEY_BRANCH, SPARE
from inputs.parts import K, set_at
from oracle.branches import tag_of
from oracle.protocol import commit_request, list_request, propose_request, read_request
from oracle.sheet import sheet_of

K_TAG = 406752382
BRANCH = KEY_BRANCH['branch']
NEW = sheet_of(*KEY_BRANCH['bodies'])


def tags():
    """those that are known, and K's from its first bytes on"""
    for given, tag in ((b'', 2166136261), (b'a', 3826002220), (b'foobar', 3214735720),
                       (K[:1], 67918732), (K[:2], 4000588317), (K, K_TAG)):
        assert tag_of(given) == tag, given


def proposing():
    for branch, place in (((0, 2, 2), 1), ((0, 0, 1), 0), ((0, 1, 2), 1), ((1, 1, 2), 1)):
        yield propose_request(K, branch), 'propose 0 0 %d 77 406752382|' % place
    yield from taken(small(3, 2, [(0, 0, 1), (0, 0, 2)]), (1, 0, 2),
                     [(0, 0, 1), (0, 0, 2), (1, 0, 2)])


def committing():
    """the new sheet from K's bytes; then read, judged, and proposed to again"""
    changed = K
    for at, value in ((5, 13), (8, 30), (13, 40), (19, 3)):
        changed = set_at(changed, at, value)
    assert changed[:24] + bytes(BRANCH) + changed[24:] == NEW
    request = commit_request(K, BRANCH, (1, 77, K_TAG), 78, 165)
    assert request == b'\15\112\0' + K + bytes([*BRANCH, 1, 0, 77, 0, 126, 140, 62, 24, 78, 0, 165])
    yield request, 'commit 0 0 77|out 01030111000d00021e000a%s060100a5|' % NEW[11:-3].hex()
    yield read_request(NEW), 'read 0 0 17 13 30 10 40 37|'
    yield list_request(NEW, 112, 1, [0, 1, 2]), 'clear 0 0|query 0 0 true 4|'
    yield from refused(40, NEW, BRANCH)


def refusing():
    yield from refused(3, K[:-1], BRANCH)
    for branch in ((3, 0, 0), (0, 3, 1), (0, 1, 1)):
        yield from refused(40, K, branch)
    for branch in ((2, 0, 0), (0, 0, 0)):
        yield from refused(12, K, branch)
    yield not_committed(41, K, BRANCH, proposal=(0, 77, K_TAG))
    yield not_committed(41, K, BRANCH, proposal=(1, 77, K_TAG + 1), size=78, fill=165)
    yield not_committed(22, K, BRANCH, size=76)
    spare = sheet_of(*SPARE['bodies'])
    yield propose_request(spare, (8, 5, 8)), 'propose 0 0 10 119 '
    yield from refused(12, spare, (5, 3, 8))


def trusting():
    """the two sheets with one tag"""
    first, second = typed((0, 9, 1), 243, 192, 5), typed((1, 0, 0), 24, 160, 127)
    assert len(first) == len(second) == 38 and tag_of(first) == tag_of(second) == 4049547170
    yield propose_request(first, (0, 7, 1)), 'propose 0 0 0 41 4049547170|'
    yield not_committed(12, second, (0, 7, 1), proposal=(0, 41, 4049547170))


def storing():
    """two branches parked for K: one is added, the other proposed anew"""
    yield propose_request(K, (0, 0, 2)), 'propose 0 0 0 77 406752382|'
    after = [(0, 0, 2), (0, 1, 1), (1, 2, 2)]
    yield committed(K, (0, 0, 2), after)
    new = with_transitions(K, after)
    yield not_committed(41, new, (1, 1, 2), proposal=(1, 77, K_TAG))
    yield propose_request(new, (1, 1, 2)), 'propose 0 0 2 80 824378886|'


def of_the_page():
    tags()
    yield from proposing()
    yield from committing()
    yield from refusing()
    yield from trusting()
    yield from storing()
