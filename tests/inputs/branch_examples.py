"""Branches of the key sheet and of the example sheets, each with what it must give, found by
hand."""
from inputs.branch_parts import committed, likely, not_committed, refused, small, taken
from inputs.examples import CUT, KEY_BRANCH, SPARE
from inputs.parts import K, LEAST, LEAST_LOOP
from oracle.sheet import sheet_of


def for_k():
    """each of the 27 branches in range: K leads from 0 to 1 and from 1 to 2"""
    first, second = (0, 1, 1), (1, 2, 2)
    for action in range(3):
        for to in range(3):
            branch = 0, action, to
            if branch == first:
                yield from refused(40, K, branch)
            elif to == 0:
                yield from refused(12, K, branch)
            elif branch < first:
                yield from taken(K, branch, [branch, first, second])
            else:
                yield from taken(K, branch, [first, branch, second])
            branch = 1, action, to
            if branch == second:
                yield from refused(40, K, branch)
            elif to < 2:
                yield from refused(12, K, branch)
            else:
                yield from taken(K, branch, [first, branch, second])
            yield from refused(12, K, (2, action, to))
    for branch in ((3, 0, 0), (0, 3, 0), (0, 0, 3), (3, 3, 3), (255, 0, 1), (0, 255, 1),
                   (0, 0, 255)):
        yield from refused(40, K, branch)


def of_the_new():
    """another branch for key-branch.sheet; a proposal of K does not do for it"""
    new = sheet_of(*KEY_BRANCH['bodies'])
    yield not_committed(41, new, (0, 0, 2), proposal=likely(K, (0, 0, 2)))
    yield from taken(new, (0, 0, 2), [(0, 0, 2), (0, 1, 1), (0, 2, 2), (1, 2, 2)])


def of_the_others():
    small_sheet = sheet_of(*LEAST)
    yield from refused(40, small_sheet, (0, 0, 0))
    yield from refused(40, LEAST_LOOP, (0, 0, 0))
    yield from refused(12, small(1, 1, []), (0, 0, 0))
    yield from taken(small(2, 1, []), (0, 0, 1), [(0, 0, 1)])
    # the cut key: a deburred key is put back only where that leads to no loop
    cut, spare = sheet_of(*CUT['bodies']), sheet_of(*SPARE['bodies'])
    yield from taken(cut, (2, 5, 6), [(0, 0, 1), (1, 1, 2), (1, 2, 3), (2, 3, 4), (2, 5, 6),
                                      (3, 5, 6), (4, 4, 5), (5, 5, 6)])
    yield from refused(12, cut, (5, 3, 4))
    yield from refused(40, cut, (7, 3, 8))
    yield from refused(12, spare, (5, 3, 8))
    yield from taken(spare, (7, 0, 7))
    yield committed(spare, (8, 0, 0), [(0, 0, 1), (1, 1, 2), (1, 2, 3), (2, 3, 4), (3, 5, 6),
                                       (4, 4, 5), (5, 5, 6), (7, 3, 8), (8, 0, 0), (8, 4, 7),
                                       (8, 5, 6)], 9, 0)


def examples():
    yield from for_k()
    yield from of_the_new()
    yield from of_the_others()
