"""Rows of every kind with their cells filled in every way that tells, each with what it must
give."""
from itertools import product

from inputs.audit_parts import answered, no, table_of, yes
from inputs.parts import F, K_ACTIONS, K_PLAN, T, TRUE, line, plan, rule, table
from oracle.sheet import sheet_of

VALUES = None, False, True


def filled(cells):
    """those of a dictionary that are not None"""
    return {cell: value for cell, value in cells.items() if value is not None}


def follows(either, value, entries):
    """By the sentence: is a cell without value, or does its value follow from entries, some of them
    None? "Or" is `either`, and what decides it is true."""
    if value is None:
        return True
    if either in entries:
        return value is either
    return None not in entries and value is not either


def pairs():
    """"or" and "and" with every two constants below; their cells are right, wrong or empty, and the
    pair's own is anything"""
    for either, left, right in product((True, False), repeat=3):
        kinds = [(1 if v else 0, 0, 0) for v in (left, right)]
        s = sheet_of(plan(1, 0, []), table(), rule((2 if either else 3, 1, 2), *kinds))
        for top, one, other in product(VALUES, repeat=3):
            good = (one in (None, left) and other in (None, right)
                    and follows(either, top, [one, other]))
            cells = {(0, 0, 0): top, (0, 1, 0): one, (0, 2, 0): other}
            yield answered(good, s, table_of(s, filled(cells)))
    # one node for both: a pair below a pair, of which the first decides and the second is empty
    s = sheet_of(plan(1, 0, []), table(), rule((2, 1, 4), (3, 2, 3), F, T, (3, 5, 6), T, T))
    first = {(0, 2, 0): False, (0, 1, 0): False}
    second = {(0, 5, 0): True, (0, 6, 0): True, (0, 4, 0): True}
    yield yes(s, table_of(s, first))
    yield yes(s, table_of(s, second))
    yield yes(s, table_of(s, {**second, (0, 0, 0): True}))
    yield yes(s, table_of(s, {**first, **second, (0, 0, 0): True}))
    yield no(s, table_of(s, {**first, (0, 0, 0): False}))
    yield no(s, table_of(s, {**first, (0, 0, 0): True}))
    yield no(s, table_of(s, {**first, **second, (0, 0, 0): False}))
    yield no(s, table_of(s, {(0, 4, 0): True, (0, 0, 0): True}))
    yield no(s, table_of(s, {(0, 5, 0): True, (0, 4, 0): True}))
    yield yes(s, table_of(s, {(0, 3, 0): True, (0, 2, 0): False}))


def empty_rows():
    """constants, modal nodes that no transition meets, variables below an open binder"""
    for mark, kind, value in product(range(3), (0, 1), VALUES):
        s = sheet_of(line(2), TRUE, rule((7, 0, 1), (8, 1, 2), (kind, 0, 0)))
        for state in range(2):
            cells = filled({(mark, 2, state): value})
            yield answered(value in (None, kind == 1), s, table_of(s, cells))
    # at the end state; for an action that is not done there; for none
    entries = table((2, 0, 0), (0, 0, 0), (1, 0, 0))
    for kind, entry, state, value in product((4, 5), range(3), range(2), (False, True)):
        s = sheet_of(plan(2, 3, [(0, 1, 1)]), entries, rule((kind, entry, 1), T))
        empty = state == 1 or entry < 2
        good = empty and value is (kind == 5)
        yield answered(good, s, table_of(s, {(0, 0, state): value}))
        if not empty:
            for below in (False, True):
                cells = {(0, 0, 0): value, (0, 1, 1): below}
                yield answered(below and value, s, table_of(s, cells))
    # of two binders, least and greatest: each variable, under each mark
    for outer, inner, x, mark, value in product((7, 8), (7, 8), (0, 1), range(3), (False, True)):
        s = sheet_of(line(1), TRUE, rule((outer, 0, 1), (inner, 1, 2), (6, x, 0)))
        constant = mark > 0 and x >= mark - 1
        good = constant and value is ((outer, inner)[x] == 8)
        yield answered(good, s, table_of(s, {(mark, 2, 0): value}))


# of eight transitions from state 0 the formula takes those of actions 1 and 2
FAN = plan(8, 4, [(0, 0, 1), (0, 1, 2), (0, 1, 3), (0, 2, 4), (0, 2, 5), (0, 3, 6)])
TAKEN = 2, 3, 4, 5


def modal_rows():
    """of several transitions the first, one in the middle or the last decides, alone or with
    others; some are empty, or only those that are not taken are filled"""
    for kind in (4, 5):
        either = kind == 4
        # which of the states have the child true: "some" of action 0 above T, or "every" above F
        wanted = [(t, 0, 7) for t in range(1, 7)]
        for mask in range(16):
            true = [state for bit, state in enumerate(TAKEN) if mask >> bit & 1]
            more = [t for t in wanted if t[0] in true or t[0] in (1, 6)]
            p = plan(8, 4, sorted([(0, 0, 1), (0, 1, 2), (0, 1, 3), (0, 2, 4), (0, 2, 5),
                                   (0, 3, 6), *more]))
            s = sheet_of(p, table((6, 1, 2), (2, 0, 0)), rule((kind, 0, 1), (4, 1, 2), T))
            end = {(0, 2, 7): True}
            below = {state: state in true for state in TAKEN}
            for held in (TAKEN, TAKEN[1:2], TAKEN[3:], TAKEN[:3]):
                entries = [below[state] if state in held else None for state in TAKEN]
                cells = {**end, **{(0, 1, state): below[state] for state in held}}
                for value in (False, True):
                    yield answered(follows(either, value, entries), s,
                                   table_of(s, {**cells, (0, 0, 0): value}))
    # those that are not taken do not decide, and are not asked for
    s = sheet_of(FAN, table((6, 1, 2)), rule((4, 0, 1), T))
    for value in (False, True):
        yield no(s, table_of(s, {(0, 0, 0): value, (0, 1, 1): True, (0, 1, 6): True}))
    yield yes(s, table_of(s, {(0, 0, 0): True, (0, 1, 5): True}))
    s = sheet_of(FAN, table((6, 1, 2)), rule((5, 0, 1), T))
    yield yes(s, table_of(s, {(0, 0, 0): True, **{(0, 1, state): True for state in TAKEN}}))
    for missing in TAKEN:
        yield no(s, table_of(s, {(0, 0, 0): True, **{(0, 1, state): True for state in range(1, 8)
                                                     if state != missing}}))


def under_marks():
    """A modal node has the same row under every mark, of cells under mark 0: one under the open
    mark does not help."""
    for kind in (4, 5):
        s = sheet_of(line(3), TRUE, rule((7, 0, 1), (8, 1, 2), (kind, 0, 3), T))
        for mark, below, value in product(range(3), range(3), (False, True)):
            cells = {(mark, 2, 0): value, (below, 3, 1): True}
            yield answered(below == 0 and value, s, table_of(s, cells))
        for mark in range(3):
            yield no(s, table_of(s, {(mark, 2, 0): True, (mark, 3, 0): True}))
    # a pair keeps its mark; a child under another one does not help
    s = sheet_of(line(2), TRUE, rule((7, 0, 1), (8, 1, 2), (2, 3, 4), F, T))
    for mark, below in product(range(3), repeat=2):
        yield answered(mark == below, s, table_of(s, {(mark, 2, 0): True, (below, 4, 0): True}))
        yield no(s, table_of(s, {(mark, 2, 0): True, (mark, 4, 1): True}))
    # a binder opens its own mark where none is open, and keeps one that is
    below = [{(mark, 2, 0): True, (mark, 4, 0): True} for mark in range(3)]
    for mark in range(3):
        yield answered(mark == 2, s, table_of(s, {(0, 1, 0): True, **below[mark]}))
        yield answered(mark == 1, s, table_of(s, {(1, 1, 0): True, **below[mark]}))
        yield no(s, table_of(s, {(2, 1, 0): True, **below[mark]}))
    yield yes(s, table_of(s, {(0, 0, 0): True, (1, 1, 0): True, **below[1]}))
    yield no(s, table_of(s, {(0, 0, 0): True, (0, 1, 0): True, **below[2]}))
    for mark in (1, 2):
        yield no(s, table_of(s, {(mark, 0, 0): True, (mark, 1, 0): True, **below[mark]}))


def around():
    """A variable under mark 0 follows from its binder's cell, that from the child's under the
    binder's mark, and so on down to the variable under that mark, which is a constant: no cell
    stands for itself, however they are filled."""
    for outer, inner, value in product((7, 8), (7, 8), (False, True)):
        s = sheet_of(line(1), TRUE, rule((outer, 0, 1), (inner, 1, 2), (6, 0, 0)))
        # least X. least Y. X: the variable under mark 1 is a constant, under mark 2 the outer root
        truth = outer == 8
        root, down = {(0, 0, 0): value, (1, 1, 0): value}, {(1, 2, 0): value}
        yield answered(value is truth, s, table_of(s, {**root, **down}))
        yield no(s, table_of(s, root))
        yield answered(value is truth, s, table_of(s, {**root, **down, (0, 2, 0): value}))
        yield no(s, table_of(s, {**root, (0, 2, 0): value}))
        # the inner one on its own, which comes to the outer
        below = {(0, 1, 0): value, (2, 2, 0): value}
        yield no(s, table_of(s, below))
        yield answered(value is truth, s, table_of(s, {**root, **down, **below}))
        yield no(s, table_of(s, {**root, **below, (0, 2, 0): value}))
        # all cells of one value
        yield no(s, table_of(s, {cell: value for cell in product(range(3), range(3), (0,))}))
        # Y in place of X
        s = sheet_of(line(1), TRUE, rule((outer, 0, 1), (inner, 1, 2), (6, 1, 0)))
        truth = inner == 8
        root, down = {(0, 0, 0): value, (1, 1, 0): value}, {(1, 2, 0): value}
        yield answered(value is truth, s, table_of(s, {**root, **down}))
        yield answered(value is truth, s, table_of(s, {(0, 1, 0): value, (2, 2, 0): value}))
        yield no(s, table_of(s, {(0, 1, 0): value, (0, 2, 0): value}))
    # K's variables in both places; the plan leads on, so that a way back would be one of the rule
    s = sheet_of(K_PLAN, K_ACTIONS, rule((7, 0, 1), (2, 2, 3), (6, 0, 0), (4, 1, 4), (6, 0, 0)))
    for value in (False, True):
        cells = {(0, 0, 2): value, (1, 1, 2): value, (1, 2, 2): value, (1, 3, 2): False}
        yield answered(not value, s, table_of(s, cells))
        # at state 0, by the variable at state 1, whose binder is asked for there
        more = {(0, 0, 1): False, (1, 1, 1): False, (1, 2, 1): False, (1, 3, 1): False}
        yield answered(not value, s, table_of(s, {**more, (0, 4, 1): value, (1, 3, 0): value}))
        yield no(s, table_of(s, {(0, 4, 1): value, (1, 3, 0): value}))
        yield no(s, table_of(s, {**more, (1, 4, 1): value, (1, 3, 0): value}))


def beside():
    """binders beside each other: the marks of each stand below it alone, not at its own node, not
    at the node behind its part, not below the other"""
    s = sheet_of(line(1), TRUE, rule((2, 1, 3), (7, 0, 2), (6, 0, 0), (8, 1, 4), (6, 1, 0)))
    below = {1: (2,), 2: (4,)}
    values = {2: False, 4: True}
    for mark, node, value in product((1, 2), range(5), (False, True)):
        good = node in below[mark] and value is values[node]
        yield answered(good, s, table_of(s, {(mark, node, 0): value}))
    # below another binder, which a chain of rows may open
    s = sheet_of(line(2), TRUE, rule((3, 1, 6), (7, 0, 2), (2, 3, 5), (8, 1, 4), T, T, (8, 2, 7),
                                     T))
    below = {1: (2, 3, 4, 5), 2: (4,), 3: (7,)}
    for mark, node in product((1, 2, 3), (4, 5, 7)):
        for state in range(2):
            yield answered(node in below[mark], s, table_of(s, {(mark, node, state): True}))
    # with the cells that they follow from, which have the same mark
    for mark in range(4):
        cells = {(mark, 2, 0): True, (mark, 5, 0): True}
        yield answered(mark < 2, s, table_of(s, cells))
        cells = {(mark, 3, 0): True, (mark or 2, 4, 0): True}
        yield answered(mark < 2, s, table_of(s, cells))


def rows_to_try():
    yield from pairs()
    yield from empty_rows()
    yield from modal_rows()
    yield from under_marks()
    yield from around()
    yield from beside()
