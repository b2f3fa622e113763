"""Tables for the key sheet, and tables that lists of queries leave, whole and with a cell emptied,
turned round or filled; each with what it must give."""
from inputs.audit_parts import (
    answered, cells_left, every_cell, no, refused, solved_cells, table_of, turned, without, yes)
from inputs.counts import AT_0, AT_0_AND_2, PAIRS
from inputs.examples import CUT, SPARE, SUPPLIER
from inputs.loops import FIRST_TWO, guarded_rule, unguarded_rule
from inputs.parts import (
    F, GREATEST_LOOP, GREATEST_X, K, K8, LEAST, LEAST_LOOP, LEAST_X, T, TRUE, counted, line, plan,
    rule, set_at, table)
from oracle.rows import Sheet
from oracle.sheet import sheet_of

# K's cells of AT_0_AND_2 from which no other filled cell follows, at least not alone: the roots at
# states 0 and 2, and three that are false beside a true one under "or"
UNNEEDED = 0, 7, 16, 28, 72
# and empty ones that follow from those filled, or from nothing, each with its value
ADDED = {6: 1, 9: 2, 10: 2, 15: 1, 18: 2, 19: 1, 27: 2, 29: 2, 30: 2, 32: 2, 34: 1, 35: 1, 42: 2,
         45: 2, 46: 2, 48: 2, 51: 1, 52: 1, 54: 2, 55: 1, 63: 2, 64: 1, 66: 1, 67: 1, 68: 1, 70: 1,
         71: 1, 78: 1, 82: 2, 87: 1, 90: 1, 91: 1, 99: 1, 101: 1, 102: 1, 104: 1, 106: 1, 107: 1}


def of_the_key():
    """the tables of docs/FORMAT.md, the two of examples/supplier.txt; then one cell another"""
    for cells in (bytes(108), AT_0, AT_0_AND_2, bytes(72) + AT_0_AND_2[72:], solved_cells(K)):
        yield yes(K, counted(cells))
        yield no(K, counted(cells, 1))
    first, second = SUPPLIER['tables'].values()
    yield yes(K, first)
    yield no(K, second)
    for place, value in enumerate(AT_0_AND_2):
        if value:
            yield answered(place in UNNEEDED, K, counted(without(AT_0_AND_2, place)))
            yield no(K, counted(without(AT_0_AND_2, place), 1))
            yield no(K, counted(turned(AT_0_AND_2, place)))
        else:
            for b in (1, 2):
                yield answered(ADDED.get(place) == b, K, counted(set_at(AT_0_AND_2, place, b)))
    yield yes(K, counted(without(AT_0_AND_2, *UNNEEDED)))
    # K's table for K with another first node, and the other way round
    for s, other in ((K, K8), (K8, K)):
        yield yes(s, counted(solved_cells(s)))
        yield no(s, counted(solved_cells(other)))
        yield no(s, counted(cells_left(other, [0, 1, 2])))


def of_the_others():
    """the other sheets to try and the example sheets: no cell filled, the root's alone, all"""
    x, y = (0, 0, 0), (1, 1, 0)
    for s, verdict in ((LEAST_X, False), (GREATEST_X, True)):
        yield yes(s, table_of(s, {}))
        yield yes(s, table_of(s, {y: verdict}))
        yield yes(s, table_of(s, {x: verdict, y: verdict}))
        yield no(s, table_of(s, {x: verdict}))
        yield no(s, table_of(s, {x: not verdict, y: not verdict}))
        yield no(s, table_of(s, {x: not verdict, y: verdict}))
        # the variable under mark 0 and its binder, each from the other
        for value in (False, True):
            yield no(s, table_of(s, {(0, 1, 0): value, x: value}))
            yield answered(value is verdict, s,
                           table_of(s, {(0, 1, 0): value, x: value, y: value}))
    s = sheet_of(*LEAST)
    for tab, right in ((b'\0\0\0\0\0', 1), (b'\2\1\0\0\0', 1), (b'\1\1\0\0\0', 0),
                       (b'\2\0\0\0\0', 0), (b'\0\1\0\0\0', 0), (b'\2\1\0\0\0\3\1\2', 1)):
        yield answered(right, s, tab)
    for s in (sheet_of(*CUT['bodies']), sheet_of(*SPARE['bodies']), K8, PAIRS):
        states = Sheet(s).states
        yield yes(s, counted(solved_cells(s)))
        for asked in ([0], [states - 1], range(states), [*reversed(range(states))]):
            yield yes(s, counted(cells_left(s, asked)))
            yield yes(s, counted(cells_left(s, asked)) + b'\xff\1')
            yield no(s, counted(cells_left(s, asked), -1))
    # a loop at the only state
    for s in (LEAST_LOOP, GREATEST_LOOP):
        yield yes(s, counted(bytes(6)))
        yield no(s, counted(bytes(6), 1))
        for place in range(6):
            for b in (1, 2):
                yield refused(12, s, counted(set_at(bytes(6), place, b)))
                yield refused(12, s, counted(set_at(bytes(6), place, b), 1))


def small_sheets():
    """sheets of which every list is taken and every filled cell changed"""
    chain = plan(3, 3, [(0, 0, 1), (0, 1, 2), (0, 2, 2), (1, 1, 2)])
    for kind in (7, 8):
        yield sheet_of(chain, FIRST_TWO, guarded_rule(kind))
        yield sheet_of(chain, FIRST_TWO, unguarded_rule(kind))
        yield sheet_of(line(4), TRUE, rule((kind, 0, 1), (10 - kind, 2, 4), (kind - 3, 0, 3),
                                           (6, 0, 0), (12 - kind, 0, 5), (kind - 7, 0, 0)))
    yield sheet_of(chain, table((2, 1, 0), (5, 0, 0)),
                   rule((3, 1, 4), (5, 1, 2), (4, 0, 3), T, (2, 5, 6), F, (4, 1, 7), T))


def of_lists():
    """what a list leaves gets a yes; with a cell turned round a no, as not each filled cell has its
    solution; with a cell more a yes at most where that has its solution"""
    for s in small_sheets():
        sheet, full = Sheet(s), solved_cells(s)
        for asked in ([], [0], [1], [2], [2, 0], [0, 1, 2], [2, 1, 0, sheet.states, 255]):
            yield yes(s, counted(cells_left(s, asked)))
        left = cells_left(s, [0])
        for place, value in enumerate(left):
            if value:
                yield no(s, counted(turned(left, place)))
            elif full[place]:
                yield no(s, counted(set_at(left, place, 3 - full[place])))
        yield yes(s, counted(full))


def of_wrong_marks():
    """cells that follow, but under marks of binders that do not stand above: all of them, one"""
    for s in (K, *small_sheets()):
        sheet = Sheet(s)
        every, right = every_cell(sheet, True), {*every_cell(sheet)}
        both, full = solved_cells(s, True), solved_cells(s)
        if both != full:
            yield no(s, counted(both))
        for cell in every:
            if cell not in right:
                place = sheet.place(cell)
                yield no(s, counted(set_at(full, place, both[place])))


def examples():
    yield from of_the_key()
    yield from of_the_others()
    yield from of_lists()
    yield from of_wrong_marks()
