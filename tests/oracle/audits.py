"""Filled tables from elsewhere: does each filled cell follow from filled cells of its row?"""
from oracle.rows import Sheet
from oracle.sheet import Refused, check_syntax

WORDS = {0: 'empty', 1: 'false', 2: 'true'}


def binders_above(sheet):
    """of each node the numbers of the binders above it"""
    above = []
    for parent in check_syntax(sheet.nodes, len(sheet.entries)):
        if parent is None:
            above.append(set())
            continue
        kind, x, _ = sheet.nodes[parent]
        above.append(above[parent] | ({x} if kind in (7, 8) else set()))
    return above


def filled_cells(sheet, tab):
    """in the order of their bytes"""
    marks, nodes = len(sheet.binders) + 1, len(sheet.nodes)
    return [(i % marks, i // marks % nodes, i // marks // nodes)
            for i in range(sheet.cells()) if tab[i] in (1, 2)]


def said(sheet, tab, cell):
    """what filled cells of its row say of a cell, and the cells: those that decide it, or all of
    them where none does; empty (0) where one of these is, with the empty ones"""
    either, entries = sheet.row(cell)
    decides, other = (2, 1) if either else (1, 2)
    held = {entry: tab[sheet.place(entry)] for entry in entries}
    for value in (decides, 0):
        found = [entry for entry in entries if held[entry] == value]
        if found:
            return value, found
    return other, entries


def doubts(sheet, tab):
    """what keeps a table from a yes: the count, a mark, a cell that does not follow. Each with what
    is the case."""
    filled = filled_cells(sheet, tab)
    if sheet.stored_count(tab) != len(filled):
        yield 'count', sheet.stored_count(tab), len(filled)
    above = binders_above(sheet)
    for cell in filled:
        mark, node, _ = cell
        if mark > 0 and mark - 1 not in above[node]:
            yield 'mark', cell
        else:
            value, found = said(sheet, tab, cell)
            if value != tab[sheet.place(cell)]:
                yield 'row', cell, value, found


def examined(s, tab):
    """the sheet, where nothing is refused"""
    sheet = Sheet(s)
    if len(tab) < sheet.table_size():
        raise Refused(20)
    if any(b > 2 for b in tab[:sheet.cells()]):
        raise Refused(21)
    if any(map(sheet.loop_reachable, {state for _, _, state in filled_cells(sheet, tab)})):
        raise Refused(12)
    return sheet


def audit(s, tab):
    """yes or no"""
    return not any(doubts(examined(s, tab), tab))


def first_doubt(s, tab):
    """why it is a no; None where it is a yes"""
    return next(doubts(examined(s, tab), tab), None)
