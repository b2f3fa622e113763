"""Tables for an audit, and requests that the cases are made of."""
from inputs.parts import counted, set_at
from oracle.audits import binders_above, filled_cells, said
from oracle.protocol import audit_request
from oracle.rows import Sheet, query, solve
from oracle.sheet import Refused


def yes(s, tab):
    return audit_request(s, tab), 'audit 0 0 true|'


def no(s, tab):
    return audit_request(s, tab), 'audit 0 0 false|'


def answered(right, s, tab):
    return yes(s, tab) if right else no(s, tab)


def refused(number, s, tab, place=0):
    return audit_request(s, tab), 'audit %d %d false|' % (number, place)


def cells_left(s, states):
    """the cells that a list of queries leaves in a table just cleared"""
    sheet = Sheet(s)
    tab = bytearray(sheet.table_size())
    for state in states:
        try:
            query(s, state, tab)
        except Refused:
            pass
    return bytes(tab[:sheet.cells()])


def every_cell(sheet, wrong_marks=False):
    """the cells at the states from which no loop can be reached, with right marks or with all"""
    above = binders_above(sheet)
    return [(mark, node, state) for state in range(sheet.states) if not sheet.loop_reachable(state)
            for node in range(len(sheet.nodes)) for mark in range(len(sheet.binders) + 1)
            if wrong_marks or mark == 0 or mark - 1 in above[node]]


def solved_cells(s, wrong_marks=False):
    """each of these cells filled with its solution"""
    sheet = Sheet(s)
    cells = bytearray(sheet.cells())
    for cell in every_cell(sheet, wrong_marks):
        if not cells[sheet.place(cell)]:
            for below, value in solve(sheet, cells, cell)[0].items():
                cells[sheet.place(below)] = 2 if value else 1
    return bytes(cells)


def cells_of(s, filled):
    """of a sheet the cells, those of a dictionary filled with true or false"""
    sheet = Sheet(s)
    cells = bytearray(sheet.cells())
    for cell, value in filled.items():
        cells[sheet.place(cell)] = 2 if value else 1
    return bytes(cells)


def table_of(s, filled):
    """the same with their count"""
    return counted(cells_of(s, filled))


def without(cells, *places):
    for place in places:
        cells = set_at(cells, place, 0)
    return cells


def turned(cells, place):
    """false for true, true for false"""
    return set_at(cells, place, 3 - cells[place])


def closed(s, cells):
    """without the cells that do not follow, and then without those that do not any more"""
    sheet, cells, before = Sheet(s), bytearray(cells), b''
    while cells != before:
        before = bytes(cells)
        for cell in filled_cells(sheet, before):
            place = sheet.place(cell)
            if said(sheet, before, cell)[0] != before[place]:
                cells[place] = 0
    return before
