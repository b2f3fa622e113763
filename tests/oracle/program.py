"""The programs, each with a table of its own that has room for every sheet."""
from oracle.closest import closest, way_to
from oracle.protocol import yes
from oracle.reports import MOST, ROOM, report
from oracle.rows import Sheet, clear, query
from oracle.sheet import Refused

TABLE = 57348                           # the largest table


def printed(call):
    """what a call gives, or the line of its refusal"""
    try:
        return call()
    except Refused as f:
        return 'refused %d %d' % (f.number, f.place)


def judged(sheet):
    tab = bytearray(TABLE)
    clear(sheet, tab)
    verdict, visits = query(sheet, 0, tab)
    return '%s %d' % (yes(verdict), visits)


def line_of(sheet):
    """plan_judge: the line, without its line feed, for a sheet that is judged at state 0"""
    return printed(lambda: judged(sheet))


def searched(sheet):
    tab = bytearray(TABLE)
    clear(sheet, tab)
    found, state, steps, visits = closest(sheet, tab)
    if not found:
        return 'holds %d' % visits
    way = [(state, steps, visits), *way_to(Sheet(sheet), state)]
    return 'fails ' + '\n'.join('%d %d %d' % numbers for numbers in way)


def search_of(sheet):
    """closest_state: the lines, without the last line feed, for a sheet"""
    return printed(lambda: searched(sheet))


def reported(given):
    count = given[0] if given else 0
    if count > MOST:
        raise Refused(36)
    states, sheet = given[1:1 + count], given[1 + count:]
    return report(sheet, states, bytearray(TABLE), ROOM).decode().removesuffix('\n')


def lines_of(given):
    """counter_report: the lines, without the last line feed, for a count, so many states and a
    sheet; where the input ends among the states, the sheet is empty"""
    return printed(lambda: reported(given))
