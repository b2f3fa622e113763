"""The report for the counter terminal: request 10, each with what it must give."""
import random

from inputs.chance import random_report
from inputs.counts import AT_0, AT_0_AND_2, PAIRS
from inputs.examples import SPARE
from inputs.parts import (
    F, GREATEST_X, K, K8, K_ACTIONS, K_PLAN, K_RULE, LEAST, LEAST_LOOP, LEAST_X, LONG, T, TRUE,
    deepest, faults, many, plan, rule, table)
from oracle.protocol import report_request
from oracle.reports import ROOM
from oracle.rows import Sheet, clear, query
from oracle.sheet import Refused, bodies_at, four, read_sheet, sheet_of


def left_by(s, states, tab):
    """the table after clearing and the queries"""
    clear(s, tab)
    for state in states:
        try:
            query(s, state, tab)
        except Refused:
            pass
    return bytes(tab)


def taken(s, states, *lines, size=None, fill=165, room=ROOM, other=7, left=None):
    """a report of these lines; the table is as the queries leave it, the output past them as it
    was"""
    size = Sheet(s).table_size() if size is None else size
    left = left_by(s, states, bytearray([fill]) * size) if left is None else left
    text = '\n'.join((*lines, '')).encode()
    return report_request(s, states, size, fill, room, other), 'report 0 0 %d|table %s|out %s|' % (
        len(text), left.hex(), (text + bytes([other]) * (room - len(text))).hex())


def refused(number, place, s, states, size, room, fill=2, other=90):
    """neither buffer is changed"""
    return report_request(s, states, size, fill, room, other), 'report %d %d 0|table %s|out %s|' % (
        number, place, '%02x' % fill * size, '%02x' % other * room)


def examples():
    """K, each table from its cells as they are by hand; and others of document 01"""
    three = '0 true 17', '1 true 0', '2 false 9'
    yield taken(K, [0, 1, 2], *three, 'total 26', left=AT_0_AND_2 + four(26))
    yield taken(K, [0, 1, 2, 3], *three, '3 refused 0', 'total 26', left=AT_0_AND_2 + four(26))
    yield taken(K, [0], '0 true 17', 'total 17', left=AT_0 + four(17))
    yield taken(K, [], 'total 0', left=bytes(112))
    yield taken(K, [2, 0], '2 false 9', '0 true 17', 'total 26', left=AT_0_AND_2 + four(26))
    yield taken(K8, [2], '2 true 8', 'total 8')
    yield taken(LEAST_X, [0], '0 false 2', 'total 2')
    yield taken(GREATEST_X, [0, 0], '0 true 2', '0 true 0', 'total 2')
    yield taken(LEAST_LOOP, [0, 1], '0 refused 0', '1 refused 0', 'total 0')
    yield taken(sheet_of(K_PLAN, TRUE, rule((5, 0, 1), F)), [2], '2 true 1', 'total 1')
    yield taken(sheet_of(K_PLAN, TRUE, rule((4, 0, 1), T)), [2], '2 false 1', 'total 1')
    yield taken(sheet_of(*LEAST), [0, 1], '0 true 1', '1 refused 0', 'total 1')


def of_the_page():
    """docs/REPORT.md's second example, and in another order; a report of no states"""
    spare = sheet_of(*SPARE['bodies'])
    others = '6 false 6', '7 refused 0', '9 refused 0', '0 true 0', 'total 71'
    yield taken(spare, [0, 4, 6, 7, 9, 0], '0 true 50', '4 true 15', *others)
    yield taken(spare, [4, 0, 6, 7, 9, 0], '4 true 27', '0 true 38', *others)
    yield taken(spare, [], 'total 0')


def repeated():
    """a state again has no visits, wherever it stands; refused ones have none the first time"""
    yield taken(K, [0, 0, 0], '0 true 17', '0 true 0', '0 true 0', 'total 17')
    yield taken(K, [2, 1, 2, 1, 2], '2 false 9', '1 true 4', '2 false 0', '1 true 0', '2 false 0',
                'total 13')
    yield taken(K, [3, 0, 3, 0, 255], '3 refused 0', '0 true 17', '3 refused 0', '0 true 0',
                '255 refused 0', 'total 17')
    yield taken(K, [0] * 64, '0 true 17', *['0 true 0'] * 63, 'total 17')
    yield taken(K, [*[3] * 63, 2], *['3 refused 0'] * 63, '2 false 9', 'total 9')


def refused_states():
    """states that the plan does not have (11) and states ahead of a loop (12) between others"""
    more = [(3, 0, 3), (4, 2, 3)]
    s = sheet_of(plan(5, 3, [(0, 1, 1), (1, 2, 2)] + more), K_ACTIONS, K_RULE)
    yield taken(s, [0, 3, 1, 5, 2, 4], '0 true 17', '3 refused 0', '1 true 0', '5 refused 0',
                '2 false 9', '4 refused 0', 'total 26')
    yield taken(s, [4, 2, 255, 3, 0, 128, 1, 4], '4 refused 0', '2 false 9', '255 refused 0',
                '3 refused 0', '0 true 17', '128 refused 0', '1 true 0', '4 refused 0', 'total 26')
    yield taken(s, [3, 4, 5, 6], *['%d refused 0' % q for q in (3, 4, 5, 6)], 'total 0')
    # 128 states: a loop at one end, and the first state that there is not
    p = plan(128, 1, sorted([*((q, 0, q + 1) for q in range(127)), (0, 0, 0)]))
    s = sheet_of(p, TRUE, rule((4, 0, 1), T))
    yield taken(s, [0, 1, 126, 127, 128], '0 refused 0', '1 true 2', '126 true 2', '127 false 1',
                '128 refused 0', 'total 5')


def about_64():
    """as many queries as may be and more; where a byte would count anew"""
    for n in (1, 2, 63, 64):
        yield taken(PAIRS, range(128 - n, 128), *['%d true 3' % q for q in range(128 - n, 128)],
                    'total %d' % (3 * n))
    for n in (65, 66, 128, 255, 256, 257, 320):
        yield refused(36, 0, K, [0] * n, 3, 5)
    for size, room in ((112, ROOM), (112, 0), (0, ROOM)):
        yield refused(36, 0, K, [0] * 65, size, room)


def comb(n):
    """n nodes, an odd number, all of them looked at"""
    return rule(*(node for k in range(0, n - 1, 2) for node in ((3, k + 1, k + 2), T)), T)


def digits():
    """visits and totals about a number of one digit more, in states of one digit, two and three"""
    for nodes, queries in ((9, 1), (5, 2), (33, 3), (11, 9), (25, 4), (37, 27), (25, 40), (63, 64)):
        s = sheet_of(plan(104, 0, []), table(), comb(nodes))
        states = range(104 - queries, 104)
        yield taken(s, states, *['%d true %d' % (q, nodes) for q in states],
                    'total %d' % (nodes * queries))
    states = 0, 9, 10, 99, 100, 127, 128, 199, 200, 255
    yield taken(sheet_of(plan(128, 0, []), table(), rule(F)), states,
                *['%d %s' % (q, 'false 1' if q < 128 else 'refused 0') for q in states], 'total 6')


def largest():
    """the largest tables: the deepest query, with visits of five digits; many lines of 15 bytes"""
    s = deepest()
    yield taken(s, [0, 127, 128, 0], '0 false 46291', '127 false 0', '128 refused 0', '0 false 0',
                'total 46291', size=57352)
    # states 100 to 127, each the first of four or five in a row
    ways, free = [], iter(range(100))
    for first in range(100, 128):
        way = [first, *(next(free) for _ in range(4 if first < 116 else 3))]
        ways += zip(way, [0] * 4, way[1:])
    s = sheet_of(plan(128, 1, sorted(ways)), *bodies_at(s, read_sheet(s))[1:])
    states = [*range(100, 128), *[255] * 36]
    yield taken(s, states, *['%d false %d' % (q, 1519 if q < 116 else 1155) for q in states[:28]],
                *['255 refused 0'] * 36, 'total 38164')


def tables():
    """exact and longer, whatever the table holds before; too short"""
    for past in (0, 1, 9):
        for fill in (0, 1, 2, 3, 255):
            yield taken(K, [0], '0 true 17', 'total 17', size=112 + past, fill=fill,
                        left=AT_0 + four(17) + bytes([fill]) * past)
    for size in (0, 1, 107, 108, 109, 111):
        for states in ([], [0], [3]):
            yield refused(20, 0, K, states, size, 5)
    yield refused(20, 0, K, [0], 111, ROOM)


def outputs():
    """1,036 bytes and longer; shorter ones, though the text would have room"""
    for room, other in ((ROOM, 0), (ROOM, 10), (ROOM, 255), (1037, 32), (1100, 165), (2500, 48)):
        yield taken(K, [0, 3], '0 true 17', '3 refused 0', 'total 17', room=room, other=other)
    for room in (0, 1, 7, 8, 9, 19, 50, 1024, 1035):
        for states in ([], [0, 1, 2, 3]):
            yield refused(22, 0, K, states, 112, room)
    # a table filled before stays so
    for fill in (0, 1, 255):
        yield refused(22, 0, K, [0], 115, 1035, fill)
    yield refused(22, 0, LEAST_LOOP, [0], 10, 1035)


def in_order():
    """each pair of refusals and all of them: 36, what clearing gives with its place, 22"""
    over, most = [0] * 65, [0] * 64
    for number, place, s in faults():
        yield refused(36, 0, s, over, 0, 0)
        yield refused(number, place, s, most, 0, 0)
        yield refused(number, place, s, [], 9, 9)
        yield refused(number, place, s, [0], 0, ROOM)
        yield refused(number, place, s, [0], 112, 0)
    for s in (b'', K[:16], K):
        for size, room in ((0, 0), (111, 1035), (112, 9), (9, ROOM)):
            yield refused(36, 0, s, over, size, room)
    for states in ([], [0], [3], most):
        yield refused(20, 0, K, states, 111, 1035)
        yield refused(22, 0, K, states, 112, 1035)
    # a place over 255; a sheet as long as it may be, and one byte longer
    transitions = many(301)
    s = sheet_of(plan(128, 16, [*transitions, transitions[-1]]), TRUE, rule(T))
    yield refused(5, 301, s, [0], 200, 9)
    yield refused(36, 0, s, over, 200, 9)
    yield refused(20, 0, sheet_of(*LONG), [0], 99, 9)
    yield refused(3, 0, sheet_of(*LONG) + b'\0', [0], 99, 9)


def reports_to_try():
    yield from examples()
    yield from of_the_page()
    yield from repeated()
    yield from refused_states()
    yield from about_64()
    yield from digits()
    yield from largest()
    yield from tables()
    yield from outputs()
    yield from in_order()


def reports():
    rng = random.Random(9)
    for _ in range(40):
        yield from random_report(rng)
