"""The count that a table carries: requests 4 and 5, each with what it must give."""
from inputs.parts import F, K, LEAST_LOOP, T, counted, deepest, faults, plan, rule, set_at, table
from oracle.protocol import list_request, query_request
from oracle.sheet import four, sheet_of

# K's cells, by docs/FORMAT.md: as the query of state 0 leaves them, and then that of state 2
AT_0 = bytes({0: 2, 4: 2, 7: 1, 13: 2, 16: 1, 22: 2, 25: 2, 28: 1, 31: 2, 36: 2, 40: 2, 43: 2,
              57: 2, 62: 2, 65: 2, 69: 2, 81: 2}.get(i, 0) for i in range(108))
AT_0_AND_2 = bytes(1 if i in (72, 76, 79, 85, 88, 94, 97, 100, 103) else b
                   for i, b in enumerate(AT_0))

# 384 cells: a query fills the three of its state, 2, 1, 2
PAIRS = sheet_of(plan(128, 0, []), table(), rule((2, 1, 2), F, T))


def last_filled(n):
    """the cells of PAIRS, the last n of them false"""
    return bytes(384 - n) + b'\1' * n


def refused(number, s, state, tab):
    return query_request(s, state, tab), 'query %d 0 false 0|table %s|' % (number, tab.hex())


def judged(verdict, visits, s, state, tab, left):
    return query_request(s, state, tab), (
        'query 0 0 %s %d|table %s|' % (verdict, visits, left.hex()))


def listed(s, size, fill, states, *lines, left):
    return list_request(s, size, fill, states), '|'.join((*lines, 'table %s|' % left.hex()))


def lists():
    """clearing sets the count to 0, each query adds its visits, and bytes past it stay"""
    first, again, third = 'query 0 0 true 17', 'query 0 0 true 0', 'query 0 0 false 9'
    other = 'query 11 0 false 0'
    for fill in (0, 1, 2, 255):
        for past in (0, 3):
            rest = bytes([fill]) * past
            yield listed(K, 112 + past, fill, [], 'clear 0 0', left=bytes(112) + rest)
            yield listed(K, 112 + past, fill, [0, 1], 'clear 0 0', first, again,
                         left=AT_0 + four(17) + rest)
            yield listed(K, 112 + past, fill, [3, 0, 255, 1, 2], 'clear 0 0', other, first, other,
                         again, third, left=AT_0_AND_2 + four(26) + rest)
    # a buffer too short stays as it was, for clearing and for the queries behind it
    for size in range(108, 112):
        for fill in (0, 2):
            yield listed(K, size, fill, [0, 3], 'clear 20 0', 'query 20 0 false 0', other,
                         left=bytes([fill]) * size)
    # a count of two bytes
    for n in (85, 86, 128):
        yield listed(PAIRS, 388, 255, range(n), 'clear 0 0', *['query 0 0 true 3'] * n,
                     left=b'\2\1\2' * n + bytes(384 - 3 * n) + four(3 * n))


def right_counts():
    """of one byte and of two, bytes over 2 among them, and past 255"""
    for n in (3, 200, 252, 253, 255, 256, 258):
        yield judged('true', 3, PAIRS, 0, last_filled(n) + four(n),
                     b'\2\1\2' + last_filled(n)[3:] + four(n + 3))
    one = set_at(last_filled(254), 1, 2)
    yield judged('true', 1, PAIRS, 0, one + four(255), set_at(one, 0, 2) + four(256))
    yield judged('false', 1, PAIRS, 0, last_filled(383) + four(383), last_filled(384) + four(384))
    yield judged('false', 0, PAIRS, 0, last_filled(384) + four(384), last_filled(384) + four(384))
    # the largest table, of which only the root's cell at the last state is empty
    full = b'\1' * 57344
    yield judged('false', 1, deepest(), 127, set_at(full, 127 * 64 * 7, 0) + four(57343),
                 full + four(57344))


def wrong_counts():
    """off by one, by one in each byte, by all, and with the bytes in another order"""
    for cells in (bytes(108), AT_0, AT_0_AND_2, b'\1' * 108, b'\2' * 108):
        filled = sum(map(bool, cells))
        for off in (1, -1, 256, -256, 65536, 1 << 24, filled, -filled):
            if off:
                yield refused(35, K, 0, counted(cells, off))
    for n in (3, 255, 256, 258, 384):
        low, high = n % 256, n // 256
        for count in ([low + 1 & 255, high, 0, 0], [low - 1 & 255, high, 0, 0],
                      [low, high + 1, 0, 0], [low, high - 1 & 255, 0, 0], [low, high, 1, 0],
                      [low, high, 0, 1], [0, 0, high, low], [high, low, 0, 0], [0, 0, low, high]):
            if count != [low, high, 0, 0]:
                yield refused(35, PAIRS, 0, last_filled(n) + bytes(count))
    # the table that a list leaves, with the visits of some of its queries and with all
    for count in (0, 9, 17, 25, 27):
        yield refused(35, K, 1, AT_0_AND_2 + four(count))
    yield judged('true', 0, K, 1, AT_0_AND_2 + four(26), AT_0_AND_2 + four(26))


def lengths():
    """the count is whole or the table is too short; what stands behind it is not looked at"""
    for tab in (counted(AT_0), counted(bytes(108)), b'\1' * 112, b'\3' * 112):
        for size in range(108, 112):
            yield refused(20, K, 2, tab[:size])
    for past in (b'', b'\0', b'\3', b'\x11\0\0\0', b'\xff' * 9):
        yield judged('false', 9, K, 2, AT_0 + four(17) + past, AT_0_AND_2 + four(26) + past)


def in_order():
    """a wrong count, and something of a lower number"""
    off = counted(AT_0, 1)
    for number, _, s in faults():
        yield query_request(s, 0, off), 'query %d ' % number
    for state in (3, 255):
        yield refused(11, K, state, off)
    yield refused(12, LEAST_LOOP, 0, counted(bytes(6), 1))
    yield refused(20, K, 0, off[:111])
    # a byte over 2, with the count of the filled cells, of the bytes that are not 0, and another
    for b in (3, 255):
        for at in (0, 1, 107):
            for more in (0, 1, 5):
                yield refused(21, K, 0, counted(set_at(AT_0, at, b), more))


def counts_to_try():
    yield from lists()
    yield from right_counts()
    yield from wrong_counts()
    yield from lengths()
    yield from in_order()
