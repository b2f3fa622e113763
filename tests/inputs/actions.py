"""Action formulas: bodies, and rules with stretches of actions."""
from inputs.parts import F, T, counted, plan, rule, table
from oracle.protocol import guard_request, list_request, query_request, reference_request
from oracle.sheet import sheet_of


def action_tables():
    """for a plan with three actions"""
    yield b''
    yield table()
    yield b'\1'
    yield b'\0\0'
    yield table((1, 0, 0))[:-1]
    yield table((1, 0, 0)) + b'\0'
    for n in (31, 32, 33, 85):
        yield table(*[(1, 0, 0)] * n)
    yield b'\x20' + bytes([0, 0, 0] * 31)
    yield b'\xff' + bytes([0, 0, 0] * 255)
    for kind in range(8):
        for x in (0, 1, 2, 3, 255):
            for y in (0, 1, 2, 3, 255):
                yield table((0, 0, 0), (1, 0, 0), (kind, x, y))
    for kind in (2, 3, 4, 5, 6, 7, 128, 255):
        yield table((kind, 0, 0))
        yield table((1, 0, 0), (kind, 0, 0))
    yield table(*[(1, 0, 0)] * 31, (5, 30, 0))
    yield table(*[(1, 0, 0)] * 31, (5, 31, 0))
    yield table(*[(1, 0, 0)] * 31, (3, 30, 31))
    yield table((1, 0, 0), (5, 2, 0), (7, 0, 0))
    yield table((1, 0, 0), (7, 0, 0), (0, 0, 0), (0, 1, 0))
    # a stretch: its entry number bounds neither end, and it is an operand like any other;
    # of two faults the lower entry's
    yield table((6, 0, 2))
    yield table((6, 0, 2), (6, 1, 1), (3, 0, 1), (4, 1, 0), (5, 1, 0), (5, 4, 0))
    yield table((6, 0, 2), (6, 2, 1), (6, 0, 3))
    yield table((6, 0, 2), (6, 0, 3), (6, 2, 1))
    yield table((5, 1, 0), (6, 0, 2))
    yield table(*[(6, i % 3, 2) for i in range(32)])
    yield table(*[(1, 0, 0)] * 31, (6, 2, 1))
    yield table(*[(1, 0, 0)] * 31, (6, 0, 3))


def stretches():
    """requests 2 to 5 on rules with stretches of actions"""
    # of 255 actions: at either end, of one action, of all; "not" of each; a stretch as an operand
    rim = (0, 1, 2, 19, 20, 21, 38, 39, 40, 63, 64, 127, 128, 253, 254)
    fan = plan(16, 255, [(0, a, i + 1) for i, a in enumerate(rim)] + [(1, 254, 15), (2, 0, 15)])
    ends = [(6, 0, 254), (6, 0, 0), (6, 254, 254), (6, 0, 253), (6, 1, 254), (6, 1, 253),
            (6, 20, 39), (6, 20, 20), (6, 39, 40), (6, 0, 19), (6, 64, 127), (6, 63, 128)]
    entries = table(*ends, *[(5, i, 0) for i in range(len(ends))],
                    (3, 1, 2), (4, 4, 3), (4, 6, 8), (3, 9, 7),
                    (5, 26, 0), (4, 18, 9), (3, 18, 6), (4, 11, 22))
    for e in range(entries[0]):
        for kind in (4, 5):
            s = sheet_of(fan, entries, rule((kind, e, 1), (9 - kind, 0, 2), (kind - 4, 0, 0)))
            yield reference_request(s)
            yield list_request(s, 52, 4, [0, 1, 2, 3, 15])
    # the stretch, which is entry 31, and the list that it stands for: sixteen actions in 31 entries
    listed = [(2, 20, 0)]
    for a in range(21, 36):
        listed += [(2, a, 0), (3, len(listed) - 1, len(listed))]
    run = plan(6, 255, [(0, a, 1 + a % 2) for a in (19, 20, 21, 35, 36)]
               + [(1, 27, 3), (2, 35, 3), (2, 36, 3), (4, 19, 3), (5, 36, 3)])
    for e in (30, 31):
        for kind in (7, 8):
            r = rule((kind, 0, 1), (3, 2, 4), (5, e, 3), (6, 0, 0), (2, 5, 7), (4, e, 6), T,
                     (5, 30, 8), F)
            s = sheet_of(run, table(*listed, (6, 20, 35)), r)
            yield guard_request(s)
            yield reference_request(s)
            yield list_request(s, 112, 255, [0, 1, 2, 3, 4, 5, 6])
            yield query_request(s, 0, counted([i % 5 % 3 for i in range(108)]))
    # a loop by the actions of a stretch, and one by the actions outside it
    loops = plan(2, 3, [(0, 1, 1), (1, 1, 0), (1, 2, 1)])
    for x, y in ((0, 0), (0, 1), (1, 1), (1, 2), (2, 2)):
        for kind in (7, 8):
            for modal, e in ((4, 0), (5, 1)):
                s = sheet_of(loops, table((6, x, y), (5, 0, 0)),
                             rule((kind, 0, 1), (modal, e, 2), (6, 0, 0)))
                yield reference_request(s)
                yield list_request(s, 16, 1, [0, 1, 2])
