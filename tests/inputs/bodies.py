"""Three bodies together: for the reader behind a table of contents, and for the writer."""
from inputs.actions import action_tables
from inputs.contents import headings
from inputs.parts import K_ACTIONS, K_PLAN, K_RULE, LEAST, LONG, T, many, plan, rule, table
from inputs.plans import plans
from inputs.rules import rules
from oracle.protocol import read_request, write_request
from oracle.sheet import accepted, sheet_of


def bodies():
    """triples of bodies, around one that is tried"""
    leaf = rule(T)
    for p in plans():
        yield p, table(), leaf
    for a in action_tables():
        yield K_PLAN, a, leaf
    for r in rules():
        yield K_PLAN, K_ACTIONS, r
    yield plan(1, 0, []), table((2, 0, 0)), leaf
    yield plan(1, 255, []), table((2, 254, 0), (2, 255, 0)), leaf
    # stretches at the ends of the action numbers, up to all 255 actions
    for actions in (0, 1, 2, 128, 254, 255):
        last = max(actions - 1, 0)
        for x, y in ((0, 0), (0, last), (last, last), (0, actions), (actions, actions),
                     (last, actions), (actions, last), (1, 0), (last, 0),
                     (0, 255), (255, 255), (255, 0), (255, 254)):
            yield plan(1, actions, []), table((1, 0, 0), (6, x, y)), leaf
    yield K_PLAN, table(), rule((4, 0, 1), T)
    # faults in more than one body: the lowest number is given
    syntax, binding = rule((4, 0, 1), (9, 0, 0)), rule((7, 1, 1), T)
    for p in (K_PLAN, b'', plan(3, 3, [(0, 0, 0), (0, 0, 0)])):
        for a in (K_ACTIONS, b'', table((1, 0, 0), (7, 0, 0))):
            for r in (K_RULE, b'', binding, syntax):
                yield p, a, r


def writings():
    """output buffers around the exact length, and the longest of all"""
    for three in ((K_PLAN, K_ACTIONS, K_RULE), LEAST):
        n = len(sheet_of(*three))
        for size in (0, 17, n - 1, n, n + 1, n + 20):
            for fill in (0, 165, 255):
                yield *three, size, fill
    for fill in (0, 255):
        yield b'', b'', b'', 0, fill
        yield b'', b'', b'', 40, fill
    three = plan(128, 16, many(256)), K_ACTIONS, K_RULE
    n = len(sheet_of(*three))
    yield *three, n - 1, 3
    yield *three, n, 3
    yield *LONG, 6454, 7
    yield *LONG, 6455, 7


def reading_and_writing():
    """requests 1 and 6"""
    for s in headings():
        yield read_request(s)
    for i, (p, a, r) in enumerate(bodies()):
        s = sheet_of(p, a, r)
        yield read_request(s)
        fill = (0, 165, 255)[i % 3]
        if len(s) < 300 and accepted(p, a, r):
            for size in (len(s) - 1, len(s), len(s) + 2):
                yield write_request(p, a, r, size, fill)
        elif len(s) < 300 and i % 3 == 0:
            yield write_request(p, a, r, (0, 3, len(s))[i // 3 % 3], fill)
    for w in writings():
        yield write_request(*w)
