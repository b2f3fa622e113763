"""Plan bodies: counts, limits and lengths, transitions in range and in order."""
from inputs.parts import LONG_PLAN, many, plan
from oracle.sheet import two


def plans():
    yield plan(1, 0, [])
    yield plan(1, 1, [(0, 0, 0)])
    for n in range(4):
        yield b'\1\0\0\0'[:n]
    for s in (0, 1, 127, 128, 129, 255):
        yield plan(s, 0, [])
        yield plan(s, 255, [(s - 1 & 255, 254, s - 1 & 255)])
    yield plan(3, 0, [(0, 0, 0)])
    yield plan(3, 255, [(0, 255, 0)])
    # the count of transitions against the length
    two_of = plan(3, 3, [(0, 1, 1), (1, 2, 2)])
    for count in (0, 1, 3, 258, 512, 2048, 2049, 65535):
        yield two_of[:2] + two(count) + two_of[4:]
    yield two_of + b'\0'
    yield two_of[:-1]
    yield two_of[:-3]
    yield plan(128, 255, many(256))
    yield plan(128, 255, many(256))[:2] + b'\1\0' + plan(128, 255, many(256))[4:]
    yield plan(128, 255, many(2049))
    # a number out of its range, in each field and at each place
    right = [(0, 0, 0), (1, 1, 1), (2, 2, 2)]
    for i in range(3):
        for field in range(3):
            for value in (3, 255):
                wrong = [list(t) for t in right]
                wrong[i][field] = value
                yield plan(3, 3, wrong)
    # equal or falling in each field, and rising where an earlier field rises
    first = (1, 1, 1)
    for then in ((1, 1, 1), (0, 1, 1), (0, 2, 2), (1, 0, 1), (1, 0, 2), (1, 1, 0),
                 (2, 0, 0), (1, 2, 0), (1, 1, 2)):
        yield plan(3, 3, [first, then])
        yield plan(3, 3, [(0, 0, 0), first, then])
        yield plan(3, 3, [first, then, (2, 2, 2)])
    yield plan(3, 3, [(0, 0, 0), (0, 0, 0), (0, 0, 0)])
    yield plan(3, 3, [(0, 0, 0), (0, 0, 0), (3, 0, 0)])
    yield plan(3, 3, [(3, 0, 0), (0, 0, 0), (0, 0, 0)])
    # places past 255
    for at in (255, 256, 299):
        yield plan(128, 16, many(300)[:at] + [(0, 0, 0)] + many(300)[at + 1:])
    yield LONG_PLAN[:-3] + LONG_PLAN[-6:-3]
