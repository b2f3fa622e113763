"""Rule bodies: nodes, preorder, missing and left-over nodes, binders and variables. How many
children each kind of node has."""
from inputs.parts import F, T, chain, rule
from oracle.protocol import children_request


def sizes():
    """counts and lengths"""
    yield b''
    yield rule()
    yield b'\1'
    yield rule(T)[:-1]
    yield rule(T) + b'\0'
    for n in (1, 2, 63, 64, 65):
        yield rule(*chain(n))
    yield b'\xff' + bytes([0, 0, 0] * 255)


def kinds():
    """the kind and the fields of a node"""
    # each kind alone and above one leaf, with its fields right and wrong
    for kind in range(9):
        for x in (0, 1, 2, 3, 255):
            for y in (0, 1, 2, 255):
                yield rule((kind, x, y), T)
        yield rule((kind, 0, 0))
        yield rule((kind, 1, 0))
        yield rule((kind, 0, 1))
        yield rule((kind, 1, 2), T, T)
    for kind in (9, 10, 128, 255):
        yield rule((kind, 0, 0))
        yield rule((kind, 0, 1), T)
        yield rule((kind, 1, 2), T, T)


def preorder():
    """child numbers, nodes left over, children that are missing"""
    for kind in (2, 3):
        for x, y in ((1, 2), (0, 2), (2, 1), (2, 2), (1, 1), (1, 0), (1, 3), (1, 255), (255, 2)):
            yield rule((kind, x, y), T, F)
    for y in range(7):
        yield rule((2, 1, y), (3, 2, 3), T, F, T)
        yield rule((3, 1, 2), T, (2, 3, y), F, F)
        yield rule((2, 1, 4), (3, 2, y), T, F, T)
    # the second child's number is looked at after the first child's part: faults in the first
    # child's part come before it, those in the second child's after
    yield rule((2, 1, 9), (9, 0, 0), T)
    yield rule((2, 1, 9), T, (9, 0, 0))
    yield rule((2, 0, 2), (9, 0, 0), T)
    yield rule((2, 1, 9), (3, 2, 9), T, T, (9, 0, 0))
    yield rule((2, 1, 9), (3, 2, 9), (1, 1, 0), T, (9, 0, 0))
    yield rule((2, 1, 9), (3, 2, 3), T, (1, 0, 1), T)
    yield rule((2, 1, 9), (3, 2, 3), T, T, (1, 0, 1))
    yield rule((2, 1, 4), (4, 0, 2), (4, 3, 3), T, (9, 0, 0))
    yield rule((2, 1, 255), (7, 0, 2), (6, 0, 1), T)
    # nodes left over
    yield rule(T, T)
    yield rule(T, (9, 9, 9))
    yield rule(T, T, (9, 9, 9))
    yield rule((4, 0, 1), T, T)
    yield rule((2, 1, 2), T, T, T)
    yield rule((2, 1, 2), T, T, (255, 255, 255), T)
    yield rule(*chain(63), T)
    yield rule(*chain(10), *chain(5))
    yield rule(T, *[F] * 63)
    # children that are missing
    for kind in (4, 5, 7, 8):
        yield rule((kind, 0, 1))
        yield rule(T, (kind, 0, 2))
        yield rule((4, 0, 1), (kind, 0, 2))
        yield rule((2, 1, 2), T, (kind, 0, 3))
    for kind in (2, 3):
        for y in (0, 1, 2, 3):
            yield rule((kind, 1, y))
            yield rule((kind, 1, y), T)
        yield rule((4, 0, 1), (kind, 2, 3))
        yield rule((4, 0, 1), (kind, 2, 3), T)
        yield rule((kind, 1, 3), (kind, 2, 3), T)
        yield rule((kind, 1, 4), (kind, 2, 3), T, T)
        yield rule((kind, 1, 2), T, (kind, 3, 4), T)
    yield rule(*[(4, 0, i + 1) for i in range(64)])
    # the full 64 nodes in pairs, leaning to either side
    yield rule((4, 0, 1), *[(2, i + 1, 63 - (i - 1)) for i in range(1, 32)], *[T] * 32)
    yield rule((4, 0, 1), *[t for i in range(31) for t in ((3, 2 * i + 2, 2 * i + 3), F)], F)
    yield rule((4, 0, 1), *[(2, i + 1, 63 - (i - 1)) for i in range(1, 31)], (2, 32, 34), *[T] * 32)
    yield rule((4, 0, 1), *[(2, i + 1, 63 - (i - 1)) for i in range(1, 32)], *[T] * 31, (1, 0, 1))


def nest(*numbers):
    """binders, one below the other"""
    return [(7 + i % 2, k, i + 1) for i, k in enumerate(numbers)]


def binding():
    """binders and variables"""
    for n in range(1, 9):
        for x in (0, n - 1, n):
            yield rule(*nest(*range(n)), (6, x, 0))
    for numbers in ((1,), (255,), (0, 0), (0, 2), (0, 1, 1), (0, 1, 3), (1, 0),
                    (0, 1, 2, 3, 4, 6), (0, 1, 2, 3, 4, 5, 5), (0, 1, 2, 3, 4, 5, 7)):
        yield rule(*nest(*numbers), T)
    for second in (0, 1, 2):
        yield rule((2, 1, 3), (7, 0, 2), (6, 0, 0), (8, second, 4), (6, second, 0))
    six = [t for i in range(6) for t in ((2, 3 * i + 1, 3 * i + 3), (7, i, 3 * i + 2), (6, i, 0))]
    yield rule(*six, T)
    yield rule(*six, (7, 6, 19), T)
    yield rule(*six, (7, 6, 19), (6, 6, 0))
    # variables that do not stand below their binder
    for x in (0, 1, 5, 6, 255):
        yield rule((6, x, 0))
        yield rule((4, 0, 1), (6, x, 0))
        yield rule((2, 1, 3), (7, 0, 2), T, (6, x, 0))
        yield rule((2, 1, 2), (6, x, 0), (7, 0, 3), T)
        yield rule((2, 1, 3), (7, 0, 2), (6, x, 0), (7, 1, 4), (6, 0, 0))
        yield rule((2, 1, 3), (7, 0, 2), (6, 0, 0), (7, 1, 4), (6, x, 0))
        yield rule((7, 0, 1), (2, 2, 4), (7, 1, 3), (6, 0, 0), (6, x, 0))
        yield rule((7, 0, 1), (2, 2, 3), (6, x, 0), (8, 1, 4), (6, 1, 0))
        yield rule((7, 0, 1), (3, 2, 4), (8, 1, 3), T, (7, 2, 5), (6, x, 0))
    # two faults of binding, and one of syntax after one of binding
    yield rule((2, 1, 2), (6, 1, 0), (6, 0, 0))
    yield rule((2, 1, 2), (6, 1, 0), (6, 0, 1))
    yield rule((7, 1, 1), (7, 1, 2), (9, 0, 0))
    yield rule((7, 1, 1), (6, 0, 0), T)
    yield rule(*nest(*range(7)), (6, 0, 0), T)


def rules():
    """for three action entries"""
    yield from sizes()
    yield from kinds()
    yield from preorder()
    yield from binding()


def children_to_try():
    """how many children a node of each kind has: F, T, or, and, some, every, variable, least,
    greatest; a number over 8 is no kind"""
    for kind, count in enumerate((0, 0, 2, 2, 1, 1, 0, 1, 1, 0)):
        yield children_request(kind), 'children %d|' % count
    yield children_request(255), 'children 0|'
