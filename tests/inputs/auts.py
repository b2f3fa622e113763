"""What .aut texts become: request 11, and the result in a sheet."""
import random
from itertools import permutations, product

from inputs.aut_limits import texts_at_limits, transitions
from inputs.aut_parts import body_of, fitting, labels, text, tight
from inputs.aut_spelling import changed, dialects, every_byte, labelled, numbers, spaces
from inputs.chance import random_conversion
from inputs.parts import T, TRUE, rule
from oracle.protocol import read_request
from oracle.sheet import sheet_of


def together():
    """each two transitions of eight, each three of four, and four in each order"""
    eight = [*product((0, 1), (b'a', b'b'), (0, 1))]
    for chosen in product(eight, repeat=2):
        yield text(2, *chosen)
    for chosen in product((eight[0], eight[1], eight[2], eight[4]), repeat=3):
        yield text(2, *chosen)
    for chosen in permutations([(0, b'c', 2), (2, b'a', 0), (1, b'b', 1), (0, b'a', 1)]):
        yield text(3, *chosen)


def alike():
    """transitions of which two parts are the same, and lines that come again, next to one another
    and far apart, whatever their spaces"""
    several = [(0, b'a', 0), (0, b'a', 1), (1, b'a', 0), (0, b'b', 0), (1, b'b', 1)]
    for chosen in (several, several[::-1], several * 3, several + several[::-1],
                   [t for t in several for _ in range(3)], several[:1] * 30):
        yield text(2, *chosen)
        yield tight(text(2, *chosen))
    given = b'(0, "a", 1)\n', b'(0,"a", 1)\n', b'(0, "a",1)\n', b'(0,"a",1)\n'
    yield b'des (0, 4, 2)\n' + b''.join(given)
    yield b'des (0, 4, 2)\n' + b''.join(reversed(given))
    # from, action and to of two and three digits: in order as numbers, and not as they are written
    states = 0, 2, 9, 10, 19, 90, 99, 100, 101, 109, 127
    yield text(128, *((s, b'%d' % s, 127 - s) for s in reversed(states)))
    yield text(128, *((0, b'%d' % s, 0) for s in states), *((0, b'100', s) for s in states))
    yield text(128, *((100, b'9', s) for s in states), *((s, b'10', 9) for s in states))


def read_plans():
    """the body in a sheet: the reader takes it, and finds it as long as it is"""
    most = [(s % 128, label, 127 - s % 128) for s, label in enumerate(labels(255))]
    for given in (text(1), text(128), text(1, (0, b'', 0), (0, b'', 0)), text(128, *most),
                  text(10, *transitions(60)[::-1], *transitions(60))):
        body = body_of(given)
        s = sheet_of(body, TRUE, rule(T))
        yield read_request(s), 'read 0 0 17 %d %d 4 %d 4|' % (
            len(body), 17 + len(body), 21 + len(body))


def auts():
    for given in dict.fromkeys((*changed(), *spaces(), *numbers(), *every_byte(), *labelled(),
                                *dialects())):
        yield from fitting(given)
    for i, given in enumerate((*together(), *alike())):
        yield from fitting(given, i % 2)
    yield from texts_at_limits()
    rng = random.Random(13)
    for _ in range(40):
        yield from random_conversion(rng)
