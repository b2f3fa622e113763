""".aut texts at the limits: of states, labels and transitions; their count; numbers of any length;
which refusal comes first; outputs."""
import random
from itertools import product

from inputs.aut_parts import body_of, des, fitting, labels, row, text, tight
from inputs.aut_spelling import in_each_place
from oracle.protocol import aut_request

ROOM = 6148                             # bytes of the longest body


def about_states():
    """a stated number, with states about it, as the first line's alone and on either side of a
    transition"""
    for states in (0, 1, 2, 9, 10, 11, 99, 100, 127, 128, 129, 130, 255, 256, 257, 384, 1000, 65536,
                   65664):
        yield text(states)
        for state in sorted({0, states - 1, states, states + 1, states + 256, states * 10}):
            if state >= 0:
                yield text(states, (state, b'a', 0))
            if state > 0:
                yield text(states, (0, b'a', state))
    yield text(2, (0, b'a', 0), (0, b'b', 0), (2, b'a', 2))
    yield text(128, *((s, b'a', 127 - s) for s in range(128)))


def about_count():
    """a count that is the number of lines, off by one, and where a byte or more counts anew"""
    for lines in (0, 1, 2, 9, 10):
        given = [(i % 3, b'a', i % 2) for i in range(lines)]
        for count in sorted({0, 1, lines - 1, lines, lines + 1, lines + 256, lines * 10,
                             lines + 2 ** 16, lines + 2 ** 32, lines + 2 ** 64, lines + 10 ** 20,
                             lines + 2 ** 128}):
            if count >= 0:
                yield tight(text(3, *given, count=count))
    # lines that merge are counted each
    for count in (1, 2, 3):
        yield text(2, (0, b'a', 1), (0, b'a', 1), count=count)
        yield text(2, (0, b'a', 1), count=count) + b'\n'
    yield tight(text(1, *[(0, b'a', 0)] * 256, count=0))


def about_labels():
    """as many as may be and one more, of which some come again"""
    most = [(0, label, 1) for label in labels(255)]
    yield tight(text(2, *most, *((1, label, 0) for _, label, _ in most[::30])))
    yield tight(text(2, *most[::-1], most[0], most[-1]))
    yield tight(text(2, *most, *most[::50], (1, b'new', 0), *most[::50]))


def transitions(count):
    """so many, over ten states and labels of one byte: a line has ten bytes"""
    return [(i // 10 % 10, b'%c' % (97 + i // 100), i % 10) for i in range(count)]


def about_transitions():
    """as many as may be, on more lines than that; one more; and a state that there isn't behind
    them"""
    most = transitions(2048)
    random.Random(11).shuffle(most)
    again = tight(text(128, *most, most[0], most[1000], most[2047]))
    assert len(body_of(again)) == ROOM
    yield aut_request(again, ROOM, 9)
    over = tight(text(10, *most[:1000], *most[:5], *most[1000:], (0, b'z', 0), (0, b'z', 0)))
    yield aut_request(over, 0, 9)
    yield aut_request(tight(text(10, *transitions(2049), (10, b'a', 0))), 4, 9)


def longer_numbers():
    """a stated number of many digits, and states that are as long and differ from it in the first
    digit, in the last, in the middle, or not at all; longer ones and shorter ones"""
    yield b'100000000000000000000', [b'99999999999999999999', b'100000000000000000000',
                                     b'100000000000000000001', b'0', b'9', b'1']
    for stated in (2 ** 16, 2 ** 32, 2 ** 63, 2 ** 64, 2 ** 128):
        for more in (0, 1):
            yield b'%d' % (stated + more), [b'%d' % (stated + more + d) for d in (-1, 0, 1)]
    for length in (19, 20, 21, 39, 100):
        five, half = b'5' * length, length // 2
        yield five, [five, b'4' + five[1:], b'6' + five[1:], five[1:] + b'4', five[1:] + b'6',
                     five[:half] + b'4' + five[half + 1:], five[:half] + b'6' + five[half + 1:],
                     b'4' + b'9' * (length - 1), b'6' + b'0' * (length - 1), five[1:],
                     b'1' + b'0' * length, b'9' * (length - 1)]


def about_numbers():
    for stated, states in longer_numbers():
        for i, state in enumerate(states):
            yield text(stated, (state, b'a', 0) if i % 2 else (0, b'a', state))
    # that a count of so many bits takes for 0 or 1
    for bits in (8, 16, 32, 64, 128):
        for more in (0, 1):
            yield from in_each_place(2 ** bits + more)
    yield from in_each_place(b'1' + b'0' * 300)
    yield text(3, (0, b'a', 0), count=18446744073709551617)
    yield text(3, first=18446744073709551616)


def several_faults():
    """each choice of faults: 37 first, then 38, then 39, then 22"""
    unreadable = ((b'', 0, 0), (b'(0, a, 0)\n', 0, 0), (b'(0, "a", 0)', 0, 0), (b'', 1, 0),
                  (b'', 0, 1))
    states = (2, 1), (2, 2), (0, 0), (129, 0), (129, 128), (129, 129)
    for (line, off, first), (stated, state), size in product(unreadable, states, (0, 10)):
        rows = [row(0, b'a', 0), row(state, b'b', 0), *filter(None, [line])]
        yield aut_request(des(len(rows) + off, stated, first) + b''.join(rows), size, 66)
    # whichever stands first in the text
    for faulty in ([(2, b'a', 0), (0, b'"', 0)], [(0, b'a', 2), (0, b'a', b'01')]):
        yield aut_request(text(2, *faulty), 40, 66)
        yield aut_request(text(2, *faulty[::-1]), 40, 66)
    # one label too many
    over = [(0, label, 0) for label in labels(256)]
    yield aut_request(tight(text(1, *over)), 0, 66)
    yield aut_request(tight(text(1, *over, (0, b'a', 1))), 0, 66)
    yield aut_request(tight(text(1, *over, (0, b'a"', 0))), 800, 66)


def outputs():
    """about the exact length"""
    for given in (text(1), text(128), text(2, (0, b'a', 1)), text(2, (0, b'a', 1), (0, b'a', 1)),
                  text(3, (2, b'b', 1), (0, b'a', 1), (1, b'b', 0)),
                  text(20, *((s, b'%d' % s, 19 - s) for s in range(20)))):
        n = len(body_of(given))
        for size, fill in ((0, 0), (1, 3), (3, 4), (n - 1, 255), (n, 9), (n + 1, 0), (n + 20, 165)):
            yield aut_request(given, size, fill)


def long_texts():
    """labels and numbers as long as a case may be"""
    yield text(1, (0, b'x' * 600, 0))
    yield text(1, (0, b'x' * 300 + b'y', 0), (0, b'x' * 301, 0), (0, b'x' * 300 + b'y', 0))
    yield text(b'9' * 300, (b'9' * 299 + b'8', b'a', b'9' * 299))
    yield text(b'9' * 300, (0, b'a', b'9' * 300))
    yield text(b'9' * 300, (b'9' * 300, b'"', 0))
    yield text(1, count=b'1' + b'0' * 300)
    yield text(1, first=b'0' * 300)


def longest_texts():
    """about as long as a request allows"""
    for label in (b'x' * 65509, b'"' * 65509, b'\n' * 65509, b'\0' * 65509):
        yield tight(text(1, (0, label, 0)))
    half = b'x' * 32000
    yield tight(text(1, (0, half + b'y', 0), (0, half + b'x', 0), (0, b'', 0)))
    yield tight(text(1, (0, half, 0), (0, half, 0)))
    digits = b'7' * 21000
    for state in (digits[1:] + b'6', digits, digits[1:] + b'8', b'6' + digits[1:],
                  b'8' + digits[1:], digits[1:], digits + b'7'):
        yield text(digits, (state, b'a', 0), (0, b'a', state))
    yield des(0, b'9' * 65519)
    yield des(0, b'0' * 65519)
    yield des(b'9' * 65519, 1)
    yield des(0, 1, b'9' * 65519)
    yield b'des' + b' ' * 65522 + b'(0,0,1)\n'
    yield b'des (' * 13107
    yield b'\n' * 65535
    yield b'\n' + des(0, 1) * 4681
    many = [(0, b'a', 0)] * 6551
    yield tight(text(1, *many))
    yield tight(text(1, *many, count=6552))
    yield tight(text(1, *many))[:-1]
    yield tight(text(1, *many[1:], (1, b'a', 0)))
    most = transitions(2048)
    random.Random(12).shuffle(most)
    yield tight(text(10, *most, *most, *most))
    yield tight(text(10, *most, *most[::-1], *transitions(2049)))
    yield tight(text(10, *transitions(2600)[::-1]))
    yield tight(text(128, *((i % 128, labels(255)[i % 255], i * 7 % 128) for i in range(2048))))


def texts_at_limits():
    for given in (*about_states(), *about_count(), *about_labels(), *about_numbers(),
                  *long_texts()):
        yield from fitting(given)
    yield from about_transitions()
    yield from several_faults()
    yield from outputs()
