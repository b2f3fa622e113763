#!/usr/bin/env python3
""".aut texts of a million bytes, turned into plans on a small stack.

Builds aut::converting::convert as a library for C and calls it, in a thread with a stack of 256
KiB, on texts that the trial driver's requests are too short for: long labels, long numbers, a long
first line, a hundred thousand lines; and on each of them with its last byte missing and with
another in its place. Each has to be answered as tests/oracle does. How long each takes is printed
for a text and for one of about half its length, so that growth can be seen; nothing is held to a
time.

Run `rt check aut` first.
"""
import ctypes
import sys
import threading
import time

from inputs.aut_limits import transitions
from inputs.aut_parts import des, labels, text, tight
from native import SLICE, loaded
from oracle.aut import aut_body
from oracle.sheet import Refused

SOURCE = '''
use sheet::Numbered;

#[unsafe(no_mangle)]
pub extern "C" fn aut_number(text: &[u8], out: &mut [u8]) -> u8 {
    let c = aut::converting::convert(text, out);
    c.number()
}

#[unsafe(no_mangle)]
pub extern "C" fn aut_place(text: &[u8], out: &mut [u8]) -> u16 {
    let c = aut::converting::convert(text, out);
    c.place()
}

#[unsafe(no_mangle)]
pub extern "C" fn aut_length(text: &[u8], out: &mut [u8]) -> usize {
    let c = aut::converting::convert(text, out);
    c.unwrap_or(0)
}
'''

STACK = 256 * 1024
MANY = 1000000
ROOM = 6148
FILL = 165


def with_labels(*found):
    return text(1, *((0, label, 0) for label in found))


def repeated(given, count):
    """so many lines, the same again and again, in a text of ten states"""
    return tight(text(10, *(given[i % len(given)] for i in range(count))))


def long_labels(n):
    half, part = b'x' * (n // 2), b'x' * (n // 20)
    yield 'a label', 0, with_labels(b'x' * n)
    yield 'a label of many bytes 0', 0, with_labels(b'\0' * n)
    yield 'a quote mark at its end', 37, with_labels(b'x' * n + b'"')
    yield 'a label twice', 0, with_labels(half, half)
    yield 'labels, the last byte differs', 0, with_labels(half + b'y', half + b'z')
    yield 'labels, the first byte differs', 0, with_labels(b'y' + half, b'z' + half)
    yield 'a label and its beginning', 0, with_labels(half, half[1:])
    yield 'twenty labels, alike', 0, with_labels(*(part + b'%d' % i for i in range(20)))


def long_numbers(n):
    digits = b'7' * (n // 2)
    for what, number, state in (('equal', 38, digits),
                                ('the last digit less', 39, digits[1:] + b'6'),
                                ('the last digit more', 38, digits[1:] + b'8'),
                                ('the first digit less', 39, b'6' + digits[1:]),
                                ('the first digit more', 38, b'8' + digits[1:]),
                                ('a digit shorter', 39, digits[1:]),
                                ('a digit longer', 38, b'1' + digits)):
        yield 'states: ' + what, number, text(digits, (state, b'a', 0), (0, b'a', state))
    yield 'a state where few are', 38, text(3, (1, b'a', b'1' + b'0' * n))
    yield 'a stated number', 39, des(0, b'9' * n)
    yield 'zeros before a stated number', 37, des(0, b'0' * n + b'1')
    yield 'a count', 37, des(b'1' + b'0' * n, 1)
    yield 'a first state', 37, des(0, 1, b'1' + b'0' * n)


def many_lines(n):
    """of ten bytes each, or a few more"""
    count, most = n // 10, transitions(2048)
    yield 'a line again and again', 0, repeated(transitions(1), count)
    yield '2,048 lines again and again', 0, repeated(most[::-1], count)
    yield '255 labels again and again', 0, repeated([(0, label, 1) for label in labels(255)], count)
    yield 'too many transitions', 39, repeated(transitions(2600), count)
    yield 'too many labels', 39, with_labels(*(b'%d' % i for i in range(n // 17)))
    yield 'and a state at the end', 38, tight(text(10, *[*transitions(2600)] * (n // 26000),
                                                   (0, b'a', 10)))
    given = tight(text(1, *[(0, b'a', 0)] * count, count=count + 1))
    yield 'a count one too high', 37, given
    yield 'a space too many at the end', 37, given + b'(0,  "a", 0)\n'
    yield 'empty lines', 37, des(n, 1) + b'\n' * n
    yield 'spaces', 37, b'des' + b' ' * n + b'(0, 0, 1)\n'


def texts(n):
    """each with its number"""
    yield from long_labels(n)
    yield from long_numbers(n)
    yield from many_lines(n)


def right(given):
    """number, place, length and output, by tests/oracle"""
    try:
        number, place, body = 0, 0, aut_body(given, ROOM)
    except Refused as refused:
        number, place, body = refused.number, refused.place, b''
    return number, place, len(body), body + bytes([FILL]) * (ROOM - len(body))


def damaged(given):
    """the last byte missing, and another in its place"""
    return given[:-1], given[:-1] + b'x'


def wanted():
    """what is tried, a text with one of about half its length, and the answers to the text and to
    it damaged"""
    for (what, number, given), (_, _, half) in zip(texts(MANY), texts(MANY // 2)):
        answers = [right(other) for other in (given, *damaged(given))]
        assert [answer[0] for answer in answers] == [number, 37, 37], what
        yield what, given, half, answers


def library():
    """its calls for the number, the place and the length"""
    made = loaded(SOURCE, 'aut')
    made.aut_number.restype = ctypes.c_uint8
    made.aut_place.restype = ctypes.c_uint16
    made.aut_length.restype = ctypes.c_size_t
    calls = made.aut_number, made.aut_place, made.aut_length
    for call in calls:
        call.argtypes = [*SLICE, *SLICE]
    return calls


def called(call, given):
    """what a call gives, the output that it leaves, and its time in ms"""
    out = ctypes.create_string_buffer(bytes([FILL]) * ROOM, ROOM)
    start = time.perf_counter()
    found = call(given, len(given), out, ROOM)
    return found, out.raw, (time.perf_counter() - start) * 1000


def answered(calls, given, answer):
    """whether each call gives its part of the answer and leaves the output"""
    *parts, left = answer
    return all(called(call, given)[:2] == (part, left) for call, part in zip(calls, parts))


def compare(calls, found, bad):
    for what, given, half, answers in found:
        good = all(answered(calls, *pair) for pair in zip((given, *damaged(given)), answers))
        number, _, spent = called(calls[0], given)
        print('%-30s %8d bytes: number %2d, %7.2f ms, half of it %7.2f ms%s' % (
            what, len(given), number, spent, called(calls[0], half)[2], '' if good else '; WRONG'))
        if not good:
            bad.append(what)


def main():
    calls, found, bad = library(), [*wanted()], []
    threading.stack_size(STACK)
    thread = threading.Thread(target=compare, args=(calls, found, bad))
    thread.start()
    thread.join()
    if not bad:
        print('all answered as they should be, on a stack of %d KiB, and with 37 where the last '
              'byte is missing or another' % (STACK // 1024))
    return 1 if bad else 0


if __name__ == '__main__':
    sys.exit(main())
