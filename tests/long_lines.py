#!/usr/bin/env python3
"""Lines of a million words and parentheses, read on a small stack.

Builds action_line::parsing::parse as a library for C and calls it, in a thread with a stack of 256
KiB, on lines that the trial driver's requests are too short for: parentheses around one number,
`not`s, digits, spaces, numbers with `or` between them. Each has to be answered as document 02 (e)
says. How long each takes is printed for a line and for one of half as many, so that growth can be
seen; nothing is held to a time.

Run `rt check` first.
"""
import ctypes
import sys
import threading
import time

from native import SLICE, loaded

SOURCE = '''
use sheet::Numbered;

#[unsafe(no_mangle)]
pub extern "C" fn line_number(actions: u8, line: &[u8], out: &mut [u8]) -> u8 {
    let p = action_line::parsing::parse(actions, line, out);
    p.number()
}

#[unsafe(no_mangle)]
pub extern "C" fn line_length(actions: u8, line: &[u8], out: &mut [u8]) -> usize {
    let p = action_line::parsing::parse(actions, line, out);
    p.unwrap_or(0)
}
'''

STACK = 256 * 1024
MANY = 1000000
ROOM = 97
FILL = 165


def lines(n):
    """each with its number and the body of an accepted one"""
    seven = bytes([1, 2, 7, 0])
    yield 'parentheses around a number', b'(' * n + b'7' + b')' * n, 0, seven
    yield 'one parenthesis more closed', b'(' * n + b'7' + b')' * (n + 1), 32, b''
    yield 'one parenthesis more opened', b'(' * (n + 1) + b'7' + b')' * n, 32, b''
    yield '`not`s before a number', b'not ' * n + b'7', 34, b''
    yield '`not`s before nothing', b'not ' * n, 32, b''
    yield '`not(`s before a number', b'not(' * n + b'7' + b')' * n, 34, b''
    yield 'digits', b'7' * n, 33, b''
    yield 'digits behind a zero', b'0' + b'7' * n, 32, b''
    yield 'letters', b'n' * n, 32, b''
    yield 'spaces around a number', b' ' * n + b'7' + b' ' * n, 0, seven
    yield 'spaces', b' ' * n, 32, b''
    yield 'numbers with `or` between', b'7 or ' * n + b'7', 34, b''
    yield 'numbers with `and (` between', b'7 and (' * n + b'7' + b')' * n, 34, b''


def parser():
    """the calls of the library"""
    made = loaded(SOURCE, 'action_line')
    for call, result in ((made.line_number, ctypes.c_uint8), (made.line_length, ctypes.c_size_t)):
        call.argtypes, call.restype = [ctypes.c_uint8, *SLICE, *SLICE], result
    return made


def tried(made, line):
    """number, length and output, and the time of a call in ms"""
    out = ctypes.create_string_buffer(bytes([FILL]) * ROOM, ROOM)
    start = time.perf_counter()
    number = made.line_number(9, line, len(line), out, ROOM)
    spent = (time.perf_counter() - start) * 1000
    length = made.line_length(9, line, len(line), out, ROOM)
    return number, length, out.raw, spent


def compare(made, bad):
    for (what, half, _, _), (_, line, number, body) in zip(lines(MANY // 2), lines(MANY)):
        *given, spent = tried(made, line)
        right = [number, len(body), body + bytes([FILL]) * (ROOM - len(body))]
        print('%-30s %9d bytes: number %2d, %6.2f ms, half of it %6.2f ms%s' % (
            what, len(line), given[0], spent, tried(made, half)[3],
            '' if given == right else '; WRONG'))
        if given != right:
            bad.append(what)


def main():
    made, bad = parser(), []
    threading.stack_size(STACK)
    thread = threading.Thread(target=compare, args=(made, bad))
    thread.start()
    thread.join()
    if not bad:
        print('all answered as they should be, on a stack of %d KiB' % (STACK // 1024))
    return 1 if bad else 0


if __name__ == '__main__':
    sys.exit(main())
