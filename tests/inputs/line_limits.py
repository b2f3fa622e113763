"""Lines at the limits: of actions, entries and parentheses, and of a request; which refusal comes
first; outputs."""
from inputs.line_parts import body_of, chain, enclosed, fitting, nested, nots
from inputs.line_words import large_numbers, zeros
from oracle.protocol import line_request


def about_actions():
    """a number of actions, with action numbers about it and lines that name none"""
    for actions in (0, 1, 2, 9, 10, 11, 99, 100, 101, 127, 128, 199, 200, 254, 255):
        for number in (0, actions - 1, actions, actions + 1, actions + 256, actions * 10, 255):
            if number >= 0:
                yield actions, b'%d' % number
        yield actions, b'true'
        yield actions, chain(b'or', b'%d' % max(0, actions - 1), b'%d' % actions)
        yield actions, nots(1, chain(b'and', b'false', b'%d' % (actions // 2)))
    for line in (b'false', b'not true', b'true and false or not false', b'(true)', b'',
                 b'not 0 or true', b'true or 0'):
        yield 0, line


def of_entries(n):
    """lines of n entries: an even number takes a `not`, since operands in a row have one operator
    less between them"""
    half = [b'%d' % (i % 9) for i in range(n // 2 + 1)]
    if n % 2:
        yield chain(b'or', *half)
        yield chain(b'and', *half)
        yield nested(b'and', *half)
        yield b'(' * (n // 2) + b'0' + b' or 1)' * (n // 2)
        yield chain(b'or', *[b'true'] * (n // 2 + 1))
    else:
        yield nots(1, chain(b'or', *half[1:]))
        yield chain(b'or', *half[1:-1], nots(1, half[-1]))
        yield nested(b'or', *half[1:-1], nots(1, half[-1]))
        yield b'not (%s)' % chain(b'and', *half[1:])
    yield nots(n - 1, b'8')
    yield b'not(' * (n - 1) + b'8' + b')' * (n - 1)


def about_entries():
    for n in (30, 31, 32, 33, 34):
        for line in of_entries(n):
            yield 9, line
    # where a byte would count anew
    for n in (64, 65, 256, 257, 288, 289):
        yield 9, nots(n - 1, b'8')
    for n in (257, 287, 289):
        yield 9, chain(b'or', *[b'1'] * (n // 2 + 1))
    # parentheses and spaces are no entries
    whole = chain(b'or', *[b'(( 1 ))'] * 16)
    yield 9, enclosed(50, nots(1, enclosed(3, whole)))
    yield 9, enclosed(50, nots(2, enclosed(3, whole)))
    # operators that wait: to the last entry; more of them than entries may be
    for n in (7, 8, 9, 40):
        yield 9, b'1 or 2 and not (' * n + b'3' + b')' * n
    for n in (15, 16, 40):
        yield 9, nested(b'or', *[b'2'] * (n + 1))


def about_parentheses():
    """as many closing ones as opening ones, one less and one more; where a byte would count anew"""
    for n in (1, 2, 3, 32, 33, 255, 256):
        for closing in (n - 1, n, n + 1):
            yield 9, enclosed(n, b'3', closing)
        yield 9, enclosed(n, b'')
        yield 9, enclosed(n, b'3', 0)
        yield 9, enclosed(0, b'3', n)
        yield 9, b')' * n + b'3' + b'(' * n
        yield 9, chain(b'and', enclosed(n, b'3'), enclosed(n, b'4'))
        yield 9, chain(b'and', enclosed(n, b'3', n - 1), enclosed(n - 1, b'4', n))
    for line in (b'(3 and) 4', b'3 (and 4)', b'(3 and 4', b'3 and 4)', b'(3) and (4', b'(3 or)',
                 b'3 and (not)', b'()', b'(())', b'3 and ()', b'not ()', b'() or 3', b'(or)',
                 b'(or 3)', b')(', b')3(', b'3)(4', b'(3))(4)', b'((3) and (4)', b'(3) and (4))'):
        yield 9, line


def several_faults():
    """more than one refusal would be right: 32 first, then 33, then 34"""
    many = chain(b'or', *[b'1'] * 20)
    above = chain(b'or', *[b'1'] * 19, b'9')
    for line in (b'9', b'9 or', b'or 9', b'9 9', b'9 and 4 or (', b'(9', b'09', b'9x', b'9 or 03',
                 many + b' or', many + b' 1', b'(' + many, many + b')', many + b' or 01',
                 many + b' and x', many + b'\n', above, above + b' or', above + b')',
                 b'9 or ' + many, many + b' or 9', many + b' or 256', many + b' or 9 or 10',
                 many + b' or 09',
                 nots(40, b'9'), nots(40, b'8'), nots(40, b''), nots(40, b'9 9'),
                 b'3 or 9 and (4 or 10)', b'8 and 9', b'9 and 8', b'9 or 4294967296'):
        for size in (0, 3, 97):
            yield line_request(9, line, size, 66)


def outputs():
    """about the exact length, that of the longest body among them"""
    for line in (b'true', b'not 3', b'not 3 and 4 or 5', nots(31, b'3'),
                 chain(b'or', *[b'8'] * 16)):
        n = len(body_of(9, line))
        for size, fill in ((0, 0), (1, 3), (n - 1, 255), (n, 9), (n + 1, 0), (n + 20, 165)):
            yield line_request(9, line, size, fill)


def longest_lines():
    """about as long as a request allows"""
    yield enclosed(32767, b'3')
    yield enclosed(32767, b'3', 32766)
    yield enclosed(65535, b'', 0)
    yield enclosed(0, b'', 65535)
    yield nots(16383, b'3')
    yield nots(16383, b'')
    yield b'not(' * 13106 + b'3' + b')' * 13106
    yield b'3 and (' * 8191 + b'3' + b')' * 8191
    yield chain(b'or', *[b'3'] * 13107)
    yield b'3' * 65535
    yield b'1' + b'0' * 65534
    yield b'0' * 65535
    yield b' ' * 65535
    yield b' ' * 65534 + b'3'
    yield b'x' * 65535


def long_lines():
    """parentheses as many as a request allows; others somewhat long"""
    yield enclosed(32767, b'3')
    yield nots(1000, b'3')
    yield nots(300, b'')
    yield b'1' * 1000
    yield b'0' * 1000
    yield b'x' * 1000
    yield b'true' * 300
    yield b'3 ' * 300


def lines_at_limits():
    for actions, line in (*about_actions(), *about_entries(), *about_parentheses()):
        yield from fitting(actions, line)
    for line in (*zeros(), *large_numbers()):
        yield from fitting(255, line)
    for line in large_numbers():
        yield line_request(9, line, 4, 7)
    yield from several_faults()
    yield from outputs()
    for line in long_lines():
        yield line_request(9, line, 4, 6)
