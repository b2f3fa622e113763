"""What lines become: request 9, and the reference on the result."""
import random
from itertools import product

from inputs.chance import random_typing
from inputs.line_limits import lines_at_limits
from inputs.line_parts import body_of, fitting, with_entries
from inputs.line_words import every_byte, misspelt, spaced, touching
from inputs.parts import T, plan, rule
from oracle.line_actions import actions_said
from oracle.protocol import read_request, reference_request
from oracle.sheet import sheet_of

OPERATORS = b'and', b'or'


def sequences():
    """every row of up to three of these tokens, with `true`, and of four, without it; with a space
    between any two, and the shorter ones without spaces as well"""
    few = b'3', b'not', b'and', b'or', b'(', b')'
    for n in (1, 2, 3):
        for row in product((*few, b'true'), repeat=n):
            yield b' '.join(row)
            if 1 < n:
                yield b''.join(row)
    for row in product(few, repeat=4):
        yield b' '.join(row)


def trees(operators, first=1):
    """every formula of so many operators, in full parentheses, with how many actions it names: they
    are numbered from the first one on, left to right"""
    if operators == 0:
        yield b'%d' % first, 1
        return
    for part, n in trees(operators - 1, first):
        yield b'(not %s)' % part, n
    for before in range(operators):
        for left, n in trees(before, first):
            for right, m in trees(operators - 1 - before, first + n):
                for operator in OPERATORS:
                    yield b'(%s %s %s)' % (left, operator, right), n + m


def bare(line):
    """without its parentheses"""
    return line.replace(b'(', b'').replace(b')', b'')


def groupings():
    """Each formula of up to three operators, in full parentheses and in none; `and` and `or` in
    each order, with "not" before operands, and with parentheses about two of them."""
    whole = [line for n in range(4) for line, _ in trees(n)]
    yield from whole
    yield from sorted({bare(line) for line in whole})
    for row in product(OPERATORS, repeat=4):
        yield b'1 %s 2 %s 3 %s 4 %s 5' % row
    for row in product((b'', b'not '), OPERATORS, (b'', b'not '), OPERATORS, (b'', b'not ')):
        yield b'%s1 %s %s2 %s %s3' % row
        yield b'%s(1 %s %s2) %s %s3' % row
        yield b'%s1 %s %s(2 %s %s3)' % row
    # equal numbers and words have an entry each
    yield b'3 or 3'
    yield b'3 and 3 and 3'
    yield b'true or true or not true'
    yield b'(3 or 4) and (3 or 4)'


def meanings():
    """numbers of actions with lines, for which the actions are worked out"""
    for line in (b'true', b'false', b'0', b'8', b'not 0', b'not not 8', b'not true', b'not false'):
        yield 9, line
    for line in sorted({bare(line) for n in (2, 3) for line, _ in trees(n)})[::3]:
        yield 5, line
    for line in (b'not (1 or 2) and not 3', b'not (1 and 2) or 3', b'not (not 1 or not 2) or 4',
                 b'(1 or 2) and (2 or 3)', b'1 or 2 and 2 or 3', b'not 1 and not 2 and not 3',
                 b'not 1 or 1', b'not 1 and 1', b'not (1 or 1)', b'0 or 1 or 2 or 3 or 4',
                 b'not not not 2', b'true and not 4', b'false or (true and (4 or false))'):
        yield 5, line


def judged_lines():
    """the body in a sheet whose state a has a transition of action a: the word has the actions"""
    for actions, line in meanings():
        body, said = body_of(actions, line), actions_said(line, actions)
        yield reference_request(with_entries(actions, body)), (
            'reference 0 0 %d|' % sum(1 << a for a in said))


def read_lines():
    """the body in a sheet of one state, for no action and for as many as a plan can have: the
    reader takes it"""
    longest = b'not (%s)' % b' or '.join(b'%d' % (254 - a) for a in range(16))
    for actions, line in ((0, b'true'), (0, b'not false or true'), (255, b'254'), (255, longest)):
        body = body_of(actions, line)
        s = sheet_of(plan(1, actions, []), body, rule((5, body[0] - 1, 1), T))
        yield read_request(s), 'read 0 0 17 4 21 %d %d 7|' % (len(body), 21 + len(body))


def lines():
    for line in (*every_byte(), *misspelt(), *touching(), *spaced()):
        yield from fitting(255, line)
    for i, line in enumerate((*sequences(), *groupings())):
        yield from fitting(9, line, i % 2)
    yield from lines_at_limits()
    rng = random.Random(6)
    for _ in range(100):
        yield from random_typing(rng)
