"""What docs/AUT.md says, each with the start of what the page says it gives."""
from inputs.aut_parts import text
from inputs.examples import CUT
from inputs.parts import plan
from oracle.protocol import aut_request


def lines(*given):
    return ''.join(line + '\n' for line in given).encode()


def taken(given, body):
    return aut_request(given, len(body) + 1, 165), (
        'aut 0 0 %d|out %sa5|' % (len(body), body.hex()))


def refused(number, given, size=9):
    return aut_request(given, size, 165), 'aut %d 0 0|out %s|' % (number, 'a5' * size)


def examples():
    first, one = 'des (0, 1, 2)', plan(2, 1, [(0, 0, 1)])
    yield lines('des (0, 0, 1)'), plan(1, 0, [])
    yield lines(first, '(0, "a", 1)'), one
    yield lines('des(0,1,2)', '(0,"",1)'), one
    yield lines('des (0, 2, 2)', '(0, "x", 1)', '(0,"x",1)'), one
    yield lines('des (0, 2, 2)', '(0, "x", 1)', '(0, "x ", 1)'), plan(2, 2, [(0, 0, 1), (0, 1, 1)])
    yield lines('des (0, 3, 3)', '(2, "b", 1)', '(0, "a", 1)', '(1, "b", 0)'), plan(
        3, 2, [(0, 1, 1), (1, 0, 0), (2, 0, 1)])
    yield lines('des (0, 3, 2)', '(1, "b", 0)', '(0, "a", 1)', '(0, "b", 1)'), plan(
        2, 2, [(0, 0, 1), (0, 1, 1), (1, 0, 0)])
    # the plan of the examples, and with the line of state 3 before that of state 4
    transitions = [(0, 0, 1), (1, 1, 2), (1, 2, 3), (2, 3, 4), (3, 5, 6), (4, 4, 5), (5, 5, 6)]
    yield CUT['text'], plan(7, 6, transitions)
    yield CUT['text'].replace(b' ', b'').replace(b'probe,', b'probe, '), plan(7, 6, transitions)
    *others, fifth, sixth, last = CUT['text'].splitlines(True)
    yield b''.join((*others, last, fifth, sixth)), plan(
        7, 6, [*transitions[:4], (3, 4, 6), (4, 5, 5), (5, 4, 6)])
    # each label but by its bytes
    yield text(2, (0, b'cut', 1), (0, b'Cut', 1), (0, b'cut ', 1), (0, 'grün'.encode(), 1)), plan(
        2, 4, [(0, action, 1) for action in range(4)])


def unreadable():
    first, line = 'des (0, 1, 2)', '(0, "a", 1)'
    yield b''
    yield lines(first, line)[:-1]
    yield lines(first, line).replace(b'\n', b'\r\n')
    yield lines(first, '', line)
    yield lines(first, line, '')
    yield lines('# drawn on Monday', first, line)
    yield lines(first, '# drawn on Monday', line)
    for other in ('DES (0, 1, 2)', 'des (0, 1)', 'des (1, 1, 2)', 'des (0, 2, 2)',
                  'des (00, 1, 2)', 'des (0, 01, 2)', 'des (0, 1, 02)'):
        yield lines(other, line)
    yield lines('des (0, 2, 2)', line, line, line)
    for other in ('(0, a, 1)', '(0, *, 1)', "(0, 'a', 1)", '(0, "say "go"", 1)', '(0, "a\\"b", 1)',
                  '(00, "a", 1)', '(07, "a", 1)', '(-1, "a", 1)', '(s0, "a", s1)', '( 0, "a", 1)',
                  '(0 , "a" , 1)', '(0,  "a", 1)', '(0, "a", 1) ', '(0,\t"a", 1)', '(0, "a", 1);',
                  '(0, "a", 1) (1, "b", 0)'):
        yield lines(first, other)


def refusals():
    first, line = 'des (0, 1, 2)', '(0, "a", 1)'
    for given in unreadable():
        yield refused(37, given)
    yield refused(38, lines(first, '(0, "a", 2)'))
    yield refused(39, lines('des (0, 0, 129)'))
    yield refused(22, lines(first, line), 6)
    yield refused(37, lines('des (1, 0, 0)'))
    yield refused(38, lines('des (0, 0, 0)'))
    yield refused(38, lines('des (0, 1, 129)', '(0, "a", 129)'))
    yield refused(39, lines('des (0, 1, 129)', '(0, "a", 128)'))
    large = 'des (0, 1, 100000000000000000000)'
    yield refused(39, lines(large, '(99999999999999999999, "a", 0)'))
    yield refused(38, lines(large, '(100000000000000000000, "a", 0)'))
    # what the page says to write instead
    for label in ('a', 'say go', 'a\'b', ''):
        yield taken(lines(first, '(0, "%s", 1)' % label), plan(2, 1, [(0, 0, 1)]))
    yield taken(lines('des (0, 2, 2)', line, '(1, "b", 0)'), plan(2, 2, [(0, 0, 1), (1, 1, 0)]))
    yield taken(lines('des (0, 2, 2)', line, line), plan(2, 1, [(0, 0, 1)]))


def auts_to_try():
    """the page's examples and refusals; and docs/TRIALS.md's example"""
    yield aut_request(CUT['text'], 26, 165), 'aut 0 0 25|out 0706070000000101'
    for given, body in examples():
        yield taken(given, body)
    yield from refusals()
