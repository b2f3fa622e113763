"""What docs/LINES.md says, each with the start of what the page says it gives."""
from inputs.examples import CUT
from inputs.line_parts import body_of, chain, with_entries
from inputs.parts import T, rule, table
from oracle.protocol import line_request, reference_request
from oracle.sheet import sheet_of


def taken(actions, line, body):
    return line_request(actions, line, len(body) + 1, 165), (
        'line 0 0 %d|out %sa5|' % (len(body), body.hex()))


def refused(number, line, actions=6, size=97):
    return line_request(actions, line, size, 165), (
        'line %d 0 0|out %s|' % (number, 'a5' * size))


def met(actions, body, by):
    """the last entry of the body is met by these actions"""
    return reference_request(with_entries(actions, body)), (
        'reference 0 0 %d|' % sum(1 << a for a in by))


def examples():
    """for six actions: the line, its entries, the actions that meet it"""
    first, second, either = (2, 1, 0), (2, 2, 0), (3, 0, 1)
    yield b'5', [(2, 5, 0)], [5]
    yield b'true', [(1, 0, 0)], range(6)
    yield b'false', [(0, 0, 0)], []
    yield b'1 or 2', [first, second, either], [1, 2]
    yield b'not 5', [(2, 5, 0), (5, 0, 0)], range(5)
    yield b'not (1 or 2)', [first, second, either, (5, 2, 0)], [0, 3, 4, 5]
    yield b'not 1 and not 2', [first, (5, 0, 0), second, (5, 2, 0), (4, 1, 3)], [0, 3, 4, 5]
    yield b'not 1 or 2', [first, (5, 0, 0), second, (3, 1, 2)], [0, 2, 3, 4, 5]
    yield b'1 and 2', [first, second, (4, 0, 1)], []
    yield b'(1 or 2) and not 2', [first, second, either, second, (5, 3, 0), (4, 2, 4)], [1]
    yield b'not 3 and 4 or 5', [
        (2, 3, 0), (5, 0, 0), (2, 4, 0), (4, 1, 2), (2, 5, 0), (3, 3, 4)], [4, 5]
    yield b'3 or 4 or 5', [(2, 3, 0), (2, 4, 0), either, (2, 5, 0), (3, 2, 3)], [3, 4, 5]
    yield b'3 or (4 or 5)', [(2, 3, 0), (2, 4, 0), (2, 5, 0), (3, 1, 2), (3, 0, 3)], [3, 4, 5]
    yield b'3 or 3', [(2, 3, 0), (2, 3, 0), either], [3]


def readings():
    """lines that are read alike"""
    yield b'not 3 and 4', b'(not 3) and 4'
    yield b'not not 3', b'not (not 3)'
    yield b'3 or 4 and 5', b'3 or (4 and 5)'
    yield b'3 and 4 or 5', b'(3 and 4) or 5'
    yield b'3 or 4 or 5', b'(3 or 4) or 5'
    yield b'3 and 4 and 5', b'(3 and 4) and 5'
    yield b'not 3 and 4 or 5', b'((not 3) and 4) or 5'
    yield b'1 or 2 and not 3 or 4', b'(1 or (2 and (not 3))) or 4'
    yield b'not 3', b'not(3)'
    yield b'3 and 4', b'(3)and(4)'


def counts():
    """lines with the number of their entries"""
    yield b'not 1 and not 2', 5
    yield b'not (1 or 2)', 4
    yield b'3 and 4 or 3 and 5', 7
    yield b'3 and (4 or 5)', 5
    yield b'not not 3', 3
    yield b'3', 1
    yield b'0 or 1 or 2 or 3 or 4', 9
    yield b'not 5', 2


def limits_to_try():
    for actions, line, by in ((20, b'10 or 11 or 12 or 13 or 14', range(10, 15)),
                              (20, b'not (0 or 1)', range(2, 20))):
        yield taken(actions, line, body_of(actions, line))
        yield met(actions, body_of(actions, line), by)
    for line, count in counts():
        assert body_of(6, line)[0] == count
        yield taken(6, line, body_of(6, line))
    numbers = [b'%d' % (i % 6) for i in range(17)]
    sixteen = chain(b'or', *numbers[:16])
    yield line_request(6, sixteen, 97, 165), 'line 0 0 94|out 1f'
    yield line_request(6, b'not (%s)' % sixteen, 97, 165), 'line 0 0 97|out 20'
    yield refused(34, chain(b'or', *numbers))
    yield refused(33, chain(b'or', *numbers[1:], b'6'))
    for number in (0, 7, 10):
        yield taken(20, b'%d' % number, table((2, number, 0)))
    # the highest number of actions, and none
    yield taken(255, b'254', table((2, 254, 0)))
    yield refused(33, b'255', 255)
    yield taken(0, b'true', table((1, 0, 0)))
    yield taken(0, b'false', table((0, 0, 0)))
    yield refused(33, b'0', 0)


def refusals_to_try():
    yield refused(33, b'3 or 6')
    yield refused(22, b'1 or 2', size=9)
    yield refused(32, b'6 or')
    for line in (b'', b' ', b'   ', b'07', b'00', b'3and 4', b'3 and4', b'3and4', b'not3',
                 b'notnot 3', b'3 4', b'3, 4', b'3-5', b'3 or', b'and 3', b'3 and or 4', b'3 not 4',
                 b'not', b'(3 or 4', b'3 or 4)', b'()', b'3 (4)', b'Not 3', b'3 nor 4', b'05',
                 b'-1', b'3\tor 4', b'3 or 4\n'):
        yield refused(32, line, size=4)
    for line in (b'true', b'false', b'3 and 4', b'not 3', b'not(3)', b'not not 3', b'3 or 4',
                 b'3 or 4 or 5', b'3', b'3 and not 4', b'(3 or 4)', b'3 or (4)', b'not (3 or 4)',
                 b'5', b'1', b'not 1'):
        yield taken(6, line, body_of(6, line))


def lines_to_try():
    """the page's examples, readings, limits and refusals; and docs/TRIALS.md's example"""
    yield line_request(9, b'not 3 and 4 or 5', 20, 165), (
        'line 0 0 19|out 06020300050000020400040102020500030304a5|')
    for line, entries, by in examples():
        yield taken(6, line, table(*entries))
        yield met(6, table(*entries), by)
    # "an action of the line can be done", with the plan of the examples
    body = body_of(6, b'not 3 and 4 or 5')
    yield reference_request(sheet_of(CUT['bodies'][0], body, rule((4, 5, 1), T))), (
        'reference 0 0 %d|' % (1 << 3 | 1 << 4 | 1 << 5))
    for line, other in readings():
        yield taken(6, line, body_of(6, line))
        yield taken(6, other, body_of(6, line))
    yield from limits_to_try()
    yield from refusals_to_try()
