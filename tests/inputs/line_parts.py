"""Lines, bodies of lines and sheets for them, that the cases are made of."""
from inputs.parts import T, plan, rule
from oracle.lines import line_body
from oracle.protocol import line_request
from oracle.sheet import Refused, sheet_of


def chain(operator, *operands):
    """operands in a row"""
    return (b' %s ' % operator).join(operands)


def nested(operator, *operands):
    """grouped to the right by parentheses"""
    first, *others = operands
    return b'%s %s (%s)' % (first, operator, nested(operator, *others)) if others else first


def nots(count, operand):
    return b'not ' * count + operand


def enclosed(depth, part, closing=None):
    """in so many parentheses, or with another number of closing ones"""
    return b'(' * depth + part + b')' * (depth if closing is None else closing)


def body_of(actions, line):
    """what the line becomes, if anything"""
    try:
        return line_body(actions, line, 65535)
    except Refused:
        return b''


def fitting(actions, line, *more):
    """requests with an output as long as the body, or longer by so many bytes; of two bytes for a
    line that becomes none"""
    size = len(body_of(actions, line))
    for extra in more or (0,):
        yield line_request(actions, line, size + extra if size else 2, 170)


def with_entries(actions, body):
    """a sheet with the body; state a has one transition, of action a, and the rule says that one by
    an action of the last entry can be done"""
    p = plan(actions, actions, [(a, a, a) for a in range(actions)])
    return sheet_of(p, body, rule((4, body[0] - 1, 1), T))
