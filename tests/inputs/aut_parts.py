"""Texts of .aut files, and bodies of them, that the cases are made of."""
from oracle.aut import aut_body
from oracle.protocol import aut_request
from oracle.sheet import Refused


def written(number):
    """a number, or one that is written already"""
    return number if isinstance(number, bytes) else b'%d' % number


def des(count, states, first=0):
    return b'des (%s, %s, %s)\n' % (written(first), written(count), written(states))


def row(source, label, to):
    return b'(%s, "%s", %s)\n' % (written(source), label, written(to))


def text(states, *transitions, count=None, first=0):
    """with as many transitions as it says, or with another count"""
    count = len(transitions) if count is None else count
    return des(count, states, first) + b''.join(row(*t) for t in transitions)


def tight(given):
    """without the shown spaces, of a text whose labels have none"""
    return given.replace(b' ', b'')


def labels(count):
    """so many different labels, of one byte as long as there are any, the empty one last but one"""
    bytes_alone = [bytes([b]) for b in range(255, -1, -1) if bytes([b]) not in (b'"', b'\n', b' ')]
    return [*bytes_alone, b'', *(b'%d' % n for n in range(10, 99))][:count]


def body_of(given):
    """what the text becomes, if anything"""
    try:
        return aut_body(given, 65535)
    except Refused:
        return b''


def fitting(given, *more):
    """requests with an output as long as the body, or longer by so many bytes; of two bytes for a
    text that becomes none"""
    size = len(body_of(given))
    for extra in more or (0,):
        yield aut_request(given, size + extra if size else 2, 170)
