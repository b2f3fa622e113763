"""Action formulas typed as a line: what a line says, and the kind 2 body that it becomes."""
import re
from functools import reduce

from oracle.sheet import Refused

FALSE, TRUE, ACTION, OR, AND, NOT = range(6)
CONSTANTS = {b'false': FALSE, b'true': TRUE}
OPERATORS = {b'or': OR, b'and': AND, b'not': NOT}


class Part:
    """An action has its number, as it is typed; an operator has one or two parts."""

    def __init__(self, kind, number=b'', parts=()):
        self.kind, self.number, self.parts = kind, number, parts


def tokens(line):
    """Letters and digits that touch are one token; so is each other byte that is no space."""
    return re.findall(rb'[0-9a-z]+|[^ ]', line)


def operand(token):
    if token in CONSTANTS:
        return Part(CONSTANTS[token])
    if re.fullmatch(rb'0|[1-9][0-9]*', token):
        return Part(ACTION, token)
    raise Refused(32)


def split(items, operator):
    """what stands before, between and behind the places of an operator"""
    found = [[]]
    for item in items:
        if item == operator:
            found.append([])
        else:
            found[-1].append(item)
    return found


def joined(operator, parts):
    """grouped to the left"""
    return reduce(lambda left, right: Part(operator, parts=(left, right)), parts)


def factor(items):
    """one part, and any number of "not" before it"""
    if not items or items[-1] == NOT or any(item != NOT for item in items[:-1]):
        raise Refused(32)
    return reduce(lambda part, _: Part(NOT, parts=(part,)), items[:-1], items[-1])


def product(items):
    return joined(AND, map(factor, split(items, AND)))


def total(items):
    return joined(OR, map(product, split(items, OR)))


def read_line(line):
    """32; what the line says. The last of the groups has what stands behind the latest parenthesis
    that is still open, the first what stands in none."""
    groups = [[]]
    for token in tokens(line):
        if token == b'(':
            groups.append([])
        elif token == b')':
            inner = groups.pop()
            if not groups:
                raise Refused(32)
            groups[-1].append(total(inner))
        else:
            groups[-1].append(OPERATORS[token] if token in OPERATORS else operand(token))
    if len(groups) > 1:
        raise Refused(32)
    return total(groups[0])


def put(part, entries):
    """all of the left (or only) part's entries, all of the right's, then its own; its number"""
    x, y = [*(put(p, entries) for p in part.parts), 0, 0][:2]
    entries.append((part.kind, int(part.number) if part.kind == ACTION else x, y))
    return len(entries) - 1


def line_body(actions, line, size):
    """the kind 2 body, for an output of so many bytes"""
    whole = read_line(line)
    words = [token for token in tokens(line) if token not in (b'(', b')')]
    if any(len(word) > 3 or int(word) >= actions for word in words if word.isdigit()):
        raise Refused(33)
    if len(words) > 32:
        raise Refused(34)
    entries = []
    put(whole, entries)
    assert len(entries) == len(words)
    body = bytes([len(entries)]) + bytes(v for entry in entries for v in entry)
    if size < len(body):
        raise Refused(22)
    return body
