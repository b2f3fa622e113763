"""Plans in the Aldebaran text form: what an .aut text says, and the kind 1 body that it becomes."""
import re

from oracle.sheet import Refused, check_plan, two

MOST_STATES, MOST_LABELS, MOST_TRANSITIONS = 128, 255, 2048

NUMBER = rb'(0|[1-9][0-9]*)'
# `des (first, transitions, states)` and `(from, "label", to)`: a shown space may be missing
FIRST = re.compile(rb'des ?\(%s, ?%s, ?%s\)' % (NUMBER, NUMBER, NUMBER))
TRANSITION = re.compile(rb'\(%s, ?"([^"\n]*)", ?%s\)' % (NUMBER, NUMBER))


def fields(form, line):
    found = form.fullmatch(line)
    if not found:
        raise Refused(37)
    return found.groups()


def below(x, y):
    """of two numbers as they are written: they have no zero in front, and Python reads none of
    thousands of digits"""
    return (len(x), x) < (len(y), y)


def read_text(text):
    """37; the stated number of states and the transitions, their numbers as they are written"""
    if not text.endswith(b'\n'):
        raise Refused(37)
    head, *others = text[:-1].split(b'\n')
    first, count, states = fields(FIRST, head)
    transitions = [fields(TRANSITION, line) for line in others]
    if count != b'%d' % len(transitions) or first != b'0':
        raise Refused(37)
    return states, transitions


def aut_body(text, size):
    """the kind 1 body, for an output of so many bytes"""
    states, transitions = read_text(text)
    named = {b'0', *(t[0] for t in transitions), *(t[2] for t in transitions)}
    if not all(below(state, states) for state in named):
        raise Refused(38)
    actions = {}                        # the number of each label
    for _, label, _ in transitions:
        actions.setdefault(label, len(actions))
    merged = set(transitions)
    if (below(b'%d' % MOST_STATES, states) or len(actions) > MOST_LABELS
            or len(merged) > MOST_TRANSITIONS):
        raise Refused(39)
    rising = sorted((int(source), actions[label], int(to)) for source, label, to in merged)
    body = bytes([int(states), len(actions)]) + two(len(rising)) + bytes(
        x for transition in rising for x in transition)
    assert check_plan(body) == len(actions)
    if size < len(body):
        raise Refused(22)
    return body
