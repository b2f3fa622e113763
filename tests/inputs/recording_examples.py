"""Recordings for the example sheets, and small ones for rules that hold until an action comes, each
with what it must give, found by hand."""
from inputs.examples import CUT, SERVICE
from inputs.parts import (
    F, GREATEST_LOOP, GREATEST_X, K, K8, LEAST, LEAST_LOOP, LEAST_X, T, plan, set_at)
from inputs.recording_parts import (
    ANY, END, UNTIL_0, always, both, either, every, found, least, none, refused, repeated, sheet,
    some)
from oracle.sheet import sheet_of


def of_the_examples():
    """of service.sheet each beginning too; cut.sheet asks for a release, K for an action 2, which
    no run has before its first action"""
    s, recordings = sheet_of(*SERVICE['bodies']), SERVICE['recordings']
    first, second = recordings['first'], recordings['second']
    yield found(s, first, second, 'second', 5)
    yield found(s, second, first, 'first', 5)
    for n in range(len(first) + 1):
        yield found(s, first[:n], b'', 'first', 8) if n > 7 else none(s, first[:n], b'')
        yield found(s, second[:4], first[:n], 'second', 8) if n > 7 else none(s, second[:4],
                                                                             first[:n])
    for n in range(len(second) + 1):
        which, m = ('second', 5) if n > 4 else ('first', 8)
        yield found(s, first, second[:n], which, m)
    yield found(s, second[3:], first, 'first', 2)
    yield refused(43, s, first, second + b'\6')
    for s in (K, sheet_of(*CUT['bodies'])):
        yield found(s, b'\2', b'\0\2', 'first', 0)
        yield found(s, b'', b'', 'first', 0)
        yield refused(43, s, b'\2', b'\6')
        yield refused(42, s, b'\2' * 128, b'\6')
    for run in (b'', b'\0', b'\2', b'\1\1\0'):
        yield none(K8, run, b'\0\1')
        yield none(GREATEST_X, run, run)
        yield found(LEAST_X, run, run, 'first', 0)
    # P11's sheets: on a run both hold, as a run has an end
    for run in (b'', b'\0', b'\0' * 127):
        yield none(LEAST_LOOP, run, b'\0\0')
        yield none(GREATEST_LOOP, b'', run)
    yield none(sheet_of(*LEAST), b'', b'')
    # K with its second binder another: no run of actions 1 is without end
    yield found(set_at(K, 59, 8), b'\1\1', b'\1\2', 'first', 0)


def of_both():
    """which recording: one of them empty, both, equal ones, equal lengths, a common beginning, one
    that ends before the other fails"""
    for first, second, which, n in (
            ('', '', 'none', 0), ('1', '', 'none', 0), ('', '1', 'none', 0), ('12', '1', 'none', 0),
            ('12', '12', 'none', 0), ('1', '321', 'none', 0),
            ('0', '', 'first', 1), ('', '0', 'second', 1), ('0', '0', 'first', 1),
            ('0', '1', 'first', 1), ('1', '0', 'second', 1), ('00', '0', 'first', 1),
            ('10', '0', 'second', 1), ('0', '10', 'first', 1), ('10', '20', 'first', 2),
            ('20', '10', 'first', 2), ('10', '10', 'first', 2), ('130', '120', 'first', 3),
            ('110', '10', 'second', 2), ('10', '110', 'first', 2), ('1230', '120', 'second', 3),
            ('120', '1230', 'first', 3), ('123', '1230', 'second', 4), ('1230', '123', 'first', 4),
            ('11', '1110', 'second', 4), ('1110', '11', 'first', 4), ('1', '22220', 'second', 5),
            ('01', '10', 'first', 1), ('10', '01', 'second', 1), ('1201', '1021', 'second', 2),
            ('1021', '1201', 'first', 2), ('10300', '10300', 'first', 2),
            ('12301', '12310', 'first', 4), ('12310', '12301', 'second', 4)):
        yield found(UNTIL_0, *(bytes(map(int, run)) for run in (first, second)), which, n)


def whole_runs():
    """rules that fail on whole recordings alone, on the empty beginning alone, on every beginning
    but one, and on every second one"""
    for n in (1, 2, 3, 5, 9):
        run, longer = b'\1' * n, b'\2' * (n + 1)
        most = sheet(repeated(every, n, F))     # fewer than n actions
        yield found(most, run, run[1:], 'first', n)
        yield found(most, run[1:], run, 'second', n)
        yield none(most, run[1:], longer[:n - 1])
        yield found(most, longer, run, 'first', n)
        yield found(sheet(repeated(some, n, T)), longer, run, 'first', 0)
        # not as many as n
        other = sheet(either(repeated(every, n, F), repeated(some, n + 1, T)))
        yield found(other, longer, run, 'first', n)
        yield found(other, b'', longer, 'second', n)
        yield none(other, run[1:], b'')
    even = sheet(least('X', either(END, some(ANY, some(ANY, 'X')))))
    yield none(even, b'', b'')
    yield found(even, b'', b'\1', 'second', 1)
    yield found(even, b'\1\1', b'\1', 'first', 1)
    # an action 0 has to have a 1 behind it: it fails before the 1 comes, and then holds again
    paired = sheet(always(every(0, some(1, T))))
    yield found(paired, b'\0\1', b'\2\0\1', 'first', 1)
    yield found(paired, b'\2\0\1', b'\0\1', 'second', 1)
    yield found(paired, b'\2\2', b'\3\2\0\1\0', 'second', 3)
    yield none(paired, b'\2\1\1', b'')


def parts_of_rules():
    """an action that one part of a rule forbids after the other's"""
    s = sheet(both(always(every(0, F)), always(every(1, every(2, F)), 'Y')))
    for first, second, which, n in (
            (b'\1\3\2', b'\1\2', 'second', 2), (b'\1\1\2', b'\0', 'second', 1),
            (b'\1\2\0', b'\3\0', 'first', 2), (b'\3\2\1', b'\2\1', 'none', 0),
            (b'\2\1\3\0', b'\3\3\1\2', 'first', 4)):
        yield found(s, first, second, which, n)
    # a run of an action that the rule does not look at
    s = sheet(always(every(0, F)), plan(1, 200, []))
    yield found(s, b'\xc7' * 50 + b'\0', b'\x64' * 49 + b'\0', 'second', 50)
    yield none(s, bytes(range(1, 100)), bytes(range(100, 200)))


def examples():
    yield from of_the_examples()
    yield from of_both()
    yield from whole_runs()
    yield from parts_of_rules()
