"""The trial driver's protocol (docs/TRIALS.md): requests as bytes, and the lines they give."""
from oracle.allowances import allowance
from oracle.audits import audit
from oracle.aut import aut_body
from oracle.branches import commit, propose
from oracle.closest import closest
from oracle.lines import line_body
from oracle.patterns import translate
from oracle.recordings import shortest
from oracle.reports import report
from oracle.rows import clear, query
from oracle.sheet import Refused, children, four, read_sheet, two, word, write_sheet
from oracle.table1 import guarded, reference


def blob_of(b):
    return two(len(b)) + bytes(b)


def read_request(s):
    return b'\x01' + blob_of(s)


def guard_request(s):
    return b'\x02' + blob_of(s)


def reference_request(s):
    return b'\x03' + blob_of(s)


def list_request(s, size, fill, states):
    return b'\x04' + blob_of(s) + two(size) + bytes([fill]) + blob_of(states)


def query_request(s, state, tab):
    return b'\x05' + blob_of(s) + bytes([state]) + blob_of(tab)


def write_request(p, a, r, size, fill):
    return b'\x06' + blob_of(p) + blob_of(a) + blob_of(r) + two(size) + bytes([fill])


def pattern_request(s, pattern, size, fill):
    return b'\x07' + blob_of(s) + blob_of(pattern) + two(size) + bytes([fill])


def children_request(kind):
    return bytes([8, kind])


def line_request(actions, line, size, fill):
    return bytes([9, actions]) + blob_of(line) + two(size) + bytes([fill])


def report_request(s, states, size, fill, room, other):
    return (b'\x0a' + blob_of(s) + blob_of(states) + two(size) + bytes([fill]) + two(room)
            + bytes([other]))


def aut_request(text, size, fill):
    return b'\x0b' + blob_of(text) + two(size) + bytes([fill])


def propose_request(s, branch):
    return b'\x0c' + blob_of(s) + bytes(branch)


def commit_request(s, branch, proposal, size, fill):
    place, length, tag = proposal
    return (b'\x0d' + blob_of(s) + bytes(branch) + two(place) + two(length) + four(tag)
            + two(size) + bytes([fill]))


def shortest_request(s, first, second):
    return b'\x0e' + blob_of(s) + blob_of(first) + blob_of(second)


def audit_request(s, tab):
    return b'\x0f' + blob_of(s) + blob_of(tab)


def allowance_request(s, states, visits, tables):
    return b'\x10' + blob_of(s) + blob_of(states) + four(visits) + blob_of(tables)


def closest_request(s, tab):
    return b'\x11' + blob_of(s) + blob_of(tab)


def yes(b):
    return 'true' if b else 'false'


def reported(name, call, *refused):
    """what a call gives, or its refusal with the values that a refused call has"""
    try:
        values = (0, 0, *call())
    except Refused as f:
        values = (f.number, f.place, *refused)
    return '%s %s\n' % (name, ' '.join(map(str, values)))


def judged(sheet, state, tab):
    verdict, visits = query(sheet, state, tab)
    return yes(verdict), visits


def cleared(sheet, tab):
    clear(sheet, tab)
    return []


def asked(sheet, state, tab):
    return reported('query', lambda: judged(sheet, state, tab), 'false', 0)


def granted(sheet, states, visits, tables, lines):
    for need, grant, short, verdict, filled in allowance(sheet, states, visits, tables):
        lines.append('bench %d %d %s %s %d\n' % (need, grant, yes(short), yes(verdict), filled))
    return []


def searched(sheet, tab):
    found, *numbers = closest(sheet, tab)
    return yes(found), *numbers


def written(made, out):
    out[:len(made)] = made
    return [len(made)]


class Cut(Exception):
    """the input ends, or a byte is no request"""


class Stream:
    def __init__(self, given):
        self.given, self.at = given, 0

    def take(self, n):
        if self.at + n > len(self.given):
            raise Cut
        self.at += n
        return self.given[self.at - n:self.at]

    def byte(self):
        return self.take(1)[0]

    def word(self):
        return word(self.take(2), 0)

    def long(self):
        return int.from_bytes(self.take(4), 'little')

    def blob(self):
        return self.take(self.word())

    def branch(self):
        """from, action and to"""
        return tuple(self.take(3))

    def proposal(self):
        return self.word(), self.word(), self.long()

    def buffer(self):
        """a length and a fill byte"""
        size = self.word()
        return bytearray(self.take(1) * size)


def answer_read(stream):
    sheet = stream.blob()
    return reported('read', lambda: read_sheet(sheet), *[0] * 6)


def answer_guard(stream):
    sheet = stream.blob()
    return reported('guard', lambda: [yes(guarded(sheet))], 'false')


def answer_reference(stream):
    sheet = stream.blob()
    return reported('reference', lambda: [reference(sheet)], 0)


def answer_list(stream):
    sheet, tab, states = stream.blob(), stream.buffer(), stream.blob()
    text = reported('clear', lambda: cleared(sheet, tab))
    return text + ''.join(asked(sheet, s, tab) for s in states) + 'table %s\n' % tab.hex()


def answer_query(stream):
    sheet, state, tab = stream.blob(), stream.byte(), bytearray(stream.blob())
    return asked(sheet, state, tab) + 'table %s\n' % tab.hex()


def answer_write(stream):
    bodies, out = [stream.blob() for _ in range(3)], stream.buffer()
    text = reported('write', lambda: written(write_sheet(*bodies, len(out)), out), 0)
    return text + 'out %s\n' % out.hex()


def answer_pattern(stream):
    sheet, pattern, out = stream.blob(), stream.blob(), stream.buffer()
    text = reported('pattern', lambda: written(translate(sheet, pattern, len(out)), out), 0)
    return text + 'out %s\n' % out.hex()


def answer_children(stream):
    return 'children %d\n' % children(stream.byte())


def answer_line(stream):
    actions, line, out = stream.byte(), stream.blob(), stream.buffer()
    text = reported('line', lambda: written(line_body(actions, line, len(out)), out), 0)
    return text + 'out %s\n' % out.hex()


def answer_report(stream):
    sheet, states, tab, out = stream.blob(), stream.blob(), stream.buffer(), stream.buffer()
    text = reported('report', lambda: written(report(sheet, states, tab, len(out)), out), 0)
    return text + 'table %s\nout %s\n' % (tab.hex(), out.hex())


def answer_aut(stream):
    given, out = stream.blob(), stream.buffer()
    text = reported('aut', lambda: written(aut_body(given, len(out)), out), 0)
    return text + 'out %s\n' % out.hex()


def answer_propose(stream):
    sheet, branch = stream.blob(), stream.branch()
    return reported('propose', lambda: propose(sheet, branch), 0, 0, 0)


def answer_commit(stream):
    sheet, branch = stream.blob(), stream.branch()
    proposal, out = stream.proposal(), stream.buffer()
    text = reported('commit', lambda: written(commit(sheet, branch, proposal, len(out)), out), 0)
    return text + 'out %s\n' % out.hex()


def answer_shortest(stream):
    sheet, first, second = stream.blob(), stream.blob(), stream.blob()
    return reported('shortest', lambda: shortest(sheet, first, second), 'none', '')


def answer_audit(stream):
    sheet, tab = stream.blob(), stream.blob()
    return reported('audit', lambda: [yes(audit(sheet, tab))], 'false')


def answer_allowance(stream):
    sheet, states, visits = stream.blob(), stream.blob(), stream.long()
    tables, lines = bytearray(stream.blob()), []
    text = reported('allowance', lambda: granted(sheet, states, visits, tables, lines))
    return text + ''.join(lines) + 'table %s\n' % tables.hex()


def answer_closest(stream):
    sheet, tab = stream.blob(), bytearray(stream.blob())
    text = reported('closest', lambda: searched(sheet, tab), 'false', 0, 0, 0)
    return text + 'table %s\n' % tab.hex()


ANSWERS = {1: answer_read, 2: answer_guard, 3: answer_reference, 4: answer_list, 5: answer_query,
           6: answer_write, 7: answer_pattern, 8: answer_children, 9: answer_line,
           10: answer_report, 11: answer_aut, 12: answer_propose, 13: answer_commit,
           14: answer_shortest, 15: answer_audit, 16: answer_allowance, 17: answer_closest}


def answered(given):
    """each request of a stream with what it gives"""
    stream = Stream(given)
    try:
        while True:
            start, number = stream.at, stream.byte()
            if number not in ANSWERS:
                raise Cut
            text = ANSWERS[number](stream)
            yield given[start:stream.at], text.encode()
    except Cut:
        return


def answers(given):
    return b''.join(text for _, text in answered(given))
