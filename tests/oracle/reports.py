"""The report for the counter terminal: a list of queries on a table just cleared, a line for each,
and one with their visits in all."""
from oracle.rows import Sheet, clear, query
from oracle.sheet import Refused

MOST = 64                               # queries
ROOM = 1036                             # bytes of the output


def asked(s, state, tab):
    """word and visits of one line"""
    try:
        verdict, visits = query(s, state, tab)
        return 'true' if verdict else 'false', visits
    except Refused:
        return 'refused', 0


def report(s, states, tab, size):
    """the text; the table is cleared and the queries fill it"""
    if len(states) > MOST:
        raise Refused(36)
    clear(s, bytearray(tab))            # what clearing refuses, with the table left as it is
    if size < ROOM:
        raise Refused(22)
    clear(s, tab)
    text, tally = '', 0
    for state in states:
        word, visits = asked(s, state, tab)
        text += '%d %s %d\n' % (state, word, visits)
        tally += visits
    assert tally == Sheet(s).stored_count(tab)
    return (text + 'total %d\n' % tally).encode()
