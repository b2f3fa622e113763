"""One allowance of visits for several benches: the visits are dealt singly, and a bench that gets
all it needs queries."""
from oracle.rows import Sheet, query
from oracle.sheet import Refused

MOST = 8                                # benches


def deal(needs, visits):
    """of each bench its grant: one visit at a time in bench order, round after round, to benches
    still short"""
    grants = [0] * len(needs)
    while True:
        short = [i for i, need in enumerate(needs) if grants[i] < need]
        if not short:
            return grants
        for i in short:
            if visits == 0:
                return grants
            grants[i] += 1
            visits -= 1


def queried(s, state, tab):
    """of a query of a bench's state on its table the need, the verdict, the visits and the table
    left"""
    cells, left = Sheet(s).cells(), bytearray(tab)
    verdict, visits = query(s, state, left)
    need = sum(before == 0 and after > 0 for before, after in zip(tab[:cells], left))
    return need, verdict, visits, left


def allowance(s, states, visits, tables):
    """of each bench its need, its grant, whether it is short, the verdict and the visits; benches
    that are not short fill their tables"""
    if not 1 <= len(states) <= MOST:
        raise Refused(44)
    size = Sheet(s).table_size()
    places = [slice(i * size, (i + 1) * size) for i in range(len(states))]
    # a refusal turns the call down before any table changes
    found = [queried(s, state, tables[place]) for state, place in zip(states, places)]
    benches = []
    grants = deal([need for need, *_ in found], visits)
    for (need, verdict, filled, left), grant, place in zip(found, grants, places):
        if grant < need:
            benches.append((need, grant, True, False, 0))
        else:
            benches.append((need, grant, False, verdict, filled))
            tables[place] = left
    return benches
