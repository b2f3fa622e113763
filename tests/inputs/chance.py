"""Bodies, sheets and requests made at random."""
from inputs.audit_parts import cells_left, closed, solved_cells
from inputs.parts import counted, plan, rule, table
from oracle.aut import aut_body
from oracle.branches import propose
from oracle.closest import closest
from oracle.lines import line_body
from oracle.patterns import translate
from oracle.protocol import (
    allowance_request, audit_request, aut_request, closest_request, commit_request, guard_request,
    line_request, list_request, pattern_request, propose_request, query_request, read_request,
    reference_request, report_request, shortest_request, write_request)
from oracle.recordings import shortest
from oracle.reports import ROOM
from oracle.rows import Sheet, query
from oracle.sheet import Refused, accepted, bodies_at, read_sheet, sheet_of, triples


def random_transitions(rng, states, count):
    """About half without loops; most others with one through up to three states, so that it can be
    reached from some states and not from others."""
    shape = rng.choice(('no loop', 'no loop', 'one', 'one', 'any'))
    place = rng.sample(range(states), states)
    found = {(rng.randrange(states), rng.randrange(6), rng.randrange(states)) for _ in range(count)}
    if shape != 'any':
        found = {t for t in found if place[t[0]] < place[t[2]]}
    if shape == 'one':
        loop = rng.sample(range(states), rng.randrange(min(states, 3)) + 1)
        found |= {(source, rng.randrange(6), to) for source, to in zip(loop, loop[1:] + loop[:1])}
    return sorted(found)


def random_rule(rng, most):
    nodes, binders = [], []

    def grow(budget, above):
        n = len(nodes)
        nodes.append(None)
        kind = rng.randrange(9)
        if budget < 2 or (budget < 3 and kind in (2, 3)):
            kind = rng.choice((0, 1, 6))
        if kind == 6 and not above:
            kind = 1
        if kind in (7, 8) and len(binders) >= 6 and rng.random() < 0.9:
            kind = rng.choice((4, 5))
        if kind in (0, 1):
            nodes[n] = (kind, 0, 0)
        elif kind == 6:
            nodes[n] = (6, rng.choice(above), 0)
        elif kind in (2, 3):
            left = rng.randrange(1, budget - 1)
            grow(left, above)
            second = len(nodes)
            grow(budget - 1 - left, above)
            nodes[n] = (kind, n + 1, second)
        elif kind in (4, 5):
            grow(budget - 1, above)
            nodes[n] = (kind, rng.randrange(3), n + 1)
        else:
            k = len(binders)
            binders.append(n)
            grow(budget - 1, above + [k])
            nodes[n] = (kind, k, n + 1)

    grow(most, [])
    return rule(*nodes)


def random_stretch(rng):
    return sorted((rng.randrange(6), rng.randrange(6)))


def random_sheet(rng, most):
    """of few states, accepted unless it has a seventh binder"""
    states = rng.randrange(1, 6)
    p = plan(states, 6, random_transitions(rng, states, rng.randrange(10)))
    first, last = random_stretch(rng)
    a = table(rng.choice(((2, first, 0), (6, first, last))), (1, 0, 0), (5, 0, 0),
              (rng.choice((3, 4)), 2, 0))
    return sheet_of(p, a, random_rule(rng, rng.choice(most)))


def random_states(rng, sheet):
    """for a list of queries: the plan's, and the first that it does not have"""
    return [rng.randrange(sheet.states + 1) for _ in range(rng.randrange(1, 7))]


def random_table(rng, cells):
    """cells of any value; the count is wrong now and then, by a little or in one of its bytes"""
    often, off = rng.choice((0, 0.5, 0.9)), 0
    if rng.random() < 0.3:
        off = rng.choice((1, -1, 3, -3, 256, -256, 65536, 1 << 24))
    return counted([0 if rng.random() < often else rng.randrange(3) for _ in range(cells)], off)


def random_judging(rng, most=(3, 8, 16)):
    """an accepted sheet, its guard check, its word, a list, a query on a table from elsewhere"""
    s = random_sheet(rng, most)
    try:
        sheet = Sheet(s)
    except Refused:
        return
    yield guard_request(s)
    yield reference_request(s)
    yield list_request(s, sheet.table_size() + rng.randrange(2), rng.randrange(256),
                       random_states(rng, sheet))
    yield query_request(s, rng.randrange(sheet.states), random_table(rng, sheet.cells()))


def damaged(rng, b):
    b = bytearray(b)
    for _ in range(rng.choice((0, 1, 1, 2))):
        if b:
            at = rng.randrange(len(b))
            b[at] = rng.choice((b[at] ^ 1, b[at] + 1 & 255, b[at] - 1 & 255, 0, rng.randrange(10),
                                rng.randrange(256)))
    if rng.random() < 0.03:
        b = b[:rng.randrange(len(b) + 1)]
    return bytes(b)


def random_reading(rng):
    """three bodies, some of them damaged, for the reader and for the writer"""
    count = rng.randrange(8)
    p = plan(5, 6, sorted({(rng.randrange(5), rng.randrange(6), rng.randrange(5))
                           for _ in range(count)}))
    first, last = random_stretch(rng)
    a = table((2, rng.randrange(6), 0), rng.choice(((1, 0, 0), (6, first, last))),
              (rng.choice((3, 4)), 1, 0), (5, 2, 0))
    r = random_rule(rng, rng.choice((1, 3, 10, 30, 64)))
    p, a, r = (damaged(rng, b) if rng.random() < 0.4 else b for b in (p, a, r))
    s = sheet_of(p, a, r)
    yield read_request(damaged(rng, s) if rng.random() < 0.2 else s)
    if rng.random() < 0.3:
        yield write_request(p, a, r, max(0, len(s) + rng.randrange(-2, 3)), rng.randrange(256))


def random_list(rng):
    """a list on a plan of many states and transitions"""
    states = rng.choice((10, 40, 63, 64, 65, 127, 128))
    count = rng.randrange(1, rng.choice((2, 4, 8)) * states)
    p = plan(states, 6, random_transitions(rng, states, count))
    a, r = table((2, 0, 0), (5, 0, 0), (6, 1, 3)), random_rule(rng, rng.choice((1, 5, 12)))
    if accepted(p, a, r):
        s = sheet_of(p, a, r)
        yield list_request(s, Sheet(s).table_size(), 3,
                           [rng.randrange(states + 1) for _ in range(20)])


def random_pattern(rng, entries, items):
    """a pattern of about so many actions and operators, without its leading byte"""
    if items < 2:
        return bytes([0, rng.randrange(entries)])
    if items == 2 or rng.random() < 0.35:
        return b'\3' + random_pattern(rng, entries, items - 1)
    first = rng.randrange(1, items - 1)
    return (bytes([rng.choice((1, 2))]) + random_pattern(rng, entries, first)
            + random_pattern(rng, entries, items - 1 - first))


def random_sentence(rng, items):
    """a sheet and a pattern, on a plan of few states where loops are likely and runs are long"""
    states = rng.randrange(1, 6)
    p = plan(states, 3, sorted({(rng.randrange(states), rng.randrange(3), rng.randrange(states))
                                for _ in range(rng.randrange(3 * states + 1))}))
    a = table((2, rng.randrange(3), 0), rng.choice(((1, 0, 0), (6, 1, 2))), (5, 0, 0),
              (rng.choice((3, 4)), 1, 0))
    s = sheet_of(p, a, random_rule(rng, rng.choice((1, 1, 2, 4, 10))))
    return s, bytes([rng.randrange(2)]) + random_pattern(rng, 4, rng.choice(items))


def random_translation(rng, items=(1, 2, 3, 4, 5, 6, 8, 12)):
    """a pattern, whole or damaged, on a sheet that is nearly always whole"""
    s, b = random_sentence(rng, items)
    if rng.random() < 0.05:
        s = damaged(rng, s)
    if rng.random() < 0.25:
        b = damaged(rng, b) + rng.choice((b'', b'', b'\0', b'\0\0'))
    try:
        size = len(translate(s, b, 65535))
    except Refused:
        size = rng.randrange(20)
    yield pattern_request(s, b, max(0, size + rng.choice((0, 0, 0, 1, 5, -1, -20))),
                          rng.randrange(256))


def spelt(rng, tokens):
    """a line: spaces where letters or digits would touch, and now and then elsewhere"""
    line, often = b'', rng.choice((0.05, 0.5))
    for token in tokens:
        if line[-1:].isalnum() and token.isalnum() or rng.random() < often:
            line += b' ' * rng.choice((1, 1, 1, 3))
        line += token
    return line + b' ' * (rng.random() < 0.1)


def random_operand(rng, actions):
    if rng.random() < 0.2:
        return rng.choice((b'true', b'false'))
    above = rng.choice((actions, actions + 256, rng.randrange(10 ** rng.choice((3, 5, 30)))))
    return b'%d' % (above if actions == 0 or rng.random() < 0.02 else rng.randrange(actions))


def random_tokens(rng, actions, operands):
    """of a line that can be read, with so many numbers, `true` and `false`"""
    tokens, depth = [], 0
    before, behind = rng.choice((0.1, 0.4, 0.6)), rng.choice((0.1, 0.6))
    for i in range(operands):
        if i:
            tokens.append(rng.choice((b'and', b'or')))
        while rng.random() < before:
            tokens.append(rng.choice((b'not', b'(')))
            depth += tokens[-1] == b'('
        tokens.append(random_operand(rng, actions))
        while depth and rng.random() < behind:
            tokens.append(b')')
            depth -= 1
    return tokens + [b')'] * depth


def damaged_tokens(rng, tokens):
    """one taken out, put in, or changed for another"""
    at = rng.randrange(len(tokens))
    word = rng.choice((b'not', b'and', b'or', b'(', b')', b'true', b'3', b'03', b'Not', b'nor'))
    return [*tokens[:at], *rng.choice(([], [word], [word, tokens[at]])), *tokens[at + 1:]]


def random_line(rng, operands):
    """a number of actions and a line, whole or damaged"""
    actions = rng.choice((0, 1, 4, 9, 9, 9, 100, 255))
    tokens = random_tokens(rng, actions, rng.choice(operands))
    if rng.random() < 0.2:
        tokens = damaged_tokens(rng, tokens)
    line = spelt(rng, tokens)
    return actions, damaged(rng, line) if rng.random() < 0.1 else line


def random_typing(rng, operands=(1, 2, 3, 4, 5, 8, 12, 16)):
    actions, line = random_line(rng, operands)
    try:
        size = len(line_body(actions, line, 65535))
    except Refused:
        size = rng.randrange(8)
    yield line_request(actions, line, max(0, size + rng.choice((0, 0, 0, 1, 5, -1, -20))),
                       rng.randrange(256))


def random_queries(rng, most=(3, 8, 16)):
    """a sheet, now and then damaged, states for a report, and the length of its table"""
    s = random_sheet(rng, most)
    try:
        sheet = Sheet(s)
        below, size = sheet.states, sheet.table_size()
    except Refused:
        below, size = 5, 60
    count = rng.choice((0, 1, 2, 3, 4, 6, 9, 20, 64, 65))
    states = [rng.choice((rng.randrange(below), rng.randrange(below), rng.randrange(below),
                          below, rng.randrange(256))) for _ in range(count)]
    return damaged(rng, s) if rng.random() < 0.1 else s, states, size


def random_report(rng, most=(3, 8, 16)):
    s, states, size = random_queries(rng, most)
    size += rng.choice((0, 0, 0, 0, 0, 0, 0, 1, 9, -1))
    room = rng.choice((ROOM,) * 9 + (ROOM + 1, ROOM + 30, ROOM - 1, rng.randrange(ROOM)))
    yield report_request(s, states, size, rng.randrange(256), room, rng.randrange(256))


def random_rows(rng, states, count):
    """transitions of an .aut text, with labels that are much alike; some come again"""
    labels = [bytes(rng.choices(b'ab ,()1\0\r\xff', k=rng.choice((0, 1, 1, 2, 3))))
              for _ in range(rng.choice((1, 2, 4, 9)))]
    few = [(rng.randrange(states), rng.choice(labels), rng.randrange(states)) for _ in range(count)]
    found = few + rng.choices(few, k=rng.randrange(count + 1))
    rng.shuffle(found)
    return found


def random_text(rng, lines):
    """an .aut text, whole or with a fault: a state, the count, the first state, or a byte"""
    states = rng.choice((1, 2, 3, 8, 8, 128, 128, 129, 300, 10 ** 25))
    rows = random_rows(rng, states, rng.choice(lines))
    count, first = len(rows), 0
    if rows and rng.random() < 0.1:
        source, label, to = rows[0]
        rows[0] = rng.choice(((states, label, to), (source, label, states + rng.randrange(300))))
        rng.shuffle(rows)
    if rng.random() < 0.06:
        count += rng.choice((1, -1, 256, 10 ** 21))
    if rng.random() < 0.03:
        first = rng.choice((1, states))
    spaces = [b' ' * (rng.random() < 0.7) for _ in range(3 + 2 * len(rows))]
    whole = b'des%s(%d,%s%d,%s%d)\n' % (spaces[0], first, spaces[1], count, spaces[2], states)
    for (source, label, to), one, two in zip(rows, spaces[3::2], spaces[4::2]):
        whole += b'(%d,%s"%s",%s%d)\n' % (source, one, label, two, to)
    return damaged(rng, whole) if rng.random() < 0.2 else whole


def random_conversion(rng, lines=(0, 1, 2, 3, 5, 9)):
    text = random_text(rng, lines)
    try:
        size = len(aut_body(text, 65535))
    except Refused:
        size = rng.randrange(8)
    yield aut_request(text, max(0, size + rng.choice((0, 0, 0, 1, 5, -1, -20))),
                      rng.randrange(256))


def random_transition(rng, s):
    """about the sheet's transitions and numbers; now and then one that it has, or out of range"""
    try:
        p = bodies_at(s, read_sheet(s))[0]
    except Refused:
        return tuple(rng.randrange(4) for _ in range(3))
    below = p[0], p[1], p[0]
    if rng.random() < 0.05:
        return tuple(rng.choice((n, n - 1, rng.randrange(256))) for n in below)
    near = [rng.choice(triples(p, 4) or [(0, 0, 0)]) for _ in below]
    return tuple(near[i][i] if rng.random() < 0.4 else rng.randrange(n)
                 for i, n in enumerate(below))


def random_proposal(rng, fresh):
    """the fresh one, or one with a part off"""
    proposal = list(fresh)
    if rng.random() < 0.25:
        part = rng.randrange(3)
        off = rng.choice((1, -1, 256, rng.randrange(1 << 16)))
        proposal[part] = proposal[part] + off & (0xffff, 0xffff, 0xffffffff)[part]
    return tuple(proposal)


def random_branch(rng, most=(1, 3, 8)):
    """proposed and committed, on a sheet that is nearly always whole; more often than not one of
    some that is accepted"""
    s = random_sheet(rng, most)
    if rng.random() < 0.05:
        s = damaged(rng, s)
    fresh = 0, len(s) + 3, rng.randrange(1 << 32)
    for _ in range(rng.choice((1, 2, 6))):
        branch = random_transition(rng, s)
        try:
            fresh = propose(s, branch)
            break
        except Refused:
            pass
    yield propose_request(s, branch)
    yield commit_request(s, branch, random_proposal(rng, fresh),
                         max(0, len(s) + 3 + rng.choice((0, 0, 0, 1, 9, -1, -20))),
                         rng.randrange(256))


def random_run(rng, most):
    """of few actions or of all six"""
    few = rng.sample(range(6), rng.choice((1, 2, 2, 6)))
    return bytes(rng.choices(few, k=rng.choice(most)))


def spoilt(rng, run):
    """too long, or with an action that there is not; most often as it is"""
    if rng.random() < 0.03:
        run += bytes(128 - len(run) + rng.choice((0, 0, 1, 128)))
    if rng.random() < 0.04:
        at = rng.randrange(len(run) + 1)
        run = run[:at] + bytes([rng.choice((6, 6, 7, 255))]) + run[at:]
    return run


def random_recordings(rng, nodes=(3, 8, 16), most=(0, 1, 2, 3, 4, 6, 9)):
    """two recordings, often with a common beginning, for a sheet that is nearly always whole; made
    once, or up to 9 or 30 times until the rule holds on the empty beginning and fails on a longer
    one"""
    for _ in range(rng.choice((1, 9, 30))):
        s, first, second = random_sheet(rng, nodes), random_run(rng, most), random_run(rng, most)
        if rng.random() < 0.3:
            second = (first[:rng.randrange(len(first) + 1)] + second)[:max(most)]
        try:
            if shortest(s, first, second)[1]:
                break
        except Refused:
            pass
    if rng.random() < 0.4:
        first, second = second, first
    if rng.random() < 0.06:
        s = damaged(rng, s)
    yield shortest_request(s, spoilt(rng, first), spoilt(rng, second))


def random_filling(rng, s):
    """the cells of an accepted sheet: as a list leaves them, all of them filled that may be, then
    with some taken out and all that do not follow any more, or with wrong marks too; or any"""
    shape = rng.choice(('left', 'left', 'left', 'full', 'closed', 'closed', 'closed', 'marks',
                        'any'))
    if shape == 'left':
        return cells_left(s, random_states(rng, Sheet(s)))
    if shape == 'any':
        often = rng.choice((0.5, 0.9, 0.98))
        return bytes(0 if rng.random() < often else rng.randrange(3)
                     for _ in range(Sheet(s).cells()))
    cells = solved_cells(s, shape == 'marks')
    if shape == 'closed':
        often = rng.choice((0.05, 0.2, 0.5))
        cells = closed(s, bytes(b if rng.random() > often else 0 for b in cells))
    return cells


def random_change(rng, cells):
    """a cell emptied or turned round, most often, or any byte"""
    cells = bytearray(cells)
    filled = [place for place, b in enumerate(cells) if b]
    place = rng.choice(filled) if filled and rng.random() < 0.7 else rng.randrange(len(cells))
    cells[place] = rng.choice((0, 0, 3 - cells[place] if cells[place] in (1, 2) else 1,
                               rng.randrange(3), rng.randrange(3), rng.choice((0, 1, 2, 3, 255))))
    return bytes(cells)


def random_audit(rng, most=(3, 8, 16)):
    """a table that is audited: as it is, or with a change or two; the count is wrong now and then,
    and seldom the length or the sheet"""
    s = random_sheet(rng, most)
    try:
        cells = random_filling(rng, s)
    except Refused:
        cells = bytes(9)
    for _ in range(rng.choice((0, 0, 1, 1, 2))):
        cells = random_change(rng, cells)
    off = rng.choice((1, -1, 256, 1 << 24)) if rng.random() < 0.1 else 0
    tab = counted(cells, off) + rng.randbytes(rng.choice((0, 0, 0, 1, 5)))
    if rng.random() < 0.05:
        tab = tab[:rng.randrange(len(tab))]
    yield audit_request(damaged(rng, s) if rng.random() < 0.04 else s, tab)


def random_bench(rng, sheet, s):
    """a state and a table: nearly always one from which no loop can be reached, and a table as a
    list leaves it or just cleared; seldom one that is refused"""
    free = [state for state in range(sheet.states) if not sheet.loop_reachable(state)]
    state = rng.choice(free) if free and rng.random() < 0.97 else rng.randrange(sheet.states + 1)
    cells = bytes(sheet.cells())
    if rng.random() < 0.6:
        cells = random_filling(rng, s)
    if rng.random() < 0.02:
        cells = random_change(rng, cells)
    return state, counted(cells, rng.choice((1, -1, 256)) if rng.random() < 0.01 else 0)


def needed(s, state, tab):
    """the visits of a query, 0 where it is refused"""
    try:
        return query(s, state, bytearray(tab))[1]
    except Refused:
        return 0


def random_allowance(rng, most=(3, 8, 16)):
    """for benches on one sheet; none, some or all of what they need, or more; seldom a wrong number
    of them, a wrong length of the buffer, or a sheet that is damaged"""
    s = random_sheet(rng, most)
    count = rng.choice((1, 2, 2, 3, 3, 4, 5, 6, 7, 8, 8)) if rng.random() < 0.95 else 9
    try:
        sheet = Sheet(s)
        benches = [random_bench(rng, sheet, s) for _ in range(count)]
    except Refused:
        benches = [(0, bytes(9))] * count
    states, tables = bytes(state for state, _ in benches), b''.join(tab for _, tab in benches)
    needs = sum(needed(s, *bench) for bench in benches)
    some = rng.randrange(needs + 1)
    visits = rng.choice((0, 1, count, needs - 1, needs, needs + 1, some, some, some, some,
                         rng.randrange(1 << 32)))
    tables += rng.randbytes(rng.choice((0, 0, 0, 1, 5)))
    if rng.random() < 0.04:
        tables = tables[:rng.randrange(len(tables) + 1)]
    yield allowance_request(damaged(rng, s) if rng.random() < 0.03 else s, states, max(0, visits),
                            tables)


def far(s, tab):
    """Is another state than 0 the closest, or are several looked at with none that breaks the
    rule?"""
    try:
        found, _, steps, visits = closest(s, bytearray(tab))
    except Refused:
        return False
    return steps > 0 or not found and visits > 2


def random_search(rng, most=(3, 8, 16)):
    """for the closest state: a sheet and a table just cleared, as a list leaves it or from
    elsewhere; made once, or up to 9 or 30 times until the search goes beyond state 0; then the
    count, the length or the sheet is wrong now and then"""
    for _ in range(rng.choice((1, 9, 30))):
        s = random_sheet(rng, most)
        try:
            cells = bytes(Sheet(s).cells())
            if rng.random() < 0.6:
                cells = random_filling(rng, s)
            if rng.random() < 0.3:
                cells = random_change(rng, cells)
        except Refused:
            cells = bytes(9)
        tab = counted(cells)
        if far(s, tab):
            break
    if rng.random() < 0.06:
        tab = counted(cells, rng.choice((1, -1, 256, 1 << 24)))
    tab += rng.randbytes(rng.choice((0, 0, 0, 1, 5)))
    if rng.random() < 0.04:
        tab = tab[:rng.randrange(len(tab))]
    yield closest_request(damaged(rng, s) if rng.random() < 0.03 else s, tab)


def random_long_search(rng):
    """on a plan of many states and transitions, for rules of few nodes; most of the tables are just
    cleared, and in the others some of the roots' cells are filled, nearly all of them true"""
    states = rng.choice((10, 40, 64, 127, 128))
    count = rng.randrange(1, rng.choice((2, 4, 8)) * states)
    p = plan(states, 6, random_transitions(rng, states, count))
    a, r = table((2, 0, 0), (5, 0, 0), (6, 1, 3)), random_rule(rng, rng.choice((1, 3, 5, 12)))
    if accepted(p, a, r):
        s = sheet_of(p, a, r)
        cells = bytearray(Sheet(s).cells())
        if rng.random() < 0.4:
            for root in range(0, len(cells), len(cells) // states):
                cells[root] = rng.choice((0, 2, 2, 2, 2 if rng.random() < 0.9 else 1))
        yield closest_request(s, counted(cells))
