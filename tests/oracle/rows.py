"""Rows, need and solution; clearing, query and the stored count; the loops that can be reached from
a state."""
import functools

from oracle.sheet import Refused, bodies_at, four, read_sheet, triples


@functools.lru_cache(maxsize=1)         # a list asks for the same plan again and again
def ways(p):
    """of each state of a plan the states that a way of one or more transitions leads to"""
    leads = [set() for _ in range(p[0])]
    for source, _, to in triples(p, 4):
        leads[source].add(to)
    for middle in range(p[0]):
        for s in range(p[0]):
            if middle in leads[s]:
                leads[s] |= leads[middle]
    return leads


class Sheet:
    """an accepted sheet, taken apart"""

    def __init__(self, s):
        p, a, r = bodies_at(s, read_sheet(s))
        self.plan, self.states, self.actions = p, p[0], p[1]
        self.entries, self.nodes = triples(a, 1), triples(r, 1)
        self.after = [[] for _ in range(self.states)]   # of each state (action, to), in plan order
        for source, action, to in triples(p, 4):
            self.after[source].append((action, to))
        self.binders = [n for n, (kind, _, _) in enumerate(self.nodes) if kind in (7, 8)]
        self.formulas = []                              # of each entry the actions that meet it
        for entry in self.entries:
            self.formulas.append(self.meeting(*entry))

    def meeting(self, kind, x, y):
        every = frozenset(range(self.actions))
        return (lambda: frozenset(),
                lambda: every,
                lambda: frozenset([x]),
                lambda: self.formulas[x] | self.formulas[y],
                lambda: self.formulas[x] & self.formulas[y],
                lambda: every - self.formulas[x],
                lambda: frozenset(range(x, y + 1)))[kind]()

    def cells(self):
        return self.states * len(self.nodes) * (len(self.binders) + 1)

    def table_size(self):
        """a byte for each cell, then the count of those filled"""
        return self.cells() + 4

    def stored_count(self, tab):
        return int.from_bytes(tab[self.cells():self.table_size()], 'little')

    def store_count(self, tab, count):
        tab[self.cells():self.table_size()] = four(count)

    def filled(self, tab):
        return sum(b in (1, 2) for b in tab[:self.cells()])

    def place(self, cell):
        mark, node, state = cell
        return (state * len(self.nodes) + node) * (len(self.binders) + 1) + mark

    def loop_reachable(self, state):
        """Does the state lie on a loop, or does a way lead from it to a state that does?"""
        leads = ways(self.plan)
        return any(s in leads[s] for s in {state} | leads[state])

    def row(self, cell):
        """whether it is an "or", and its entries"""
        mark, node, state = cell
        kind, x, y = self.nodes[node]
        if kind in (0, 1):
            return kind == 0, []
        if kind in (2, 3):
            return kind == 2, [(mark, x, state), (mark, y, state)]
        if kind in (4, 5):
            met = self.formulas[x]
            return kind == 4, [(0, y, to) for action, to in self.after[state] if action in met]
        if kind in (7, 8):
            return True, [(x + 1 if mark == 0 else mark, y, state)]
        if mark == 0 or x < mark - 1:
            return True, [(0, self.binders[x], state)]
        return self.nodes[self.binders[x]][0] == 7, []


def solve(sheet, table, *starts):
    """The rows below some cells, a filled cell's row being the empty one of its value: solution and
    need, each from the rows alone."""
    rows, order, stack = {}, [], [(start, False) for start in starts]
    while stack:                        # every cell that a row names, entries before their cell
        cell, done = stack.pop()
        if done:
            order.append(cell)
            continue
        if cell in rows:
            continue
        value = table[sheet.place(cell)]
        rows[cell] = sheet.row(cell) if value == 0 else (value == 1, [])
        stack.append((cell, True))
        stack.extend((e, False) for e in rows[cell][1] if e not in rows)
    solution = {}
    for cell in order:
        either, entries = rows[cell]
        values = [solution[e] for e in entries]
        solution[cell] = any(values) if either else all(values)
    need, stack = set(), [*starts]
    while stack:
        cell = stack.pop()
        if cell in need:
            continue
        need.add(cell)
        either, entries = rows[cell]
        for e in entries:
            stack.append(e)
            if solution[e] == either:
                break
    return solution, need


def clear(s, tab):
    size = Sheet(s).table_size()
    if len(tab) < size:
        raise Refused(20)
    tab[:size] = bytes(size)


def examined(s, state, tab):
    """the sheet, where a query of the state is not refused"""
    sheet = Sheet(s)
    if state >= sheet.states:
        raise Refused(11)
    if sheet.loop_reachable(state):
        raise Refused(12)
    if len(tab) < sheet.table_size():
        raise Refused(20)
    if any(b > 2 for b in tab[:sheet.cells()]):
        raise Refused(21)
    if sheet.stored_count(tab) != sheet.filled(tab):
        raise Refused(35)
    return sheet


def fill(sheet, tab, solution, need):
    """the needed cells that are empty, each with its solution; how many, which are added to the
    count"""
    empty = [c for c in need if tab[sheet.place(c)] == 0]
    for c in empty:
        tab[sheet.place(c)] = 2 if solution[c] else 1
    sheet.store_count(tab, sheet.stored_count(tab) + len(empty))
    return len(empty)


def query(s, state, tab):
    """verdict and visits; fills the table and adds the visits to its count"""
    sheet = examined(s, state, tab)
    solution, need = solve(sheet, tab, (0, 0, state))
    return solution[0, 0, state], fill(sheet, tab, solution, need)


def count(s, tab):
    """the stored count as it stands, whatever the cells hold"""
    sheet = Sheet(s)
    if len(tab) < sheet.table_size():
        raise Refused(20)
    return sheet.stored_count(tab)
