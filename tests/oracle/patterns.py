"""Rules with repetition: what a pattern is, and the rule body that it becomes with the sheet's rule
where it ends."""
from oracle.sheet import Refused, bodies_at, read_sheet, triples

ACTION, SEQUENCE, CHOICE, REPETITION = range(4)


class Pattern:
    """An action has an entry, the others one or two parts. Before something of n nodes and b
    binders a pattern becomes nodes + copies * n nodes and binders + copies * b binders."""

    def __init__(self, kind, entry, parts):
        self.kind, self.entry, self.parts = kind, entry, parts
        if kind == ACTION:              # a modal node, then what follows
            self.nodes, self.binders, self.copies = 1, 0, 1
        elif kind == SEQUENCE:          # the second part is what follows the first
            first, second = parts
            self.nodes, self.binders = first.size_before(second.nodes, second.binders)
            self.copies = first.copies * second.copies
        elif kind == CHOICE:            # a pair, then each part before what follows
            first, second = parts
            self.nodes = 1 + first.nodes + second.nodes
            self.binders = first.binders + second.binders
            self.copies = first.copies + second.copies
        else:                           # a binder and a pair, what follows, the part before X
            nodes, binders = parts[0].size_before(1, 0)
            self.nodes, self.binders, self.copies = 2 + nodes, 1 + binders, 1

    def size_before(self, nodes, binders):
        """the nodes and the binders of the pattern before something of so many"""
        return self.nodes + self.copies * nodes, self.binders + self.copies * binders


def read_items(b, count):
    """the bytes behind the leading one as kinds, each with its entry if it is an action's"""
    items, at = [], 1
    while at < len(b):
        kind, entry, at = b[at], None, at + 1
        if kind > REPETITION:
            raise Refused(30)
        if kind == ACTION:
            if at == len(b) or b[at] >= count:
                raise Refused(30)
            entry, at = b[at], at + 1
        items.append((kind, entry))
    return items


def read_pattern(b, count):
    """30; whether it says "every run", and the pattern. The items are taken from the last to the
    first, so that an item finds its parts made: they are the last ones on the stack."""
    if len(b) == 0 or b[0] > 1:
        raise Refused(30)
    made = []
    for kind, entry in reversed(read_items(b, count)):
        wanted = {ACTION: 0, SEQUENCE: 2, CHOICE: 2, REPETITION: 1}[kind]
        if len(made) < wanted:
            raise Refused(30)
        made.append(Pattern(kind, entry, [made.pop() for _ in range(wanted)]))
    if len(made) != 1:
        raise Refused(30)
    return b[0] == 1, made[0]


class Body:
    """Nodes, put down in preorder: the next binder binds the number of binders that stand already.
    What follows a pattern is a function that puts it down where it is called."""

    def __init__(self, every):
        self.every, self.nodes, self.binders = every, [], 0

    def put(self, kind, x, y):
        self.nodes.append((kind, x, y))

    def next(self):
        return len(self.nodes) + 1

    def pair(self, first, second):
        at = len(self.nodes)
        self.put(None, None, None)
        first()
        self.nodes[at] = (3 if self.every else 2, at + 1, len(self.nodes))
        second()

    def fixed_point(self, child):
        x = self.binders
        self.binders += 1
        self.put(8 if self.every else 7, x, self.next())
        child(x)

    def before(self, pattern, follows):
        parts = pattern.parts
        if pattern.kind == ACTION:
            self.put(5 if self.every else 4, pattern.entry, self.next())
            follows()
        elif pattern.kind == SEQUENCE:
            self.before(parts[0], lambda: self.before(parts[1], follows))
        elif pattern.kind == CHOICE:
            self.pair(lambda: self.before(parts[0], follows),
                      lambda: self.before(parts[1], follows))
        else:
            self.fixed_point(lambda x: self.pair(
                follows,
                lambda: self.before(parts[0], lambda: self.put(6, x, 0))))

    def rule(self, nodes):
        """a copy of a rule, its nodes and its binders numbered on from those that stand already"""
        n, k = len(self.nodes), self.binders
        for kind, x, y in nodes:
            if kind in (0, 1):
                self.put(kind, 0, 0)
            elif kind in (2, 3):
                self.put(kind, n + x, n + y)
            elif kind in (4, 5):
                self.put(kind, x, n + y)
            elif kind == 6:
                self.put(kind, k + x, 0)
            else:
                self.put(kind, k + x, n + y)
                self.binders += 1

    def bytes(self):
        return bytes([len(self.nodes)]) + bytes(v for node in self.nodes for v in node)


def translate(s, pattern, size):
    """the rule body, for an output of so many bytes"""
    _, a, r = bodies_at(s, read_sheet(s))
    every, read = read_pattern(pattern, a[0])
    own = triples(r, 1)
    expected = read.size_before(len(own), sum(kind in (7, 8) for kind, _, _ in own))
    if expected[0] > 64 or expected[1] > 6:
        raise Refused(31)
    body = Body(every)
    body.before(read, lambda: body.rule(own))
    assert (len(body.nodes), body.binders) == expected
    if size < len(body.bytes()):
        raise Refused(22)
    return body.bytes()
