"""The sheet: what is accepted, the refusals 1 to 10 with their places, and the writer."""


class Refused(Exception):
    def __init__(self, number, place=0):
        self.number, self.place = number, place


def word(b, at):
    return b[at] | b[at + 1] << 8


def two(n):
    return bytes([n & 255, n >> 8])


def four(n):
    return n.to_bytes(4, 'little')


def triples(body, start):
    return [tuple(body[i:i + 3]) for i in range(start, len(body), 3)]


def check_plan(p):
    """4 and 5; the number of actions"""
    if len(p) < 4:
        raise Refused(4)
    s, a, t = p[0], p[1], word(p, 2)
    if s < 1 or s > 128 or t > 2048 or len(p) != 4 + 3 * t:
        raise Refused(4)
    previous = None
    for i, tr in enumerate(triples(p, 4)):
        if tr[0] >= s or tr[1] >= a or tr[2] >= s or (previous is not None and tr <= previous):
            raise Refused(5, i)
        previous = tr
    return a


def check_actions(b, a):
    """6 and 7; the number of entries"""
    if len(b) == 0 or b[0] > 32 or len(b) != 1 + 3 * b[0]:
        raise Refused(6)
    for i, (kind, x, y) in enumerate(triples(b, 1)):
        right = {
            0: x == 0 and y == 0,
            1: x == 0 and y == 0,
            2: x < a and y == 0,
            3: x < i and y < i,
            4: x < i and y < i,
            5: x < i and y == 0,
            6: x <= y and y < a,
        }
        if not right.get(kind, False):
            raise Refused(7, i)
    return b[0]


def children(kind):
    """how many children a node of the kind has: a number that is no kind has none"""
    return {2: 2, 3: 2, 4: 1, 5: 1, 7: 1, 8: 1}.get(kind, 0)


def check_syntax(nodes, count):
    """9; the parents, None for the root. The work still to do is kept on a stack: a node to visit,
    or the second child of a pair to look for."""
    parents = [None] * len(nodes)
    at = 0                              # the node that comes next in preorder
    work = [('visit', None)]
    while work:
        what, parent = work.pop()
        if what == 'second':
            if nodes[parent][2] != at or at >= len(nodes):
                raise Refused(9, parent)
            work.append(('visit', parent))
            continue
        n, at = at, at + 1
        parents[n] = parent
        kind, x, y = nodes[n]
        if kind in (0, 1):
            right = x == 0 and y == 0
        elif kind in (2, 3):
            right = x == at
        elif kind in (4, 5):
            right = x < count and y == at
        elif kind == 6:
            right = y == 0
        elif kind in (7, 8):
            right = y == at
        else:
            right = False
        arity = children(kind)
        if not right or (arity > 0 and at >= len(nodes)):
            raise Refused(9, n)
        if arity == 2:
            work.append(('second', n))
        if arity > 0:
            work.append(('visit', n))
    if at < len(nodes):
        raise Refused(9, at)
    return parents


def check_binding(nodes, parents):
    """10"""
    binders = []                        # the node that binds each variable
    for n, (kind, x, _) in enumerate(nodes):
        if kind in (7, 8):
            if x != len(binders) or len(binders) == 6:
                raise Refused(10, n)
            binders.append(n)
        elif kind == 6:
            above, up = [], parents[n]
            while up is not None:
                above.append(up)
                up = parents[up]
            if x >= len(binders) or binders[x] not in above:
                raise Refused(10, n)


def check_rule(r, count):
    """8 to 10"""
    if len(r) == 0 or r[0] < 1 or r[0] > 64 or len(r) != 1 + 3 * r[0]:
        raise Refused(8)
    nodes = triples(r, 1)
    check_binding(nodes, check_syntax(nodes, count))


def check_bodies(p, a, r):
    check_rule(r, check_actions(a, check_plan(p)))


def accepted(p, a, r):
    try:
        check_bodies(p, a, r)
        return True
    except Refused:
        return False


def bodies_at(s, parts):
    """the bodies, from their offsets and lengths"""
    return [s[offset:offset + length] for offset, length in zip(parts[::2], parts[1::2])]


def read_sheet(s):
    """offset and length of each body"""
    if len(s) < 17:
        raise Refused(1)
    if s[0] != 1 or s[1] != 3:
        raise Refused(2)
    parts, at = [], 17
    for k in range(3):
        entry = 2 + 5 * k
        offset, length = word(s, entry + 1), word(s, entry + 3)
        if s[entry] != k + 1 or offset != at:
            raise Refused(3)
        parts += [offset, length]
        at += length
    if len(s) != at or len(s) > 6455:
        raise Refused(3)
    check_bodies(*bodies_at(s, parts))
    return parts


def sheet_of(p, a, r):
    """the three bodies behind their table of contents, right or not"""
    head, at = bytes([1, 3]), 17
    for k, body in enumerate((p, a, r)):
        head += bytes([k + 1]) + two(at) + two(len(body))
        at += len(body)
    return head + p + a + r


def write_sheet(p, a, r, size):
    check_bodies(p, a, r)
    s = sheet_of(p, a, r)
    if size < len(s):
        raise Refused(22)
    return s
