"""Visits dealt to benches of chosen needs, every number of them or those about a limit, each with
the grants it must give."""
from itertools import product

from inputs.allowance_parts import MOST_VISITS, cleared, dealt, left_by, stairs
from inputs.parts import TRUE, line, rule
from oracle.sheet import sheet_of

# needs, and the benches in the order in which the visits come to them
ORDERS = {
    (0,): '',
    (1,): '0',
    (5,): '00000',
    (2, 2): '0101',
    (6, 1): '0100000',
    (4, 0): '0000',
    (1, 1, 1): '012',
    (3, 1, 4): '01202022',
    (4, 3, 1): '01201010',
    (0, 2, 0, 3): '13133',
    (2, 1, 2, 1, 2): '01234024',
    (1, 0, 0, 0, 0, 0, 0, 6): '0777777',
    (1, 1, 1, 1, 1, 1, 1, 1): '01234567',
    (0, 0, 0, 0, 0, 0, 0, 0): '',
    (6, 5, 4, 3, 2, 1, 0, 6): '012345701234701237012701707',
    (1, 2, 3, 4, 5, 6, 5, 4): '012345671234567234567345674565',
}
ALIKE = (6,) * 8


def by_needs(needs, visits, grants):
    """a bench with a need of 0 has asked before"""
    s = stairs(max(needs) or 1)
    states = [max(needs) - need if need else 0 for need in needs]
    tabs = [cleared(s) if need else left_by(s, 0) for need in needs]
    return dealt(s, states, visits, tabs, grants)


def by_turns(needs, visits):
    """The grants without dealing: visit t to a bench comes after all visits of t - 1 rounds, and
    after those of round t to the benches before it."""
    def before(i, t):
        return sum(min(need, t - 1) for need in needs) + sum(t <= need for need in needs[:i])
    return [sum(before(i, t) < visits for t in range(1, need + 1)) for i, need in enumerate(needs)]


def every_need(most, benches):
    """each need up to a number, at each bench, with each number of visits"""
    for needs in product(range(most + 1), repeat=benches):
        for visits in range(sum(needs) + 2):
            yield by_needs(needs, visits, by_turns(needs, visits))


def every_number():
    """no visits, and one more each time, until some are left over"""
    for needs, order in ORDERS.items():
        for visits in range(len(order) + 2):
            yield by_needs(needs, visits, [order[:visits].count('%d' % i)
                                           for i in range(len(needs))])


def about_rounds():
    """eight benches of one need: a visit less than a whole round, a whole one, a visit more"""
    for whole in range(6):
        for more in (0, 1, 4, 7):
            grants = [whole + (i < more) for i in range(8)]
            yield by_needs(ALIKE, 8 * whole + more, grants)
    yield by_needs(ALIKE, 48, ALIKE)
    yield by_needs(ALIKE, 49, ALIKE)


def large_numbers():
    """more visits than are needed, by their four bytes: of each byte the lowest bit and the
    highest, and all"""
    for needs in ((3, 1, 4), ALIKE):
        for visits in (255, 256, 1 << 15, 1 << 16, 1 << 23, 1 << 24, 1 << 31, MOST_VISITS - 7,
                       MOST_VISITS):
            yield by_needs(needs, visits, needs)
    # needs of two bytes: three cells for each state of a chain, two for its last
    s = sheet_of(line(100), TRUE, rule((7, 0, 1), (4, 0, 2), (6, 0, 0)))
    tabs = [cleared(s)] * 2
    for visits, grants in ((255, (128, 127)), (256, (128, 128)), (257, (129, 128)),
                           (596, (298, 298)), (597, (299, 298)), (598, (299, 299)),
                           (599, (299, 299))):
        yield dealt(s, [0, 0], visits, tabs, grants)


def dealings():
    yield from every_number()
    yield from about_rounds()
    yield from large_numbers()
