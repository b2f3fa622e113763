"""What docs/RECORDINGS.md says, each with what the page says it gives; the example of
docs/TRIALS.md, and docs/FORMAT.md's sheets to try."""
from inputs.examples import SERVICE
from inputs.parts import F, K, K_PLAN, LEAST_LOOP, T, TRUE, plan, rule, table
from inputs.recording_parts import as_sheet, found, none, refused
from oracle.program import line_of
from oracle.protocol import list_request, shortest_request, yes
from oracle.rows import Sheet
from oracle.sheet import sheet_of

MACHINE = plan(4, 4, [(0, 0, 1), (1, 1, 2), (2, 2, 3), (3, 3, 0)])
FORMULAS = table((2, 0, 0), (2, 1, 0), (5, 1, 0), (1, 0, 0))
RULE_A, RULE_B = (sheet_of(MACHINE, FORMULAS, rule((8, 0, 1), (3, 2, 5), (5, 0, 3), *nodes,
                                                   (5, 3, 6), (6, 0, 0)))
                  for nodes in (((5, 2, 4), F), ((4, 1, 4), T)))
FIRST, SECOND = bytes([0, 1, 2, 3, 0, 2]), bytes([3, 0, 1, 0, 2])


def judging():
    """the rules on each beginning, as sheets of their own: + where the page says `holds`"""
    assert len(RULE_A) == len(RULE_B) == 68
    for run, of_a, of_b in ((FIRST, '++++++-', '+-+++--'), (SECOND, '+++++-', '++-+--')):
        for s, signs in ((RULE_A, of_a), (RULE_B, of_b)):
            assert len(signs) == len(run) + 1
            for n, sign in enumerate(signs):
                chain = as_sheet(s, run[:n])
                yield list_request(chain, Sheet(chain).table_size(), 1, [0]), (
                    'clear 0 0|query 0 0 %s ' % yes(sign == '+'))


def answering():
    for s, first, second, which, n in ((RULE_A, FIRST, SECOND, 'second', 5),
                                       (RULE_A, SECOND, FIRST, 'first', 5),
                                       (RULE_A, FIRST[:4], SECOND[:3], 'none', 0),
                                       (RULE_A, SECOND, b'\0\3', 'second', 2),
                                       (RULE_A, b'\0\2', b'\0\3', 'first', 2),
                                       (RULE_B, FIRST, SECOND, 'first', 1),
                                       (RULE_B, SECOND, FIRST, 'second', 1)):
        yield found(s, first, second, which, n)


def refusing():
    yield refused(3, RULE_A[:-1], FIRST, SECOND)
    for s in (RULE_A, RULE_B):
        assert line_of(s) == 'refused 12 0'
        yield refused(42, s, b'\0' * 128, SECOND)
        yield refused(42, s, b'\4', b'\0' * 128)
        yield refused(43, s, FIRST, SECOND + b'\4')
        yield refused(43, s, FIRST + b'\n', b'')


def of_the_driver():
    s, first, second = sheet_of(*SERVICE['bodies']), *SERVICE['recordings'].values()
    request = shortest_request(s, first, second)
    assert request == b'\16\167\0' + s + b'\11\0' + first + b'\7\0' + second
    yield request, 'shortest 0 0 second 0002050003|'
    yield shortest_request(s, first, b'\0\2\5\0'), 'shortest 0 0 first 0001030405000200|'
    yield shortest_request(s, first, b'\6'), 'shortest 43 0 none |'


def to_try():
    ended = sheet_of(K_PLAN, TRUE, rule((5, 0, 1), F))
    yield found(ended, b'\1\2', b'\2', 'first', 1)
    yield found(ended, b'', b'\1\2', 'second', 1)
    yield none(ended, b'', b'')
    yield none(LEAST_LOOP, b'\0\0', b'\0')
    yield found(K, b'\1\2', b'\2', 'first', 0)
    yield refused(42, K, b'\1' * 128, b'\3')
    yield refused(43, K, b'\3', b'\1')


def of_the_page():
    yield from judging()
    yield from answering()
    yield from refusing()
    yield from of_the_driver()
    yield from to_try()
