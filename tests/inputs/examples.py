"""The example sheets, the example text of a plan, the example recordings, the example report, the
example tables, the example benches and an example of the closest state, with the words that their
pages say of them."""
from inputs.allowance_parts import K_CELLS
from inputs.aut_parts import text
from inputs.parts import F, K, K_ACTIONS, K_PLAN, K_RULE, T, counted, plan, rule, table
from oracle.branches import tag_of
from oracle.program import line_of
from oracle.sheet import sheet_of

KEY = {
    'name': 'key',
    'title': 'The key sheet K. docs/FORMAT.md works through its bytes, its rows and its queries.',
    'plan': 'Three states in a row: action 1 leads from state 0 to state 1, action 2 from state 1 '
            'to state 2.',
    'states': ['state 0', 'state 1', 'state 2'],
    'actions': ['action 0', 'action 1', 'action 2'],
    'formula': ['least X. some "2" T  or  some "0" X  or  least Y. (X or some "1" Y)'],
    'rule': 'In words: action 2 can be done after some steps, each of them an action 0 or a run of '
            'actions 1. From state 0 one action 1 and then action 2 do. X stands below Y with no '
            '"some" or "every" between, so the rule is not guarded.',
    'entries': ['action 0', 'action 1', 'action 2'],
    'bodies': (K_PLAN, K_ACTIONS, K_RULE),
}

# K with one more transition
KEY_BRANCH = {
    **KEY,
    'name': 'key-branch',
    'title': 'K, the sheet of key.txt, with a parked branch: one transition more, proposed and '
             'then added.',
    'plan': 'As in key.txt, and action 2 leads from state 0 to state 2.',
    'rule': 'In words: as in key.txt. From state 0 action 2 can be done at once.',
    'branch': (0, 2, 2),
    'bodies': (plan(3, 3, [(0, 1, 1), (0, 2, 2), (1, 2, 2)]), K_ACTIONS, K_RULE),
}

CUT_TRANSITIONS = [(0, 0, 1), (1, 1, 2), (1, 2, 3), (2, 3, 4), (3, 5, 6), (4, 4, 5), (5, 5, 6)]
CUT_ENTRIES = table((2, 5, 0), (1, 0, 0), (2, 3, 0), (6, 1, 2), (5, 3, 0))
CUT_RULE = rule((3, 1, 10), (7, 0, 2), (2, 3, 5), (4, 0, 4), T, (3, 6, 8), (4, 1, 7), T, (5, 1, 9),
                (6, 0, 0), (8, 1, 11), (3, 12, 14), (5, 2, 13), F, (5, 4, 15), (6, 1, 0))


def cutting(states, transitions):
    return plan(states, 6, sorted(transitions)), CUT_ENTRIES, CUT_RULE


CUT = {
    'name': 'cut',
    'title': 'A key is cut: clamp, probe, cut, deburr, release; a worn blank is released uncut.',
    'plan': 'The blank is clamped and probed. What the probe finds decides: a sound blank is cut, '
            'deburred and released, a worn one is released at once.',
    'states': ['blank laid in', 'clamped', 'probed, found sound', 'probed, found worn', 'cut',
               'deburred', 'released'],
    'actions': ['clamp', 'probe finds the blank sound', 'probe finds the blank worn', 'cut',
                'deburr', 'release'],
    'formula': ['least X. (some "release" T  or  some "any" T and every "any" X)   and',
                'greatest Y. (every "cut" F and every "no probe" Y)'],
    'rule': 'In words: whatever the probe finds, the blank is released in the end; and there is no '
            'cut before a probe.',
    'entries': ['release', 'any action', 'cut', 'a probe: every action from 1 to 2',
                'no probe: not entry 3'],
    'bodies': cutting(7, CUT_TRANSITIONS),
}

# a piece that no transition leads to: from 7 to 8 and back
SPARE_TRANSITIONS = [*CUT_TRANSITIONS, (7, 3, 8), (8, 4, 7), (8, 5, 6)]
SPARE = {
    **CUT,
    'name': 'spare',
    'title': 'The plan of cut.sheet with a discarded piece in which a key is cut and deburred over '
             'and over.',
    'plan': 'As in cut.txt. States 7 and 8 are left over from an earlier plan: they lead to one '
            'another, round and round, and 8 to the release, but no step leads to them from state '
            '0.',
    'states': [*CUT['states'], 'put back', 'cut anew'],
    'bodies': cutting(9, SPARE_TRANSITIONS),
}

WORN_KEPT = sheet_of(*cutting(7, [t for t in CUT_TRANSITIONS if t != (3, 5, 6)]))
LOOP_AHEAD = sheet_of(*cutting(9, [*SPARE_TRANSITIONS, (5, 3, 8)]))

# blank after blank: the release leads back to the start
SERVICE = {
    **CUT,
    'name': 'service',
    'title': 'The machine of cut.txt, which takes one blank after the other, and two recordings of '
             'it that service got.',
    'plan': 'As in cut.txt, but the release leads back to the start, where the next blank is laid '
            'in.',
    'states': CUT['states'][:-1],
    'formula': ['greatest X. (every "clamp" (greatest Y. (every "cut" F and every "no probe" Y)',
                '                            and greatest Z. (every "clamp" F and every "no '
                'release" Z))',
                '             and every "any" X)'],
    'rule': 'In words: wherever a blank is clamped, there is no cut before a probe, and no other '
            'clamp before a release. So the rule holds of what a machine has done so far until one '
            'wrong action comes, and fails from then on.',
    'entries': ['clamp', 'cut', 'a probe: every action from 1 to 2', 'no probe: not entry 2',
                'release', 'no release: not entry 4', 'any action'],
    'bodies': (plan(6, 6, [(0, 0, 1), (1, 1, 2), (1, 2, 3), (2, 3, 4), (3, 5, 0), (4, 4, 5),
                           (5, 5, 0)]),
               table((2, 0, 0), (2, 3, 0), (6, 1, 2), (5, 2, 0), (2, 5, 0), (5, 4, 0), (1, 0, 0)),
               rule((8, 0, 1), (3, 2, 16), (5, 0, 3), (3, 4, 10), (8, 1, 5), (3, 6, 8), (5, 1, 7),
                    F, (5, 3, 9), (6, 1, 0), (8, 2, 11), (3, 12, 14), (5, 0, 13), F, (5, 5, 15),
                    (6, 2, 0), (5, 6, 17), (6, 0, 0))),
    'recordings': {'first': bytes([0, 1, 3, 4, 5, 0, 2, 0, 1]),
                   'second': bytes([0, 2, 5, 0, 3, 4, 5])},
    'also': 'The plan leads from state 0 back to it, and plan_judge refuses that. Recordings are '
            'judged as plans of their own, each one chain of states, and the plan of the sheet '
            'tells them the number of actions and no more.',
}
SERVICE['of the recordings'] = (
    'In the first a blank that was found worn is not released: with the clamp behind it the rule '
    'fails, on 8 actions. In the second a blank is cut that was not probed: the rule fails on 5 '
    'actions, fewer than in the first, and on none of the beginnings before.')

# a key that breaks stays in the clamp
CLOSEST = {
    **CUT,
    'name': 'closest',
    'title': 'The plan of cut.txt in a draft in which a key may break, and the closest state that '
             'breaks a rule.',
    'plan': 'As in cut.txt, but the key may break when it is cut and when it is deburred. The '
            'draft does not say how a broken key is released.',
    'states': [*CUT['states'], 'broken'],
    'actions': [*CUT['actions'], 'the key breaks'],
    'formula': ['every "no release" (some "any" T)'],
    'rule': 'In words: after each action but a release there is something that can be done. The '
            'rule speaks of the actions of one state, so it may hold at some states and fail at '
            'others.',
    'entries': ['release', 'no release: not entry 0', 'any action'],
    'bodies': (plan(8, 7, sorted([*CUT_TRANSITIONS, (2, 6, 7), (4, 6, 7)])),
               table((2, 5, 0), (5, 0, 0), (1, 0, 0)), rule((5, 1, 1), (4, 2, 2), T)),
    'of the search': 'The rule fails at states 2 and 4, where the key may break. State 2 is the '
                     'closer one: clamp and probe are two steps, and to state 4 there are three. '
                     'States 0 and 1 come before it, and the rule holds there. State 3, which is '
                     'as near as state 2, and those that are farther are not asked for: of their '
                     'cells only those are filled that states 0, 1 and 2 need. With one transition '
                     'more, 7,5,6, which releases the broken key, the rule holds at every state.',
}
CLOSEST_RELEASED = sheet_of(
    plan(8, 7, sorted([*CUT_TRANSITIONS, (2, 6, 7), (4, 6, 7), (7, 5, 6)])), *CLOSEST['bodies'][1:])

# in an order in which the labels get the numbers of the actions: deburring before any release
CUT['text'] = text(7, (0, b'clamp', 1), (1, b'probe, sound', 2), (1, b'probe, worn', 3),
                   (2, b'cut', 4), (4, b'deburr', 5), (5, b'release', 6), (3, b'release', 6))
CUT['of the text'] = (
    'It becomes the 25 bytes of the plan. Labels get action numbers in the order in which they '
    'first stand; with the line of state 3 before that of state 4, "release" would be action 4 and '
    '"deburr" 5. The transitions are put in order. docs/AUT.md says how to make the sheet of it.')
KEY_BRANCH['also'] = (
    'The branch 0,2,2, proposed for key.sheet, gets place 1, behind 0,1,1; the new sheet has 77 '
    'bytes, and the tag of key.sheet is %d. Committed with these three numbers, the branch gives '
    'the sheet above. It has a new transition, and its number of transitions, the length of its '
    'plan and the two offsets behind that are others; all other bytes are those of key.sheet. The '
    'branch 2,0,0, which leads back to state 0, is refused with 12, and 0,1,1, which is there '
    'already, with 40.' % tag_of(K))
CUT['also'] = ('Without the transition 3,5,6 the worn blank stays in the clamp for good, and '
               'plan_judge prints `%s`.' % line_of(WORN_KEPT))
SPARE['also'] = ('The loop can\'t be reached from state 0, so plan_judge judges as it does for '
                 'cut.sheet. With the transition 5,3,8, a deburred key cut anew, it can, and '
                 'plan_judge prints `%s`.' % line_of(LOOP_AHEAD))

COUNTER = {
    'name': 'counter',
    'title': 'What the counter terminal sends for a report: K, the sheet of key.txt, at states 0, '
             '1, 2 and 3.',
    'states': [0, 1, 2, 3],
    'sheet': K,
    'rows': ['the number of states', 'the states, in the order in which they are asked for',
             'the sheet: the %d bytes of key.sheet' % len(K)],
    'also': 'K\'s rule holds at states 0 and 1 and does not hold at state 2; there is no state 3. '
            'The query of state 0 decides 17 cells of the table. All that state 1 needs is among '
            'them, so its query decides none. That of state 2 decides 9 more: 26 in all.',
}

# K's cells, by their bytes: as the queries of states 0, 1 and 2 leave them, and as they would be
# left by a program for which a variable is its constant wherever a mark is open
FIRST_CELLS = {0: 2, 4: 2, 7: 1, 13: 2, 16: 1, 22: 2, 25: 2, 28: 1, 31: 2, 36: 2, 40: 2, 43: 2,
               57: 2, 62: 2, 65: 2, 69: 2, 72: 1, 76: 1, 79: 1, 81: 2, 85: 1, 88: 1, 94: 1, 97: 1,
               100: 1, 103: 1}
SECOND_CELLS = {0: 1, 4: 1, 7: 1, 13: 1, 16: 1, 22: 1, 25: 1, 28: 1, 31: 1, 36: 2, 40: 2, 43: 2,
                57: 1, 62: 1, 65: 1, 68: 1, 69: 1, 72: 1, 76: 1, 79: 1, 81: 2, 85: 1, 88: 1, 94: 1,
                97: 1, 100: 1, 103: 1}

SUPPLIER = {
    'name': 'supplier',
    'title': 'Two tables for K, the sheet of key.txt, as the programs of two suppliers filled '
             'them.',
    'sheet': K,
    'sheet name': 'key.sheet',
    'tables': {which: counted([cells.get(i, 0) for i in range(108)])
               for which, cells in (('first', FIRST_CELLS), ('second', SECOND_CELLS))},
    'of first': 'It is the table that the queries of states 0, 1 and 2 leave. Each filled cell '
                'follows, and so each has its solution: by the root\'s cells, those of node 0 '
                'under mark 0, the rule holds at states 0 and 1 and not at state 2.',
    'of second': 'By it the rule does not hold at state 0. The program that filled it takes a '
                 'variable for its constant wherever a mark is open. Under mark 2 binder 1 is open '
                 'and binder 0 is not, so the row of node 9, variable 0, is the cell of binder 0, '
                 'which is true at state 1. All other cells follow, from this one or from others.',
}

BENCHES = {
    'name': 'benches',
    'title': 'Three benches on K, the sheet of key.txt. Their controller grants 20 visits at a '
             'time, and each time the benches go on with the tables that were left.',
    'sheet': K,
    'sheet name': 'key.sheet',
    'states': (0, 2, 1),
    'visits': 20,
    # the tables left: those of states that have queried, the others just cleared
    'left': {which: b''.join(counted(K_CELLS[state] if state in queried else bytes(108))
                             for state in (0, 2, 1))
             for which, queried in (('first', (1,)), ('second', (1, 2)), ('third', (0, 1, 2)))},
    'of first': 'Four rounds give each bench 4 visits, which is all that bench 2 needs. The other '
                '8 go by turns to benches 0 and 1, and one visit more would do for bench 1. It '
                'gets nothing for its 8: a bench that is short does not query, and its table '
                'stays.',
    'of second': 'Bench 2 needs nothing now. Nine rounds give benches 0 and 1 a visit each, and '
                 'then bench 1 has what it needs. The last 2 go to bench 0.',
    'of third': 'Bench 0 alone is short, and 17 of the 20 visits are enough.',
}
