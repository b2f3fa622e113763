"""The streams of requests: the one that is stored, and a longer one."""
import random
from itertools import product

from inputs.allowance_dealing import every_need
from inputs.allowance_limits import longest_allowances
from inputs.allowances import allowances, allowances_to_try
from inputs.audit_limits import longest_audits
from inputs.audits import audits, audits_to_try
from inputs.aut_limits import longest_texts
from inputs.aut_page import auts_to_try
from inputs.aut_parts import text
from inputs.auts import auts, read_plans
from inputs.bodies import reading_and_writing
from inputs.branch_limits import longest_branches
from inputs.branch_parts import likely, small
from inputs.branches import branches, branches_to_try
from inputs.chance import (
    random_allowance, random_audit, random_branch, random_conversion, random_judging, random_list,
    random_long_search, random_reading, random_recordings, random_report, random_search,
    random_translation, random_typing)
from inputs.closest import searches, searches_to_try
from inputs.closest_limits import longest_searches
from inputs.closest_parts import ended
from inputs.counts import counts_to_try
from inputs.judging import judgings
from inputs.line_limits import longest_lines
from inputs.line_page import lines_to_try
from inputs.lines import judged_lines, lines, read_lines
from inputs.loop_plans import loops_to_try
from inputs.parts import (
    K, K_ACTIONS, K_PLAN, K_RULE, LONG, LONG_ACTIONS, LONG_PLAN, T, TRUE, counted, deepest, plan,
    rule)
from inputs.pattern_page import patterns_to_try
from inputs.patterns import judged_translations, patterns
from inputs.recording_parts import by_pattern
from inputs.recording_rules import sayings
from inputs.recordings import judged_runs, recordings, recordings_to_try
from inputs.reports import reports, reports_to_try
from inputs.rules import children_to_try
from inputs.to_try import to_try
from oracle.branches import tag_of
from oracle.protocol import (
    allowance_request, answers, audit_request, aut_request, closest_request, commit_request,
    guard_request, line_request, list_request, pattern_request, propose_request, query_request,
    read_request, reference_request, report_request, shortest_request, write_request)
from oracle.reports import ROOM
from oracle.sheet import sheet_of, triples


def expected(*given):
    """requests, each of which has to give what starts with a given text"""
    for request, start in given:
        assert answers(request).decode().replace('\n', '|').startswith(start), start
        yield request


def stored():
    yield from reading_and_writing()
    yield from expected(*children_to_try(), *to_try(), *loops_to_try(), *counts_to_try())
    yield from judgings()
    yield from expected(*patterns_to_try(), *judged_translations())
    yield from patterns()
    yield from expected(*lines_to_try(), *judged_lines(), *read_lines())
    yield from lines()
    yield from expected(*reports_to_try())
    yield from reports()
    yield from expected(*auts_to_try(), *read_plans())
    yield from auts()
    yield from expected(*branches_to_try())
    yield from branches()
    yield from expected(*recordings_to_try(), *judged_runs())
    yield from recordings()
    yield from expected(*audits_to_try())
    yield from audits()
    yield from expected(*allowances_to_try())
    yield from allowances()


# request 17, which the trial driver's stored input does not have yet
def stored_searches():
    yield from expected(*searches_to_try())
    yield from searches()


# an unknown request ends the run: what follows it gives nothing
ENDING = b'\0' + read_request(K)
# and so does a request that is cut short
CUT = read_request(K)[:-1]


def large():
    full = b'\3' * 65535
    yield write_request(full, full, full, 65535, 200)
    yield write_request(K_PLAN, full, full, 65535, 201)
    yield write_request(*LONG, 65535, 202)
    yield write_request(K_PLAN, K_ACTIONS, K_RULE, 65535, 90)
    yield write_request(K_PLAN, K_ACTIONS, K_RULE + b'\7' * (65535 - len(K_RULE)), 3, 9)
    yield read_request(full)
    rng = random.Random(1)
    for _ in range(4000):
        yield from random_reading(rng)
    yield list_request(deepest(), 65535, 3, range(129))
    yield query_request(K, 0, bytes(65535))
    yield query_request(K, 0, full)
    for off in (0, -1, 65536):
        yield query_request(deepest(), 0, counted(b'\2' * 57344, off))
    yield guard_request(full)
    yield reference_request(full)
    yield list_request(K, 65535, 3, bytes(65535))
    for _ in range(1500):
        yield from random_judging(rng, (3, 8, 16, 40, 64))
    # each plan of three states and one action
    for chosen in range(512):
        p = plan(3, 1, [(k // 3, 0, k % 3) for k in range(9) if chosen >> k & 1])
        for kind in (7, 8):
            r = rule((kind, 0, 1), (3, 2, 4), (5, 0, 3), (6, 0, 0), (5, 0, 5), (4, 0, 6), T)
            s = sheet_of(p, TRUE, r)
            yield reference_request(s)
            yield list_request(s, 46, kind, rng.sample(range(4), 4))
            yield query_request(s, rng.randrange(3),
                                counted([rng.choice((0, 0, 1, 2)) for _ in range(42)]))
    for _ in range(200):
        yield from random_list(rng)
    yield pattern_request(K, full, 65535, 203)
    yield pattern_request(full, full, 65535, 204)
    for pattern in (b'\0' + full[3:] + b'\0\0', b'\1' * 65535, b'\0' + b'\2' * 65534,
                    b'\0' + b'\1' * 21844 + b'\0\0' * 21845,
                    b'\1' + b'\1\2\0\0\0\1' * 10921 + b'\0\2',
                    b'\1' + b'\1' * 9361 + b'\2\0\0\0\1' * 9362):
        yield pattern_request(K, pattern, 200, 205)
    for _ in range(4000):
        yield from random_translation(rng, (1, 3, 6, 9, 14, 25, 60))
    # about the longest plan, with three states that lead to no loop
    transitions = [t for t in triples(LONG_PLAN, 4) if t[0] not in (50, 70, 100)]
    p = plan(128, 255, sorted([*transitions, (50, 0, 70), (70, 254, 100)]))
    yield list_request(sheet_of(p, LONG_ACTIONS, rule((4, 1, 1), T)), 260, 0, range(129))
    for line in (*longest_lines(), full):
        yield line_request(9, line, 97, 206)
    yield line_request(9, b'not 3 and 4 or 5', 65535, 207)
    for _ in range(4000):
        yield from random_typing(rng, (1, 2, 3, 5, 9, 13, 16, 17, 40))
    yield report_request(full, full, 65535, 208, 65535, 209)
    yield report_request(K, full, 65535, 210, 65535, 211)
    yield report_request(K, bytes(65), 65535, 212, 65535, 213)
    yield report_request(K, [k % 4 for k in range(64)], 65535, 214, 65535, 215)
    for s in (deepest(), sheet_of(*LONG)):
        yield report_request(s, range(127, 63, -1), 57348, 216, ROOM, 217)
        yield report_request(s, range(2, 130, 2), 65535, 218, ROOM - 1, 219)
    for _ in range(1500):
        yield from random_report(rng, (3, 8, 16, 40, 64))
    for given in (*longest_texts(), full):
        yield aut_request(given, 6148, 220)
        yield aut_request(given, 6147, 221)
    yield aut_request(text(2, (0, b'a', 1)), 65535, 222)
    for _ in range(4000):
        yield from random_conversion(rng, (0, 1, 2, 5, 9, 40, 300))
    yield propose_request(full, b'\3\3\3')
    yield commit_request(full, b'\3\3\3', (771, 771, 50529027), 65535, 223)
    yield commit_request(K, (0, 2, 2), (1, 77, tag_of(K)), 65535, 224)
    yield from expected(*longest_branches())
    # each plan of three states and one action with each branch
    pairs = [(k // 3, 0, k % 3) for k in range(9)]
    for chosen in range(512):
        s = small(3, 1, [t for k, t in enumerate(pairs) if chosen >> k & 1])
        for branch in pairs:
            yield propose_request(s, branch)
            yield commit_request(s, branch, likely(s, branch), len(s) + 3, chosen % 256)
    for _ in range(4000):
        yield from random_branch(rng, (1, 3, 8, 16, 40, 64))
    for first, second in ((full, full), (b'', full), (full, b''), (full[:128], full[:65534])):
        yield shortest_request(K, first, second)
        yield shortest_request(sheet_of(*LONG), first, second)
    yield shortest_request(full, full, full)
    # each two recordings of up to three of two actions, for each rule
    runs = [bytes(run) for n in range(4) for run in product((0, 1), repeat=n)]
    for s, pattern in sayings():
        yield from expected(*(by_pattern(s, pattern, *pair) for pair in product(runs, repeat=2)))
    for _ in range(4000):
        yield from random_recordings(rng, (3, 8, 16, 40, 64), (0, 1, 2, 3, 5, 9, 30))
    yield audit_request(full, full)
    yield audit_request(K, full)
    yield from expected(*longest_audits())
    # each table of a sheet of two states with one node and of one state with two and a binder
    for s in (sheet_of(plan(2, 1, [(0, 0, 1)]), TRUE, rule((4, 0, 1), T)),
              *(sheet_of(plan(1, 1, []), TRUE, rule((kind, 0, 1), (6, 0, 0))) for kind in (7, 8))):
        for cells in product(range(3), repeat=4):
            yield audit_request(s, counted(cells))
    for _ in range(4000):
        yield from random_audit(rng, (3, 8, 16, 40, 64))
    yield allowance_request(full, full, 0xffffffff, full)
    yield allowance_request(K, bytes(8), 17 * 8, full)
    yield allowance_request(K, bytes(8), 17 * 8, bytes(65535))
    yield from expected(*longest_allowances())
    for benches in (1, 2, 3):
        yield from expected(*every_need(4, benches))
    for _ in range(4000):
        yield from random_allowance(rng, (3, 8, 16, 40, 64))
    yield closest_request(full, full)
    yield closest_request(K, full)
    yield closest_request(K, bytes(65535))
    yield from expected(*longest_searches())
    # each plan of three states and one action: where it ends, with every table of its roots' cells
    for chosen in range(512):
        s = ended(3, [divmod(k, 3) for k in range(9) if chosen >> k & 1])
        for roots in product(range(3), repeat=3):
            yield closest_request(s, counted([b for root in roots for b in (root, 0)]))
    for _ in range(4000):
        yield from random_search(rng, (3, 8, 16, 40, 64))
    for _ in range(200):
        yield from random_long_search(rng)
