#!/usr/bin/env python3
"""closest_state, which prints the closest state and a way to it, on sheets of every kind.

    closest_program.py EXAMPLES PROGRAM    runs PROGRAM on the sheets of EXAMPLES, on refused ones,
                                           on ones at the limits and on about 2,000 at random, and
                                           compares with what tests/oracle says
"""
import random
import subprocess
import sys
from collections import Counter
from pathlib import Path

from inputs.chance import random_long_search, random_search
from inputs.contents import headings
from inputs.parts import K, K8, LEAST, LEAST_LOOP, LONG, deepest, refusals
from oracle.program import search_of
from oracle.sheet import sheet_of
from sheets import further


def sheet_in(request):
    """the sheet of a request: it stands first, behind its length"""
    return request[3:3 + request[1] + 256 * request[2]]


def chains():
    """plans of 128 states in a line, and with several shortest ways to the last"""
    action, rule = bytes((1, 1, 0, 0)), bytes((2, 4, 0, 1, 1, 0, 0))   # it fails at the end
    line = [(s, 0, s + 1) for s in range(127)]
    pairs = [(s, a, t) for s in range(0, 125, 2) for a in (0, 1) for t in (s + 1, s + 2)]
    for transitions in (line, sorted({*line, *pairs}), [*line[:60], *line[61:]]):
        head = bytes((128, 2, len(transitions) % 256, len(transitions) // 256))
        yield sheet_of(head + bytes(n for t in transitions for n in t), action, rule)


def sheets():
    rng = random.Random(29)
    yield from (K, K8, sheet_of(*LEAST), sheet_of(*LONG), LEAST_LOOP, b'', K + bytes(7000))
    yield from (deepest(), deepest(least=False), *refusals(), *headings(), *further(), *chains())
    for _ in range(1500):
        yield from map(sheet_in, random_search(rng, (3, 8, 16)))
    for _ in range(500):
        yield from map(sheet_in, random_long_search(rng))


def main(examples, program):
    met, wrong = Counter(), 0
    for sheet in (*(f.read_bytes() for f in sorted(Path(examples).glob('*.sheet'))), *sheets()):
        done = subprocess.run([program], input=sheet, capture_output=True, timeout=60)
        found, wanted = done.stdout.decode(), search_of(sheet) + '\n'
        if (done.returncode, done.stderr, found) != (0, b'', wanted):
            wrong += 1
            print('sheet', [*sheet[:90]], 'gives', found, 'and not', wanted)
        word, *numbers = wanted.split('\n')[0].split()
        if word == 'fails':
            word += ' at once' if numbers[1] == '0' else ' farther'
        met[word] += 1
        met['the longest way'] = max(met['the longest way'], wanted.count('\n') - 1)
    print(', '.join('%s: %d' % item for item in sorted(met.items())))
    print('%d wrong' % wrong if wrong else 'all as expected')
    sys.exit(wrong > 0)


if __name__ == '__main__':
    main(*sys.argv[1:])
