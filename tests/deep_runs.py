#!/usr/bin/env python3
"""Runs of 127 actions, searched for the deepest rules on a small stack, and a bench and the closest
state of the deepest sheet there.

Sends request 14 (docs/TRIALS.md) to the trial driver, with a stack of 6 MiB, which leaves a quarter
of the usual 8 MiB, and with rules like that of the sheet on which a query nests deepest: one that
holds on all 256 beginnings, and some that fail on the last alone. Then request 16 with that sheet
and one bench, whose table is the largest there is, with all the visits it needs and with one too
few; of several benches a copy is made of one table at a time, so that no more is needed. Then
request 17 with that sheet, of which the rule fails at state 0, and with its kinds exchanged, so
that the rule holds at each of 128 states. Each has to be answered as it should be. The least stack
on which it is, five times in a row, is printed too, beside that of a query of the deepest sheet;
the system does not place a stack alike each time, so it varies by some KiB.

Run `tools/build trials` first, or name another driver by `--driver PROGRAM`.
"""
import resource
import subprocess
import sys
import time

from driver import chosen
from inputs.allowance_limits import DEEPEST
from inputs.allowance_parts import dealt
from inputs.closest_parts import fails, holds
from inputs.parts import deepest
from inputs.recording_parts import DEEP, DEEP_ONLY, DEEP_UNTIL, found, none, sheet
from oracle.protocol import answers, list_request

STACK, STEP = 6144, 16                  # KiB
HARD = resource.getrlimit(resource.RLIMIT_STACK)[1]


def cases():
    """each with its request and its answer"""
    zeros, others = b'\0' * 127, b'\3' * 127
    yield 'it holds on every beginning', *none(sheet(DEEP), zeros, others)
    for what, tree, bad in (('it fails at an action 1', DEEP_UNTIL, zeros[1:] + b'\1'),
                            ('it fails at an action 3', DEEP_ONLY, zeros[1:] + b'\3')):
        yield what + ', the first', *found(sheet(tree), bad, zeros, 'first', 127)
        yield what + ', the second', *found(sheet(tree), zeros, bad, 'second', 127)
    for what, visits in (('a bench that gets all it needs', DEEPEST),
                         ('a bench that is short by one visit', DEEPEST - 1)):
        yield what, *dealt(deepest(), [0], visits, [bytes(57348)], [visits])
    yield 'the closest state is state 0', *fails(deepest(), [0], 0)
    yield 'the rule holds at 128 states', *holds(deepest(least=False), range(128))
    query = list_request(deepest(), 57348, 0, [0])
    yield 'a query of the deepest sheet', query, answers(query).decode().replace('\n', '|')


def answered(driver, request, answer, size):
    """whether the driver gives the answer on a stack of so many KiB"""
    def small():
        resource.setrlimit(resource.RLIMIT_STACK, (size * 1024, HARD))
    done = subprocess.run([driver], input=request, capture_output=True, preexec_fn=small)
    return done.stdout.decode().replace('\n', '|') == answer


def least(driver, request, answer):
    """on which stack it still does, by halving"""
    low, high = 0, STACK
    while high - low > STEP:
        middle = (low + high) // 2
        if all(answered(driver, request, answer, middle) for _ in range(5)):
            high = middle
        else:
            low = middle
    return high


def main(args):
    driver, others = chosen(args)
    if others:
        print(__doc__)
        return 0 if others == ['--help'] else 2
    wrong = 0
    for what, request, answer in cases():
        start = time.perf_counter()
        good = answered(driver, request, answer, STACK)
        spent = (time.perf_counter() - start) * 1000
        said = 'least stack %d KiB' % least(driver, request, answer) if good else 'WRONG'
        print('%-36s %6.0f ms, %s' % (what, spent, said))
        wrong += not good
    if not wrong:
        print('all answered as they should be, on a stack of %d KiB' % STACK)
    return min(wrong, 1)


if __name__ == '__main__':
    sys.exit(main(sys.argv[1:]))
