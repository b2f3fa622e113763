#!/usr/bin/env python3
"""The shorter of two bad runs: the shortest beginning, of either of two recordings of a machine, on
which the rule of a sheet fails.

    shortest_run.py SHEET FIRST SECOND    says which recording it is of, how many actions it has,
                                          and which; or that the rule holds on every beginning

FIRST and SECOND are files of action bytes, at most 127 of them each, with nothing between them. The
beginning of no action counts too. Between equal lengths the first recording's is taken.

The trial driver makes the call (docs/TRIALS.md, request 14), and it alone decides. Where it
refuses, `refused`, its number and its place go to standard error, with what they mean.
Run `tools/build trials` first, or name another driver by `--driver PROGRAM` before SHEET.

It ends with 0 where the call answers, whether the rule fails or holds; with 1 where it refuses, or
a file or the driver can't be used; with 2 where it isn't called with three files.
"""
import sys
from pathlib import Path

from driver import answered, fitting, in_words, run
from oracle.protocol import shortest_request
from oracle.sheet import Refused

FURTHER = {
    42: 'a recording has more than 127 actions',
    43: 'a recording has an action that is not below the number of actions of the sheet',
}


def answer_line(which, part):
    if which == 'none':
        return 'the rule holds on every beginning of both recordings'
    if not part:
        return 'the rule fails before any action of the %s recording, and so of every one' % which
    count = '' if len(part) == 1 else '%d ' % len(part)
    return 'the rule fails on the first %saction%s of the %s recording: %s' % (
        count, 's' * (len(part) > 1), which, ' '.join(map(str, part)))


def refusal_line(number, place):
    return in_words(FURTHER, number, place)


def searched(driver, args):
    request = shortest_request(*(fitting(Path(file).read_bytes()) for file in args))
    try:
        which, part = answered(driver, request, rb'(first|second|none) (\w*)\n')
    except Refused as refused:
        sys.exit(refusal_line(refused.number, refused.place))
    print(answer_line(which, bytes.fromhex(part)))


if __name__ == '__main__':
    sys.exit(run(searched, (3,), sys.argv[1:], __doc__))
