#!/usr/bin/env python3
"""A sheet with a parked branch: one transition more, proposed and then added.

    branch_sheet.py OLD FROM ACTION TO [NEW]    proposes the branch for the sheet OLD and, where NEW
                                                is named, adds it and writes the new sheet there

FROM, ACTION and TO are a state, an action and a state, in decimal. The proposal is printed:
`proposal`, the insertion place, the new sheet's length and the tag of OLD.

The trial driver makes the calls (docs/TRIALS.md, requests 12 and 13), and they alone decide. Where
one refuses, `refused`, its number and its place go to standard error, and nothing is written.
Run `tools/build trials` first, or name another driver by `--driver PROGRAM` before OLD.
"""
import sys
from pathlib import Path

from driver import ROOM, answered, called, fitting, run, typed
from oracle.protocol import commit_request, propose_request


def one_byte(word):
    found = typed(word)
    if len(found) != 1:
        sys.exit('%s is no byte' % (word or 'nothing'))
    return found[0]


def branched(driver, args):
    old, branch = fitting(Path(args[0]).read_bytes()), [*map(one_byte, args[1:4])]
    proposal = [*map(int, answered(driver, propose_request(old, branch),
                                   rb'(\d+) (\d+) (\d+)\n'))]
    if len(args) == 5:
        new = called(driver, commit_request(old, branch, proposal, ROOM, 0))
        Path(args[4]).write_bytes(new)
    print('proposal %d %d %d' % tuple(proposal))


if __name__ == '__main__':
    sys.exit(run(branched, (4, 5), sys.argv[1:], __doc__))
