#!/usr/bin/env python3
"""A sheet of an .aut text, with action formulas and a rule as they are typed.

    aut_sheet.py FILE ACTIONS RULE [SHEET]    writes the sheet of FILE's plan, to SHEET or to
                                              standard output

ACTIONS and RULE are bodies (docs/FORMAT.md, sections 1.2 and 1.3): bytes in decimal, with spaces or
commas between them. ACTIONS may be the word `line` and an action formula as it is typed at the
bench (docs/LINES.md) instead.

The trial driver makes the calls (docs/TRIALS.md, requests 11, 9 and 6), and they alone decide.
Where one refuses, `refused`, its number and its place go to standard error, and nothing is written.
Run `tools/build trials` first, or name another driver by `--driver PROGRAM` before FILE.
"""
import os
import re
import sys
from pathlib import Path

from driver import ROOM, called, fitting, run, typed
from oracle.protocol import aut_request, line_request, write_request

# bytes that are enough for every plan body and for every line's body
PLAN, LINE = 6148, 97


def sheet_from(driver, text, actions, rule):
    rule_body, line = typed(rule), re.fullmatch('line (.*)', actions)
    actions_body = b'' if line else typed(actions)
    plan_body = called(driver, aut_request(fitting(text), PLAN, 0))
    if line:
        formula = fitting(os.fsencode(line[1]))
        actions_body = called(driver, line_request(plan_body[1], formula, LINE, 0))
    return called(driver, write_request(plan_body, actions_body, rule_body, ROOM, 0))


def written(driver, args):
    made = sheet_from(driver, Path(args[0]).read_bytes(), *args[1:3])
    if len(args) == 4:
        Path(args[3]).write_bytes(made)
    else:
        sys.stdout.buffer.write(made)


if __name__ == '__main__':
    sys.exit(run(written, (3, 4), sys.argv[1:], __doc__))
