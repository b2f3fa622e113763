"""The shorter of two bad runs: request 14, each with what it must give, and runs as sheets."""
import random

from inputs.chance import random_recordings
from inputs.recording_examples import examples
from inputs.recording_limits import at_limits
from inputs.recording_page import of_the_page
from inputs.recording_parts import as_sheet, said
from inputs.recording_rules import rules_to_try, run_of, sayings
from oracle.protocol import list_request, reference_request, yes
from oracle.rows import Sheet


def recordings_to_try():
    yield from of_the_page()
    yield from examples()
    yield from at_limits()
    yield from rules_to_try()


def judged_runs():
    """a run as a sheet: a rule holds at a state where it holds of what is left of the run"""
    rng = random.Random(17)
    for i, (s, pattern) in enumerate(sayings()):
        run = run_of(rng)
        chain, states = as_sheet(s, run), range(len(run) + 1)
        holds = [said(pattern, run[state:]) for state in states]
        if i % 2:
            yield reference_request(chain), 'reference 0 0 %d|' % sum(
                1 << state for state in states if holds[state])
        else:
            yield list_request(chain, Sheet(chain).table_size(), 7, [0]), (
                'clear 0 0|query 0 0 %s ' % yes(holds[0]))


def recordings():
    rng = random.Random(18)
    for _ in range(60):
        yield from random_recordings(rng)
