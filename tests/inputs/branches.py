"""Parked branches, proposed and then added: requests 12 and 13, each with what it must give."""
import random

from inputs.branch_examples import examples
from inputs.branch_limits import at_limits
from inputs.branch_loops import with_loops
from inputs.branch_page import of_the_page
from inputs.branch_proposals import proposals
from inputs.chance import random_branch


def branches_to_try():
    yield from of_the_page()
    yield from examples()
    yield from at_limits()
    yield from with_loops()
    yield from proposals()


def branches():
    rng = random.Random(15)
    for _ in range(60):
        yield from random_branch(rng)
