"""One allowance of visits for several benches: request 16, each with what it must give, and benches
at random."""
import random

from inputs.allowance_dealing import dealings
from inputs.allowance_examples import examples
from inputs.allowance_limits import at_limits
from inputs.chance import random_allowance


def allowances_to_try():
    """each once"""
    yield from dict.fromkeys([*examples(), *dealings(), *at_limits()])


def allowances():
    rng = random.Random(23)
    for _ in range(120):
        yield from random_allowance(rng, (8, 16, 30))
