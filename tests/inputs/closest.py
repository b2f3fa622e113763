"""The closest state that breaks the rule: request 17, each with what it must give, and searches at
random."""
import random

from inputs.chance import random_long_search, random_search
from inputs.closest_examples import examples
from inputs.closest_limits import at_limits


def searches_to_try():
    """each once"""
    yield from dict.fromkeys([*examples(), *at_limits()])


def searches():
    rng = random.Random(29)
    for _ in range(75):
        yield from random_search(rng, (3, 8, 16, 30))
    for _ in range(10):
        yield from random_long_search(rng)
