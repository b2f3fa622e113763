"""Filled tables from elsewhere: request 15, each with what it must give, and tables at random."""
import random

from inputs.audit_examples import examples
from inputs.audit_limits import at_limits
from inputs.audit_rows import rows_to_try
from inputs.chance import random_audit


def audits_to_try():
    """each once"""
    yield from dict.fromkeys([*examples(), *rows_to_try(), *at_limits()])


def audits():
    rng = random.Random(19)
    for _ in range(300):
        yield from random_audit(rng)
