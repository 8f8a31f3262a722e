"""Calls of functions at sizes that are too large to be stored: their numbers are made from a seed."""

import itertools
import random

from bits import to_bits
from document01 import DEFAULT_TOLERANCE
from replay_calls.calls import (
    CAUSAL, DENSITY, DYSON, DYSON_DEFAULT, FLOW, FULL, LANGRETH, MADE, NAN, NUMBER, REPORT, RUN, SUPPORT, Call,
)

FUNCTIONS = (FULL, CAUSAL, SUPPORT, DYSON, DYSON_DEFAULT, RUN, DENSITY, NUMBER, FLOW, REPORT, LANGRETH)
WITH_TOLERANCE = (SUPPORT, DYSON, RUN, NUMBER, REPORT)


def made(function, points, orbitals, more=(), tolerance=DEFAULT_TOLERANCE):
    asked = tolerance if function in WITH_TOLERANCE else 0.0
    seed = random.Random(f"{function} {points} {orbitals}").getrandbits(64)
    return Call(MADE + function, points, orbitals, asked, more=(seed, *more))


def bond(time, a, b, hopping=(0.75, -1.5), charge=0.5):
    return (time, a, b, *map(to_bits, (*hopping, charge)))


def every_function():
    """Each function with the most points, with the most orbitals, and at sizes that are small; observables at the last time."""
    for (points, orbitals), function in itertools.product([(256, 1), (16, 16), (2, 1), (3, 2)], FUNCTIONS):
        last = points - 1
        more = {DENSITY: (last,), NUMBER: (last,), FLOW: bond(last, orbitals - 1, 0)}.get(function, ())
        yield made(function, points, orbitals, more, 16.0 if function == NUMBER else DEFAULT_TOLERANCE)


def between():
    """Shapes between, as large."""
    for points, orbitals in [(128, 2), (64, 4), (32, 8)]:
        yield made(RUN, points, orbitals)
    yield made(LANGRETH, 64, 4)


def refused():
    """What is lent stays as it was. An imaginary part, a place and a factor are refused at these sizes too."""
    yield made(DYSON, 256, 1, tolerance=0.0)
    yield made(RUN, 256, 1, tolerance=NAN)
    yield made(RUN, 16, 16, tolerance=-1.0)
    yield made(SUPPORT, 256, 1, tolerance=0.0)
    yield made(NUMBER, 256, 1, (255,))
    yield made(NUMBER, 256, 1, (256,))
    yield made(NUMBER, 256, 1, (256,), tolerance=0.0)
    yield made(DENSITY, 16, 16, (16,))
    yield made(FLOW, 16, 16, bond(15, 15, 16))
    yield made(FLOW, 16, 16, bond(15, 16, 16, (NAN, 1.0)))
    yield made(FLOW, 16, 16, bond(15, 3, 12))
    yield made(REPORT, 16, 16, tolerance=100.0)


CASES = [every_function, between, refused]
