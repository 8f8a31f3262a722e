"""Calls of the observables: density matrix, particle number, one-body expectation and bond flow."""

import itertools
import math
import random

from bits import to_bits
from document01 import DEFAULT_TOLERANCE, LARGEST, function_length
from replay_calls import solves
from replay_calls.answers import ran
from replay_calls.calls import (
    DENSITY, EXPECTATION, FLOW, HALF_STEP, HUGE, INFINITY, MOST, NAN, NANS, NUMBER, RUN, SMALLEST, WRONG_TOLERANCES, Call, beside,
    by_place, some, with_entries,
)

ONE = [1.0, 0.0]


def density(points, orbitals, lesser, time):
    return Call(DENSITY, points, orbitals, 0.0, [lesser], (time,))


def number(points, orbitals, lesser, time, tolerance=DEFAULT_TOLERANCE):
    return Call(NUMBER, points, orbitals, tolerance, [lesser], (time,))


def expectation(points, orbitals, lesser, time, numbers, tolerance=DEFAULT_TOLERANCE, shape=None):
    """`shape` is the block's rows and columns, n by n if it is left out."""
    return Call(EXPECTATION, points, orbitals, tolerance, [lesser, numbers], (time, *(shape or (orbitals, orbitals))))


def flow(points, orbitals, lesser, time, a=0, b=0, hopping=(1.0, 0.0), charge=1.0):
    return Call(FLOW, points, orbitals, 0.0, [lesser], (time, a, b, *map(to_bits, (*hopping, charge))))


def one_each(points, orbitals, lesser, time, tolerance=DEFAULT_TOLERANCE):
    """Each observable, of the block of ones and the bond from 0 to 0."""
    yield density(points, orbitals, lesser, time)
    yield number(points, orbitals, lesser, time, tolerance)
    yield expectation(points, orbitals, lesser, time, ONE * min(orbitals, 16) ** 2, tolerance)
    yield flow(points, orbitals, lesser, time)


def at_start(orbitals, entries, points=2):
    """A lesser function whose density at time 0 has these complex numbers at (a, b), and +0 elsewhere."""
    return with_entries(points, orbitals, {(0, 0, a, b): (-im, re) for (a, b), (re, im) in entries.items()})


# ---- Answers -------------------------------------------------------------------


def bench():
    """The particle numbers of P12, and P10."""
    lesser = ran(next(call for call in solves.bench() if call.function == RUN)).lent["lesser"]
    for time in range(3):
        yield number(3, 1, lesser, time)
        yield density(3, 1, lesser, time)
    for imaginary in (0.5, 0.75, -0.5, -0.75):
        yield number(2, 1, at_start(1, {(0, 0): (2.0, imaginary)}), 0, 0.5)


def of_runs():
    """Of the lesser function of a random run, where the imaginary part is a rounding error or far from it."""
    rng = random.Random(21)
    for points, orbitals in [(3, 1), (3, 2), (2, 3)]:
        call = solves.random_call(RUN, points, orbitals, "plain", "uneven", rng)
        lesser = ran(call).lent["lesser"]
        yield from one_each(points, orbitals, lesser, points - 1, 10.0)
        yield number(points, orbitals, lesser, points - 1)
        for a, b in itertools.product(range(min(orbitals, 2)), repeat=2):
            yield flow(points, orbitals, lesser, points - 1, a, b, some("plain", 2, rng), rng.uniform(-2, 2))
        block = some("plain", 2 * orbitals**2, rng)
        for tolerance in (100.0, 1e-3):
            yield expectation(points, orbitals, lesser, points - 1, block, tolerance)
    # The largest block that the program reads.
    lesser = some("whole", function_length(2, 11), rng)
    yield density(2, 11, lesser, 1)
    yield number(2, 11, lesser, 1, 100.0)


def kinds():
    """Signs of 0, subnormal numbers and numbers of all sizes."""
    rng = random.Random(22)
    for re, im in itertools.product((0.0, -0.0), repeat=2):
        lesser = by_place(2, {(1, 1): (re, im)})
        yield density(2, 1, lesser, 1)
        yield number(2, 1, lesser, 1)
        yield flow(2, 1, lesser, 1, hopping=(-0.0, -0.0), charge=-0.0)
    for kind in ("subnormal", "edges", "wide"):
        yield from one_each(2, 2, some(kind, 32, rng), 1, LARGEST)
    for hopping in ((-0.0, 1.0), (1.0, -0.0), (-0.0, -0.0)):
        yield flow(2, 1, at_start(1, {(0, 0): (-0.0, 2.0)}), 0, hopping=hopping, charge=-1.0)
    # Each part at the largest number stays finite.
    for re, im in itertools.product((LARGEST, -LARGEST), repeat=2):
        yield density(2, 1, by_place(2, {(0, 0): (re, im)}), 0)
    # The bond is (b, a): a flow that reads (a, b) would see another number.
    for a, b in itertools.product(range(2), repeat=2):
        entries = {(0, 0): (1.0, 2.0), (0, 1): (3.0, 5.0), (1, 0): (7.0, 11.0), (1, 1): (13.0, 17.0)}
        yield flow(2, 2, at_start(2, entries), 0, a, b, (2.0, 3.0), 0.5)
    # Twice the charge comes first.
    yield flow(2, 1, at_start(1, {(0, 0): (0.0, 0.5)}), 0, charge=SMALLEST)
    yield flow(2, 1, at_start(1, {(0, 0): (0.0, 0.5)}), 0, charge=LARGEST)


def infinite():
    """Infinite flows, and flows that are no number, are answers; an infinite trace is line 10."""
    twice = {(0, 0): (LARGEST, 0.0), (1, 1): (LARGEST, 0.0)}
    minus = {at: (-re, 0.0) for at, (re, _) in twice.items()}
    turned = {at: (1.0, re) for at, (re, _) in twice.items()}
    identity = ONE + [0.0] * 4 + ONE
    for entries, tolerance in [(twice, 0.5), (minus, 0.5), (turned, 0.5), (turned, LARGEST)]:
        yield number(2, 2, at_start(2, entries), 0, tolerance)
        yield expectation(2, 2, at_start(2, entries), 0, identity, tolerance)
    for im, tolerance in [(LARGEST, LARGEST), (-LARGEST, LARGEST), (LARGEST, math.nextafter(LARGEST, 0.0))]:
        yield number(2, 1, at_start(1, {(0, 0): (1.0, im)}), 0, tolerance)
    for value, hopping, charge in [
        ((0.0, 1.0), (2.0, 0.0), LARGEST),
        ((0.0, -1.0), (2.0, 0.0), LARGEST),
        ((1.0, 0.0), (2.0, 0.0), LARGEST),
        ((0.0, LARGEST), (2.0, 0.0), 1.0),
        ((0.0, LARGEST), (2.0, 0.0), 0.0),
        ((LARGEST, LARGEST), (2.0, -2.0), 1.0),
        ((LARGEST, LARGEST), (2.0, 2.0), -1.0),
        ((0.0, LARGEST), (1.0, 0.0), 1.0),
        ((0.0, LARGEST), (1.0, 0.0), 0.5),
    ]:
        yield flow(2, 1, at_start(1, {(0, 0): value}), 0, hopping=hopping, charge=charge)


def not_real():
    """Line 14: the imaginary part below the tolerance, equal to it and above it."""
    for tolerance in beside(0.3):
        for im in (0.3, -0.3):
            yield number(2, 1, at_start(1, {(0, 0): (2.0, im)}), 0, tolerance)
        yield expectation(2, 2, at_start(2, {(0, 1): (2.0, 0.0)}), 0, [9.0, 9.0] * 2 + [0.0, 0.3 / 2.0] + ONE, tolerance)
    # Parts that cancel.
    yield number(2, 2, at_start(2, {(0, 0): (1.0, 0.75), (1, 1): (1.0, -0.75)}), 0, SMALLEST)


# ---- Refusals ------------------------------------------------------------------


def sizes_and_lengths():
    """Lines 1, 2 and 3, each before the next and before all others; the block's size counts too."""
    for points, orbitals in [(1, 17), (257, 1)]:
        yield from one_each(points, orbitals, [NAN, 1.0], MOST, NAN)
    yield number(2, 0, [NAN], MOST, NAN)
    yield number(HUGE, HUGE, [NAN], MOST, NAN)
    for lesser in ([NAN] * 7, [NAN] * 9):
        yield from one_each(2, 1, lesser, 2, NAN)
    good, block = [1.0] * 32, [NAN] * 8
    for shape in [(0, 2), (2, 0), (17, 0), (17, 2), (2, 17), (MOST, HUGE), (1, 2), (2, 1), (3, 3)]:
        yield expectation(2, 2, good, MOST, block, NAN, shape)
    yield expectation(2, 17, [], 0, block, 0.5, (0, 2))
    yield expectation(2, 2, good[1:], 0, [1.0] * 8, 0.5)


def not_finite():
    """Line 7, of the lesser function before the block and before lines 8 to 14. Beyond its entries the block is not read."""
    for at, bad in [(0, NAN), (5, INFINITY), (7, NANS[0])]:
        lesser = [bad if index == at else 1.0 for index in range(8)]
        yield from one_each(2, 1, lesser, 9, NAN)
        yield expectation(2, 1, lesser, 9, [NAN, NAN], NAN)
        yield flow(2, 1, lesser, 9, 9, 9, (NAN, NAN), NAN)
        yield expectation(2, 2, [1.0] * 32, 9, [bad if index == at else LARGEST for index in range(8)], NAN)
    yield expectation(2, 2, [1.0] * 32, 0, [1.0] * 7)


def wrong_places():
    """Lines 8, 11, 10 and 14 in their order, and 13, 12 and 11 in theirs."""
    unreal = at_start(1, {(0, 0): (1.0, 1.0)})
    for time in (0, 1, 2, MOST):
        yield density(2, 1, unreal, time)
        for tolerance in (0.5, NAN):
            yield number(2, 1, unreal, time, tolerance)
    for tolerance in (0.0, -0.0, -SMALLEST, INFINITY):
        yield number(2, 1, unreal, 0, tolerance)
    large = at_start(2, {(0, 0): (1e200, 1.0)})
    # The product overflows on the diagonal, or beside it; or it does not.
    for numbers, time, tolerance in itertools.product(
        ([1e200, 0.0] + [0.0] * 6, [0.0] * 4 + [1e200, 0.0] * 2, ONE * 4), (0, 2), (0.5, NAN)
    ):
        yield expectation(2, 2, large, time, numbers, tolerance)
    for re, im, charge in [(NAN, 1.0, 1.0), (INFINITY, 1.0, 1.0), (1.0, -INFINITY, 1.0), (1.0, 1.0, NAN), (1.0, 1.0, INFINITY)]:
        yield flow(2, 2, [1.0] * 32, 2, 2, 2, (re, im), charge)
    for a, b in [(2, 0), (0, 2), (2, 2), (MOST, 0), (0, HUGE)]:
        yield flow(2, 2, [1.0] * 32, 0, a, b)
    for time, a, b in [(2, 2, 0), (2, 0, 2), (2, 1, 1), (MOST, 1, 1), (1, 1, 1)]:
        yield flow(2, 2, [1.0] * 32, time, a, b)


def on_diagonal(values, time, tolerance):
    """The particle number of a density that has these complex numbers on its diagonal, and the expectation of the identity."""
    size = len(values)
    lesser = at_start(size, {(a, a): value for a, value in enumerate(values)})
    identity = [part for a, b in itertools.product(range(size), repeat=2) for part in (float(a == b), 0.0)]
    yield number(2, size, lesser, time, tolerance)
    yield expectation(2, size, lesser, time, identity, tolerance)


def infinite_traces():
    """Line 10 by a part of the trace that is not finite: after lines 8 and 11, before line 14."""
    below = math.nextafter(HALF_STEP, 0.0)
    real, imaginary = [(LARGEST, 0.0)] * 2, [(0.0, LARGEST)] * 2
    # An infinite real part, beside an imaginary one that is below the tolerance, equal to it and above it.
    for im, tolerance in [(0.0, SMALLEST), (1.0, 2.0), (1.0, 1.0), (1.0, 0.5), (-1.0, 0.5), (LARGEST, LARGEST), (LARGEST, 0.5)]:
        yield from on_diagonal([(LARGEST, 0.0), (LARGEST, im)], 0, tolerance)
        yield from on_diagonal([(-LARGEST, im), (-LARGEST, 0.0)], 0, tolerance)
    # An infinite imaginary part, and both.
    for sign, tolerance in itertools.product((1.0, -1.0), (0.5, LARGEST)):
        yield from on_diagonal([(1.0, sign * LARGEST)] * 2, 0, tolerance)
        yield from on_diagonal([(LARGEST, sign * LARGEST)] * 2, 0, tolerance)
    # Partial sums that overflow and would come back, one that does not overflow, and one that does by its third number.
    for values in ([1, 1, -1], [-1, -1, 1], [1, -1, 1], [1, 1, -1, -1], [1, -1, -1, -1, 1], [0.25, 0.5, 0.5]):
        yield from on_diagonal([(LARGEST * x, 0.0) for x in values], 0, 0.5)
        yield from on_diagonal([(0.0, LARGEST * x) for x in values], 0, LARGEST)
    for x in (HALF_STEP, below):
        yield from on_diagonal([(LARGEST, 0.0), (x, 0.0)], 0, 0.5)
        yield from on_diagonal([(0.0, -x), (0.0, -LARGEST)], 0, LARGEST)
    yield number(2, 11, at_start(11, {(a, a): (LARGEST / 8, 0.0) for a in range(11)}), 0)
    # Entries beside the diagonal and those of another time do not count.
    beside_it = with_entries(2, 2, {(0, 0, 0, 1): (LARGEST, LARGEST), (0, 0, 1, 0): (LARGEST, LARGEST)})
    for lesser in (beside_it, with_entries(2, 2, {(1, 1, a, a): (LARGEST, LARGEST) for a in range(2)})):
        yield from one_each(2, 2, lesser, 0)
    # Lines 8 and 11 come first.
    for values, time, tolerance in itertools.product((real, imaginary), (0, 2), (0.0, NAN, 0.5)):
        yield from on_diagonal(values, time, tolerance)
    # The trace is that of the product, not of the density, and the product may overflow by itself.
    lesser = at_start(2, {(a, a): (LARGEST, 0.0) for a in range(2)})
    for diagonal in ([0.5, 0.5], [0.5, math.nextafter(0.5, 1.0)], [1.0, -1.0], [2.0, 0.0], [0.0, 0.0]):
        yield expectation(2, 2, lesser, 0, [diagonal[0], 0.0, 0.0, 0.0, 0.0, 0.0, diagonal[1], 0.0], 0.5)


def arguments_first():
    """Line 8 before 11 and before 10: each tolerance that is none, and one that is, with an index past the times, with a product that
    overflows, with both and with neither; and lines 3 and 7 before it."""
    root = 2.0**512
    for tolerance in (*WRONG_TOLERANCES, 0.5):
        for time, value in itertools.product((0, 2, MOST), (0.0, root)):
            lesser = at_start(1, {(0, 0): (value, 0.0)})
            if value == 0.0:
                yield number(2, 1, lesser, time, tolerance)
            yield expectation(2, 1, lesser, time, [value, 0.0], tolerance)
    for lesser in ([0.0] * 7, [0.0] * 7 + [NAN]):
        yield number(2, 1, lesser, 2, 0.0)
        yield expectation(2, 1, lesser, 2, [0.0, 0.0], 0.0)
    yield expectation(2, 1, [0.0] * 8, 2, [0.0, INFINITY], 0.0)
    yield expectation(2, 1, [0.0] * 8, 2, [0.0] * 4, 0.0, (1, 2))


CASES = [
    bench, of_runs, kinds, infinite, not_real, sizes_and_lengths, not_finite, wrong_places, infinite_traces, arguments_first,
]
