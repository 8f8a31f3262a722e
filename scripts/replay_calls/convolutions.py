"""Calls of both convolutions and of the support test."""

import itertools
import math
import random

from document01 import LARGEST, SMALLEST_NORMAL, function_length, place
from replay_calls.calls import (
    CAUSAL, FULL, GRIDS, HUGE, INFINITY, KINDS, MOST, NAN, NANS, NOT_FINITE, SMALLEST, SUPPORT, Call, beside, by_place, held,
    other_length, quarters, some, with_entries,
)

BOTH = (FULL, CAUSAL)

# ---- Convolutions --------------------------------------------------------------


def convolution(function, times, left, right, orbitals=1, points=None, out=None):
    points = len(times) if points is None else points
    return Call(function, points, orbitals, 0.0, [times, left, right, held(len(left)) if out is None else out])


def random_convolution(function, points, orbitals, kind, grid, rng):
    count = function_length(points, orbitals)
    return convolution(function, GRIDS[grid](points), some(kind, count, rng), some(kind, count, rng), orbitals)


def ordinary():
    rng = random.Random(1)
    for function, orbitals, points in itertools.product(BOTH, (1, 2, 3), (2, 3, 4, 5, 6)):
        yield random_convolution(function, points, orbitals, "plain", "uneven", rng)
    for function, (points, orbitals) in itertools.product(BOTH, [(2, 1), (2, 2), (2, 3), (3, 1), (3, 2), (4, 1), (5, 1)]):
        yield random_convolution(function, points, orbitals, "whole", "quarters", rng)


def kinds_and_grids():
    rng = random.Random(2)
    for function, kind, (points, orbitals) in itertools.product(BOTH, KINDS, [(2, 1), (4, 1), (2, 2)]):
        yield random_convolution(function, points, orbitals, kind, "count", rng)
    for function, grid, (points, orbitals) in itertools.product(BOTH, GRIDS, [(2, 1), (4, 1), (2, 2)]):
        yield random_convolution(function, points, orbitals, "plain", grid, rng)
    for function, kind in itertools.product(BOTH, ("signs", "edges", "subnormal")):
        yield random_convolution(function, 3, 1, kind, "smallest steps", rng)


def signs_of_zero():
    """A sum starts at +0, so that no -0 comes out of products that are -0."""
    for z, w in itertools.product([(-0.0, 0.0), (-0.0, -0.0), (0.0, -0.0), (0.0, 0.0)], [(1.0, 0.0), (-1.0, 0.0), (0.0, 1.0)]):
        left = with_entries(2, 1, {(t, u, 0, 0): z for t in range(2) for u in range(2)})
        right = with_entries(2, 1, {(t, u, 0, 0): w for t in range(2) for u in range(2)})
        for function in BOTH:
            yield convolution(function, [0.0, 2.0], left, right)


def overflows():
    """Line 10: by a product, by its scaling, by a sum; on the diagonal the causal convolution forms no product."""
    half, most = 0.5 * LARGEST, 0.75 * LARGEST
    below = math.nextafter(LARGEST, 0.0)
    ones = {(t, u): 1.0 for t in range(3) for u in range(3)}
    count, unit = [0.0, 1.0, 2.0], [0.0, 2.0, 4.0]
    pairs = []
    # A product that overflows, at each place of the left factor.
    for at in ones:
        pairs.append((count, by_place(3, {at: LARGEST}), by_place(3, {at_: 2.0 for at_ in ones})))
    # One on the diagonal alone, which the causal sum does not form.
    for t in range(3):
        pairs.append((count, by_place(3, {(t, t): LARGEST}), by_place(3, {(t, t): -2.0})))
        pairs.append((count, by_place(3, {(t, t): (LARGEST, LARGEST)}), by_place(3, {(t, t): (1.0, 1.0)})))
        pairs.append((count, by_place(3, {(t, t): (0.0, LARGEST)}), by_place(3, {(t, t): (0.0, 1.0)})))
    # A product that is finite and whose scaling overflows, and one that just does not.
    for step, value in [(4.0, LARGEST), (4.0, half), (4.0, math.nextafter(half, INFINITY)), (2.0, LARGEST), (2.0, below), (1.0, LARGEST)]:
        pairs.append(([0.0, step], by_place(2, {(1, 0): value}), by_place(2, {(0, 0): 1.0})))
        pairs.append(([0.0, step], by_place(2, {(1, 0): (0.0, value)}), by_place(2, {(0, 0): -1.0})))
        pairs.append(([0.0, step], by_place(2, {(1, 1): value}), by_place(2, {(1, 0): (0.0, 1.0)})))
    # A sum that overflows, one that would come back, and one that reaches the largest number.
    for row in ([most, most, 0.0], [most, most, -LARGEST], [most, -most, most], [half, half, half], [half, 0.0, half], [half, -half, LARGEST]):
        for t in (1, 2):
            values = {(t, s): value for s, value in enumerate(row)}
            pairs.append((unit, by_place(3, values), by_place(3, ones)))
    # In a product itself: two parts that are infinite, and parts whose difference is.
    for z, w in [((LARGEST, LARGEST), (2.0, 2.0)), ((LARGEST, LARGEST), (1.0, 1.0)), ((LARGEST, LARGEST), (1.0, -1.0)), ((LARGEST, -LARGEST), (0.5, 0.5))]:
        pairs.append(([0.0, 1.0], by_place(2, {(1, 0): z}), by_place(2, {(0, 0): w})))
    # A step that halves to 0 makes a NaN of an infinite product.
    pairs.append(([0.0, SMALLEST], by_place(2, {(1, 0): LARGEST}), by_place(2, {(0, 0): 2.0})))
    pairs.append(([0.0, SMALLEST], by_place(2, {(1, 0): LARGEST}), by_place(2, {(0, 0): 1.0})))
    for times, left, right in pairs:
        for function in BOTH:
            yield convolution(function, times, left, right)


def overflows_in_blocks():
    """Line 10 by the sum over the orbitals, and by one entry of one block, on the diagonal in the full convolution alone."""
    most = 0.75 * LARGEST
    for values in ([most, most], [LARGEST, -LARGEST], [2.0, -2.0]):
        left = with_entries(2, 2, {(1, 0, 1, k): (value, 0.0) for k, value in enumerate(values)})
        for factor in (1.0, 2.0, LARGEST):
            right = with_entries(2, 2, {(0, 0, k, 0): (factor, 0.0) for k in range(2)})
            for function in BOTH:
                yield convolution(function, [0.0, 1.0], left, right, 2)
    for entry in [(0, 0), (0, 1), (1, 0), (1, 1)]:
        left = with_entries(2, 2, {(1, 1, entry[0], 0): (LARGEST, 0.0)}, other=0.5)
        right = with_entries(2, 2, {(1, 1, 0, entry[1]): (2.0, 0.0)}, other=0.25)
        for function in BOTH:
            yield convolution(function, [0.0, 1.0], left, right, 2)


def above_the_diagonal():
    """What stands above the diagonal of the operands does not reach the causal convolution, and what stood in the output goes."""
    rng = random.Random(3)
    for points, orbitals in [(2, 1), (3, 1), (4, 2)]:
        count = function_length(points, orbitals)
        left, right = some("plain", count, rng), some("plain", count, rng)
        for t, u in itertools.combinations(range(points), 2):
            begin = place(points, orbitals, t, u, 0, 0)
            left[begin : begin + 2 * orbitals**2] = right[begin : begin + 2 * orbitals**2] = [LARGEST] * (2 * orbitals**2)
        for out in ([NAN] * count, [-0.0] * count, some("plain", count, rng)):
            for function in BOTH:
                yield convolution(function, quarters(points), left, right, orbitals, out=out)


def sizes():
    """Lines 1, 2 and 3, each before the next and before all others."""
    shapes = [(0, 1), (1, 1), (2, 0), (0, 0), (1, 17), (257, 0), (0, MOST), (MOST, 0)]
    shapes += [(257, 1), (2, 17), (257, 17), (MOST, 1), (2, MOST), (HUGE, HUGE)]
    shapes += [(256, 1), (256, 16), (2, 16), (255, 15)]
    for function, (points, orbitals) in itertools.product(BOTH, shapes):
        yield Call(function, points, orbitals, 0.0, [[0.0], [1.0], [NAN], [3.0, NAN]])
    for function in BOTH:
        yield Call(function, 0, 1, 0.0, [[], [], [], []])
        yield Call(function, 2, 1, 0.0, [[], [], [], []])
        yield Call(function, 1, 1, 0.0, [[0.0], [1.0, 1.0], [1.0, 1.0], [7.0, 7.0]])


def lengths():
    """Line 3: each slice one short and one long, and lengths of another shape."""
    rng = random.Random(4)
    for function, (points, orbitals) in itertools.product(BOTH, [(2, 1), (3, 1), (2, 2)]):
        count = function_length(points, orbitals)
        for at, change in itertools.product(range(4), (-1, 1)):
            slices = [quarters(points), some("whole", count, rng), some("whole", count, rng), held(count)]
            yield Call(function, points, orbitals, 0.0, other_length(slices, at, change))
    # Of one slice alone, where lines 4, 5 and 7 would refuse too.
    for function, at in itertools.product(BOTH, range(4)):
        slices = [[1.0, 0.0, NAN], [NAN] * 18, [INFINITY] * 18, held(18)]
        yield Call(function, 3, 1, 0.0, other_length(slices, at, -1))
    for function in BOTH:
        numbers = some("whole", 32, rng)
        yield Call(function, 2, 2, 0.0, [quarters(4), numbers, numbers, held(32)])
        yield Call(function, 4, 1, 0.0, [quarters(2), numbers, numbers, held(32)])
        yield Call(function, 4, 2, 0.0, [quarters(4), numbers, numbers, held(32)])


def wrong_times():
    """Lines 4, 5 and 6, each before the next and before line 7."""
    grids = []
    for bad in NOT_FINITE[:3]:
        grids += [[bad, 1.0, 2.0], [0.0, bad, 2.0], [0.0, 1.0, bad], [1.0, 0.0, bad], [bad, bad, bad]]
    grids += [[0.0, 1.0, bad] for bad in NANS]
    grids += [[0.0, 0.0, 1.0], [0.0, 1.0, 1.0], [-0.0, 0.0, 1.0], [0.0, -0.0, 1.0], [2.0, 1.0, 0.0], [0.0, 2.0, 1.0]]
    grids += [[LARGEST, LARGEST, LARGEST], [-LARGEST, LARGEST, 0.0], [LARGEST, -LARGEST, 0.0]]
    grids += [[-LARGEST, 0.0, LARGEST], [-LARGEST, LARGEST], [-LARGEST, 1.0, 2.0], [0.0, 1.0, LARGEST]]
    grids += [[-LARGEST, LARGEST / 2, LARGEST], [-LARGEST / 2, 0.0, LARGEST / 2]]
    for function, times in itertools.product(BOTH, grids):
        count = function_length(len(times), 1)
        yield convolution(function, times, [0.5] * count, [2.0] * count)
    for function, times in itertools.product(BOTH, ([0.0, NAN, 0.0], [1.0, 1.0, 0.0], [-LARGEST, 0.0, LARGEST], [0.0, 1.0, 2.0])):
        yield convolution(function, times, [LARGEST] * 17 + [NAN], [INFINITY] * 18)


def not_finite():
    """Line 7: operand 0 before operand 1, the lowest position, above the diagonal too, and before line 10."""
    for function, (points, orbitals) in itertools.product(BOTH, [(2, 1), (3, 1), (2, 2)]):
        count = function_length(points, orbitals)
        for operand, at in itertools.product((0, 1), (0, 1, 2, count // 2, count - 1)):
            operands = [[LARGEST] * count, [LARGEST] * count]
            operands[operand][at] = NOT_FINITE[(operand + at) % len(NOT_FINITE)]
            yield convolution(function, quarters(points), *operands, orbitals)
        both = [[1.0] * count, [1.0] * count]
        both[0][count - 1] = both[1][0] = -INFINITY
        yield convolution(function, quarters(points), *both, orbitals)
        both[0][3] = NAN
        yield convolution(function, quarters(points), *both, orbitals)


# ---- Support -------------------------------------------------------------------


def support(numbers, tolerance, points=2, orbitals=1):
    return Call(SUPPORT, points, orbitals, tolerance, [numbers])


def thresholds():
    """A residual below the tolerance, equal to it and above it."""
    for tolerance, scale in itertools.product((0.5, 0.1, 1e-12, 1 / 3), (1.0, 3.0, 1e300, 1e-300)):
        for value in beside(tolerance * scale):
            yield support(by_place(2, {(0, 0): scale, (0, 1): -value}), tolerance)
    for tolerance in beside(0.5):
        yield support(by_place(2, {(1, 0): (-6.0, 8.0), (0, 1): (3.0, -4.0)}), tolerance)
        yield support(by_place(2, {(1, 1): (0.0, 10.0), (0, 1): (-3.0, 4.0)}), tolerance)
    # The largest entry itself stands above the diagonal.
    for tolerance in (math.nextafter(1.0, 0.0), 1.0, 2.0, LARGEST, SMALLEST):
        yield support(by_place(2, {(0, 1): (0.3, 0.7)}), tolerance)
    # P8 and P9.
    for value in (0.5, 0.75):
        yield support(by_place(2, {(0, 0): 1.0, (1, 1): 1.0, (0, 1): value}), 0.5)
    yield support(by_place(2, {(1, 0): (LARGEST, LARGEST), (0, 1): 1.0}), 0.5)


def infinite_norms():
    """The scale is infinite: a finite norm has the residual 0, an infinite one a NaN, and neither is refused."""
    huge = (LARGEST, LARGEST)
    for tolerance in (SMALLEST, 0.5, LARGEST):
        yield support(by_place(2, {(0, 1): huge}), tolerance)
        yield support(by_place(2, {(0, 1): huge, (1, 0): huge, (1, 1): 1.0}), tolerance)
        yield support(by_place(3, {(2, 0): huge, (0, 1): LARGEST, (0, 2): huge, (1, 2): 1.0}), tolerance, 3)
    # The largest number is no infinity.
    yield support(by_place(2, {(1, 0): LARGEST, (0, 1): LARGEST}), 0.5)
    yield support(by_place(2, {(1, 0): LARGEST, (0, 1): (LARGEST, 1.0)}), 1.0)


def small_scales():
    """The scale is at least 2^-1022."""
    for value in (0.0, -0.0):
        yield support([value] * 8, SMALLEST)
        yield support([value] * 72, 1e-12, 3, 2)
    for tolerance in beside(2.0**-52):
        yield support(by_place(2, {(0, 1): SMALLEST}), tolerance)
        yield support(by_place(2, {(0, 1): (SMALLEST, SMALLEST)}), tolerance)
        yield support(by_place(2, {(0, 1): (0.0, -2 * SMALLEST)}), tolerance)
    for tolerance in beside(0.5):
        yield support(by_place(2, {(0, 1): SMALLEST_NORMAL / 2}), tolerance)
        yield support(by_place(2, {(1, 0): SMALLEST_NORMAL, (0, 1): SMALLEST_NORMAL / 2}), tolerance)
    yield support(by_place(2, {(0, 1): SMALLEST_NORMAL}), math.nextafter(1.0, 0.0))
    yield support(by_place(2, {(1, 0): SMALLEST, (0, 1): SMALLEST}), 0.25)


def first_places():
    """The first place is by rows; in a block every entry counts, and on the diagonal and below it none is refused."""
    places = [(t, u) for t in range(4) for u in range(4) if t < u]
    for first, second in itertools.combinations(places, 2):
        yield support(by_place(4, {(3, 0): 1.0, first: 0.5, second: 0.75}), 0.25, 4)
    for at in itertools.product(range(2), repeat=4):
        yield support(with_entries(2, 2, {(1, 0, 0, 0): (0.0, 2.0), at: (1.0, 0.0)}), 0.25, 2, 2)
    yield support(with_entries(2, 3, {(0, 1, 2, 2): (0.5, 0.5), (0, 1, 0, 0): (0.6, 0.0)}, other=0.125), 0.5, 2, 3)


def retarded_functions():
    """Functions with +0 above the diagonal, as they are and with one small entry there."""
    rng = random.Random(5)
    for orbitals, points in itertools.product((1, 2, 3), (2, 3, 4)):
        numbers = some("plain", function_length(points, orbitals), rng)
        for t, u in itertools.combinations(range(points), 2):
            begin = place(points, orbitals, t, u, 0, 0)
            numbers[begin : begin + 2 * orbitals**2] = [0.0] * (2 * orbitals**2)
        yield support(numbers, 1e-12, points, orbitals)
        at = place(points, orbitals, 0, points - 1, orbitals - 1, 0)
        numbers[at + 1] = rng.choice([1e-13, 1e-11])
        yield support(numbers, 1e-12, points, orbitals)
    for kind in KINDS:
        yield support(some(kind, 18, rng), 1e-3, 3)


def support_refusals():
    """Lines 1, 2, 3, 7 and 8, each before the next and before line 9."""
    shapes = [(0, 1), (1, 1), (2, 0), (1, 17), (257, 0), (257, 1), (2, 17), (MOST, 1), (2, MOST), (HUGE, HUGE), (256, 16), (256, 1), (2, 16)]
    for points, orbitals in shapes:
        yield support([NAN, 1.0], NAN, points, orbitals)
    above = by_place(2, {(0, 1): 1.0})
    for numbers in ([], above[:-1], above + [0.0], [NAN] * 9):
        yield support(numbers, NAN)
    # The same length has two shapes.
    for shape in ((2, 2), (4, 1)):
        yield support([1.0] * 32, 0.5, *shape)
    for at, bad in [(0, NAN), (1, INFINITY), (2, -INFINITY), (5, NANS[0]), (7, NANS[1])]:
        yield support([bad if index == at else 1.0 for index in range(8)], -1.0)
    yield support([1.0, 2.0, INFINITY, NAN, 5.0, 6.0, NAN, 8.0], 0.5)
    for tolerance in (0.0, -0.0, -0.5, -SMALLEST, -LARGEST, *NOT_FINITE):
        yield support(above, tolerance)
    yield support([0.0] * 8, 0.0)
    yield support([0.0] * 8, INFINITY)


CASES = [
    ordinary, kinds_and_grids, signs_of_zero, overflows, overflows_in_blocks, above_the_diagonal, sizes, lengths, wrong_times,
    not_finite, thresholds, infinite_norms, small_scales, first_places, retarded_functions, support_refusals,
]
