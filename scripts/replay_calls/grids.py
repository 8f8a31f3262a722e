"""Calls of the grid: its questions, the full weights, the weight in an interval, and what they are made of."""

import itertools
import random

from document01 import LARGEST
from replay_calls.calls import (
    CHECK_TIMES, FULL_WEIGHT, GRIDS, HALF, HALF_STEP, HUGE, INFINITY, INTERVAL, MOST, NAN, NANS, NOT_FINITE, SMALLEST, TIME_LINES,
    TRAPEZOID, WEIGHTS, Call, beside, held, other_length, quarters,
)

PLAIN = [0.0, 0.5, 2.0, 5.0]


def weights(times, points=None, out=None):
    points = len(times) if points is None else points
    return Call(WEIGHTS, points, 0, 0.0, [times, held(len(times)) if out is None else out])


def interval(times, point, start, end, points=None):
    return Call(INTERVAL, len(times) if points is None else points, 0, 0.0, [times], (point, start, end))


def both(times, points=None):
    """The full weights, and the weight of a point inside the whole interval if there is one."""
    points = len(times) if points is None else points
    yield weights(times, points)
    yield interval(times, 1, 0, min(points, len(times)) - 1 if points and times else 0, points)


# ---- Weights -------------------------------------------------------------------


def ordinary():
    for grid, points in itertools.product(GRIDS, (2, 3, 5)):
        yield weights(GRIDS[grid](points))
    rng = random.Random(51)
    for points in (2, 3, 4, 7):
        yield weights(sorted(rng.uniform(-10, 10) for _ in range(points)))
    yield weights(PLAIN)
    yield weights([-2.0, -0.0, 3.0])
    yield weights([0.0, SMALLEST])


def every_interval():
    """Every point, start and end up to 4 of a grid of four times."""
    for end, start, point in itertools.product(range(5), repeat=3):
        yield interval(PLAIN, point, start, end)


def far_indices():
    """An end of N or more is refused before anything else is said of the interval."""
    for point, start, end in [
        (1, 0, MOST), (MOST, 0, MOST), (MOST, MOST, 3), (1, MOST, 3), (HUGE, 0, 3), (MOST, 0, 3), (0, HUGE, HUGE), (2, 3, 4),
        (3, 3, 3), (0, 3, HUGE),
    ]:
        yield interval(PLAIN, point, start, end)
    for grid in GRIDS:
        times = GRIDS[grid](3)
        yield interval(times, 0, 0, 2)
        yield interval(times, 1, 0, 2)
    # The smallest step halves to 0, and a step of two does not.
    for point in range(3):
        yield interval([0.0, SMALLEST, 3 * SMALLEST], point, 0, 2)


# ---- Refusals ------------------------------------------------------------------


def sizes():
    """Lines 1, 2 and 3, each before the next and before all others."""
    wrong = [1.0, NAN, 0.0]
    for points in (0, 1, 2, 256, 257, HUGE, MOST):
        yield weights(wrong, points, held(2))
        yield interval(wrong, 1, 0, MOST, points)
    for times in ([], [0.0]):
        yield from both(times)
    rng = random.Random(52)
    for points in (256, 257):
        times = sorted(rng.uniform(-100, 100) for _ in range(points))
        yield weights(times)
        for point, start, end in [(points - 1, 0, points - 1), (0, 0, 255)]:
            yield interval(times, point, start, end)
    yield interval(quarters(256), 128, 1, 254)
    yield interval(quarters(256), 0, 0, 256)


def lengths():
    """Line 3: each slice one short and one long, before lines 4, 5 and 11."""
    for points, change in itertools.product((2, 3), (-1, 1)):
        for at in range(2):
            call = weights(quarters(points))
            yield call._replace(slices=other_length(call.slices, at, change))
        call = interval(quarters(points), 0, 0, 1)
        yield call._replace(slices=other_length(call.slices, 0, change))
    for times in ([NAN, 0.0, 0.0], [1.0, 1.0, 1.0], [-LARGEST, LARGEST, 0.0]):
        yield weights(times, 2)
        yield weights(times, 3, held(2))
        yield weights(times, 3, held(4))
        yield interval(times, 1, 0, 9, 4)
    for points in (1, 3, 5):
        yield weights(PLAIN, points)
    yield interval(PLAIN, 1, 0, 3, 3)
    yield weights(quarters(256), out=held(255))
    yield interval(quarters(255), 1, 0, 255, 256)


def not_finite():
    """Line 4, before lines 5, 6 and 11."""
    for bad in NOT_FINITE[:3]:
        for times in ([bad, 1.0], [0.0, bad], [0.0, bad, 2.0], [1.0, 0.0, bad], [-LARGEST, LARGEST, bad]):
            yield from both(times)
    for bad in NANS:
        yield weights([0.0, 1.0, bad])
    yield interval([0.0, NAN, 1.0], 5, 5, 5)
    # The last of 256.
    yield weights([*quarters(255), INFINITY])


def not_rising():
    """Line 5 with the first index that does not rise, before lines 6 and 11."""
    for times in [
        [0.0, 0.0], [-0.0, 0.0], [0.0, -0.0], [1.0, 0.0], [0.0, 1.0, 1.0, 0.5], [0.0, 2.0, 1.0], [2.0, 1.0, 0.0],
        [LARGEST, -LARGEST], [-LARGEST, LARGEST, LARGEST], [-LARGEST, LARGEST, 0.0], [SMALLEST, SMALLEST], [SMALLEST, 0.0],
    ]:
        yield from both(times)
    yield interval([0.0, 1.0, 1.0], 1, 0, 3)
    yield weights([*quarters(255), 63.5])


def infinite_weights():
    """Line 6, before line 11: half of a step that is no number is none."""
    grids = [[-LARGEST, LARGEST], [-LARGEST, 0.0, LARGEST], [-LARGEST, 1.0, 2.0], [0.0, 1.0, LARGEST]]
    for times in [*grids, [-LARGEST, -1.0, HALF_STEP]]:
        yield from both(times)
    # The first and the last step, and a step of two: the largest number is just reached, or passed.
    for x in beside(HALF_STEP):
        yield from both([-x, LARGEST])
        yield from both([-LARGEST, 0.0, x])
        yield from both([-LARGEST, x, LARGEST])
    yield interval([-LARGEST, LARGEST], 0, 0, 2)
    yield interval([-LARGEST, LARGEST], 0, 1, 1)


# ---- What no question is asked before ------------------------------------------


def asked(function, times, points=None):
    return Call(function, len(times) if points is None else points, 0, 0.0, [times])


def questions():
    """Lines 1 to 6 alone, and lines 4 to 6 of as many times as points."""
    count = GRIDS["count"]
    for times, points in [(count(257), 0), (count(257), 1), (count(257), 257), (count(257), MOST), ([1.0], 1), (PLAIN, 1), (PLAIN, 3)]:
        yield asked(CHECK_TIMES, times, points)
    yield asked(CHECK_TIMES, PLAIN, 5)
    for times in [
        count(2), count(256), PLAIN, [0.0, NAN, 1.0], [0.0, INFINITY], [-INFINITY, 0.0], [1.0, 0.0, NAN], [0.0, 0.0], [-0.0, 0.0],
        [0.0, -0.0], [0.0, 1.0, 1.0, 0.5], [-LARGEST, LARGEST], [-LARGEST, LARGEST, 0.0], [-2.0, -0.0, 3.0],
    ]:
        yield asked(CHECK_TIMES, times)
        yield asked(TIME_LINES, times)


def unasked():
    """Weights of times of which no question is asked: one past the end is a NaN."""
    for later, earlier in [(1, 0), (0, 3), (3, 3), (4, 0), (0, MOST), (3, 0)]:
        yield asked(HALF, PLAIN)._replace(more=(later, earlier))
    yield asked(HALF, [-LARGEST, LARGEST])._replace(more=(1, 0))
    yield asked(HALF, [0.0, SMALLEST])._replace(more=(1, 0))
    for index in (0, 1, 2, 3, 4, MOST):
        yield asked(FULL_WEIGHT, PLAIN)._replace(more=(index,))
    for end, start, point in itertools.product(range(5), repeat=3):
        yield asked(TRAPEZOID, PLAIN)._replace(more=(point, start, end))
    for point, start, end in [(1, 0, MOST), (0, 0, MOST), (MOST, 0, MOST), (MOST, MOST, 3), (3, 0, 9), (4, 0, 9), (9, 0, 9)]:
        yield asked(TRAPEZOID, PLAIN)._replace(more=(point, start, end))
    yield asked(TRAPEZOID, [0.0, SMALLEST])._replace(more=(0, 0, 1))


CASES = [ordinary, every_interval, far_indices, sizes, lengths, not_finite, not_rising, infinite_weights, questions, unasked]
