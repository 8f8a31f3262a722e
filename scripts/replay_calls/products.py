"""Calls of the Langreth product."""

import itertools
import math
import random

from document01 import (
    LARGEST, Overflow, added, anti_causal_convolution, causal_convolution, full_convolution, function_length, read,
)
from replay_calls.calls import (
    GRIDS, HALF_STEP, INFINITY, KINDS, LANGRETH, NAN, NOT_FINITE, SMALLEST, Call, other_length, quarters, some, with_entries,
)
from replay_calls.reports import ADVANCED, GREATER, LESSER, RETARDED, SHAPES, placed, zeros

# The convolutions by the component of the left operand and of the right one.
SUMS = {
    "retarded": (RETARDED, RETARDED), "advanced": (ADVANCED, ADVANCED),
    "lesser": (RETARDED, LESSER), "lesser, second": (LESSER, ADVANCED),
    "greater": (RETARDED, GREATER), "greater, second": (GREATER, ADVANCED),
}
CAUSAL_SUMS = {"retarded": causal_convolution, "advanced": anti_causal_convolution}
ONES = {(t, u): 1.0 for t in range(2) for u in range(2)}


def product(times, left, right, orbitals=1):
    return Call(LANGRETH, len(times), orbitals, 0.0, [*left, times, *right], last=(len(left[0]),) * 4)


# ---- Accepted products ---------------------------------------------------------


def random_product(points, orbitals, kind, grid, rng):
    count = function_length(points, orbitals)
    left, right = ([some(kind, count, rng) for _ in range(4)] for _ in range(2))
    return product(GRIDS[grid](points), left, right, orbitals)


def ordinary():
    rng = random.Random(31)
    for orbitals, points in itertools.product((1, 2, 3), (2, 3, 4, 5, 6)):
        yield random_product(points, orbitals, "plain", "uneven", rng)
    for points, orbitals in [(2, 1), (3, 1), (2, 2)]:
        yield random_product(points, orbitals, "whole", "quarters", rng)


def kinds_and_grids():
    rng = random.Random(32)
    for kind, points in itertools.product(KINDS, (2, 3)):
        yield random_product(points, 1, kind, "count", rng)
    for grid, points in itertools.product(GRIDS, (2, 3)):
        yield random_product(points, 1, "plain", grid, rng)
    for kind in ("signs", "edges", "subnormal"):
        yield random_product(2, 1, kind, "smallest steps", rng)


def one_pair():
    """One component of each operand: six of the pairs reach one output each, the others none."""
    rng = random.Random(33)
    for left, right in itertools.product(range(4), repeat=2):
        operands = [zeros(3), zeros(3)]
        operands[0][left], operands[1][right] = some("whole", 18, rng), some("plain", 18, rng)
        yield product([0.0, 1.0, 4.0], *operands)


def signs_of_zero():
    """A sum starts at +0, so that no -0 comes out of products that are -0."""
    for z, w in itertools.product([(-0.0, 0.0), (-0.0, -0.0), (0.0, -0.0)], [(1.0, 0.0), (-1.0, 0.0), (0.0, 1.0)]):
        yield product([0.0, 2.0], [[*z] * 4] * 4, [[*w] * 4] * 4)


# ---- Overflow ------------------------------------------------------------------


def stages(times, left, right, orbitals):
    """The parts of the work that overflow: sums by their names, and the additions."""
    shape = (len(times), orbitals)
    made, found = {}, []

    def tried(name, work):
        try:
            made[name] = work()
        except Overflow:
            found.append(name)

    for name, (x, y) in SUMS.items():
        convolution = CAUSAL_SUMS.get(name, full_convolution)
        tried(name, lambda: convolution(*shape, times, read(left[x], *shape), read(right[y], *shape)))
    for name in ("lesser", "greater"):
        if name in made and f"{name}, second" in made:
            both = [[block for row in made[key] for block in row] for key in (name, f"{name}, second")]
            tried(f"{name}, added", lambda: [added(z, w) for z, w in zip(*both)])
    return found


def overflow(names, times, left, right, orbitals=1):
    """A product of which these parts overflow, and no other."""
    found = stages(times, left, right, orbitals)
    assert found == names, (found, names)
    return product(times, left, right, orbitals)


def reaches(name, at):
    """Whether the sum has a product with the left operand's block at a place. A causal sum forms none on the diagonal, so that
    its left operand's row 0, of an advanced one row 1, reaches nothing."""
    return {"retarded": at[0] >= at[1] and at[0] > 0, "advanced": at[0] <= at[1] and at[0] < 1}.get(name, True)


def by_sums():
    """Line 10 by each sum apart: by a product at each place of the left operand, by a scaling, by the sum itself."""
    for name, (x, y) in SUMS.items():
        twos = placed({y: {at: 2.0 for at in ONES}})
        for at in ONES:
            yield overflow([name] if reaches(name, at) else [], [0.0, 1.0], placed({x: {at: (0.0, LARGEST)}}), twos)
        # At the place (row, column) every sum has both terms; their weights are 2, and then 1.
        row, column = (0, 1) if name == "advanced" else (1, 0)
        for s in range(2):
            yield overflow([name], [0.0, 4.0], placed({x: {(row, s): LARGEST}}), placed({y: {(s, column): 1.0}}))
        for second in (0.0, LARGEST, HALF_STEP, math.nextafter(HALF_STEP, 0.0), -LARGEST):
            left = placed({x: {(row, 0): LARGEST, (row, 1): second}})
            yield overflow([name] if second in (LARGEST, HALF_STEP) else [], [0.0, 2.0], left, placed({y: ONES}))
        # On the diagonal alone, where a causal sum forms no product.
        found = [] if name in CAUSAL_SUMS else [name]
        for t in range(2):
            yield overflow(found, [0.0, SMALLEST], placed({x: {(t, t): LARGEST}}), placed({y: {(t, t): -2.0}}))
        # There in one entry of a block, by the sum over the orbitals.
        left, right = zeros(2, 2), zeros(2, 2)
        left[x] = with_entries(2, 2, {(1, 1, 1, k): (LARGEST, 0.0) for k in range(2)})
        right[y] = with_entries(2, 2, {(1, 1, k, 0): (1.0, 0.0) for k in range(2)})
        yield overflow(found, [0.0, 1.0], left, right, 2)


def by_additions():
    """Line 10 by each addition apart, at each place, and additions that just do not overflow."""
    for name, component in (("lesser", LESSER), ("greater", GREATER)):
        for t, u in ONES:
            turn = t ^ u ^ (component == GREATER)
            turned = lambda value: (0.0, value) if turn else (value, 0.0)
            for second in (LARGEST, HALF_STEP, math.nextafter(HALF_STEP, 0.0), -LARGEST):
                left = placed({RETARDED: {(t, 0): turned(LARGEST)}, component: {(t, 1): turned(second)}})
                right = placed({component: {(0, u): 1.0}, ADVANCED: {(1, u): 1.0}})
                names = [f"{name}, added"] if second in (LARGEST, HALF_STEP) else []
                yield overflow(names, [0.0, 2.0], left, right)
        left, right = zeros(2, 2), zeros(2, 2)
        left[RETARDED] = left[component] = with_entries(2, 2, {(1, 0, 1, 1): (0.0, LARGEST)})
        right[ADVANCED] = right[component] = with_entries(2, 2, {(0, 1, 1, 0): (-1.0, 0.0)})
        yield overflow([f"{name}, added"], [0.0, 2.0], left, right, 2)


def by_several():
    """All parts, and an overflow after work that is finite."""
    yield overflow([*SUMS], [0.0, 1.0], [[LARGEST] * 8] * 4, [[2.0, 0.0] * 4] * 4)
    rng = random.Random(34)
    for component in range(4):
        left, right = ([some("plain", 18, rng) for _ in range(4)] for _ in range(2))
        left[component] = [1e200 * x for x in left[component]]
        right[ADVANCED if component else RETARDED] = [1e200] * 18
        yield product([0.0, 1.0, 2.0], left, right)


# ---- Other refusals ------------------------------------------------------------


def sizes():
    """Lines 1 and 2, each before the next and before all others, and shapes at their limits."""
    slices = [[NAN], [], [1.0], [INFINITY], [0.0, 0.0], [], [], [NAN], []]
    for points, orbitals in SHAPES:
        yield Call(LANGRETH, points, orbitals, 0.0, slices, last=(1, 0, 3, 2))
    yield Call(LANGRETH, 1, 1, 0.0, [[1.0, 1.0]] * 4 + [[0.0]] + [[1.0, 1.0]] * 4, last=(2, 2, 2, 2))
    for points in (0, 2):
        yield Call(LANGRETH, points, 1, 0.0, [[]] * 9, last=(0, 0, 0, 0))


def lengths():
    """Line 3: each slice one short and one long, before lines 4 to 7, and lengths of another shape."""
    right = product([0.0, 1.0], [[1.0] * 8] * 4, [[1.0] * 8] * 4)
    wrong = product([1.0, 0.0], [[NAN] * 8] * 4, [[NAN] * 8] * 4)
    for call, change in ((right, -1), (right, 1), (wrong, -1)):
        for at in range(9):
            yield call._replace(slices=other_length(call.slices, at, change))
        for at in range(4):
            yield call._replace(last=tuple(8 + change if index == at else 8 for index in range(4)))
    # The same length has two shapes.
    for points, orbitals, count in [(2, 2, 4), (4, 1, 2)]:
        yield product(quarters(count), [[1.0] * 32] * 4, [[1.0] * 32] * 4, orbitals)._replace(points=points)


def wrong_times():
    """Lines 4, 5 and 6, each before the next and before line 7."""
    grids = [[0.0, bad] for bad in NOT_FINITE] + [[bad, 0.0] for bad in NOT_FINITE[:3]] + [[0.0, 0.0, NAN]]
    grids += [[0.0, 0.0], [-0.0, 0.0], [0.0, -0.0], [1.0, 0.0], [0.0, 1.0, 1.0], [0.0, 2.0, 1.0], [-LARGEST, LARGEST, 0.0]]
    grids += [[-LARGEST, LARGEST], [-LARGEST, 0.0, LARGEST], [-LARGEST, 1.0, 2.0]]
    for times in grids:
        components = [[0.5] * function_length(len(times), 1)] * 4
        yield product(times, components, components)
    for times in ([NAN, 0.0], [1.0, 0.0], [-LARGEST, LARGEST]):
        yield product(times, [[NAN] * 8] * 4, [[INFINITY] * 8] * 4)


def not_finite():
    """Line 7: of each operand and position, the first of two, and before line 10."""
    for operand, at in itertools.product(range(8), range(8)):
        operands = [[LARGEST] * 8 for _ in range(8)]
        operands[operand][at] = NOT_FINITE[(operand + at) % len(NOT_FINITE)]
        yield product([0.0, 1.0], operands[:4], operands[4:])
    for first, second in itertools.pairwise(range(8)):
        operands = [[1.0] * 8 for _ in range(8)]
        operands[first][7], operands[first][6], operands[second][0] = NAN, -INFINITY, NAN
        yield product([0.0, 1.0], operands[:4], operands[4:])
    for operand in (0, 3, 4, 7):
        operands = [[1.0] * 32 for _ in range(8)]
        operands[operand][31 - operand] = INFINITY
        yield product([0.0, 1.0], operands[:4], operands[4:], 2)


CASES = [
    ordinary, kinds_and_grids, one_pair, signs_of_zero, by_sums, by_additions, by_several, sizes, lengths, wrong_times,
    not_finite,
]
