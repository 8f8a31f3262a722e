"""Calls of the Dyson equation and of the transient run."""

import itertools
import random

from document01 import (
    DEFAULT_TOLERANCE, LARGEST, Overflow, causal_convolution, first_sums, function_length, lesser_function, place, read, solve,
)
from replay_calls.calls import (
    DYSON, DYSON_DEFAULT, GRIDS, HUGE, INFINITY, KINDS, MOST, NAN, NANS, NOT_FINITE, RUN, SMALLEST, Call, beside, by_place, held,
    other_length, quarters, some, with_entries,
)

ALL = (DYSON, DYSON_DEFAULT, RUN)
GIVEN = (DYSON, RUN)
# How many slices a call has: times, operands, outputs and scratch.
SLICES = {DYSON: 5, DYSON_DEFAULT: 5, RUN: 8}


def call(function, times, free, self_energy, lesser_self_energy=None, orbitals=1, tolerance=DEFAULT_TOLERANCE):
    """`lesser_self_energy` is left out of a Dyson call; its value for a run is i everywhere, if none is given."""
    count = len(free)
    operands = [free, self_energy]
    if function == RUN:
        operands.append([0.0, 1.0] * (count // 2) if lesser_self_energy is None else lesser_self_energy)
    lent = SLICES[function] - 1 - len(operands)
    # The call without a tolerance reads none: what is written for it is 0, which line 8 would refuse.
    asked = 0.0 if function == DYSON_DEFAULT else tolerance
    return Call(function, len(times), orbitals, asked, [times, *operands, *(held(count) for _ in range(lent))])


def retarded(points, orbitals, numbers):
    """The numbers, with +0 above the diagonal."""
    block = 2 * orbitals**2
    for t, u in itertools.combinations(range(points), 2):
        begin = place(points, orbitals, t, u, 0, 0)
        numbers[begin : begin + block] = [0.0] * block
    return numbers


def random_call(function, points, orbitals, kind, grid, rng):
    count = function_length(points, orbitals)
    free, self_energy = (retarded(points, orbitals, some(kind, count, rng)) for _ in range(2))
    return call(function, GRIDS[grid](points), free, self_energy, some(kind, count, rng), orbitals)


def ones(points):
    return by_place(points, {(t, u): 1.0 for t in range(points) for u in range(t + 1)})


# ---- Accepted calls ------------------------------------------------------------


def bench():
    """P11 and P12."""
    for function in ALL:
        yield call(function, [0.0, 1.0, 2.0], ones(3), ones(3))


def ordinary():
    rng = random.Random(11)
    for orbitals, points in itertools.product((1, 2, 3), (2, 3, 4, 5, 6)):
        yield random_call(RUN, points, orbitals, "plain", "uneven", rng)
        yield random_call(DYSON_DEFAULT if points == 2 else DYSON, points, orbitals, "plain", "uneven", rng)
    for shape in [(2, 1), (2, 2), (2, 3), (3, 1), (3, 2), (4, 1)]:
        yield random_call(RUN, *shape, "whole", "quarters", rng)
    for function, shape in itertools.product((DYSON, DYSON_DEFAULT), [(2, 2), (4, 1)]):
        yield random_call(function, *shape, "whole", "quarters", rng)


def kinds_and_grids():
    rng = random.Random(12)
    for function, kind, shape in itertools.product(GIVEN, KINDS, [(3, 1), (2, 2)]):
        yield random_call(function, *shape, kind, "count", rng)
    for grid in GRIDS:
        yield random_call(RUN, 3, 1, "plain", grid, rng)
    for function, kind in itertools.product(GIVEN, ("signs", "edges", "subnormal")):
        yield random_call(function, 3, 1, kind, "smallest steps", rng)


def signs_of_zero():
    """G starts as free, so that free's -0 stays where nothing or -0 is added, and sums that start at +0 have none."""
    signs = [(-0.0, 0.0), (0.0, -0.0), (-0.0, -0.0)]
    for zero, value in itertools.product(signs, [(0.0, 0.0), (-1.0, 0.0), (0.0, -1.0)]):
        free = by_place(3, {(t, u): zero for t in range(3) for u in range(t + 1)})
        self_energy = by_place(3, {(t, u): value for t in range(3) for u in range(t + 1)})
        yield call(RUN, [0.0, 1.0, 2.0], free, self_energy, [*value] * 9)
    # Above the diagonal free's -0 does not stay.
    yield call(DYSON, [0.0, 1.0], [-0.0] * 8, [-0.0] * 8)
    yield call(RUN, [0.0, 1.0], [-0.0] * 8, [-0.0] * 8, [-0.0] * 8)


# ---- Overflow ------------------------------------------------------------------


def stage(points, orbitals, times, free, self_energy, lesser_self_energy):
    """The first of K, G, X and the lesser function whose work overflows."""
    free, self_energy, lesser_self_energy = (read(numbers, points, orbitals) for numbers in (free, self_energy, lesser_self_energy))
    made = "K"
    try:
        kernel = causal_convolution(points, orbitals, times, free, self_energy)
        made = "G"
        retarded = solve(points, orbitals, times, free, kernel)
        made = "X"
        sums = first_sums(points, orbitals, times, lesser_self_energy, retarded)
        made = "lesser"
        lesser_function(points, orbitals, times, retarded, sums)
    except Overflow:
        return made
    return "none"


def overflow(made, times, free, self_energy, lesser_self_energy, orbitals=1, dyson=False):
    """The run that overflows at `made` and nowhere before; the Dyson call too, where it overflows or is asked for."""
    found = stage(len(times), orbitals, times, free, self_energy, lesser_self_energy)
    assert found == made, (found, made, times, free, self_energy, lesser_self_energy)
    yield call(RUN, times, free, self_energy, lesser_self_energy, orbitals)
    if dyson or made in ("K", "G"):
        yield call(DYSON, times, free, self_energy, orbitals=orbitals)


def by_kernel():
    """In a product, but not on the diagonal, where none is formed; in a scaling; in a sum; in its last block."""
    count, none = [0.0, 1.0, 2.0], [0.0] * 18
    below = {(1, 0), (2, 0), (2, 1)}
    for at in [(0, 0), (1, 0), (1, 1), (2, 0), (2, 1), (2, 2)]:
        made = "none" if at[0] == at[1] else "K"
        yield from overflow(made, count, by_place(3, {at: LARGEST}), by_place(3, {(at[1], at[1]): 2.0}), none, dyson=True)
    yield from overflow("K", [0.0, 4.0], by_place(2, {(1, 0): LARGEST}), by_place(2, {(0, 0): 1.0}), none[:8])
    free = by_place(2, {(1, 0): LARGEST, (1, 1): LARGEST})
    yield from overflow("K", [0.0, 2.0], free, by_place(2, {(0, 0): 1.0, (1, 0): 1.0}), none[:8])
    # X and the lesser function would overflow too.
    large = by_place(3, {at: 1e200 for at in below | {(t, t) for t in range(3)}})
    yield from overflow("K", count, large, large, [LARGEST] * 18)
    yield call(DYSON_DEFAULT, count, large, large)


def by_green():
    """K is finite: K(1, 0)·G(0, 0) overflows, or its scaling, or the sum with free."""
    none = [0.0] * 8
    self_energy = by_place(2, {(1, 0): 1.0})
    yield from overflow("G", [0.0, 1.0], by_place(2, {(0, 0): 1e200, (1, 1): 1e200}), self_energy, none)
    yield from overflow("G", [0.0, 4.0], by_place(2, {(0, 0): 0.75 * LARGEST, (1, 1): 0.5}), self_energy, none)
    yield from overflow("G", [0.0, 2.0], by_place(2, {(0, 0): 0.75 * LARGEST, (1, 0): 0.75 * LARGEST, (1, 1): 1.0}), self_energy, none)
    yield from overflow("G", [0.0, 2.0], by_place(2, {(0, 0): (0.0, LARGEST), (1, 0): (0.0, LARGEST), (1, 1): 1.0}), self_energy, none)
    # In block (2, 0) alone, by K(2, 1)·G(1, 0).
    free = by_place(3, {(1, 0): 1e200, (2, 2): 1e200})
    yield from overflow("G", [0.0, 1.0, 2.0], free, by_place(3, {(2, 1): 1.0}), [1.0] * 18)
    # In one entry of a block of two orbitals.
    free = with_entries(2, 2, {(0, 0, 1, 0): (1e200, 0.0), (1, 1, 0, 1): (0.0, 1e200)})
    yield from overflow("G", [0.0, 1.0], free, with_entries(2, 2, {(1, 0, 1, 1): (1.0, 0.0)}), [0.0] * 32, 2)


def by_sums():
    """G is finite, free itself: the product of the lesser_self_energy and its adjoint overflows, but not at X(t, 0), where none is
    formed, or its scaling, or a sum."""
    none = [0.0] * 18
    for at in itertools.product(range(3), repeat=2):
        free = by_place(3, {(at[1], at[1]): 2.0})
        yield from overflow("none" if at[1] == 0 else "X", [0.0, 1.0, 2.0], free, none, by_place(3, {at: LARGEST}))
    one = by_place(2, {(1, 0): 1.0, (1, 1): 1.0})
    yield from overflow("X", [0.0, 4.0], one, none[:8], by_place(2, {(0, 1): LARGEST}))
    yield from overflow("X", [0.0, 2.0], one, none[:8], by_place(2, {(1, 0): (0.0, LARGEST), (1, 1): (0.0, LARGEST)}))
    # With a kernel that is not 0.
    yield from overflow("X", [0.0, 1.0, 2.0], ones(3), ones(3), [LARGEST] * 18)
    lesser_self_energy = with_entries(2, 2, {(0, 1, 1, 0): (LARGEST, 0.0), (0, 1, 1, 1): (LARGEST, 0.0)})
    free = with_entries(2, 2, {(1, 1, 0, k): (1.0, 0.0) for k in range(2)})
    yield from overflow("X", [0.0, 2.0], free, [0.0] * 32, lesser_self_energy, 2)


def by_lesser():
    """X is finite: G^R(t, s)·X(s, t') overflows, but not where t is 0, where none is formed, or its scaling, or a sum."""
    none = [0.0] * 8
    for at in (0, 1):
        # X(at, 1) is half of 1e200, and G^R(at, at) is 1e200.
        free = by_place(2, {(0, 0): 1e200, (1, 1): 1.0}) if at == 0 else by_place(2, {(1, 1): 1e200})
        lesser_self_energy = by_place(2, {(at, 1): 1e200 if at == 0 else 1.0})
        yield from overflow("none" if at == 0 else "lesser", [0.0, 1.0], free, none, lesser_self_energy)
    one = by_place(2, {(1, 0): 1.0, (1, 1): 1.0})
    yield from overflow("lesser", [0.0, 2.0], one, none, by_place(2, {(0, 1): LARGEST, (1, 1): LARGEST}))
    yield from overflow("lesser", [0.0, 4.0], one, none, by_place(2, {(0, 1): 0.5 * LARGEST}))
    yield from overflow("lesser", [0.0, 2.0], one, none, by_place(2, {(0, 1): (0.0, LARGEST), (1, 1): (0.0, LARGEST)}))
    # One that just does not.
    yield from overflow("none", [0.0, 2.0], one, none, by_place(2, {(0, 1): LARGEST}))
    yield from overflow("none", [0.0, 2.0], one, none, by_place(2, {(0, 1): LARGEST, (1, 1): -LARGEST}))
    # In the last block alone, with a kernel that is not 0.
    free, self_energy = by_place(3, {(0, 0): 1.0, (1, 1): 1.0, (2, 2): 1e160}), by_place(3, {(1, 0): 1.0, (2, 2): 1e-160})
    yield from overflow("lesser", [0.0, 1.0, 2.0], free, self_energy, by_place(3, {(2, 2): 1.0}))
    # In an entry of a block of row 0: no product is formed.
    free = with_entries(2, 2, {(0, 0, 0, 1): (1e200, 0.0), (1, 1, 1, 1): (1.0, 0.0)})
    yield from overflow("none", [0.0, 1.0], free, [0.0] * 32, with_entries(2, 2, {(0, 1, 1, 1): (0.0, 1e200)}), 2)


# ---- Tolerance -----------------------------------------------------------------


def thresholds():
    """A residual below the tolerance, equal to it and above it, of either operand."""
    good = ones(2)
    near = by_place(2, {(0, 0): (-6.0, 8.0), (1, 1): 1.0, (0, 1): (3.0, -4.0)})
    for tolerance, function in itertools.product(beside(0.5), GIVEN):
        yield call(function, [0.0, 1.0], near, good, tolerance=tolerance)
        yield call(function, [0.0, 1.0], good, near, tolerance=tolerance)
    for value in beside(DEFAULT_TOLERANCE):
        near = by_place(2, {(0, 0): 1.0, (1, 1): 0.5, (0, 1): (0.0, value)})
        yield call(DYSON_DEFAULT, [0.0, 1.0], near, good)
        yield call(DYSON_DEFAULT, [0.0, 1.0], good, near)


def above_the_diagonal():
    """What is tolerated above the diagonal of the retarded inputs is not read."""
    rng = random.Random(13)
    for function, (points, orbitals) in itertools.product(GIVEN, [(2, 1), (3, 1), (3, 2)]):
        count = function_length(points, orbitals)
        free, self_energy, lesser_self_energy = (some("plain", count, rng) for _ in range(3))
        yield call(function, quarters(points), free, self_energy, lesser_self_energy, orbitals, 1.0)
    # Infinite norms: the residual is a NaN, or 0.
    huge = by_place(2, {(0, 0): 1.0, (0, 1): (LARGEST, LARGEST), (1, 1): 1.0})
    for function in (DYSON_DEFAULT, RUN):
        yield call(function, [0.0, 1.0], huge, ones(2))
        yield call(function, [0.0, 1.0], ones(2), huge)
    # P9: the scale is infinite, the residual 0, and the large entry is multiplied by 0 alone.
    free = by_place(2, {(1, 0): (LARGEST, LARGEST), (0, 1): 1.0})
    for function in ALL:
        yield call(function, [0.0, 1.0], free, [0.0] * 8, [0.0] * 8)


def not_retarded():
    """Line 9: operand 0 before operand 1, the first place by rows, and before line 10."""
    wrong = by_place(3, {(0, 0): LARGEST, (1, 2): LARGEST})
    worse = by_place(3, {(0, 0): 4.0, (0, 2): 1.0, (1, 2): 2.0})
    twos = [2.0 * x for x in ones(3)]
    # Of these pairs one would overflow; of the others the large products would be those of the diagonal alone, which are not formed.
    assert stage(3, 1, [0.0, 1.0, 2.0], twos, wrong, [0.0] * 18) == "K"
    for function, (free, self_energy) in itertools.product(GIVEN, [(wrong, worse), (worse, wrong), (twos, wrong), (wrong, twos)]):
        yield call(function, [0.0, 1.0, 2.0], free, self_energy)
    yield call(DYSON_DEFAULT, [0.0, 1.0, 2.0], worse, wrong)
    yield call(DYSON_DEFAULT, [0.0, 1.0, 2.0], ones(3), worse)
    # The second operand's place comes first, and only the second is above the tolerance.
    early = by_place(3, {(0, 0): 1.0, (0, 1): 0.75})
    late = by_place(3, {(0, 0): 1.0, (1, 2): 0.5})
    for function, tolerance in itertools.product(GIVEN, (0.25, 0.5, 0.75)):
        yield call(function, [0.0, 1.0, 2.0], late, early, tolerance=tolerance)
    yield call(RUN, [0.0, 1.0], with_entries(2, 2, {(0, 1, 1, 1): (1.0, 0.0)}), [0.0] * 32, orbitals=2)


# ---- Other refusals ------------------------------------------------------------


def refused(function, points, orbitals, slices, tolerance=NAN):
    return Call(function, points, orbitals, 0.0 if function == DYSON_DEFAULT else tolerance, slices)


def sizes():
    """Lines 1 and 2, each before the next and before all others."""
    shapes = [(1, 17), (2, 0), (MOST, 0), (257, 1), (2, 17), (HUGE, HUGE), (256, 16)]
    for function, shape in [*itertools.product(GIVEN, shapes), (DYSON_DEFAULT, (257, 0)), (DYSON_DEFAULT, (2, MOST))]:
        slices = [[0.0], *([NAN], [3.0, NAN], [], [-0.0], [1.0], [2.0], [INFINITY])[: SLICES[function] - 1]]
        yield refused(function, *shape, slices)
    for function in GIVEN:
        yield refused(function, 1, 1, [[0.0]] + [[1.0, 1.0]] * (SLICES[function] - 1))
        yield refused(function, 2, 1, [[]] * SLICES[function])


def slices_of(function, points, orbitals):
    count = function_length(points, orbitals)
    free = retarded(points, orbitals, [1.0] * count)
    return call(function, quarters(points), free, list(free), orbitals=orbitals).slices


def lengths():
    """Line 3: each slice one short and one long, and before lines 4 to 9."""
    for function in GIVEN:
        for at, change in itertools.product(range(SLICES[function]), (-1, 1)):
            yield refused(function, 2, 1, other_length(slices_of(function, 2, 1), at, change), DEFAULT_TOLERANCE)
    for function in GIVEN:
        for at in range(SLICES[function]):
            slices = [[1.0, 0.0, NAN], *([1.0, NAN] * 9 for _ in range(SLICES[function] - 1))]
            yield refused(function, 3, 1, other_length(slices, at, -1))
    # The same length has two shapes.
    for function in (DYSON_DEFAULT, RUN):
        yield refused(function, 2, 2, [quarters(4), *slices_of(function, 4, 1)[1:]])
        yield refused(function, 4, 1, [quarters(2), *slices_of(function, 2, 2)[1:]])


def wrong_times():
    """Lines 4, 5 and 6, each before the next and before lines 7 to 9."""
    grids = [[0.0, bad, 0.0] for bad in NOT_FINITE[:3]] + [[0.0, 0.0, NAN], [NANS[0], 1.0, 2.0]]
    grids += [[0.0, 0.0, -1.0], [0.0, 1.0, 1.0], [-0.0, 0.0, 1.0], [LARGEST, -LARGEST, 0.0]]
    grids += [[-LARGEST, LARGEST], [-LARGEST, 0.0, LARGEST], [-LARGEST, 1.0, 2.0]]
    for function, times in zip(itertools.cycle(ALL), grids):
        yield call(function, times, ones(len(times)), ones(len(times)))
    for function, times in itertools.product(ALL, ([0.0, NAN, 0.0], [1.0, 1.0, 0.0], [-LARGEST, 0.0, LARGEST])):
        yield call(function, times, [1.0] * 17 + [NAN], [INFINITY] * 18, [NAN] * 18, tolerance=-1.0)


def not_finite():
    """Line 7: by operands, the lowest position, above the diagonal too, and before lines 8, 9 and 10."""
    for function in GIVEN:
        operands = 3 if function == RUN else 2
        for operand, at in itertools.product(range(operands), (0, 3, 7)):
            numbers = [[LARGEST] * 8 for _ in range(operands)]
            numbers[operand][at] = NOT_FINITE[(3 * operand + at) % len(NOT_FINITE)]
            yield call(function, [0.0, 1.0], *numbers, tolerance=(0.0, 0.5)[at % 2])
        for first, second in itertools.combinations(range(operands), 2):
            numbers = [[1.0] * 8 for _ in range(operands)]
            numbers[first][6], numbers[second][1] = -INFINITY, NAN
            yield call(function, [0.0, 1.0], *numbers, tolerance=NAN)
    yield call(DYSON_DEFAULT, [0.0, 1.0], [1.0] * 8, [1.0] * 5 + [NAN] * 3)
    count = function_length(2, 2)
    yield call(RUN, [0.0, 1.0], [0.0] * count, [0.0] * count, [0.0] * (count - 1) + [INFINITY], 2)


def wrong_tolerance():
    """Line 8, before line 9."""
    above = by_place(2, {(0, 1): 1.0, (0, 0): LARGEST})
    for function, tolerance in itertools.product(GIVEN, (0.0, -0.0, -SMALLEST, *NOT_FINITE[:3])):
        yield call(function, [0.0, 1.0], above, by_place(2, {(0, 0): LARGEST}), tolerance=tolerance)
    for function, tolerance in itertools.product(GIVEN, (0.0, SMALLEST)):
        yield call(function, [0.0, 1.0], ones(2), ones(2), tolerance=tolerance)


CASES = [
    bench, ordinary, kinds_and_grids, signs_of_zero, by_kernel, by_green, by_sums, by_lesser, thresholds, above_the_diagonal,
    not_retarded, sizes, lengths, wrong_times, not_finite, wrong_tolerance,
]
