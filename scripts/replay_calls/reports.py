"""Calls of the consistency report and of the decision by its residuals."""

import itertools
import math
import random

from bits import same_bits
from document01 import LARGEST, Report, consistency_report, function_length, lay_out, minus_i_identity, norm, place, read, table
from replay_calls.calls import (
    CONSISTENT, HALF_STEP, HUGE, INFINITY, KINDS, MOST, NAN, NOT_FINITE, REPORT, SMALLEST, WRONG_TOLERANCES, Call, beside,
    by_place, other_length, some, with_entries,
)

# The components in call order.
RETARDED, ADVANCED, LESSER, GREATER = range(4)
# Points and orbitals that line 1 refuses, that line 2 does, and that neither does.
SHAPES = [(0, 1), (1, 1), (2, 0), (0, 0), (1, 17), (257, 0), (0, MOST), (MOST, 0)]
SHAPES += [(257, 1), (2, 17), (257, 17), (MOST, 1), (2, MOST), (HUGE, HUGE), (256, 1), (2, 16), (256, 16)]


def report(components, points=2, orbitals=1, tolerance=0.5):
    return Call(REPORT, points, orbitals, tolerance, components)


def consistent(residuals, tolerance):
    return Call(CONSISTENT, 0, 0, tolerance, [residuals])


# ---- Components ----------------------------------------------------------------


def zeros(points=2, orbitals=1):
    return [[0.0] * function_length(points, orbitals) for _ in range(4)]


def placed(values, points=2):
    """Components of one orbital that are +0 but for some: `values` has places and their numbers by component."""
    components = zeros(points)
    for component, numbers in values.items():
        components[component] = by_place(points, numbers)
    return components


def empty_device(points=2, orbitals=1, factor=1.0):
    """Times the identity, at equal times, G^R is -i/2, G^A i/2 and G^> -i; all else is +0. All seven identities hold. With another
    factor of the three, all but the equal-time rule."""
    of = {RETARDED: -0.5, ADVANCED: 0.5, LESSER: 0.0, GREATER: -1.0}
    places = [(t, t, a, a) for t in range(points) for a in range(orbitals)]
    return [with_entries(points, orbitals, {at: (0.0, factor * of[component]) for at in places}) for component in range(4)]


def exact(points, orbitals, rng):
    """Components of whole numbers and halves with which all seven identities hold."""
    drawn = lambda: read(some("whole", function_length(points, orbitals), rng), points, orbitals)
    pairs = list(itertools.product(range(orbitals), repeat=2))
    turned = lambda f, sign: table(
        points, lambda t, u: [(sign * f[u][t][b * orbitals + a][0], -sign * f[u][t][b * orbitals + a][1]) for a, b in pairs]
    )
    plus = lambda f, g, sign=1.0: table(
        points, lambda t, u: [(x[0] + sign * y[0], x[1] + sign * y[1]) for x, y in zip(f[t][u], g[t][u])]
    )
    first, second = drawn(), drawn()
    # At equal times a Hermitian block less i/2, so that G^R - G^A is -i times the identity.
    hermitian = plus(first, turned(first, 1.0))
    at_equal_times = lambda t: [(x[0], x[1] + 0.5 * y[1]) for x, y in zip(hermitian[t][t], minus_i_identity(orbitals))]
    later = lambda t, u: first[t][u] if t > u else [(0.0, 0.0)] * len(pairs)
    retarded = table(points, lambda t, u: at_equal_times(t) if t == u else later(t, u))
    advanced = turned(retarded, 1.0)
    lesser = plus(second, turned(second, -1.0))
    greater = plus(lesser, plus(retarded, advanced, -1.0))
    components = [lay_out(function) for function in (retarded, advanced, lesser, greater)]
    assert consistency_report(points, orbitals, *components) == Report(*[0.0] * 7)
    return components


# ---- Reports -------------------------------------------------------------------


def random_report(points, orbitals, kind, rng):
    return report([some(kind, function_length(points, orbitals), rng) for _ in range(4)], points, orbitals, rng.uniform(0, 4))


def ordinary():
    rng = random.Random(21)
    for orbitals, points in itertools.product((1, 2, 3), (2, 3, 4, 5, 6)):
        yield random_report(points, orbitals, "plain", rng)
    for kind, points in itertools.product(KINDS, (2, 3)):
        yield random_report(points, 1, kind, rng)


def identities_hold():
    """All residuals are 0, and -0 instead of 0 changes none."""
    rng = random.Random(22)
    for points, orbitals in [(2, 1), (3, 1), (2, 2), (3, 2), (2, 3)]:
        components = exact(points, orbitals, rng)
        yield report(components, points, orbitals, SMALLEST)
        yield report([[-x if x == 0.0 else x for x in numbers] for numbers in components], points, orbitals, SMALLEST)


def one_entry_off():
    """Identities that hold but for one entry of one component, at each place, and at each entry of a block."""
    rng = random.Random(23)
    components = exact(3, 1, rng)
    for component, at in itertools.product(range(4), range(0, 18, 2)):
        off = [list(numbers) for numbers in components]
        off[component][at] += 0.75
        off[component][at + 1] -= 1.0
        yield report(off, 3, tolerance=rng.choice(beside(1.25)))
    components = exact(2, 2, rng)
    for component, at in itertools.product(range(4), (3, 5, 8, 14)):
        off = [list(numbers) for numbers in components]
        off[component][at] += 0.5
        yield report(off, 2, 2, rng.choice(beside(0.5)))


def lone_entries():
    """One entry of one component: a causality asks neither the diagonal nor the other side of it."""
    for component, t, u in itertools.product(range(4), range(2), range(2)):
        yield report(placed({component: {(t, u): (3.0, -4.0)}}), tolerance=5.0)
        yield report(placed({component: {(t, u): (SMALLEST, -SMALLEST)}}), tolerance=SMALLEST)
        yield report(placed({component: {(t, u): (0.0, LARGEST)}}), tolerance=LARGEST)
    # The larger of two entries, whichever comes first.
    for component, (first, second) in itertools.product(range(4), ((1.0, 2.0), (2.0, 1.0))):
        yield report(placed({component: {(0, 2): first, (1, 2): second, (2, 0): second, (2, 1): first}}, 3), 3)


def infinite_residuals():
    """Each residual infinite, by its norm or by its last difference: no refusal."""
    huge = (LARGEST, LARGEST)
    for component, t, u in itertools.product(range(4), range(2), range(2)):
        yield report(placed({component: {(t, u): huge}}), tolerance=LARGEST)
    for t, u in itertools.product(range(2), repeat=2):
        yield report(placed({RETARDED: {(u, t): LARGEST}, ADVANCED: {(t, u): -LARGEST if t != u else 0.0}}), tolerance=LARGEST)
        yield report(placed({LESSER: {(t, u): LARGEST, (u, t): LARGEST}}), tolerance=LARGEST)
        yield report(placed({GREATER: {(t, u): (0.0, LARGEST), (u, t): (0.0, -LARGEST)}}), tolerance=LARGEST)
        yield report(placed({RETARDED: {(t, u): LARGEST}, LESSER: {(t, u): LARGEST}}), tolerance=LARGEST)
        yield report(placed({ADVANCED: {(t, u): (0.0, LARGEST)}, GREATER: {(t, u): (0.0, LARGEST)}}), tolerance=LARGEST)
        yield report(placed({GREATER: {(t, u): LARGEST}, LESSER: {(t, u): LARGEST}}), tolerance=LARGEST)


def overflows():
    """Line 10 by either subtraction, at each place and part, and differences that just do not overflow."""
    for x, y in ((RETARDED, ADVANCED), (GREATER, LESSER)):
        for (t, u), part in itertools.product(itertools.product(range(2), repeat=2), range(2)):
            for other in (LARGEST, HALF_STEP, math.nextafter(HALF_STEP, 0.0), -LARGEST):
                pair = lambda value: {(t, u): (value, 0.0) if part == 0 else (0.0, value)}
                yield report(placed({x: pair(LARGEST), y: pair(-other)}), tolerance=LARGEST)
        yield report(placed({x: {(1, 0): -LARGEST}, y: {(1, 0): LARGEST}}))
    # In one entry of a block, after residuals that are infinite.
    for x, y in ((RETARDED, ADVANCED), (GREATER, LESSER)):
        components = [[1.0] * 32 for _ in range(4)]
        components[x] = with_entries(2, 2, {(0, 0, 0, 0): (LARGEST, LARGEST), (1, 1, 1, 0): (0.0, LARGEST)})
        components[y] = with_entries(2, 2, {(1, 1, 1, 0): (0.0, -LARGEST)})
        yield report(components, 2, 2)
    # Both.
    yield report([[LARGEST] * 8, [-LARGEST] * 8, [LARGEST] * 8, [-LARGEST] * 8])


def thresholds():
    """The tolerance is beside each residual of a report, or no tolerance."""
    rng = random.Random(24)
    components = [some("plain", 8, rng) for _ in range(4)]
    for residual in consistency_report(2, 1, *components):
        for tolerance in beside(residual):
            yield report(components, tolerance=tolerance)
    for tolerance in WRONG_TOLERANCES:
        yield report(zeros(), tolerance=tolerance)


# ---- The equal-time rule -------------------------------------------------------


def with_rule(residual, entries, orbitals=1, points=2, tolerance=0.5, off=GREATER):
    """The empty device with other entries of one component, by (t, u, a, b); its seventh residual is told."""
    components = empty_device(points, orbitals)
    for at, value in entries.items():
        begin = place(points, orbitals, *at)
        components[off][begin : begin + 2] = value
    told = consistency_report(points, orbitals, *components)
    assert same_bits(told.equal_time, residual), (told, entries)
    return report(components, points, orbitals, tolerance)


def equal_times_alone():
    """The rule holds, or it is violated alone: the decision is the seventh residual's."""
    for points, orbitals in [(2, 1), (3, 1), (2, 2), (3, 2), (2, 11)]:
        yield report(empty_device(points, orbitals), points, orbitals, SMALLEST)
    for factor, residual in [(0.0, 1.0), (0.75, 0.25), (1.25, 0.25), (-1.0, 2.0), (2.0, 1.0), (2.0**53 + 2.0, 2.0**53)]:
        for points, orbitals in [(2, 1), (3, 2)]:
            components = empty_device(points, orbitals, factor)
            told = consistency_report(points, orbitals, *components)
            assert told == Report(*[0.0] * 6, residual), told
            for tolerance in beside(residual):
                yield report(components, points, orbitals, tolerance)
    # An occupied device: G^< is i, and G^> is +0.
    retarded, advanced, lesser, _ = empty_device()
    yield report([retarded, advanced, by_place(2, {(t, t): (0.0, 1.0) for t in range(2)}), lesser], tolerance=SMALLEST)


def equal_times_grouped():
    """G^> - G^< is rounded first, then -i is taken from it: what is too small beside -i is lost, and only there."""
    small = 2.0**-60
    for t in range(2):
        yield with_rule(0.0, {(t, t, 0, 0): (0.0, small)}, off=LESSER, tolerance=SMALLEST)
        yield with_rule(small, {(t, t, 0, 0): (small, 0.0)}, off=LESSER, tolerance=small)
    yield with_rule(0.0, {(t, t, 0, 0): (0.0, small) for t in range(2)}, off=LESSER, tolerance=SMALLEST)
    # Half of the last digit of 1 and of the number below, ties to even, and the digit itself.
    for x, residual in [(2.0**-53, 0.0), (3 * 2.0**-54, 2.0**-52), (2.0**-52, 2.0**-52), (-(2.0**-54), 0.0), (-(2.0**-53), 2.0**-53)]:
        yield with_rule(residual, {(1, 1, 0, 0): (0.0, x)}, off=LESSER, tolerance=2.0**-53)
    # The difference from -i is rounded too: to even, and not past the largest number.
    for x, residual in [(2.0**53, 2.0**53), (2.0**53 + 2.0, 2.0**53 + 4.0), (LARGEST, LARGEST), (-LARGEST, LARGEST)]:
        yield with_rule(residual, {(0, 0, 0, 0): (0.0, x)}, tolerance=residual)


def equal_times_entries():
    """The rule has -i on the diagonal of a block at equal times, zero beside it, and asks nothing of two times."""
    for t, (a, b) in itertools.product(range(2), itertools.product(range(2), repeat=2)):
        at = (t, t, a, b)
        yield with_rule(norm((3.0, 5.0 if a == b else 4.0)), {at: (3.0, 4.0)}, 2, tolerance=5.0)
        yield with_rule(1.0 if a != b else 0.0, {at: (0.0, -1.0)}, 2, tolerance=1.0)
        yield with_rule(INFINITY, {at: (LARGEST, LARGEST)}, 2, tolerance=LARGEST)
        if a != b:
            yield with_rule(SMALLEST, {at: (-0.0, SMALLEST)}, 2, tolerance=SMALLEST)
            yield with_rule(0.0, {at: (-0.0, -0.0)}, 2, tolerance=SMALLEST)
    for t, u in ((0, 1), (1, 0)):
        yield with_rule(0.0, {(t, u, 0, 0): (7.0, 0.0)}, tolerance=7.0)
        yield with_rule(0.0, {(t, u, 0, 0): (LARGEST, LARGEST)}, tolerance=LARGEST)
        yield with_rule(0.0, {(t, u, a, a): (0.0, -1.0) for a in range(2)}, 2, tolerance=1.0)
    # The largest of all times and entries, whichever comes first.
    for off in itertools.permutations((1.0, 2.0, 4.0)):
        yield with_rule(4.0, {(t, t, 0, 0): (0.0, -1.0 - x) for t, x in enumerate(off)}, points=3, tolerance=4.0)
    for off in itertools.permutations((0.5, 1.0, 2.0, 4.0)):
        pairs = zip(itertools.product(range(2), repeat=2), off)
        yield with_rule(4.0, {(1, 1, a, b): (x, -1.0 if a == b else 0.0) for (a, b), x in pairs}, 2, tolerance=4.0)


def equal_times_overflow():
    """Line 10 by G^> - G^< at equal times, in each entry of a block, where the rule holds but for it; and none just below."""
    for t, (a, b), part in itertools.product(range(2), itertools.product(range(2), repeat=2), range(2)):
        pair = lambda value: [value, 0.0] if part == 0 else [0.0, value]
        for other in (HALF_STEP, math.nextafter(HALF_STEP, 0.0)):
            components = empty_device(2, 2)
            begin = place(2, 2, t, t, a, b)
            components[GREATER][begin : begin + 2], components[LESSER][begin : begin + 2] = pair(LARGEST), pair(-other)
            yield report(components, 2, 2, LARGEST)


# ---- Refusals of a report ------------------------------------------------------


def sizes():
    """Lines 1 and 2, each before the next and before all others, and shapes at their limits."""
    for points, orbitals in SHAPES:
        yield report([[NAN], [0.0, 1.0], [], [INFINITY]], points, orbitals, NAN)
    yield report([[1.0, 1.0]] * 4, 1, 1)
    yield report([[]] * 4, 0, 1)
    yield report([[]] * 4, 2, 1)


def lengths():
    """Line 3: each slice one short and one long, before line 7, and lengths of another shape."""
    for at, change in itertools.product(range(4), (-1, 1)):
        yield report(other_length(zeros(), at, change))
        yield report(other_length(zeros(2, 2), at, change), 2, 2)
        yield report(other_length([[NAN] * 8] * 4, at, change))
    for shape in ((2, 2), (4, 1), (4, 2)):
        yield report([[1.0] * 32] * 4, *shape)


def not_finite():
    """Line 7: of each operand and position, the first of two, and before line 10."""
    for operand, at in itertools.product(range(4), range(8)):
        components = [[LARGEST] * 8, [-LARGEST] * 8, [LARGEST] * 8, [-LARGEST] * 8]
        components[operand][at] = NOT_FINITE[(operand + at) % len(NOT_FINITE)]
        yield report(components, tolerance=NAN)
    for first, second in itertools.combinations(range(4), 2):
        components = zeros(2, 2)
        components[first][31], components[second][0] = NAN, INFINITY
        yield report(components, 2, 2)
        components[first][7] = -INFINITY
        yield report(components, 2, 2)


# ---- Decisions -----------------------------------------------------------------


def decisions():
    """The tolerance is below, at and above one residual, where the others are smaller."""
    for at, value in itertools.product(range(7), (1.0, 1e-12, SMALLEST, LARGEST)):
        residuals = [value if index == at else 0.0 for index in range(7)]
        for tolerance in beside(value):
            yield consistent(residuals, tolerance)
    for tolerance in sorted(x for index in range(1, 8) for x in beside(index / 8)):
        yield consistent([index / 8 for index in (4, 1, 6, 3, 5, 2, 7)], tolerance)


def decisions_not_finite():
    """A NaN and an infinity are above every tolerance, and -infinity below; no tolerance is either."""
    for at, value in itertools.product(range(7), (*NOT_FINITE, -1.0, -0.0)):
        yield consistent([value if index == at else 0.5 for index in range(7)], LARGEST)
    for tolerance in WRONG_TOLERANCES:
        yield consistent([0.0] * 7, tolerance)
        yield consistent([NAN, *[tolerance] * 6], tolerance)
        yield consistent([*[tolerance] * 6, NAN], tolerance)
    for value in (0.0, -0.0, SMALLEST, -INFINITY, NAN):
        yield consistent([value] * 7, SMALLEST)


CASES = [
    ordinary, identities_hold, one_entry_off, lone_entries, infinite_residuals, overflows, thresholds, equal_times_alone,
    equal_times_grouped, equal_times_entries, equal_times_overflow, sizes, lengths, not_finite, decisions, decisions_not_finite,
]
