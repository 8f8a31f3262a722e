"""Calls of the operations on one block or on two."""

import itertools
import math
import random

from bits import to_bits
from document01 import LARGEST, SMALLEST_NORMAL, Block
from replay_calls.calls import (
    ADD, ADJOINT, DIFFERENCE, FROM_NUMBERS, FROM_SCALAR, GET, HALF_STEP, HERMITIAN, HUGE, IDENTITY, INFINITY, KINDS, MOST, MULTIPLY,
    NAN, NOT_FINITE, SCALE, SMALLEST, SUBTRACT, TRACE, WRONG_TOLERANCES, ZERO_OF, Call, beside, some,
)

OF_ONE = (ADJOINT, SCALE, TRACE, GET, HERMITIAN)
OF_TWO = (MULTIPLY, ADD, SUBTRACT, DIFFERENCE)
SAME_SHAPE = (ADD, SUBTRACT, DIFFERENCE)
SHAPES = list(itertools.product((1, 2, 3), repeat=2))
# Rows and columns that line 1 refuses, that line 2 does, and that neither does.
SIZES = [(0, 1), (1, 0), (0, 17), (17, 0), (0, MOST), (HUGE, 0), (17, 1), (1, 17), (16, 17), (HUGE, 1), (2, MOST), (HUGE, HUGE)]
SIZES += [(1, 16), (16, 1), (16, 16)]
ZERO = [0.0, -0.0]
MINUS = [-0.0, -0.0]
# Lengths at which products overflow, or just do not.
LONG = {"long": lambda rng: math.ldexp(rng.uniform(-1, 1), rng.choice([510, 511, 512, 513]))}
# Numbers whose sums do.
HALF = {"half": lambda rng: rng.choice([1.0, -1.0]) * rng.choice([LARGEST, 0.5 * LARGEST, HALF_STEP, 2.0**1023, 1.0])}


def drawn(kind, rows, columns, rng):
    draw = (KINDS | LONG | HALF)[kind]
    return Block(rows, columns, [draw(rng) for _ in range(2 * rows * columns)])


def built(rows, columns, numbers):
    return Call(FROM_NUMBERS, 0, 0, 0.0, [numbers], (rows, columns))


def identity(size):
    return Call(IDENTITY, 0, 0, 0.0, more=(size,))


def one_number(re, im=0.0):
    return Call(FROM_SCALAR, 0, 0, 0.0, more=(to_bits(re), to_bits(im)))


def zeros(size):
    return Call(ZERO_OF, 0, 0, 0.0, more=(size,))


def of_two(function, left, right):
    return Call(function, 0, 0, 0.0, [left, right])


def scale(x, re, im=0.0):
    return Call(SCALE, 0, 0, 0.0, [x], last=(to_bits(re), to_bits(im)))


def get(x, row, column):
    return Call(GET, 0, 0, 0.0, [x], last=(row, column))


def hermitian(x, tolerance):
    return Call(HERMITIAN, 0, 0, tolerance, [x])


def of_one(function, x):
    """The operation, with a factor, a place or a tolerance that refuses nothing."""
    if function == SCALE:
        return scale(x, -1.0, 0.5)
    if function == GET:
        return get(x, 0, 0)
    return hermitian(x, 0.5) if function == HERMITIAN else Call(function, 0, 0, 0.0, [x])


# ---- All shapes ----------------------------------------------------------------


def shapes():
    """All shapes up to 3 by 3, with numbers of each kind."""
    rng = random.Random(61)
    kinds = itertools.cycle(["plain", "signs", "subnormal", "wide", "edges", "half"])
    for rows, columns in SHAPES:
        yield built(rows, columns, drawn(next(kinds), rows, columns, rng).numbers)
        yield of_one(ADJOINT, drawn(next(kinds), rows, columns, rng))
        yield of_one(TRACE, drawn(next(kinds), rows, columns, rng))
        yield get(drawn("plain", rows, columns, rng), rows - 1, columns - 1)
        yield hermitian(drawn("plain", rows, columns, rng), 1.0)
        for kind in ("plain", "signs", "subnormal"):
            yield scale(drawn(kind, rows, columns, rng), *some(kind, 2, rng))
        yield scale(drawn("long", rows, columns, rng), *(LONG["long"](rng) for _ in range(2)))
        for function in SAME_SHAPE:
            pair = lambda kind: [drawn(kind, rows, columns, rng) for _ in range(2)]
            for kind in ("plain", next(kinds)):
                yield of_two(function, *pair(kind))
    for rows, inner, columns in itertools.product((1, 2, 3), repeat=3):
        for kind in ("plain", next(kinds)):
            yield of_two(MULTIPLY, drawn(kind, rows, inner, rng), drawn(kind, inner, columns, rng))
    for n, kind in itertools.product((1, 2, 3), ("signs", "half", "subnormal")):
        yield of_one(TRACE, drawn(kind, n, n, rng))


def largest_shapes():
    """Blocks of 16 rows or columns."""
    rng = random.Random(62)
    full, other = (drawn("plain", 16, 16, rng) for _ in range(2))
    row, column = drawn("plain", 1, 16, rng), drawn("plain", 16, 1, rng)
    yield built(*full)
    yield of_one(ADJOINT, full)
    yield scale(full, 1.0, -3.0)
    yield of_two(MULTIPLY, full, other)
    yield of_two(SUBTRACT, full, other)
    yield of_two(MULTIPLY, row, column)
    yield of_two(MULTIPLY, column, row)
    yield of_two(MULTIPLY, full, column)
    yield of_one(TRACE, full)
    yield of_one(TRACE, Block(16, 16, [LARGEST] * 512))
    yield get(full, 15, 15)
    yield get(column, 15, 0)
    yield get(row, 0, 16)
    yield of_one(ADJOINT, row)
    yield of_two(ADD, column, column)
    yield of_two(DIFFERENCE, row, Block(1, 16, [0.0] * 32))
    yield hermitian(turned_plus(full), 1e-12)
    for size in (0, 1, 2, 3, 15, 16, 17, HUGE, MOST):
        yield identity(size)
        yield zeros(size)
    # The first number past the block, and the last one missing.
    for count in (511, 513):
        yield built(16, 16, [1.0] * count)
    yield built(16, 16, [0.0] * 511 + [NAN])
    yield of_one(ADJOINT, Block(16, 16, [0.0] * 511))


def turned_plus(x):
    """A square block and its adjoint, added: no part of it is off."""
    n, at = x.rows, lambda a, b: 2 * (a * x.rows + b)
    numbers = []
    for a, b in itertools.product(range(n), repeat=2):
        numbers += [x.numbers[at(a, b)] + x.numbers[at(b, a)], x.numbers[at(a, b) + 1] - x.numbers[at(b, a) + 1]]
    return Block(n, n, numbers)


# ---- Single blocks -------------------------------------------------------------

POINT = [1.5, -2.0]
ONE_TO = [float(index) for index in range(1, 13)]
SIX = [*ONE_TO[:11], -0.0]
THREE = [0.1, 0.2, 0.3, -0.4, -0.5, 0.6]
TWO = [1.0, 2.0, -3.0, 0.25, 0.1, -0.2, 0.3, -0.0]
OTHER = [0.3, -2.0, 0.7, 0.1, 0.2, -0.1, 0.3, 0.0]
SPREAD = [1.0, 2.0, -3.0, 0.25, 1e300, -1e-300, 0.1, LARGEST]
UNIT = [1.0, 0.0, 0.0, 0.0, 0.0, 0.0, 1.0, 0.0]


def single():
    """Blocks told number by number; those that have more numbers than entries hold them beyond."""
    for shape in [(2, 2), (1, 4), (4, 1)]:
        yield built(*shape, SPREAD)
        yield of_one(ADJOINT, Block(*shape, SPREAD))
    yield built(1, 1, [SMALLEST, -SMALLEST])
    for shape in [(2, 3), (3, 2), (2, 2), (1, 5)]:
        yield of_one(ADJOINT, Block(*shape, SIX))
        yield of_two(SUBTRACT, Block(*shape, SIX), Block(*shape, ONE_TO))
    for x, *factor in [(POINT, 2.0, -1.0), (POINT, 0.0, 0.0), (POINT, -0.0, -0.0), ([SMALLEST, SMALLEST], 0.5, 0.0)]:
        yield scale(Block(1, 1, x), *factor)
    yield scale(Block(2, 2, TWO), 0.1, 0.7)
    for function, y in itertools.product(OF_TWO, (TWO, OTHER)):
        yield of_two(function, Block(2, 2, TWO), Block(2, 2, y))
    for function in OF_TWO:
        yield of_two(function, Block(1, 1, POINT), Block(1, 1, POINT))
    for x, y in [
        ((2, 3, ONE_TO), (3, 1, THREE)), ((1, 3, THREE), (3, 2, ONE_TO)), ((2, 2, UNIT), (2, 3, SIX)), ((3, 2, SIX), (2, 2, UNIT)),
        ((1, 1, [SMALLEST, 0.0]), (1, 1, [SMALLEST, 0.0])), ((1, 1, [-0.0, 0.0]), (1, 1, [1.0, 0.0])),
    ]:
        yield of_two(MULTIPLY, Block(*x), Block(*y))
    for numbers in (TWO, OTHER, UNIT):
        yield of_one(TRACE, Block(2, 2, numbers))
    for numbers in ([1.0, 0.0, 2.0, 3.0, 2.0, -3.0, 4.0, -0.0], UNIT, TWO):
        yield hermitian(Block(2, 2, numbers), 1e-12)


def beyond():
    """What a block holds beyond its entries is not read."""
    for function, wrong in itertools.product(OF_ONE, ([1.0, 2.0, NAN, 4.0], [3.0, -4.0, 5.0, INFINITY])):
        yield of_one(function, Block(1, 1, wrong))
    for function in OF_TWO:
        yield of_two(function, Block(1, 1, [1.0, 2.0, 3.0, INFINITY]), Block(1, 1, [3.0, 1.0, -INFINITY]))
    yield of_two(MULTIPLY, Block(1, 1, [LARGEST, 0.0, -LARGEST, 0.0]), Block(1, 1, [1.0, 0.0, 2.0, 0.0]))
    yield of_two(DIFFERENCE, Block(1, 1, [1.0, 0.0, LARGEST, LARGEST]), Block(1, 1, [0.0] * 4))
    yield hermitian(Block(1, 1, [1.0, 0.0, 0.0, 5.0]), 0.5)


# ---- Zeros and overflow --------------------------------------------------------


def signs_of_zero():
    """A product and a trace start at +0; an adjoint of +0 has -0; sums and differences keep what their signs give."""
    zeros = [list(pair) for pair in itertools.product((0.0, -0.0), repeat=2)]
    for z in zeros:
        x = Block(1, 1, z)
        yield built(*x)
        yield of_one(ADJOINT, x)
        yield of_one(TRACE, x)
        yield scale(x, -1.0)
        yield scale(x, -0.0, -0.0)
        for function in OF_TWO:
            yield of_two(function, x, Block(1, 1, [1.0, 0.0] if function == MULTIPLY else MINUS))
    yield of_two(SUBTRACT, Block(1, 1, MINUS), Block(1, 1, ZERO))
    # A block whose last numbers are +0 after -0 is told up to the -0.
    yield built(1, 3, [0.0, -0.0, -0.0, 0.0, 0.0, 0.0])


def overflows():
    """Line 10: by each operation at each entry, and numbers that just do not overflow."""
    below = math.nextafter(HALF_STEP, 0.0)
    for function, sign in ((ADD, 1.0), (SUBTRACT, -1.0)):
        for at, x in itertools.product((0, 3, 7), (HALF_STEP, below)):
            left = [LARGEST if index == at else 1.0 for index in range(8)]
            right = [sign * x if index == at else LARGEST / 2 for index in range(8)]
            yield of_two(function, Block(2, 2, left), Block(2, 2, right))
        yield of_two(function, Block(1, 1, [-LARGEST, 0.0]), Block(1, 1, [-sign * LARGEST, 0.0]))
        yield of_two(function, Block(1, 1, [-LARGEST, 0.0]), Block(1, 1, [sign * LARGEST, 0.0]))
    # By a product, by the difference of two, by the sum over the inner index, and one that would come back.
    most, one = 0.75 * LARGEST, [1.0, 0.0]
    for z, w in [
        ([LARGEST, 0.0], [2.0, 0.0]), ([LARGEST, LARGEST], [1.0, -1.0]), ([LARGEST, LARGEST], [1.0, 1.0]),
        ([LARGEST, LARGEST], [2.0, 2.0]), ([LARGEST, -LARGEST], [0.5, 0.5]), ([0.0, LARGEST], [0.0, 1.0]),
    ]:
        yield of_two(MULTIPLY, Block(1, 1, z), Block(1, 1, w))
        yield of_two(MULTIPLY, Block(1, 1, w), Block(1, 1, z))
        yield scale(Block(1, 2, one + z), *w)
    for row in ([most, most, 0.0], [most, most, -LARGEST], [most, -most, most], [LARGEST, HALF_STEP, 1.0], [LARGEST, below, 1.0]):
        left = Block(1, 3, [part for value in row for part in (value, 0.0)])
        yield of_two(MULTIPLY, left, Block(3, 1, one * 3))
        yield of_one(TRACE, Block(3, 3, [part for a in range(3) for b in range(3) for part in (row[a] if a == b else 0.0, 0.0)]))
    # In the last entry alone.
    yield of_two(MULTIPLY, Block(2, 1, one + [LARGEST, 0.0]), Block(1, 2, one + [0.0, 2.0]))
    # A factor that is no number.
    for re, im in [(bad, 0.0) for bad in NOT_FINITE] + [(0.0, bad) for bad in NOT_FINITE[:3]]:
        yield scale(Block(1, 2, [0.0, 0.0, 1.0, -1.0]), re, im)
    for x, factor in [(LARGEST, 1.0), (LARGEST, math.nextafter(1.0, 2.0)), (0.5 * LARGEST, 2.0), (SMALLEST, 0.5), (SMALLEST, 0.75)]:
        yield scale(Block(1, 1, [1.0, -x]), factor)


def on_diagonal(values):
    """The trace of a block that has these complex numbers on the diagonal, and +0 elsewhere."""
    size = len(values)
    numbers = [part for a, b in itertools.product(range(size), repeat=2) for part in (values[a] if a == b else (0.0, 0.0))]
    return of_one(TRACE, Block(size, size, numbers))


def infinite():
    """A part of a trace that is not finite is line 10. Largest differences may be infinite; the larger of several, whichever comes first."""
    for numbers in ([LARGEST, 1.0], [-1.0, -LARGEST], [LARGEST, -LARGEST]):
        yield of_one(TRACE, Block(2, 2, numbers + [0.0] * 4 + numbers))
    yield of_one(TRACE, Block(3, 3, [LARGEST, 0.0] + [0.0] * 6 + [LARGEST, 0.0] + [0.0] * 6 + [-LARGEST, 0.0]))
    for x, sign in itertools.product((LARGEST, HALF_STEP, math.nextafter(HALF_STEP, 0.0), -LARGEST), (1.0, -1.0)):
        yield on_diagonal([(sign * LARGEST, 0.5), (sign * x, -0.5)])
        yield on_diagonal([(0.5, sign * x), (-0.5, sign * LARGEST)])
    # A partial sum that overflows and would come back, and one that does not.
    for signs in ([1, 1, -1], [1, -1, 1], [1, 1, -1, -1], [1, -1, 1, -1]):
        yield on_diagonal([(sign * LARGEST, 1.0) for sign in signs])
        yield on_diagonal([(1.0, sign * LARGEST) for sign in signs])
    # Beside the diagonal nothing counts; of one entry both parts may be largest.
    yield of_one(TRACE, Block(2, 2, [1.0, 2.0, LARGEST, LARGEST, LARGEST, LARGEST, -3.0, -0.0]))
    yield on_diagonal([(LARGEST, -LARGEST)])
    yield on_diagonal([(LARGEST / 8, 0.0)] * 16)
    # Lines 1, 2, 3 and 7 come first.
    for rows, columns in [(0, 2), (17, 17), (1, 2), (3, 2), (2, 2)]:
        yield of_one(TRACE, Block(rows, columns, [LARGEST] * 7 + [NAN]))
    for z, w in [
        ([LARGEST, 0.0], [-LARGEST, 0.0]), ([LARGEST, LARGEST], ZERO), ([LARGEST, 0.0], ZERO), ([0.0, -LARGEST], [0.0, HALF_STEP]),
        ([LARGEST, LARGEST], [-LARGEST, -LARGEST]), ([SMALLEST, SMALLEST], ZERO), ([3.0, -4.0], ZERO), ([3.0, -4.0], [3.0, -4.0]),
    ]:
        yield of_two(DIFFERENCE, Block(1, 1, z), Block(1, 1, w))
    for values in itertools.permutations((1.0, 5.0, LARGEST), 3):
        yield of_two(DIFFERENCE, Block(3, 1, [part for x in values for part in (x, x)]), Block(3, 1, [0.0] * 6))


# ---- Hermitian blocks ----------------------------------------------------------


def hermitian_thresholds():
    """A part that is off by less than the threshold, by as much and by more."""
    for tolerance in beside(0.25):
        # Off by 0.5 beside the diagonal or on it, in either part, where the largest part's size is 2.
        for x in [
            [2.0, 0.0, 0.5, 0.0, 0.0, 0.0, 1.0, 0.0], [-2.0, 0.0, 1.0, 0.75, 1.0, -0.25, 1.0, 0.0],
            [2.0, 0.0, 0.0, 0.25, 0.0, 0.25, 1.0, -0.0], [1.0, 0.0, 0.0, 0.0, 0.0, 0.0, 2.0, 0.25],
            [1.0, -0.25, 0.0, 0.0, 0.0, 0.0, -2.0, 0.0], [1.0, 0.0, 0.0, -2.0, 0.5, 2.0, 0.0, 0.0],
        ]:
            yield hermitian(Block(2, 2, x), tolerance)
    for off in beside(0.5):
        yield hermitian(Block(2, 2, [2.0, 0.0, off, 0.0, 0.0, 0.0, 1.0, 0.0]), 0.25)
        yield hermitian(Block(2, 2, [2.0, 0.0, 1.0, off, 1.0, 0.0, 1.0, 0.0]), 0.25)
    for tolerance in beside(2.0):
        yield hermitian(Block(1, 1, [0.0, -1.5]), tolerance)
    # The threshold is 0, or infinite; the difference is infinite.
    wide = Block(2, 2, [0.0, 0.0, LARGEST, 0.0, -LARGEST, 0.0, 0.0, 0.0])
    for tolerance in (SMALLEST, 0.5, 1.0, math.nextafter(1.0, 2.0), LARGEST):
        yield hermitian(wide, tolerance)
        yield hermitian(Block(1, 1, [SMALLEST, SMALLEST]), tolerance)
        yield hermitian(Block(1, 1, [SMALLEST_NORMAL, -0.0]), tolerance)
    for numbers in ([0.0] * 8, [-0.0] * 8):
        yield hermitian(Block(2, 2, numbers), SMALLEST)


def hermitian_or_nearly():
    """A block that is its adjoint, and one with a single part off, at each place."""
    rng = random.Random(63)
    for n in (1, 2, 3):
        good = turned_plus(drawn("plain", n, n, rng))
        yield hermitian(good, SMALLEST)
        for at in range(2 * n * n):
            yield hermitian(Block(n, n, [x + 1e-3 if index == at else x for index, x in enumerate(good.numbers)]), 1e-6)
    # No for every block that is not square, after line 8.
    for rows, columns in [(1, 2), (2, 1), (3, 2)]:
        yield hermitian(Block(rows, columns, [0.0] * (2 * rows * columns)), 1.0)
        yield hermitian(Block(rows, columns, [0.0] * (2 * rows * columns)), 0.0)
    for tolerance in WRONG_TOLERANCES:
        yield hermitian(Block(1, 1, [1.0, 1.0]), tolerance)


# ---- Refusals ------------------------------------------------------------------


def sizes():
    """Lines 1 and 2, each before the next and before all others: of one block, and of the first or the second of two."""
    for rows, columns in itertools.product((0, 1, 16, 17, HUGE, MOST), repeat=2):
        yield built(rows, columns, [1.0, NAN, 2.0])
    for function, shape in itertools.product(OF_ONE, SIZES):
        yield of_one(function, Block(*shape, [1.0, 2.0]))
    good = Block(1, 1, [NAN, 2.0])
    for index, shape in enumerate(SIZES):
        wrong = Block(*shape, [1.0, 2.0, 3.0])
        for turn, function in enumerate(OF_TWO):
            yield of_two(function, *((wrong, good) if (index + turn) % 2 else (good, wrong)))
    # One refused by 1, the other by 2, in either order; both of 16.
    pairs = [((17, 1), (1, 0)), ((0, 2), (17, 2)), ((1, HUGE), (HUGE, 1)), ((16, 16), (16, 16))]
    for function, (x, y) in itertools.product(OF_TWO, pairs):
        yield of_two(function, Block(*x, [1.0]), Block(*y, [INFINITY]))


def lengths():
    """Line 3: numbers one short and one long, shapes that do not fit, and both before line 7."""
    for rows, columns in SHAPES:
        count = 2 * rows * columns
        yield built(rows, columns, [1.0] * (count - 1))
        yield built(rows, columns, [NAN] * (count + 1))
    yield built(1, 1, [])
    pairs = [((1, 2), (2, 1)), ((2, 2), (2, 3)), ((3, 2), (2, 2)), ((1, 16), (1, 15))]
    for function, (x, y) in itertools.product(SAME_SHAPE, pairs):
        yield of_two(function, Block(*x, [1.0] * (2 * x[0] * x[1])), Block(*y, [1.0] * (2 * y[0] * y[1])))
    for function in SAME_SHAPE:
        yield of_two(function, Block(1, 2, [NAN] * 4), Block(2, 1, [INFINITY] * 4))
    for x, y in [((2, 3), (2, 3)), ((1, 2), (1, 2)), ((2, 1), (2, 1)), ((3, 3), (2, 3)), ((1, 16), (15, 1)), ((16, 1), (2, 16))]:
        yield of_two(MULTIPLY, Block(*x, [1.0] * (2 * x[0] * x[1])), Block(*y, [1.0] * (2 * y[0] * y[1])))
    yield of_two(MULTIPLY, Block(1, 2, [NAN] * 4), Block(1, 1, [INFINITY] * 2))
    yield of_one(TRACE, Block(2, 3, [NAN] * 12))
    yield of_one(TRACE, Block(16, 15, [NAN]))


def not_finite():
    """Line 7: the first, a middle and the last number, the first operand's before the second's; the lowest position of two."""
    bad = itertools.cycle(NOT_FINITE)
    for at in (0, 4, 7):
        wrong = lambda other=1.0: Block(2, 2, [next(bad) if index == at else other for index in range(8)])
        yield built(*wrong())
        for function in OF_ONE:
            yield of_one(function, wrong())
        for function in OF_TWO:
            yield of_two(function, wrong(LARGEST), Block(2, 2, [LARGEST] * 8))
            yield of_two(function, Block(2, 2, [-LARGEST] * 8), wrong(LARGEST))
            yield of_two(function, wrong(), Block(2, 2, [NAN] * 8))
    for function in OF_TWO:
        yield of_two(function, Block(2, 2, [1.0] * 7 + [INFINITY]), Block(2, 2, [NAN] * 8))
    yield built(3, 1, [0.0, 1.0, 2.0, -INFINITY, NAN, INFINITY])
    # Before lines 8, 10 and 12, and in the part of a block that is not stored.
    yield scale(Block(1, 2, [1.0, 2.0, NAN, 4.0]), NAN)
    yield scale(Block(1, 2, [LARGEST, 2.0, 3.0, -INFINITY]), 2.0)
    yield hermitian(Block(1, 2, [1.0, 0.0, NAN, 0.0]), 0.0)
    yield hermitian(Block(2, 2, [1.0] * 7 + [INFINITY]), NAN)
    yield get(Block(1, 2, [1.0, INFINITY, 3.0, 4.0]), 1, 2)
    yield get(Block(2, 2, [1.0] * 7), 0, 0)
    yield of_two(ADD, Block(1, 2, [1.0] * 4), Block(1, 2, [1.0] * 3))


def places():
    """Line 12, and every entry of a block that is not square."""
    six = Block(2, 3, [float(index) for index in range(1, 12)] + [-0.0])
    for row, column in itertools.product(range(3), range(4)):
        yield get(six, row, column)
    for row, column in [(MOST, 0), (0, MOST), (HUGE, HUGE), (3, 0), (1, HUGE), (0, 6)]:
        yield get(six, row, column)
    yield get(Block(3, 2, six.numbers), 2, 1)
    yield get(Block(3, 2, six.numbers), 1, 2)


def scalars():
    """A block of one number: signs of zero, ends, and line 7 at either part."""
    for re, im in itertools.product((0.0, -0.0, 1.5, -LARGEST, SMALLEST), repeat=2):
        yield one_number(re, im)
    for bad in NOT_FINITE:
        for re, im in ((bad, 1.0), (-0.0, bad), (bad, bad)):
            yield one_number(re, im)


CASES = [
    shapes, largest_shapes, single, beyond, signs_of_zero, overflows, infinite, hermitian_thresholds, hermitian_or_nearly,
    sizes, lengths, not_finite, places, scalars,
]
