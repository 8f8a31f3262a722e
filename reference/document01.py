"""A plain reading of document 01, as document 02's L2, L7, L8 and L10 amend it, in
Python, whose floats are binary64.

A complex number is a pair (re, im). A two-time function is a flat list of
numbers; entry (a, b) of block (t, u) begins at `place(points, n, t, u, a, b)`.
A call changes none of its arguments: it returns its answer and what each lent
output and scratch slice holds afterwards. An answer is ACCEPTED, a number (or
another value that the call names), or a Refusal.
"""

import math
import struct
from typing import NamedTuple

from bits import from_bits, hex_of, to_bits

# ---- Arithmetic under everything ------------------------------------------

ZERO = (0.0, 0.0)
ONE = (1.0, 0.0)
MINUS_I = (0.0, -1.0)
INFINITY = math.inf
LARGEST = from_bits(0x7FEF_FFFF_FFFF_FFFF)
SMALLEST_NORMAL = from_bits(0x0010_0000_0000_0000)
DEFAULT_TOLERANCE = 1e-12


def c_add(z, w):
    return (z[0] + w[0], z[1] + w[1])


def c_subtract(z, w):
    return (z[0] - w[0], z[1] - w[1])


def c_multiply(z, w):
    a, b = z
    c, d = w
    return (a * c - b * d, a * d + b * c)


def conjugate(z):
    return (z[0], -z[1])


def c_sum(terms):
    """A sum starts at +0+0i and adds in index order."""
    total = ZERO
    for term in terms:
        total = c_add(total, term)
    return total


def c_finite(z):
    return math.isfinite(z[0]) and math.isfinite(z[1])


def larger(x, y):
    """f64::max: of a number and NaN it is the number."""
    if x != x:
        return y
    if y != y:
        return x
    return y if y > x else x


def largest(numbers):
    """Every maximum begins at +0."""
    top = 0.0
    for number in numbers:
        top = larger(top, number)
    return top


def part_size(z):
    return larger(abs(z[0]), abs(z[1]))


# ---- The norm ---------------------------------------------------------------


def units(size):
    """The size of a finite number, counted in 2^-1074."""
    bits = to_bits(abs(size))
    exponent, fraction = bits >> 52, bits & (2**52 - 1)
    return fraction if exponent == 0 else (fraction | 2**52) << (exponent - 1)


def from_units(count):
    """The number of `count` units; `count` fits a significand of 53 bits."""
    shift = max(count.bit_length() - 53, 0)
    if shift > 2045:
        return INFINITY
    significand = count >> shift
    if significand < 2**52:
        return from_bits(significand)
    return from_bits((shift + 1) << 52 | significand - 2**52)


def rounded_root(square):
    """The square root in units, at most 53 bits kept, ties to even."""
    root = math.isqrt(square)
    shift = max(root.bit_length() - 53, 0)
    kept = root >> shift
    # Twice the root against the middle between `kept` and its successor.
    middle = (2 * kept + 1) << shift
    if 4 * square > middle**2 or (4 * square == middle**2 and kept % 2 == 1):
        kept += 1
    return kept << shift


def norm(z):
    re, im = z
    if math.isinf(re) or math.isinf(im):
        return INFINITY
    if re != re or im != im:
        return math.nan
    return from_units(rounded_root(units(re) ** 2 + units(im) ** 2))


# ---- Questions in order -----------------------------------------------------


class Refusal(NamedTuple):
    """A number and its places; places that a line does not have are 0."""

    number: int
    operand: int = 0
    first: int = 0
    second: int = 0
    part: float = 0.0


class Accepted(NamedTuple):
    pass


ACCEPTED = Accepted()
MOST_POINTS = 256
MOST_ORBITALS = 16


class Outcome(NamedTuple):
    """A call's answer, and the contents of each lent slice afterwards."""

    answer: object
    lent: dict


class Overflow(Exception):
    """A block or a trace made during the work is not finite: number 10."""


def line_1(points, orbitals, shapes):
    sizes = [size for shape in shapes for size in shape]
    if points < 2 or orbitals < 1 or any(size < 1 for size in sizes):
        return Refusal(1)


def line_2(points, orbitals, shapes):
    sizes = [size for shape in shapes for size in shape]
    if points > MOST_POINTS or orbitals > MOST_ORBITALS or any(size > 16 for size in sizes):
        return Refusal(2)


def line_4(times):
    if not all(math.isfinite(time) for time in times):
        return Refusal(4)


def line_5(times):
    for index in range(1, len(times)):
        if not times[index] > times[index - 1]:
            return Refusal(5, first=index)


def line_6(times):
    if not all(math.isfinite(weight) for weight in weights_of(times)):
        return Refusal(6)


def line_7(operands):
    for operand, numbers in enumerate(operands):
        for position, number in enumerate(numbers):
            if not math.isfinite(number):
                return Refusal(7, operand=operand, first=position)


def line_8(tolerance):
    if not (math.isfinite(tolerance) and tolerance > 0.0):
        return Refusal(8)


def line_11(index, points):
    if not index < points:
        return Refusal(11)


def line_12(a, b, rows, columns):
    if not (a < rows and b < columns):
        return Refusal(12)


def line_13(*numbers):
    if not all(math.isfinite(number) for number in numbers):
        return Refusal(13)


def grid_lines(times):
    return line_4(times) or line_5(times) or line_6(times)


def block_lines(*blocks, fit=True):
    """Lines 1, 2, 3 and 7 of the blocks; `fit` says whether line 3's answer is yes."""
    shapes = [(block.rows, block.columns) for block in blocks]
    sizes = line_1(2, 1, shapes) or line_2(2, 1, shapes)
    if sizes:
        return sizes
    if not fit:
        return Refusal(3)
    return line_7([held(block) for block in blocks])


def function_lines(points, orbitals, functions, lent=(), times=None, block=None):
    """Lines 1 to 7 of a call on two-time functions, line by line."""
    shapes = [] if block is None else [(block.rows, block.columns)]
    sizes = line_1(points, orbitals, shapes) or line_2(points, orbitals, shapes)
    if sizes:
        return sizes
    length = function_length(points, orbitals)
    lengths_fit = all(len(numbers) == length for numbers in [*functions, *lent])
    times_fit = times is None or len(times) == points
    block_fits = block is None or (block.rows, block.columns) == (orbitals, orbitals)
    if not (lengths_fit and times_fit and block_fits):
        return Refusal(3)
    refusal = None if times is None else grid_lines(times)
    return refusal or line_7([*functions, *([] if block is None else [held(block)])])


def conclude(refusal, lent, work):
    """The outcome: refused as asked, refused by 10, or accepted.

    `work` gives the blocks of each lent slice by name.
    """
    if refusal:
        return Outcome(refusal, {name: list(held_now) for name, held_now in lent.items()})
    try:
        made = work()
    except Overflow:
        return Outcome(Refusal(10), {name: [0.0] * len(lent[name]) for name in lent})
    return Outcome(ACCEPTED, {name: lay_out(made[name]) for name in lent})


# ---- Module matrix ------------------------------------------------------------
# Entries of a block in work are a list of complex numbers, row by row.


class Block(NamedTuple):
    """One block by value; numbers beyond rows·columns entries mean nothing."""

    rows: int
    columns: int
    numbers: list


REFUSED_BLOCK = Block(0, 0, [0.0] * 512)


def held(block):
    """The numbers of a block's entries."""
    return block.numbers[: 2 * block.rows * block.columns]


def entries(block):
    numbers = held(block)
    return list(zip(numbers[0::2], numbers[1::2]))


def block_of(rows, columns, values):
    numbers = [part for value in values for part in value]
    return Block(rows, columns, numbers + [0.0] * (512 - len(numbers)))


def zeros(n):
    return [ZERO] * (n * n)


def checked(values):
    if not all(c_finite(value) for value in values):
        raise Overflow
    return values


def multiplied(left, right, rows, inner, columns):
    return checked(
        [
            c_sum(c_multiply(left[r * inner + k], right[k * columns + c]) for k in range(inner))
            for r in range(rows)
            for c in range(columns)
        ]
    )


def scaled(values, factor):
    return checked([c_multiply(value, factor) for value in values])


def added(left, right):
    return checked([c_add(z, w) for z, w in zip(left, right)])


def subtracted(left, right):
    return checked([c_subtract(z, w) for z, w in zip(left, right)])


def adjoint_of(values, rows, columns):
    return [conjugate(values[r * columns + c]) for c in range(columns) for r in range(rows)]


def norm_max(values):
    return largest(norm(value) for value in values)


def difference_max(left, right):
    return norm_max(c_subtract(z, w) for z, w in zip(left, right))


def block_answer(refusal, rows, columns, work):
    """A call that answers a block: (answer, block)."""
    if refusal:
        return refusal, REFUSED_BLOCK
    try:
        return ACCEPTED, block_of(rows, columns, work())
    except Overflow:
        return Refusal(10), REFUSED_BLOCK


def same_shape(left, right):
    return (left.rows, left.columns) == (right.rows, right.columns)


def from_numbers(rows, columns, numbers):
    shape = [(rows, columns)]
    refusal = line_1(2, 1, shape) or line_2(2, 1, shape)
    if not refusal and len(numbers) != 2 * rows * columns:
        refusal = Refusal(3)
    refusal = refusal or line_7([numbers])
    return block_answer(refusal, rows, columns, lambda: list(zip(numbers[0::2], numbers[1::2])))


def from_scalar(value):
    """The 1 by 1 block of a complex number."""
    return block_answer(line_7([value]), 1, 1, lambda: [value])


def zero(size):
    refusal = line_1(2, 1, [(size, size)]) or line_2(2, 1, [(size, size)])
    return block_answer(refusal, size, size, lambda: zeros(size))


def identity(size):
    refusal = line_1(2, 1, [(size, size)]) or line_2(2, 1, [(size, size)])
    return block_answer(
        refusal, size, size, lambda: [ONE if r == c else ZERO for r in range(size) for c in range(size)]
    )


def adjoint(block):
    rows, columns = block.rows, block.columns
    work = lambda: adjoint_of(entries(block), rows, columns)
    return block_answer(block_lines(block), columns, rows, work)


def add(left, right):
    refusal = block_lines(left, right, fit=same_shape(left, right))
    work = lambda: added(entries(left), entries(right))
    return block_answer(refusal, left.rows, left.columns, work)


def subtract(left, right):
    refusal = block_lines(left, right, fit=same_shape(left, right))
    work = lambda: subtracted(entries(left), entries(right))
    return block_answer(refusal, left.rows, left.columns, work)


def scale(block, factor):
    """Each entry times a complex factor; a factor that is not finite gives 10."""
    work = lambda: scaled(entries(block), factor)
    return block_answer(block_lines(block), block.rows, block.columns, work)


def product(left, right):
    refusal = block_lines(left, right, fit=left.columns == right.rows)
    shape = (left.rows, left.columns, right.columns)
    work = lambda: multiplied(entries(left), entries(right), *shape)
    return block_answer(refusal, left.rows, right.columns, work)


def trace_of(values, n):
    """Document 02, L10: 10 "when a part of its sum is not finite"."""
    (total,) = checked([c_sum(values[index * n + index] for index in range(n))])
    return total


def trace(block):
    """A complex number."""
    refusal = block_lines(block, fit=block.rows == block.columns)
    if refusal:
        return refusal
    try:
        return trace_of(entries(block), block.rows)
    except Overflow:
        return Refusal(10)


def max_difference(left, right):
    """A number, which may be infinite."""
    refusal = block_lines(left, right, fit=same_shape(left, right))
    return refusal or difference_max(entries(left), entries(right))


def is_hermitian(block, tolerance):
    refusal = block_lines(block) or line_8(tolerance)
    if refusal:
        return refusal
    if block.rows != block.columns:
        return False
    values, n = entries(block), block.rows
    threshold = tolerance * largest(part_size(value) for value in values)
    return not any(
        part_size(c_subtract(values[a * n + b], conjugate(values[b * n + a]))) > threshold
        for a in range(n)
        for b in range(a, n)
    )


def entry(block, row, column):
    """A complex number; a place outside the block is 12."""
    refusal = block_lines(block) or line_12(row, column, block.rows, block.columns)
    return refusal or entries(block)[row * block.columns + column]


# ---- Module grid --------------------------------------------------------------


def half_step(later, earlier):
    return 0.5 * (later - earlier)


def weights_of(times):
    last = len(times) - 1
    inner = [half_step(times[i + 1], times[i - 1]) for i in range(1, last)]
    return [half_step(times[1], times[0]), *inner, half_step(times[last], times[last - 1])]


def step_weight(times, point, start, end):
    """The weight of a point in the interval from start to end."""
    if start >= end or point < start or point > end:
        return 0.0
    if point == start:
        return half_step(times[start + 1], times[start])
    if point == end:
        return half_step(times[end], times[end - 1])
    return half_step(times[point + 1], times[point - 1])


def grid_call_lines(points, times, lent=()):
    sizes = line_1(points, 1, []) or line_2(points, 1, [])
    if sizes:
        return sizes
    if len(times) != points or any(len(numbers) != points for numbers in lent):
        return Refusal(3)
    return grid_lines(times)


def full_weights(points, times, output):
    refusal = grid_call_lines(points, times, [output])
    if refusal:
        return Outcome(refusal, {"output": list(output)})
    return Outcome(ACCEPTED, {"output": weights_of(times)})


def interval_weight(points, times, point, start, end):
    refusal = grid_call_lines(points, times) or line_11(end, points)
    return refusal or step_weight(times, point, start, end)


# ---- Two-time functions ---------------------------------------------------------
# In work, a function is a table of blocks: function[t][u] has the entries.


def function_length(points, orbitals):
    return 2 * points * points * orbitals * orbitals


def place(points, n, t, u, a, b):
    return 2 * (((t * points + u) * n + a) * n + b)


def block_at(numbers, points, n, t, u):
    begin = place(points, n, t, u, 0, 0)
    part = numbers[begin : begin + 2 * n * n]
    return list(zip(part[0::2], part[1::2]))


def table(points, make):
    return [[make(t, u) for u in range(points)] for t in range(points)]


def read(numbers, points, n):
    return table(points, lambda t, u: block_at(numbers, points, n, t, u))


def lay_out(function):
    return [part for row in function for block in row for value in block for part in value]


# ---- Module convolutions ----------------------------------------------------------


def weighted_sum(n, first, terms):
    """Each term is product, then scale, then add, in order, from the first value."""
    value = first
    for weight, left, right in terms:
        value = added(value, scaled(multiplied(left, right, n, n, n), (weight, 0.0)))
    return value


def interval_sum(n, times, start, end, left, right):
    """Sums left(s)·right(s) for s from start to end with interval weights.

    Document 02, L2: "Form no product where an interval has one point only (start = end);
    the block is +0. A longer interval whose step halves to 0 still forms its products."
    """
    if start == end:
        return zeros(n)
    terms = ((step_weight(times, s, start, end), left(s), right(s)) for s in range(start, end + 1))
    return weighted_sum(n, zeros(n), terms)


def full_convolution(points, n, times, left, right):
    weights = weights_of(times)

    def block(t, u):
        terms = ((weights[s], left[t][s], right[s][u]) for s in range(points))
        return weighted_sum(n, zeros(n), terms)

    return table(points, block)


def causal_convolution(points, n, times, left, right):
    def block(t, u):
        if t < u:
            return zeros(n)
        return interval_sum(n, times, u, t, lambda s: left[t][s], lambda s: right[s][u])

    return table(points, block)


def convolution_call(convolution, points, orbitals, times, left, right, output):
    lent = {"output": output}
    refusal = function_lines(points, orbitals, [left, right], [output], times)

    def work():
        both = (read(left, points, orbitals), read(right, points, orbitals))
        return {"output": convolution(points, orbitals, times, *both)}

    return conclude(refusal, lent, work)


def time_convolution(points, orbitals, times, left, right, output):
    return convolution_call(full_convolution, points, orbitals, times, left, right, output)


def causal_volterra_convolution(points, orbitals, times, left, right, output):
    return convolution_call(causal_convolution, points, orbitals, times, left, right, output)


# ---- Module support -----------------------------------------------------------------


def line_9(points, orbitals, numbers, operand, tolerance):
    norms = table(points, lambda t, u: norm_max(block_at(numbers, points, orbitals, t, u)))
    scale_of_all = larger(largest(value for row in norms for value in row), SMALLEST_NORMAL)
    for t in range(points):
        for u in range(t + 1, points):
            residual = norms[t][u] / scale_of_all
            if residual > tolerance:
                return Refusal(9, operand=operand, first=t, second=u, part=residual)


def retarded_support(points, orbitals, function, tolerance):
    """The support check as a call of its own: its operand is 0."""
    refusal = function_lines(points, orbitals, [function]) or line_8(tolerance)
    return refusal or line_9(points, orbitals, function, 0, tolerance) or ACCEPTED


# ---- Module Dyson --------------------------------------------------------------------


def solve(points, n, times, free, kernel):
    """G(i, j) starts as free(i, j) and adds K(i, s)·G(s, j), s from j to i - 1."""
    retarded = table(points, lambda t, u: zeros(n))
    for i in range(points):
        for j in range(i + 1):
            terms = ((step_weight(times, s, j, i), kernel[i][s], retarded[s][j]) for s in range(j, i))
            retarded[i][j] = weighted_sum(n, free[i][j], terms)
    return retarded


def solve_dyson(points, n, times, free, self_energy):
    """The kernel K and the solved G, as tables of blocks."""
    free, self_energy = read(free, points, n), read(self_energy, points, n)
    kernel = causal_convolution(points, n, times, free, self_energy)
    return kernel, solve(points, n, times, free, kernel)


def support_lines(points, orbitals, free, self_energy, tolerance):
    """8, 9 for free, 9 for self-energy."""
    return (
        line_8(tolerance)
        or line_9(points, orbitals, free, 0, tolerance)
        or line_9(points, orbitals, self_energy, 1, tolerance)
    )


def retarded_dyson_with_tolerance(points, orbitals, times, free, self_energy, tolerance, retarded, kernel):
    lent = {"retarded": retarded, "kernel": kernel}
    refusal = function_lines(
        points, orbitals, [free, self_energy], lent.values(), times
    ) or support_lines(points, orbitals, free, self_energy, tolerance)

    def work():
        made_kernel, solved = solve_dyson(points, orbitals, times, free, self_energy)
        return {"retarded": solved, "kernel": made_kernel}

    return conclude(refusal, lent, work)


def retarded_dyson(points, orbitals, times, free, self_energy, retarded, kernel):
    return retarded_dyson_with_tolerance(
        points, orbitals, times, free, self_energy, DEFAULT_TOLERANCE, retarded, kernel
    )


# ---- Module transient ------------------------------------------------------------------


def first_sums(points, n, times, lesser_self_energy, retarded):
    """X(t, u) sums s from 0 to u over the lesser self-energy and G^A(s, u)."""

    def block(t, u):
        advanced = lambda s: adjoint_of(retarded[u][s], n, n)
        return interval_sum(n, times, 0, u, lambda s: lesser_self_energy[t][s], advanced)

    return table(points, block)


def lesser_function(points, n, times, retarded, sums):
    """G^<(t, u) sums s from 0 to t over G^R(t, s) and X(s, u)."""

    def block(t, u):
        return interval_sum(n, times, 0, t, lambda s: retarded[t][s], lambda s: sums[s][u])

    return table(points, block)


def transient_run(
    points, orbitals, times, free, self_energy, lesser_self_energy, tolerance, retarded, lesser, kernel, sums
):
    lent = {"retarded": retarded, "lesser": lesser, "kernel": kernel, "sums": sums}
    operands = [free, self_energy, lesser_self_energy]
    refusal = function_lines(
        points, orbitals, operands, lent.values(), times
    ) or support_lines(points, orbitals, free, self_energy, tolerance)

    def work():
        made_kernel, solved = solve_dyson(points, orbitals, times, free, self_energy)
        source = read(lesser_self_energy, points, orbitals)
        made_sums = first_sums(points, orbitals, times, source, solved)
        made_lesser = lesser_function(points, orbitals, times, solved, made_sums)
        return {"retarded": solved, "lesser": made_lesser, "kernel": made_kernel, "sums": made_sums}

    return conclude(refusal, lent, work)


# ---- Module observables ------------------------------------------------------------------


def density_of(points, n, lesser, time):
    """(0 - 1i) times each entry of G^<(t, t)."""
    return [c_multiply(MINUS_I, value) for value in block_at(lesser, points, n, time, time)]


def density_matrix(points, orbitals, lesser, time):
    refusal = function_lines(points, orbitals, [lesser]) or line_11(time, points)
    work = lambda: checked(density_of(points, orbitals, lesser, time))
    return block_answer(refusal, orbitals, orbitals, work)


def argument_lines(tolerance, time, points):
    """Document 02, L8: "8 comes before 11 and before 10"."""
    return line_8(tolerance) or line_11(time, points)


def real_checked(value, tolerance):
    """14 with the imaginary part, else the real part."""
    return Refusal(14, part=value[1]) if abs(value[1]) > tolerance else value[0]


def particle_number(points, orbitals, lesser, time, tolerance):
    """8, 11, 10 of the trace, 14."""
    refusal = function_lines(points, orbitals, [lesser]) or argument_lines(tolerance, time, points)
    if refusal:
        return refusal
    try:
        total = trace_of(density_of(points, orbitals, lesser, time), orbitals)
    except Overflow:
        return Refusal(10)
    return real_checked(total, tolerance)


def one_body_expectation(points, orbitals, lesser, time, observable, tolerance):
    """8, 11, 10 of the product, 10 of the trace, 14."""
    refusal = function_lines(points, orbitals, [lesser], block=observable) or argument_lines(tolerance, time, points)
    if refusal:
        return refusal
    density = density_of(points, orbitals, lesser, time)
    try:
        total = trace_of(multiplied(entries(observable), density, orbitals, orbitals, orbitals), orbitals)
    except Overflow:
        return Refusal(10)
    return real_checked(total, tolerance)


def bond_flow_into(points, orbitals, lesser, time, a, b, hopping, charge):
    refusal = (
        function_lines(points, orbitals, [lesser])
        or line_13(*hopping, charge)
        or line_12(a, b, orbitals, orbitals)
        or line_11(time, points)
    )
    if refusal:
        return refusal
    rho_ba = density_of(points, orbitals, lesser, time)[b * orbitals + a]
    return (2.0 * charge) * c_multiply(hopping, rho_ba)[1]


# ---- Modules report and Langreth ------------------------------------------------------------


class Report(NamedTuple):
    retarded_causality: float
    advanced_causality: float
    advanced_adjoint: float
    lesser_antihermiticity: float
    greater_antihermiticity: float
    spectral_identity: float
    equal_time: float


def minus_i_identity(n):
    return [MINUS_I if a == b else ZERO for a in range(n) for b in range(n)]


def place_residuals(n, t, u, retarded, advanced, lesser, greater):
    """The seven residuals of one place, +0 where a residual does not ask the place.

    Document 02, L7: "the equal-time rule, that G^> - G^< at (t,t) is -i times the identity",
    its "largest violation by norm". G^> - G^< is the report's own block, which may give 10;
    what it differs by from the rule asks nothing.
    """
    turned = lambda function: adjoint_of(function[u][t], n, n)
    minus_turned = lambda function: scaled(turned(function), (-1.0, 0.0))
    causal = subtracted(retarded[t][u], advanced[t][u])
    correlation = subtracted(greater[t][u], lesser[t][u])
    return Report(
        norm_max(retarded[t][u]) if t < u else 0.0,
        norm_max(advanced[t][u]) if t > u else 0.0,
        difference_max(advanced[t][u], turned(retarded)),
        difference_max(lesser[t][u], minus_turned(lesser)),
        difference_max(greater[t][u], minus_turned(greater)),
        difference_max(causal, correlation),
        difference_max(correlation, minus_i_identity(n)) if t == u else 0.0,
    )


def consistency_report(points, orbitals, retarded, advanced, lesser, greater):
    operands = [retarded, advanced, lesser, greater]
    refusal = function_lines(points, orbitals, operands)
    if refusal:
        return refusal
    functions = [read(numbers, points, orbitals) for numbers in operands]
    try:
        residuals = [
            place_residuals(orbitals, t, u, *functions) for t in range(points) for u in range(points)
        ]
    except Overflow:
        return Refusal(10)
    return Report(*(largest(column) for column in zip(*residuals)))


def is_consistent(report, tolerance):
    return line_8(tolerance) or all(residual <= tolerance for residual in report)


def anti_causal_convolution(points, n, times, left, right):
    def block(t, u):
        if t > u:
            return zeros(n)
        return interval_sum(n, times, t, u, lambda s: left[t][s], lambda s: right[s][u])

    return table(points, block)


def correlation_product(points, n, times, pairs):
    """The two full convolutions, added block by block."""
    first, second = (full_convolution(points, n, times, left, right) for left, right in pairs)
    return table(points, lambda t, u: added(first[t][u], second[t][u]))


def langreth_product(points, orbitals, times, left, right, retarded, advanced, lesser, greater):
    """`left` and `right` are (retarded, advanced, lesser, greater)."""
    lent = {"retarded": retarded, "advanced": advanced, "lesser": lesser, "greater": greater}
    refusal = function_lines(points, orbitals, [*left, *right], lent.values(), times)

    def work():
        shape = (points, orbitals, times)
        a_r, a_a, a_lesser, a_greater = (read(numbers, points, orbitals) for numbers in left)
        b_r, b_a, b_lesser, b_greater = (read(numbers, points, orbitals) for numbers in right)
        return {
            "retarded": causal_convolution(*shape, a_r, b_r),
            "advanced": anti_causal_convolution(*shape, a_a, b_a),
            "lesser": correlation_product(*shape, [(a_r, b_lesser), (a_lesser, b_a)]),
            "greater": correlation_product(*shape, [(a_r, b_greater), (a_greater, b_a)]),
        }

    return conclude(refusal, lent, work)


# ---- Run file and program `transient` ---------------------------------------------------------

HEAD = 40


def body_counts(points, orbitals):
    return [points] + [function_length(points, orbitals)] * 3


def contents(points, orbitals):
    """The contents table of a well-formed file: rows of byte offset and count."""
    rows, offset = [], HEAD
    for count in body_counts(points, orbitals):
        rows.append((offset, count))
        offset += 8 * count
    return rows


def run_file(points, orbitals, times, free, self_energy, lesser_self_energy):
    head = struct.pack("<II", points, orbitals)
    rows = b"".join(struct.pack("<II", *row) for row in contents(points, orbitals))
    bodies = [times, free, self_energy, lesser_self_energy]
    return head + rows + b"".join(struct.pack("<d", number) for body in bodies for number in body)


def line_15(data, points, orbitals):
    rows = contents(points, orbitals)
    length = rows[-1][0] + 8 * rows[-1][1]
    table_rows = [struct.unpack_from("<II", data, 8 + 8 * row) for row in range(4)]
    if table_rows != rows or len(data) != length:
        return Refusal(15)


def file_lines(data):
    """15 for the length of 40, then 1 and 2, then 15 for the rest."""
    if len(data) < HEAD:
        return Refusal(15)
    points, orbitals = struct.unpack_from("<II", data)
    if points < 2 or orbitals < 1:
        return Refusal(1)
    if points * orbitals > 16:
        return Refusal(2)
    return line_15(data, points, orbitals)


def body(data, offset, count):
    return list(struct.unpack_from("<%dd" % count, data, offset))


def time_line(points, orbitals, lesser, time):
    answer = particle_number(points, orbitals, lesser, time, DEFAULT_TOLERANCE)
    if isinstance(answer, Refusal):
        return "%d refused %d" % (time, answer.number)
    return "%d number %s" % (time, hex_of(answer))


def program_transient(data):
    """Standard input's bytes to standard output's bytes; every line ends with a line feed."""
    refusal = file_lines(data)
    if refusal:
        return b"refused %d\n" % refusal.number
    points, orbitals = struct.unpack_from("<II", data)
    bodies = [body(data, *row) for row in contents(points, orbitals)]
    slices = [[0.0] * function_length(points, orbitals)] * 4
    outcome = transient_run(points, orbitals, *bodies, DEFAULT_TOLERANCE, *slices)
    if isinstance(outcome.answer, Refusal):
        return b"refused %d\n" % outcome.answer.number
    lines = ["run %d %d" % (points, orbitals)]
    lines += [time_line(points, orbitals, outcome.lent["lesser"], t) for t in range(points)]
    return "".join(line + "\n" for line in lines).encode("ascii")
