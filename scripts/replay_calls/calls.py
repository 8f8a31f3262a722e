"""A call of the program replay: its words, and numbers to make calls of. answers.py has what it answers by the reference."""

import itertools
import math
import random
from typing import NamedTuple

from bits import from_bits, to_bits
from document01 import LARGEST, SMALLEST_NORMAL, Block, function_length, place

NAN = math.nan
INFINITY = math.inf
SMALLEST = 5e-324
# Half the distance from the largest number to the next power of two.
HALF_STEP = 2.0**970
HUGE = 2**63
MOST = 2**64 - 1
# NaNs of other bits: with a sign, quiet and signalling, least and largest.
NANS = [from_bits(bits) for bits in (0xFFF8 << 48, 0x7FF0 << 48 | 1, 0xFFF0 << 48 | 1, 2**63 - 1, 2**64 - 1)]
NOT_FINITE = [NAN, INFINITY, -INFINITY, *NANS]
WRONG_TOLERANCES = [0.0, -0.0, -0.5, -SMALLEST, -LARGEST, *NOT_FINITE]

# The functions by their numbers in the list.
NAMES = [
    "time_convolution", "causal_volterra_convolution", "check_retarded_support", "retarded_dyson_with_tolerance",
    "retarded_dyson", "transient_run", "density_matrix", "particle_number", "one_body_expectation", "bond_flow_into",
    "consistency_report", "is_consistent", "langreth_product", "norm", "from_numbers", "identity", "adjoint", "scale",
    "multiply", "add", "subtract", "trace", "get", "max_difference", "is_hermitian", "full_weights", "checked_interval_weight",
    "identity_times", "adjoint_plus_is_hermitian", "from_scalar", "zero", "check_times", "check_grid", "half_step", "full_weight",
    "interval_weight", "transient_run_in_capacity", "append_point", "density_matrix_in_capacity", "particle_number_in_capacity",
    "one_body_expectation_in_capacity", "bond_flow_into_in_capacity", "transient_run_in_session", "append_point_in_session",
    "occupied_run", "occupied_append", "bond_flows_into",
]
FULL, CAUSAL, SUPPORT, DYSON, DYSON_DEFAULT, RUN, DENSITY, NUMBER, EXPECTATION, FLOW = range(10)
REPORT, CONSISTENT, LANGRETH, NORM, FROM_NUMBERS, IDENTITY, ADJOINT, SCALE = range(10, 18)
MULTIPLY, ADD, SUBTRACT, TRACE, GET, DIFFERENCE, HERMITIAN, WEIGHTS, INTERVAL = range(18, 27)
# Two compositions: the identity times a block, and whether the sum of a block and its adjoint is Hermitian.
IDENTITY_TIMES, ADJOINT_PLUS = range(27, 29)
FROM_SCALAR, ZERO_OF, CHECK_TIMES, TIME_LINES, HALF, FULL_WEIGHT, TRAPEZOID = range(29, 36)
# Slices laid out for a capacity of points: appends.py says how these stand in the list.
RUN_IN, APPEND, DENSITY_IN, NUMBER_IN, EXPECTATION_IN, FLOW_IN = range(36, 42)
# The run and the append in a session: sessions.py says how these stand in the list.
RUN_BOOKED, APPEND_BOOKED = range(42, 44)
# Those that start occupied: occupied.py says how these stand in the list.
RUN_OCCUPIED, APPEND_OCCUPIED = range(44, 46)
# A list of bond flows: flows.py says how it stands in the list.
FLOWS = 46
# The questions of each function by their numbers, in their order; those of a report are followed by that of its decision.
OF_FUNCTIONS = (1, 2, 3, 4, 5, 6, 7)
OF_PAIRS = (1, 2, 3, 7)
QUESTIONS = {
    FULL: (*OF_FUNCTIONS, 10), CAUSAL: (*OF_FUNCTIONS, 10), SUPPORT: (1, 2, 3, 7, 8, 9), DYSON: (*OF_FUNCTIONS, 8, 9, 10),
    DYSON_DEFAULT: (*OF_FUNCTIONS, 9, 10), RUN: (*OF_FUNCTIONS, 8, 9, 10), DENSITY: (1, 2, 3, 7, 11),
    NUMBER: (1, 2, 3, 7, 8, 11, 10, 14), EXPECTATION: (1, 2, 3, 7, 8, 11, 10, 14), FLOW: (1, 2, 3, 7, 13, 12, 11),
    REPORT: (1, 2, 3, 7, 10, 8), CONSISTENT: (8,), LANGRETH: (*OF_FUNCTIONS, 10), NORM: (), FROM_NUMBERS: (1, 2, 3, 7),
    IDENTITY: (1, 2), ADJOINT: (1, 2, 7), SCALE: (1, 2, 7, 10), MULTIPLY: (*OF_PAIRS, 10), ADD: (*OF_PAIRS, 10),
    SUBTRACT: (*OF_PAIRS, 10), TRACE: (*OF_PAIRS, 10), GET: (1, 2, 7, 12), DIFFERENCE: OF_PAIRS, HERMITIAN: (1, 2, 7, 8),
    WEIGHTS: (1, 2, 3, 4, 5, 6), INTERVAL: (1, 2, 3, 4, 5, 6, 11), IDENTITY_TIMES: OF_PAIRS, ADJOINT_PLUS: (1, 8),
    FROM_SCALAR: (7,), ZERO_OF: (1, 2), CHECK_TIMES: (1, 2, 3, 4, 5, 6), TIME_LINES: (4, 5, 6), HALF: (), FULL_WEIGHT: (),
    TRAPEZOID: (),
}
# How many slices a function is lent to be written. The list has their lengths, for functions of times and operands always four.
OUTPUTS = {FULL: 1, CAUSAL: 1, DYSON: 2, DYSON_DEFAULT: 2, RUN: 4, LANGRETH: 4, WEIGHTS: 1}
# The functions that have times.
TIMED = (
    FULL, CAUSAL, DYSON, DYSON_DEFAULT, RUN, LANGRETH, WEIGHTS, INTERVAL, CHECK_TIMES, TIME_LINES, HALF, FULL_WEIGHT, TRAPEZOID,
    RUN_IN, APPEND, RUN_BOOKED, APPEND_BOOKED, RUN_OCCUPIED, APPEND_OCCUPIED,
)
# Function k at a size that is too large to be stored has the number MADE + k: its numbers are made from a seed.
MADE = 64
# How many numbers a slice of the list has at most, and a block.
MOST_STORED = 1024
MOST_IN_BLOCK = 512


class Whole(list):
    """A slice of whole numbers: they stand in the list as words, not by the bits of a binary64."""


class Call(NamedTuple):
    """A call by the function's number. `slices` are the times, if the function has them, its operands (a block by its shape and the
    numbers that are stored) and its outputs, of which only the length counts; `more` and `last` are other words, before and after
    the shapes of blocks. A Langreth product has the times between left and right, and its outputs' lengths in `last`. The numbers of
    a made call come from the first word of `more`, its seed."""

    function: int
    points: int
    orbitals: int
    tolerance: float
    slices: list = []
    more: tuple = ()
    last: tuple = ()


def outputs(call):
    """The lengths of the outputs."""
    count = OUTPUTS.get(call.function % MADE, 0)
    if call.function >= MADE:
        return (function_length(call.points, call.orbitals),) * count
    if call.function == LANGRETH:
        return call.last
    return tuple(map(len, call.slices[len(call.slices) - count :]))


def inputs(call):
    """The slices as they stand in the list: the times, empty where the function has none, then the operands."""
    if call.function == LANGRETH:
        return [call.slices[4], *call.slices[:4], *call.slices[5:]]
    operands = call.slices[: len(call.slices) - OUTPUTS.get(call.function, 0)]
    return operands if call.function in TIMED or not operands else [[], *operands]


def other_words(call):
    """The words after the slices."""
    function = call.function % MADE
    if function in OUTPUTS:
        lengths = outputs(call)
        return lengths if function == WEIGHTS else (*lengths, *[0] * (4 - len(lengths)))
    if function == CONSISTENT:
        return tuple(map(to_bits, call.slices[0]))
    shapes = [side for x in call.slices if isinstance(x, Block) for side in (x.rows, x.columns)]
    more = call.more if call.function < MADE else call.more[1:]
    return (*more, *shapes, *call.last)


def words(call, most=MOST_STORED):
    """The call as it stands in the list: its head, how many slices follow or the seed of those that are made, the slices, other words."""
    lent = [] if call.function == CONSISTENT or call.function >= MADE else inputs(call)
    begun = call.more[0] if call.function >= MADE else len(lent)
    rows = [[call.function, call.points, call.orbitals, to_bits(call.tolerance), begun]]
    for numbers in lent:
        numbers = numbers.numbers if isinstance(numbers, Block) else numbers
        assert len(numbers) <= most
        rows.append([len(numbers), *(numbers if isinstance(numbers, Whole) else map(to_bits, numbers))])
    rows.append(other_words(call))
    return "".join(" ".join(format(word, "016x") for word in row) + "\n" for row in rows if row)


# ---- Numbers, times and functions ----------------------------------------------


def wide(rng):
    return math.ldexp(rng.uniform(-1, 1), rng.randrange(-300, 300))


def subnormal(rng):
    return math.copysign(from_bits(rng.getrandbits(rng.randrange(1, 54))), rng.uniform(-1, 1))


EDGES = [0.0, -0.0, SMALLEST, -SMALLEST, SMALLEST_NORMAL, 1.0, -1.0, 1e-160, -1e-160, 1e150, math.nextafter(1.0, 2.0), 1 / 3]

KINDS = {
    "plain": lambda rng: rng.uniform(-1, 1),
    "whole": lambda rng: float(rng.randrange(-4, 5)),
    "signs": lambda rng: rng.choice([0.0, -0.0, 0.0, -0.0, 1.0, -1.0]),
    "zeros": lambda rng: rng.choice([0.0, -0.0]),
    "wide": wide,
    "subnormal": subnormal,
    "edges": lambda rng: rng.choice(EDGES),
}


def some(kind, count, rng):
    return [KINDS[kind](rng) for _ in range(count)]


def repeated(numbers, count):
    """The numbers again and again, so many in all."""
    return list(itertools.islice(itertools.cycle(numbers), count))


def held(count):
    """What an output holds before: nothing of it may stay."""
    return repeated([7.5, -0.0, NAN, -1.25, INFINITY], count)


def held_bytes(count):
    """What an output of bytes holds before."""
    return repeated([7, 0, 255], count)


def other_length(slices, at, change):
    """The slices, the one at `at` a number shorter or longer."""
    changed = slices[at][:-1] if change < 0 else slices[at] + [NAN]
    return [*slices[:at], changed, *slices[at + 1 :]]


def quarters(points):
    return [0.25 * index for index in range(points)]


def uneven(points):
    rng = random.Random(points)
    return list(itertools.accumulate([rng.uniform(-3, 3)] + [rng.uniform(0.01, 2) for _ in range(points - 1)]))


GRIDS = {
    "count": lambda points: [float(index) for index in range(points)],
    "quarters": quarters,
    "uneven": uneven,
    "below zero": lambda points: [-1000.0 + index / 3 for index in range(points)],
    "across": lambda points: [-0.0 if index == 1 else index - 1.0 for index in range(points)],
    # Half of the smallest number is 0.
    "smallest steps": lambda points: [SMALLEST * index for index in range(points)],
    "subnormal": lambda points: [SMALLEST * (3 * index * index - 7) for index in range(points)],
    "next numbers": lambda points: [from_bits(to_bits(1.0) + index) for index in range(points)],
    "long": lambda points: [LARGEST / points * (index - points / 2) for index in range(points)],
}


def with_entries(points, orbitals, entries, other=0.0):
    """A function that has these complex numbers at (t, u, a, b), and elsewhere `other`."""
    numbers = [other] * function_length(points, orbitals)
    for at, (re, im) in entries.items():
        begin = place(points, orbitals, *at)
        numbers[begin : begin + 2] = [re, im]
    return numbers


def by_place(points, values):
    """A function of one orbital: `values` has a real number, or a complex one, for a place (t, u)."""
    pairs = {(t, u, 0, 0): value if isinstance(value, tuple) else (value, 0.0) for (t, u), value in values.items()}
    return with_entries(points, 1, pairs)


def beside(x):
    return [math.nextafter(x, 0.0), x, math.nextafter(x, INFINITY)]
