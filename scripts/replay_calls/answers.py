"""What a call answers by the reference's plain reading of documents 01 and 02, as the program replay prints it."""

import functools

import document02
from bits import from_bits, to_bits
from document01 import (
    ACCEPTED, Block, Refusal, Report, add, adjoint, bond_flow_into, causal_volterra_convolution, consistency_report,
    density_matrix, entry, from_numbers, from_scalar, full_weights, function_length, grid_call_lines, grid_lines, half_step, identity,
    interval_weight, is_consistent, is_hermitian, langreth_product, line_8, max_difference, norm, one_body_expectation,
    particle_number, product, retarded_dyson, retarded_dyson_with_tolerance, retarded_support, scale, step_weight, subtract,
    time_convolution, trace, transient_run, weights_of, zero,
)
from replay_calls.calls import (
    ADD, ADJOINT, ADJOINT_PLUS, APPEND, APPEND_BOOKED, APPEND_OCCUPIED, CAUSAL, CHECK_TIMES, CONSISTENT, DENSITY, DENSITY_IN, DIFFERENCE,
    DYSON, DYSON_DEFAULT, EXPECTATION, EXPECTATION_IN, FLOW, FLOW_IN, FLOWS, FROM_NUMBERS, FROM_SCALAR, FULL, FULL_WEIGHT, GET, HALF, HERMITIAN,
    IDENTITY, IDENTITY_TIMES, INTERVAL, LANGRETH, MADE, MOST_IN_BLOCK, MOST_STORED, MULTIPLY, NAN, NORM, NUMBER, NUMBER_IN, REPORT,
    RUN, RUN_BOOKED, RUN_IN, RUN_OCCUPIED, SCALE, SUBTRACT, SUPPORT, TIME_LINES, TRACE, TRAPEZOID, WEIGHTS, ZERO_OF, held, held_bytes,
    inputs, outputs, repeated,
)

# What stands for an answer that is not worked out here.
LEFT_OUT = "?"

# ---- Answers as text -----------------------------------------------------------


def number(x):
    return "nan" if x != x else format(to_bits(x), "016x")


def answer(value):
    if value is ACCEPTED or value is None:
        return "accepted"
    if isinstance(value, document02.Formed):
        return f"accepted {value.products}"
    if isinstance(value, bool):
        return "yes" if value else "no"
    if isinstance(value, float):
        return number(value)
    if not isinstance(value, Refusal):
        return " ".join(map(number, value))
    if value.number == 14:
        return f"not-real {number(value.part)}"
    places = (value.number, value.operand, value.first, value.second)
    return f"refused {' '.join(map(str, places))} {number(value.part)}"


def with_slices(outcome):
    """An answer, then each output and scratch slice."""
    return [answer(outcome.answer), *(number(x) for numbers in outcome.lent.values() for x in numbers)]


def with_block(value, block):
    """An answer, then the block by its rows, its columns and its numbers up to the last one that is not +0."""
    numbers = list(map(number, block.numbers))
    while numbers and numbers[-1] == number(0.0):
        numbers.pop()
    return [answer(value), str(block.rows), str(block.columns), *numbers]


# ---- Calls that leave numbers in lent slices -----------------------------------


def lent(call):
    """What each output holds before the call."""
    return map(held, outputs(call))


def convolved(convolution):
    return lambda call: convolution(call.points, call.orbitals, *inputs(call), *lent(call))


def solved(call):
    return retarded_dyson_with_tolerance(call.points, call.orbitals, *inputs(call), call.tolerance, *lent(call))


def solved_by_default(call):
    return retarded_dyson(call.points, call.orbitals, *inputs(call), *lent(call))


def ran(call):
    return transient_run(call.points, call.orbitals, *inputs(call), call.tolerance, *lent(call))


def multiplied(call):
    times, *operands = inputs(call)
    return langreth_product(call.points, call.orbitals, times, operands[:4], operands[4:], *lent(call))


def weighed(call):
    return full_weights(call.points, *inputs(call), *lent(call))


def in_capacity(solve):
    """A run or an append, whose call has what the lent slices hold before."""
    return lambda call: solve(call.points, *call.more, call.orbitals, *call.slices[:4], call.tolerance, *call.slices[4:])


OUTCOME = {
    FULL: convolved(time_convolution), CAUSAL: convolved(causal_volterra_convolution), DYSON: solved,
    DYSON_DEFAULT: solved_by_default, RUN: ran, LANGRETH: multiplied, WEIGHTS: weighed,
    RUN_IN: in_capacity(document02.transient_run), APPEND: in_capacity(document02.append_point),
}

# ---- Runs and appends in a session ---------------------------------------------


def in_session(solve):
    """A run or an append at a desk, in a session that has these counters before: the outcome, and the session after. The four slices that it
    is lent come last; g0, if it has one, before them."""

    def booked(call):
        capacity, desk, *counters = call.more
        operands = [lent_block(x) if isinstance(x, Block) else x for x in call.slices[:-4]]
        told = (call.points, capacity, call.orbitals, *operands, call.tolerance, *call.slices[-4:])
        return solve(document02.opened(counters), desk, *told)

    return booked


BOOKED = {
    RUN_BOOKED: in_session(document02.run_in_session), APPEND_BOOKED: in_session(document02.append_in_session),
    RUN_OCCUPIED: in_session(document02.occupied_run_in_session), APPEND_OCCUPIED: in_session(document02.occupied_append_in_session),
}


def with_counters(outcome, session):
    """An answer, then the eight counters after the call, then each output and scratch slice."""
    text, *numbers = with_slices(outcome)
    return [text, *map(str, session.counters), *numbers]


# ---- Other calls ---------------------------------------------------------------


def supported(call):
    return [answer(retarded_support(call.points, call.orbitals, *call.slices, call.tolerance))]


def dense(call):
    return with_block(*density_matrix(call.points, call.orbitals, *call.slices, *call.more))


def counted(call):
    return [answer(particle_number(call.points, call.orbitals, *call.slices, *call.more, call.tolerance))]


def expected(call):
    lesser, numbers = call.slices
    time, rows, columns = call.more
    block = lent_block(Block(rows, columns, numbers))
    return [answer(one_body_expectation(call.points, call.orbitals, lesser, time, block, call.tolerance))]


def flowed(call):
    time, a, b, *factors = call.more
    re, im, charge = map(from_bits, factors)
    return [answer(bond_flow_into(call.points, call.orbitals, *call.slices, time, a, b, (re, im), charge))]


def dense_in(call):
    capacity, time = call.more
    return with_block(*document02.density_matrix(call.points, capacity, call.orbitals, *call.slices, time))


def counted_in(call):
    capacity, time = call.more
    return [answer(document02.particle_number(call.points, capacity, call.orbitals, *call.slices, time, call.tolerance))]


def expected_in(call):
    lesser, numbers = call.slices
    capacity, time, rows, columns = call.more
    block = lent_block(Block(rows, columns, numbers))
    return [answer(document02.one_body_expectation(call.points, capacity, call.orbitals, lesser, time, block, call.tolerance))]


def flowed_in(call):
    capacity, time, a, b, *factors = call.more
    re, im, charge = map(from_bits, factors)
    return [answer(document02.bond_flow_into(call.points, capacity, call.orbitals, *call.slices, time, a, b, (re, im), charge))]


def flows_of(call):
    """The outcome of a list of queries, whose slices are repeated up to their lengths."""
    lesser, *queries = call.slices
    *lengths, flows, refusals = call.last
    lists = map(repeated, queries, lengths)
    return document02.bond_flows_into(call.points, *call.more, call.orbitals, lesser, *lists, held(flows), held_bytes(refusals))


def all_flowed(call):
    outcome = flows_of(call)
    return [answer(outcome.answer), *map(number, outcome.lent["flows"]), *map(str, outcome.lent["refusals"])]


def reported(call):
    """The residuals, then the decision by the tolerance."""
    value = consistency_report(call.points, call.orbitals, *call.slices)
    if isinstance(value, Refusal):
        return [answer(value)]
    return [answer(value), answer(is_consistent(value, call.tolerance))]


def decided(call):
    return [answer(is_consistent(Report(*call.slices[0]), call.tolerance))]


def normed(call):
    return [answer(norm(tuple(map(from_bits, call.more))))]


def lent_block(block):
    """A block as it is lent: NaN past the numbers that are stored."""
    return block._replace(numbers=block.numbers + [NAN] * (MOST_IN_BLOCK - len(block.numbers)))


def made_block(operation):
    return lambda call: with_block(*operation(*map(lent_block, call.slices)))


def measured(operation):
    return lambda call: [answer(operation(*map(lent_block, call.slices), *call.last))]


def built(call):
    return with_block(*from_numbers(*call.more, *call.slices))


def one_on_diagonal(call):
    return with_block(*identity(*call.more))


def scaled(call):
    return with_block(*scale(lent_block(*call.slices), tuple(map(from_bits, call.last))))


def hermitian(call):
    return [answer(is_hermitian(lent_block(*call.slices), call.tolerance))]


def identity_times(call):
    _, unit = identity(*call.more)
    return with_block(*product(unit, lent_block(*call.slices)))


def adjoint_plus(call):
    block = lent_block(*call.slices)
    _, flipped = adjoint(block)
    _, both = add(flipped, block)
    return [answer(is_hermitian(both, call.tolerance))]


def one_number(call):
    return with_block(*from_scalar(tuple(map(from_bits, call.more))))


def zeros(call):
    return with_block(*zero(*call.more))


class Padded(list):
    """Numbers of which one past the end is a NaN."""

    def __getitem__(self, index):
        return super().__getitem__(index) if index < len(self) else NAN


def weighed_within(call):
    return [answer(interval_weight(call.points, *call.slices, *call.more))]


def times_checked(call):
    return [answer(grid_call_lines(call.points, *call.slices))]


def times_asked(call):
    """The times are as many as the points."""
    return [answer(grid_lines(*call.slices))]


def halved(call):
    times = Padded(*call.slices)
    return [answer(half_step(*(times[index] for index in call.more)))]


def weighed_at(call):
    return [answer(Padded(weights_of(*call.slices))[call.more[0]])]


def weighed_unasked(call):
    return [answer(step_weight(Padded(*call.slices), *call.more))]


ANSWER = {function: (lambda call, outcome=outcome: with_slices(outcome(call))) for function, outcome in OUTCOME.items()} | {
    function: (lambda call, booked=booked: with_counters(*booked(call))) for function, booked in BOOKED.items()
} | {
    SUPPORT: supported, DENSITY: dense, NUMBER: counted, EXPECTATION: expected, FLOW: flowed, REPORT: reported,
    CONSISTENT: decided, NORM: normed, FROM_NUMBERS: built, IDENTITY: one_on_diagonal, ADJOINT: made_block(adjoint),
    SCALE: scaled, MULTIPLY: made_block(product), ADD: made_block(add), SUBTRACT: made_block(subtract), TRACE: measured(trace),
    GET: measured(entry), DIFFERENCE: measured(max_difference), HERMITIAN: hermitian, INTERVAL: weighed_within,
    IDENTITY_TIMES: identity_times, ADJOINT_PLUS: adjoint_plus, FROM_SCALAR: one_number, ZERO_OF: zeros, CHECK_TIMES: times_checked,
    TIME_LINES: times_asked, HALF: halved, FULL_WEIGHT: weighed_at, TRAPEZOID: weighed_unasked, DENSITY_IN: dense_in,
    NUMBER_IN: counted_in, EXPECTATION_IN: expected_in, FLOW_IN: flowed_in, FLOWS: all_flowed,
}

# ---- Calls whose numbers are made ----------------------------------------------

WORD = 2**64 - 1


def next_state(state):
    state ^= state << 13 & WORD
    state ^= state >> 7
    return state ^ state << 17 & WORD


@functools.cache
def made(points, orbitals, seed):
    """The times, and the function that stands for every operand: +0 above the diagonal."""
    state = seed

    def draw():
        nonlocal state
        state = next_state(state)
        return from_bits(0x3FF << 52 | state >> 12) - 1.5

    times, time = [], 0.0
    for _ in range(points):
        time = time + (draw() * 0.1 + 0.15)
        times.append(time)
    block = 2 * orbitals * orbitals
    places = ((t, u) for t in range(points) for u in range(points))
    return times, [draw() if t >= u else 0.0 for t, u in places for _ in range(block)]


def digest(numbers):
    state = 0x9E37_79B9_7F4A_7C15
    for x in numbers:
        state = next_state(state ^ to_bits(x))
    return format(state, "016x")


# How many two-time operands a function has.
OPERANDS = {FULL: 2, CAUSAL: 2, SUPPORT: 1, DYSON: 2, DYSON_DEFAULT: 2, RUN: 3, DENSITY: 1, NUMBER: 1, FLOW: 1, REPORT: 4}


def with_made(call):
    """The call of function k whose numbers are made."""
    function = call.function - MADE
    seed, *more = call.more
    times, numbers = made(call.points, call.orbitals, seed)
    if function == LANGRETH:
        return call._replace(function=function, slices=[*[numbers] * 4, times, *[numbers] * 4], last=outputs(call))
    slices = [numbers] * (OPERANDS[function] + len(outputs(call)))
    return call._replace(function=function, slices=[times, *slices] if function in OUTCOME else slices, more=tuple(more))


def of_made(call):
    """What a call of 64 + k answers, a lent slice by its digest. Long sums over times are left out."""
    function = call.function - MADE
    if function not in OUTCOME:
        return ANSWER[function](with_made(call))
    refused = function in (DYSON, RUN) and line_8(call.tolerance)
    if function_length(call.points, call.orbitals) > MOST_STORED and not refused:
        return [LEFT_OUT]
    outcome = OUTCOME[function](with_made(call))
    return [answer(outcome.answer), *map(digest, outcome.lent.values())]


# ---- Lines ---------------------------------------------------------------------


def line(index, call):
    answers = ANSWER[call.function] if call.function < MADE else of_made
    return " ".join([str(index), *answers(call)])


def refusal(line):
    """The number by which a line refuses, or None; the report's decision may refuse after the residuals."""
    parts = line.split()
    if "refused" in parts:
        return int(parts[parts.index("refused") + 1])
    return 14 if "not-real" in parts else None
