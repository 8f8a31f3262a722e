"""Calls of L5: the run and the append that start from a block g0, the lesser function at (0, 0), at a desk of a session.

How they stand in the list, beside what sessions.py says of 42 and 43:

- 44 and 45, the run and the append of the occupied form, stand as 42 and 43, with g0 as blocks stand in other calls: its numbers are a slice,
  the fifth of nine, after the three functions and before the four lent slices; its rows and columns are the last two other words, after the
  counters. Past the numbers that are stored the block holds NaN, up to its 512.
- Their lines are those of 42 and 43.
"""

import itertools
import random

from document01 import LARGEST, Block, Refusal, add, adjoint, block_at, block_of, function_length, place, product, scale, step_weight
from document02 import DESKS, Formed, new_places, occupied_formula, places, written
from replay_calls import appends, capacities, sessions, solves
from replay_calls.answers import lent_block
from replay_calls.appends import any_before, append, in_capacity, laid_before, laid_out, p12, run, with_room
from replay_calls.calls import (
    APPEND, APPEND_BOOKED, APPEND_OCCUPIED, GRIDS, HUGE, INFINITY, KINDS, MOST, NAN, NOT_FINITE, RUN_BOOKED, RUN_IN, RUN_OCCUPIED, SMALLEST,
    by_place, held, other_length, some, with_entries,
)
from replay_calls.capacities import good_in, of_length
from replay_calls.observables import number
from replay_calls.sessions import NOTHING, QUESTIONS_IN_SESSION, agree, at_desk, booked, counters_beside, in_session, lend

OCCUPIED = {RUN_BOOKED: RUN_OCCUPIED, APPEND_BOOKED: APPEND_OCCUPIED}
EMPTY = {there: function for function, there in OCCUPIED.items()}
# Their questions are those of the empty form.
QUESTIONS_OCCUPIED = {there: QUESTIONS_IN_SESSION[function] for function, there in OCCUPIED.items()}
# The least count that a call can carry: that of the append onto one point.
LEAST = 17
# Of a session as sessions.py has it, the run over three points fits and no product more.
THREE = 59


def square(n, *values):
    """g0 of n by n complex numbers."""
    return Block(n, n, [part for value in values for part in value])


def one(re, im=0.0):
    return square(1, (re, im))


def some_g0(n, kind, rng):
    return Block(n, n, some(kind, 2 * n * n, rng))


def occupied(call, g0):
    """A run or an append at a desk, that starts from g0."""
    return call._replace(function=OCCUPIED[call.function], slices=[*call.slices[:4], g0, *call.slices[4:]])


def empty(call):
    """The call of the empty form."""
    return call._replace(function=EMPTY[call.function], slices=[*call.slices[:4], *call.slices[5:]])


def started(call, g0, counter=0, desk=0):
    """A run or an append in a capacity, at a desk that has so much on its counter, from g0."""
    return occupied(in_session(call, counter, desk), g0)


def count_of(call):
    if call.function == RUN_OCCUPIED:
        return occupied_formula(call.points)
    return occupied_formula(call.points + 1) - occupied_formula(call.points)


def made_places(call):
    return places(call.points) if call.function == RUN_OCCUPIED else new_places(call.points)


def lesser_due(call, retarded, sums):
    """The lesser function's blocks by calls on blocks, of what the call left in the retarded function and X."""
    capacity, n = call.more[0], call.orbitals
    times, g0 = call.slices[0], lent_block(call.slices[4])
    block = lambda numbers, t, u: block_of(n, n, block_at(numbers, capacity, n, t, u))
    value_of = lambda answered: answered[1]

    def value_at(t, u):
        value = value_of(product(value_of(product(block(retarded, t, 0), g0)), value_of(adjoint(block(retarded, u, 0)))))
        for s in range(t + 1 if t else 0):
            term = value_of(product(block(retarded, t, s), block(sums, s, u)))
            value = value_of(add(value, value_of(scale(term, (step_weight(times, s, 0, t), 0.0)))))
        return block_at(value.numbers, 1, n, 0, 0)

    return {at: value_at(*at) for at in made_places(call)}


def accepted(call):
    """A call that is accepted: it carries its count, which its desk's counter and no other moves by; K, the retarded function and X are those
    of the empty form, if that is accepted, and the lesser function is what calls on blocks make of them."""
    answer, slices, counters = booked(call)
    capacity, desk, *before = call.more
    due = [counter + count_of(call) if at == desk else counter for at, counter in enumerate(before)]
    assert answer == Formed(count_of(call)) and counters == due, (answer, counters, call)
    retarded, lesser, kernel, sums = slices
    assert agree([lesser], [written(call.slices[6], capacity, call.orbitals, lesser_due(call, retarded, sums))]), call
    other, (empty_retarded, _, empty_kernel, empty_sums), _ = booked(empty(call))
    assert other == Refusal(10) or agree([retarded, kernel, sums], [empty_retarded, empty_kernel, empty_sums]), call
    return call


def refused(call, number):
    """A call that is refused by this number: the counters stay, and the slices too, but for 10."""
    answer, slices, counters = booked(call)
    assert isinstance(answer, Refusal) and answer.number == number, (answer, number, call)
    assert counters == list(call.more[2:]), (counters, call)
    due = call.slices[5:]
    if number == 10:
        zeros = {at: [(0.0, 0.0)] * call.orbitals**2 for at in new_places(call.points)}
        clear = lambda x: [0.0] * len(x) if call.function == RUN_OCCUPIED else written(x, call.more[0], call.orbitals, zeros)
        due = list(map(clear, due))
    assert agree(slices, due), call
    return call


def refused_at(call, due):
    """A call that is refused with these places."""
    assert booked(call)[0] == due, (booked(call)[0], due)
    return refused(call, due.number)


def either(call):
    """Accepted, or refused by 10."""
    return refused(call, 10) if booked(call)[0] == Refusal(10) else accepted(call)


def p12_run(points, capacity):
    return run(points, capacity, 1, *lend(points, capacity), any_before(capacity, 1))


def p12_append(points, capacity):
    """Onto numbers of no run."""
    return append(points, capacity, 1, *lend(points + 1, capacity), laid_before(points, capacity))


def random_inputs(points, capacity, n, kind, grid, rng):
    length = function_length(points, n)
    operands = [solves.retarded(points, n, some(kind, length, rng)) for _ in range(2)] + [some(kind, length, rng)]
    return with_room(points, capacity, n, GRIDS[grid](points), operands)


# ---- Accepted calls ------------------------------------------------------------


def bench():
    """P12 with g0 = i: 59 products over three points, and the particle numbers 1, 3.8125 and 26.3125; up to the counter's end. Where the empty
    form is let through this one is 17."""
    i = one(0.0, 1.0)
    for capacity in (3, 4):
        call = accepted(occupied(at_desk(p12_run(3, capacity), 0, NOTHING), i))
        yield call
    lesser = booked(call)[1][1]
    assert [lesser[place(4, 1, t, t, 0, 0) + 1] for t in range(3)] == [1.0, 3.8125, 26.3125]
    yield from (in_capacity(number(3, 1, lesser, time), 4) for time in range(3))
    yield accepted(occupied(at_desk(p12_append(2, 4), 7, NOTHING), i))
    yield accepted(started(p12_run(3, 4), i, MOST - THREE, 5))
    yield refused(started(p12_run(3, 4), i, MOST - THREE + 1, 5), 17)
    assert sessions.accepted(in_session(p12_run(3, 4), MOST - 41, 5))
    for g0 in (i, one(0.0), one(-0.0, -0.0)):
        yield refused(started(p12_run(3, 4), g0, MOST - 41, 5), 17)
    # Other occupations, one of them above 1, and a g0 that is not i times a number.
    for g0 in (one(0.0, 0.25), one(0.0, -1.0), one(0.0, 2.5), one(1.0), one(-0.5, 0.125)):
        yield accepted(started(p12_run(3, 3), g0))


def counts():
    """2·N·N more of a run and 2·(2p + 1) of an append: of the points, not of the capacity nor of the orbitals."""
    for points in range(2, 6):
        yield accepted(started(p12_run(points, points), one(0.0, 0.5), 1000 * points, points))
    for points in range(1, 5):
        yield accepted(started(p12_append(points, points + 1), one(0.0, 0.5), 1000 * points, points))
    yield accepted(started(p12_run(2, 4), one(1.0), desk=4))
    yield accepted(started(p12_append(1, 4), one(1.0), desk=4))
    # Whatever the numbers are.
    nothing = [[0.0] * 18] * 3
    for grid in ("count", "smallest steps"):
        yield accepted(started(run(3, 3, 1, GRIDS[grid](3), nothing, [[-0.0] * 18] * 4), one(0.0)))
        yield accepted(started(append(2, 3, 1, GRIDS[grid](3), nothing, [[-0.0] * 18] * 4), one(-0.0, 0.0)))


def as_empty(call):
    """A call from a g0 of zeros, which answers and leaves what the empty form does."""
    answer, slices, _ = booked(call)
    due, empty_slices, _ = booked(empty(call))
    assert (isinstance(answer, Formed) and isinstance(due, Formed)) or answer == due, (answer, due)
    assert agree(slices, empty_slices), call
    return either(call)


def from_zeros():
    """g0 at +0, at -0 and of both: the bits of the empty form, onto any contents and where it overflows too."""
    rng = random.Random(91)
    for n, (re, im) in itertools.product((1, 2), itertools.product((0.0, -0.0), repeat=2)):
        g0 = square(n, *[(re, im), (im, re), (re, re), (0.0, im)][: n * n])
        yield as_empty(started(run(2, 2, n, *random_inputs(2, 2, n, "plain", "uneven", rng), any_before(2, n)), g0))
        contents = [some("signs", function_length(2, n), rng) for _ in range(4)]
        yield as_empty(started(append(1, 2, n, *random_inputs(2, 2, n, "signs", "count", rng), contents), g0))
    for zero, value in itertools.product((-0.0, 0.0), ((-1.0, 0.0), (0.0, -1.0), (-0.0, -0.0))):
        operand = by_place(3, {(t, u): value for t, u in places(3) if u <= t})
        yield as_empty(started(run(3, 3, 1, [0.0, 1.0, 2.0], [operand, operand, [*value] * 9], any_before(3, 1)), one(zero, zero)))
    for made, runs, more in [
        ("K", solves.by_kernel, appends.by_kernel), ("G", solves.by_green, appends.by_green), ("X", solves.by_sums, appends.by_sums),
        ("lesser", solves.by_lesser, appends.by_lesser),
    ]:  # fmt: skip
        for call in (sessions.overflowing_run(made, runs()), sessions.overflowing_append(made, more())):
            yield as_empty(refused(started(call, one(0.0)), 10))


def kinds():
    """g0 of every kind of numbers, runs and appends of one orbital and of two; of three and four."""
    rng = random.Random(92)
    for kind, n in itertools.product(KINDS, (1, 2)):
        points = 3 if n == 1 else 2
        inputs = random_inputs(points, points, n, "plain", "uneven", rng)
        yield either(started(run(points, points, n, *inputs, any_before(points, n)), some_g0(n, kind, rng)))
        contents = [some("plain", function_length(points, n), rng) for _ in range(4)]
        yield either(started(append(points - 1, points, n, *inputs, contents), some_g0(n, kind, rng)))
    for n, kind in ((3, "plain"), (4, "whole")):
        inputs = random_inputs(2, 2, n, kind, "quarters", rng)
        yield accepted(started(run(2, 2, n, *inputs, any_before(2, n)), some_g0(n, kind, rng), desk=n))
        contents = [some(kind, function_length(2, n), rng) for _ in range(4)]
        yield accepted(started(append(1, 2, n, *inputs, contents), some_g0(n, kind, rng), desk=7 - n))


def grids():
    rng = random.Random(93)
    for grid in GRIDS:
        kind = "subnormal" if grid == "long" else "plain"
        yield accepted(started(run(3, 3, 1, *random_inputs(3, 3, 1, kind, grid, rng), any_before(3, 1)), some_g0(1, "plain", rng)))


def entries_of_g0():
    """Each entry of g0 apart, of two orbitals, where G^R is no multiple of the identity: neither g0 nor a factor is turned or exchanged."""
    free = solves.retarded(2, 2, [float(index % 7 - 3) for index in range(32)])
    for a, b in itertools.product(range(2), repeat=2):
        g0 = square(2, *((1.0, 0.5) if at == (a, b) else (0.0, 0.0) for at in itertools.product(range(2), repeat=2)))
        yield accepted(started(run(2, 2, 2, [0.0, 1.0], [free, [0.0] * 32, [0.0] * 32], any_before(2, 2)), g0))
        yield accepted(started(append(1, 2, 2, [0.0, 1.0], [free, [0.0] * 32, [0.0] * 32], [free] * 4), g0))


def minus_i(points, n, below=(0.0, -1.0)):
    """-i times the identity on the diagonal of times, and `below` times it under that."""
    diagonal = lambda value: {(t, u, a, a): value if t > u else (0.0, -1.0) for t, u in places(points) if u <= t for a in range(n)}
    return with_entries(points, n, diagonal(below))


def at_start():
    """G^R(0, 0) is -i times the identity: G^<(0, 0) is g0 by value. A sign of 0 may change: of -0 comes +0."""
    rng = random.Random(94)
    for n, kind in itertools.product((1, 2, 3), ("plain", "edges")):
        operands = [minus_i(2, n, (0.0, -0.5)), minus_i(2, n, (0.25, 0.0)), some("plain", function_length(2, n), rng)]
        g0 = some_g0(n, kind, rng)
        call = accepted(started(run(2, 2, n, [0.0, 0.5], operands, any_before(2, n)), g0))
        assert booked(call)[1][1][: 2 * n * n] == g0.numbers
        yield call
    for re, im in itertools.product((0.0, -0.0, LARGEST, -SMALLEST), (-0.0, LARGEST)):
        call = accepted(started(run(2, 2, 1, [0.0, 1.0], [minus_i(2, 1), [0.0] * 8, [0.0] * 8], any_before(2, 1)), one(re, im)))
        assert booked(call)[1][1][:2] == [re, im]
        yield call


def isolated():
    """No self-energies and free = -i: the occupation stays, at every time, exactly; with an append too."""
    for n, rho in [(1, [1.0]), (1, [1 / 3]), (1, [SMALLEST]), (2, [0.5, 0.1, -0.1, 0.75])]:
        times, operands = [0.0, 0.1, 0.7], [minus_i(3, n), *[[0.0] * function_length(3, n)] * 2]
        inputs = with_room(3, 4, n, times, operands)
        g0 = square(n, *((0.0, x) for x in rho))
        call = accepted(started(run(2, 4, n, *with_room(2, 4, n, times, operands), any_before(4, n)), g0))
        yield call
        call = accepted(started(append(2, 4, n, *inputs, booked(call)[1]), g0))
        lesser = booked(call)[1][1]
        assert all(block_at(lesser, 4, n, *at) == [(0.0, x) for x in rho] for at in places(3))
        yield call
        yield from (in_capacity(number(3, n, lesser, time), 4) for time in range(3))


# ---- Histories -----------------------------------------------------------------


def over_all_points(last, before):
    """The run over all points with the inputs and g0 of an append, begun on other slices."""
    return last._replace(function=RUN_OCCUPIED, points=last.points + 1, slices=[*last.slices[:5], *before])


def history(first, count, capacity, n, times, operands, g0, totals, desks):
    """The run to the first points and the appends up to all with one g0, which leave and count what the run over all points does, the last."""
    now, slices = totals, any_before(capacity, n)
    for points, desk in zip(range(first, count + 1), itertools.cycle(desks)):
        make, told = (run, points) if points == first else (append, points - 1)
        call = make(told, capacity, n, *with_room(points, capacity, n, times, operands), slices)
        call = accepted(occupied(at_desk(call, desk, now), g0))
        _, slices, now = booked(call)
        yield call
    begun = over_all_points(call, any_before(capacity, n))
    whole = accepted(begun._replace(more=(capacity, desks[0], *totals)))
    _, due, after = booked(whole)
    assert agree(slices, due) and sum(after) == sum(now) == sum(totals) + occupied_formula(count)
    yield whole


def histories():
    rng = random.Random(95)
    yield from history(2, 4, 4, 1, *p12(4), one(0.0, 1.0), NOTHING, [0])
    yield from history(2, 4, 4, 1, *p12(4), one(-0.5, 0.25), counters_beside(4, MOST - occupied_formula(4)), [4])
    for first, count, capacity, n, kind, grid in [
        (2, 4, 4, 1, "plain", "uneven"), (3, 4, 5, 1, "signs", "quarters"), (2, 3, 3, 2, "whole", "count"), (2, 3, 3, 3, "plain", "uneven"),
        (2, 3, 4, 1, "subnormal", "long"), (2, 3, 4, 1, "plain", "smallest steps"),
    ]:  # fmt: skip
        length = function_length(count, n)
        operands = [solves.retarded(count, n, some(kind, length, rng)) for _ in range(2)] + [some(kind, length, rng)]
        totals = [rng.getrandbits(60) for _ in range(DESKS)]
        yield from history(first, count, capacity, n, GRIDS[grid](count), operands, some_g0(n, kind, rng), totals, [7, 0, 1])
    # An append of another g0, and of the empty form, onto what a run left: each is asked for itself.
    call = accepted(started(p12_run(2, 4), one(0.0, 1.0)))
    slices = booked(call)[1]
    yield accepted(started(append(2, 4, 1, *lend(3, 4), slices), one(0.0, -1.0)))
    yield sessions.accepted(in_session(append(2, 4, 1, *lend(3, 4), slices)))
    empty_run = sessions.accepted(in_session(p12_run(2, 4)))
    yield accepted(started(append(2, 4, 1, *lend(3, 4), sessions.left(empty_run)), one(0.0, 1.0)))


# ---- Appends onto any contents -------------------------------------------------


def any_contents():
    """Finite contents of every kind, onto one point and two."""
    rng = random.Random(96)
    for points, kind in itertools.product((1, 2), KINDS):
        count = points + 1
        contents = [some(kind, function_length(count, 1), rng) for _ in range(4)]
        yield either(started(append(points, count, 1, *random_inputs(count, count, 1, "plain", "uneven", rng), contents), one(0.25, -0.75)))


def not_finite():
    """An old entry that is not finite: of X, and of the retarded function on and below its diagonal, it is read and gives 10, or 17 where the
    desk has no room; any other is not read, and stays. The start reads G^R(t, 0) alone."""
    names = ("retarded", "lesser", "kernel", "sums")
    good = [[0.5] * 8] * 4
    for name, (t, u) in itertools.product(names, places(2)):
        bad = by_place(2, {at: (0.5, 0.5) for at in places(2)} | {(t, u): (0.5, (NAN, INFINITY)[(t + u) % 2])})
        functions = [bad if name == other else numbers for other, numbers in zip(names, good)]
        before = [laid_out(numbers, 2, 3, 1, held(18)) for numbers in functions]
        call = append(2, 3, 1, *lend(3, 3), before)
        if name == "sums" or name == "retarded" and t >= u:
            yield refused(started(call, one(0.0, 0.5)), 10)
            if t == 1:
                yield refused(started(call, one(0.0, 0.5), MOST - LEAST + 1), 17)
        else:
            yield accepted(started(call, one(0.0, 0.5)))
    # With g0 at 0 an old G^R(t, 0) that is infinite is read all the same: 0 times it is no number.
    for t in (0, 1):
        before = laid_before(2, 3, {at: (-INFINITY if at == (t, 0) else 1.0) for at in places(2)})
        yield refused(started(append(2, 3, 1, *lend(3, 3), before), one(0.0)), 10)


# ---- Overflow ------------------------------------------------------------------


def start_alone(n, free, g0, run_due, append_due, source=None):
    """The run over two points, and the append of the second, without self-energies, so that G^R is free; X is 0, but for `source`."""
    nothing = [0.0] * function_length(2, n)
    inputs = [0.0, 1.0], [free, nothing, source or nothing]
    call = started(run(2, 2, n, *inputs, any_before(2, n)), g0)
    assert isinstance(booked(empty(call))[0], Formed)
    yield refused(call, 10) if run_due else accepted(call)
    contents = [laid_out(free[: 2 * n * n], 1, 2, n, held(8 * n * n)), held(8 * n * n), held(8 * n * n), nothing]
    call = started(append(1, 2, n, *inputs, contents), g0)
    yield refused(call, 10) if append_due else accepted(call)


def overflows():
    """In the first product of a start and in the second, in row 0 and after; the least numbers that do, and one less. The empty form is accepted.
    That of (0, 0) alone is not formed again by an append."""
    root, above = 2.0**512, 1.0 + 2.0**-52
    below = root * (1.0 - 2.0**-53)
    yield from start_alone(1, by_place(2, {(0, 0): LARGEST}), one(2.0), True, True)
    yield from start_alone(1, by_place(2, {(0, 0): (0.0, root)}), one(0.0, root), True, True)
    yield from start_alone(1, by_place(2, {(1, 0): LARGEST}), one(0.0, 2.0), True, True)
    yield from start_alone(1, by_place(2, {(0, 0): 0.5, (1, 0): above}), one(LARGEST), True, True)
    yield from start_alone(1, by_place(2, {(0, 0): 0.5, (1, 0): 1.0}), one(LARGEST), False, False)
    yield from start_alone(1, by_place(2, {(0, 0): root}), one(1.0), True, False)
    yield from start_alone(1, by_place(2, {(0, 0): below}), one(1.0), False, False)
    yield from start_alone(1, by_place(2, {(1, 0): root}), one(0.0, -1.0), True, True)
    yield from start_alone(1, by_place(2, {(1, 0): below}), one(0.0, -1.0), False, False)
    yield from start_alone(1, by_place(2, {(0, 0): 4.0, (1, 0): 0.5 * LARGEST}), one(0.5), True, True)
    # Parts that meet in one number: the real part, or the imaginary one, is a difference or a sum of two.
    yield from start_alone(1, by_place(2, {(0, 0): (1.0, 1.0)}), one(LARGEST, LARGEST), True, True)
    yield from start_alone(1, by_place(2, {(0, 0): (1.0, 1.0)}), one(LARGEST, 0.0), True, False)
    yield from start_alone(1, by_place(2, {(0, 0): (1.0, 1.0)}), one(0.5 * LARGEST, 0.0), False, False)
    # Two orbitals: G^R(0, 0)·g0 overflows, and g0·G^A(0, 0) would be 0; of the turned g0 nothing overflows.
    corner, zero = with_entries(2, 2, {(0, 0, 0, 0): (LARGEST, 0.0)}), (0.0, 0.0)
    yield from start_alone(2, corner, square(2, zero, (2.0, 0.0), zero, zero), True, True)
    yield from start_alone(2, corner, square(2, zero, zero, (2.0, 0.0), zero), False, False)
    # A sum within a product that overflows and would come back, and one that does not overflow.
    row = with_entries(2, 3, {(0, 0, 0, k): (1.0, 0.0) for k in range(3)})
    for signs, due in [((1.0, 1.0, -1.0), True), ((1.0, -1.0, 1.0), False)]:
        column = [(sign * LARGEST, 0.0) if b == 0 else zero for sign in signs for b in range(3)]
        yield from start_alone(3, row, square(3, *column), due, due)


def with_terms():
    """The start and a term are finite and their sum is not; a start with which a sum is finite that overflows in the empty form. A term of row 0
    is not formed: G^R(0, 0)·X(0, 1) would overflow. And starts beside an overflow in K, G, X and the lesser function."""
    free, nothing = by_place(2, {(1, 0): 1.0, (1, 1): 1.0}), [0.0] * 8
    for start, source, due, empty_due in [
        (LARGEST, 0.5 * LARGEST, 10, None), (0.0, 0.5 * LARGEST, None, None), (-LARGEST, LARGEST, None, 10), (LARGEST, -LARGEST, None, 10),
    ]:  # fmt: skip
        inputs = [0.0, 2.0], [free, nothing, by_place(2, {(0, 1): source, (1, 1): source})]
        for call in (run(2, 2, 1, *inputs, any_before(2, 1)), append(1, 2, 1, *inputs, [[0.0] * 8] * 4)):
            call = started(call, one(start))
            answer, _, _ = booked(empty(call))
            assert isinstance(answer, Formed) if empty_due is None else answer == Refusal(empty_due)
            yield accepted(call) if due is None else refused(call, due)
    inputs = [0.0, 1.0], [by_place(2, {(0, 0): 1e200, (1, 1): 1.0}), nothing, by_place(2, {(0, 1): 1e200})]
    for call in (run(2, 2, 1, *inputs, any_before(2, 1)), append(1, 2, 1, *inputs, [by_place(2, {(0, 0): 1e200})] * 4)):
        yield accepted(started(call, one(0.0, 1e-300)))
    for desk, (made, runs, more) in enumerate([
        ("K", solves.by_kernel, appends.by_kernel), ("G", solves.by_green, appends.by_green), ("X", solves.by_sums, appends.by_sums),
        ("lesser", solves.by_lesser, appends.by_lesser),
    ]):  # fmt: skip
        for call in (sessions.overflowing_run(made, runs()), sessions.overflowing_append(made, more())):
            begun = started(call, one(0.0, 0.5), desk=desk)
            room = MOST - count_of(begun)
            yield refused(started(call, one(0.0, 0.5), room, desk), 10)
            yield refused(started(call, one(0.0, 0.5), room + 1, desk), 17)


# ---- Lines of g0 ---------------------------------------------------------------

NUMBERS = [0.5] * 8


def shapes():
    """Lines 1, 2 and 3 of the shape, each before the next one and before 16: rows or columns of 0 beside any others; above 16; not n by n."""
    for rows, columns, due in [
        (0, 1, 1), (1, 0, 1), (0, 0, 1), (0, 17, 1), (MOST, 0, 1), (17, 1, 2), (1, 17, 2), (17, 17, 2), (HUGE, HUGE, 2), (1, MOST, 2),
        (2, 2, 3), (1, 2, 3), (2, 1, 3), (16, 16, 3), (1, 16, 3),
    ]:  # fmt: skip
        g0 = Block(rows, columns, NUMBERS)
        # In a capacity that is passed, so that 16 would refuse next.
        yield refused(started(of_length(RUN_IN, 3, 2, 1, 2, 8), g0, MOST), due)
        yield refused(started(of_length(APPEND, 2, 2, 1, 2, 8), g0), due)
    # As many entries as n by n has, in another shape.
    for rows, columns in [(4, 1), (1, 4), (2, 1), (3, 3)]:
        yield refused(started(run(2, 2, 2, [0.0, 1.0], [[0.0] * 32] * 3, any_before(2, 2)), Block(rows, columns, [0.5] * 18)), 3)
    # Beside other sizes: line 1 of all before line 2 of any, line 2 of all before line 3 of any.
    for points, capacity, n, rows, columns, due in [
        (1, 4, 1, 17, 17, 1), (2, 257, 1, 0, 1, 1), (2, 4, 17, 1, 0, 1), (2, 4, 0, 17, 1, 1), (2, 4, 0, 0, 0, 1), (2, 4, 17, 17, 17, 2),
        (2, 257, 1, 2, 2, 2), (2, 4, 16, 16, 16, 3), (2, 256, 16, 16, 17, 2),
    ]:  # fmt: skip
        for function in (RUN_IN, APPEND):
            yield refused(started(of_length(function, points - (function == APPEND), capacity, n, 1, 1), Block(rows, columns, NUMBERS)), due)


def wrong_entries():
    """Line 7: operand 3, by a block's position, after the three functions and before line 8. What is past the entries is not read."""
    wild = itertools.cycle(NOT_FINITE)
    for n, make in itertools.product((1, 2), (run, append)):
        lent = any_before(2, n) if make is run else [[0.5] * function_length(2, n)] * 4
        for at in range(0 if n == 1 else make is append, 2 * n * n, n):
            g0 = Block(n, n, [next(wild) if index == at else LARGEST for index in range(2 * n * n)])
            call = make(2 - (make is append), 2, n, [0.0, 1.0], [[0.0] * function_length(2, n)] * 3, lent, (NAN, 0.5)[at // n % 2])
            yield refused_at(started(call, g0, MOST), Refusal(7, operand=3, first=at))
    good = run(2, 2, 2, [0.0, 1.0], [[0.0] * 32] * 3, any_before(2, 2))
    # The lowest of two, and of a block that has fewer numbers stored than entries.
    yield refused_at(started(good, Block(2, 2, [0.5, 0.5, 0.5, NAN, 0.5, -INFINITY, 0.5, 0.5])), Refusal(7, operand=3, first=3))
    for stored in (0, 5, 7):
        yield refused_at(started(good, Block(2, 2, [0.5] * stored)), Refusal(7, operand=3, first=stored))
    yield accepted(started(good, Block(2, 2, [0.5] * 8 + NOT_FINITE)))
    yield accepted(started(p12_run(2, 2), Block(1, 1, [0.5] * 2 + [INFINITY] * 510)))
    # After operands 0, 1 and 2.
    for operand in range(3):
        operands = [[NAN if index == 6 and operand == at else 0.0 for index in range(8)] for at in range(3)]
        yield refused_at(started(run(2, 2, 1, [0.0, 1.0], operands, any_before(2, 1)), one(NAN)), Refusal(7, operand=operand, first=6))


# ---- The order of the questions ------------------------------------------------


def g0_with(wrong):
    """g0 of one orbital that answers the questions `wrong` about it by no."""
    rows = 0 if 1 in wrong else 17 if 2 in wrong else 2 if 3 in wrong else 1
    columns = 17 if {1, 2} <= set(wrong) else 1
    return Block(rows, columns, [LARGEST if 10 in wrong else 0.5, INFINITY if 7 in wrong else 0.25])


def faulty(function, wrong, desk, by_g0=()):
    """A call that answers the questions `wrong` by no, those of `by_g0` by g0 alone; the first of them refuses it. Without 17 among them its desk has
    room for the run over three points, and no more; with it there is room for one product less than any call forms. With 22 its desk is 8 more."""
    rest = tuple(question for question in wrong if question not in (22, 17, *by_g0))
    call = capacities.faulty(function, rest) if rest else good_in(function, 2, ())
    totals = counters_beside(desk, MOST - LEAST + 1 if 17 in wrong else MOST - THREE)
    return refused(occupied(at_desk(call, desk + (8 if 22 in wrong else 0), totals), g0_with(by_g0)), wrong[0])


def in_a_row():
    """Each question alone, and two in a row."""
    desks = itertools.cycle(range(DESKS))
    for function, questions in zip((RUN_IN, APPEND), QUESTIONS_OCCUPIED.values()):
        for many, at in itertools.product((1, 2), range(len(questions))):
            if at + many <= len(questions):
                yield faulty(function, questions[at : at + many], next(desks))


def by_g0():
    """The questions that g0 is asked, no by it alone, and beside the question before and the one after."""
    desks = itertools.cycle(range(DESKS))
    for function, (wrong, of_g0) in itertools.product((RUN_IN, APPEND), [
        ((1,), (1,)), ((22, 1), (1,)), ((1, 2), (1,)), ((1, 2), (2,)), ((1, 2), (1, 2)), ((2,), (2,)), ((2, 3), (2,)), ((2, 3), (3,)), ((3,), (3,)),
        ((3, 16), (3,)), ((7,), (7,)), ((16, 7), (7,)), ((6, 7), (7,)), ((7, 8), (7,)), ((7, 17), (7,)), ((10,), (10,)), ((9, 10), (10,)),
        ((17, 10), (10,)),
    ]):  # fmt: skip
        yield faulty(function, wrong, next(desks), of_g0)


def lengths():
    """Line 3: each of the other slices one short and one long, beside a g0 that fits and one that does not."""
    call = p12_run(3, 4)
    for at, change, g0 in zip(range(8), itertools.cycle((-1, 1)), itertools.cycle((one(0.5), Block(2, 2, NUMBERS)))):
        yield refused(started(call._replace(slices=other_length(call.slices, at, change)), g0), 3)


# ---- Desks and counters --------------------------------------------------------


def counters():
    """At their ends and beside the last one with room, by the count of this form."""
    desks = itertools.cycle(range(DESKS))
    for call in (p12_run(2, 2), p12_run(3, 3), p12_append(1, 2), p12_append(2, 3)):
        count = count_of(started(call, one(0.5)))
        for counter in (HUGE, MOST - count):
            yield accepted(started(call, one(0.0, 0.5), counter, next(desks)))
        for counter in (MOST - count + 1, MOST - sessions.count_of(call), MOST):
            yield refused(started(call, one(0.0, 0.5), counter, next(desks)), 17)
    for desk in (8, 255, 256, 2**32, MOST - 7, MOST):
        yield refused(occupied(at_desk(p12_run(2, 2), desk, NOTHING), one(0.5)), 22)
    yield refused(occupied(at_desk(p12_append(1, 2), 8, [MOST] * DESKS), Block(0, 0, [])), 22)


def limits():
    """The most orbitals that a slice of the list holds, and a capacity that leaves much room."""
    rng = random.Random(97)
    inputs = [0.0, 0.5], [solves.retarded(2, 11, some("whole", 968, rng)) for _ in range(2)] + [some("whole", 968, rng)]
    yield accepted(started(append(1, 2, 11, *inputs, [some("whole", 968, rng) for _ in range(4)]), some_g0(11, "whole", rng)))
    yield accepted(started(p12_run(2, 10), one(0.0, 0.75), desk=7))


CASES = [
    bench, counts, from_zeros, kinds, grids, entries_of_g0, at_start, isolated, histories, any_contents, not_finite, overflows, with_terms, shapes,
    wrong_entries, in_a_row, by_g0, lengths, counters, limits,
]
