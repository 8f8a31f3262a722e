"""Refusals of the run and the observables in a capacity and of the append: each question alone, two and three in a row, sizes and
lengths at their limits, and what lines 4 to 9 ask of the points and not of room. appends.py has the calls that are accepted and 10."""

import itertools

from document01 import ACCEPTED, LARGEST, Refusal, function_length, place
from document02 import places
from replay_calls import solves
from replay_calls.answers import line, refusal
from replay_calls.appends import (
    IN_CAPACITY, QUESTIONS_IN_CAPACITY, any_before, answered, append, in_capacity, laid_before, laid_out, p12, run, with_room,
)
from replay_calls.calls import (
    APPEND, DENSITY, EXPECTATION, FLOW, HUGE, INFINITY, MOST, NAN, NOT_FINITE, NUMBER, RUN, RUN_IN, SMALLEST, beside, by_place, held,
    other_length,
)
from replay_calls.limits import good
from replay_calls.observables import density, expectation, flow, number

OBSERVABLES = (DENSITY, NUMBER, EXPECTATION, FLOW)
BASE = {there: function for function, there in IN_CAPACITY.items()} | {APPEND: RUN}


# ---- The order of the questions ------------------------------------------------


def good_in(function, points, wrong):
    """A call in a capacity of one more than its points, with the new one, that answers the questions `wrong` about its values by no and
    all others by yes. Its room is not finite."""
    base, capacity = good(BASE[function], points, wrong), points + 1
    if base.function != RUN:
        rooms = [NAN] * function_length(capacity, base.orbitals)
        lesser = laid_out(base.slices[0], points, capacity, base.orbitals, rooms)
        return in_capacity(base._replace(slices=[lesser, *base.slices[1:]]), capacity)
    times, *operands = base.slices[:4]
    inputs = with_room(points, capacity, base.orbitals, times, operands)
    if function == RUN_IN:
        return run(points, capacity, base.orbitals, *inputs, any_before(capacity, base.orbitals), base.tolerance)
    return append(points - 1, capacity, base.orbitals, *inputs, laid_before(points - 1, capacity), base.tolerance)


def faulty(function, wrong, by_capacity=False):
    """A call that answers the questions `wrong` by no; the first of them refuses it. Line 2 is about the orbitals or the capacity."""
    call = good_in(function, 3 if {5, 6} <= set(wrong) else 2, wrong)
    capacity, *more = call.more
    told = function == APPEND
    slices = list(call.slices)
    if 7 in wrong:
        at = 0 if function not in (RUN_IN, APPEND) else 1
        slices[at] = [NAN, *slices[at][1:]]
    if 3 in wrong:
        slices = other_length(slices, 0 if function not in (RUN_IN, APPEND) else len(slices) - 1, -1)
    if 2 in wrong and by_capacity:
        capacity = 257
    points = 1 - told if 1 in wrong else capacity + 1 - told if 16 in wrong else call.points
    orbitals = 17 if 2 in wrong and not by_capacity else call.orbitals
    call = call._replace(points=points, orbitals=orbitals, slices=slices, more=(capacity, *more))
    found = refusal(line(0, call))
    assert found == wrong[0], (function, wrong, found)
    return call


def in_a_row():
    """Each question alone, two in a row, and three."""
    for function, questions in QUESTIONS_IN_CAPACITY.items():
        for many, at in itertools.product((1, 2, 3), range(len(questions))):
            wrong = questions[at : at + many]
            if len(wrong) == many:
                yield faulty(function, wrong)
                if 2 in wrong and function in (RUN_IN, APPEND, IN_CAPACITY[NUMBER]):
                    yield faulty(function, wrong, by_capacity=True)


# ---- Lines 1, 2, 3 and 16 ------------------------------------------------------


def refused(call, number_due):
    found = refusal(line(0, call))
    assert found == number_due, (found, number_due, call)
    return call


def of_length(function, points, capacity, orbitals, times, numbers):
    """A call whose times are so many, and whose functions all have so many numbers."""
    many = [0.5] * numbers
    if function in (RUN_IN, APPEND):
        make = run if function == RUN_IN else append
        return make(points, capacity, orbitals, [NAN] * times, [many] * 3, [many] * 4)
    calls = {
        DENSITY: density(points, orbitals, many, 0), NUMBER: number(points, orbitals, many, 0),
        EXPECTATION: expectation(points, orbitals, many, 0, [1.0], shape=(1, 1)), FLOW: flow(points, orbitals, many, 0),
    }
    return in_capacity(calls[BASE[function]], capacity)


def sizes():
    """Points (an append is told one less), a capacity and orbitals at their limits and beyond, with slices that are too short: line 1 asks
    the points, line 2 the capacity, and line 3 comes before 16."""
    shapes = [
        (0, 0, 1), (1, 4, 1), (1, 257, 17), (2, 4, 0), (2, 256, 16), (2, 257, 1), (2, 4, 17), (257, 256, 1), (257, 257, 1), (2, MOST, 1),
        (MOST, 4, 1), (MOST, HUGE, HUGE), (5, 4, 1), (2, 1, 1), (2, 0, 1),
    ]  # fmt: skip
    for function, (points, capacity, orbitals) in itertools.product((RUN_IN, APPEND, IN_CAPACITY[NUMBER]), shapes):
        told = max(points - (function == APPEND), 0)
        yield of_length(function, told, capacity, orbitals, 1, 1)
    # Counted with the new one, these points are 2^64.
    yield of_length(APPEND, MOST, 4, 1, 1, 1)


def full():
    """Line 16, with slices of their lengths: one point beyond the capacity, and far beyond; capacities of none and one too. Times and room
    are not asked."""
    beyond = [(2, 0), (MOST, 0), (2, 1), (MOST, 1), (3, 2), (5, 4), (6, 4), (257, 4), (HUGE, 4), (MOST, 4)]
    for function, (points, capacity) in itertools.product(QUESTIONS_IN_CAPACITY, beyond):
        told = points - (function == APPEND)
        yield refused(of_length(function, told, capacity, 1, capacity, function_length(capacity, 1)), 16)
    # With the new point these are 2^64 points, not none.
    for capacity in (0, 4):
        yield refused(of_length(APPEND, MOST, capacity, 1, capacity, function_length(capacity, 1)), 16)
    # Functions laid out for the points, in a capacity above and below.
    for function, capacity in itertools.product(QUESTIONS_IN_CAPACITY, (3, 5)):
        yield refused(of_length(function, 4 - (function == APPEND), capacity, 1, capacity, function_length(4, 1)), 3)
    # An append that fills the capacity, and the next one.
    for points, due in [(3, ACCEPTED), (4, Refusal(16))]:
        yield answered(append(points, 4, 1, *with_room(4, 4, 1, *p12(4)), [[0.5] * 32] * 4), due)
    # Line 1: an append onto no point, whose capacity is passed too, or is not.
    yield answered(append(0, 0, 1, [], [[]] * 3, [[]] * 4), Refusal(1))
    yield answered(append(0, 4, 1, *with_room(2, 4, 1, *p12(2)), [[0.5] * 32] * 4), Refusal(1))


def lengths():
    """Line 3: each slice one short and one long, laid out for the points alone, and times as many as the points."""
    inputs = with_room(3, 4, 1, *p12(3))
    for make, points in ((run, 3), (append, 2)):
        call = make(points, 4, 1, *inputs, laid_before(2, 4))
        for at, change in itertools.product(range(8), (-1, 1)):
            yield answered(call._replace(slices=other_length(call.slices, at, change)), Refusal(3))
        yield answered(call._replace(slices=[call.slices[0][:3], *call.slices[1:]]), Refusal(3))
        times, operands = p12(3)
        yield answered(make(points, 4, 1, [*times, 3.0], operands, [held(18)] * 4), Refusal(3))
    for function in OBSERVABLES:
        call = good_in(IN_CAPACITY[function], 2, ())
        for change in (-1, 1):
            yield refused(call._replace(slices=other_length(call.slices, 0, change)), 3)
        yield refused(call._replace(slices=[[1.0] * 8, *call.slices[1:]]), 3)


# ---- Lines 4 to 9 over the points ----------------------------------------------


def solved_in(times, free, self_energy, source, due, points=3, tolerance=0.5):
    """The run over the points and the append of the last of them, in a capacity of one more; they answer alike."""
    inputs = with_room(points, points + 1, 1, times, [free, self_energy, source])
    yield answered(run(points, points + 1, 1, *inputs, any_before(points + 1, 1), tolerance), due)
    yield answered(append(points - 1, points + 1, 1, *inputs, laid_before(points - 1, points + 1), tolerance), due)


def wrong_times():
    """Lines 4, 5 and 6 of old times and of the new one."""
    ones, source = solves.ones(3), [0.0, 1.0] * 9
    for times, due in [
        ([0.0, 1.0, NAN], Refusal(4)), ([0.0, 1.0, INFINITY], Refusal(4)), ([-INFINITY, 1.0, 1.0], Refusal(4)),
        ([0.0, 1.0, 1.0], Refusal(5, first=2)), ([0.0, 1.0, -1.0], Refusal(5, first=2)), ([0.0, 0.0, 1.0], Refusal(5, first=1)),
        ([0.0, -0.0, -1.0], Refusal(5, first=1)), ([-LARGEST, 0.0, LARGEST], Refusal(6)), ([-LARGEST, LARGEST, INFINITY], Refusal(4)),
    ]:  # fmt: skip
        yield from solved_in(times, ones, ones, source, due)
    # Over two points the weights are finite; over three, with the new one, the middle one's is not.
    inputs = with_room(3, 4, 1, [-LARGEST, 0.0, LARGEST], [[0.0] * 18] * 3)
    yield answered(run(2, 4, 1, *inputs, any_before(4, 1)))
    # Line 5 is asked before line 6, and both before line 7.
    yield from solved_in([-LARGEST, LARGEST, LARGEST], [NAN] * 18, ones, source, Refusal(5, first=2))
    yield from solved_in([-LARGEST, 0.0, LARGEST], [NAN] * 18, ones, source, Refusal(6))


def wrong_entries():
    """Line 7: operands in order, the lowest position in the lent slice, old entries and new ones; room between them is passed over."""
    ones, source = solves.ones(3), [0.0, 1.0] * 9
    for operand, (t, u) in itertools.product(range(3), [(0, 0), (0, 2), (1, 0), (2, 0), (2, 2)]):
        numbers = [list(ones), list(ones), list(source)]
        numbers[operand][place(3, 1, t, u, 0, 0) + (t + u) % 2] = NOT_FINITE[(3 * operand + t + u) % len(NOT_FINITE)]
        due = Refusal(7, operand=operand, first=place(4, 1, t, u, 0, 0) + (t + u) % 2)
        yield from solved_in([0.0, 1.0, 2.0], *numbers, due)
    # Two of them, and before lines 8 and 9.
    late, early = by_place(3, {(2, 1): NAN, (0, 1): 1.0}), by_place(3, {(0, 0): INFINITY})
    yield from solved_in([0.0, 1.0, 2.0], late, early, source, Refusal(7, first=place(4, 1, 2, 1, 0, 0)), tolerance=NAN)
    # Blocks of two orbitals.
    numbers = [1.0] * 18 * 4
    numbers[place(3, 2, 1, 2, 1, 0) + 1] = NAN
    inputs = with_room(3, 4, 2, [0.0, 1.0, 2.0], [[0.0] * 72, numbers, numbers])
    due = Refusal(7, operand=1, first=place(4, 2, 1, 2, 1, 0) + 1)
    yield answered(append(2, 4, 2, *inputs, any_before(4, 2)), due)
    # The observables' function, and a block after it.
    for t, u in places(3):
        lesser = laid_out(by_place(3, {(t, u): (1.0, NAN)}), 3, 4, 1, [INFINITY] * 32)
        yield refused(in_capacity(number(3, 1, lesser, 9, NAN), 4), 7)
        if t == u:
            for call in (density(3, 1, lesser, 9), expectation(3, 1, lesser, 9, [NAN, 0.0]), flow(3, 1, lesser, 9)):
                yield refused(in_capacity(call, 4), 7)
    lesser = laid_out([1.0] * 18, 3, 4, 1, [NAN] * 32)
    for block in ([NAN, 0.0], [0.0, INFINITY]):
        yield refused(in_capacity(expectation(3, 1, lesser, 9, block), 4), 7)


def wrong_tolerance():
    """Line 8, before line 9 and line 10."""
    large, source = by_place(3, {(0, 1): LARGEST, (0, 0): LARGEST, (2, 0): LARGEST}), [0.0] * 18
    for tolerance in (0.0, -0.0, -SMALLEST, *NOT_FINITE[:3]):
        yield from solved_in([0.0, 1.0, 2.0], large, large, source, Refusal(8), tolerance=tolerance)


def not_retarded():
    """Line 9: operand 0 before operand 1, by rows, old places and the new column; the scale is the largest norm over the points."""
    ones, source, count = solves.ones(3), [0.0, 1.0] * 9, [0.0, 1.0, 2.0]
    for values, first, second in [({(0, 1): 1.0}, 0, 1), ({(0, 2): 1.0}, 0, 2), ({(1, 2): 1.0}, 1, 2), ({(1, 2): 1.0, (0, 2): 1.0}, 0, 2)]:
        numbers = by_place(3, {(2, 1): 1.0} | values)
        for operand in (0, 1):
            operands = [numbers if operand == at else ones for at in (0, 1)]
            yield from solved_in(count, *operands, source, Refusal(9, operand=operand, first=first, second=second, part=1.0))
    both = by_place(3, {(1, 2): 1.0}), by_place(3, {(0, 1): 1.0})
    yield from solved_in(count, *both, source, Refusal(9, operand=0, first=1, second=2, part=1.0))
    # A residual beside the tolerance, whose scale is at the new point or at an old one.
    for at, tolerance in itertools.product([(2, 2), (1, 0)], beside(0.5)):
        numbers = by_place(3, {at: (-6.0, 8.0), (0, 2): (3.0, -4.0)})
        due = Refusal(9, operand=1, first=0, second=2, part=0.5) if tolerance < 0.5 else ACCEPTED
        yield from solved_in(count, ones, numbers, source, due, tolerance=tolerance)
    # A new point with a large norm lets old places pass that the run over the old points refuses.
    numbers = by_place(3, {(0, 0): 1.0, (0, 1): 1.0, (2, 2): 4.0})
    inputs = with_room(3, 4, 1, count, [numbers, ones, source])
    yield answered(run(2, 4, 1, *inputs, any_before(4, 1), 0.5), Refusal(9, first=0, second=1, part=1.0))
    yield from solved_in(count, numbers, ones, source, ACCEPTED)
    # Room is no scale: a number there that is larger, or infinite, changes nothing.
    for room in (LARGEST, INFINITY):
        inputs = with_room(3, 4, 1, count, [by_place(3, {(0, 0): 1.0, (0, 2): 1.0}), ones, source], room)
        yield answered(append(2, 4, 1, *inputs, laid_before(2, 4), 0.5), Refusal(9, first=0, second=2, part=1.0))


CASES = [in_a_row, sizes, full, lengths, wrong_times, wrong_entries, wrong_tolerance, not_retarded]
