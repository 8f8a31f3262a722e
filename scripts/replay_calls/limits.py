"""Limits and the order of the questions, alike for all calls on two-time functions: N and n at their limits, slices one short
and one long, each refusal alone, and two or three questions in a row whose answers are no at once."""

import itertools

from document01 import LARGEST
from replay_calls.answers import line, refusal
from replay_calls.calls import (
    CAUSAL, DENSITY, DYSON, DYSON_DEFAULT, EXPECTATION, FLOW, FULL, INFINITY, LANGRETH, MOST, NAN, NUMBER, QUESTIONS, REPORT, RUN,
    SUPPORT, by_place, other_length,
)
from replay_calls.convolutions import convolution, support
from replay_calls.observables import density, expectation, flow, number
from replay_calls.products import product
from replay_calls.reports import report
from replay_calls.solves import call as solve

# The functions on two-time functions.
ALL = (FULL, CAUSAL, SUPPORT, DYSON, DYSON_DEFAULT, RUN, DENSITY, NUMBER, EXPECTATION, FLOW, REPORT, LANGRETH)
# Functions whose first slice is the times.
TIMES_FIRST = (FULL, CAUSAL, DYSON, DYSON_DEFAULT, RUN)


def times_of(points, wrong):
    """Times at which the questions `wrong` are answered by no."""
    times = [float(index) for index in range(points)]
    if 6 in wrong:
        times[0], times[-1] = -LARGEST, LARGEST
    if 5 in wrong:
        times[1] = times[0]
    if 4 in wrong:
        times[-1] = INFINITY
    return times


def operand(points, wrong):
    """A retarded function: 1 on the diagonal and below it, or the largest number where products shall overflow (10); as much
    above the diagonal where it shall not be retarded (9)."""
    value = LARGEST if 10 in wrong else 1.0
    places = [(t, u) for t in range(points) for u in range(t + 1)] + ([(0, 1)] if 9 in wrong else [])
    return by_place(points, {at: value for at in places})


def good(function, points, wrong):
    """A call of one orbital, or of two, that answers the questions `wrong` about its values by no, and all others by yes."""
    times, numbers = times_of(points, wrong), operand(points, wrong)
    tolerance = 0.0 if 8 in wrong else 0.5
    if function in (FULL, CAUSAL):
        return convolution(function, times, numbers, numbers)
    if function == SUPPORT:
        return support(numbers, tolerance, points)
    if function in (DYSON, DYSON_DEFAULT, RUN):
        return solve(function, times, numbers, numbers, tolerance=tolerance)
    if function == LANGRETH:
        return product(times, [numbers] * 4, [numbers] * 4)
    if function == REPORT:
        return report([numbers, [-x for x in numbers], numbers, numbers], points, 1, tolerance)
    lesser = [1.0 if 14 in wrong else 0.0, 1e200 if 10 in wrong else 1.0] * points**2
    time = points if 11 in wrong else points - 1
    if function == DENSITY:
        return density(points, 1, lesser, time)
    if function == NUMBER and 10 in wrong:
        # Two orbitals, of which the sum overflows.
        return number(points, 2, [1.0 if 14 in wrong else 0.0, LARGEST] * (2 * points) ** 2, time, tolerance)
    if function == NUMBER:
        return number(points, 1, lesser, time, tolerance)
    if function == EXPECTATION:
        return expectation(points, 1, lesser, time, [1e200 if 10 in wrong else 1.0, 0.0], tolerance)
    return flow(points, 1, lesser, time, 0, 1 if 12 in wrong else 0, charge=NAN if 13 in wrong else 1.0)


def faulty(function, wrong):
    """A call that answers the questions `wrong` by no; the first of them refuses it."""
    # Times that do not rise and whose weights are infinite are three.
    call = good(function, 3 if {5, 6} <= set(wrong) else 2, wrong)
    slices = list(call.slices)
    if 7 in wrong:
        at = 1 if function in TIMES_FIRST else 0
        slices[at] = [*slices[at][:-1], NAN]
    if 3 in wrong:
        slices = other_length(slices, 0 if function == EXPECTATION else len(slices) - 1, -1)
    call = call._replace(
        points=1 if 1 in wrong else call.points, orbitals=17 if 2 in wrong else call.orbitals, slices=slices
    )
    found = refusal(line(0, call))
    assert found == wrong[0], (function, wrong, found)
    return call


def in_a_row():
    """Each question alone, two in a row, and three."""
    for function in ALL:
        questions = QUESTIONS[function]
        for many, at in itertools.product((1, 2, 3), range(len(questions))):
            if at + many <= len(questions):
                yield faulty(function, questions[at : at + many])


def sizes():
    """N and n at their limits and one beyond, with slices that are too short: below the limits line 3 refuses."""
    shapes = [(points, 1) for points in (0, 1, 2, 256, 257, MOST)] + [(2, orbitals) for orbitals in (0, 16, 17, MOST)]
    shapes += [(256, 16), (256, 17), (257, 16), (257, 0), (1, 17)]
    for function, (points, orbitals) in itertools.product(ALL, shapes):
        call = good(function, 2, ())
        lent = {"last": (1, 0, 2, 1)} if function == LANGRETH else {}
        yield call._replace(points=points, orbitals=orbitals, slices=[numbers[:1] for numbers in call.slices], **lent)
    # A block of 16 and 17 rows, where the lesser function is too short.
    for shape in [(16, 16), (16, 17), (17, 16), (0, 16), (17, 0)]:
        yield expectation(2, 16, [1.0], 0, [1.0], 0.5, shape)


def lengths():
    """Line 3: each slice one short and one long."""
    for function in (SUPPORT, DYSON_DEFAULT, DENSITY, NUMBER, FLOW):
        call = good(function, 2, ())
        for at, change in itertools.product(range(len(call.slices)), (-1, 1)):
            yield call._replace(slices=other_length(call.slices, at, change))
    # Of a block its shape counts, not how many numbers are stored.
    call = good(EXPECTATION, 2, ())
    for change in (-1, 1):
        yield call._replace(slices=other_length(call.slices, 0, change))
        yield call._replace(slices=other_length(call.slices, 1, change))


CASES = [in_a_row, sizes, lengths]
