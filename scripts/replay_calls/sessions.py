"""Calls of L3 and L13: the run in a capacity and the append at a desk of a session, whose accepted answers carry the count of products that
they formed.

How they stand in the list, beside what appends.py says of 36 and 37:

- 42 and 43, the run and the append in a session, stand as 36 and 37, with nine other words more after the capacity: the desk, then the
  session's eight counters before the call, desk 0's first, whole numbers as the points are.
- Their lines are those of 36 and 37 with words more, in decimal as places are: an accepted answer has the count that it carries, and after
  any answer, accepted or refused, stand the eight counters after the call. The four slices come last:

      INDEX accepted COUNT COUNTER0 .. COUNTER7 NUMBERS..
      INDEX refused NUMBER OPERAND FIRST SECOND PART COUNTER0 .. COUNTER7 NUMBERS..
"""

import itertools
import random

from bits import same_bits
from document01 import ACCEPTED, LARGEST, Refusal, function_length
from document02 import DESKS, Formed, formula
from replay_calls import appends, capacities, solves
from replay_calls.answers import BOOKED, OUTCOME
from replay_calls.appends import QUESTIONS_IN_CAPACITY, any_before, append, history, laid_before, p12, random_history, run, with_room
from replay_calls.calls import (
    APPEND, APPEND_BOOKED, GRIDS, HUGE, INFINITY, MOST, NAN, RUN, RUN_BOOKED, RUN_IN, by_place, held, other_length, some,
)
from replay_calls.capacities import good_in, of_length

IN_SESSION = {RUN_IN: RUN_BOOKED, APPEND: APPEND_BOOKED}
PLAIN = {there: function for function, there in IN_SESSION.items()}
# Their questions: 22 comes first, 17 after 9.
QUESTIONS_IN_SESSION = {there: (22, *QUESTIONS_IN_CAPACITY[function][:-1], 17, 10) for function, there in IN_SESSION.items()}
# The least count that a call can carry: of the run over two points, and of the append onto one.
LEAST = 11
NOTHING = [0] * DESKS


def at_desk(call, desk, counters):
    """A run or an append in a capacity, at a desk of a session that has these counters."""
    return call._replace(function=IN_SESSION[call.function], more=(*call.more, desk, *counters))


def counters_beside(desk, counter):
    """The desk's counter, and others of which the next ones to it are full and the next but one have room."""
    return [counter if at == desk else MOST if (at - desk) % 2 else 100 + at for at in range(DESKS)]


def in_session(call, counter=0, desk=0):
    """The call at a desk that has so much on its counter."""
    return at_desk(call, desk, counters_beside(desk, counter))


def outside(call):
    """The call without its session."""
    return call._replace(function=PLAIN[call.function], more=call.more[:1])


def count_of(call):
    """The products of the call by the formula; those of an append are what the run over all points has more."""
    if call.function in (RUN_IN, RUN_BOOKED):
        return formula(call.points)
    return formula(call.points + 1) - formula(call.points)


def booked(call):
    """The answer, the slices and the counters after."""
    outcome, session = BOOKED[call.function](call)
    return outcome.answer, list(outcome.lent.values()), list(session.counters)


def agree(left, right):
    return all(len(a) == len(b) and all(map(same_bits, a, b)) for a, b in zip(left, right))


def accepted(call):
    """A call that is accepted: it carries its count, which its desk's counter and no other moves by, and leaves what it leaves outside of a
    session."""
    answer, slices, counters = booked(call)
    _, desk, *before = call.more
    due = [counter + count_of(call) if at == desk else counter for at, counter in enumerate(before)]
    assert answer == Formed(count_of(call)) and counters == due, (answer, counters, call)
    assert agree(slices, OUTCOME[PLAIN[call.function]](outside(call)).lent.values()), call
    return call


def refused(call, number):
    """A call that is refused by this number: the counters stay, and the slices too, but for 10."""
    answer, slices, counters = booked(call)
    assert isinstance(answer, Refusal) and answer.number == number, (answer, number, call)
    assert counters == list(call.more[2:]), (counters, call)
    due = OUTCOME[PLAIN[call.function]](outside(call)).lent.values() if number == 10 else call.slices[4:]
    assert agree(slices, due), call
    return call


def after(call):
    """The counters after the call."""
    return booked(call)[2]


def left(call):
    return booked(call)[1]


# ---- Counts --------------------------------------------------------------------


def lend(points, capacity):
    """P12's times and operands to so many points."""
    return with_room(points, capacity, 1, *p12(points))


def p12_run(points, capacity):
    return run(points, capacity, 1, *lend(points, capacity), any_before(capacity, 1))


def p12_append(points, capacity):
    """Onto numbers of no run."""
    return append(points, capacity, 1, *lend(points + 1, capacity), laid_before(points, capacity))


def bench():
    """P12, whose run over three points carries 41: from nothing, and up to the counter's end. One more is 17 with every slice as it was."""
    yield accepted(at_desk(p12_run(3, 4), 0, NOTHING))
    last = accepted(in_session(p12_run(3, 4), MOST - 41, 5))
    assert after(last) == counters_beside(5, MOST)
    yield last
    slices = left(last)
    for call in (run(3, 4, 1, *lend(3, 4), slices), run(2, 4, 1, *lend(2, 4), slices), append(3, 4, 1, *lend(4, 4), slices)):
        yield refused(in_session(call, MOST, 5), 17)
    yield refused(in_session(p12_run(3, 4), MOST - 40, 5), 17)
    yield accepted(at_desk(p12_append(1, 3), 7, NOTHING))


def counts():
    """The points count, not the capacity, nor the orbitals: runs over 2 to 6 points and 12, appends onto 1 to 5 and 11."""
    for points in range(2, 7):
        yield accepted(in_session(p12_run(points, points), 1000 * points, points))
    for points in range(1, 6):
        yield accepted(in_session(p12_append(points, points + 1), 1000 * points, points))
    for capacity in (2, 4, 6):
        yield accepted(in_session(p12_run(2, capacity)))
        yield accepted(in_session(p12_append(1, capacity)))
    times = GRIDS["quarters"](12)
    inputs = times, [solves.retarded(12, 1, some("plain", 288, random.Random(81 + index))) for index in range(3)]
    yield accepted(in_session(run(12, 12, 1, *inputs, [[0.5] * 288] * 4), desk=1))
    yield accepted(in_session(append(11, 12, 1, *inputs, [[0.5] * 288] * 4), desk=7))
    for orbitals in (2, 3, 4):
        count = function_length(2, orbitals)
        free = solves.retarded(2, orbitals, some("whole", count, random.Random(84)))
        lent = free, free, some("whole", count, random.Random(85))
        yield accepted(in_session(run(2, 2, orbitals, [0.0, 0.5], lent, any_before(2, orbitals)), desk=orbitals))
        yield accepted(in_session(append(1, 2, orbitals, [0.0, 0.5], lent, [[0.25] * count] * 4), desk=7 - orbitals))


def any_numbers():
    """Whatever the numbers are: zeros, steps that halve to 0, products on one point that would overflow and are not formed."""
    rng = random.Random(86)
    zeros = [[0.0] * 18] * 3
    for grid in ("count", "smallest steps"):
        yield accepted(in_session(run(3, 3, 1, GRIDS[grid](3), zeros, [[-0.0] * 18] * 4), rng.getrandbits(63)))
        yield accepted(in_session(append(2, 3, 1, GRIDS[grid](3), zeros, [[-0.0] * 18] * 4), rng.getrandbits(63)))
    for at in range(2):
        operands = [by_place(2, {(at, at): LARGEST}), by_place(2, {(at, at): 2.0}), [0.0] * 8]
        yield accepted(in_session(run(2, 2, 1, [0.0, 1.0], operands, any_before(2, 1)), rng.getrandbits(63)))
    operands = [by_place(2, {(1, 1): LARGEST}), by_place(2, {(1, 1): 2.0}), by_place(2, {(1, 0): LARGEST})]
    yield accepted(in_session(append(1, 2, 1, [0.0, 1.0], operands, [[0.0] * 8] * 4), rng.getrandbits(63)))
    for kind in ("wide", "subnormal", "edges"):
        lent = [solves.retarded(2, 1, some("plain", 8, rng)) for _ in range(3)]
        yield alike(append(1, 2, 1, [0.0, 1.0], lent, [some(kind, 8, rng) for _ in range(4)]), rng.getrandbits(63))


def alike(call, counter):
    """The call in a session that has room: accepted or refused as outside of it."""
    answer = OUTCOME[call.function](call).answer
    asked = in_session(call, counter)
    return accepted(asked) if answer == ACCEPTED else refused(asked, answer.number)


# ---- A desk's counter ----------------------------------------------------------


def counters():
    """At its ends; beside the last one with room; where a narrower word, a signed one or a binary64 number would end."""
    desks = itertools.cycle(range(DESKS))
    for call in (p12_run(2, 2), p12_run(3, 3), p12_append(1, 2), p12_append(2, 3)):
        count = count_of(call)
        for counter in (0, 1, 2**32 - 1, 2**53, HUGE - 1, HUGE, MOST - count - 1, MOST - count):
            yield accepted(in_session(call, counter, next(desks)))
        for counter in (MOST - count + 1, MOST - 1, MOST):
            yield refused(in_session(call, counter, next(desks)), 17)


def drawn():
    """Drawn counters, of any size and near the end."""
    rng = random.Random(87)
    for index in range(12):
        call = (p12_run(2, 3), p12_append(1, 3), p12_run(3, 3), p12_append(2, 3))[index % 4]
        near = index % 8 >= 4
        totals = [MOST - rng.randrange(2 * count_of(call)) if near else rng.getrandbits(64) for _ in range(DESKS)]
        desk = rng.randrange(DESKS)
        room = totals[desk] + count_of(call) <= MOST
        yield accepted(at_desk(call, desk, totals)) if room else refused(at_desk(call, desk, totals), 17)


# ---- Desks ---------------------------------------------------------------------


def every_desk():
    """Each desk full with the others at nothing, and the other way round."""
    for desk in range(DESKS):
        full = [MOST if at == desk else 0 for at in range(DESKS)]
        free = [MOST - counter for counter in full]
        yield refused(at_desk(p12_run(2, 2), desk, full), 17)
        yield accepted(at_desk(p12_append(1, 2), desk, free))
    # Desk 3 is full, and a run at 4 is accepted.
    yield accepted(at_desk(p12_run(3, 3), 4, [0, 0, 0, MOST, 0, 0, 0, 0]))


def no_desk():
    """22: desks from 8 on, and those of which a narrower word, or the last bits, would be a desk; every counter has room."""
    for desk in (8, 9, 15, 16, 255, 256, 263, 2**32, 2**32 + 3, HUGE, MOST - 7, MOST):
        yield refused(at_desk(p12_run(2, 2), desk, NOTHING), 22)
    for desk in (8, 2**32, MOST):
        yield refused(at_desk(p12_append(1, 2), desk, NOTHING), 22)
    # With no point at all, and with every counter full.
    for function, desk in itertools.product(IN_SESSION, (8, MOST)):
        yield refused(at_desk(of_length(function, 0, 0, 0, 0, 0), desk, NOTHING), 22)
        yield refused(at_desk(of_length(function, 0, 4, 1, 4, 32), desk, [MOST] * DESKS), 22)


def from_zero():
    """Runs over three points at 0 and 7: 41, 0, .., 41. Then calls at other desks, refused ones between: the eight sum to the accepted."""
    now, total = NOTHING, 0
    for call, desk, number in [
        (p12_run(3, 3), 0, None), (p12_run(3, 3), 7, None), (p12_run(3, 3), 8, 22), (p12_append(1, 2), 7, None), (p12_run(2, 2), 3, None),
        (p12_run(2, 2)._replace(tolerance=NAN), 3, 8), (p12_append(2, 3), 3, None), (p12_append(2, 3)._replace(points=3), 6, 16),
        (p12_run(4, 4), 6, None),
    ]:  # fmt: skip
        asked = at_desk(call, desk, now)
        yield accepted(asked) if number is None else refused(asked, number)
        now, total = after(asked), total + (count_of(call) if number is None else 0)
        assert sum(now) == total
    assert now == [41, 0, 0, 41, 0, 0, 98, 52], now


# ---- Histories -----------------------------------------------------------------


def over_all_points(last, before):
    """The run over all points with the inputs of an append, begun on other slices."""
    return last._replace(function=RUN_IN, points=last.points + 1, slices=[*last.slices[:4], *before])


def carried(calls, totals, desks):
    """A history in a session opened at the totals, its calls at these desks in turn: a run and its appends count like the run over all
    points, which comes last, at the first of them."""
    now = totals
    for call, desk in zip(calls, itertools.cycle(desks)):
        asked = accepted(at_desk(call, desk, now))
        now = after(asked)
        yield asked
    whole = accepted(at_desk(over_all_points(call, any_before(call.more[0], call.orbitals)), desks[0], totals))
    assert sum(after(whole)) == sum(now) == sum(totals) + formula(call.points + 1)
    yield whole


def histories():
    """From nothing, from drawn totals, and from the one at which the last append fills the counter; at one desk, or the appends at others
    than the run."""
    rng = random.Random(88)
    yield from carried(history(2, 4, 1, *p12(4)), NOTHING, [0])
    yield from carried(history(2, 4, 1, *p12(4)), NOTHING, [2, 5])
    yield from carried(random_history(2, 5, 5, 1, "plain", "uneven", rng), [rng.getrandbits(62) for _ in range(DESKS)], [7, 0, 1])
    yield from carried(random_history(2, 4, 5, 1, "signs", "quarters", rng), counters_beside(4, MOST - formula(4)), [4])
    yield from carried(random_history(2, 3, 3, 2, "whole", "count", rng), counters_beside(6, HUGE - formula(2)), [6])


def filled_on_the_way():
    """A desk that has room for the run and the first append alone: there the next one is 17, and what was made stays; at another desk it is
    accepted."""
    calls = list(history(2, 4, 1, *p12(4)))
    totals = now = counters_beside(1, MOST - formula(4) + 1)
    for call in calls[:2]:
        asked = accepted(at_desk(call, 1, now))
        now = after(asked)
        yield asked
    yield refused(at_desk(calls[2], 1, now), 17)
    yield accepted(at_desk(calls[2], 3, now))
    yield refused(at_desk(over_all_points(calls[2], any_before(4, 1)), 1, totals), 17)
    # An append onto fewer points may still have room.
    yield accepted(at_desk(p12_append(1, 3), 1, now))


def refused_between():
    """A run over two points, appends of a third that are refused by every number but 17, and the one that is accepted: 41."""
    first = accepted(at_desk(p12_run(2, 4), 2, NOTHING))
    yield first
    now, slices = after(first), left(first)
    times, operands = lend(3, 4)
    free, self_energy, source = operands
    good = append(2, 4, 1, times, operands, slices)
    changed = lambda numbers, at, x: [*numbers[:at], x, *numbers[at + 1 :]]
    lent = lambda **other: append(2, 4, 1, other.get("times", times), [other.get("free", free), self_energy, source], slices)
    yield refused(at_desk(good, 8, now), 22)
    for number, call in [
        (1, good._replace(points=0)), (2, good._replace(more=(257,))), (3, good._replace(slices=other_length(good.slices, 7, 1))),
        (16, good._replace(points=4)), (4, lent(times=changed(times, 2, INFINITY))), (5, lent(times=changed(times, 2, 1.0))),
        (6, lent(times=[-LARGEST, 0.0, LARGEST, NAN])), (7, lent(free=changed(free, 16, NAN))), (8, good._replace(tolerance=0.0)),
        (9, lent(free=changed(free, 4, 1.0))),
    ]:  # fmt: skip
        yield refused(at_desk(call, 2, now), number)
    overflown = refused(at_desk(lent(free=changed(free, 16, LARGEST)), 2, now), 10)
    yield overflown
    # The new row and column are +0 now.
    last = accepted(at_desk(append(2, 4, 1, times, operands, left(overflown)), 2, now))
    assert after(last) == [0, 0, 41, 0, 0, 0, 0, 0]
    yield last


# ---- The order of the questions ------------------------------------------------


def faulty(function, wrong, desk):
    """A call that answers the questions `wrong` by no; the first of them refuses it. Without 17 among them its desk has room for the run over
    three points, and no more; with it there is room for one product less than any call forms. With 22 among them its desk is 8 more."""
    rest = tuple(question for question in wrong if question not in (22, 17))
    call = capacities.faulty(function, rest) if rest else good_in(function, 2, ())
    totals = counters_beside(desk, MOST - LEAST + 1 if 17 in wrong else MOST - formula(3))
    return refused(at_desk(call, desk + (8 if 22 in wrong else 0), totals), wrong[0])


def in_a_row():
    """Each question alone, two in a row, and three."""
    desks = itertools.cycle(range(DESKS))
    for function, there in IN_SESSION.items():
        questions = QUESTIONS_IN_SESSION[there]
        for many, at in itertools.product((1, 2, 3), range(len(questions))):
            if at + many <= len(questions):
                yield faulty(function, questions[at : at + many], next(desks))


def before_all():
    """22 before every other question; those that are in a row with it stand above."""
    for function, number in itertools.product(IN_SESSION, (2, 3, 16, 4, 5, 6, 7, 8, 9, 17, 10)):
        yield faulty(function, (22, number), number % DESKS)


def before_17():
    """Every question before 9 at a desk without room; sizes far beyond their limits too."""
    for function, number in itertools.product(IN_SESSION, (1, 2, 3, 16, 4, 5, 6, 7, 8)):
        yield faulty(function, (number, 17), number % DESKS)
    for points, number in [(257, 16), (MOST, 16), (HUGE, 16)]:
        for function in IN_SESSION:
            yield refused(in_session(of_length(function, points, 4, 1, 4, 32), MOST), number)
    yield refused(in_session(of_length(RUN_IN, MOST, HUGE, HUGE, 1, 1), MOST), 2)
    yield refused(in_session(of_length(APPEND, MOST, MOST, 0, 1, 1), MOST), 1)


def overflowing_run(made, calls):
    """The first run of solves.py that overflows at `made`, in a capacity of one more than its points."""
    runs = [call for call in calls if call.function == RUN]
    call = next(call for call in runs if solves.stage(call.points, call.orbitals, *call.slices[:4]) == made)
    times, *operands = call.slices[:4]
    capacity = call.points + 1
    inputs = with_room(call.points, capacity, call.orbitals, times, operands)
    return run(call.points, capacity, call.orbitals, *inputs, any_before(capacity, call.orbitals))


def overflowing_append(made, calls):
    """The first append of appends.py that overflows at `made`."""
    return next(call for call in calls if call.function == APPEND and appends.stage(call) == made)


def overflows():
    """In K, G, X and the lesser function: with room 10, which adds nothing; at a counter that is one product short 17, before any product."""
    for desk, (made, runs, more) in enumerate([
        ("K", solves.by_kernel, appends.by_kernel), ("G", solves.by_green, appends.by_green), ("X", solves.by_sums, appends.by_sums),
        ("lesser", solves.by_lesser, appends.by_lesser),
    ]):  # fmt: skip
        for call in (overflowing_run(made, runs()), overflowing_append(made, more())):
            yield refused(in_session(call, MOST - count_of(call), desk), 10)
            yield refused(in_session(call, MOST - count_of(call) + 1, desk), 17)


def not_finite():
    """Old entries that are not finite: one that is read gives 10, or 17 where the desk has no room; one that is not read is accepted."""
    for name, values in [("retarded", {(0, 0): NAN}), ("sums", {(0, 0): -INFINITY})]:
        call = append(1, 2, 1, *lend(2, 2), laid_before(1, 2, **{name: values}))
        yield refused(in_session(call, 5, 6), 10)
        yield refused(in_session(call, MOST - LEAST + 1, 6), 17)
    call = append(1, 2, 1, *lend(2, 2), [[0.5] * 8, [NAN] * 8, [NAN] * 8, [0.5] * 8])
    yield accepted(in_session(call, MOST - LEAST, 6))
    yield refused(in_session(run(2, 2, 1, *lend(2, 2), [held(8)] * 4), MOST - LEAST + 1, 6), 17)


CASES = [
    bench, counts, any_numbers, counters, drawn, every_desk, no_desk, from_zero, histories, filled_on_the_way, refused_between, in_a_row,
    before_all, before_17, overflows, not_finite,
]
