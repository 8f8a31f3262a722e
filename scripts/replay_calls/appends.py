"""Calls of L1: the run in a capacity, the append of a time point, and observables of what they leave. capacities.py has their refusals.

How they stand in the list, beside what crates/replay/CALLS.md says:

- 36 and 37, the run in a capacity and the append, have eight slices: the times, the three operands, then what retarded, lesser, kernel
  and sums (X) hold before the call, number by number, since an append reads and keeps them. One other word follows: the capacity. The
  points of the head are those that the call is told, of an append the points before it. The answer is printed with the four slices.
- 38 to 41, density, particle number, expectation and flow in a capacity, stand as 6 to 9, with the capacity before their other words.

No slice's length is told apart from its numbers, and no length follows from the capacity: line 3 asks both.
"""

import itertools
import random

from bits import same_bits
from document01 import ACCEPTED, DEFAULT_TOLERANCE, LARGEST, Overflow, Refusal, block_at, function_length
from document02 import new_kernel, new_lesser, new_retarded, new_sums, places, with_new, within, written
from replay_calls import solves
from replay_calls.answers import OUTCOME
from replay_calls.calls import (
    APPEND, DENSITY, DENSITY_IN, EXPECTATION, EXPECTATION_IN, FLOW, FLOW_IN, GRIDS, INFINITY, KINDS, NAN, NANS, NUMBER, NUMBER_IN,
    QUESTIONS, RUN, RUN_IN, SMALLEST, Call, by_place, held, some, with_entries,
)
from replay_calls.observables import expectation, flow, number, one_each

IN_CAPACITY = {RUN: RUN_IN, DENSITY: DENSITY_IN, NUMBER: NUMBER_IN, EXPECTATION: EXPECTATION_IN, FLOW: FLOW_IN}
# Their questions, as QUESTIONS of calls.py has those of the others: 16 comes after 3.
with_16 = lambda function: (*QUESTIONS[function][:3], 16, *QUESTIONS[function][3:])
QUESTIONS_IN_CAPACITY = {APPEND: with_16(RUN)} | {there: with_16(function) for function, there in IN_CAPACITY.items()}


def run(points, capacity, orbitals, times, operands, before, tolerance=DEFAULT_TOLERANCE):
    """`before` is what the four lent slices hold."""
    return Call(RUN_IN, points, orbitals, tolerance, [times, *operands, *before], (capacity,))


def append(points, capacity, orbitals, times, operands, before, tolerance=DEFAULT_TOLERANCE):
    """`points` are those before the append."""
    return Call(APPEND, points, orbitals, tolerance, [times, *operands, *before], (capacity,))


def in_capacity(call, capacity):
    """An observable's call, whose lesser function is laid out for the capacity."""
    return call._replace(function=IN_CAPACITY[call.function], more=(capacity, *call.more))


def laid_out(numbers, points, capacity, orbitals, room):
    """A function of so many points, laid out for the capacity; `room` has all numbers, of which those beyond the points stay."""
    return written(room, capacity, orbitals, {at: block_at(numbers, points, orbitals, *at) for at in places(points)})


def with_room(points, capacity, orbitals, times, operands, room=NAN):
    """The first points of times and operands as a call is lent them, with one number throughout their room."""
    rooms = [room] * function_length(capacity, orbitals)
    lay = lambda numbers: laid_out(within(numbers, points, len(times), orbitals), points, capacity, orbitals, rooms)
    return times[:points] + [room] * (capacity - points), [lay(numbers) for numbers in operands]


def any_before(capacity, orbitals):
    return [held(function_length(capacity, orbitals))] * 4


def left(call):
    """The answer of a run or an append, and its slices."""
    outcome = OUTCOME[call.function](call)
    return outcome.answer, list(outcome.lent.values())


def answered(call, due=ACCEPTED):
    found, _ = left(call)
    assert found == due, (found, due, call)
    return call


# ---- Histories -----------------------------------------------------------------


def history(first, capacity, orbitals, times, operands, room=NAN):
    """The run to the first points and the appends up to all, by which the slices come to those of the run over all points, in bits."""
    before = any_before(capacity, orbitals)
    lend = lambda points: with_room(points, capacity, orbitals, times, operands, room)
    call = answered(run(first, capacity, orbitals, *lend(first), before))
    yield call
    for points in range(first, len(times)):
        call = answered(append(points, capacity, orbitals, *lend(points + 1), left(call)[1]))
        yield call
    _, whole = left(run(len(times), capacity, orbitals, *lend(len(times)), before))
    assert all(same_bits(x, y) for pair in zip(whole, left(call)[1]) for x, y in zip(*pair))


def random_history(first, count, capacity, orbitals, kind, grid, rng, room=NAN):
    length = function_length(count, orbitals)
    free, self_energy = (solves.retarded(count, orbitals, some(kind, length, rng)) for _ in range(2))
    return history(first, capacity, orbitals, GRIDS[grid](count), [free, self_energy, some(kind, length, rng)], room)


def p12(points):
    return GRIDS["count"](points), [solves.ones(points), solves.ones(points), [0.0, 1.0] * points**2]


def bench():
    """P12 to two points in a capacity of four, two appends, the runs over all points in two capacities; its particle numbers on the way."""
    for call in history(2, 4, 1, *p12(4)):
        yield call
        points = call.points + (call.function == APPEND)
        lesser = left(call)[1][1]
        for time in range(points + 1):
            yield in_capacity(number(points, 1, lesser, time), 4)
    for capacity in (4, 5):
        yield answered(run(4, capacity, 1, *with_room(4, capacity, 1, *p12(4)), any_before(capacity, 1)))


def histories():
    """Kinds of numbers, grids and orbitals; appends up to the capacity and not."""
    rng = random.Random(71)
    for orbitals, first, count, capacity in [(1, 2, 5, 5), (1, 3, 5, 6), (2, 2, 4, 4), (2, 2, 3, 4), (3, 2, 3, 3), (4, 2, 3, 3)]:
        yield from random_history(first, count, capacity, orbitals, "plain", "uneven", rng)
    for kind, capacity in itertools.product(("whole", "signs", "zeros", "subnormal"), (3, 4)):
        yield from random_history(2, 3, capacity, 1, kind, "quarters", rng)
    for grid in GRIDS:
        yield from random_history(2, 3, 4, 1, "subnormal" if grid == "long" else "plain", grid, rng)
    yield from random_history(2, 3, 3, 2, "signs", "smallest steps", rng)


def rooms():
    """What stands in room is no entry: numbers of any kind, and points to come, of the inputs; of the others it stays."""
    rng = random.Random(72)
    for room in (INFINITY, -INFINITY, LARGEST, NANS[1], -0.0):
        yield from random_history(2, 3, 4, 1, "plain", "count", rng, room)
    times, operands = p12(4)
    for points in (1, 2):
        before = laid_before(points, 4)
        yield answered(append(points, 4, 1, *with_room(4, 4, 1, times, operands), before))
        # Nothing of the new row and column is read from where it will stand.
        for filled in (NAN, INFINITY, 3.0):
            full = [laid_out(within(numbers, points, 4, 1), points, 4, 1, [filled] * 32) for numbers in before]
            yield answered(append(points, 4, 1, *with_room(points + 1, 4, 1, times, operands, filled), full))


# ---- Appends onto any contents -------------------------------------------------


def laid_before(points, capacity, retarded=None, sums=None):
    """Old entries of one orbital: the retarded function and X by places, 1 and 2i throughout if none are given. K and the lesser
    function, and the retarded one above its diagonal, hold numbers that are not finite: they are not read."""
    every = places(points)
    retarded = {at: 1.0 for at in every} if retarded is None else retarded
    sums = {at: (0.0, 2.0) for at in every} if sums is None else sums
    above = {(t, u): (NAN, -INFINITY) for t, u in every if t < u}
    rooms = held(function_length(capacity, 1))
    lay = lambda values: laid_out(by_place(points, values), points, capacity, 1, rooms)
    return [lay(retarded | above), rooms, rooms, lay(sums)]


def numbers_of_no_run():
    """Finite contents of every kind, onto one point, two and three."""
    rng = random.Random(73)
    for (points, orbitals), kind in itertools.product([(1, 1), (1, 2), (2, 1), (3, 1)], KINDS):
        count = points + 1
        length = function_length(count, orbitals)
        inputs = GRIDS["uneven"](count), [solves.retarded(count, orbitals, some("plain", length, rng)) for _ in range(3)]
        capacity = count + (kind in ("plain", "wide"))
        before = [some(kind, function_length(capacity, orbitals), rng) for _ in range(4)]
        yield append(points, capacity, orbitals, *with_room(count, capacity, orbitals, *inputs), before)
    # Above the diagonal K and the retarded function get +0, where the inputs have -0, and large numbers that the tolerance lets pass.
    zeros = [-0.0] * 18
    upper = by_place(3, {(0, 2): LARGEST, (1, 2): (0.0, LARGEST), (2, 2): LARGEST})
    for numbers, before in [(zeros, laid_before(2, 3)), (zeros, laid_before(2, 3, {}, {})), (upper, laid_before(2, 3))]:
        inputs = GRIDS["count"](3), [numbers, numbers, zeros]
        yield answered(append(2, 3, 1, *with_room(3, 3, 1, *inputs), before, 1.0))


def not_finite():
    """An old entry that is not finite: of X, and of the retarded function on and below its diagonal, it is read and gives 10; any other
    is not read, and stays."""
    names = ("retarded", "lesser", "kernel", "sums")
    for points, orbitals, some_places in [(1, 1, places(1)), (2, 1, places(2)), (2, 2, [(1, 0), (0, 1)]), (3, 1, [(2, 1), (1, 2)])]:
        count, capacity = points + 1, points + 1 + (orbitals == 1)
        diagonal = {(t, t, a, a): (1.0, 0.0) for t in range(count) for a in range(orbitals)}
        inputs = GRIDS["count"](count), [with_entries(count, orbitals, diagonal)] * 3
        good = [[0.5] * function_length(points, orbitals)] * 4
        bads = [(NAN, 0.5), (0.5, -INFINITY)][: 2 if (points, orbitals) == (2, 1) else 1]
        for name, (t, u), bad in itertools.product(names, some_places, bads):
            function = with_entries(points, orbitals, {(t, u, 0, orbitals - 1): bad}, other=0.5)
            functions = [function if name == other else numbers for other, numbers in zip(names, good)]
            before = [laid_out(numbers, points, capacity, orbitals, held(function_length(capacity, orbitals))) for numbers in functions]
            call = append(points, capacity, orbitals, *with_room(count, capacity, orbitals, *inputs), before)
            yield answered(call, Refusal(10) if name == "sums" or name == "retarded" and t >= u else ACCEPTED)


# ---- Overflow ------------------------------------------------------------------


def stage(call):
    """The first of K, G, X and the lesser function whose new row or column overflows."""
    n, new = call.orbitals, call.points
    times, *functions = call.slices
    free, self_energy, source, retarded, _, _, sums = (lambda t, u, x=x: block_at(x, *call.more, n, t, u) for x in functions)
    made = "K"
    try:
        kernel = new_kernel(new, n, times, free, self_energy)
        made = "G"
        all_retarded = with_new(retarded, new_retarded(new, n, times, free, kernel, retarded))
        made = "X"
        all_sums = with_new(sums, new_sums(new, n, times, source, all_retarded))
        made = "lesser"
        new_lesser(new, n, times, all_retarded, all_sums)
    except Overflow:
        return made
    return "none"


def overflow(made, times, free, self_energy, source, retarded, sums):
    """An append of a third point that overflows at `made` and nowhere before; every function by its places."""
    inputs = times, [by_place(3, values) for values in (free, self_energy, source)]
    call = append(2, 4, 1, *with_room(3, 4, 1, *inputs), laid_before(2, 4, retarded, sums))
    assert stage(call) == made, (stage(call), made)
    return answered(call, ACCEPTED if made == "none" else Refusal(10))


COUNT, TWOS = [0.0, 1.0, 2.0], [0.0, 2.0, 4.0]
# The last step is 4; the last step, or the first one, halves to 0.
LONG, LAST_HALVED, FIRST_HALVED = [0.0, 1.0, 5.0], [-1.0, 0.0, SMALLEST], [0.0, SMALLEST, 8.0]


def by_kernel():
    """In a product, but not on the diagonal, where none is formed; in a scaling; in a sum; in a product whose step halves to 0."""
    for at, made in [(0, "K"), (1, "K"), (2, "none")]:
        yield overflow(made, COUNT, {(2, at): LARGEST}, {(at, at): 2.0}, {}, {}, {})
    yield overflow("K", LONG, {(2, 1): LARGEST}, {(1, 1): 1.0}, {}, {}, {})
    yield overflow("K", TWOS, {(2, 1): LARGEST, (2, 2): LARGEST}, {(1, 1): 1.0, (2, 1): 1.0}, {}, {}, {})
    yield overflow("K", LAST_HALVED, {(2, 1): LARGEST}, {(1, 1): 2.0}, {}, {}, {})
    # Products of old points are not formed again; in the run over all points they overflow, and its 10 clears room too.
    call = overflow("none", COUNT, {(1, 0): LARGEST}, {(0, 0): LARGEST}, {}, {(1, 1): 1.0}, {})
    yield call
    yield answered(call._replace(function=RUN_IN, points=3), Refusal(10))


def by_green():
    """K(2, s) is finite and meets an old G(s, u) that is large."""
    for s, u in [(0, 0), (1, 0), (1, 1)]:
        yield overflow("G", COUNT, {(2, 2): 1.0}, {(2, s): 4.0}, {}, {(s, u): LARGEST}, {})
    yield overflow("G", LONG, {(2, 2): 0.5}, {(2, 1): 1.0}, {}, {(1, 1): LARGEST}, {})
    yield overflow("G", TWOS, {(2, 1): LARGEST, (2, 2): 1.0}, {(2, 1): 1.0}, {}, {(1, 1): LARGEST}, {})
    yield overflow("G", FIRST_HALVED, {(2, 2): 1.0}, {(2, 0): 1.0}, {}, {(0, 0): LARGEST}, {})


def by_sums():
    """In the new row, by an old G^R(1, s), but not at X(2, 0), where no product is formed; in the new column, by G^R(2, s)."""
    for at, s, made in [(1, 0, "X"), (1, 1, "X"), (0, 0, "none")]:
        yield overflow(made, COUNT, {}, {}, {(2, s): LARGEST}, {(at, s): 2.0}, {})
    for t, s in itertools.product(range(3), (0, 2)):
        yield overflow("X", COUNT, {(2, s): 2.0}, {}, {(t, s): (0.0, LARGEST)}, {}, {})
    yield overflow("X", LONG, {(2, 2): 1.0}, {}, {(0, 2): LARGEST}, {}, {})
    yield overflow("X", TWOS, {(2, 0): 1.0, (2, 2): 1.0}, {}, {(1, 0): LARGEST, (1, 2): LARGEST}, {}, {})
    yield overflow("X", FIRST_HALVED, {(2, 0): 2.0}, {}, {(0, 0): LARGEST}, {}, {})


def by_lesser():
    """In the new row, by an old X(s, u); in the new column, by an old G^R(1, s), but not at (0, 2), where no product is formed; at (2, 2)."""
    for s, u in places(2):
        yield overflow("lesser", COUNT, {(2, s): 2.0}, {}, {}, {}, {(s, u): LARGEST})
    for at, s, made in [(1, 0, "lesser"), (1, 1, "lesser"), (0, 0, "none")]:
        yield overflow(made, COUNT, {(2, 2): 1.0}, {}, {(s, 2): 4.0}, {(at, s): LARGEST}, {})
    yield overflow("lesser", COUNT, {(2, 2): 1e160}, {}, {(2, 2): 1.0}, {}, {})
    yield overflow("lesser", LONG, {(2, 1): 1.0}, {}, {}, {}, {(1, 0): LARGEST})
    yield overflow("lesser", TWOS, {(2, 0): 1.0, (2, 1): 1.0}, {}, {}, {}, {(0, 0): LARGEST, (1, 0): 0.5 * LARGEST})
    yield overflow("lesser", FIRST_HALVED, {(2, 0): 2.0}, {}, {}, {}, {(0, 0): LARGEST})


def after_others():
    """All that is made before the overflow is no zero: the append's 10 clears it at the new row and column, and that of the run throughout."""
    for made, free, source, retarded in [
        ("X", {(1, 0): 2.0, (2, 2): 1.0}, {(2, 0): LARGEST}, {(1, 0): 2.0}),
        ("lesser", {(1, 0): 1.0, (2, 0): 8.0, (2, 2): 1.0}, {(0, 0): LARGEST / 16}, {(1, 0): 1.0}),
    ]:
        call = overflow(made, COUNT, free, {(2, 0): 1.0}, source, retarded, {})
        yield call
        yield answered(call._replace(function=RUN_IN, points=3), Refusal(10))


def in_one_entry():
    """One entry of a block of two orbitals, onto one point: a product, and the same with a factor that is small."""
    for made, value in itertools.product(("K", "G", "X", "lesser"), (LARGEST, 0.5)):
        inputs = {
            "K": [{(1, 0, 1, 0): (value, 0.0)}, {(0, 0, 0, 1): (0.0, 2.0)}, {}],
            "G": [{(1, 1, 0, 0): (1.0, 0.0)}, {(1, 0, 0, 1): (4.0, 0.0)}, {}],
            "X": [{(1, 1, 0, 1): (2.0, 0.0)}, {}, {(0, 1, 1, 1): (0.0, value)}],
            "lesser": [{(1, 0, 0, 1): (0.0, 2.0)}, {}, {}],
        }[made]
        retarded = with_entries(1, 2, {(0, 0, 1, 0): (value, 0.0)} if made == "G" else {})
        sums = with_entries(1, 2, {(0, 0, 1, 1): (value, 0.0)} if made == "lesser" else {})
        before = [laid_out(numbers, 1, 2, 2, held(32)) for numbers in (retarded, held(8), held(8), sums)]
        call = append(1, 2, 2, [0.0, 1.0], [with_entries(2, 2, entries) for entries in inputs], before)
        assert stage(call) == (made if value == LARGEST else "none"), (stage(call), made, value)
        yield answered(call, Refusal(10) if value == LARGEST else ACCEPTED)


# ---- Observables ---------------------------------------------------------------


def observed():
    """At each time of functions laid out for capacities; the number is read at the capacity's place, and 11 asks the points."""
    rng = random.Random(74)
    for points, capacity, orbitals in [(2, 2, 1), (2, 3, 1), (3, 5, 1), (2, 4, 2), (3, 4, 2), (2, 3, 3)]:
        numbers = some("whole", function_length(points, orbitals), rng)
        lesser = laid_out(numbers, points, capacity, orbitals, [NAN] * function_length(capacity, orbitals))
        for time in range(points + 1):
            calls = one_each(points, orbitals, lesser, time, 100.0)
            yield from (in_capacity(call, capacity) for call in calls)
    lesser = laid_out(some("plain", function_length(3, 2), rng), 3, 4, 2, held(128))
    for a, b in itertools.product(range(2), repeat=2):
        yield in_capacity(flow(3, 2, lesser, 2, a, b, (0.5, -2.0), 1.5), 4)
    for tolerance in (0.25, 100.0):
        yield in_capacity(number(3, 2, lesser, 2, tolerance), 4)
        yield in_capacity(expectation(3, 2, lesser, 1, some("plain", 8, rng), tolerance), 4)


CASES = [
    bench, histories, rooms, numbers_of_no_run, not_finite, by_kernel, by_green, by_sums, by_lesser, after_others, in_one_entry, observed,
]
