"""Calls of L6: a list of bond flows of a lesser function in a capacity, written with the numbers of their refusals into two lent slices.

How they stand in the list, beside what crates/replay/CALLS.md says:

- 46 has the slices of an observable, the empty times and the lesser function, then five of the queries: the times and both orbitals, whole
  numbers as the points are, the hoppings, two numbers each, and the factors. Its other words are the capacity and seven lengths: of those
  five in their order, then of the flows and of the refusals that are lent to be written. A slice of the queries has what is stored again and
  again, up to its length, which is 2,052 at most; nothing is stored where the length is 0. The flows hold before what every output holds,
  the refusals 7, 0 and 255 again and again.
- The answer is printed with the flows and then the refusals, in decimal:

      INDEX accepted FLOWS.. REFUSALS..
      INDEX refused NUMBER OPERAND FIRST SECOND PART FLOWS.. REFUSALS..
"""

import itertools
import random

from bits import same_bits
from document01 import ACCEPTED, LARGEST, Refusal, function_length
from document02 import bond_flow_into, places
from replay_calls import appends, sessions
from replay_calls.answers import flows_of
from replay_calls.appends import laid_out
from replay_calls.calls import (
    FLOWS, HUGE, INFINITY, KINDS, MOST, NAN, NOT_FINITE, SMALLEST, Call, Whole, by_place, held, held_bytes, repeated, some, with_entries,
)
from replay_calls.observables import at_start

QUESTIONS_OF_FLOWS = {FLOWS: (1, 2, 3, 16, 18, 7)}
MOST_QUERIES = 1024
# A query of the first time that is not refused, and one for each number by which a query is, of a lesser function of two points and one orbital.
GOOD = (0, 0, 0, (0.0, 1.0), 0.5)
BAD = {13: (2, 1, 1, (0.0, NAN), 0.5), 12: (2, 0, 1, (0.0, 1.0), 0.5), 11: (2, 0, 0, (0.0, 1.0), 0.5)}


def slices_of(queries):
    """The five slices of a list of queries."""
    times, a, b, hoppings, factors = ([query[at] for query in queries] for at in range(5))
    return [Whole(times), Whole(a), Whole(b), [part for hopping in hoppings for part in hopping], factors]


def lengths_of(count):
    """The lengths that fit a list of so many queries."""
    return [count, count, count, 2 * count, count, count, count]


def flows(points, capacity, orbitals, lesser, queries, lengths=None):
    """`lengths` are those of the seven slices, if not as many as the queries are."""
    return Call(FLOWS, points, orbitals, 0.0, [lesser, *slices_of(queries)], (capacity,), tuple(lengths or lengths_of(len(queries))))


def queries_of(call):
    """The queries of a call whose lengths fit."""
    times, a, b, hoppings, factors = map(repeated, call.slices[1:], call.last)
    return list(zip(times, a, b, zip(hoppings[0::2], hoppings[1::2]), factors))


def accepted(call):
    """A call that is accepted: each of its answers is that of the single call."""
    outcome = flows_of(call)
    assert outcome.answer == ACCEPTED, (outcome.answer, call)
    due = [bond_flow_into(call.points, *call.more, call.orbitals, call.slices[0], *query) for query in queries_of(call)]
    for flow, refusal, single in zip(outcome.lent["flows"], outcome.lent["refusals"], due, strict=True):
        flow_due, number_due = (0.0, single.number) if isinstance(single, Refusal) else (single, 0)
        assert same_bits(flow, flow_due) and refusal == number_due, (flow, refusal, single)
    return call


def refused(call, due):
    """A call that is refused: both slices are as they were."""
    outcome = flows_of(call)
    assert outcome.answer == due, (outcome.answer, due, call)
    flows_before, refusals_before = held(call.last[5]), held_bytes(call.last[6])
    assert all(map(same_bits, outcome.lent["flows"], flows_before)) and outcome.lent["refusals"] == refusals_before
    return call


def answers(call):
    return flows_of(call).lent["refusals"]


# ---- Answers -------------------------------------------------------------------


def bench():
    """Of P12's lesser function, in capacities of three and four: each time, one past the points and one past the orbitals."""
    for capacity in (3, 4):
        lesser = sessions.left(sessions.in_session(appends.run(3, capacity, 1, *sessions.lend(3, capacity), appends.any_before(capacity, 1))))[1]
        queries = [(time, 0, 0, (0.0, 1.0), 0.5) for time in range(4)] + [(2, 0, 1, (0.0, 1.0), 0.5), (2, 1, 0, (1.0, 0.0), 0.5)]
        call = accepted(flows(3, capacity, 1, lesser, queries))
        assert flows_of(call).lent["flows"][:3] == [0.0, 1.5625, 14.0625] and answers(call) == [0, 0, 0, 11, 12, 12]
        yield call


def kinds():
    """Numbers of all kinds, lists of one to twelve queries, orbitals and capacities; every bond of two and three orbitals."""
    rng = random.Random(101)
    for kind, (points, capacity, n) in itertools.product(KINDS, [(2, 2, 1), (3, 4, 1), (2, 3, 2)]):
        lesser = laid_out(some(kind, function_length(points, n), rng), points, capacity, n, [NAN] * function_length(capacity, n))
        count = rng.randint(1, 12)
        draw = lambda: (rng.randrange(points), rng.randrange(n), rng.randrange(n), tuple(some(kind, 2, rng)), KINDS[kind](rng))
        yield accepted(flows(points, capacity, n, lesser, [draw() for _ in range(count)]))
    for n in (2, 3):
        lesser = some("plain", function_length(2, n), rng)
        bonds = itertools.product(range(2), range(n), range(n))
        yield accepted(flows(2, 2, n, lesser, [(time, a, b, (0.5, -2.0), 1.5) for time, a, b in bonds]))
    # The bond is (b, a), and each hopping and factor is that of its own query.
    entries = {(0, 0): (1.0, 2.0), (0, 1): (3.0, 5.0), (1, 0): (7.0, 11.0), (1, 1): (13.0, 17.0)}
    queries = [(0, a, b, (2.0 + a, 3.0 - b), 0.5 + a + 2 * b) for a, b in itertools.product(range(2), repeat=2)]
    yield accepted(flows(2, 2, 2, at_start(2, entries), queries))


def no_finite_flow():
    """Infinite flows, flows that are no number, zeros of either sign: each is an answer, beside others."""
    cases = [
        ((0.0, 1.0), (2.0, 0.0), LARGEST), ((0.0, -1.0), (2.0, 0.0), LARGEST), ((1.0, 0.0), (2.0, 0.0), LARGEST), ((0.0, LARGEST), (2.0, 0.0), 1.0),
        ((0.0, LARGEST), (2.0, 0.0), 0.0), ((LARGEST, LARGEST), (2.0, -2.0), 1.0), ((0.0, LARGEST), (1.0, 0.0), 0.5), ((0.0, 0.5), (1.0, 0.0), SMALLEST),
        ((-0.0, -0.0), (1.0, -0.0), -1.0), ((-0.0, 2.0), (1.0, -0.0), -0.0),
    ]  # fmt: skip
    for value, hopping, factor in cases:
        yield accepted(flows(2, 2, 1, at_start(1, {(0, 0): value}), [GOOD, (0, 0, 0, hopping, factor), GOOD]))


def repeats():
    """The same query again and again, and lists whose slices repeat unlike."""
    lesser = by_place(2, {(0, 0): (0.0, 1.0), (1, 1): (0.5, -2.0)})
    yield accepted(flows(2, 2, 1, lesser, [GOOD] * 5))
    yield accepted(flows(2, 2, 1, lesser, [GOOD], lengths_of(7)))
    # Times, orbitals, hoppings and factors repeat after 2, 1, 1, 3 and 4.
    call = flows(2, 2, 1, lesser, [GOOD], lengths_of(12))
    parts = [Whole([0, 1]), Whole([0]), Whole([0]), [0.0, 1.0, 1.0, 0.0, 0.5, -0.5], [0.5, 1.0, -2.0, 0.25]]
    yield accepted(call._replace(slices=[lesser, *parts]))


# ---- Refused queries -----------------------------------------------------------


def one_refused():
    """One query of four that is refused, by each number and at each place; all but one; all."""
    lesser = [0.5, 1.0] * 4
    for (number, bad), at in itertools.product(BAD.items(), range(4)):
        call = accepted(flows(2, 2, 1, lesser, [bad if index == at else GOOD for index in range(4)]))
        assert answers(call) == [number if index == at else 0 for index in range(4)]
        yield call
        yield accepted(flows(2, 2, 1, lesser, [GOOD if index == at else bad for index in range(4)]))
    yield accepted(flows(2, 2, 1, lesser, list(BAD.values())))
    yield accepted(flows(2, 2, 1, lesser, [GOOD, *BAD.values(), GOOD, *reversed(BAD.values())]))


def queries_in_order():
    """13, 12 and 11 of a query, each alone and beside the others: hopping and factor, both orbitals, the time."""
    lesser = [1.0] * 32
    wild = itertools.cycle(NOT_FINITE)
    bad_13 = [(next(wild), 1.0, 1.0), (1.0, next(wild), 1.0), (1.0, 1.0, next(wild)), (next(wild), next(wild), next(wild))]
    bad_12, bad_11 = [(2, 0), (0, 2), (2, 2), (MOST, 0), (0, HUGE), (1, 2**32)], [2, 3, 255, 256, HUGE, MOST]
    orders = [
        [(0, 0, 1, (re, im), factor) for re, im, factor in bad_13], [(2, 2, 2, (re, im), factor) for re, im, factor in bad_13],
        [(1, a, b, (1.0, 1.0), 1.0) for a, b in bad_12], [(2, a, b, (1.0, 1.0), 1.0) for a, b in bad_12],
        [(time, 1, 1, (1.0, 1.0), 1.0) for time in bad_11],
    ]  # fmt: skip
    for queries, due in zip(orders, (13, 13, 12, 12, 11)):
        call = accepted(flows(2, 2, 2, lesser, queries))
        assert set(answers(call)) == {due}
        yield call
    # Both orbitals are below n, not below the count of numbers; 11 asks the points, and room is not read.
    room = laid_out([0.5] * 18, 3, 4, 1, [NAN] * 32)
    call = accepted(flows(3, 4, 1, room, [(time, 0, 0, (0.0, 1.0), 0.5) for time in (0, 2, 3, 4)] + [(1, 1, 0, (0.0, 1.0), 0.5)]))
    assert answers(call) == [0, 0, 11, 11, 12]
    yield call


# ---- Lists of none and of many -------------------------------------------------


def list_lengths():
    """None, 1,024 and one more; 3 before 18, and 16 before it; 18 before 7."""
    lesser, bad = [0.5, 1.0] * 4, [NAN] * 8
    yield accepted(flows(2, 2, 1, lesser, []))
    yield refused(flows(2, 2, 1, bad, []), Refusal(7))
    yield accepted(flows(2, 2, 1, lesser, [GOOD, BAD[11], (1, 0, 0, (0.25, -1.0), 2.0)], lengths_of(MOST_QUERIES)))
    yield accepted(flows(2, 2, 1, lesser, [GOOD], lengths_of(MOST_QUERIES - 1)))
    yield refused(flows(2, 2, 1, bad, [GOOD], lengths_of(MOST_QUERIES)), Refusal(7))
    for numbers, count in [(lesser, MOST_QUERIES + 1), (bad, MOST_QUERIES + 1), (lesser, MOST_QUERIES + 2)]:
        yield refused(flows(2, 2, 1, numbers, [GOOD], lengths_of(count)), Refusal(18))
    many = lengths_of(MOST_QUERIES + 1)
    yield refused(flows(3, 2, 1, bad, [GOOD], many), Refusal(16))
    yield refused(flows(MOST, 2, 1, bad, [GOOD], many), Refusal(16))
    yield refused(flows(2, 2, 1, bad[1:], [GOOD], many), Refusal(3))
    yield refused(flows(2, 2, 17, bad, [GOOD], many), Refusal(2))
    yield refused(flows(1, 2, 1, bad, [GOOD], many), Refusal(1))
    for at, change in [(0, -1), (3, 1), (5, -1), (6, 1)]:
        lengths = [length + (change if index == at else 0) for index, length in enumerate(many)]
        yield refused(flows(2, 2, 1, bad, [GOOD], lengths), Refusal(3))


def lengths():
    """Line 3: each slice one short and one long, of a list of three, of one and of none; before lines 16 and 7."""
    for points, lesser in [(2, [0.5] * 8), (3, [NAN] * 8)]:
        for at, change in itertools.product(range(7), (-1, 1)):
            fit = lengths_of(3)
            told = [length + (change if index == at else 0) for index, length in enumerate(fit)]
            yield refused(flows(points, 2, 1, lesser, [GOOD, BAD[12], GOOD], told), Refusal(3))
    for at in range(1, 7):
        yield refused(flows(2, 2, 1, [0.5] * 8, [GOOD], [int(index == at) for index in range(7)]), Refusal(3))
        yield refused(flows(2, 2, 1, [0.5] * 8, [GOOD], [0 if index == at else length for index, length in enumerate(lengths_of(1))]), Refusal(3))
    # Hoppings are two numbers each, not one.
    yield refused(flows(2, 2, 1, [0.5] * 8, [GOOD], [4] * 7), Refusal(3))
    yield refused(flows(2, 2, 1, [0.5] * 8, [GOOD], [8, 8, 8, 8, 8, 8, 8]), Refusal(3))
    for numbers in (7, 9, 0, 18):
        yield refused(flows(2, 2, 1, [NAN] * numbers, [GOOD]), Refusal(3))


# ---- Refusals of the whole call ------------------------------------------------


def sizes():
    """Lines 1, 2 and 3 at their limits, and 16; the queries are not asked."""
    wrong = list(BAD.values())
    for points, capacity, n, due in [
        (0, 2, 1, 1), (1, 2, 1, 1), (2, 2, 0, 1), (1, 257, 17, 1), (MOST, MOST, 0, 1), (2, 257, 1, 2), (2, 2, 17, 2), (MOST, HUGE, HUGE, 2),
        (257, 257, 1, 2), (2, 256, 16, 3), (257, 256, 1, 3), (2, 1, 1, 3), (3, 2, 1, 16), (257, 2, 1, 16), (HUGE, 2, 1, 16), (MOST, 2, 1, 16),
    ]:  # fmt: skip
        yield refused(flows(points, capacity, n, [NAN] * 8, wrong), Refusal(due))
    for capacity in (0, 1):
        yield refused(flows(2, capacity, 1, [NAN] * function_length(capacity, 1), wrong), Refusal(16))


def not_finite():
    """Line 7: operand 0, the lowest position in the lent slice, over the points; before the questions of every query."""
    for t, u in places(3):
        lesser = laid_out(by_place(3, {(t, u): (1.0, NAN)}), 3, 4, 1, [INFINITY] * 32)
        yield refused(flows(3, 4, 1, lesser, list(BAD.values())), Refusal(7, first=2 * (4 * t + u) + 1))
    for bad, at in zip(NOT_FINITE, range(8)):
        yield refused(flows(2, 2, 1, [bad if index >= at else 1.0 for index in range(8)], [GOOD]), Refusal(7, first=at))
    lesser = with_entries(2, 2, {(1, 0, 1, 0): (NAN, NAN)})
    yield refused(flows(2, 2, 2, lesser, [GOOD]), Refusal(7, first=20))


def in_a_row():
    """Two questions in a row that are answered by no, and three; those of the queries are too."""
    questions = QUESTIONS_OF_FLOWS[FLOWS]
    for many, at in itertools.product((2, 3), range(len(questions))):
        wrong = questions[at : at + many]
        if len(wrong) == many:
            told = {1: 1, 16: 5}.get(next((x for x in wrong if x in (1, 16)), None), 2)
            lengths = lengths_of(MOST_QUERIES + 1 if 18 in wrong else 3)
            lengths[6] -= 3 in wrong
            call = flows(told, 257 if 2 in wrong else 2, 1, [NAN if 7 in wrong else 0.5] * 8, list(BAD.values()), lengths)
            yield refused(call, Refusal(wrong[0]))


CASES = [
    bench, kinds, no_finite_flow, repeats, one_refused, queries_in_order, list_lengths, lengths, sizes, not_finite, in_a_row,
]
