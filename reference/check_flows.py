"""Asserts cases of document 02's L6, many bond flows in a call: each answer against the single call's, lists of none and of
1,024, refused queries among others, and the lines that refuse the whole call. Prints what it held."""

import itertools
import math
import random

from bits import same_bits
from document01 import ACCEPTED, DEFAULT_TOLERANCE, LARGEST, Refusal, function_length, place
from document02 import bond_flow_into, bond_flows_into, places, transient_run

NAN, INFINITY = math.nan, math.inf
MOST = 2**64 - 1


# ---- Calls -----------------------------------------------------------------------


def lists_of(queries):
    """The five slices of a list of queries."""
    times, a, b, hoppings, factors = ([query[at] for query in queries] for at in range(5))
    return times, a, b, [part for hopping in hoppings for part in hopping], factors


def before(count):
    """What the two lent slices hold before."""
    return list(itertools.islice(itertools.cycle([NAN, 7.0, -0.0]), count)), list(itertools.islice(itertools.cycle([255, 0, 3]), count))


def asked(points, capacity, n, lesser, queries):
    return bond_flows_into(points, capacity, n, lesser, *lists_of(queries), *before(len(queries)))


def agree(left, right):
    return len(left) == len(right) and all(map(same_bits, left, right))


def held_to_single(points, capacity, n, lesser, queries):
    """The numbers of the queries' refusals; each answer was compared with the single call's."""
    outcome = asked(points, capacity, n, lesser, queries)
    assert outcome.answer == ACCEPTED
    flows, refusals = outcome.lent["flows"], outcome.lent["refusals"]
    assert len(flows) == len(refusals) == len(queries)
    for flow, refusal, query in zip(flows, refusals, queries):
        single = bond_flow_into(points, capacity, n, lesser, *query)
        if isinstance(single, Refusal):
            assert single == Refusal(refusal) and refusal in (11, 12, 13) and same_bits(flow, 0.0)
        else:
            assert refusal == 0 and same_bits(flow, single)
    return refusals


def any_query(points, n, choose):
    """One that may be refused by 13, 12 or 11, or by several of them."""
    number = lambda: choose.choice([choose.uniform(-2, 2), -0.0, 1e200, LARGEST])
    bad = lambda good, wrong: wrong if choose.random() < 0.15 else good
    index = lambda below: bad(choose.randrange(below), choose.choice([below, below + 1, 255, 2**32, MOST]))
    hopping = bad(number(), INFINITY), bad(number(), NAN)
    return index(points), index(n), index(n), hopping, bad(number(), -INFINITY)


# ---- Answers ---------------------------------------------------------------------


def check_bench():
    """P12: the flow of (0, 0) is charge times twice the imaginary part of hopping times the number."""
    ones = [part for t, u in places(3) for part in (1.0 if u <= t else 0.0, 0.0)]
    nothing = [[0.0] * 18] * 4
    lesser = transient_run(3, 3, 1, [0.0, 1.0, 2.0], ones, ones, [0.0, 1.0] * 9, DEFAULT_TOLERANCE, *nothing).lent["lesser"]
    queries = [(t, 0, 0, (0.0, 1.0), 0.5) for t in range(3)] + [(3, 0, 0, (0.0, 1.0), 0.5), (2, 0, 1, (0.0, 1.0), 0.5), (2, 0, 0, (1.0, 0.0), 0.5)]
    outcome = asked(3, 3, 1, lesser, queries)
    assert outcome.answer == ACCEPTED
    assert agree(outcome.lent["flows"], [0.0, 1.5625, 14.0625, 0.0, 0.0, 0.0]) and outcome.lent["refusals"] == [0, 0, 0, 11, 12, 0]
    print("P12's flows: 0, 1.5625 and 14.0625, 11 past the points and 12 past the orbitals")


def check_single():
    choose = random.Random(1)
    counts, lists = {}, 0
    for n, points, room in itertools.product((1, 2, 3), (2, 3), (0, 2)):
        for length in (0, 1, 2, 5, 40):
            capacity = points + room
            lesser = [NAN] * function_length(capacity, n)
            for t, u in places(points):
                begin = place(capacity, n, t, u, 0, 0)
                lesser[begin : begin + 2 * n * n] = [choose.choice([choose.uniform(-1, 1), -0.0, 1e200]) for _ in range(2 * n * n)]
            lists += 1
            for number in held_to_single(points, capacity, n, lesser, [any_query(points, n, choose) for _ in range(length)]):
                counts[number] = counts.get(number, 0) + 1
    assert set(counts) == {0, 11, 12, 13}
    told = ", ".join(f"{counts[number]} by {number}" if number else f"{counts[number]} not refused" for number in sorted(counts))
    print(f"each answer is the single call's: {lists} lists; {told}")


def check_refused():
    """A refused query stops nothing: all but one refused, each place in turn; and the order 13, 12, 11 in each."""
    lesser = [0.0, 1.0] * 9
    good, wrong = (2, 0, 0, (0.0, 1.0), 0.5), [(3, 1, 1, (NAN, 1.0), 0.5), (3, 0, 1, (0.0, 1.0), 0.5), (3, 0, 0, (0.0, 1.0), 0.5)]
    for at, bad in itertools.product(range(4), wrong):
        queries = [good if index == at else bad for index in range(4)]
        number = 13 - wrong.index(bad)
        outcome = asked(3, 3, 1, lesser, queries)
        assert outcome.lent["refusals"] == [0 if index == at else number for index in range(4)]
        assert agree(outcome.lent["flows"], [1.0 if index == at else 0.0 for index in range(4)])
    # 11 asks the points, not the capacity; infinite flows and flows that are no number are answers.
    room = [0.0, 1.0, 0.0, 1.0, NAN, NAN] * 2 + [NAN] * 6
    assert held_to_single(2, 3, 1, room, [(1, 0, 0, (0.0, 1.0), 1.0), (2, 0, 0, (0.0, 1.0), 1.0)]) == [0, 11]
    large = [0.0, LARGEST] * 4
    outcome = asked(2, 2, 1, large, [(0, 0, 0, (0.0, 2.0), 1.0), (0, 0, 0, (0.0, 2.0), 0.0), (0, 0, 0, (0.0, -2.0), 1.0)])
    assert outcome.lent["refusals"] == [0, 0, 0] and agree(outcome.lent["flows"], [INFINITY, NAN, -INFINITY])
    print("a refused query leaves +0 and its number, and the others as they are; infinite flows and NaN are no refusals")


# ---- Refusals of the whole call --------------------------------------------------


def check_whole():
    """1, 2, 3, 16, 18, 7, each before the next, with both slices as they were; 1,024 queries are let through."""
    good, bad = [0.5] * 18, [NAN] * 18
    query = (1, 0, 0, (0.0, 1.0), 0.5)
    cases = [
        (1, 1, 257, 17, bad), (1, 0, 3, 1, good), (1, 2, 3, 0, bad), (2, 2, 257, 1, bad), (2, MOST, MOST, 17, bad), (2, 3, 3, 17, good),
        (3, 4, 3, 1, bad[1:]), (3, 4, 3, 1, [*bad, 0.0]), (3, 4, 3, 2, bad), (16, 4, 3, 1, bad), (16, MOST, 3, 1, bad),
    ]  # fmt: skip
    for number, points, capacity, n, lesser in cases:
        for count in (0, 2, 1024, 1025):
            outcome = asked(points, capacity, n, lesser, [query] * count)
            assert outcome.answer == Refusal(number) and agree(outcome.lent["flows"], before(count)[0]) and outcome.lent["refusals"] == before(count)[1]
    for count, lesser, due in [(1024, good, ACCEPTED), (1025, good, Refusal(18)), (1025, bad, Refusal(18)), (1024, bad, Refusal(7)), (0, bad, Refusal(7))]:
        outcome = asked(3, 3, 1, lesser, [query] * count)
        assert outcome.answer == due
        if due == ACCEPTED:
            assert agree(outcome.lent["flows"], [0.5] * count) and outcome.lent["refusals"] == [0] * count
        else:
            assert agree(outcome.lent["flows"], before(count)[0]) and outcome.lent["refusals"] == before(count)[1]
    # Line 7 by its position in the lent slice; room is not asked.
    lesser = [0.5] * 32
    lesser[6], lesser[11] = NAN, INFINITY
    assert asked(3, 4, 1, lesser, [query]).answer == Refusal(7, first=11)
    assert asked(3, 3, 1, good, []).answer == ACCEPTED
    print("1, 2, 3, 16, 18 and 7 refuse the whole call, in this order, and write nothing; 1,024 queries are let through")


def check_lengths():
    """Each slice that does not fit the times is 3, of an empty list too; 3 comes before 18."""
    lesser = [0.5] * 18
    for count in (0, 1, 3, 1024, 1025):
        slices = [*lists_of([(1, 0, 0, (0.0, 1.0), 0.5)] * count), *before(count)]
        for at, change in itertools.product(range(1, 7), (-1, 1)):
            other = slices[at][:-1] if change < 0 else [*slices[at], 0]
            lent = [*slices[:at], other, *slices[at + 1 :]]
            outcome = bond_flows_into(3, 3, 1, lesser, *lent)
            fits = len(other) == len(slices[at])
            assert outcome.answer == (Refusal(3) if not fits else ACCEPTED if count <= 1024 else Refusal(18))
            assert fits or agree(outcome.lent["flows"], lent[5]) and outcome.lent["refusals"] == lent[6]
        # The list's length is that of the times.
        assert bond_flows_into(3, 3, 1, lesser, [1] * (count + 1), *slices[1:]).answer == Refusal(3)
    print("3 where a slice does not fit the list, by one number less or more, before 18")


def main():
    check_bench()
    check_single()
    check_refused()
    check_whole()
    check_lengths()
    print("flows: ok")


if __name__ == "__main__":
    main()
