"""Asserts cases of document 02's L1: P12's run to two points in a capacity of four
and two appends, which old entries an append reads, and refusals."""

import math

import document01
from bits import same_bits
from document01 import ACCEPTED, LARGEST, Refusal, function_length, place
from document02 import append_point, bond_flow_into, density_matrix, particle_number, transient_run

NAN = math.nan
CAPACITY = 4
TIMES = [0.0, 1.0, 2.0, 3.0]
TOLERANCE = 1e-12
# What outputs and scratch hold before: room keeps it.
BEFORE = [[NAN] * 32, [7.0] * 32, [-0.0] * 32, [-math.inf] * 32]


def scalar_function(entry):
    """A function of one orbital over the capacity, its entries given by (t, u)."""
    return [part for t in range(CAPACITY) for u in range(CAPACITY) for part in entry(t, u)]


def ones():
    return scalar_function(lambda t, u: (1.0, 0.0) if u <= t else (0.0, 0.0))


def source():
    return scalar_function(lambda t, u: (0.0, 1.0))


def changed(numbers, values):
    """A function of one orbital, with other real parts at some places (t, u)."""
    after = list(numbers)
    for (t, u), value in values.items():
        after[place(CAPACITY, 1, t, u, 0, 0)] = value
    return after


def with_room(numbers, points):
    """NaN wherever an index is not below the points."""
    outside = {(t, u): NAN for t in range(CAPACITY) for u in range(CAPACITY) if max(t, u) >= points}
    return changed(numbers, outside)


def agree(left, right):
    return len(left) == len(right) and all(map(same_bits, left, right))


def slices_agree(left, right):
    return all(agree(left.lent[name], right.lent[name]) for name in left.lent)


def call(function, points, lent, times=TIMES, free=ones(), self_energy=ones(), lesser_self_energy=source()):
    return function(points, CAPACITY, 1, times, free, self_energy, lesser_self_energy, TOLERANCE, *lent)


def extended(function, points, lent, known):
    """A call whose inputs are those of P12 at the known points and NaN beyond."""
    times = TIMES[:known] + [NAN] * (CAPACITY - known)
    inputs = (with_room(numbers, known) for numbers in (ones(), ones(), source()))
    return call(function, points, lent, times, *inputs)


def lent_of(outcome):
    return list(outcome.lent.values())


def check_bench():
    """P12's run to 2 points and two appends leave what the run over 4 points does, in bits."""
    outcome = extended(transient_run, 2, BEFORE, 2)
    assert outcome.answer == ACCEPTED
    for points in (2, 3):
        before = lent_of(outcome)
        outcome = extended(append_point, points, before, points + 1)
        assert outcome.answer == ACCEPTED
        whole = extended(transient_run, points + 1, BEFORE, points + 1)
        assert whole.answer == ACCEPTED and slices_agree(outcome, whole)
        dense = lambda numbers: [x for t in range(points + 1) for x in numbers[8 * t : 8 * t + 2 * (points + 1)]]
        operands = map(dense, (ones(), ones(), source()))
        run = document01.transient_run(points + 1, 1, TIMES[: points + 1], *operands, TOLERANCE, *map(dense, BEFORE))
        assert all(agree(dense(outcome.lent[name]), run.lent[name]) for name in run.lent)
    at = lambda t: slice(place(CAPACITY, 1, t, t, 0, 0), place(CAPACITY, 1, t, t, 0, 0) + 2)
    lesser = outcome.lent["lesser"]
    assert [lesser[at(t)] for t in range(3)] == [[0.0, 0.0], [0.0, 1.5625], [0.0, 14.0625]]
    assert [particle_number(4, CAPACITY, 1, lesser, t, TOLERANCE) for t in range(3)] == [0.0, 1.5625, 14.0625]
    assert bond_flow_into(4, CAPACITY, 1, lesser, 2, 0, 0, (0.0, 1.0), 0.5) == 14.0625


def check_old_entries():
    """A NaN that is read gives 10; one in old K, old G^< or old G^R above the diagonal is not read, and stays."""
    held = dict(zip(("retarded", "lesser", "kernel", "sums"), lent_of(extended(transient_run, 2, BEFORE, 2))))
    plain = call(append_point, 2, held.values())
    for name, numbers in held.items():
        for t, u in [(t, u) for t in range(2) for u in range(2)]:
            before = held | {name: changed(numbers, {(t, u): NAN})}
            outcome = call(append_point, 2, before.values())
            if name == "sums" or (name == "retarded" and t >= u):
                assert outcome.answer == Refusal(10)
                for slice_name, stood in before.items():
                    cleared = [0.0 if max(divmod(at // 2, CAPACITY)) == 2 else x for at, x in enumerate(stood)]
                    assert agree(outcome.lent[slice_name], cleared)
            else:
                assert outcome.answer == ACCEPTED
                kept = plain.lent | {name: changed(plain.lent[name], {(t, u): NAN})}
                assert all(agree(outcome.lent[slice_name], kept[slice_name]) for slice_name in kept)


def check_refusals():
    stood = lambda outcome: all(map(agree, outcome.lent.values(), BEFORE))
    largest = 2**64 - 1
    for function, told in [(transient_run, 5), (append_point, 4), (append_point, largest), (transient_run, largest)]:
        outcome = call(function, told, BEFORE, [NAN] * CAPACITY)
        assert outcome.answer == Refusal(16) and stood(outcome)
    assert call(append_point, 0, BEFORE).answer == Refusal(1)
    assert call(append_point, 1, [[7.0] * 32] * 4).answer == ACCEPTED
    assert call(append_point, 2, BEFORE, TIMES[:3]).answer == Refusal(3)
    assert append_point(300, 257, 1, TIMES, *[[]] * 3, TOLERANCE, *[[]] * 4).answer == Refusal(2)
    # Over the points with the new one, and by the position in the lent slice; room is not asked.
    assert call(append_point, 2, BEFORE, [0.0, 1.0, 1.0, 0.0]).answer == Refusal(5, first=2)
    assert call(append_point, 2, BEFORE, [-LARGEST, 0.0, LARGEST, NAN]).answer == Refusal(6)
    wrong = changed(ones(), {(0, 3): NAN, (2, 1): NAN})
    assert call(append_point, 2, BEFORE, self_energy=wrong).answer == Refusal(7, operand=1, first=18)
    # The scale is the largest norm over the points: 2, not room's 4.
    upper = changed(ones(), {(2, 0): 2.0, (0, 2): 1.0, (3, 3): 4.0})
    assert call(append_point, 2, BEFORE, free=upper).answer == Refusal(9, first=0, second=2, part=0.5)
    # 10 of a run clears room too.
    huge = [LARGEST * x for x in ones()]
    outcome = call(transient_run, 2, BEFORE, free=[2.0 * x for x in ones()], self_energy=huge)
    assert outcome.answer == Refusal(10)
    assert all(agree(numbers, [0.0] * function_length(CAPACITY, 1)) for numbers in outcome.lent.values())


def check_observables():
    """11 asks the points; room is no entry."""
    lesser = with_room(source(), 3)
    assert particle_number(3, CAPACITY, 1, lesser, 2, TOLERANCE) == 1.0
    assert particle_number(3, CAPACITY, 1, lesser, 3, TOLERANCE) == Refusal(11)
    assert density_matrix(4, CAPACITY, 1, lesser, 2)[0] == Refusal(7, first=6)
    assert bond_flow_into(5, CAPACITY, 1, lesser, 0, 0, 0, (NAN, 0.0), 1.0) == Refusal(16)


def main():
    check_bench()
    check_old_entries()
    check_refusals()
    check_observables()
    print("appends: ok")


if __name__ == "__main__":
    main()
