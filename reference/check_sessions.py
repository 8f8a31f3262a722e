"""Asserts cases of document 02's L3 and L13: the count of products place by place against the formula, for all N to
256, and against the products that the reading forms; the desks' counters and questions 17 and 22. Prints what it held."""

import math

import document01
from bits import same_bits
from document01 import ACCEPTED, LARGEST, MOST_POINTS, Refusal, function_length
from document02 import (
    DESKS, LARGEST_COUNT, Formed, append_in_session, append_point, append_products, formula, opened, places, run_in_session, run_products,
    transient_run,
)

TOLERANCE = 1e-12
NAN = math.nan


# ---- Calls -----------------------------------------------------------------------


def filled(capacity, n, entry):
    """A function over the capacity, each entry of block (t, u) given by (t, u)."""
    return [part for t, u in places(capacity) for _ in range(n * n) for part in entry(t, u)]


def ones(capacity, n=1):
    return filled(capacity, n, lambda t, u: (1.0, 0.0) if u <= t else (0.0, 0.0))


def source(capacity, n=1):
    return filled(capacity, n, lambda t, u: (0.0, 1.0))


def before(capacity, n=1):
    """What outputs and scratch hold before."""
    return [[number] * function_length(capacity, n) for number in (NAN, 7.0, -0.0, -math.inf)]


def told(capacity, n=1, times=None, free=None, self_energy=None, tolerance=TOLERANCE, lent=None):
    """What a call takes after its points: P12's inputs in the capacity, of steps that are short where it is large."""
    step = 1.0 if capacity < 5 else 2.0**-10
    times = times or [step * index for index in range(capacity)]
    operands = [free or ones(capacity, n), self_energy or ones(capacity, n), source(capacity, n)]
    return (capacity, n, times, *operands, tolerance, *(lent or before(capacity, n)))


def stands(outcome, lent):
    """Whether every slice is as it was."""
    return all(len(a) == len(b) and all(map(same_bits, a, b)) for a, b in zip(outcome.lent.values(), lent))


def slices_of(outcome):
    return list(outcome.lent.values())


# ---- Counts ----------------------------------------------------------------------


def check_formula():
    for points in range(1, MOST_POINTS + 1):
        assert run_products(points) == formula(points), points
    for points in range(1, MOST_POINTS):
        assert append_products(points) == formula(points + 1) - formula(points), points
    assert [formula(points) for points in (1, 2, 3, 4)] == [0, 11, 41, 98]
    assert append_products(1) == 11 and formula(MOST_POINTS) == 22_467_200
    print(f"the formula is the count place by place: runs over 1 to {MOST_POINTS} points, appends onto 1 to {MOST_POINTS - 1}")


def formed(call, *arguments):
    """What a call gives, and how many products of blocks it formed."""
    count = 0
    multiplied = document01.multiplied

    def counting(*factors):
        nonlocal count
        count += 1
        return multiplied(*factors)

    document01.multiplied = counting
    try:
        return call(*arguments), count
    finally:
        document01.multiplied = multiplied


def check_formed():
    """Outside of a session, so that the count is the work's own."""
    sizes = [(points, 1) for points in range(2, 13)] + [(points, n) for n in (2, 3) for points in (2, 3, 4)]
    for points, n in sizes:
        outcome, count = formed(transient_run, points, *told(points + 1, n))
        assert outcome.answer == ACCEPTED and count == formula(points)
        # Onto contents of no run, and onto one point too.
        lent = [[0.5] * function_length(points + 1, n)] * 4
        for old in (points - 1, points):
            outcome, count = formed(append_point, old, *told(points + 1, n, lent=lent))
            assert outcome.answer == ACCEPTED and count == formula(old + 1) - formula(old)
    print(f"it is how many the reading forms: runs over 2 to 12 points and appends onto 1 to 12, {len(sizes)} sizes, 1 to 3 orbitals")


# ---- The session -----------------------------------------------------------------


def with_desk(desk, counter, other=0):
    """A session in which every other desk has another counter."""
    return opened([counter if at == desk else other for at in range(DESKS)])


def check_counter():
    """A run over 3 points carries 41; at 2^64 - 1 - 41 it is let through, and one more is 17. The other desks are full."""
    for desk, counter in enumerate((0, 1, 2**32 - 1, 2**53, 2**63 - 1, 2**63, LARGEST_COUNT - 42, LARGEST_COUNT - 41)):
        outcome, session = run_in_session(with_desk(desk, counter, LARGEST_COUNT), desk, 3, *told(4))
        assert outcome.answer == Formed(41) and session == with_desk(desk, counter + 41, LARGEST_COUNT)
        plain = transient_run(3, *told(4))
        assert plain.answer == ACCEPTED and stands(outcome, slices_of(plain))
    assert session.counters == (LARGEST_COUNT,) * DESKS
    left = slices_of(outcome)
    for desk in range(DESKS):
        full = with_desk(desk, LARGEST_COUNT)
        for call, points in ((run_in_session, 3), (run_in_session, 2), (append_in_session, 3), (append_in_session, 1)):
            again, after = call(full, desk, points, *told(4, lent=left))
            assert again.answer == Refusal(17) and after == full and stands(again, left)
        before_it = with_desk(desk, LARGEST_COUNT - 40)
        outcome, session = run_in_session(before_it, desk, 3, *told(4))
        assert outcome.answer == Refusal(17) and session == before_it and stands(outcome, before(4))
    lent = [[0.5] * 32] * 4
    outcome, session = append_in_session(with_desk(2, LARGEST_COUNT - 11), 2, 1, *told(4, lent=lent))
    assert outcome.answer == Formed(11) and session == with_desk(2, LARGEST_COUNT)
    outcome, session = append_in_session(with_desk(2, LARGEST_COUNT - 10), 2, 1, *told(4, lent=lent))
    assert outcome.answer == Refusal(17) and stands(outcome, lent)
    print("a desk's counter comes to 2^64 - 1 and no further: 17, with every slice and all counters as they were; no other desk's is asked")


def refused_before_17():
    """By its number, what a call of three points takes that is refused by a line before 17; by 1 and 16 it is told other points."""
    above, not_finite = ones(4), ones(4)
    above[2], not_finite[0] = 1.0, NAN
    return {
        2: (257, *told(4)[1:]), 3: (3, *told(4)[1:]), 4: told(4, times=[0.0, 1.0, math.inf, 3.0]), 5: told(4, times=[0.0, 1.0, 1.0, 2.0]),
        6: told(4, times=[-LARGEST, 0.0, LARGEST, NAN]), 7: told(4, free=not_finite), 8: told(4, tolerance=0.0), 9: told(4, free=above),
    }  # fmt: skip


def check_order():
    """22 before all others, 9 before 17, 17 before 10; a refused call adds nothing."""
    full, room = with_desk(3, LARGEST_COUNT), with_desk(3, LARGEST_COUNT - 41, LARGEST_COUNT)
    overflowing = told(4, free=[LARGEST * x for x in ones(4)], self_energy=[2.0 * x for x in ones(4)])
    for call, points in ((run_in_session, 3), (append_in_session, 2)):
        cases = [(number, points, arguments) for number, arguments in refused_before_17().items()]
        cases += [(1, 0, told(4)), (16, 5, told(4)), (16, LARGEST_COUNT, told(4))]
        for session in (full, room):
            for number, points_told, arguments in cases:
                outcome, after = call(session, 3, points_told, *arguments)
                assert outcome.answer.number == number and after == session and stands(outcome, before(4))
                for desk in (8, 9, 256, 2**32, LARGEST_COUNT):
                    outcome, after = call(session, desk, points_told, *arguments)
                    assert outcome.answer == Refusal(22) and after == session and stands(outcome, before(4))
            (outcome, after), count = formed(call, session, 8, points, *overflowing)
            assert outcome.answer == Refusal(22) and after == session and stands(outcome, before(4)) and count == 0
        (outcome, after), count = formed(call, full, 3, points, *overflowing)
        assert outcome.answer == Refusal(17) and after == full and stands(outcome, before(4)) and count == 0
        (outcome, after), count = formed(call, room, 3, points, *overflowing)
        assert outcome.answer == Refusal(10) and after == room and not stands(outcome, before(4)) and count > 0
    print("22 comes before 1, 2, 3, 16, 4 to 10 and 17; 17 after 1, 2, 3, 16 and 4 to 9 and before any product; 10 adds nothing")


def check_histories():
    """A run and its appends count like the run over all points, whatever desks they name."""
    total, most = 2**64 - 12345, 9
    for first in range(2, most + 1):
        session = opened([total] * DESKS)
        outcome, session = run_in_session(session, first % DESKS, first, *told(most))
        for points in range(first, most):
            outcome, session = append_in_session(session, 5 * points % DESKS, points, *told(most, lent=slices_of(outcome)))
        whole, after = run_in_session(with_desk(4, total), 4, most, *told(most))
        assert sum(session.counters) - DESKS * total == after.counters[4] - total == formula(most)
        assert stands(outcome, slices_of(whole))
    print(f"a run and its appends count like the run over all points: runs over 2 to {most} points and appends up to {most}, at several desks")


def check_desks():
    """From zero, runs over 3 points at 0 and 7: 41, 0, .., 41; desk 3 full and a run at 4; the eight sum to the accepted counts."""
    session = opened([0] * DESKS)
    for desk in (0, 7):
        _, session = run_in_session(session, desk, 3, *told(4))
    assert session.counters == (41, 0, 0, 0, 0, 0, 0, 41)
    outcome, session = run_in_session(with_desk(3, LARGEST_COUNT), 4, 3, *told(4))
    assert outcome.answer == Formed(41) and session.counters == (0, 0, 0, LARGEST_COUNT, 41, 0, 0, 0)
    assert run_in_session(session, 8, 0, *told(4))[0].answer == Refusal(22)
    # Some of these are told too few points or too many, or name desk 8.
    session, counts = opened([0] * DESKS), [0] * DESKS
    lent = [[0.5] * 32] * 4
    for index in range(60):
        call, points, desk = (run_in_session, append_in_session)[index % 2], index % 5, 7 * index % 9
        outcome, session = call(session, desk, points, *told(4, lent=lent))
        if isinstance(outcome.answer, Formed):
            counts[desk] += outcome.answer.products
        assert session.counters == tuple(counts)
    assert sum(session.counters) == sum(counts) > 0
    print("a desk's counter is that of its own accepted calls, and from zero the eight sum to the accepted counts: a list of 60 calls")


def main():
    check_formula()
    check_formed()
    check_counter()
    check_order()
    check_histories()
    check_desks()
    print("sessions: ok")


if __name__ == "__main__":
    main()
