"""Asserts the bench cases P1 to P12 of document 01."""

from bits import from_bits, same_bits
from document01 import (
    ACCEPTED, LARGEST, Refusal, full_weights, norm, particle_number,
    program_transient, retarded_dyson, retarded_support, run_file, transient_run,
)

UNIT = from_bits(1)


def check_norm():
    assert norm((3.0, 4.0)) == 5.0  # P1
    assert same_bits(norm((-0.0, 0.0)), 0.0)  # P2
    assert norm((2 * UNIT, 2 * UNIT)) == 3 * UNIT  # P3
    assert norm((LARGEST, LARGEST)) == float("inf")  # P4
    legs = (2**53 - 2**26 - 1, 6 * 2**50 + 6 * 2**25)
    root = 10 * 2**50 + 2**26 + 1
    assert legs[0] ** 2 + legs[1] ** 2 == root**2
    assert all(int(float(leg)) == leg for leg in legs)
    assert norm((float(legs[0]), float(legs[1]))) == float(10 * 2**50 + 2**26)  # P5


def check_grid():
    assert full_weights(2, [0.0, 0.0], [7.0] * 2) == (Refusal(5, first=1), {"output": [7.0] * 2})  # P6
    assert full_weights(2, [-LARGEST, LARGEST], [7.0] * 2).answer == Refusal(6)  # P7


def scalar_function(points, entry):
    """A function of one orbital, its entries given by (t, u)."""
    return [part for t in range(points) for u in range(points) for part in entry(t, u)]


def check_support():
    def function(upper, lower):
        diagonal = [1.0, 0.0]
        return diagonal + upper + lower + diagonal

    half = function([0.5, 0.0], [0.0, 0.0])
    assert retarded_support(2, 1, half, 0.5) == ACCEPTED  # P8
    more = function([0.75, 0.0], [0.0, 0.0])
    assert retarded_support(2, 1, more, 0.5) == Refusal(9, first=0, second=1, part=0.75)
    huge = function([1.0, 0.0], [LARGEST, LARGEST])
    assert retarded_support(2, 1, huge, 0.5) == ACCEPTED  # P9


def check_real():
    # The density of G^<(0,0) = x + yi is y - xi.
    lesser = lambda imaginary: [-imaginary, 2.0] + [0.0] * 6
    assert particle_number(2, 1, lesser(0.5), 0, 0.5) == 2.0  # P10
    assert particle_number(2, 1, lesser(0.75), 0, 0.5) == Refusal(14, part=0.75)
    assert particle_number(2, 1, lesser(-0.75), 0, 0.5) == Refusal(14, part=-0.75)


def check_runs():
    times = [0.0, 1.0, 2.0]
    ones = scalar_function(3, lambda t, u: (1.0, 0.0) if u <= t else (0.0, 0.0))
    source = scalar_function(3, lambda t, u: (0.0, 1.0))
    lent = [[9.0] * 18] * 4
    at = lambda t, u: slice(2 * (3 * t + u), 2 * (3 * t + u) + 2)

    dyson = retarded_dyson(3, 1, times, ones, ones, *lent[:2])
    assert dyson.answer == ACCEPTED
    assert dyson.lent["kernel"][at(2, 0)] == [2.0, 0.0]  # P11
    assert dyson.lent["retarded"][at(1, 0)] == [1.5, 0.0]
    assert dyson.lent["retarded"][at(2, 0)] == [3.5, 0.0]

    run = transient_run(3, 1, times, ones, ones, source, 1e-12, *lent)
    assert run.answer == ACCEPTED
    assert run.lent["lesser"][at(1, 1)] == [0.0, 1.5625]  # P12
    assert run.lent["lesser"][at(2, 2)] == [0.0, 14.0625]
    text = program_transient(run_file(3, 1, times, ones, ones, source))
    assert text == (
        b"run 3 1\n"
        b"0 number 0000000000000000\n"
        b"1 number 3FF9000000000000\n"
        b"2 number 402C200000000000\n"
    )


def main():
    check_norm()
    check_grid()
    check_support()
    check_real()
    check_runs()
    print("bench cases: ok")


if __name__ == "__main__":
    main()
