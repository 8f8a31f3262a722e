"""Writes expected.txt: exact bits of small cases, to hold definitions to.

Every number is given by a formula in t, u (indices of times), a, b (orbitals),
worked out in binary64 from left to right.
"""

import math
import os

import document02
from bits import from_bits, hex_of
from document01 import (
    ACCEPTED, LARGEST, Refusal, Report, bond_flow_into, block_of, causal_volterra_convolution, consistency_report,
    is_consistent, langreth_product, one_body_expectation, particle_number, place, retarded_dyson_with_tolerance,
    time_convolution, trace, transient_run,
)


def function(clock, n, formula):
    """The numbers of a function whose parts are formula(t, u, a, b)."""
    orbitals = [float(a) for a in range(n)]
    return [
        float(part)
        for t in clock
        for u in clock
        for a in orbitals
        for b in orbitals
        for part in formula(t, u, a, b)
    ]


def lower(formula):
    """The formula where u <= t, +0 elsewhere."""
    return lambda t, u, a, b: formula(t, u, a, b) if u <= t else (0.0, 0.0)


def placed(values):
    """The formula that has a number, or a pair of parts, at places (t, u), and +0 elsewhere."""
    pairs = {at: value if isinstance(value, tuple) else (value, 0.0) for at, value in values.items()}
    return lambda t, u, a, b: pairs.get((t, u), (0.0, 0.0))


def entry_lines(name, points, n, numbers):
    lines = ["%s: t u a b, bits of re, bits of im" % name]
    for t in range(points):
        for u in range(points):
            for a in range(n):
                for b in range(n):
                    at = place(points, n, t, u, a, b)
                    parts = hex_of(numbers[at]), hex_of(numbers[at + 1])
                    lines.append("  %d %d %d %d  %s %s" % (t, u, a, b, *parts))
    return lines


def answer_text(answer):
    if answer is ACCEPTED:
        return "accepted"
    if isinstance(answer, Refusal):
        return "refused %d operand %d first %d second %d part %s" % (*answer[:4], hex_of(answer.part))
    if isinstance(answer, bool):
        return "yes" if answer else "no"
    if isinstance(answer, tuple):
        return "parts %s %s" % tuple(map(hex_of, answer))
    return "number %s" % hex_of(answer)


def lent(points, n, count):
    return [[7.0] * (2 * points * points * n * n)] * count


def cases_ab(times, clock):
    left = function(clock, 1, lambda t, u, a, b: (1 + t + 0.25 * u, 0.5 * t - u))
    right = function(clock, 1, lambda t, u, a, b: (2 - t + u, t * u + 1))
    lines = entry_lines("inputs of a and b, left", 3, 1, left) + entry_lines("right", 3, 1, right)
    calls = [
        ("a) causal_volterra_convolution", causal_volterra_convolution),
        ("b) time_convolution", time_convolution),
    ]
    for name, call in calls:
        outcome = call(3, 1, times, left, right, *lent(3, 1, 1))
        lines += [""] + entry_lines(name, 3, 1, outcome.lent["output"])
    return lines


def dyson_inputs(clock):
    free = lower(lambda t, u, a, b: (1 + a - b + 0.5 * (t - u), 0.25 * a * b - 0.125 * t))
    self_energy = lower(lambda t, u, a, b: (0.5 * a + b - t, 1 + u))
    return function(clock, 2, free), function(clock, 2, self_energy)


def case_c(times, clock):
    free, self_energy = dyson_inputs(clock)
    outcome = retarded_dyson_with_tolerance(3, 2, times, free, self_energy, 0.5, *lent(3, 2, 2))
    return (
        entry_lines("inputs of c and d, free", 3, 2, free)
        + entry_lines("self_energy", 3, 2, self_energy)
        + ["", "c) Dyson, tolerance 0.5"]
        + entry_lines("kernel", 3, 2, outcome.lent["kernel"])
        + entry_lines("retarded", 3, 2, outcome.lent["retarded"])
    )


def observed_lines(lesser):
    """Observables of case d's lesser function; 1000 refuses some, 1000000 none."""
    block = block_of(2, 2, [(1.0, 0.0), (0.5, -1.0), (0.5, 1.0), (-2.0, 0.0)])
    lines = []
    for tolerance in (1000.0, 1000000.0):
        numbers = [particle_number(3, 2, lesser, t, tolerance) for t in range(3)]
        one_body = one_body_expectation(3, 2, lesser, 2, block, tolerance)
        told = "tolerance %d: " % tolerance
        lines += ["particle_number at time index %d, " % t + told + answer_text(numbers[t]) for t in range(3)]
        lines.append("one_body_expectation at time index 2, " + told + answer_text(one_body))
    flow = bond_flow_into(3, 2, lesser, 1, 0, 1, (0.5, 0.25), 1.5)
    asked = "bond_flow_into at time index 1, a 0, b 1, hopping 0.5+0.25i, charge 1.5: "
    return lines + [asked + answer_text(flow)]


def case_d(times, clock):
    free, self_energy = dyson_inputs(clock)
    source = function(clock, 2, lambda t, u, a, b: (0.25 * (t + u) + a * b, 1 + a - 0.5 * u))
    outcome = transient_run(3, 2, times, free, self_energy, source, 0.5, *lent(3, 2, 4))
    return (
        entry_lines("input of d, lesser_self_energy", 3, 2, source)
        + ["", "d) transient run, tolerance 0.5"]
        + entry_lines("X", 3, 2, outcome.lent["sums"])
        + entry_lines("lesser", 3, 2, outcome.lent["lesser"])
        + observed_lines(outcome.lent["lesser"])
    )


def langreth_inputs(clock):
    """Retarded, advanced, lesser, greater of the left and of the right operand."""
    left = [
        lambda t, u, a, b: (1 + t, u),
        lambda t, u, a, b: (0.3 - u, t),
        lambda t, u, a, b: (0.1 * (t + 1), 0.7),
        lambda t, u, a, b: (t - u, -0.2),
    ]
    right = [
        lambda t, u, a, b: (0.5, t + u),
        lambda t, u, a, b: (1 + t * u, -1),
        lambda t, u, a, b: (u, 0.9),
        lambda t, u, a, b: (0.6, -t),
    ]
    return [[function(clock, 1, formula) for formula in operand] for operand in (left, right)]


COMPONENTS = ["retarded", "advanced", "lesser", "greater"]


def cases_ef(times, clock):
    left, right = langreth_inputs(clock)
    lines = []
    for side, operand in (("left", left), ("right", right)):
        for name, numbers in zip(COMPONENTS, operand):
            lines += entry_lines("input of e, %s %s" % (side, name), 2, 1, numbers)
    outcome = langreth_product(2, 1, times, left, right, *lent(2, 1, 4))
    lines += ["", "e) langreth_product"]
    for name in COMPONENTS:
        lines += entry_lines(name, 2, 1, outcome.lent[name])
    return lines + ["", "f) consistency_report of e's left operand"] + residual_lines(consistency_report(2, 1, *left))


def residual_lines(report):
    return ["%s: %s" % (name, hex_of(residual)) for name, residual in zip(Report._fields, report)]


# An interval of one point forms no product: g, i and j have largest numbers there. The interval of h has two points.


def outcome_lines(name, points, n, outcome):
    lines = ["", "%s: %s" % (name, answer_text(outcome.answer))]
    for lent_name, numbers in outcome.lent.items():
        lines += entry_lines(lent_name, points, n, numbers)
    return lines


def causal_case(letter, left_place):
    """Largest numbers at one place of the left operand and at (0, 0) of the right one."""

    def case(times, clock):
        left, right = (function(clock, 1, placed({at: LARGEST})) for at in (left_place, (0, 0)))
        lines = entry_lines("inputs of %s, left" % letter, 2, 1, left) + entry_lines("right", 2, 1, right)
        outcome = causal_volterra_convolution(2, 1, times, left, right, *lent(2, 1, 1))
        return lines + outcome_lines("%s) causal_volterra_convolution" % letter, 2, 1, outcome)

    return case


def case_i(times, clock):
    """K(0,0), X(0,0) and the lesser function at (0,1) would overflow."""
    inputs = {
        "free": {(0, 0): LARGEST, (1, 1): 1.0},
        "self_energy": {(0, 0): LARGEST, (1, 0): 2.0**-1022, (1, 1): LARGEST},
        "lesser_self_energy": {(0, 0): (0.0, LARGEST), (0, 1): (0.0, 1.0), (1, 0): (0.0, 1.0), (1, 1): (0.0, 1.0)},
    }
    numbers = {name: function(clock, 1, placed(values)) for name, values in inputs.items()}
    lines = [line for name in inputs for line in entry_lines("input of i, %s" % name, 2, 1, numbers[name])]
    outcome = transient_run(2, 1, times, *numbers.values(), 1e-12, *lent(2, 1, 4))
    return lines + outcome_lines("i) transient run, tolerance 1e-12", 2, 1, outcome)


def case_j(times, clock):
    """The diagonals of the retarded and of the advanced sum would overflow; left and right are alike."""
    small = 2.0**-1024
    diagonal = {(0, 0): LARGEST, (1, 1): LARGEST}
    formulas = [
        placed(diagonal | {(1, 0): small}),
        placed(diagonal | {(0, 1): small}),
        lambda t, u, a, b: (small, 0.0),
        lambda t, u, a, b: (0.0, small),
    ]
    operand = [function(clock, 1, formula) for formula in formulas]
    lines = []
    for name, numbers in zip(COMPONENTS, operand):
        lines += entry_lines("input of j, left and right %s" % name, 2, 1, numbers)
    outcome = langreth_product(2, 1, times, operand, operand, *lent(2, 1, 4))
    return lines + outcome_lines("j) langreth_product", 2, 1, outcome)


# The equal-time rule of the report: G^> - G^< at (t, t) is -i times the identity. The retarded and the advanced
# component of k to o are +0.


def report_case(letter, n, lesser, greater):
    """`lesser` and `greater` have entries by (t, u, a, b), and +0 elsewhere."""

    def case(times, clock):
        given = lambda entries: function(clock, n, lambda *at: entries.get(at, (0.0, 0.0)))
        components = {"lesser": given(lesser), "greater": given(greater)}
        lines = []
        for name, numbers in components.items():
            lines += entry_lines("input of %s, %s" % (letter, name), 2, n, numbers)
        none = given({})
        answer = consistency_report(2, n, none, none, *components.values())
        told = residual_lines(answer) if isinstance(answer, Report) else [answer_text(answer)]
        return lines + ["", "%s) consistency_report" % letter] + told

    return case


def equal_times(n, value):
    """The value at each entry (a, a) of each block (t, t)."""
    return {(t, t, a, a): value for t in range(2) for a in range(n)}


def case_p(times, clock):
    """Decisions that the seventh residual makes, and line 8 before it."""
    lines = ["p) is_consistent"]
    for others, seventh, tolerance in [
        (0.5, 0.5, 0.5), (0.5, 0.75, 0.5), (0.5, float("nan"), 0.5), (0.5, float("inf"), 0.5), (0.75, 0.5, 0.5),
        (0.5, float("nan"), 0.0),
    ]:
        answer = is_consistent(Report(*[others] * 6, seventh), tolerance)
        lines.append("six of %s, equal_time %s, tolerance %s: %s" % (others, seventh, tolerance, answer_text(answer)))
    return lines


# The order of an observable's refusals: 8 before 11 and before 10.


def case_q(times, clock):
    """The lesser function's entry at (0, 0) is i times a number, and that is the block: +0, or one whose square overflows."""
    root = 2.0**512
    lines = ["q) particle_number, and one_body_expectation of a block of the same number"]
    for tolerance, time, value in [(0.0, 2, 0.0), (0.0, 0, root), (0.0, 2, root), (0.5, 2, root), (0.5, 0, root), (0.5, 0, 0.0)]:
        lesser = function(clock, 1, placed({(0, 0): (0.0, value)}))
        told = "G^<(0,0) = i times %s, index %d, tolerance %s: " % (hex_of(value), time, tolerance)
        lines.append("particle_number, " + told + answer_text(particle_number(2, 1, lesser, time, tolerance)))
        block = block_of(1, 1, [(value, 0.0)])
        lines.append("one_body_expectation, " + told + answer_text(one_body_expectation(2, 1, lesser, time, block, tolerance)))
    return lines


# A trace is 10 when a part of its sum is not finite.

BELOW_HALF = from_bits(0x7C8F_FFFF_FFFF_FFFF)  # the number below 2^970, half of the largest number's last digit


def case_r(times, clock):
    """Blocks that have some complex numbers on the diagonal, and +0 elsewhere."""
    lines = ["r) trace of a block with this diagonal"]
    for diagonal in [
        [(LARGEST, 1.0), (LARGEST, 1.0)], [(1.0, -LARGEST), (1.0, -LARGEST)], [(LARGEST, LARGEST), (LARGEST, -LARGEST)],
        [(LARGEST, 0.0), (LARGEST, 0.0), (-LARGEST, 0.0)], [(LARGEST, 0.0), (-LARGEST, 0.0), (LARGEST, 0.0)],
        [(LARGEST, 0.0), (2.0**970, 0.0)], [(LARGEST, 0.0), (BELOW_HALF, 0.0)],
    ]:  # fmt: skip
        n = len(diagonal)
        answer = trace(block_of(n, n, [diagonal[a] if a == b else (0.0, 0.0) for a in range(n) for b in range(n)]))
        lines.append("%s: %s" % (" ".join(hex_of(part) for value in diagonal for part in value), answer_text(answer)))
    return lines


def case_s(times, clock):
    """The diagonal of the lesser function at (0, 0); the block of the expectation is the identity."""
    both = [(0.0, LARGEST), (0.0, LARGEST)]
    lines = ["s) G^<(0,0) with this diagonal: particle_number, then one_body_expectation of the identity"]
    for diagonal, time, tolerance in [
        (both, 0, 0.5), ([(LARGEST, 0.0), (LARGEST, 0.0)], 0, 0.5), ([(0.0, LARGEST), (-1.0, LARGEST)], 0, 0.5),
        ([(0.0, LARGEST), (-1.0, LARGEST)], 0, 1.0), (both + [(0.0, -LARGEST)], 0, 0.5),
        ([(0.0, LARGEST), (0.0, -LARGEST), (0.0, LARGEST)], 0, 0.5), ([(0.0, LARGEST), (0.0, BELOW_HALF)], 0, 0.5),
        (both, 0, 0.0), (both, 2, 0.5), (both, 2, 0.0),
    ]:  # fmt: skip
        n = len(diagonal)
        entry = lambda t, u, a, b: diagonal[int(a)] if t == u == 0.0 and a == b else (0.0, 0.0)
        lesser = function(clock, n, entry)
        unit = block_of(n, n, [(float(a == b), 0.0) for a in range(n) for b in range(n)])
        told = "%s, index %d, tolerance %s: " % (" ".join(hex_of(part) for value in diagonal for part in value), time, tolerance)
        answers = particle_number(2, n, lesser, time, tolerance), one_body_expectation(2, n, lesser, time, unit, tolerance)
        lines.append(told + "; ".join(map(answer_text, answers)))
    return lines


# In a capacity: t's appends come to the run over all points, u's old entries are those of no run, v's are not all finite.


def case_t(times, clock):
    """P12 to two points in a capacity of four, then two appends."""
    ones = function(clock, 1, lower(lambda t, u, a, b: (1.0, 0.0)))
    inputs = (4, 1, times, ones, ones, function(clock, 1, lambda t, u, a, b: (0.0, 1.0)), 1e-12)
    outcome = document02.transient_run(2, *inputs, *lent(4, 1, 4))
    lines = outcome_lines("t) run to 2 points in a capacity of 4, room 7, tolerance 1e-12", 4, 1, outcome)
    for points in (2, 3):
        outcome = document02.append_point(points, *inputs, *outcome.lent.values())
        lines += outcome_lines("t) append onto %d points" % points, 4, 1, outcome)
    return lines


def append_inputs(clock):
    """Inputs of three points, and old entries of two, in a capacity of three."""
    inputs = {
        "free": lower(lambda t, u, a, b: (1 + 0.5 * t, 0.25 - u)),
        "self_energy": lower(lambda t, u, a, b: (0.5 * u - t, 1 + t * u)),
        "lesser_self_energy": lambda t, u, a, b: (0.25 * (t + u), 1 - 0.5 * u),
    }
    old = lambda formula: lambda t, u, a, b: formula(t, u) if t < 2 and u < 2 else (7.0, 7.0)
    before = {
        "retarded": old(lambda t, u: (1 - t, 0.5 + u) if u <= t else (9.0, 9.0)),
        "lesser": old(lambda t, u: (8.0, 8.0)),
        "kernel": old(lambda t, u: (9.0, 9.0)),
        "sums": old(lambda t, u: (0.5 * t + u, 2 - t)),
    }
    return [{name: function(clock, 1, formula) for name, formula in formulas.items()} for formulas in (inputs, before)]


def case_u(times, clock):
    inputs, before = append_inputs(clock)
    lines = []
    for name, numbers in (inputs | {"old %s" % name: numbers for name, numbers in before.items()}).items():
        lines += entry_lines("input of u, %s" % name, 3, 1, numbers)
    outcome = document02.append_point(2, 3, 1, times, *inputs.values(), 0.5, *before.values())
    return lines + outcome_lines("u) append onto 2 points in a capacity of 3, tolerance 0.5", 3, 1, outcome)


def case_v(times, clock):
    """u's append with one old real part a NaN: read or not."""
    inputs, before = append_inputs(clock)
    lines = []
    for name, t, u in [("retarded", 1, 0), ("sums", 0, 1), ("retarded", 0, 1), ("kernel", 1, 0), ("lesser", 1, 1)]:
        changed = list(before[name])
        changed[place(3, 1, t, u, 0, 0)] = math.nan
        outcome = document02.append_point(2, 3, 1, times, *inputs.values(), 0.5, *(before | {name: changed}).values())
        lines.append("v) u with a NaN at old %s (%d,%d): %s" % (name, t, u, answer_text(outcome.answer)))
    return lines


def text():
    rule = equal_times(1, (0.0, -1.0))
    sections = [
        ("N=3 n=1 times 0, 0.5, 2", cases_ab, [0.0, 0.5, 2.0]),
        ("N=3 n=2 times 0, 1, 3", case_c, [0.0, 1.0, 3.0]),
        ("N=3 n=2 times 0, 1, 3", case_d, [0.0, 1.0, 3.0]),
        ("N=2 n=1 times 0, 0.1", cases_ef, [0.0, 0.1]),
        ("N=2 n=1 times 0, 1", causal_case("g", (0, 0)), [0.0, 1.0]),
        ("N=2 n=1 times 0, 2^-1074", causal_case("h", (1, 0)), [0.0, from_bits(1)]),
        ("N=2 n=1 times 0, 1", case_i, [0.0, 1.0]),
        ("N=2 n=1 times 0, 1", case_j, [0.0, 1.0]),
        # The difference of the two blocks is rounded to -i before -i is taken from it.
        ("N=2 n=1", report_case("k", 1, equal_times(1, (0.0, 2.0**-60)), rule), [0.0, 1.0]),
        # Beside the diagonal of a block the rule has zero.
        ("N=2 n=2", report_case("l", 2, {}, equal_times(2, (0.0, -1.0)) | {(1, 1, 0, 1): (3.0, 4.0)}), [0.0, 1.0]),
        # The rule asks nothing of two times.
        ("N=2 n=1", report_case("m", 1, {}, rule | {(0, 1, 0, 0): (7.0, 0.0)}), [0.0, 1.0]),
        ("N=2 n=1", report_case("n", 1, {}, rule | {(1, 1, 0, 0): (LARGEST, LARGEST)}), [0.0, 1.0]),
        ("N=2 n=1", report_case("o", 1, {(1, 1, 0, 0): (-LARGEST, 0.0)}, rule | {(1, 1, 0, 0): (LARGEST, 0.0)}), [0.0, 1.0]),
        ("seven residuals", case_p, []),
        ("N=2 n=1", case_q, [0.0, 1.0]),
        ("blocks", case_r, []),
        ("N=2, n the length of the diagonal", case_s, [0.0, 1.0]),
        ("capacity 4 n=1 times 0, 1, 2, 3", case_t, [0.0, 1.0, 2.0, 3.0]),
        ("capacity 3 n=1 times 0, 0.5, 2", case_u, [0.0, 0.5, 2.0]),
        ("capacity 3 n=1 times 0, 0.5, 2", case_v, [0.0, 0.5, 2.0]),
    ]
    lines = []
    for heading, case, times in sections:
        lines += [heading] + case(times, [float(index) for index in range(len(times))]) + [""]
    return "\n".join(lines)


if __name__ == "__main__":
    folder = os.path.dirname(os.path.abspath(__file__))
    with open(os.path.join(folder, "expected.txt"), "w", newline="\n") as output:
        output.write(text())
    print("expected.txt: written")
