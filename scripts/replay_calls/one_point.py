"""Calls whose large numbers meet where an interval has one point: no product is formed there, and the block is +0. So it is on the
diagonal of causal sums (the causal convolution, K, Langreth's retarded and advanced), at X(t, 0) and at the lesser function's row 0.
Each kind alone and together with others, and beside it calls that line 10 refuses still."""

import itertools

from document01 import LARGEST, Overflow, adjoint_of, causal_convolution, first_sums, multiplied, read, solve
from replay_calls.answers import line, refusal
from replay_calls.calls import CAUSAL, DYSON, DYSON_DEFAULT, FULL, LANGRETH, RUN, SMALLEST, by_place, inputs, with_entries
from replay_calls.convolutions import convolution
from replay_calls.products import product
from replay_calls.reports import ADVANCED, GREATER, LESSER, RETARDED, placed, zeros
from replay_calls.solves import call as solved

# A number whose product with the largest one, multiplied by that again, is finite.
SMALL = 2.0**-1060
# Half of the first step is 0.
HALVED = {2: [0.0, SMALLEST], 3: [0.0, SMALLEST, 1.0]}


def overflows(n, pairs):
    """Whether a product of two blocks overflows."""
    for left, right in pairs:
        try:
            multiplied(left, right, n, n, n)
        except Overflow:
            return True
    return False


def unformed(call):
    """Where products that are not formed would overflow; of the lesser function, where X is finite."""
    points, n = call.points, call.orbitals
    times, *operands = inputs(call)
    functions = [read(numbers, points, n) for numbers in operands]
    diagonal = lambda left, right: [(left[t][t], right[t][t]) for t in range(points)]
    pairs = {}
    if call.function == LANGRETH:
        pairs = {"retarded": diagonal(functions[0], functions[4]), "advanced": diagonal(functions[1], functions[5])}
    elif call.function != FULL:
        pairs = {"diagonal" if call.function == CAUSAL else "K": diagonal(*functions[:2])}
    if call.function == RUN:
        free, self_energy, lesser_self_energy = functions
        pairs["X"] = [(row[0], adjoint_of(free[0][0], n, n)) for row in lesser_self_energy]
        try:
            retarded = solve(points, n, times, free, causal_convolution(points, n, times, free, self_energy))
            pairs["lesser"] = [(free[0][0], block) for block in first_sums(points, n, times, lesser_self_energy, retarded)[0]]
        except Overflow:
            pass
    return [name for name, blocks in pairs.items() if overflows(n, blocks)]


def answered(names, call):
    """A call of which products not formed would overflow at these places; it answers."""
    assert unformed(call) == names and refusal(line(0, call)) is None, (unformed(call), names, line(0, call)[:80])
    return call


def refused(names, call):
    """Such a call that line 10 refuses, for a product that is formed."""
    assert unformed(call) == names and refusal(line(0, call)) == 10, (unformed(call), names, line(0, call)[:80])
    return call


def count(points):
    return [float(index) for index in range(points)]


def strong(points, more=()):
    """The largest number on the diagonal, and others at other places."""
    return by_place(points, {(t, t): LARGEST for t in range(points)} | dict(more))


# ---- The causal convolution ----------------------------------------------------


def causal():
    """The whole diagonal, and one place of it by parts of either kind; beside it the full convolution of the same numbers."""
    for points, value in ((2, 0.0), (3, SMALL), (4, SMALL)):
        numbers = strong(points, {(t, u): value for t in range(points) for u in range(t)})
        yield answered(["diagonal"], convolution(CAUSAL, count(points), numbers, numbers))
        yield refused([], convolution(FULL, count(points), numbers, numbers))
    for t, value in [(0, LARGEST), (1, (0.0, -LARGEST)), (0, (LARGEST, LARGEST))]:
        right = by_place(2, {(t, t): value, (1 - t, 1 - t): 1.0, (1, 0): -1.0})
        yield answered(["diagonal"], convolution(CAUSAL, count(2), by_place(2, {(t, t): (LARGEST, LARGEST), (1, 0): SMALL}), right))
    # A step that halves to 0: the diagonal alone, and an interval of two points.
    yield answered(["diagonal"], convolution(CAUSAL, HALVED[2], strong(2), strong(2)))
    for left, right in [({(1, 0): LARGEST}, {(0, 0): LARGEST}), ({(1, 1): -LARGEST}, {(1, 0): LARGEST})]:
        yield refused([], convolution(CAUSAL, HALVED[2], by_place(2, left), by_place(2, right)))
    yield refused(["diagonal"], convolution(CAUSAL, HALVED[3], strong(3, {(1, 0): 2.0}), strong(3)))
    # Below the diagonal too.
    yield refused(["diagonal"], convolution(CAUSAL, count(3), strong(3), strong(3, {(2, 1): 2.0})))


def causal_blocks():
    """One entry of a block of two orbitals: on the diagonal, and in an interval of two points, whose step halves to 0 once."""
    for times, a, b in [(count(2), 0, 1), (HALVED[2], 1, 1)]:
        right = with_entries(2, 2, {(0, 0, 1, b): (LARGEST, 0.0)}, other=0.25)
        for t, wanted, names in ((0, answered, ["diagonal"]), (1, refused, [])):
            left = with_entries(2, 2, {(t, 0, a, 1): (0.0, 8.0)}, other=SMALL)
            yield wanted(names, convolution(CAUSAL, times, left, right, 2))


# ---- Dyson and the run ---------------------------------------------------------


def both_dyson(wanted, names, times, free, self_energy, orbitals=1):
    for function in (DYSON, DYSON_DEFAULT):
        yield wanted(names, solved(function, times, free, self_energy, orbitals=orbitals))


def kernel():
    """K's diagonal alone, in Dyson calls and in runs whose X and lesser function are finite; then G, and K below the diagonal."""
    for points in (2, 4):
        yield from both_dyson(answered, ["K"], count(points), strong(points), strong(points))
    for points, times in itertools.product((2, 3), (count, HALVED.get)):
        yield answered(["K"], solved(RUN, times(points), strong(points), strong(points), [SMALL] * (2 * points**2)))
    for times, free, self_energy in [
        # A step that halves to 0: in K(1, 0), and in G(2, 0), where K(2, 0)·G(0, 0) overflows.
        (HALVED[2], strong(2, {(1, 0): 2.0}), strong(2)),
        (HALVED[3], by_place(3, {(0, 0): LARGEST, (2, 1): 1.0}), by_place(3, {(0, 0): LARGEST, (1, 0): 8.0})),
        # K(1, 0)·G(0, 0) overflows, and then K(1, 0).
        (count(2), strong(2), strong(2, {(1, 0): 1.0})),
        (count(2), strong(2), strong(2, {(1, 0): 2.0})),
    ]:
        yield from both_dyson(refused, ["K"], times, free, self_energy)
        yield refused(["K"], solved(RUN, times, free, self_energy, [0.0] * len(free)))
    # One entry of a block of two orbitals, on the diagonal and below it.
    free = with_entries(2, 2, {(t, t, 1, 0): (LARGEST, 0.0) for t in range(2)})
    for t, wanted, names in ((0, answered, ["K"]), (1, refused, [])):
        yield from both_dyson(wanted, names, count(2), free, with_entries(2, 2, {(t, 0, 0, 1): (0.0, 2.0)}), 2)


def starts():
    """X(t, 0) alone, the lesser function's row 0 alone, both, and both with K's diagonal: G(0, 0) is the largest number."""
    kinds = [["X"], ["lesser"], ["X", "lesser"], ["K", "X", "lesser"]]
    for points, names in [*itertools.product((2, 3), kinds), (4, kinds[-1])]:
        free = by_place(points, {(0, 0): LARGEST} | {(t, t): 1.0 for t in range(1, points)})
        self_energy = by_place(points, {(0, 0): LARGEST} if "K" in names else {(points - 1, 1): 0.5})
        source = {(t, u): (0.0, 0.5) for t in range(points) for u in range(1, points)}
        source |= {(t, 0): LARGEST for t in range(points) if "X" in names}
        source |= {(0, u): (0.0, LARGEST) for u in range(1, points) if "lesser" in names}
        yield answered(names, solved(RUN, count(points), free, self_energy, by_place(points, source)))
    # A step that halves to 0: X(0, 1), and the lesser function at (1, 2), by G(1, 0)·X(0, 2).
    none = [0.0] * 8
    yield refused(["X"], solved(RUN, HALVED[2], strong(2), none, by_place(2, {(0, 0): LARGEST, (0, 1): 2.0})))
    free = by_place(3, {(0, 0): LARGEST, (1, 0): LARGEST, (2, 2): 1.0})
    yield refused(["lesser"], solved(RUN, HALVED[3], free, [0.0] * 18, by_place(3, {(0, 2): LARGEST})))
    # A product that is formed overflows too: of X(1, 1), and of the lesser function at (1, 1).
    yield refused(["X"], solved(RUN, count(2), strong(2), none, by_place(2, {(0, 0): LARGEST, (1, 1): 2.0})))
    yield refused(["X", "lesser"], solved(RUN, count(2), strong(2), none, by_place(2, {(0, 0): 2.0, (0, 1): 1.0, (1, 1): 0.5})))
    # One entry of a block of two orbitals: X(1, 0), the lesser function at (0, 1), and X(0, 1).
    free = with_entries(2, 2, {(0, 0, 0, 1): (LARGEST, 0.0), (1, 1, 0, 0): (0.0, 8.0), (1, 1, 1, 1): (0.0, 1.0)})
    for at, value, wanted, names in [
        ((1, 0, 0, 1), 8.0, answered, ["X"]), ((0, 1, 1, 0), 8.0, answered, ["lesser"]), ((0, 1, 1, 0), LARGEST, refused, []),
    ]:
        yield wanted(names, solved(RUN, count(2), free, [0.0] * 32, with_entries(2, 2, {at: (value, 0.0)}), 2))


# ---- The Langreth product ------------------------------------------------------


def langreth():
    """The retarded diagonal alone, the advanced one alone, and both; the lesser and greater sums read them too, and are finite."""
    for points, names in itertools.product((2, 3), [["retarded"], ["advanced"], ["retarded", "advanced"]]):
        diagonal = {(t, t): LARGEST for t in range(points)}
        small = {(t, u): (0.0, SMALL) for t in range(points) for u in range(points)}
        strong_in = lambda name: diagonal if name in names else small
        values = {RETARDED: strong_in("retarded"), ADVANCED: strong_in("advanced"), LESSER: small, GREATER: small}
        yield answered(names, product(count(points), placed(values, points), placed(values, points)))
    diagonal = {(t, t): LARGEST for t in range(2)}
    both = placed({RETARDED: diagonal, ADVANCED: diagonal})
    yield answered(["retarded", "advanced"], product(HALVED[2], both, both))
    for component, name, at in ((RETARDED, "retarded", (1, 0)), (ADVANCED, "advanced", (0, 1))):
        # An interval of two points, whose step halves to 0 once.
        for times in (HALVED[2], count(2)):
            yield refused([name], product(times, placed({component: diagonal | {at: 2.0}}), placed({component: diagonal})))
        # One entry of a block of two orbitals, on the diagonal and beside it.
        for place, wanted, names in (((at[1], at[1]), answered, [name]), ((at[0], at[1]), refused, [])):
            left, right = zeros(2, 2), zeros(2, 2)
            left[component] = with_entries(2, 2, {(*place, 1, 0): (0.0, LARGEST)})
            right[component] = with_entries(2, 2, {(at[1], at[1], 0, 1): (2.0, 0.0)})
            yield wanted(names, product(count(2), left, right, 2))
    # The full convolutions form the products of the same numbers.
    for component, times in ((LESSER, HALVED[2]), (GREATER, count(2))):
        strong_too = placed({RETARDED: diagonal, component: diagonal})
        yield refused(["retarded"], product(times, placed({RETARDED: diagonal}), strong_too))
        strong_too = placed({ADVANCED: diagonal, component: diagonal})
        yield refused(["advanced"], product(times, strong_too, placed({ADVANCED: diagonal})))


CASES = [causal, causal_blocks, kernel, starts, langreth]
