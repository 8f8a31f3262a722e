"""Draws pairs of runs of two dots that do not couple, and compares what they leave of the first dot, in bits, by the reading in reference/.

    python3 scripts/fuzz_dots.py [COUNT [SEED [PROGRAM]]]

With a PROGRAM (the built replay, target/bin/replay) every call goes to it as well, and what it prints is compared with the reading.

The orbitals are split into two groups at random. Two runs agree in points, orbitals, times and the entries of the first group; every cross entry is a zero
of either sign, drawn anew for each run, and so are the second group's entries, the capacity, the tolerance, room and what the lent slices hold before. A run
may be made by a run and appends. Where the reading has the occupied form, each run is of one form or the other; with one of each, g0 is +0 in the first group.
Where both are accepted:

- The first group's entries of the retarded and of the lesser function are the same.
- The cross entries of both and of the scratch are zeros.
- Bond flows of equal arguments with both orbitals in the first group answer the same, refusals too: a time past the points, an orbital past the last one or
  a factor that is not finite.

As a control the cross entries of some pairs are then put to 1: the last lines count how often the first group still agrees, beside the answers, and how
often each law was asked."""

import collections
import pathlib
import sys
from typing import NamedTuple

ROOT = pathlib.Path(__file__).resolve().parent.parent
sys.path.insert(0, str(ROOT / "reference"))

from bits import same_bits  # noqa: E402
from document01 import DEFAULT_TOLERANCE, LARGEST, Block, Refusal, function_length  # noqa: E402
from document02 import within  # noqa: E402
from fuzz_appends import LENT, Asked, asked, compare, hold, room  # noqa: E402
from fuzz_calls import SMALL, function, rising  # noqa: E402
from replay_calls.answers import BOOKED, with_counters  # noqa: E402
from replay_calls.appends import append, in_capacity, laid_out, run  # noqa: E402
from replay_calls.calls import INFINITY, NAN  # noqa: E402
from replay_calls.observables import flow  # noqa: E402

try:
    from replay_calls.occupied import started  # noqa: E402
except ImportError:
    started = None

MOST_ORBITALS = 6
# How often the first group still agrees where cross entries are no zeros.
CONTROL = collections.Counter()


class Dots(NamedTuple):
    """What two runs share: the split, as whether an orbital is in the first group, the points and the times."""

    first: list
    points: int
    times: list

    @property
    def orbitals(self):
        return len(self.first)


# ---- Numbers -------------------------------------------------------------------


def zero(choose):
    return choose.choice([0.0, -0.0])


def groups(dots, at):
    """Whether the row and the column of a number of a function, or of a block, are in the first group."""
    a, b = divmod(at // 2 % dots.orbitals**2, dots.orbitals)
    return dots.first[a], dots.first[b]


def split(dots, shared, own, choose):
    """The shared numbers in the first group, one's own in the second, zeros across."""

    def number(at):
        row, column = groups(dots, at)
        return zero(choose) if row != column else shared[at] if row else own[at]

    return [number(at) for at in range(len(shared))]


def operand(dots, choose, above):
    """A function with large numbers in few draws alone, so that most runs are accepted."""
    numbers = function(dots.points, dots.orbitals, choose, above=above)
    if choose.random() < 0.1:
        return numbers
    small = choose.choice(SMALL)
    return [small(choose) if abs(x) > 4.0 else x for x in numbers]


def block(dots, choose):
    kind = choose.choice(SMALL)
    return [kind(choose) for _ in range(2 * dots.orbitals**2)]


def some_dots(choose):
    orbitals = choose.choice([1, 2, 2, 2, 3, 3, 4, 5, MOST_ORBITALS])
    points = choose.choice([2, 2, 3, 3, 4]) if orbitals < 4 else choose.choice([2, 2, 3])
    return Dots([choose.random() < 0.5 for _ in range(orbitals)], points, rising(points, choose))


# ---- Runs ----------------------------------------------------------------------


def ask(call, g0):
    """A run or an append of the empty form, or from g0."""
    if g0 is None:
        return asked(call)
    call = started(call, g0)
    outcome, session = BOOKED[call.function](call)
    return Asked(call, " ".join(with_counters(outcome, session)), outcome)


def accepted(found):
    return not isinstance(found.outcome.answer, Refusal)


def solved(dots, operands, g0, tolerance, choose):
    """The calls of a run in a capacity of its own, at once or with appends, up to the first refusal; and the capacity."""
    points, n = dots.points, dots.orbitals
    capacity = points + choose.choice([0, 0, 1, 2])
    rooms = lambda: room(function_length(capacity, n), choose)
    lent = [rooms() for _ in LENT]
    at = points if choose.random() < 0.7 else choose.randint(2, points)
    calls = []
    for told in range(at, points + 1):
        given = [laid_out(within(numbers, told, points, n), told, capacity, n, rooms()) for numbers in operands]
        times = dots.times[:told] + room(capacity - told, choose)
        step = run(told, capacity, n, times, given, lent, tolerance) if told == at else append(told - 1, capacity, n, times, given, lent, tolerance)
        calls.append(ask(step, g0))
        if not accepted(calls[-1]):
            break
        lent = list(calls[-1].outcome.lent.values())
    return calls, capacity


def forms(dots, choose):
    """For each run its g0, or nothing where it starts empty."""
    if started is None or choose.random() < 0.3:
        return [None, None]
    shared = block(dots, choose)
    kinds = [choose.random() < 0.7 for _ in range(2)]
    if not all(kinds):
        shared = [0.0] * len(shared)
    return [Block(dots.orbitals, dots.orbitals, split(dots, shared, block(dots, choose), choose)) if kind else None for kind in kinds]


# ---- Laws ----------------------------------------------------------------------


def left(dots, capacity, found):
    """What a run left by name, as document 01 lays it out."""
    return {name: within(numbers, dots.points, capacity, dots.orbitals) for name, numbers in found.outcome.lent.items()}


def same_first(dots, ours, theirs):
    pairs = [(x, y) for name in ("retarded", "lesser") for at, (x, y) in enumerate(zip(ours[name], theirs[name])) if all(groups(dots, at))]
    return all(same_bits(x, y) for x, y in pairs)


def check_across(dots, found, slices):
    for numbers in slices.values():
        cross = [x for at, x in enumerate(numbers) if len(set(groups(dots, at))) == 2]
        hold(all(x == 0.0 for x in cross), "cross entries are zeros", found.call)


def flows(dots, runs, choose):
    """Bond flows within the first group, asked of both."""
    inside = [a for a, first in enumerate(dots.first) if first]
    orbital = lambda: choose.choice(inside) if inside and choose.random() < 0.95 else dots.orbitals + 1
    part = lambda: choose.uniform(-2, 2) if choose.random() < 0.97 else choose.choice([LARGEST, INFINITY, NAN])
    for _ in range(2):
        time = choose.choice([*range(dots.points)] * 4 + [dots.points])
        a, b, parts = orbital(), orbital(), [part() for _ in range(3)]
        pair = [
            asked(in_capacity(flow(dots.points, dots.orbitals, found.outcome.lent["lesser"], time, a, b, parts[:2], parts[2]), capacity))
            for found, capacity in runs
        ]
        hold(pair[0].text == pair[1].text, "flows within the first group answer the same", pair[1].call)
        yield from pair


def control(dots, operands, theirs, g0, choose):
    """Whether the first group is still the same where the cross entries are 1, but above the diagonal."""

    def coupled(at, x):
        t, u = divmod(at // (2 * dots.orbitals**2), dots.points)
        return 1.0 if u <= t and at % 2 == 0 and len(set(groups(dots, at))) == 2 else x

    if len(set(dots.first)) < 2:
        return
    calls, capacity = solved(dots, [[coupled(at, x) for at, x in enumerate(numbers)] for numbers in operands], g0, 1.0, choose)
    if accepted(calls[-1]):
        CONTROL["agrees" if same_first(dots, left(dots, capacity, calls[-1]), theirs) else "differs"] += 1


def drawn(choose):
    dots = some_dots(choose)
    above = choose.random() < 0.15
    draw = lambda above: operand(dots, choose, above)
    shared = [draw(above), draw(above), draw(True)]
    given = [[split(dots, numbers, draw(above or index == 2), choose) for index, numbers in enumerate(shared)] for _ in range(2)]
    tolerance = lambda: 1.0 if above else choose.choice([DEFAULT_TOLERANCE, 1.0, LARGEST])
    g0s = forms(dots, choose)
    runs = [solved(dots, operands, g0, tolerance(), choose) for operands, g0 in zip(given, g0s)]
    calls = [found for made, _ in runs for found in made]
    if all(accepted(made[-1]) for made, _ in runs):
        last = [(made[-1], capacity) for made, capacity in runs]
        slices = [left(dots, capacity, found) for found, capacity in last]
        hold(same_first(dots, *slices), "first-group entries are the same", last[1][0].call)
        for (found, _), numbers in zip(last, slices):
            check_across(dots, found, numbers)
        calls += flows(dots, last, choose)
        if choose.random() < 0.1:
            control(dots, given[1], slices[0], g0s[1], choose)
    return calls


def controls(_):
    yield from (f"with cross entries of 1 the first group {found}: {times}" for found, times in sorted(CONTROL.items()))


if __name__ == "__main__":
    compare(drawn, controls)
