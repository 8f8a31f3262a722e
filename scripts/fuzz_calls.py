"""Draws calls of the functions that sum over times, feeds them to the program replay and to the reading in reference/, and compares what they print.

    python3 scripts/fuzz_calls.py PROGRAM [COUNT [SEED]]

PROGRAM is the built program (target/bin/replay). Large numbers stand on the diagonal, in row 0, in column 0 or anywhere, among ordinary ones, zeros of
either sign and subnormal ones, so that products overflow where an interval has one point, where it is longer and its step halves to 0, and elsewhere.
A call that differs is written out as it stands in the program's list, and ends the run with status 1. The last lines count the answers."""

import collections
import math
import pathlib
import random
import subprocess
import sys

ROOT = pathlib.Path(__file__).resolve().parent.parent
sys.path.insert(0, str(ROOT / "reference"))

from document01 import DEFAULT_TOLERANCE, LARGEST, function_length  # noqa: E402
from replay_calls.answers import line, refusal  # noqa: E402
from replay_calls.calls import (  # noqa: E402
    CAUSAL, DYSON, DYSON_DEFAULT, FULL, LANGRETH, MOST_STORED, NAMES, NAN, RUN, SMALLEST, subnormal, words,
)  # fmt: skip
from replay_calls.convolutions import convolution  # noqa: E402
from replay_calls.one_point import unformed  # noqa: E402
from replay_calls.products import product  # noqa: E402
from replay_calls.reports import ADVANCED, RETARDED  # noqa: E402
from replay_calls.solves import call as solve  # noqa: E402

FUNCTIONS = (FULL, CAUSAL, DYSON, DYSON_DEFAULT, RUN, RUN, LANGRETH)
# How many calls that differ are written out whole.
MOST_WRITTEN = 10


# ---- Numbers -------------------------------------------------------------------


def scaled(low, high):
    """A number whose exponent is drawn between the two."""
    return lambda choose: math.ldexp(choose.uniform(-1, 1), choose.randint(low, high))


SMALL = [
    lambda choose: choose.choice([0.0, -0.0]), subnormal, scaled(-1060, -1030), scaled(-600, -500), scaled(0, 0),
    lambda choose: float(choose.randint(-2, 2)),
]  # fmt: skip
# The product of two numbers of the second kind overflows or just does not.
LARGE = [lambda choose: choose.choice([LARGEST, -LARGEST]), scaled(510, 514), scaled(1018, 1024), scaled(600, 1000)]
PLACES = [
    lambda t, u: t == u, lambda t, u: t == u == 0, lambda t, u: t == 0, lambda t, u: t == 0 < u, lambda t, u: u == 0,
    lambda t, u: t == 0 or u == 0, lambda t, u: True, lambda t, u: False,
]  # fmt: skip


def function(points, orbitals, choose, above=True):
    """Small numbers of one kind, or of several, and large ones at some places, all of them or a few; above the diagonal zeros, where it is asked."""
    some = choose.choice([*([kind] for kind in SMALL), SMALL, SMALL])
    large, place = choose.choice(LARGE), choose.choice(PLACES)
    share = choose.choice([1.0, 1.0, 0.3])
    numbers = []
    for at in range(function_length(points, orbitals)):
        t, u = divmod(at // (2 * orbitals**2), points)
        if t < u and not above:
            numbers.append(choose.choice([0.0, -0.0]))
        else:
            numbers.append((large if place(t, u) and choose.random() < share else choose.choice(some))(choose))
    return numbers


def rising(points, choose):
    """Times of ordinary steps, or of steps of which the first ones or all halve to 0."""
    halved = choose.choice([0, 0, 0, 1, choose.randint(1, points - 1), points - 1])
    times = [SMALLEST * index for index in range(halved + 1)]
    step = choose.choice([lambda: 1.0, lambda: choose.uniform(0.01, 2), lambda: choose.uniform(2, 64), lambda: 2.0**-1000])
    while len(times) < points:
        times.append(times[-1] + step())
    return times


# ---- Calls ---------------------------------------------------------------------


def drawn(choose):
    asked = choose.choice(FUNCTIONS)
    points, orbitals = choose.randint(2, 5), choose.choice([1, 1, 1, 2, 2, 3])
    times = rising(points, choose)
    draw = lambda **more: function(points, orbitals, choose, **more)
    if asked in (FULL, CAUSAL):
        return convolution(asked, times, draw(), draw(), orbitals)
    if asked == LANGRETH:
        # Large numbers that meet in one sum of six refuse the call: components of few pairs are drawn, and the others are +0.
        pair = choose.choice([[RETARDED], [ADVANCED], [RETARDED, ADVANCED]])
        none = [0.0] * function_length(points, orbitals)
        left, right = ([draw() if component in pair or choose.random() < 0.2 else none for component in range(4)] for _ in range(2))
        return product(times, left, right, orbitals)
    above = choose.random() < 0.1
    tolerance = choose.choice([DEFAULT_TOLERANCE] * 8 + [1.0, SMALLEST, LARGEST, choose.choice([0.0, -1.0, NAN])])
    return solve(asked, times, draw(above=above), draw(above=above), draw() if asked == RUN else None, orbitals, tolerance)


def printed(program, calls, most=MOST_STORED):
    """The lines that the program prints for the calls, whose slices have at most so many numbers."""
    done = subprocess.run([program], input="".join(words(call, most) for call in calls).encode(), capture_output=True)
    found = done.stdout.decode().splitlines()
    if done.returncode != 0 or done.stderr or len(found) != len(calls):
        sys.exit(f"status {done.returncode}, {len(found)} lines for {len(calls)} calls, standard error: {done.stderr[:400]}")
    return found


def told(call, due):
    """The function and its answer; of calls that came to the work, whether a product that is not formed would have overflowed."""
    number = refusal(due)
    answer = "accepted" if number is None else f"refused {number}"
    not_formed = ", a product not formed would have overflowed" if number in (None, 10) and unformed(call) else ""
    return f"{NAMES[call.function]}: {answer}{not_formed}"


def main():
    program = str(pathlib.Path(sys.argv[1]).resolve())
    count, seed = (int(word) for word in (sys.argv[2:] + ["5000", "1"][len(sys.argv) - 2 :]))
    calls = [drawn(random.Random(f"{seed} {index}")) for index in range(count)]
    answers = collections.Counter()
    differ = []
    for index, (call, found) in enumerate(zip(calls, printed(program, calls))):
        due = line(index, call)
        answers[told(call, due)] += 1
        if found != due:
            differ.append(index)
            print(f"difference at {seed}/{index}, {told(call, due)}\nfound {found[:200]}\ndue   {due[:200]}")
            if len(differ) <= MOST_WRITTEN:
                print(f"the call:\n{words(call)}")
    for answer, times in sorted(answers.items()):
        print(f"{answer}: {times}")
    print(f"{count} calls, {len(differ)} differ")
    sys.exit(bool(differ))


if __name__ == "__main__":
    main()
