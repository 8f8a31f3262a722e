"""Draws histories, a run in a capacity and appends to it, and compares them with the run over all points, in bits, by the reading in reference/.

    python3 scripts/fuzz_appends.py [COUNT [SEED [PROGRAM]]]

With a PROGRAM (the built replay, target/bin/replay) every call goes to it as well, and what it prints is compared with the reading: the histories, the
runs over all points, observables of what they leave, appends onto contents of no run, and calls with a wrong word, number or length.

Of a history: an append answers as the run over all points with its inputs and tolerance would; accepted, it leaves the slices of that run, begun on
what stood before the first call; refused, it leaves all but the new row and column as it was, and those too unless it is refused by 10, which puts +0
there. After a refusal the new point is given again with other numbers. Of any append: old entries of K and of the lesser function, and of the retarded
one above the diagonal, may be any numbers; one of X, or of the retarded function on or below its diagonal, that is not finite gives 10.

A call that differs is written out as it stands in the program's list, and ends the run with status 1. The last lines count the answers, at which of K,
G^R, X and G^< an append's 10 is met, and how often each law was asked: the slices of the run over all points once for each history with an append."""

import collections
import math
import pathlib
import random
import sys
from typing import NamedTuple

ROOT = pathlib.Path(__file__).resolve().parent.parent
sys.path.insert(0, str(ROOT / "reference"))

from bits import same_bits  # noqa: E402
from document01 import ACCEPTED, DEFAULT_TOLERANCE, LARGEST, Refusal, function_length  # noqa: E402
from document02 import within  # noqa: E402
from fuzz_calls import MOST_WRITTEN, SMALL, function, printed, rising  # noqa: E402
from replay_calls.answers import ANSWER, OUTCOME, answer, refusal, with_slices  # noqa: E402
from replay_calls.appends import append, in_capacity, laid_out, run, stage  # noqa: E402
from replay_calls.calls import APPEND, INFINITY, MOST, NAMES, NAN, RUN_IN, SMALLEST, words  # noqa: E402
from replay_calls.observables import density, expectation, flow, number  # noqa: E402

MOST_CAPACITY, MOST_ORBITALS = 12, 4
# How many numbers a slice may have: one more than a function of the most points and orbitals.
MOST_NUMBERS = function_length(MOST_CAPACITY, MOST_ORBITALS) + 1
# Names of the lent slices by their order in a call.
LENT = ("retarded", "lesser", "kernel", "sums")


class Asked(NamedTuple):
    """A call and what it answers by the reading; of a run or an append with the slices it leaves, by name."""

    call: object
    text: str
    outcome: object = None


def asked(call):
    if call.function not in OUTCOME:
        return Asked(call, " ".join(ANSWER[call.function](call)))
    outcome = OUTCOME[call.function](call)
    return Asked(call, " ".join(with_slices(outcome)), outcome)


class Differs(Exception):
    """A law that does not hold, and the call that breaks it."""


# How often each law was asked.
LAWS = collections.Counter()


def hold(truth, law, call):
    LAWS[law] += 1
    if not truth:
        raise Differs(law, call)


# ---- Numbers -------------------------------------------------------------------

ROOM = [
    lambda choose: NAN, lambda choose: choose.choice([NAN, INFINITY, -INFINITY]), lambda choose: choose.choice([LARGEST, -LARGEST]),
    lambda choose: choose.uniform(-1, 1), lambda choose: choose.choice([0.0, -0.0]),
]  # fmt: skip


def room(count, choose):
    kind = choose.choice(ROOM)
    return [kind(choose) for _ in range(count)]


def tolerance(choose):
    return choose.choice([DEFAULT_TOLERANCE] * 12 + [1.0, LARGEST, SMALLEST, choose.choice([0.0, -1.0, NAN, INFINITY])])


def sizes(choose):
    """A capacity, orbitals, the points of the run and those that the appends come to."""
    orbitals = choose.choice([1, 1, 1, 1, 2, 2, 3, MOST_ORBITALS])
    capacity = choose.randint(2, MOST_CAPACITY if choose.random() < 0.2 else 5)
    first = choose.choice([2, 2, choose.randint(2, capacity)])
    return capacity, orbitals, first, choose.choice([capacity, choose.randint(first, capacity)])


class Inputs(NamedTuple):
    """Times and operands over so many points, laid out for them."""

    points: int
    orbitals: int
    times: list
    operands: list


def operand(points, orbitals, late, choose, above=True):
    """A function whose large numbers stand, more often than not, at late points alone."""
    numbers = function(points, orbitals, choose, above=above)
    if choose.random() < 0.3:
        return numbers
    small = choose.choice(SMALL)
    times = [max(divmod(at // (2 * orbitals**2), points)) for at in range(len(numbers))]
    return [small(choose) if abs(x) > 4.0 and time < late else x for x, time in zip(numbers, times)]


def inputs_of(points, orbitals, late, choose):
    above = choose.random() < 0.05
    draw = lambda **more: operand(points, orbitals, late, choose, **more)
    return Inputs(points, orbitals, rising(points, choose), [draw(above=above), draw(above=above), draw()])


def given_again(inputs, new, choose):
    """The inputs with other numbers at the new point: ordinary ones, +0 above the diagonal; and a time one later than the time before."""
    times = [*inputs.times[:new], *(inputs.times[new - 1] + 1.0 + index for index in range(inputs.points - new))]
    block = 2 * inputs.orbitals**2
    kind = choose.choice(SMALL)

    def given(index, at, x):
        t, u = divmod(at // block, inputs.points)
        if max(t, u) != new:
            return x
        return 0.0 if t < u and index < 2 else kind(choose)

    operands = [[given(index, at, x) for at, x in enumerate(numbers)] for index, numbers in enumerate(inputs.operands)]
    return inputs._replace(times=times, operands=operands)


def told(inputs, points, capacity, choose):
    """The times and operands as a call of so many points is lent them: beyond is room, or points to come stand there already."""
    known = choose.choice([points, inputs.points])
    n = inputs.orbitals
    cut = lambda numbers: within(numbers, known, inputs.points, n)
    lay = lambda numbers: laid_out(cut(numbers), known, capacity, n, room(function_length(capacity, n), choose))
    return inputs.times[:known] + room(capacity - known, choose), [lay(numbers) for numbers in inputs.operands]


# ---- Laws ----------------------------------------------------------------------


def agree(left, right):
    return len(left) == len(right) and all(map(same_bits, left, right))


def all_agree(left, right):
    return all(map(agree, left.values(), right.values()))


def lent(call):
    return dict(zip(LENT, call.slices[4:]))


def is_new(call, at):
    """Whether a number's place is in the new row or column."""
    return max(divmod(at // (2 * call.orbitals**2), *call.more)) == call.points


def check_stays(found):
    """What an append does not work out stays; its 10 leaves +0 at the new row and column."""
    call, outcome = found.call, found.outcome
    before = lent(call)
    if outcome.answer not in (ACCEPTED, Refusal(10)):
        hold(all_agree(outcome.lent, before), "a refused append changes nothing", call)
        return
    for name, numbers in outcome.lent.items():
        old = [same_bits(x, before[name][at]) for at, x in enumerate(numbers) if not is_new(call, at)]
        hold(all(old), "old entries and room stay", call)
        if outcome.answer == Refusal(10):
            new = [same_bits(x, 0.0) for at, x in enumerate(numbers) if is_new(call, at)]
            hold(all(new), "an append's 10 leaves +0 at the new row and column", call)


def over_all_points(call, before):
    """The run over the points of a run or an append, begun on what stood before the first call of a history."""
    points = call.points + (call.function == APPEND)
    return call._replace(function=RUN_IN, points=points, slices=[*call.slices[:4], *before])


def check_whole(last, before):
    """The last call of a history answers as the run over all points, which is given back; accepted, it leaves the same slices."""
    whole = asked(over_all_points(last.call, before))
    hold(answer(whole.outcome.answer) == answer(last.outcome.answer), "the answer is that of the run over all points", last.call)
    if whole.outcome.answer is ACCEPTED:
        hold(all_agree(whole.outcome.lent, last.outcome.lent), "the slices are those of the run over all points", last.call)
    return whole


def is_unread(call, name, t, u):
    """Whether an old entry is one that no append reads."""
    return max(t, u) < call.points and (name in ("kernel", "lesser") or name == "retarded" and t < u)


def places_in(call, numbers):
    """The place of each number of a lent slice."""
    return [divmod(at // (2 * call.orbitals**2), *call.more) for at in range(len(numbers))]


def check_read(found):
    """An old entry that is read and not finite gives 10; beside one that is not read the append may be accepted."""
    call = found.call
    if found.outcome.answer not in (ACCEPTED, Refusal(10)):
        return
    for name, numbers in lent(call).items():
        old = [(t, u) for x, (t, u) in zip(numbers, places_in(call, numbers)) if max(t, u) < call.points and not math.isfinite(x)]
        if any(not is_unread(call, name, t, u) for t, u in old):
            hold(found.outcome.answer == Refusal(10), "an old entry that is read and not finite gives 10", call)
        elif old and found.outcome.answer is ACCEPTED:
            LAWS["accepted beside an old entry that is not read and not finite"] += 1


def check_unread(first):
    """Old K, the old lesser function and old entries of the retarded function above the diagonal are not read."""
    call = first.call
    slices = list(call.slices)
    for index, name in enumerate(LENT, 4):
        places = places_in(call, slices[index])
        slices[index] = [NAN if is_unread(call, name, t, u) or max(t, u) >= call.points else x for x, (t, u) in zip(slices[index], places)]
    other = asked(call._replace(slices=slices))
    hold(answer(other.outcome.answer) == answer(first.outcome.answer), "an answer rests on what is read alone", call)
    if first.outcome.answer is ACCEPTED:
        for name in LENT:
            pairs = enumerate(zip(first.outcome.lent[name], other.outcome.lent[name]))
            hold(all(same_bits(*pair) for at, pair in pairs if is_new(call, at)), "new entries rest on what is read alone", call)


# ---- Calls ---------------------------------------------------------------------


def observed(capacity, orbitals, points, lesser, choose):
    """Observables of a lesser function in the capacity, at a time that may be past the points."""
    time = choose.randint(0, points)
    a, b = choose.randrange(orbitals), choose.randrange(orbitals)
    parts = [choose.uniform(-2, 2) for _ in range(3)]
    block = [choose.uniform(-1, 1) for _ in range(2 * orbitals**2)]
    wide = choose.choice([LARGEST, DEFAULT_TOLERANCE])
    for call in (
        density(points, orbitals, lesser, time), number(points, orbitals, lesser, time, wide),
        expectation(points, orbitals, lesser, time, block, wide), flow(points, orbitals, lesser, time, a, b, parts[:2], parts[2]),
    ):  # fmt: skip
        yield asked(in_capacity(call, capacity))


def history(choose):
    """The calls of a history, by the reading; each step was compared with the law."""
    capacity, orbitals, points, count = sizes(choose)
    inputs = inputs_of(count, orbitals, choose.randint(points, count), choose)
    before = [room(function_length(capacity, orbitals), choose) for _ in LENT]
    last = asked(run(points, capacity, orbitals, *told(inputs, points, capacity, choose), before, tolerance(choose)))
    calls = [last]
    kept = last if last.outcome.answer is ACCEPTED else None
    tries = 0
    while kept and points < count and tries < 3:
        lent_now = last.outcome.lent.values()
        tries += 1
        last = asked(append(points, capacity, orbitals, *told(inputs, points + 1, capacity, choose), lent_now, tolerance(choose)))
        calls.append(last)
        check_stays(last)
        if last.outcome.answer is ACCEPTED:
            kept, points, tries = last, points + 1, 0
        else:
            calls.append(check_whole(last, before))
            inputs = given_again(inputs, points, choose)
    if kept:
        # Not the slices as they are now: a refusal by 10 after the last accepted append has put +0 into room.
        if kept.call.function == APPEND:
            calls.append(check_whole(kept, before))
        calls += observed(capacity, orbitals, points, kept.outcome.lent["lesser"], choose)
    return calls


def any_append(choose):
    """An append onto contents of no run, some of them not finite, onto one point too."""
    capacity, orbitals, _, count = sizes(choose)
    inputs = inputs_of(count, orbitals, count - 1, choose)
    length = function_length(capacity, orbitals)
    contents = [function(capacity, orbitals, choose) if choose.random() < 0.9 else room(length, choose) for _ in LENT]
    if choose.random() < 0.3:
        choose.choice(contents)[choose.randrange(length)] = choose.choice([NAN, INFINITY, -INFINITY])
    return append(count - 1, capacity, orbitals, *told(inputs, count, capacity, choose), contents, tolerance(choose))


def onto_any(choose):
    """What such an append answers, which was compared with the laws."""
    found = asked(any_append(choose))
    check_stays(found)
    check_read(found)
    check_unread(found)
    return [found]


WRONG_NUMBERS = [NAN, INFINITY, -INFINITY, LARGEST, -LARGEST, 0.0]


def damaged(call, choose):
    """The call with a wrong word, with wrong numbers, or with a slice of another length; it may be accepted still."""
    capacity = call.more[0]
    kind = choose.choice(["points", "orbitals", "capacity", "shorter", "longer", "number", "number", "number", "ends"])
    if kind == "points":
        return call._replace(points=choose.choice([0, 1, capacity - 1, capacity, capacity + 1, 257, MOST]))
    if kind == "orbitals":
        return call._replace(orbitals=choose.choice([0, call.orbitals + 1, 17, MOST]))
    if kind == "capacity":
        return call._replace(more=(choose.choice([0, 1, capacity - 1, capacity + 1, 256, 257, MOST]), *call.more[1:]))
    slices = [list(numbers) for numbers in call.slices]
    # Of a run or an append, times and operands.
    at = choose.randrange(min(len(slices), 4) if kind == "number" else len(slices))
    if kind == "shorter":
        slices[at].pop()
    elif kind == "longer":
        slices[at].append(0.0)
    elif kind == "number":
        slices[at][choose.randrange(len(slices[at]))] = choose.choice(WRONG_NUMBERS)
    else:
        # Of times, the first and the last one.
        slices[0][0], slices[0][call.points - (call.function != APPEND)] = -LARGEST, LARGEST
    return call._replace(slices=slices)


def drawn(choose):
    """A history or an append onto any contents; after it, sometimes, one of its calls with a fault."""
    calls = history(choose) if choose.random() < 0.7 else onto_any(choose)
    if choose.random() < 0.4:
        calls.append(asked(damaged(choose.choice(calls).call, choose)))
    return calls


# ---- The comparison ------------------------------------------------------------


def compared(program, calls):
    """The calls, as (where they were drawn, what was asked), whose lines differ from the program's."""
    lines = printed(program, [found.call for _, found in calls], MOST_NUMBERS)
    for index, ((where, found), line) in enumerate(zip(calls, lines)):
        due = f"{index} {found.text}"
        if line != due:
            yield where, found.call, f"found {line[:200]}\ndue   {due[:200]}"


def stages(calls):
    """At which of K, G^R, X and G^< an append's 10 is met."""
    appends_by_10 = [found.call for found in calls if found.call.function == APPEND and refusal(found.text) == 10]
    for made, times in sorted(collections.Counter(map(stage, appends_by_10)).items()):
        yield f"append_point: refused 10 in {made}: {times}"


def compare(draw, more=lambda calls: ()):
    """Draws lists of calls, compares them as the command's words say and tells what was found; `more` gives further lines about the calls."""
    count, seed = (int(word) for word in (sys.argv[1:3] + ["1000", "1"][len(sys.argv) - 1 :]))
    program = str(pathlib.Path(sys.argv[3]).resolve()) if len(sys.argv) > 3 else None
    calls, differ = [], []
    for index in range(count):
        where = f"{seed}/{index}"
        try:
            calls += [(where, found) for found in draw(random.Random(f"{seed} {index}"))]
        except Differs as difference:
            law, call = difference.args
            differ.append((where, call, f"by the reading alone: {law}"))
    if program:
        differ += compared(program, calls)
    for at, (where, call, told_of_it) in enumerate(differ):
        print(f"difference at {where}, {NAMES[call.function]}\n{told_of_it}")
        if at < MOST_WRITTEN:
            print(f"the call:\n{words(call, MOST_NUMBERS)}")
    answers = collections.Counter((found.call.function, refusal(found.text) or 0) for _, found in calls)
    for (function_asked, refused), times in sorted(answers.items()):
        print(f"{NAMES[function_asked]}: {f'refused {refused}' if refused else 'answered'}: {times}")
    for line in more([found for _, found in calls]):
        print(line)
    for law, times in LAWS.items():
        print(f"{law}: asked {times} times")
    print(f"{count} drawn, {len(calls)} calls, {'all' if program else 'none'} of them to a program, {len(differ)} differ")
    sys.exit(bool(differ))


if __name__ == "__main__":
    compare(drawn, stages)
