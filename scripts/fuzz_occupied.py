"""Draws runs in a capacity and appends that start from a block g0, in a session, and compares them with the empty form, with the run over all points and
with calls on blocks, in bits, by the reading in reference/.

    python3 scripts/fuzz_occupied.py [COUNT [SEED [PROGRAM]]]

With a PROGRAM (the built replay, target/bin/replay) every call goes to it as well, and what it prints is compared with the reading: histories, the runs
over all points, the same calls of the empty form, appends onto contents of no run, and calls with a wrong word, number, length or g0. The laws:

- A call is refused by the first no of those that the empty form gives before 17 and those of g0's shape and numbers. A desk above 7 is 22 before all; where
  its counter and the call's count pass 2^64 - 1 the call is 17. Each leaves all as it was.
- From a g0 of zeros, of either sign, the answer but for its count and every slice are those of the empty form.
- From any g0, K, the retarded function and X are those of the empty form, where both are accepted, and the lesser function is what calls on blocks make of
  them: the two products of a start, then the terms.
- An accepted call carries its count, which is how many products of blocks the reading forms for it.
- An append changes the new row and column alone; its 10 leaves +0 there. It reads no more old entries than the empty form does.
- A run and its appends with one g0 leave and count what the run over all points does. An append that is refused answers as that run does.
- Two accepted runs, which may differ in form where g0 is +0, whose data agree up to an index agree in rows up to it (demand 3).

A call that differs is written out as it stands in the program's list, and ends the run with status 1. The last lines count the answers, and how often
each law was asked."""

import itertools
import math
import pathlib
import sys

ROOT = pathlib.Path(__file__).resolve().parent.parent
sys.path.insert(0, str(ROOT / "reference"))

import document02  # noqa: E402
from check_sessions import formed  # noqa: E402
from document01 import ACCEPTED, Block, Refusal, block_at, function_length  # noqa: E402
from document02 import DESKS, Formed, occupied_formula, written  # noqa: E402
from fuzz_appends import (  # noqa: E402
    LENT, MOST_CAPACITY, Asked, Inputs, agree, all_agree, any_append, check_read, check_stays, compare, damaged, given_again, hold, inputs_of, is_new, is_unread,
    places_in, room, sizes, told, tolerance,
)  # fmt: skip
from fuzz_calls import LARGE, SMALL  # noqa: E402
from fuzz_sessions import any_desk, total  # noqa: E402
from replay_calls.answers import BOOKED, OUTCOME, answer, lent_block, with_counters  # noqa: E402
from replay_calls.appends import append, run  # noqa: E402
from replay_calls.calls import APPEND, INFINITY, MOST, NAN, RUN_IN  # noqa: E402
from replay_calls.occupied import EMPTY, count_of, empty, lesser_due, occupied  # noqa: E402
from replay_calls.sessions import NOTHING, at_desk, outside  # noqa: E402
from replay_calls.solves import retarded  # noqa: E402

OUTSIDE = {RUN_IN: document02.occupied_run, APPEND: document02.occupied_append}
# The questions before 17 in their order.
ORDER = (1, 2, 3, 16, 4, 5, 6, 7, 8, 9)


# ---- g0 ------------------------------------------------------------------------


def zeros_of(n, choose):
    kind = choose.choice([lambda: 0.0, lambda: -0.0, lambda: choose.choice([0.0, -0.0])])
    return Block(n, n, [kind() for _ in range(2 * n * n)])


def g0_of(n, choose):
    """Small numbers of one kind or of several, a few large ones among them or none; i times occupations; zeros."""
    if choose.random() < 0.1:
        return zeros_of(n, choose)
    if choose.random() < 0.2:
        return Block(n, n, [choose.uniform(0, 1) if at % 2 else 0.0 for at in range(2 * n * n)])
    some = choose.choice([*([kind] for kind in SMALL), SMALL])
    share = choose.choice([0.0, 0.0, 0.3, 1.0])
    large = choose.choice(LARGE)
    return Block(n, n, [(large if choose.random() < share else choose.choice(some))(choose) for _ in range(2 * n * n)])


def damaged_g0(g0, choose):
    """g0 with another shape, with a number that is not finite, or with fewer numbers or more than it has entries."""
    kind = choose.choice(["rows", "columns", "both", "number", "number", "fewer", "more"])
    side = lambda: choose.choice([0, 1, g0.rows - 1, g0.rows + 1, 16, 17, MOST])
    numbers = list(g0.numbers)
    if kind == "number":
        numbers[choose.randrange(len(numbers))] = choose.choice([NAN, INFINITY, -INFINITY])
    if kind == "fewer":
        numbers = numbers[: choose.randrange(len(numbers))]
    if kind == "more":
        numbers += [NAN] * choose.randint(1, 4)
    rows = side() if kind in ("rows", "both") else g0.rows
    columns = side() if kind in ("columns", "both") else g0.columns
    return Block(rows, columns, numbers)


def own_no(g0, n):
    """The first question that g0 is answered no by itself, with its places."""
    if 0 in (g0.rows, g0.columns):
        return Refusal(1)
    if max(g0.rows, g0.columns) > 16:
        return Refusal(2)
    if (g0.rows, g0.columns) != (n, n):
        return Refusal(3)
    for position, x in enumerate(lent_block(g0).numbers[: 2 * n * n]):
        if not math.isfinite(x):
            return Refusal(7, operand=3, first=position)


# ---- Laws ----------------------------------------------------------------------


def started(call, g0):
    """What the occupied form of a run or an append gives outside of a session."""
    told_before = (call.points, *call.more, call.orbitals, *call.slices[:4])
    return OUTSIDE[call.function](*told_before, lent_block(g0), call.tolerance, *call.slices[4:])


def first_no(call, g0):
    """The refusal before 17: the first of the empty form's and g0's own; of two by line 7 the empty form's, whose operands come first."""
    plain = OUTCOME[call.function](call).answer
    found = [refusal for refusal in (plain, own_no(g0, call.orbitals)) if isinstance(refusal, Refusal) and refusal.number in ORDER]
    return min(found, key=lambda refusal: ORDER.index(refusal.number), default=None)


def stays(call, outcome):
    return all(map(agree, outcome.lent.values(), call.slices[4:]))


def check_work(call, g0, asked, plain):
    """An accepted call, or one refused by 10, against the empty form and calls on blocks."""
    of_empty = OUTCOME[call.function](call)
    zeros = started(call, Block(call.orbitals, call.orbitals, [0.0] * (2 * call.orbitals**2)))
    hold(zeros.answer == of_empty.answer and all_agree(zeros.lent, of_empty.lent), "g0 at +0 leaves the empty form's bits", asked)
    if not any(g0.numbers[: 2 * call.orbitals**2]):
        hold(plain.answer == of_empty.answer and all_agree(plain.lent, of_empty.lent), "zeros of either sign do so too", asked)
    if plain.answer != ACCEPTED:
        return
    if of_empty.answer == ACCEPTED:
        same = [agree(plain.lent[name], of_empty.lent[name]) for name in ("retarded", "kernel", "sums")]
        hold(all(same), "K, the retarded function and X are those of the empty form", asked)
    made = lesser_due(asked, plain.lent["retarded"], plain.lent["sums"])
    due = written(call.slices[5], *call.more, call.orbitals, made)
    hold(agree(plain.lent["lesser"], due), "the lesser function is what calls on blocks make", asked)


def check_append(call, g0, asked, plain):
    """What an append leaves alone, what gives 10, and that nothing unread is read."""
    check_stays(Asked(call, "", plain))
    check_read(Asked(call, "", plain))
    slices = list(call.slices)
    for index, name in enumerate(LENT, 4):
        numbers = zip(slices[index], places_in(call, slices[index]))
        slices[index] = [NAN if is_unread(call, name, t, u) or max(t, u) >= call.points else x for x, (t, u) in numbers]
    other = started(call._replace(slices=slices), g0)
    hold(other.answer == plain.answer, "an answer rests on what is read alone", asked)
    if plain.answer == ACCEPTED:
        for name in LENT:
            pairs = enumerate(zip(plain.lent[name], other.lent[name]))
            hold(all(agree([x], [y]) for at, (x, y) in pairs if is_new(call, at)), "new entries rest on what is read alone", asked)


def check_answer(call, g0, asked, outcome, session):
    """`call` is the run or the append outside of a session and without g0, `asked` the one that starts from it at a desk."""
    _, desk, *counters = asked.more
    accepted = isinstance(outcome.answer, Formed)
    due = [x + (count_of(asked) if accepted and at == desk else 0) for at, x in enumerate(counters)]
    hold(list(session.counters) == due, "the desk's counter alone moves, by the count of an accepted call", asked)
    refusal = Refusal(22) if desk >= DESKS else first_no(call, g0)
    if refusal is None and counters[desk] + count_of(asked) > MOST:
        refusal = Refusal(17)
    if refusal:
        hold(answer(outcome.answer) == answer(refusal), "refused by the first no", asked)
        hold(stays(call, outcome), "a refusal but for 10 changes nothing", asked)
        return
    plain, products = formed(started, call, g0)
    hold(plain.answer in (ACCEPTED, Refusal(10)) and all_agree(outcome.lent, plain.lent), "with room the slices are those outside of a session", asked)
    if plain.answer == ACCEPTED:
        hold(outcome.answer == Formed(products) and products == count_of(asked), "the count is how many products were formed", asked)
    else:
        hold(outcome.answer == Refusal(10), "10 as outside of a session", asked)
    check_work(call, g0, asked, plain)
    if call.function == APPEND:
        check_append(call, g0, asked, plain)


# ---- Calls ---------------------------------------------------------------------


class Session:
    """A session's counters, and all that was asked in it."""

    def __init__(self, totals):
        self.counters = list(totals)
        self.calls = []

    def ask(self, call, g0, desk):
        """The outcome of a run or an append that starts from g0, which was compared with the laws."""
        asked = occupied(at_desk(call, desk, self.counters), g0)
        outcome, session = BOOKED[asked.function](asked)
        self.calls.append(Asked(asked, " ".join(with_counters(outcome, session)), outcome))
        check_answer(call, g0, asked, outcome, session)
        self.counters = list(session.counters)
        return outcome

    def beside(self, call):
        """The outcome of a call that is not of this session, for a program too."""
        outcome, session = BOOKED[call.function](call)
        self.calls.append(Asked(call, " ".join(with_counters(outcome, session)), outcome))
        return outcome

    def any_call(self, choose):
        """One of the calls from a g0 that has its numbers."""
        whole = lambda call: call.function in EMPTY and len(call.slices[4].numbers) == 2 * call.orbitals**2 > 0
        return choose.choice([found.call for found in self.calls if whole(found.call)])


def check_whole(session, kept, g0, counts, before, outcome):
    """The last call of a history answers as the run over all points from the same g0; accepted, it leaves the same slices and the counts sum to its own."""
    points = kept.points + (kept.function == APPEND)
    whole = kept._replace(function=RUN_IN, points=points, slices=[*kept.slices[:4], *before])
    asked = occupied(at_desk(whole, 0, NOTHING), g0)
    found = session.beside(asked)
    if not isinstance(outcome.answer, Formed):
        hold(answer(found.answer) == answer(outcome.answer), "a refused append answers as the run over all points", asked)
        return
    hold(all_agree(found.lent, outcome.lent), "a history leaves what the run over all points does", asked)
    hold(found.answer == Formed(sum(counts)) == Formed(occupied_formula(points)), "a history counts like the run over all points", asked)


def ordinary(points, orbitals, choose):
    """Inputs and g0 of ordinary numbers, so that no term is lost beside another."""
    draw = lambda count: [choose.uniform(-1, 1) for _ in range(count)]
    operands = [draw(function_length(points, orbitals)) for _ in range(3)]
    times = list(itertools.accumulate(choose.uniform(0.01, 2) for _ in range(points)))
    operands[:2] = (retarded(points, orbitals, numbers) for numbers in operands[:2])
    return Inputs(points, orbitals, times, operands), Block(orbitals, orbitals, draw(2 * orbitals**2))


def history(session, choose):
    """A run and appends to it with one g0, until one is refused three times; then another run whose later data differ."""
    capacity, orbitals, points, count = sizes(choose)
    inputs, g0 = inputs_of(count, orbitals, choose.randint(points, count), choose), g0_of(orbitals, choose)
    if choose.random() < 0.3:
        inputs, g0 = ordinary(count, orbitals, choose)
    desk, stays_there = choose.randrange(DESKS), choose.random() < 0.5
    if choose.random() < 0.3:
        # Room for the run over all points, or just not.
        session.counters[desk] = MOST - occupied_formula(count) + choose.randint(-1, 2)
    before = [room(function_length(capacity, orbitals), choose) for _ in LENT]
    call = run(points, capacity, orbitals, *told(inputs, points, capacity, choose), before, tolerance(choose))
    outcome = session.ask(call, g0, desk if stays_there else any_desk(choose))
    if not isinstance(outcome.answer, Formed):
        return
    kept, left, counts, tries = call, outcome, [outcome.answer.products], 0
    while points < count and tries < 3:
        call = append(points, capacity, orbitals, *told(inputs, points + 1, capacity, choose), outcome.lent.values(), tolerance(choose))
        outcome = session.ask(call, g0, desk if stays_there else any_desk(choose))
        tries += 1
        if isinstance(outcome.answer, Formed):
            kept, left, points, tries = call, outcome, points + 1, 0
            counts.append(outcome.answer.products)
        elif outcome.answer not in (Refusal(17), Refusal(22)):
            check_whole(session, call, g0, counts, before, outcome)
            inputs = given_again(inputs, points, choose)
    check_whole(session, kept, g0, counts, before, left)
    check_later_data(session, inputs, points, capacity, g0, left, choose)


def other_later(inputs, points, k, choose):
    """Inputs over so many points that agree with these up to index k as demand 3 supposes, and have ordinary numbers after it."""
    n, kind = inputs.orbitals, choose.choice(SMALL)
    times = inputs.times[: k + 1]
    while len(times) < points:
        times.append(times[-1] + choose.choice([1.0, 0.5]))
    operands = []
    for operand, numbers in enumerate(inputs.operands):
        blocks = []
        for t in range(points):
            for u in range(points):
                if max(t, u) <= k and not (operand < 2 and t < u):
                    blocks += [part for value in block_at(numbers, inputs.points, n, t, u) for part in value]
                else:
                    above = operand < 2 and t < u
                    blocks += [choose.choice([0.0, -0.0]) if above else kind(choose) for _ in range(2 * n * n)]
        operands.append(blocks)
    return inputs._replace(points=points, times=times, operands=operands)


def check_later_data(session, inputs, points, capacity, g0, left, choose):
    """Demand 3 of what a history left and of a run whose later data differ; from zeros the latter may be of the empty form."""
    k, n = choose.randrange(points), inputs.orbitals
    count = choose.randint(max(k + 1, 2), min(points + 1, MOST_CAPACITY))
    other = other_later(inputs, count, k, choose)
    lent = [room(function_length(count, n), choose) for _ in LENT]
    call = occupied(at_desk(run(count, count, n, other.times, other.operands, lent, 1.0), 0, NOTHING), g0)
    plus_zero = all(agree([x], [0.0]) for x in g0.numbers)
    if plus_zero and choose.random() < 0.5:
        call = empty(call)
    found = session.beside(call)
    if isinstance(found.answer, Formed):
        for name in ("retarded", "lesser"):
            rows = [
                [part for t in range(k + 1) for u in range(k + 1) for value in block_at(numbers, size, n, t, u) for part in value]
                for numbers, size in ((left.lent[name], capacity), (found.lent[name], count))
            ]
            hold(agree(*rows), "demand 3: earlier rows are blind to later data", call)


def drawn(choose):
    """The calls of a list, by the reading."""
    session = Session([total(choose) for _ in range(DESKS)] if choose.random() < 0.5 else NOTHING)
    for _ in range(choose.randint(1, 2)):
        if choose.random() < 0.7:
            history(session, choose)
        else:
            call = any_append(choose)
            session.ask(call, g0_of(call.orbitals, choose), any_desk(choose))
        if choose.random() < 0.5:
            call = session.any_call(choose)
            call, g0 = outside(empty(call)), call.slices[4]
            faults = choose.choice(["call", "g0", "g0", "both"])
            call = call if faults == "g0" else damaged(call, choose)
            session.ask(call, g0 if faults == "call" else damaged_g0(g0, choose), any_desk(choose))
        if choose.random() < 0.3:
            session.beside(empty(session.any_call(choose)))
    return session.calls


if __name__ == "__main__":
    compare(drawn)
