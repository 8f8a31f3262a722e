"""Draws lists of calls in a session, runs in a capacity and appends, accepted and refused, and checks its desks' counters, by the reading in reference/.

    python3 scripts/fuzz_sessions.py [COUNT [SEED [PROGRAM]]]

With a PROGRAM (the built replay, target/bin/replay) every call goes to it as well, and what it prints is compared with the reading.

Each of a session's eight counters is opened at a total: nothing, any, or one near its end. Each list has one to three histories, runs with appends that
may be refused and are then given again with other numbers; between them stand appends onto contents of no run, and calls with a wrong word, number or
length. Every call names a desk, of a history often another one than the call before, and sometimes one that there is not. The laws:

- A call whose desk is above 7 is 22, whatever else it has, and changes nothing.
- Any other that is refused outside of a session by a number before 17 is refused by it in the session. Any other is 17 where its desk's counter and its
  count, by the formula, pass 2^64 - 1, with every slice as it was; else it answers as outside, and leaves the same slices.
- Accepted, it carries its count, which is how many products of blocks the reading forms for it.
- A desk's counter is always its total and the counts of its own accepted calls, and what the eight have more than their totals is the sum of all.
- The counts of a history, the run and its accepted appends, are what the run over all points carries.

A call that differs is written out as it stands in the program's list, and ends the run with status 1. The last lines count the answers, and how often
each law was asked."""

import pathlib
import sys

ROOT = pathlib.Path(__file__).resolve().parent.parent
sys.path.insert(0, str(ROOT / "reference"))

from check_sessions import formed  # noqa: E402
from document01 import ACCEPTED, Refusal, function_length  # noqa: E402
from document02 import DESKS, Formed, formula  # noqa: E402
from fuzz_appends import (  # noqa: E402
    LENT, Asked, agree, all_agree, any_append, compare, damaged, given_again, hold, inputs_of, over_all_points, room, sizes, told, tolerance,
)  # fmt: skip
from replay_calls.answers import BOOKED, OUTCOME, answer, with_counters  # noqa: E402
from replay_calls.appends import append, run  # noqa: E402
from replay_calls.calls import MOST, RUN_BOOKED, RUN_IN  # noqa: E402
from replay_calls.sessions import at_desk, count_of, in_session, outside  # noqa: E402


def total(choose):
    """What a counter is opened at."""
    near = MOST - choose.randrange(choose.choice([12, 50, 200, 1000]))
    return choose.choice([0, choose.randrange(1000), choose.getrandbits(64), near, near])


NO_DESKS = [8, 9, 15, 16, 255, 256, 2**32, 2**63, MOST - 7, MOST]


def any_desk(choose):
    return choose.choice(NO_DESKS) if choose.random() < 0.05 else choose.randrange(DESKS)


class Booking:
    """A session: the totals at its opening, its counters, the counts of each desk's accepted calls, and all that was asked."""

    def __init__(self, totals):
        self.totals = list(totals)
        self.counters = list(totals)
        self.accepted = [[] for _ in range(DESKS)]
        self.calls = []

    def ask(self, call, desk):
        """The call's outcome at a desk of the session, which was compared with the laws."""
        asked = at_desk(call, desk, self.counters)
        outcome, session = BOOKED[asked.function](asked)
        self.calls.append(Asked(asked, " ".join(with_counters(outcome, session)), outcome))
        check_answer(call, asked, outcome)
        if isinstance(outcome.answer, Formed):
            self.accepted[desk].append(outcome.answer.products)
        due = [before + sum(counts) for before, counts in zip(self.totals, self.accepted)]
        hold(list(session.counters) == due, "a desk's counter is its total and its own accepted counts", asked)
        every = sum(count for counts in self.accepted for count in counts)
        hold(sum(session.counters) == sum(self.totals) + every, "the eight sum to their totals and all accepted counts", asked)
        hold(max(session.counters) <= MOST, "a counter is a word", asked)
        self.counters = list(session.counters)
        return outcome


# ---- Laws ----------------------------------------------------------------------


def check_answer(call, asked, outcome):
    """`call` is the one outside of a session, `asked` the one at a desk of it."""
    _, desk, *counters = asked.more
    if desk >= DESKS:
        hold(outcome.answer == Refusal(22), "22 where there is no such desk, before all others", asked)
        hold(all(map(agree, outcome.lent.values(), call.slices[4:])), "22 changes nothing", asked)
        return
    plain, products = formed(OUTCOME[call.function], call)
    came_to_work = plain.answer in (ACCEPTED, Refusal(10))
    if came_to_work and counters[desk] + count_of(call) > MOST:
        hold(outcome.answer == Refusal(17), "17 where the desk has no room, before 10", asked)
        hold(all(map(agree, outcome.lent.values(), call.slices[4:])), "17 changes nothing", asked)
        return
    hold(all_agree(outcome.lent, plain.lent), "with room the slices are those outside of a session", asked)
    if plain.answer == ACCEPTED:
        hold(outcome.answer == Formed(count_of(call)), "an accepted call carries the count of the formula", asked)
        hold(products == count_of(call), "the count is how many products were formed", asked)
    else:
        hold(answer(outcome.answer) == answer(plain.answer), "a refused call is refused as outside of a session", asked)


def check_history(last, counts, before):
    """The counts of a history are what the run over all points carries."""
    whole = in_session(over_all_points(last, before))
    outcome, _ = BOOKED[RUN_BOOKED](whole)
    hold(outcome.answer == Formed(sum(counts)), "a history counts like the run over all points", whole)


# ---- Calls ---------------------------------------------------------------------


def history(session, choose):
    """A run and appends to it, until one is refused three times."""
    capacity, orbitals, points, count = sizes(choose)
    desk, stays = choose.randrange(DESKS), choose.random() < 0.5
    if not session.calls and choose.random() < 0.5:
        # Room for the run over all points, or just not.
        session.totals[desk] = session.counters[desk] = MOST - formula(count) + choose.randint(-1, 2)
    inputs = inputs_of(count, orbitals, choose.randint(points, count), choose)
    before = [room(function_length(capacity, orbitals), choose) for _ in LENT]
    call = run(points, capacity, orbitals, *told(inputs, points, capacity, choose), before, tolerance(choose))
    outcome = session.ask(call, desk if stays else any_desk(choose))
    if not isinstance(outcome.answer, Formed):
        return
    kept, counts, tries = call, [outcome.answer.products], 0
    while points < count and tries < 3:
        call = append(points, capacity, orbitals, *told(inputs, points + 1, capacity, choose), outcome.lent.values(), tolerance(choose))
        outcome = session.ask(call, desk if stays else any_desk(choose))
        tries += 1
        if isinstance(outcome.answer, Formed):
            kept, points, tries = call, points + 1, 0
            counts.append(outcome.answer.products)
        elif outcome.answer not in (Refusal(17), Refusal(22)):
            inputs = given_again(inputs, points, choose)
    if kept.function != RUN_IN:
        check_history(kept, counts, before)


def drawn(choose):
    """The calls of a list, by the reading."""
    session = Booking([total(choose) for _ in range(DESKS)] if choose.random() < 0.8 else [0] * DESKS)
    good = []
    for _ in range(choose.randint(1, 3)):
        begun = len(session.calls)
        if choose.random() < 0.8:
            history(session, choose)
        else:
            session.ask(any_append(choose), any_desk(choose))
        good += session.calls[begun:]
        if choose.random() < 0.4:
            session.ask(damaged(outside(choose.choice(good).call), choose), any_desk(choose))
    return session.calls


if __name__ == "__main__":
    compare(drawn)
