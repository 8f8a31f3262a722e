"""Draws lists of bond flows, of lesser functions in a capacity, and compares each answer with the single call's, by the reading in reference/.

    python3 scripts/fuzz_flows.py [COUNT [SEED [PROGRAM]]]

With a PROGRAM (the built replay, target/bin/replay) every list goes to it as well, with some of its queries as single calls, and what it prints is
compared with the reading. Some of the lists have a wrong word, length or number, or more than 1,024 queries. The laws:

- An accepted list has the single call's answer for each of its queries, +0 and its number for one that is refused, and 0 beside the flow of any other.
- The answers of two lists, one after the other, are those of the list that joins them; in another order they are the same answers in that order.
- A list is refused as the single call of each of its queries is by lines 1 to 7 and 16; by 3 also where a slice does not fit it, by 18 where it has more
  than 1,024 queries and neither 1, 2, 3 nor 16 refuses. It then leaves both slices as they were.

A call that differs is written out as it stands in the program's list, and ends the run with status 1. The last lines count the answers, and how often
each law was asked."""

import collections
import pathlib
import sys

ROOT = pathlib.Path(__file__).resolve().parent.parent
sys.path.insert(0, str(ROOT / "reference"))

from bits import same_bits  # noqa: E402
from document01 import ACCEPTED, Refusal, function_length  # noqa: E402
from document02 import bond_flow_into  # noqa: E402
from fuzz_appends import Asked, agree, asked, compare, hold, room, sizes  # noqa: E402
from fuzz_calls import LARGE, SMALL, function  # noqa: E402
from replay_calls.answers import all_flowed, flows_of  # noqa: E402
from replay_calls.appends import in_capacity, laid_out  # noqa: E402
from replay_calls.calls import INFINITY, MOST, NAN, held, held_bytes  # noqa: E402
from replay_calls.flows import MOST_QUERIES, flows, lengths_of, queries_of  # noqa: E402
from replay_calls.observables import flow  # noqa: E402

# How many answers each number has among the queries of accepted lists; 0 is an answer that is a flow.
QUERIES = collections.Counter()


# ---- Lists ---------------------------------------------------------------------


def wrong(choose, share):
    return choose.random() < share


def number(choose):
    return choose.choice([*SMALL, lambda rng: rng.uniform(-2, 2), lambda rng: rng.uniform(-2, 2), choose.choice(LARGE)])(choose)


def query_of(points, orbitals, share, choose):
    """A query, of whose words each is wrong with this share."""
    index = lambda below: choose.choice([below, below + 1, 16, 255, 256, 2**32, MOST]) if wrong(choose, share) else choose.randrange(below)
    part = lambda: choose.choice([NAN, INFINITY, -INFINITY]) if wrong(choose, share) else number(choose)
    return index(points), index(orbitals), index(orbitals), (part(), part()), part()


def drawn_list(choose):
    capacity, orbitals, points, _ = sizes(choose)
    lesser = laid_out(function(points, orbitals, choose), points, capacity, orbitals, room(function_length(capacity, orbitals), choose))
    share = choose.choice([0.0, 0.02, 0.1, 0.3])
    stored = choose.choice([0, 1, 2, 5, 12, 30])
    queries = [query_of(points, orbitals, share, choose) for _ in range(stored)]
    many = stored and wrong(choose, 0.05)
    return flows(points, capacity, orbitals, lesser, queries, lengths_of(choose.choice([MOST_QUERIES, MOST_QUERIES + 1])) if many else None)


def damaged(call, choose):
    """The list with a wrong word, with a number that is not finite, or with a slice of another length; it may be accepted still."""
    capacity = call.more[0]
    lesser, *queries = call.slices
    kinds = ["points", "orbitals", "capacity", "shorter", "longer", "number", "number", "length", "length", "length"]
    kind = choose.choice(kinds)
    if kind == "points":
        return call._replace(points=choose.choice([0, 1, capacity - 1, capacity, capacity + 1, 257, MOST]))
    if kind == "orbitals":
        return call._replace(orbitals=choose.choice([0, call.orbitals + 1, 17, MOST]))
    if kind == "capacity":
        return call._replace(more=(choose.choice([0, 1, capacity - 1, capacity + 1, 256, 257, MOST]),))
    if kind in ("shorter", "longer"):
        return call._replace(slices=[lesser[:-1] if kind == "shorter" else [*lesser, 0.0], *queries])
    if kind == "number":
        at = choose.randrange(len(lesser))
        return call._replace(slices=[[*lesser[:at], choose.choice([NAN, INFINITY, -INFINITY]), *lesser[at + 1 :]], *queries])
    lengths = list(call.last)
    at = choose.randrange(7)
    if lengths[0] > 0:
        lengths[at] = choose.choice([0, lengths[at] - 1, lengths[at] + 1, 2 * lengths[at]])
    return call._replace(last=tuple(min(length, 2 * MOST_QUERIES + 4) for length in lengths))


# ---- Laws ----------------------------------------------------------------------


def single(call, query):
    return bond_flow_into(call.points, *call.more, call.orbitals, call.slices[0], *query)


def whole_refusal(call):
    """The refusal of the whole call, by a single call that is refused by none of 13, 12 and 11 of its own."""
    plain = single(call, (0, 0, 0, (1.0, 0.0), 1.0))
    before = plain.number if isinstance(plain, Refusal) else None
    if before in (1, 2):
        return plain
    if list(call.last) != lengths_of(call.last[0]) or before == 3:
        return Refusal(3)
    if before != 16 and call.last[0] > MOST_QUERIES:
        return Refusal(18)
    return plain if before else None


def check(call, outcome):
    refusal = whole_refusal(call)
    found = outcome.lent["flows"], outcome.lent["refusals"]
    if refusal:
        hold(outcome.answer == refusal, "refused as the single call, by 3 or by 18", call)
        hold(agree(found[0], held(call.last[5])) and found[1] == held_bytes(call.last[6]), "a refused list writes nothing", call)
        return
    hold(outcome.answer == ACCEPTED, "a list is accepted where nothing refuses it whole", call)
    due = [single(call, query) for query in queries_of(call)]
    numbers = [answer.number if isinstance(answer, Refusal) else 0 for answer in due]
    hold(found[1] == numbers and set(numbers) <= {0, 11, 12, 13}, "each refusal is the single call's", call)
    of_flows = [0.0 if isinstance(answer, Refusal) else answer for answer in due]
    hold(agree(found[0], of_flows), "each flow is the single call's, +0 where it is refused", call)
    QUERIES.update(numbers)


def check_joined(call, outcome, choose):
    """The list cut in two, and in another order."""
    queries = queries_of(call)
    answers = list(zip(outcome.lent["flows"], outcome.lent["refusals"]))
    same = lambda left, right: len(left) == len(right) and all(same_bits(x, y) and a == b for (x, a), (y, b) in zip(left, right))
    again = lambda some: flows_of(flows(call.points, *call.more, call.orbitals, call.slices[0], some)).lent
    pairs = lambda some: list(zip(*again(some).values()))
    cut = choose.randint(0, len(queries))
    hold(same(pairs(queries[:cut]) + pairs(queries[cut:]), answers), "two lists have the answers of the list that joins them", call)
    order = choose.sample(range(len(queries)), len(queries))
    hold(same(pairs([queries[at] for at in order]), [answers[at] for at in order]), "the answers follow the order of the queries", call)


def drawn(choose):
    """A list, some of its queries as single calls, and sometimes the list with a fault."""
    call = drawn_list(choose)
    calls = []
    for asked_now in [call, damaged(call, choose)] if choose.random() < 0.5 else [call]:
        outcome = flows_of(asked_now)
        calls.append(Asked(asked_now, " ".join(all_flowed(asked_now)), outcome))
        check(asked_now, outcome)
    if calls[0].outcome.answer == ACCEPTED and len(queries_of(call)) < 100:
        check_joined(call, calls[0].outcome, choose)
        for time, a, b, hopping, factor in queries_of(call)[:2]:
            calls.append(asked(in_capacity(flow(call.points, call.orbitals, call.slices[0], time, a, b, hopping, factor), *call.more)))
    return calls


def of_queries(calls):
    for refusal, times in sorted(QUERIES.items()):
        yield f"queries of accepted lists: {f'refused {refusal}' if refusal else 'answered'}: {times}"


if __name__ == "__main__":
    compare(drawn, of_queries)
