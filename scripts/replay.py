"""Writes the calls that the program replay runs (crates/replay/stdin), and tells how many each function has and by which
numbers they are refused. replay_calls/ has the calls by theme.

What the program is to print (crates/replay/stdout) is what the unchanged Rust answers, but for the listed differences;
oracle/replay/run --write stores it.

Usage: replay.py            writes the calls
       replay.py --check    compares what is stored with the reference's plain reading of the documents, line by line
"""

import collections
import pathlib
import sys

ROOT = pathlib.Path(__file__).resolve().parent.parent
FOLDER = ROOT / "crates" / "replay"
sys.path.insert(0, str(ROOT / "reference"))

from replay_calls import (
    appends, blocks, capacities, compositions, convolutions, flows, grids, limits, made, norms, observables, occupied, one_point, products,
    reports, sessions, solves,
)
from replay_calls.answers import LEFT_OUT, line, refusal
from replay_calls.appends import QUESTIONS_IN_CAPACITY
from replay_calls.calls import MADE, NAMES, QUESTIONS, words
from replay_calls.flows import QUESTIONS_OF_FLOWS
from replay_calls.occupied import QUESTIONS_OCCUPIED
from replay_calls.sessions import QUESTIONS_IN_SESSION

THEMES = [
    convolutions, solves, observables, reports, products, norms, blocks, grids, limits, made, compositions, one_point, appends, capacities,
    sessions, occupied, flows,
]  # fmt: skip


def calls_of(theme):
    return [call for make in theme.CASES for call in make()]


# ---- Counts --------------------------------------------------------------------


def counts_of(calls, lines):
    """By function, how many calls are refused by which number; None counts those that are not refused."""
    counts = collections.defaultdict(collections.Counter)
    for call, text in zip(calls, lines):
        counts[call.function][refusal(text)] += 1
    return dict(sorted(counts.items()))


def table_of(themes, counts):
    """Two tables: calls by theme, and by function."""
    rows = ["| theme | calls |", "|---|---|"]
    rows += [f"| `{theme}` | {len(calls):,} |" for theme, calls in themes.items()]
    rows += ["", "| function | | calls | not refused | refused, how many by which number |", "|---|---|---|---|---|"]
    for function, count in counts.items():
        refused = ", ".join(f"{count[number]} by {number}" for number in sorted(set(count) - {None}))
        name = f"`{NAMES[function % MADE]}`" + (", made" if function >= MADE else "")
        rows.append(f"| {function} | {name} | {sum(count.values())} | {count[None]} | {refused} |")
    return "\n".join(rows) + "\n"


def uncovered(counts):
    """Questions that no call of a function answers by no, and numbers that none of its questions has."""
    every = QUESTIONS | QUESTIONS_IN_CAPACITY | QUESTIONS_IN_SESSION | QUESTIONS_OCCUPIED | QUESTIONS_OF_FLOWS
    for function, questions in every.items():
        for number in sorted((set(counts[function]) - {None}) ^ set(questions)):
            yield f"{NAMES[function]}: {counts[function][number]} calls refused by {number}"


# ---- What is stored ------------------------------------------------------------


def check(text, lines, themes, calls):
    """Compares what is stored, and tells what differs; whether all of it agrees."""
    if (FOLDER / "stdin").read_text() != text:
        sys.exit("crates/replay/stdin is not the list that this program makes")
    stored = (FOLDER / "stdout").read_text().splitlines()
    if len(stored) != len(lines):
        sys.exit(f"crates/replay/stdout has {len(stored)} lines, for {len(lines)} calls")
    asked = [index for index, worked_out in enumerate(lines) if not worked_out.endswith(f" {LEFT_OUT}")]
    differ = [index for index in asked if stored[index] != lines[index]]
    for index in differ:
        print(f"stored {stored[index][:200]}\nhere   {lines[index][:200]}")
    print(f"{len(asked) - len(differ)} lines agree, {len(differ)} differ, {len(lines) - len(asked)} are not worked out here")
    told = table_of(themes, counts_of(calls, stored)) in (FOLDER / "CALLS.md").read_text()
    if not told:
        print("crates/replay/CALLS.md has other counts")
    return not differ and told


def main():
    themes = {theme.__name__.split(".")[-1]: calls_of(theme) for theme in THEMES}
    calls = [call for made_here in themes.values() for call in made_here]
    text = "".join(map(words, calls))
    lines = [line(index, call) for index, call in enumerate(calls)]
    counts = counts_of(calls, lines)
    missing = list(uncovered(counts))
    if missing:
        sys.exit("\n".join(missing))
    if sys.argv[1:] == ["--check"]:
        sys.exit(not check(text, lines, themes, calls))
    FOLDER.mkdir(exist_ok=True)
    (FOLDER / "stdin").write_text(text)
    print(table_of(themes, counts))
    print(f"{len(calls)} calls, {len(text)} bytes")


if __name__ == "__main__":
    main()
