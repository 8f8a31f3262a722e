#!/usr/bin/env python3
"""places.py: counts in src/ the places that today's Rattle could write better, by text. Run at the repository's root; words choose points (1 to 8) and print their places.

1 enums and structs whose cases are a value and a refusal, a flag with a value, numbers for kinds; 2 functions with one text once names and numbers are masked; 3 loops that count an index;
4 conversions and printing by hand; 5 parameters that travel together, clauses in three or more contracts; 6 buffers with a length beside; 7 switches; 8 proofs that walk the code by hand."""
import collections, glob, re, sys

FILES = {p: open(p).read() for p in sorted(glob.glob("crates/*/src/**/*.rt", recursive=True))}
SHOWN = set(sys.argv[1:])


def bare(text):
    return re.sub(r"//[^\n]*", "", text)


def functions():
    """Yields file, line, name, head and body of each function."""
    for p, text in FILES.items():
        text = bare(text)
        for m in re.finditer(r"(?m)^( *)(?:pub(?:\(crate\))? )?(?:unsafe )?(?:extern \"C\" )?fn (\w+)", text):
            end = re.search(rf"(?m)^{m[1]}\}}$", text[m.start():])
            whole = text[m.start(): m.start() + (end.end() if end else 0)]
            head, _, body = whole.partition("\n" + m[1] + "{\n")
            yield p, text.count("\n", 0, m.start()) + 1, m[2], head, body


def tell(point, what, places):
    places = list(places)
    print(f"{point}  {what}: {len(places)}")
    if point[0] in SHOWN:
        for it in places:
            print("     ", *it)


def grep(rx, of=lambda p: True):
    for p, text in FILES.items():
        for n, line in enumerate(text.split("\n"), 1):
            if of(p) and not line.lstrip().startswith(("//", "ghost")) and re.search(rx, line):
                yield f"{p}:{n}:", line.strip()


OWN = r"Verdict|Measured|Decision|Value|Checked|Reported|Solved|Summed|Stored|CheckedEntry|Observed"
tell("1a", "own enums and structs of the shape of Option or Result", grep(rf"^pub (enum|struct) ({OWN})\b"))
tell("1b", "uses of their cases", grep(rf"\b({OWN})::[A-Z]"))
tell("1c", "kinds told by numbers (`match` on a `function` or an `index`)", grep(r"\bmatch (head\.)?(function|index)\b"))
tell("1d", "a verdict beside a value in a struct", grep(r"^    pub verdict:"))
seen = collections.defaultdict(list)
for p, n, name, head, body in functions():
    if body.count("\n") < 4:
        continue
    text = re.sub(r"\b(?!(?:let|mut|if|else|for|in|while|match|return|true|false|as|usize|u64|u8|f64)\b)[A-Za-z_]\w*\b|\b\d[\w.]*\b", "_", re.sub(r"\s+", " ", body))
    seen[text].append((f"{p}:{n}:", name))
twins = [x for group in seen.values() if len(group) > 1 for x in group]
tell("2", "functions of five lines or more that are one text once names and numbers are masked", twins)
tell("3a", "loops by `while` that count", (x for x in grep(r"^\s*while\b")))
tell("3b", "`for i in 0..xs.len()`", grep(r"\bfor \w+ in 0\.\.\w+(\.\w+)*\.len\(\)"))
tell("3c", "other loops over a range of indices", (x for x in grep(r"\bfor \w+ in [\w.]+\.\.") if ".len()" not in x[1]))
tell("4", "functions that convert or print by hand", grep(r"fn (verdict_of|numbers_of|refused|measured|complex|decided|decimal|whole|least|less|most|min|max|copy|clear|next|previous|fail|words|text)\b"))
heads = list(functions())
PAIRS = (("times", "points"), ("free", "self_energy"), ("retarded", "lesser", "kernel", "lesser_advanced"), ("points", "capacity", "orbitals"), ("points", "orbitals", "t", "u"), ("rows", "columns", "values"), ("places", "part"))
for names in PAIRS:
    tell("5a", "functions with the parameters " + ", ".join(names), ((f"{p}:{n}:", f) for p, n, f, head, _ in heads if all(re.search(rf"[(\s]{x}: ", head) for x in names)))
clauses = collections.defaultdict(set)
for p, n, f, head, _ in heads:
    for m in re.finditer(r"(?m)^\s*requires(?: \w+)? \{ (.*)", head):
        for part in re.split(r" × (?![^()]*\))", m[1].rstrip(" }")):
            clauses[part.strip("() ")].add((f"{p}:{n}:", f))
tell("5b", "facts in the `requires` of three or more functions", ((len(fs), c[:100]) for c, fs in clauses.items() if len(fs) > 2))
tell("6", "functions with a buffer and how far it is written, or a slice and its number of entries", ((f"{p}:{n}:", f) for p, n, f, head, _ in heads if re.search(r"out: &mut \[u8", head) and re.search(r"\b(at|to): usize", head)))
tell("7", "matches on what to do (an operation, a kind of sums, a form, a function's number)", grep(r"\bmatch (op|sums|kind|factor|function|head\.function|identity)\b"))
walks = sorted(glob.glob("crates/*/proofs/**/Proof.antt", recursive=True))
tell("8", "proofs that walk the code by hand", ((w,) for w in walks))
