#!/usr/bin/env python3
"""Brings the repository's own definitions and lemmas to Rattle's spelling: words in snake case, a prime as an apostrophe.

usage: tools/respell.py [--list]       at the top of the repository, once; --list prints old and new names and writes nothing

A name in camel case gets underscores (`plusZero` becomes `plus_zero`). A dash stays where it joins the names of two
definitions (`length-cells`), and a plain word is added with an underscore (`fold_agree`). What the code of src/ declares, what
the library declares and what Rattle makes keep their names, and so do comments' words outside code spans, strings, inputs and
outputs. A new name that a file has already in another sense is reported and left as it was.
"""

import os
import re
import sys

DECLARED = re.compile(
    r"(?m)^ *(?:(?:pub|abbrev|unfoldable|private) )*([A-Za-z][^\s(){}.;,@\"«»:]*)(?: \{[^{}\n]*\}| \([^()\n]*\))* :(?= |$)"
)
WORD = re.compile(r"[^\s(){}.;,@\"«»`]+")
MADE = re.compile(
    r"^(loop|invariant|decreases|returns|then|else|if|in)\b-|-(requires|preserved|init|again|smaller)$|^returns-\d+$"
)
LIBRARY = {
    "add", "sub", "mul", "div", "neg", "length", "map", "set", "take", "drop", "replicate", "get_or", "append", "min", "max",
    "and", "or", "not", "le", "lt", "eq", "ne", "zero", "suc", "cond", "pow", "round", "nan", "inf", "fin", "to_bits", "of_bits",
}
SPECIAL = {"getD": "get_or", "ofBits": "of_bits", "toBits": "to_bits", "isNan": "is_nan", "ofInt": "of_int"}
ALIASES = {
    "List·getD-append": "get_or-append",
    "List·getD-eq-default": "get_or-eq_default",
    "Bool·beq": "beq",
    "Ordering·lt": "ordering_lt",
    "Ordering·eq": "ordering_eq",
    "Ordering·gt": "ordering_gt",
    "fromNothing": "from_nothing",
    "equalTime": "equal_time_of",
}
SPAN = re.compile(r"`[^`\n]+`")
COMMENT = {".antt": re.compile(r'"(?:[^"\\\n]|\\.)*"|--(?=\s|$)[^\n]*'), ".rt": re.compile(r'"(?:[^"\\\n]|\\.)*"|//[^\n]*')}
PAGES = ["README.md", "docs"]


def files(*kinds):
    for top in ["crates"]:
        for folder, dirs, names in os.walk(top):
            dirs[:] = sorted(d for d in dirs if d != "out")
            for name in sorted(names):
                if name.endswith(kinds):
                    yield os.path.join(folder, name)


def pages():
    for top in PAGES:
        if os.path.isfile(top):
            yield top
        for folder, dirs, names in os.walk(top):
            for name in sorted(names):
                if name.endswith(".md") and name != "PORT.md":
                    yield os.path.join(folder, name)
    for path in files(".md"):
        yield path


def read(path):
    with open(path, encoding="utf-8") as f:
        return f.read()


def words(text):
    return set(WORD.findall(text))


def snake(word):
    for old, new in SPECIAL.items():
        word = re.sub(rf"^{old}(?=$|[-_])|(?<=[-_]){old}(?=$|[-_])", new, word)
    parts = []
    for part in word.split("-"):
        if part[:1].islower():
            part = re.sub(r"(?<=[a-z0-9])([A-Z])", lambda m: "_" + m[1].lower(), part)
        parts.append(part)
    return "-".join(parts)


def joined(word, known):
    parts, out, at = word.split("-"), [], 0
    while at < len(parts):
        for end in range(len(parts), at, -1):
            phrase = "_".join(parts[at:end])
            if phrase in known or end == at + 1:
                out.append((phrase, phrase in known))
                at = end
                break
    text, before = out[0]
    for phrase, is_name in out[1:]:
        text += ("-" if before and is_name else "_") + phrase
        before = is_name
    return text


def table():
    declared, plain = {}, set()
    for path in files(".antt"):
        for m in DECLARED.finditer(read(path)):
            name = m[1]
            declared.setdefault(name, set()).add(path)
            if "-" not in name and "/proofs/" not in path and not name[0].isupper():
                plain.add(snake(name))
    known = plain | LIBRARY
    rows = {}
    for name in declared:
        if MADE.search(name) and not name.endswith("-spec") or name[0].isupper() and "-" not in name:
            continue
        new = snake(name)
        if name.endswith("-spec"):
            new = name.replace("-", "_")
        elif "-" in new:
            new = joined(new, known)
        new = new.replace("′", "'")
        if new != name:
            rows[name] = new
    rows.update(ALIASES)
    return declared, rows


def bare(path):
    """The words of a file that stand for themselves: no field, no part of a path, and in Rust no function's name."""
    text = strip(path)
    if path.endswith(".rt"):
        ghost = " ".join(re.findall(r"ghost use [^;{]*\{([^;]*)\};", text))
        text = re.sub(r"(?m)^ *(?:pub(?:\(crate\))? )?use [^;]*;|\b(?:fn|mod) +\w+", " ", re.sub(r"ghost use [^;]*;", " ", text))
        return set(re.findall(r"(?<![\w.:])\w+(?![\w(<]|::)", text)) | words(ghost)
    text = re.sub(r"(?m)^ *(?:pub )?use Rattle[\w.+]*", " ", text)
    return {m[0] for m in WORD.finditer(text) if text[m.start() - 1 : m.start()] != "."}


def checked(declared, rows):
    """The rows whose new name means nothing else in any file that has the old one; no two old names of a file meet."""
    texts = {path: words(strip(path)) for path in files(".antt", ".rt")}
    alone = {path: bare(path) for path in texts}
    news = {new for old, new in rows.items() if "-" not in old}
    for old, new in rows.items():
        if "-" in old and (new in news or new in declared):
            rows[old] = new + "_lem"
    imported = set()
    for path in files(".antt", ".rt"):
        for m in re.finditer(r"use (?:Rattle\.std|Rattle\.core|Prim|borrow|lib|native|denote|mathlib)[\w.]*\.\{([^}]*)\}", read(path)):
            imported |= {w.split(" as ")[-1].strip() for w in m[1].split(",")}
    kept = {}
    for old, new in sorted(rows.items()):
        if old in imported and old not in ALIASES:
            print(f"left: {old}: a file imports a name so spelled from the library")
            continue
        met = [p for p, ws in texts.items() if old in ws and (old in alone[p] and new in alone[p] or any(o != old and rows.get(o) == new and o in ws for o in rows))]
        if met and old not in ALIASES:
            print(f"left: {old}: {new} stands already in {met[0]}")
            continue
        kept[old] = new
    return kept


def strip(path):
    kind = os.path.splitext(path)[1]
    return COMMENT[kind].sub(" ", read(path)) if kind in COMMENT else read(path)


def turn(text, rows, after_dot=True):
    def one(m):
        dotted = m.start() > 0 and text[m.start() - 1] == "."
        if m[0] not in rows or (dotted and not after_dot and "-" in m[0]):
            return m[0]
        return rows[m[0]]

    return re.sub(r"(?<=[{ ])(\S+) as \1(?=[,}])", r"\1", WORD.sub(one, text))


def turned(path, text, rows):
    kind = os.path.splitext(path)[1]
    spans = lambda t: SPAN.sub(lambda s: turn(s[0], rows), t)
    if kind == ".md":
        return spans(text)
    if kind == ".edit":
        return turn(text, rows)
    out, at = [], 0
    walk = path.endswith("/Proof.antt")
    for m in COMMENT[kind].finditer(text):
        out += [turn_paths(text[at : m.start()], rows, walk), m[0] if m[0][0] == '"' else spans(m[0])]
        at = m.end()
    return "".join(out) + turn_paths(text[at:], rows, walk)


def turn_paths(text, rows, walk):
    """In a walk through code a word behind a dot may be a label that Rattle makes; behind a path of the repository it is a name."""
    if not walk:
        return turn(text, rows)
    return "".join(
        turn(line, rows, after_dot=line.lstrip().startswith("use Rattle.")) for line in text.splitlines(keepends=True)
    )


def main():
    declared, rows = table()
    rows = checked(declared, rows)
    if "--list" in sys.argv:
        for old, new in sorted(rows.items()):
            print(f"{old}\t{new}")
        return
    count = 0
    for path in [*files(".antt", ".rt", ".edit"), *pages()]:
        text = read(path)
        new = turned(path, text, rows)
        if new != text:
            count += 1
            with open(path, "w", encoding="utf-8") as f:
                f.write(new)
    print(f"respell: {len(rows)} names in {count} files")


if __name__ == "__main__":
    main()
