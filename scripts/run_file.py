"""Run files for the program `transient`: numbers in, a run file out, and the program's answers back to decimal numbers.

    python3 scripts/run_file.py make NUMBERS.json > pulse.run      writes the run file of the numbers
    transient < pulse.run | python3 scripts/run_file.py read       prints each time's particle number in decimal

NUMBERS.json has one object: "times", a list of N rising times, and "free", "self_energy" and "lesser_self_energy", each a list of N rows of N blocks,
a block a list of n rows of n entries, an entry a number or a pair [real, imaginary]. Above the diagonal of the first two stands 0.
"""

import json
import struct
import sys

BODIES = ("free", "self_energy", "lesser_self_energy")


def entry_numbers(entry):
    if isinstance(entry, list):
        real, imaginary = entry
        return [float(real), float(imaginary)]
    return [float(entry), 0.0]


def function_numbers(name, function, points, orbitals):
    """The numbers of a two-time function, block by block, real part before imaginary."""
    numbers = []
    for row in function:
        for block in row:
            for entries in block:
                for entry in entries:
                    numbers += entry_numbers(entry)
    expected = 2 * points * points * orbitals * orbitals
    if len(numbers) != expected:
        raise SystemExit(f"{name}: {len(numbers)} numbers, {expected} wanted")
    return numbers


def make(numbers):
    times = [float(time) for time in numbers["times"]]
    points = len(times)
    orbitals = len(numbers["free"][0][0])
    bodies = [times] + [function_numbers(name, numbers[name], points, orbitals) for name in BODIES]
    head = struct.pack("<II", points, orbitals)
    start = 40
    for body in bodies:
        head += struct.pack("<II", start, len(body))
        start += 8 * len(body)
    return head + b"".join(struct.pack(f"<{len(body)}d", *body) for body in bodies)


def read(lines):
    """Each line as the program wrote it, with a number's 16 hexadecimal digits as a decimal number."""
    for line in lines:
        words = line.split()
        if len(words) == 3 and words[1] == "number":
            (value,) = struct.unpack(">d", bytes.fromhex(words[2]))
            words[2] = repr(value)
        print(*words)


def main():
    if len(sys.argv) == 3 and sys.argv[1] == "make":
        with open(sys.argv[2], encoding="utf-8") as file:
            sys.stdout.buffer.write(make(json.load(file)))
    elif len(sys.argv) == 2 and sys.argv[1] == "read":
        read(sys.stdin)
    else:
        raise SystemExit(__doc__)


if __name__ == "__main__":
    main()
