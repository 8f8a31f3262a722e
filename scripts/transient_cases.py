"""Writes the run files in crates/transient_cases/data, the arguments that name them, and the text that document 01 gives for each:
P12's file, one or more for each refusal that the program can give, and runs at the limits. Run from the repository's root."""

import math
import pathlib
import struct
import sys

ROOT = pathlib.Path(__file__).resolve().parent.parent
sys.path.insert(0, str(ROOT / "reference"))

import document01  # noqa: E402
import run_file  # noqa: E402

CRATE = ROOT / "crates" / "transient_cases"
LARGEST = sys.float_info.max


def function(points, orbitals, entry):
    """entry(t, u, a, b) for all places."""
    return [[[[entry(t, u, a, b) for b in range(orbitals)] for a in range(orbitals)] for u in range(points)] for t in range(points)]


def lower(value):
    return lambda t, u, a, b: value if u <= t else 0


def numbers(points=3, orbitals=1, **changed):
    """P12's numbers for N and n, with some of the four replaced."""
    given = {
        "times": list(range(points)),
        "free": function(points, orbitals, lower(1)),
        "self_energy": function(points, orbitals, lower(1)),
        "lesser_self_energy": function(points, orbitals, lambda t, u, a, b: [0, 1]),
    }
    return {**given, **changed}


def changed_at(place, value, points=3):
    """P12's retarded input with another value at one place."""
    return function(points, 1, lambda t, u, a, b: value if (t, u) == place else lower(1)(t, u, a, b))


def patched(data, at, value):
    """The u32 at a byte replaced."""
    return data[:at] + struct.pack("<I", value) + data[at + 4 :]


def shifted(data):
    """A gap of eight bytes after the table, with the offsets moved to match."""
    for row in range(4):
        at = 8 + 8 * row
        data = patched(data, at, struct.unpack_from("<I", data, at)[0] + 8)
    return data[:40] + bytes(8) + data[40:]


def small(t, u, a, b):
    """Entries that no case above has: another for each place, some of them negative."""
    return [((3 * t + 5 * u + 7 * a + 11 * b) % 13 - 6) / 16, ((2 * t + u + 3 * a + b) % 7 - 3) / 8]


def retarded(t, u, a, b):
    return small(t, u, a, b) if u <= t else 0


def antihermitian(t, u, a, b):
    (re, im), (other_re, other_im) = small(t, u, a, b), small(u, t, b, a)
    return [re - other_re, im + other_im]


def mixed(points, orbitals):
    return run_file.make(
        numbers(
            points,
            orbitals,
            times=[t * t / 8 for t in range(points)],
            free=function(points, orbitals, retarded),
            self_energy=function(points, orbitals, lambda t, u, a, b: retarded(t, u, b, a)),
            lesser_self_energy=function(points, orbitals, antihermitian),
        )
    )


def infinite_numbers():
    """A run of two orbitals that is accepted: at times 1, 2 and 3 the two occupations are finite and their sum is not, in its real part, in its
    imaginary part, and in its real part beside an imaginary one above the tolerance. G^R is the identity at equal times, so that G^<(t,t) is the lesser
    self-energy times the square of the last weight of the interval to t, which is 2."""
    huge = 2.0**1021
    diagonals = {1: [[0, huge], [0, huge]], 2: [[huge, 0], [huge, 0]], 3: [[0, huge], [-0.25, huge]], 4: [[0, 1], [0, 0.5]]}
    unit = lambda t, u, a, b: int(t == u and a == b)  # noqa: E731
    occupied = lambda t, u, a, b: diagonals[t][a] if t == u > 0 and a == b else 0  # noqa: E731
    return {
        "points": 5,
        "orbitals": 2,
        "times": [4 * t for t in range(5)],
        "free": function(5, 2, unit),
        "self_energy": function(5, 2, lambda t, u, a, b: 0),
        "lesser_self_energy": function(5, 2, occupied),
    }


def cases():
    p12 = run_file.make(numbers())
    make = lambda **changed: run_file.make(numbers(**changed))  # noqa: E731
    return {
        "p12": p12,
        "accepted_2_1": mixed(2, 1),
        "accepted_16_1": mixed(16, 1),
        "accepted_8_2": mixed(8, 2),
        "accepted_4_4": mixed(4, 4),
        "accepted_2_8": mixed(2, 8),
        "refused_1_points": patched(p12, 0, 1),
        "refused_1_orbitals": patched(p12, 4, 0),
        "refused_1_forged_table": patched(patched(p12, 0, 0), 8, 7),
        "refused_2_product_18": patched(p12, 0, 18),
        "refused_2_product_wraps": patched(patched(p12, 0, 65536), 4, 65536),
        "refused_4_nan": make(times=[0, math.nan, 2]),
        "refused_4_infinite": make(times=[-math.inf, 0, math.inf]),
        "refused_5_equal": make(times=[0, 1, 1]),
        "refused_5_zeros": make(times=[-0.0, 0, 1]),
        "refused_6": make(points=2, times=[-LARGEST, LARGEST]),
        "refused_7_free": make(free=changed_at((1, 0), math.nan)),
        "refused_7_self_energy": make(self_energy=changed_at((2, 1), [0, math.inf])),
        "refused_7_lesser": make(lesser_self_energy=function(3, 1, lambda t, u, a, b: [-math.inf, 1])),
        "refused_9_free": make(free=changed_at((0, 2), 1e-9)),
        "refused_9_self_energy": make(self_energy=changed_at((1, 2), [0, 1e-9])),
        "accepted_at_the_tolerance": make(free=changed_at((0, 2), document01.DEFAULT_TOLERANCE)),
        "refused_10_kernel": make(free=changed_at((2, 2), 1e200), self_energy=changed_at((2, 1), 1e200)),
        "refused_10_green": make(free=changed_at((1, 0), 1e300), self_energy=changed_at((2, 1), 1e30)),
        "refused_10_mixed": make(free=changed_at((1, 1), 1e200), lesser_self_energy=function(3, 1, lambda t, u, a, b: [0, 1e200])),
        "refused_10_lesser": make(free=changed_at((1, 1), 1e200)),
        "number_refused_10": make(**infinite_numbers()),
        "number_refused_14": make(lesser_self_energy=function(3, 1, lambda t, u, a, b: [1, 1])),
        "refused_15_empty": b"",
        "refused_15_39_bytes": p12[:39],
        "refused_15_table_alone": p12[:40],
        "refused_15_offset": patched(p12, 16, 65),
        "refused_15_count": patched(p12, 28, 17),
        "refused_15_gap": shifted(p12),
        "refused_15_exchanged_rows": p12[:16] + p12[24:32] + p12[16:24] + p12[32:],
        "refused_15_one_byte_less": p12[:-1],
        "refused_15_one_byte_more": p12 + b"\0",
        "refused_15_longer_than_any": p12 + bytes(20000),
        "refused_2_big_endian": b"".join(struct.pack(">I", word) for word in struct.unpack("<10I", p12[:40])) + p12[40:],
    }


def main():
    data = CRATE / "data"
    data.mkdir(exist_ok=True)
    for old in data.glob("*.run"):
        old.unlink()
    text = b""
    for name, content in cases().items():
        (data / f"{name}.run").write_bytes(content)
        answer = document01.program_transient(content)
        text += f"{name}.run\n".encode() + answer
        kind, number = name.split("_")[:2] if "_" in name else (name, "")
        first = f"refused {number}" if kind == "refused" else "run "
        if not answer.startswith(first.encode()):
            raise SystemExit(f"{name}: {answer.decode()}")
    (CRATE / "args").write_text("".join(f"{name}.run\n" for name in cases()))
    (CRATE / "stdout").write_bytes(text)


if __name__ == "__main__":
    main()
