"""Feeds damaged run files to the program and to the reading of document 01 in reference/, and compares what they print.

    python3 scripts/fuzz_transient.py PROGRAM [COUNT [SEED [JOBS]]]

PROGRAM is the built program (target/bin/transient). Files are cut, grown and resized, their bits flipped, tables forged and numbers replaced. A
difference, an exit status that is not 0 or a word on standard error is written out with the file's bytes, and ends the run with status 1.
The last lines count the answers."""

import collections
import json
import os
import pathlib
import random
import struct
import sys
import tempfile

ROOT = pathlib.Path(__file__).resolve().parent.parent
sys.path.insert(0, str(ROOT / "reference"))

import document01  # noqa: E402

DATA = ROOT / "crates" / "transient_cases" / "data"
LARGE = {"accepted_16_1", "accepted_8_2", "accepted_4_4", "accepted_2_8", "refused_15_longer_than_any"}
WORDS = [0, 1, 2, 3, 4, 7, 8, 15, 16, 17, 18, 39, 40, 41, 56, 64, 255, 256, 65536, 2**31, 2**32 - 1]
PATTERNS = [
    0, 1 << 63, 1, (1 << 52) - 1, 1 << 52, 0x3FF0_0000_0000_0000, 0xBFF0_0000_0000_0000, 0x3D71_9799_812D_EA11, 0x7FEF_FFFF_FFFF_FFFF,
    0xFFEF_FFFF_FFFF_FFFF, 0x7FF0_0000_0000_0000, 0xFFF0_0000_0000_0000, 0x7FF0_0000_0000_0001, 0x7FF8_0000_0000_0000, 0xFFFF_FFFF_FFFF_FFFF,
    0x5FE0_0000_0000_0000, 0x6000_0000_0000_0000, 0x1FF0_0000_0000_0000,
]  # fmt: skip


def cut(data, choose):
    return data[: choose.randrange(len(data) + 1)]


def grown(data, choose):
    return data + choose.randbytes(choose.choice([1, 2, 8, 16, 100]))


def flipped(data, choose):
    data = bytearray(data)
    for _ in range(choose.choice([1, 1, 1, 2, 4, 8])):
        if data:
            data[choose.randrange(len(data))] ^= 1 << choose.randrange(8)
    return bytes(data)


def forged(data, choose):
    """A word of the sizes or of the table replaced, or moved by a little."""
    at = 4 * choose.randrange(10)
    if len(data) < at + 4:
        return data
    (word,) = struct.unpack_from("<I", data, at)
    word = choose.choice([choose.choice(WORDS), (word + choose.choice([-8, -1, 1, 8])) % 2**32, choose.getrandbits(32)])
    return data[:at] + struct.pack("<I", word) + data[at + 4 :]


def replaced(data, choose):
    """A number of a body replaced."""
    count = (len(data) - 40) // 8
    if count <= 0:
        return data
    at = 40 + 8 * choose.randrange(count)
    pattern = choose.choice([choose.choice(PATTERNS), choose.getrandbits(64)])
    return data[:at] + struct.pack("<Q", pattern) + data[at + 8 :]


def resized(data, choose):
    """Sizes changed and the table made to match them, with as many numbers as they want."""
    points, orbitals = choose.choice([(2, 1), (2, 2), (3, 1), (4, 1), (1, 1), (17, 1), (2, 9)])
    rows = document01.contents(points, orbitals)
    wanted = rows[-1][0] + 8 * rows[-1][1]
    body = (data[40:] * (wanted // max(1, len(data) - 40) + 1))[: wanted - 40] if len(data) > 40 else bytes(wanted - 40)
    return struct.pack("<II", points, orbitals) + b"".join(struct.pack("<II", *row) for row in rows) + body


DAMAGES = [cut, grown, flipped, flipped, forged, forged, replaced, replaced, replaced, resized]


def damaged(bases, choose):
    data = choose.choice(bases)
    for _ in range(choose.choice([1, 1, 2, 3])):
        data = choose.choice(DAMAGES)(data, choose)
    return data


class Program:
    """Runs the program with files for its three streams: nothing of a run is kept for the next."""

    def __init__(self, path):
        self.path = path
        self.streams = [tempfile.TemporaryFile(buffering=0) for _ in range(3)]

    def run(self, data):
        given, out, err = (stream.fileno() for stream in self.streams)
        for stream in (given, out, err):
            os.ftruncate(stream, 0)
            os.lseek(stream, 0, os.SEEK_SET)
        os.write(given, data)
        os.lseek(given, 0, os.SEEK_SET)
        actions = [(os.POSIX_SPAWN_DUP2, stream, number) for number, stream in enumerate((given, out, err))]
        child = os.posix_spawn(self.path, [self.path], {}, file_actions=actions)
        status = os.waitpid(child, 0)[1]
        return status, os.pread(out, 4096, 0), os.pread(err, 4096, 0)


def fuzz(path, count, seed):
    choose = random.Random(seed)
    bases = [file.read_bytes() for file in sorted(DATA.glob("*.run")) if file.stem not in LARGE]
    program = Program(path)
    answers = collections.Counter()
    for index in range(count):
        data = damaged(bases, choose)
        expected = document01.program_transient(data)
        found = program.run(data)
        if found != (0, expected, b""):
            print(f"difference at {seed}/{index}: {found} where {expected} is due, file {data.hex()}", flush=True)
            raise SystemExit(1)
        first = expected.split(b"\n")[0].decode()
        answers["accepted" if first.startswith("run") else first] += 1
        for number in (10, 14):
            answers[f"a time refused by {number}"] += b" refused %d\n" % number in expected
    return answers


def main():
    path = os.path.abspath(sys.argv[1])
    count, seed, jobs = (int(word) for word in (sys.argv[2:] + ["1000", "1", "1"][len(sys.argv) - 2 :]))
    readers = []
    for job in range(jobs):
        ours, theirs = os.pipe()
        if os.fork() == 0:
            os.close(ours)
            answers = fuzz(path, count // jobs, seed + job)
            os.write(theirs, json.dumps(answers).encode())
            os._exit(0)
        os.close(theirs)
        readers.append(ours)
    total = collections.Counter()
    good = True
    for reader in readers:
        with os.fdopen(reader, "rb") as told:
            text = told.read().decode()
        good = good and text != ""
        total.update(json.loads(text or "{}"))
        good = os.wait()[1] == 0 and good
    for answer, times in sorted(total.items()):
        print(f"{answer}: {times}")
    print(f"{jobs * (count // jobs)} files, no difference" if good else "a difference, or a job that ended early")
    raise SystemExit(0 if good else 1)


if __name__ == "__main__":
    main()
