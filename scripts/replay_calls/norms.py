"""Calls of the norm."""

import itertools
import math
import random

from bits import from_bits, to_bits
from document01 import LARGEST, SMALLEST_NORMAL, from_units, units
from replay_calls.calls import INFINITY, NAN, NANS, NORM, SMALLEST, Call, beside

SUBNORMAL = math.nextafter(SMALLEST_NORMAL, 0.0)


def norm(re, im):
    return Call(NORM, 0, 0, 0.0, more=(to_bits(re), to_bits(im)))


def moved(x, steps):
    """The number so many places further."""
    return from_bits(to_bits(x) + steps)


def bench():
    """P1 to P5, and P1 and P5 with other signs and orders."""
    yield norm(3.0, 4.0)
    yield norm(-0.0, 0.0)
    yield norm(2 * SMALLEST, 2 * SMALLEST)
    yield norm(LARGEST, LARGEST)
    tie = (2.0**53 - 2.0**26 - 1, 6 * 2.0**50 + 6 * 2.0**25)
    for (re, im), (s, t) in itertools.product([(3.0, 4.0), tie], itertools.product((1.0, -1.0), repeat=2)):
        yield norm(s * im, t * re)
    yield norm(*tie)


def special():
    """Zeros of either sign, the ends of the subnormal and normal numbers, and parts that are no numbers."""
    numbers = [0.0, -0.0, SMALLEST, -SMALLEST, SUBNORMAL, -SUBNORMAL, SMALLEST_NORMAL, 1.0, LARGEST, -LARGEST]
    for re, im in itertools.product([*numbers, INFINITY, -INFINITY, NAN], repeat=2):
        yield norm(re, im)
    for nan, other in itertools.product(NANS, (1.0, -INFINITY)):
        yield norm(nan, other)
    for nan in NANS:
        yield norm(LARGEST, nan)


def pythagorean():
    """Parts (m² - n², 2·m·n) of up to 53 digits and their root m² + n², each halved while the parts are longer and even."""
    rng = random.Random(5)
    while True:
        m = rng.randrange(1 << 26, 1 << 27)
        n = rng.randrange(1, m)
        a, b, c = m * m - n * n, 2 * m * n, m * m + n * n
        while max(a, b) >= 1 << 53 and a % 2 == b % 2 == 0:
            a, b, c = a // 2, b // 2, c // 2
        if max(a, b) < 1 << 53:
            yield a, b, c


def ties():
    """Exact roots of 54 digits lie in the middle; a part beside one does not. Shorter roots are exact."""
    rng = random.Random(41)
    triples = pythagorean()
    middle = ((a, b) for a, b, c in triples if c.bit_length() == 54 and c % 2 == 1)
    for a, b in itertools.islice(middle, 120):
        shift = rng.choice([0, 0, 1, 700, 2000])
        x, y = from_units(a << shift), from_units(b << shift)
        for re, im in ((x, y), (x, moved(y, 1)), (moved(x, -1), y)):
            yield norm(re, im)
    for a, b, _ in itertools.islice(triples, 60):
        yield norm(from_units(a << 3), from_units(b << 3))
    for m, n in [(2, 1), (3, 2), (4, 1), (20, 3), (2**25, 1), (2**26, 2**25 - 1)]:
        yield norm(float(m * m - n * n), -float(2 * m * n))


def overflows():
    """The root is just below (2^54 - 1)·2^970, at it or above it."""
    a, b = from_bits(0x7FD59B43FAB3687F), from_bits(0x7FEE1F0A43C3E148)
    for step in range(-4, 5):
        yield norm(a, moved(b, step))
        yield norm(-moved(a, step), b)
    rng = random.Random(42)
    limit = ((2**54 - 1) << 2044) ** 2
    for _ in range(60):
        a = from_bits(2046 << 52 | rng.getrandbits(52))
        root = math.isqrt(limit - units(a) ** 2)
        shift = root.bit_length() - 53
        for step in (-1, 0, 1, 2):
            yield norm(a, -moved(from_units(root >> shift << shift), step))
    # A largest part beside one that just reaches half a step, or does not.
    for im in beside(2.0**997 * math.sqrt(2.0)) + beside(2.0**998) + [1.0]:
        yield norm(-LARGEST, im)


def far_apart():
    """The smaller part reaches the last digit, or does not."""
    for field, gap in itertools.product((40, 1023, 2046), range(24, 30)):
        for fraction, other in itertools.product((0, 1, 2**52 - 1), (0, 2**52 - 1)):
            yield norm(from_bits(field << 52 | fraction), from_bits(field - gap << 52 | other))


def powers_of_two():
    for i in range(0, 2098, 37):
        for gap in (0, 1, 26, 27):
            yield norm(from_units(1 << i), from_units(1 << max(0, i - gap)))


def subnormal():
    """Subnormal parts, and norms on both sides of the smallest normal number."""
    rng = random.Random(43)
    for _ in range(200):
        yield norm(from_bits(rng.getrandbits(rng.randrange(1, 54))), -from_bits(rng.getrandbits(rng.randrange(1, 54))))
    for re in beside(SMALLEST_NORMAL):
        yield norm(re, SMALLEST)
        yield norm(re / 2, re)


def every_exponent():
    """Each eighth exponent, beside another that is near, in either order and with either sign."""
    rng = random.Random(44)
    for field in range(0, 2047, 8):
        other = max(0, min(2046, field + rng.randrange(-30, 31)))
        parts = [from_bits(field << 52 | rng.getrandbits(52)), -from_bits(other << 52 | rng.getrandbits(52))]
        rng.shuffle(parts)
        yield norm(*parts)


CASES = [bench, special, ties, overflows, far_apart, powers_of_two, subnormal, every_exponent]
