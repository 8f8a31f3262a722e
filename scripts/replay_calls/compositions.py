"""Calls in which an operation takes the block that another one made. The one beside a refusal has no rows, so that what takes it
is refused by 1."""

import random

from document01 import LARGEST, Block
from replay_calls.blocks import MINUS, POINT, SIX, TWO, drawn
from replay_calls.calls import ADJOINT_PLUS, IDENTITY_TIMES, NAN, Call

FULL = drawn("plain", 16, 16, random.Random(64))


def identities_times():
    for size, x in [
        (16, FULL), (2, Block(2, 3, SIX)), (2, Block(2, 3, FULL.numbers)), (1, Block(1, 1, MINUS)), (15, FULL), (1, Block(2, 1, TWO)),
        (0, Block(1, 1, POINT)), (17, FULL), (1, Block(1, 17, POINT)), (2, Block(2, 2, [1.0] * 7 + [NAN])),
    ]:
        yield Call(IDENTITY_TIMES, 0, 0, 0.0, [x], (size,))


def adjoints_plus():
    """A block that is not square, and one whose sum with its adjoint overflows, leave no block to ask."""
    for x in (FULL, Block(2, 2, TWO), Block(1, 1, [0.0, LARGEST]), Block(1, 2, TWO), Block(1, 1, [LARGEST, 0.0])):
        yield Call(ADJOINT_PLUS, 0, 0, 1e-12, [x])
    yield Call(ADJOINT_PLUS, 0, 0, 0.0, [FULL])


CASES = [identities_times, adjoints_plus]
