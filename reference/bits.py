"""Binary64 numbers and their 64 bits."""

import struct


def to_bits(number):
    """The 64 bits of a number, as a whole number."""
    return struct.unpack("<Q", struct.pack("<d", number))[0]


def from_bits(bits):
    """The number with these 64 bits."""
    return struct.unpack("<d", struct.pack("<Q", bits))[0]


def hex_of(number):
    """16 upper-case hexadecimal digits of the bits, highest first."""
    return format(to_bits(number), "016X")


def of_hex(digits):
    """The number whose bits have these hexadecimal digits."""
    return from_bits(int(digits, 16))


def same_bits(left, right):
    """Agreement in bits; two NaNs agree, since a NaN's bits are free."""
    return to_bits(left) == to_bits(right) or (left != left and right != right)
