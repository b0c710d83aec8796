"""The processor's sums, as docs/MACHINE.md has them."""
from __future__ import annotations

from typing import NamedTuple


class Sum(NamedTuple):
    """A sum modulo 256, the carry out of bit 7, and whether the carries out of bit 6 and bit 7 differ."""
    value: int
    carry: bool
    overflow: bool


def added(first: int, second: int, carry: int = 0) -> Sum:
    whole = first + second + carry
    into_sign = first % 128 + second % 128 + carry > 127
    return Sum(whole % 256, whole > 255, into_sign != (whole > 255))


def added_decimal(first: int, second: int) -> int:
    """Each digit of the binary sum gains 10, modulo 16, where nothing was carried out of it."""
    value, carry, _ = added(first, second)
    high = value // 16 + (0 if carry else 10)
    low = value % 16 + (0 if first % 16 + second % 16 > 15 else 10)
    return high % 16 * 16 + low % 16
