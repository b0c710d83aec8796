"""What the checker may know of the F8 at an instruction's beginning, as docs/CHECKER.md has it: a state's parts, and points.

A part that isn't known keeps what lost it, which a verdict doesn't say and a certificate doesn't have.
"""
from __future__ import annotations

from dataclasses import dataclass
from enum import IntEnum
from typing import NamedTuple, Tuple, Union

REGISTERS = 64
MOST_POINTS = 65_536

Part = IntEnum('Part', [*(f'R{number}' for number in range(REGISTERS)), 'A', 'ISAR_HIGH', 'ISAR_LOW', 'SIGN', 'CARRY', 'ZERO',
                        'OVERFLOW', 'ICB', 'D0', 'D1', 'C', 'S0', 'S1', 'P0', 'P1'], start=0)
Part.__doc__ = 'What a state may know: the 64 registers by their numbers, the other registers, the counters, and the facts on copies of them.'

FLAGS = (Part.SIGN, Part.CARRY, Part.ZERO, Part.OVERFLOW)
STATUS = (*FLAGS, Part.ICB)
COUNTERS = (Part.D0, Part.D1, Part.C)
FACTS = (Part.S0, Part.S1, Part.P0, Part.P1)

WORDS = {Part.A: 'A', Part.ISAR_HIGH: "ISAR's high digit", Part.ISAR_LOW: "ISAR's low digit", Part.SIGN: 'the flag S', Part.CARRY: 'the flag C',
         Part.ZERO: 'the flag Z', Part.OVERFLOW: 'the flag O', Part.ICB: 'ICB', Part.D0: 'D0', Part.D1: 'D1', Part.C: 'the DC0 of the 3851s',
         Part.S0: 'that the DC0 of each 3853 is D0', Part.S1: 'that the DC1 of each 3853 is D1',
         Part.P0: 'that the DC0 of each 3851 is D0', Part.P1: 'that the DC0 of each 3851 is D1'}


def is_register(part: Part) -> bool:
    return part < REGISTERS


def part_words(part: Part) -> str:
    return f'r{int(part)}' if is_register(part) else WORDS[part]


def value_words(part: Part, value: object) -> str:
    """A known value of a part as the program writes it."""
    if part in COUNTERS:
        return f'{value:04X}'
    if part in FACTS:
        return 'known'
    return f'{value:02X}' if is_register(part) or part is Part.A else str(int(value))


class Point(NamedTuple):
    """Where a state stands: the address, the return, and the bytes of the tracked registers. What is unset is `None`."""
    at: int
    ret: int | None
    tracked: tuple[int | None, ...]

    def order(self) -> tuple:
        """Points are in order by address, by return and by bytes, with what is unset first."""
        return self.at, first_if_unset(self.ret), tuple(map(first_if_unset, self.tracked))

    def text(self) -> str:
        """The three fields, as lines of the program have them."""
        return f'{self.at:04X} {digits(self.ret, 4)} {",".join(digits(byte, 2) for byte in self.tracked) or "."}'


def first_if_unset(number: int | None) -> int:
    return -1 if number is None else number


def digits(number: object, width: int) -> str:
    """A number in hexadecimal digits, or dashes where it isn't known."""
    return f'{number:0{width}X}' if isinstance(number, int) else '-' * width


@dataclass(frozen=True)
class PowerOn:
    """A part of which nothing is known since power-on."""
    part: Part


@dataclass(frozen=True)
class PortRead:
    """A byte that came from a port."""
    at: int
    port: int


@dataclass(frozen=True)
class DataRead:
    """A byte that was read at an address where no byte stays: in RAM, or where not exactly one chip is."""
    at: int
    address: int


@dataclass(frozen=True)
class PerhapsWritten:
    """A register to which a write may have gone by an ISAR of which a digit isn't known."""
    at: int
    part: Part
    digit: Lost


@dataclass(frozen=True)
class Unstated:
    """A fact that an instruction ends without stating it anew: the counters aren't known to be alike."""
    at: int
    part: Part


@dataclass(frozen=True)
class Exchanged:
    """The fact that each 3851's DC0 is D0, at an XDC: a 3851 has no second data counter, and keeps its DC0."""
    at: int


@dataclass(frozen=True)
class Way:
    """A state that came to a point, with the point from which it came."""
    origin: Point | None
    state: State


@dataclass(frozen=True)
class Meeting:
    """Two ways that meet at a point, where a state keeps what both say."""
    point: Point
    first: Way
    second: Way

    def apart(self) -> list[Part]:
        """The parts that both ways know, and of which they know different values."""
        return [part for part, one, other in zip(Part, self.first.state, self.second.state)
                if not isinstance(one, Unknown) and not isinstance(other, Unknown) and one != other]


@dataclass(frozen=True)
class Met:
    """A part of which two ways that meet know different values."""
    meeting: Meeting
    part: Part


Cause = Union[PowerOn, PortRead, DataRead, PerhapsWritten, Unstated, Exchanged, Met]


@dataclass(frozen=True, eq=False)
class Unknown:
    """A part that isn't known, with what lost it. What a state says doesn't go by the cause, so any two of them are alike."""
    cause: Cause

    def __eq__(self, other: object) -> bool:
        return isinstance(other, Unknown)

    def __hash__(self) -> int:
        return hash(Unknown)


class Lost(NamedTuple):
    """A part that would have to be known."""
    part: Part
    unknown: Unknown


# A byte, an octal digit, a flag, an address, or True for a fact that is stated.
Known = Union[int, bool, Unknown]
State = Tuple[Known, ...]


def start_point(tracked: int) -> Point:
    return Point(0, None, (None,) * tracked)


def start_state() -> State:
    """What is known after reset: the status word and the two data counters are 0."""
    parts: list[Known] = [Unknown(PowerOn(part)) for part in Part]
    for part in (*STATUS, Part.D0, Part.D1):
        parts[part] = False if part in STATUS else 0
    return tuple(parts)


def below(lower: State, upper: State) -> bool:
    """Whether the lower state says all that the upper one says."""
    return all(less is more or less == more or isinstance(more, Unknown) for less, more in zip(lower, upper))


def joined(point: Point, first: Way, second: Way) -> State:
    """What both ways say at the point at which they meet."""
    meeting = Meeting(point, first, second)
    return tuple(common(meeting, part, one, other) for part, one, other in zip(Part, first.state, second.state))


def common(meeting: Meeting, part: Part, one: Known, other: Known) -> Known:
    if isinstance(one, Unknown):
        return one
    if isinstance(other, Unknown) or one == other:
        return other
    return Unknown(Met(meeting, part))
