"""Plans of modules, and what the texts of modules share, as far as lines tell it."""
from __future__ import annotations

import re
from dataclasses import dataclass
from typing import Iterator

HEX = '[0-9A-Fa-f]'
MODULE = re.compile(rf'module (\S+) ({HEX}{{4}}) ({HEX}{{4}})'.encode())
SHARES = re.compile(rb'[ \t]*(EXPORT|IMPORT)\b([^;]*)', re.I)
NAME = re.compile(rb'[A-Za-z_]\w*')


@dataclass(frozen=True)
class Planned:
    """A module of a plan: its number, the line of the plan, its file and its room."""
    number: int
    line: int
    file: str
    first: int
    last: int

    @property
    def room(self) -> str:
        return f'{self.first:04X} to {self.last:04X}'

    def meets(self, other: Planned) -> bool:
        return self.first <= other.last and other.first <= self.last


@dataclass(frozen=True)
class Shared:
    """A name that a line exports or imports."""
    word: str
    name: str
    line: int


def lines_in(data: bytes) -> list[bytes]:
    """The lines of a text. A carriage return belongs to the line's end where a line feed stands behind it, and to the line else."""
    *ended, last = data.split(b'\n')
    return [*(line.removesuffix(b'\r') for line in ended), last]


def planned(data: bytes) -> list[Planned]:
    """The modules of a plan by their numbers. Lines in another form are passed over."""
    found = [(number, match) for number, line in enumerate(lines_in(data), 1) if (match := MODULE.fullmatch(line))]
    return [Planned(at, number, match[1].decode('ascii', 'replace'), int(match[2], 16), int(match[3], 16)) for at, (number, match) in enumerate(found)]


def shared(data: bytes) -> Iterator[Shared]:
    """The names that a text exports and imports, line by line."""
    for number, line in enumerate(lines_in(data), 1):
        if match := SHARES.match(line):
            for name in NAME.findall(match[2]):
                yield Shared(match[1].decode().upper(), name.decode(), number)


def shares(line: bytes) -> bool:
    """Whether a line exports or imports names."""
    return SHARES.match(line) is not None
