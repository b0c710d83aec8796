"""A capture of a logic analyser as a table, and its bus cycles."""
from __future__ import annotations

import csv
from typing import Iterable, Iterator, NamedTuple

from companion.auditing.arbitration import IDLE, RESET
from companion.auditing.drivers import Cycle
from companion.words import Refused

CODE = [f'ROMC{bit}' for bit in range(5)]
DATA = [f'D{bit}' for bit in range(8)]
WRITE, CLOCK = 'WRITE', 'PHI'
OTHER_NAMES = {'Φ': CLOCK, **{f'DB{bit}': f'D{bit}' for bit in range(8)}}  # in capitals
LEVELS = {'0': 0, '1': 1}
SHORT, LONG = 4, 6  # Φ
COMMENT = ';'


class Row(NamedTuple):
    """The levels of a row, with the number of its line."""
    line: int
    code: int
    byte: int
    write: int
    clock: int


def name_of(head: str) -> str:
    name = head.strip().upper()
    return OTHER_NAMES.get(name, name)


def places_of(heads: list[str]) -> list[int]:
    """Where the columns stand, in the order of their names here."""
    names, wanted = [name_of(head) for head in heads], [*CODE, *DATA, WRITE, CLOCK]
    missing = [name for name in wanted if names.count(name) == 0]
    twice = [name for name in wanted if names.count(name) > 1]
    if missing or twice:
        told = f'has no column {", ".join(missing)}' if missing else f'has more than one column {", ".join(twice)}'
        raise Refused(f'the capture {told}: it needs ROMC0 to ROMC4, D0 to D7, WRITE and PHI')
    return [names.index(name) for name in wanted]


def number(levels: list[int]) -> int:
    """Levels as a number, the lowest bit first."""
    return sum(level << bit for bit, level in enumerate(levels))


def rows_of(lines: Iterable[str]) -> Iterator[Row]:
    """The rows of a table, below a line with the names of its columns. Lines that begin with `;` are comments."""
    reader = csv.reader(line for line in lines)
    places: list[int] | None = None
    for fields in reader:
        if not any(field.strip() for field in fields) or fields[0].startswith(COMMENT):
            continue
        if places is None:
            places = places_of(fields)
            continue
        try:
            levels = [LEVELS[fields[place].strip()] for place in places]
        except (IndexError, KeyError):
            raise Refused(f'line {reader.line_num} of the capture: each column has a level, 0 or 1') from None
        yield Row(reader.line_num, number(levels[:5]), number(levels[5:13]), *levels[13:])
    if places is None:
        raise Refused('the capture has no line with the names of its columns')


def cycles_of(rows: Iterable[Row]) -> Iterator[Cycle]:
    """The bus cycles between two falls of WRITE. The first fall ends one whose beginning isn't in the capture."""
    before: Row | None = None
    clocks: int | None = None
    for row in rows:
        if before is not None:
            rises = row.clock > before.clock
            clocks = clocks + rises if clocks is not None else None
            if row.write < before.write:
                if clocks is not None:
                    yield cycle_of(before, row, clocks)
                clocks = 0
        before = row


def cycle_of(last: Row, fall: Row, clocks: int) -> Cycle:
    """A cycle by the row before WRITE falls, and by its clocks."""
    if clocks not in (SHORT, LONG):
        raise Refused(f'line {fall.line} of the capture: a bus cycle of {clocks} Φ ends there, and not of 4 or 6: are samples missing?')
    return Cycle(last.code, clocks == LONG, last.byte)


def from_reset(cycles: Iterable[Cycle]) -> Iterator[Cycle]:
    """The cycles from the first reset on: from the one with the code 1C before the first 08."""
    before: Cycle | None = None
    rest = iter(cycles)
    for cycle in rest:
        if cycle.code == RESET:
            if before is not None and before.code == IDLE:
                yield before
            yield cycle
            yield from rest
            return
        before = cycle
    raise Refused('there is no reset in the capture: no bus cycle has the code 08')
