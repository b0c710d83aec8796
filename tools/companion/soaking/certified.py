"""What `verify` answers, worked out by other means than the program's: by docs/FORMATS.md and docs/CHECKER.md, over the companions' rules."""
from __future__ import annotations

import re
from typing import Pattern, Sequence

from companion.certificates import read_entry
from companion.description import Description
from companion.domain import MOST_POINTS, Point, State, below
from companion.memory import Memory
from companion.rules import Refusal, Rules

HEADER, COUNT, FIELD, ORDER, END, TRACKED = range(1, 7)
FIRST = re.compile(rb'F8CERT 1 ([0-9]{1,7})')
HEX = '[0-9A-Fa-f]'
BYTE, WORD = f'(?:{HEX}{{2}}|--)', f'(?:{HEX}{{4}}|----)'
SCRATCHPAD = 10  # its place among the fields


class Unreadable(Exception):
    """The first fault of a text that is no certificate."""

    def __init__(self, line: int, cause: int):
        super().__init__(f'error cert line {line} cause {cause}')


def line_form(tracked: int) -> Pattern[bytes]:
    """The form of a line, by the number of registers that are tracked."""
    values = ','.join([BYTE] * tracked) or r'\.'
    return re.compile(f'{HEX}{{4}} {WORD} {values} {BYTE} [0-7-]{{2}} [01-]{{5}}(?: {WORD}){{3}} [01]{{4}} {BYTE}{{64}}'.encode())


def read_map(text: bytes, tracked: Sequence[int]) -> dict[Point, State]:
    *lines, rest = text.split(b'\n')
    if not lines:
        raise Unreadable(1, END)
    header = FIRST.fullmatch(lines[0])
    if not header:
        raise Unreadable(1, HEADER)
    if not 1 <= int(header[1]) <= MOST_POINTS:
        raise Unreadable(1, COUNT)
    form, found = line_form(len(tracked)), {}
    before: tuple = ()
    for number in range(2, int(header[1]) + 2):
        if number > len(lines):
            raise Unreadable(number, END)
        point, state = read_line(number, lines[number - 1], form, tracked)
        if point.order() <= before:
            raise Unreadable(number, ORDER)
        found[point], before = state, point.order()
    if len(lines) > len(found) + 1 or rest:
        raise Unreadable(len(found) + 2, END)
    return found


def read_line(number: int, line: bytes, form: Pattern[bytes], tracked: Sequence[int]) -> tuple[Point, State]:
    if not form.fullmatch(line):
        raise Unreadable(number, FIELD)
    words = line.decode().split(' ')
    values = [] if words[2] == '.' else words[2].split(',')
    if any(words[SCRATCHPAD][2 * register:2 * register + 2].upper() != value.upper() for register, value in zip(tracked, values)):
        raise Unreadable(number, TRACKED)
    return read_entry(words)


def verified(description: Description, text: bytes) -> str:
    """The line of `verify` on files that are in order but for the certificate."""
    try:
        return judged(Rules(Memory(description.chips), description.split), read_map(text, description.split))
    except Unreadable as fault:
        return str(fault)


def judged(rules: Rules, notes: dict[Point, State]) -> str:
    point, state = rules.start()
    if not covered(notes, point, state):
        return f'notclosed start to {point.text()}'
    for origin, known in notes.items():
        found = rules.after(origin, known)
        if isinstance(found, Refusal):
            return f'unsafe {origin.text()} {int(found.reason)}'
        for point, state in found:
            if not covered(notes, point, state):
                return f'notclosed {origin.text()} to {point.text()}'
    is_whole = all(rules.is_fault_free(point, state) for point, state in notes.items())
    return f'{"whole" if is_whole else "agreed"} {len(notes)}'


def covered(notes: dict[Point, State], point: Point, state: State) -> bool:
    return point in notes and below(state, notes[point])
