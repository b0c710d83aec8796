"""A run's script: when it ends, what comes to it from outside, and which frames are shown.

`Script.of` reads any bytes as docs/FORMATS.md has it, and keeps the first fault, with its line and cause.
"""
from __future__ import annotations

import re
from dataclasses import dataclass, field
from enum import Enum
from typing import Iterator

MOST_FRAMES = 600
MOST_STEPS = 1_000_000
MOST_LINES = 1_024  # of `at` and `show` together
MOST_CHIPS = 16
MOST_BYTES = 65_536


class Cause(Enum):
    """Why a line is refused, by its number in `error script`."""
    WORD = 1
    NUMBER = 2
    RANGE = 3
    TOO_MANY = 4
    TWICE = 5
    NO_END = 6


class EventKind(Enum):
    KEYS = 'keys'
    PULSE = 'pulse'


class End(Enum):
    """What the end of a run counts."""
    FRAMES = 'frames'
    STEPS = 'steps'


@dataclass(frozen=True)
class Event:
    """What comes at a frame: the key byte of a port, or a pulse to a chip."""
    frame: int
    kind: EventKind
    place: int  # the port, or the chip in the order of the description
    byte: int = 0

    def line(self) -> str:
        if self.kind is EventKind.PULSE:
            return f'at {self.frame} pulse {self.place}'
        return f'at {self.frame} keys {self.place:02X} {self.byte:02X}'


@dataclass(frozen=True)
class Fault:
    line: int
    cause: Cause

    def told(self) -> str:
        return f'line {self.line}: {self.cause.name.lower().replace("_", " ")} (docs/FORMATS.md, error script cause {self.cause.value})'


class Bad(Exception):
    """A line at fault."""

    def __init__(self, cause: Cause):
        super().__init__(cause.name)
        self.cause = cause


def decimal(word: bytes, least: int, most: int) -> int:
    if not re.fullmatch(rb'[0-9]{1,7}', word):
        raise Bad(Cause.NUMBER)
    if not least <= int(word) <= most:
        raise Bad(Cause.RANGE)
    return int(word)


def byte_of(word: bytes) -> int:
    if not re.fullmatch(rb'[0-9A-Fa-f]{2}', word):
        raise Bad(Cause.NUMBER)
    return int(word, 16)


def in_form(*words: bytes) -> None:
    """All digits of a line are looked at before any range is."""
    for word in words:
        if not re.fullmatch(rb'[0-9]{1,7}', word):
            raise Bad(Cause.NUMBER)


@dataclass
class Script:
    """What a script says. Of a text at fault, what its good lines say, and the first fault."""
    power: int | None = None
    end: End | None = None
    count: int = 0  # of frames or of steps
    events: list[Event] = field(default_factory=list)
    shown: list[int] = field(default_factory=list)  # as they are given, so that a frame may stand here twice
    fault: Fault | None = None

    @classmethod
    def of(cls, data: bytes) -> Script:
        script = cls()
        for number, line in lines_of(data):
            try:
                script.take(line)
            except Bad as bad:
                script.fault = script.fault or Fault(number, bad.cause)
        if script.end is None and script.fault is None:
            script.fault = Fault(len(text_lines(data)) + 1, Cause.NO_END)
        return script

    def take(self, line: bytes) -> None:
        """A line that isn't skipped."""
        words = line.split(b' ')
        if not re.fullmatch(rb'[ -~]*', line):
            raise Bad(Cause.WORD)
        if words[0] in (b'frames', b'steps') and len(words) == 2:
            end = End(words[0].decode())
            count = decimal(words[1], *((1, MOST_FRAMES) if end is End.FRAMES else (0, MOST_STEPS)))
            self.once(self.end is None)
            self.end, self.count = end, count
        elif words[0] == b'power' and len(words) == 2:
            power = byte_of(words[1])
            self.once(self.power is None)
            self.power = power
        elif words[0] == b'show' and len(words) == 2:
            frame = decimal(words[1], 1, MOST_FRAMES)
            self.room()
            self.shown.append(frame)
        else:
            event = event_of(words)
            self.room()
            self.events.append(event)

    @staticmethod
    def once(is_first: bool) -> None:
        if not is_first:
            raise Bad(Cause.TWICE)

    def room(self) -> None:
        if len(self.events) + len(self.shown) >= MOST_LINES:
            raise Bad(Cause.TOO_MANY)


def event_of(words: list[bytes]) -> Event:
    if len(words) == 5 and words[0] == b'at' and words[2] == b'keys':
        in_form(words[1])
        port, byte = byte_of(words[3]), byte_of(words[4])
        return Event(decimal(words[1], 0, MOST_FRAMES - 1), EventKind.KEYS, port, byte)
    if len(words) == 4 and words[0] == b'at' and words[2] == b'pulse':
        in_form(words[1], words[3])
        return Event(decimal(words[1], 0, MOST_FRAMES - 1), EventKind.PULSE, decimal(words[3], 0, MOST_CHIPS - 1))
    raise Bad(Cause.WORD)


def lines_of(data: bytes) -> Iterator[tuple[int, bytes]]:
    """The lines that aren't skipped, with their numbers."""
    for number, line in enumerate(text_lines(data), 1):
        if line.strip(b' \t') and not line.startswith(b'#'):
            yield number, line


def text_lines(data: bytes) -> list[bytes]:
    """All lines of a text: each ends with LF, which the last may lack, and a CR right before an LF is dropped once."""
    *lines, last = data.split(b'\n')
    return [line.removesuffix(b'\r') for line in lines] + [last] * bool(last)
