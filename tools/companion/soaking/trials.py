"""A case while it is tried: the files that it puts down, its calls, and how it ends."""
from __future__ import annotations

import os
from dataclasses import dataclass, field
from enum import Enum
from random import Random
from typing import Protocol, Sequence

from companion.soaking.answers import fault_in
from companion.soaking.calls import Told, Word

REFUSALS = (1, 2, 4)  # the statuses of what is refused
AGAIN = 0.02  # of the calls, which are done a second time


class Outcome(Enum):
    """How a case ended."""
    AGREED = 'agreed'
    REFUSED = 'refused'
    LOST = 'lost'
    DIFFERED = 'differed'

    @property
    def is_found(self) -> bool:
        """Whether it is to be told by itself."""
        return self in (Outcome.LOST, Outcome.DIFFERED)


class Lost(Exception):
    """A call whose answer isn't in the table."""


class Differs(Exception):
    """Two answers that have to be alike and aren't."""


class Calling(Protocol):
    def call(self, *words: Word) -> Told: ...


@dataclass
class Trial:
    """What a case has by itself: its number, its random choices, its files, and the calls so far."""
    seed: int
    number: int
    caller: Calling
    random: Random
    files: dict[str, bytes] = field(default_factory=dict)
    calls: list[tuple[Word, ...]] = field(default_factory=list)
    is_refused: bool = False  # its first call was

    def put(self, name: str, data: bytes | str) -> str:
        """A file in the folder of the worker, which is the one where it is."""
        given = data.encode() if isinstance(data, str) else data
        self.files[name] = given
        with open(name, 'wb', buffering=0) as file:
            file.write(given)
        return name

    def take_away(self) -> None:
        """Takes its files from the folder."""
        for name in self.files:
            os.unlink(name)

    def call(self, *words: Word) -> Told:
        """The answer of the program, which is in the table, and now and then the same a second time."""
        told = self.called(*words)
        if len(self.calls) == 1:
            self.is_refused = told.status in REFUSALS
        if self.random.random() < AGAIN:
            self.again(told)
        return told

    def called(self, *words: Word) -> Told:
        self.calls.append(words)
        told = self.caller.call(*words)
        if fault := fault_in(told):
            raise Lost(fault)
        return told

    def again(self, told: Told) -> None:
        """The same call gives the same bytes."""
        other = self.called(*told.words)
        self.agree((other.output, other.status) == (told.output, told.status), 'the same call gave other bytes the second time')

    def agree(self, is_so: bool, what: str) -> None:
        if not is_so:
            raise Differs(what)

    def same(self, own: object, due: object, what: str) -> None:
        """What the program answered, and what another way answers."""
        if own != due:
            raise Differs(f'{what}: {shown(own, due)} where {shown(due, own)} is due')

    def refused_alike(self, told: Told, due: str | None, unless: Sequence[str] = ()) -> None:
        """A refusal is the one that is due, if any is; those that begin with some words aren't judged."""
        line = told.line if told.status in REFUSALS else None
        if line is None or not line.startswith(tuple(unless)) or not unless:
            self.same(line, due, 'refusal')


MOST_SHOWN = 160


def shown(value: object, other: object) -> str:
    """A value in a line. Of two long texts the part where they part."""
    if isinstance(value, bytes):
        value, other = value.decode('latin-1'), other.decode('latin-1') if isinstance(other, bytes) else ''
    if not isinstance(value, str):
        return repr(value)[:MOST_SHOWN]
    lines, others = value.split('\n'), str(other).split('\n')
    at = next((at for at, (one, two) in enumerate(zip(lines, others)) if one != two), min(len(lines), len(others)))
    line = lines[at] if at < len(lines) else ''
    return repr(line[:MOST_SHOWN]) + (f' in line {at + 1}' if len(lines) > 2 else '')
