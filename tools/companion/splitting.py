"""The search for registers to track, with which the program can show a cartridge safe.

It follows what lost the part that would have to be known: it adds the lost register, or one that tells the ways apart where it
was lost, and goes back where that leads nowhere.  The program's `check` decides on each list.
"""
from __future__ import annotations

import subprocess
import tempfile
import time
from dataclasses import dataclass, field
from enum import IntEnum
from pathlib import Path
from typing import Callable, Iterable, Iterator

from companion.causes import candidates, meeting_of, root
from companion.description import Description
from companion.description_text import written_anew
from companion.domain import Lost, Meeting, Part, Unknown, is_register
from companion.memory import Memory
from companion.program import Answer, Program
from companion.rules import Reason, Rules
from companion.search import Search, Verdict
from companion.words import Refused

MOST_TRACKED = 8
ANSWERS = [verdict.value for verdict in Verdict]
Tracked = tuple  # of the numbers of registers, in the order in which they were added


class OutOfTime(Exception):
    """The calls or the seconds are used up."""


class Rank(IntEnum):
    """How good an answer of `check` is."""
    NONE = 0
    AGREED = 1
    WHOLE = 2


@dataclass(frozen=True)
class Trial:
    """A list, and what is found with it: the line of `check`, and the search by the rules, which tells the causes."""
    tracked: Tracked
    line: str
    search: Search | None

    @property
    def rank(self) -> Rank:
        return {'whole': Rank.WHOLE, 'agreed': Rank.AGREED}.get(self.line.split(' ')[0], Rank.NONE)

    @property
    def points(self) -> int:
        return int(self.line.split()[-1]) if self.rank else 0

    def lost(self) -> list[Lost]:
        """The parts that would have to be known for a better answer: at the state that is refused, or at reads that may not be served."""
        if self.search is None or self.rank is Rank.WHOLE:
            return []
        if self.search.verdict is Verdict.REFUSED:
            return list(self.search.refusal.lost)
        counters = (self.search.notes[point][Part.D0] for point in self.search.faults())
        causes = {id(counter): Lost(Part.D0, counter) for counter in counters if isinstance(counter, Unknown)}
        return list(causes.values())


def described(description: Description, tracked: Iterable[int]) -> str:
    """A description with the same chips and bytes, and other registers that are tracked."""
    return written_anew({**description.values, 'split': list(tracked)}, description.tables, description.chips)


@dataclass
class Trials:
    """The lists that were tried, each once, within so many calls of the program and so many seconds."""
    description: Description
    program: Program
    most_calls: int
    seconds: float
    tell: Callable[[str], None] = lambda text: None
    done: dict[frozenset, Trial] = field(default_factory=dict)
    calls: int = 0
    is_over: bool = False  # the calls or the seconds are used up
    begun: float = field(default_factory=time.monotonic)

    def left(self) -> float:
        return self.begun + self.seconds - time.monotonic()

    def tick(self) -> None:
        if self.left() < 0:
            raise OutOfTime

    def trial(self, tracked: Tracked) -> Trial:
        key = frozenset(tracked)
        if key not in self.done:
            line = self.checked(tracked)
            search = None if line == Verdict.TOO_MANY.value else Search(Rules(Memory(self.description.chips), sorted(tracked)))
            if search is not None:
                search.run(self.tick)
            self.done[key] = Trial(tracked, line, search)
            self.tell(f'call {self.calls}, {sorted(tracked)}: {line}')
        return self.done[key]

    def checked(self, tracked: Tracked) -> str:
        """What the program says of a list."""
        if self.calls >= self.most_calls:
            raise OutOfTime
        self.tick()
        self.calls += 1
        with tempfile.TemporaryDirectory() as folder:
            path = Path(folder, 'cart.toml')
            path.write_text(described(self.description, sorted(tracked)))
            try:
                with self.program.started('check', path) as child:
                    output, _ = child.communicate(timeout=max(self.left(), 0.01))
            except subprocess.TimeoutExpired:
                raise OutOfTime from None
        line = Answer(output, child.returncode).last
        if line.split(' ')[0] not in ANSWERS:
            raise Refused(f'check answers {line}')
        return line


def steps_apart(meeting: Meeting, register: int) -> bool:
    """Whether a register differs by one, as a counter of a loop does."""
    first, second = (way.state[register] for way in (meeting.first, meeting.second))
    return isinstance(first, int) and isinstance(second, int) and (first - second) % 256 in (1, 255)


def next_registers(trial: Trial) -> list[int]:
    """The registers that may help: the one that was lost, then counters that tell the ways apart, then others that do."""
    found: dict[int, None] = {}
    for lost in trial.lost():
        meeting = meeting_of(lost)
        own = root(lost).unknown.cause.part if meeting else None
        wanted = [register for register in candidates(lost) if register not in trial.tracked]
        found.update(dict.fromkeys(sorted(wanted, key=lambda register: (register != own, not steps_apart(meeting, register)))))
    return list(found)


def blurred(trial: Trial) -> int | None:
    """The tracked register that is written with what no list makes known."""
    refusal = trial.search.refusal if trial.search else None
    if refusal is None or refusal.reason is not Reason.BLURRED or any(meeting_of(lost) for lost in refusal.lost):
        return None
    return next((int(lost.part) for lost in refusal.lost if is_register(lost.part)), None)


class Strategy:
    """From a list on to a better one, depth first."""

    def __init__(self, trials: Trials):
        self.trials = trials
        self.hopeless: set[int] = set()  # registers that are written with what no list makes known

    def better(self, start: Tracked, goal: Rank) -> Trial | None:
        """A list of the rank that is wished, with the registers of the start and more."""
        todo, seen = [start], set()
        while todo:
            tracked = todo.pop()
            if frozenset(tracked) in seen or self.hopeless & set(tracked):
                continue
            seen.add(frozenset(tracked))
            trial = self.trials.trial(tracked)
            if trial.rank >= goal:
                return trial
            if (register := blurred(trial)) is not None:
                self.hopeless.add(register)
            elif len(tracked) < MOST_TRACKED:
                todo += [(*tracked, register) for register in reversed(next_registers(trial))]
        return None

    def lean(self, trial: Trial) -> Trial:
        """Without the registers that aren't needed, the last one that was added first."""
        for register in reversed(trial.tracked):
            less = self.trials.trial(tuple(other for other in trial.tracked if other != register))
            trial = less if less.rank >= trial.rank else trial
        return trial

    def best(self) -> Trial | None:
        """The best list that is found before the calls or the seconds are used up."""
        found = None
        try:
            for goal in (Rank.AGREED, Rank.WHOLE):
                trial = self.better(found.tracked if found else (), goal)
                if trial is None:
                    return found
                found = trial
                found = self.lean(found)
                if found.rank is Rank.WHOLE:
                    return found
        except OutOfTime:
            self.trials.is_over = True
        return found
