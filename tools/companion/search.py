"""The checker's search: what is known at each point that a run may come to, and the verdict, as docs/CHECKER.md has them."""
from __future__ import annotations

import heapq
from dataclasses import dataclass, field
from enum import Enum
from typing import Callable

from companion.domain import MOST_POINTS, Point, State, Way, below, joined
from companion.rules import Refusal, Rules


class Verdict(Enum):
    """The first words of the lines of `check`."""
    WHOLE = 'whole'
    AGREED = 'agreed'
    REFUSED = 'refused'
    TOO_MANY = 'toomany'


@dataclass
class Search:
    """What is found so far. It looks at the lowest point that is due, until none is, as the program does."""
    rules: Rules
    notes: dict[Point, State] = field(default_factory=dict)
    origins: dict[Point, Point | None] = field(default_factory=dict)  # whence a point was first reached
    due: list[tuple[tuple, Point]] = field(default_factory=list)  # a heap of the points to look at, by their order
    is_due: set[Point] = field(default_factory=set)
    refusal: Refusal | None = None
    verdict: Verdict | None = None

    def run(self, tick: Callable[[], None] = lambda: None) -> Verdict:
        """The verdict; `tick` is called at each step."""
        point, state = self.rules.start()
        self.write(point, state)
        self.origins[point] = None
        while self.due and self.verdict is None:
            tick()
            self.settle(heapq.heappop(self.due)[1])
        if self.verdict is None:
            self.verdict = Verdict.AGREED if self.faults() else Verdict.WHOLE
        return self.verdict

    def write(self, point: Point, state: State) -> None:
        self.notes[point] = state
        if point not in self.is_due:
            self.is_due.add(point)
            heapq.heappush(self.due, (point.order(), point))

    def settle(self, point: Point) -> None:
        """Adds all that may come after a point's state, unless this isn't safe."""
        self.is_due.discard(point)
        found = self.rules.after(point, self.notes[point])
        if isinstance(found, Refusal):
            self.refusal, self.verdict = found, Verdict.REFUSED
            return
        for after, state in found:
            self.add(point, after, state)
            if self.verdict is not None:
                return

    def add(self, origin: Point, point: Point, state: State) -> None:
        """A state is written where none is; and where the one that is there says more, what both say."""
        old = self.notes.get(point)
        if old is None:
            if len(self.notes) >= MOST_POINTS:
                self.verdict = Verdict.TOO_MANY
                return
            self.origins[point] = origin
            self.write(point, state)
        elif not below(state, old):
            self.write(point, joined(point, Way(self.origins[point], old), Way(origin, state)))

    def faults(self) -> list[Point]:
        """The points whose instruction may read where no chip answers."""
        return [point for point in sorted(self.notes, key=Point.order) if not self.rules.is_fault_free(point, self.notes[point])]

    def line(self) -> str:
        """What `check` writes."""
        if self.verdict is Verdict.REFUSED:
            return self.refusal.text()
        return self.verdict.value if self.verdict is Verdict.TOO_MANY else f'{self.verdict.value} {len(self.notes)}'
