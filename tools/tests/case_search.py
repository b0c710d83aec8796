"""A search for lists of cases, simple and unproved: what it finds is for `confirm` to judge.

    python3 case_search.py CART [CASES]

says what is found of a cartridge, and writes the list into a file. It goes from the start to all that entries lead to. What comes to one
address and return with the same flags is one entry, in which each part has all the values that came. Where that says too little, it looks
for what has several values there, goes back to where they came together, and begins again with this part's values kept apart.
"""
from __future__ import annotations

import heapq
import sys
import time
from collections import Counter, deque
from dataclasses import dataclass, field
from pathlib import Path
from typing import Iterable, Iterator, NamedTuple, Optional, Sequence, Tuple

from cased import (BY_ISAR, C, D0, D1, EFFECTS, FACTS, FLAGS, ICB, ISAR, LOW, MOST_BYTES, MOST_ENTRIES, MOST_WORDS, NUMBERS, START, STATUS,
                   XDC, Entry, Values, Way, answer, cases, opcode_at, resolved, result, says_same, text_of, way)
from companion.description import Description
from companion.domain import Part, Unknown, first_if_unset
from companion.effects import K, Q
from companion.instructions import Flow
from companion.memory import Memory
from companion.program import Program
from companion.rules import Refusal, Rules

MOST_GROWTH, MOST_ROUNDS, SECONDS = 24, 40, 20
MOST_CASES, MOST_COPIES = 512, 64  # where there would be more, less is known of the bytes that are read
MOST_VALUES = {ISAR: len(NUMBERS) - 1, **dict.fromkeys((D0, D1, C), MOST_WORDS), **dict.fromkeys((*STATUS, *FACTS), 1)}  # else bytes

Key = Tuple[int, Optional[int], tuple, tuple]  # the address, the return, flags, and the values of parts that are kept apart


class Gone(Exception):
    """There are too many entries, or the time is over."""


# ---- flags that count

class Flags:
    """The flags that are read at an address or behind it before they are written. Where the way on isn't in the code all of them are."""

    def __init__(self, rules: Rules):
        self.rules = rules
        self.found: dict[int, frozenset[int]] = {}

    def at(self, address: int) -> frozenset[int]:
        if address not in self.found:
            self.follow(address)
        return self.found[address]

    def onward(self, at: int) -> list[int] | None:
        """Where an instruction leads, None where the code doesn't say it."""
        instruction = self.rules.code(at).instruction
        if instruction is None:
            return []
        flow = instruction.opcode.flow
        if flow in (Flow.RETURN, Flow.CALL_K, Flow.JUMP_Q):
            return None
        return ([instruction.target] if flow in (Flow.JUMP, Flow.CALL, Flow.BRANCH) else []) + (
            [instruction.next] if flow in (Flow.NEXT, Flow.BRANCH) else [])

    def follow(self, address: int) -> None:
        region: dict[int, list[int] | None] = {}
        todo = [address]
        while todo:
            at = todo.pop()
            if at not in region:
                region[at] = self.onward(at)
                todo += region[at] or []
        self.found |= dict.fromkeys(region, frozenset())
        is_changed = True
        while is_changed:
            is_changed = False
            for at in sorted(region, reverse=True):
                read = self.read_from(at, region[at])
                is_changed |= read != self.found[at]
                self.found[at] = read

    def read_from(self, at: int, onward: list[int] | None) -> frozenset[int]:
        instruction = self.rules.code(at).instruction
        if instruction is None:
            return frozenset()
        effect = EFFECTS[instruction.opcode.code]
        behind = frozenset(FLAGS) if onward is None else frozenset().union(*(self.found[other] for other in onward))
        return behind.difference(effect.writes).union(effect.reads).intersection(FLAGS)


# ---- steps

LR_IS_A = 0x0B
TOLD = (ICB, D0, D1, C, *FACTS)  # what an instruction goes by besides what it reads


class Steps:
    """The cases of entries with what becomes of them, where like ones are worked out once."""

    def __init__(self, rules: Rules):
        self.rules = rules
        self.found: dict[tuple, Way] = {}

    def of(self, entry: Entry) -> Iterator[Way]:
        opcode = opcode_at(self.rules, entry.at)
        if opcode is None:
            yield way(self.rules, entry, cases(entry, opcode)[0])
            return
        effect = EFFECTS[opcode]
        most = MOST_COPIES if opcode == LR_IS_A or effect.copies is not None else MOST_CASES
        told = (*effect.reads, *TOLD, *([LOW] if ISAR in effect.reads else []))
        for case in cases(entry, opcode, most):
            known = (case[resolved(place, case)] for place in told)
            key = (entry.at, entry.ret, *(None if value.__class__ is Unknown else value for value in known))
            if key not in self.found:
                self.found[key] = way(self.rules, entry, case)
            yield self.found[key]


# ---- entries that grow

@dataclass
class Growing:
    """An entry to which more comes, with whence it first came; and of parts that had one value, whence the first other value came, and
    whether it was a single one."""
    entry: Entry
    origin: Key | None
    met: dict[int, tuple[Key | None, bool]] = field(default_factory=dict)
    growth: Counter[int] = field(default_factory=Counter)

    def add(self, more: Entry, origin: Key) -> bool:
        """Adds what comes from somewhere, and says whether the entry has changed."""
        parts = list(self.entry.parts)
        wider = [part for part, (own, other) in enumerate(zip(parts, more.parts))
                 if own is not None and own is not other and (other is None or not other <= own)]
        for part in wider:
            self.growth[part] += 1
            self.met.setdefault(part, (origin, more.one(part) is not None))
            parts[part] = self.union(part, parts[part], more.parts[part])
        same = next((number for number in (self.entry.same, more.same)
                     if number is not None and says_same(self.entry, number) and says_same(more, number)), None)
        is_changed = bool(wider) or same != self.entry.same
        self.entry = self.entry._replace(parts=tuple(parts), same=same)
        return is_changed

    def union(self, part: int, own: Values, other: Values) -> Values:
        if own is None or other is None or self.growth[part] >= MOST_GROWTH:
            return None
        values = own | other
        return None if len(values) > MOST_VALUES.get(part, MOST_BYTES) else values


class Unsafe(NamedTuple):
    """An entry of which a case isn't safe."""
    key: Key
    refusal: Refusal


EXCHANGED = {D0: D1, D1: D0, Part.S0: Part.S1, Part.S1: Part.S0, Part.P0: Part.P1, Part.P1: Part.P0}
PAIRS = {0x09: K, 0x0C: K, 0x0D: Q}  # instructions that go by a pair of registers


class Round:
    """One search, with some parts whose values are kept apart."""

    def __init__(self, steps: Steps, flags: Flags, apart: Sequence[int], end: float):
        self.rules, self.steps, self.flags, self.apart, self.end = steps.rules, steps, flags, tuple(apart), end
        self.found: dict[Key, Growing] = {}
        self.due: list[tuple[int, int, int, Key]] = []
        self.is_due: set[Key] = set()
        self.count = 0

    def key(self, entry: Entry) -> Key:
        live = self.flags.at(entry.at)
        flags = tuple(entry.one(part) if part in live else None for part in FLAGS) + (entry.one(ICB),)
        return entry.at, entry.ret, flags, tuple(map(entry.one, self.apart))

    def run(self, seeds: Iterable[Entry]) -> Unsafe | None:
        """Goes from some entries to all that they lead to, or to the first that isn't safe."""
        for seed in seeds:
            self.add(seed, None)
        while self.due:
            key = heapq.heappop(self.due)[-1]
            self.is_due.discard(key)
            if time.process_time() > self.end or len(self.found) > MOST_ENTRIES:
                raise Gone
            entry = self.found[key].entry
            for found in self.steps.of(entry):
                if found.refusal:
                    return Unsafe(key, found.refusal)
                for outcome in found.outcomes:
                    self.add(result(entry, outcome), key)
        return None

    def add(self, entry: Entry, origin: Key | None) -> None:
        key = self.key(entry)
        own = self.found.get(key)
        if own is None:
            self.found[key] = Growing(entry, origin)
        elif not own.add(entry, origin):
            return
        if key not in self.is_due:
            self.is_due.add(key)
            self.count += 1
            heapq.heappush(self.due, (entry.at, first_if_unset(entry.ret), self.count, key))

    def entries(self) -> list[Entry]:
        return [growing.entry for growing in self.found.values()]

    # ---- what has several values, and why

    def wanted(self, unsafe: Unsafe) -> list[tuple[Key, int]]:
        """The parts of which one value would help."""
        lost = [(unsafe.key, ISAR if part == LOW else part) for part, _ in unsafe.refusal.lost]
        return lost or [(key, pair + half) for key, pair in self.jumps(unsafe.key) for half in (1, 0)]

    def jumps(self, key: Key) -> Iterator[tuple[Key, int]]:
        """The jumps and returns by pairs of registers on the way to an entry, the last one first."""
        seen: set[Key] = set()
        origin = self.found[key].origin
        while origin is not None and origin not in seen:
            seen.add(origin)
            instruction = self.rules.code(origin[0]).instruction
            if instruction.opcode.code in PAIRS:
                yield origin, PAIRS[instruction.opcode.code]
            origin = self.found[origin].origin

    def faults(self) -> list[tuple[Key, int]]:
        """D0, of entries that may read where no chip answers."""
        return [(key, D0) for key, growing in self.found.items() if not all(found.is_fault_free for found in self.steps.of(growing.entry))]

    def met(self, wanted: Iterable[tuple[Key, int]]) -> Iterator[int]:
        """The parts whose values came together on the way to parts that are wanted, the nearest first."""
        todo, seen = deque(wanted), set()
        while todo:
            key, part = todo.popleft()
            if (key, part) in seen:
                continue
            seen.add((key, part))
            own = self.found[key]
            origin, is_single = own.met.get(part, (None, False))
            if is_single and part not in (*self.apart, *STATUS, *FACTS):
                yield part
            origins = [other for other in dict.fromkeys((own.origin, origin)) if other is not None]
            todo += [(other, source) for other in origins for source in self.sources(other, part)]

    def sources(self, key: Key, part: int) -> Iterator[int]:
        """What a part is made of by the instruction of an entry."""
        entry = self.found[key].entry
        opcode = self.rules.code(entry.at).instruction.opcode.code
        effect = EFFECTS[opcode]
        named = entry.parts[ISAR] or NUMBERS
        by_isar = BY_ISAR in effect.writes and part in named
        if opcode == XDC:
            yield EXCHANGED.get(part, part)
        elif part == Part.P1 and C in effect.writes:
            yield from (C, D1)
        else:
            for place in effect.reads if part in effect.writes or by_isar else ():
                yield from named if place == BY_ISAR else [place]
            if part not in effect.writes and (not by_isar or len(named) > 1):
                yield part


# ---- the search

class Found(NamedTuple):
    """A list, or none; whether its reads are all answered; the parts whose values it keeps apart, and what stood in the way."""
    entries: list[Entry]
    is_whole: bool
    apart: tuple[int, ...]
    refusal: Refusal | None = None

    @property
    def text(self) -> bytes:
        return text_of(self.entries)


class Search:
    """Rounds over one description, within so many seconds of the processor."""

    def __init__(self, description: Description, seeds: Iterable[Entry], seconds: float):
        self.steps = Steps(Rules(Memory(description.chips)))
        self.flags, self.seeds, self.end = Flags(self.steps.rules), list(seeds), time.process_time() + seconds
        self.best = Found([], False, ())

    def round(self, apart: tuple[int, ...]) -> tuple[Found, int | None]:
        """What is found with some parts kept apart, and the part that may help where it isn't whole."""
        found = Round(self.steps, self.flags, apart, self.end)
        unsafe = found.run(self.seeds)
        wanted = found.wanted(unsafe) if unsafe else found.faults()
        entries = [] if unsafe else found.entries()
        return Found(entries, not wanted, apart, unsafe and unsafe.refusal), next(found.met(wanted), None)

    def go_on(self, rounds: int) -> None:
        """Keeps more and more parts apart, until all is shown or nothing is left that may help."""
        part, apart = None, ()
        for _ in range(rounds):
            found, part = self.round(apart)
            if found.entries or not self.best.entries:
                self.best = found
            if part is None:
                return
            apart = (*apart, part)

    def leave_out(self) -> None:
        """Does without parts that needn't be kept apart."""
        for part in self.best.apart:
            found, _ = self.round(tuple(other for other in self.best.apart if other != part))
            if found.entries and found.is_whole >= self.best.is_whole and len(found.entries) < len(self.best.entries):
                self.best = found


def searched(description: Description, seeds: Iterable[Entry] = (START,), rounds: int = MOST_ROUNDS, seconds: float = SECONDS) -> Found:
    """The best list that is found in some rounds."""
    search = Search(description, seeds, seconds)
    try:
        search.go_on(rounds)
        search.leave_out()
    except Gone:
        pass
    return search.best


def main(words: list[str]) -> int:
    if len(words) not in (1, 2):
        print('error words')
        return 1
    description = Description.read(words[0], Program.of())
    began = time.process_time()
    found = searched(description, seconds=60)
    took = time.process_time() - began
    names = ', '.join('ISAR' if part == ISAR else Part(part).name for part in found.apart)
    told = answer(description, found.entries) if found.entries else found.refusal.text() if found.refusal else 'nothing in time'
    print(f'{told}; apart: {names or "none"}; {len(found.text):,} bytes, {took:.1f} s')
    if len(words) == 2:
        Path(words[1]).write_bytes(found.text)
    return 0


if __name__ == '__main__':
    sys.exit(main(sys.argv[1:]))
