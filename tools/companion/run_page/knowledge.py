"""What is known of a cartridge at each address: by the certificate of the program, or up to the refusal by the checker's rules."""
from __future__ import annotations

import time
from dataclasses import dataclass, field
from enum import Enum
from typing import Iterator, Mapping

from companion.certificates import read_certificate
from companion.description import Description, Kind
from companion.domain import COUNTERS, FACTS, REGISTERS, STATUS, Part, Point, State, Unknown, digits, is_register, part_words
from companion.memory import Memory
from companion.program import Answer, Program
from companion.rules import Refusal, Rules
from companion.search import Search, Verdict
from companion.words import Progress

SEARCH_SECONDS = 20.0
FLAG_NAMES = dict(zip(STATUS, 'SCZOI'))  # as the page's key to the listing says
FACT_WORDS = {Part.S0: '3853s at D0', Part.S1: "3853s' DC1 at D1", Part.P0: '3851s at D0', Part.P1: '3851s at D1'}
FACT_KINDS = {Part.S0: Kind.SMI, Part.S1: Kind.SMI, Part.P0: Kind.PSU, Part.P1: Kind.PSU}
MOST_VALUES = 4  # that are named of a part with several


class Basis(Enum):
    """On what the knowledge rests."""
    CERTIFICATE = 'certificate'  # of the program, for a verdict that isn't none
    SEARCH = 'search'  # by the rules in Python, up to the refusal
    NONE = 'none'


@dataclass(frozen=True)
class At:
    """What is known at one address: its points with their states."""
    points: tuple[tuple[Point, State], ...]

    @property
    def common(self) -> dict[Part, object]:
        """The parts that are known to be the same at each point."""
        first, *others = (state for _, state in self.points)
        return {part: value for part, value in zip(Part, first)
                if not isinstance(value, Unknown) and all(other[part] == value for other in others)}

    def values(self, part: Part) -> list[object]:
        """The different values of a part that is known at each point; empty where it isn't known at one of them."""
        found = [state[part] for _, state in self.points]
        return [] if any(isinstance(value, Unknown) for value in found) else sorted(set(found))

    def returns(self) -> list[int | None]:
        return sorted({point.ret for point, _ in self.points}, key=lambda back: -1 if back is None else back)


@dataclass
class Knowledge:
    """The verdict on a description, with what is known at each address that is reached."""
    verdict: str  # the line of `check`
    basis: Basis
    places: dict[int, At] = field(default_factory=dict)
    refusal: Refusal | None = None
    search: Search | None = None  # where it finds the same verdict
    proved: str = ''  # the line of `prove`, where `check` does not say whole
    unserved: tuple[int, ...] = ()  # the addresses of reads at D0 that aren't known to be served
    kinds: frozenset[Kind] = frozenset()

    @property
    def word(self) -> str:
        return self.verdict.partition(' ')[0]

    @property
    def is_shown(self) -> bool:
        return self.word in (Verdict.WHOLE.value, Verdict.AGREED.value)

    @classmethod
    def of(cls, cart: str, description: Description, program: Program) -> Knowledge:
        progress, rules = Progress('page'), Rules(Memory(description.chips), description.split)
        with progress.during('the verdict'):
            answer = program.run('check', '--cert', cart)
            line = answer.last if answer.status else program.on_text('verify', answer.output, cart).last
        found = cls(line, Basis.NONE) if answer.status else shown(line, answer, rules)
        if found.word != Verdict.WHOLE.value:
            with progress.during('a list of cases'):
                found.proved = program.run('prove', cart).last
        search = searched(rules, progress)
        if search and search.line() == found.verdict:
            found.search = search
            if found.basis is Basis.NONE:
                found.basis, found.places, found.refusal = Basis.SEARCH, places_of(search.notes), search.refusal
        found.kinds = frozenset(chip.kind for chip in description.chips if chip.spaces)
        progress.clear()
        return found


def places_of(notes: Mapping[Point, State]) -> dict[int, At]:
    found: dict[int, list[tuple[Point, State]]] = {}
    for point in sorted(notes, key=Point.order):
        found.setdefault(point.at, []).append((point, notes[point]))
    return {at: At(tuple(points)) for at, points in found.items()}


def shown(line: str, answer: Answer, rules: Rules) -> Knowledge:
    """By the certificate, which says all that is known at each point."""
    notes = read_certificate(answer.output.decode('ascii'))
    unserved = tuple(sorted({point.at for point, state in notes.items() if not rules.is_fault_free(point, state)}))
    return Knowledge(line, Basis.CERTIFICATE, places_of(notes), unserved=unserved)


class OutOfTime(Exception):
    """The search takes too long for a page."""


def searched(rules: Rules, progress: Progress) -> Search | None:
    """The checker's search by the same rules, which knows the causes; or nothing, where it takes too long for a page."""
    search, until = Search(rules), time.monotonic() + SEARCH_SECONDS

    def tick() -> None:
        progress.tell(f'the verdict: {len(search.notes):,} points so far')
        if time.monotonic() > until:
            raise OutOfTime

    try:
        search.run(tick)
    except OutOfTime:
        return None
    return search


# ---- in words

def words_of(known: Mapping[Part, object], kinds: frozenset[Kind]) -> Iterator[str]:
    """The parts that are known, each as `A=03`; of facts those on chips that the cartridge has."""
    if Part.A in known:
        yield f'A={value_text(Part.A, known[Part.A])}'
    yield from (f'r{register}={value_text(Part(register), known[Part(register)])}' for register in range(REGISTERS) if Part(register) in known)
    yield from (f'{short_name(part)}={value_text(part, known[part])}' for part in COUNTERS if part in known)
    isar = [known.get(part) for part in (Part.ISAR_HIGH, Part.ISAR_LOW)]
    if isar != [None, None]:
        yield 'IS=' + ''.join(digits(digit, 1) for digit in isar)
    flags = ''.join(f'{name}{int(known[part])}' for part, name in FLAG_NAMES.items() if part in known)
    yield from [flags] * bool(flags)
    yield from (FACT_WORDS[part] for part in FACTS if part in known and FACT_KINDS[part] in kinds)


def short_name(part: Part) -> str:
    return 'c' if part is Part.C else part_words(part)


def value_text(part: Part, value: object) -> str:
    return digits(value, 4 if part in COUNTERS else 2 if is_register(part) or part is Part.A else 1)


def differing(at: At) -> Iterator[str]:
    """The registers and counters that are known at each point with different values: a few values are named, and many counted."""
    common = at.common
    for part in (Part.A, *(Part(register) for register in range(REGISTERS)), *COUNTERS):
        values = at.values(part) if part not in common else []
        if values:
            named = '/'.join(value_text(part, value) for value in values)
            yield f'{short_name(part)}={named if len(values) <= MOST_VALUES else f"one of {len(values)}"}'
