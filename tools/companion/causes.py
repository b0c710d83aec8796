"""What lost a part that isn't known, in words: the ways that meet, a port, RAM, power-on, a write by ISAR, an exchange; and what helps."""
from __future__ import annotations

from dataclasses import dataclass
from typing import Iterable, Iterator

from companion.description import Chip
from companion.domain import (COUNTERS, FACTS, Cause, DataRead, Exchanged, Known, Lost, Meeting, Met, Part, PerhapsWritten, Point, PortRead,
                              PowerOn, Unknown, Unstated, is_register, part_words, value_words)
from companion.instructions import Flow
from companion.memory import Sort
from companion.names import Names
from companion.search import Search


def root(lost: Lost) -> Lost:
    """The part that was lost first, by which the other isn't known: the digit of ISAR, where a write by ISAR may have reached a register."""
    while isinstance(lost.unknown.cause, PerhapsWritten):
        lost = lost.unknown.cause.digit
    return lost


def meeting_of(lost: Lost) -> Meeting | None:
    cause = root(lost).unknown.cause
    return cause.meeting if isinstance(cause, Met) else None


def telling(meeting: Meeting) -> list[int]:
    """The registers that tell two ways apart, since both ways know them, and differ in them."""
    return [int(part) for part in meeting.apart() if is_register(part)]


def lost_before(meeting: Meeting) -> list[int]:
    """The registers that might tell two ways apart, had not they been lost at a meeting before."""
    def was_lost(part: Part, value: Known) -> bool:
        return isinstance(value, Unknown) and meeting_of(Lost(part, value)) is not None

    pairs = zip(Part, meeting.first.state, meeting.second.state)
    return [int(part) for part, *values in pairs if is_register(part) and any(was_lost(part, value) for value in values)]


def candidates(lost: Lost) -> list[int]:
    """The registers that may be worth tracking where a part was lost: its own first, then the others that tell the ways apart."""
    meeting = meeting_of(lost)
    if meeting is None:
        return []
    own = root(lost).unknown.cause.part
    found = telling(meeting) or lost_before(meeting)
    return sorted(found, key=lambda register: register != own)


@dataclass
class Words:
    """Causes in words, with the names of addresses."""
    search: Search
    names: Names

    # ---- addresses

    def statement(self, at: int) -> str:
        """The instruction at an address, as its text has it where one is known."""
        place, instruction = self.names.places.get(at), self.search.rules.code(at).instruction
        return place.statement if place and place.address == at and place.statement else instruction.text() if instruction else ''

    def place(self, at: int) -> str:
        """An address with its name and its line, or its instruction where no text is known."""
        known = self.names.place(at)
        return f'{at:04X}  ' + (known if at in self.names.places else ': '.join(part for part in (known, self.statement(at)) if part))

    def places(self, addresses: Iterable[int]) -> list[str]:
        return [f'    {self.place(at)}'.rstrip() for at in dict.fromkeys(addresses)]

    def calls(self, point: Point | None) -> list[int]:
        """The calls and interrupts by which a point was first reached, the outermost first."""
        path, at = [], point
        while at is not None:
            path.append(at)
            at = self.search.origins[at]
        open_calls: list[tuple[int, int]] = []  # the address of each, and of the instruction behind it
        for here, after in zip(path[::-1], path[-2::-1]):
            instruction = self.search.rules.code(here.at).instruction
            flow, backs = instruction.opcode.flow, [back for _, back in open_calls]
            if self.interrupting(here, after):
                open_calls.append((here.at, after.ret))
            elif flow in (Flow.RETURN, Flow.CALL_K, Flow.JUMP_Q) and after.at in backs:
                del open_calls[len(backs) - 1 - backs[::-1].index(after.at):]
            elif flow in (Flow.CALL, Flow.CALL_K):
                open_calls.append((here.at, instruction.next))
        return [call for call, _ in open_calls]

    def interrupting(self, origin: Point, point: Point) -> Chip | None:
        """The chip whose interrupt leads from one point to another."""
        return self.search.rules.interrupting(origin, self.search.notes[origin], point)

    # ---- causes

    def lost(self, lost: Lost) -> list[str]:
        """Why a part isn't known, and the places that the sentence names."""
        sentence, addresses = self.sentence(lost.unknown.cause, lost.part)
        return [sentence, *self.places(addresses)]

    def sentence(self, cause: Cause, part: Part) -> tuple[str, list[int]]:
        name = part_words(part)
        if isinstance(cause, Met):
            return self.met(cause, name)
        if isinstance(cause, PowerOn):
            return f'{self.isnt_known(name, cause.part)}nothing has set {pronoun(name, cause.part)} since power-on.', []
        if isinstance(cause, PortRead):
            return f"{unknown(name)}: it comes from port {cause.port:02X}, and what a port gives is never known.", [cause.at]
        if isinstance(cause, DataRead):
            return f"{unknown(name)}: it comes from a read at {cause.address:04X}, {self.kept(cause.address)}.", [cause.at]
        if isinstance(cause, PerhapsWritten):
            why, addresses = self.sentence(cause.digit.unknown.cause, cause.digit.part)
            reached = f'the write at {cause.at:04X} may reach {pronoun(name, cause.part)}'
            return f'{self.isnt_known(name, cause.part)}{reached}. {why}', [cause.at, *addresses]
        if isinstance(cause, Exchanged):
            return f"{unknown(name)}: XDC at {cause.at:04X} exchanged the data counters, and a 3851 keeps its DC0.", [cause.at]
        return f"{unknown(name)}: at {cause.at:04X} the two counters aren't known to be alike.", [cause.at]

    def met(self, cause: Met, name: str) -> tuple[str, list[int]]:
        meeting, own = cause.meeting, cause.part
        values = [value_words(own, way.state[own]) for way in (meeting.first, meeting.second)]
        origins = [way.origin.at for way in (meeting.first, meeting.second) if way.origin]
        met = f'{ways_from(origins)} meet at {meeting.point.at:04X} with {values[0]} and {values[1]}.'
        return self.isnt_known(name, own) + met, [*origins, meeting.point.at]

    def isnt_known(self, name: str, own: Part) -> str:
        """The beginning of a sentence about a part, which may go by another one that was lost first."""
        other = part_words(own)
        return f'{unknown(name)}: ' if name == other else f'{unknown(name)}: it goes by {other}, and '

    def kept(self, at: int) -> str:
        sort = self.search.rules.memory.sort(at)
        return 'which is RAM, and what RAM holds is never known' if sort is Sort.RAM else f'which is {sort.value}'

    # ---- what helps

    def remedies(self, lost: Iterable[Lost]) -> Iterator[str]:
        """What can be done about parts that aren't known, each thing once."""
        yield from dict.fromkeys(remedy for one in lost for remedy in self.remedy(root(one)))

    def remedy(self, lost: Lost) -> Iterator[str]:
        cause = lost.unknown.cause
        if isinstance(cause, Met):
            yield self.tracking(lost, cause)
        elif isinstance(cause, PowerOn):
            is_counter = cause.part in (*COUNTERS, *FACTS)
            yield f'No list helps: {"load D0" if is_counter else "set " + part_words(cause.part)} before, on each way.'
        elif isinstance(cause, PortRead):
            yield ('No list helps: compare the byte of a port, and load constants on the ways; or search a table with a tracked counter '
                   '(docs/SAFE.md).')
        elif isinstance(cause, DataRead) and self.search.rules.memory.sort(cause.address) is Sort.RAM:
            yield ('No list helps: keep it in a register of the scratchpad; or compare the byte of RAM, and load constants on the ways, as with '
                   'numbers of returns (docs/SAFE.md).')
        elif isinstance(cause, DataRead):
            yield 'No list helps: read where exactly one chip holds ROM.'
        elif isinstance(cause, (Exchanged, Unstated)):
            yield 'Load D0 behind the last XDC, before the access; or let no 3851 hold what is read (docs/SAFE.md).'

    def tracking(self, lost: Lost, cause: Met) -> str:
        found = candidates(lost)
        if not found:
            return ('No register tells these ways apart. Let one do so: set it to another number on each way, and track it; '
                    'or load what is lost once more behind the place where they meet.')
        names = ' or '.join(f'r{register}' for register in found[:4])
        if telling(cause.meeting):
            return f'Tracked, {names} keeps these ways apart.'
        return f'No register tells these ways apart there, but {names} was lost before: tracked, it might.'


def ways_from(origins: list[int]) -> str:
    """Two ways that meet, by the addresses from which they come; one of them may be the start."""
    if len(origins) == 1:
        return f'the start and the way from {origins[0]:04X}'
    return f'two ways from {origins[0]:04X}' if origins[0] == origins[1] else f'the ways from {origins[0]:04X} and {origins[1]:04X}'


def unknown(name: str) -> str:
    """The beginning of a sentence about a part, or about a fact, whose words begin with `that`."""
    if name.startswith('that '):
        return f"It isn't known {name}"
    return f"{name[0].upper()}{name[1:]} isn't known" if name.startswith('the ') else f"{name} isn't known"


def pronoun(name: str, own: Part) -> str:
    return 'it' if name == part_words(own) else part_words(own)
