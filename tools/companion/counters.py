"""The counters of each chip and of the bus's reference, worked out from the bus steps of a run, and where copies part."""
from __future__ import annotations

import re
from dataclasses import dataclass, field
from enum import IntEnum
from typing import Callable, Iterable, Iterator

from companion.bus import PORT_READ, PORT_WRITE, Step, Turn
from companion.description import Chip
from companion.instructions import ADDRESSES, signed


class Counter(IntEnum):
    """The counters of a chip, by their places in its list."""
    PC0 = 0
    PC1 = 1
    DC0 = 2
    DC1 = 3


PC0, PC1, DC0, DC1 = Counter
# The counter by which a step reads or stores.
USED = {**dict.fromkeys((0x00, 0x01, 0x03, 0x0C, 0x0E, 0x11, 0x1E, 0x1F), PC0), **dict.fromkeys((0x07, 0x0B), PC1),
        **dict.fromkeys((0x02, 0x05, 0x06, 0x09), DC0)}
LOW = {0x0C: PC0, 0x0E: DC0, 0x0F: PC0, 0x12: PC0, 0x17: PC0, 0x18: PC1, 0x19: DC0}  # the byte comes into the low half
HIGH = {0x11: DC0, 0x13: PC0, 0x14: PC0, 0x15: PC1, 0x16: DC0}
REFERENCE = 'reference'


@dataclass
class Parting:
    """A step in which a copy parted from the reference: its number, and the instruction that it belongs to."""
    number: int
    what: str
    within: str = ''


@dataclass
class Copies:
    """The counters of one chip, or of the reference, and since which step each is apart from the reference."""
    name: str
    socket: int
    counters: list[int]
    exchanges: bool  # a 3851 has no DC1, and does nothing where the two are exchanged
    apart: list[Parting | None] = field(default_factory=lambda: [None] * len(Counter))

    @classmethod
    def of(cls, chip: Chip, power: int) -> Copies:
        start = (257 * power + chip.socket) % ADDRESSES if chip.start is None else chip.start
        return cls(chip.name, chip.socket, [start] * len(Counter), chip.kind.has_second_data_counter)

    def __post_init__(self):
        self.shown = tuple(Counter)[:4 if self.exchanges else 3]
        self.was = [counter != 0 for counter in self.counters]  # whether each differs from the reference

    def hear(self, code: int, byte: int) -> None:
        """What a chip does on a step, by the table of docs/MACHINE.md."""
        c = self.counters
        if code in (0x08, 0x0F, 0x12):
            c[PC1] = c[PC0]
        if code in (0x00, 0x03):
            c[PC0] = (c[PC0] + 1) % ADDRESSES
        elif code == 0x01:
            c[PC0] = (c[PC0] + signed(byte)) % ADDRESSES
        elif code in (0x02, 0x05):
            c[DC0] = (c[DC0] + 1) % ADDRESSES
        elif code in LOW:
            c[LOW[code]] = c[LOW[code]] & 0xFF00 | byte
        elif code in HIGH:
            c[HIGH[code]] = c[HIGH[code]] & 0xFF | byte << 8
        elif code == 0x04:
            c[PC0] = c[PC1]
        elif code == 0x08:
            c[PC0] = 0
        elif code == 0x0A:
            c[DC0] = (c[DC0] + signed(byte)) % ADDRESSES
        elif code == 0x0D:
            c[PC1] = (c[PC0] + 1) % ADDRESSES
        elif code == 0x1D and self.exchanges:
            c[DC0], c[DC1] = c[DC1], c[DC0]

    def told(self, stars: Iterable[Counter], known: list[int]) -> str:
        """The counters as they are shown beside those of the reference: a dot where it is the same, a star where one parts."""
        return ' '.join('.    ' if self.counters[at] == known[at] else f'{self.counters[at]:04X}{"*" if at in stars else " "}'
                        for at in self.shown)


@dataclass
class Heard:
    """A bus step with its number, the place that it is about, and the counters after it."""
    number: int
    step: Step
    at: str
    reference: list[int]
    copies: list[str]

    def told(self) -> str:
        reference = ' '.join(f'{counter:04X}' for counter in self.reference)
        return f'{self.number:>7}  {self.step.told()}  {self.at:<7}  {"  ".join([reference, *self.copies])}'.rstrip()


class Rack:
    """The chips of a description that have counters and the reference, as they hear the steps of a run."""

    def __init__(self, chips: list[Copies]):
        self.reference = Copies(REFERENCE, -1, [0] * len(Counter), True)
        self.chips = chips
        self.steps = 0
        self.last_byte = 0
        self.first: Parting | None = None
        self.unnamed: list[Parting] = []  # of the instruction that is under way
        self.naming: Callable[[Turn, int], str] = lambda turn, address: turn.instruction(address).text()
        self.due = dict.fromkeys((PC0, DC0), 0)  # by how much the chips are behind, in moves that are alike for all

    @classmethod
    def of(cls, chips: Iterable[Chip], power: int) -> Rack:
        return cls([Copies.of(chip, power) for chip in chips if chip.kind.has_memory])

    @property
    def address(self) -> int:
        """PC0 of the reference."""
        return self.reference.counters[PC0]

    def hear(self, step: Step) -> Heard:
        """A step that is to be shown."""
        at = self.place(step)
        stars = self.move(step)
        known = self.reference.counters
        return Heard(self.steps, step, at, list(known), [chip.told(stars.get(chip.socket, ()), known) for chip in self.chips])

    def place(self, step: Step) -> str:
        """Where a step reads or stores: by the reference's counter, or at the port that the last byte names."""
        if step.code in USED:
            return f'{self.reference.counters[USED[step.code]]:04X}'
        return f'port {self.last_byte:02X}' if step.code in (PORT_WRITE, PORT_READ) else ''

    def move(self, step: Step) -> dict[int, list[Counter]]:
        """All copies hear a step. The counters that part in it, by their chip's socket."""
        self.steps += 1
        self.settle()
        if step.byte is None:
            return {}
        self.last_byte = step.byte
        self.reference.hear(step.code, step.byte)
        found = {}
        for chip in self.chips:
            chip.hear(step.code, step.byte)
            if chip.counters != self.reference.counters or any(chip.was):
                found[chip.socket] = list(self.parted(chip))
        return found

    def parted(self, chip: Copies) -> Iterator[Counter]:
        for at in chip.shown:
            own, known = chip.counters[at], self.reference.counters[at]
            if own != known and not chip.was[at]:
                parting = Parting(self.steps, f'socket {chip.socket} {at.name} {own:04X}, reference {known:04X}')
                chip.apart[at] = parting
                self.first = self.first or parting
                self.unnamed.append(parting)
                yield at
            chip.was[at] = own != known

    def name(self, within: str) -> None:
        """Says which instruction the copies parted in that have done so since the last call."""
        for parting in self.unnamed:
            parting.within = within
        self.unnamed.clear()

    def follow(self, turn: Turn) -> None:
        """All steps of a turn that isn't shown. In most of them each counter of all chips moves alike."""
        if not turn.is_plain:
            address = self.address
            for step in turn.steps:
                self.move(step)
            if self.unnamed:
                self.name(self.naming(turn, address))
            return
        self.steps += len(turn.steps)
        self.last_byte = turn.steps[-1].byte
        known, due = self.reference.counters, self.due
        on, data = turn.moves
        known[PC0] = (known[PC0] + on) % ADDRESSES
        known[DC0] = (known[DC0] + data) % ADDRESSES
        due[PC0] += on
        due[DC0] += data

    def settle(self) -> None:
        """Gives the chips the moves that they are behind."""
        for at, behind in self.due.items():
            if behind:
                self.due[at] = 0
                for chip in self.chips:
                    chip.counters[at] = (chip.counters[at] + behind) % ADDRESSES

    def heads(self) -> list[str]:
        """The two lines above the columns."""
        lead = f'{"step":>7}  {"code":<4}  {"":<2}  {"from":<5}  {"at":<7}  '
        columns = [(REFERENCE, ' '.join(f'{counter.name:<4}' for counter in Counter))]
        columns += [(chip.name, ' '.join(f'{at.name:<5}' for at in chip.shown)) for chip in self.chips]
        return [(' ' * len(lead) + '  '.join(f'{name:<{len(below)}}' for name, below in columns)).rstrip(),
                (lead + '  '.join(below for _, below in columns)).rstrip()]

    def ending(self, stop: str) -> Iterator[str]:
        """What is said at the end of the copies that parted."""
        self.settle()
        first = self.first
        yield f'first parted: step {first.number}: {first.what}, in {first.within}' if first else 'no copy parted'
        match = re.match(r'stop \w+ romc ([0-9A-F]{2})', stop)
        counter = USED.get(int(match[1], 16)) if match else None
        for socket, told in re.findall(r'socket (\d+) at ([0-9A-F]{4})', stop) if counter is not None else []:
            chip = next((chip for chip in self.chips if chip.socket == int(socket)), None)
            if chip is None or f'{chip.counters[counter]:04X}' != told:
                yield f'the counters shown here are not those of the program: it has {told} in socket {socket}'
                continue
            step = chip.apart[counter]
            since = ('as the reference' if not chip.was[counter] else
                     f'apart since step {step.number}, in {step.within}' if step else 'apart since power-on')
            yield f'at the stop: socket {socket} {counter.name} {told}, {since}'
