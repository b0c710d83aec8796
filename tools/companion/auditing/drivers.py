"""Who drives each step of a record that doesn't tell it, worked out by following the counters of all chips and of the reference."""
from __future__ import annotations

from itertools import chain
from pathlib import Path
from typing import Iterable, Iterator, NamedTuple

from companion.auditing.arbitration import CPU, IDLE, NOBODY, NOBODYS, PROCESSORS, VECTOR_HIGH, VECTOR_LOW, VECTORS, Fault, ruling
from companion.auditing.chips import BusChip
from companion.bus import PHI, Step
from companion.counters import REFERENCE, Copies, Counter
from companion.description import Description
from companion.words import Refused


class Cycle(NamedTuple):
    """A bus cycle as it stands on the wires."""
    code: int
    is_long: bool
    byte: int


class Drivers:
    """The chips of a description from power-on, as they hear the cycles."""

    def __init__(self, description: Description, power: int):
        self.chips = [BusChip(chip, power) for chip in description.chips]
        self.reference = Copies(REFERENCE, -1, [0] * len(Counter), True)
        self.last_byte = 0
        self.acknowledged: BusChip | None = None
        self.fault: Fault | None = None  # of the last step, which wasn't served

    def steps(self, cycles: Iterable[Cycle]) -> Iterator[Step]:
        """The cycles as steps, up to the first that isn't served."""
        before = None
        for cycle in chain(cycles, (None,)):
            if before is not None:
                step = self.step(before, cycle)
                yield step
                if step.byte is None:
                    return
            before = cycle

    def step(self, cycle: Cycle, behind: Cycle | None) -> Step:
        """A cycle with its driver; in the first of the two of a vector that goes by the cycle behind it as well."""
        code, is_long, byte = cycle
        if code == VECTOR_LOW:
            self.acknowledged = self.giving(byte, behind)
        found = ruling(code, self.chips, self.reference.counters, self.last_byte)
        self.fault = found.fault
        if found.fault:
            return Step(code, is_long, None, '')
        driver = self.driver(cycle, found.chip)
        byte = 0 if driver == NOBODY and code not in VECTORS else byte
        for chip in self.chips:
            chip.hear(code, byte, PHI[is_long], self.last_byte, code == VECTOR_HIGH and chip is self.acknowledged)
        self.reference.hear(code, byte)
        self.last_byte = byte
        return Step(code, is_long, byte, driver)

    def driver(self, cycle: Cycle, chip: int | None) -> str:
        if cycle.code == IDLE:
            return CPU if cycle.is_long else NOBODY
        if cycle.code in NOBODYS:
            return NOBODY
        if cycle.code in PROCESSORS:
            return CPU
        if cycle.code in VECTORS:
            return str(self.acknowledged.chip.socket) if self.acknowledged else NOBODY
        return str(self.chips[chip].chip.socket)

    def giving(self, low: int, behind: Cycle | None) -> BusChip | None:
        """The first chip that can interrupt and whose vector has these bytes; the high one may be wanting at the end."""
        high = behind.byte if behind is not None and behind.code == VECTOR_HIGH else None
        return next((chip for chip in self.chips if chip.chip.interrupt and chip.given_vector() & 0xFF == low
                     and high in (None, chip.given_vector() >> 8)), None)


def described(path: str) -> Description:
    """A description of which only spaces, ports and vectors count. The program isn't asked."""
    found = Description.of(Path(path).read_bytes(), path)
    if found.fault:
        raise Refused(f'{path}: {found.fault.rstrip(".")}')
    if not found.chips:
        raise Refused(f'{path} describes no chip')
    return found
