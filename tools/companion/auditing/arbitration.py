"""Who drives the byte of a bus step or takes it, and whether the step is served: the rule of docs/BUS.md."""
from __future__ import annotations

from enum import Enum
from typing import NamedTuple, Protocol, Sequence

from companion.counters import USED, Counter
from companion.bus import PORT_READ, PORT_WRITE, STORE
from companion.description import PAGE, Chip, Holding

RESET, VECTOR_LOW, VECTOR_HIGH, IDLE = 0x08, 0x0F, 0x13, 0x1C
VECTORS = (VECTOR_LOW, VECTOR_HIGH)
NOBODYS = frozenset({0x04, 0x0D, 0x10, 0x1D})  # with IDLE, where no port is named
PROCESSORS = frozenset({0x05, 0x08, 0x0A, 0x12, 0x14, 0x15, 0x16, 0x17, 0x18, 0x19, 0x1A})
CPU, NOBODY = 'cpu', '-'


class Fault(Enum):
    """Why a step isn't served."""
    CONFLICT = 'conflict'
    UNDRIVEN = 'undriven'
    ASTRAY = 'astray'


class Seat:
    """What no step changes of a chip: the pages that it holds, those of RAM, and its ports."""

    def __init__(self, chip: Chip):
        self.chip = chip
        self.held = frozenset(at // PAGE for _, run in chip.spaces for at in range(run.start, run.stop, PAGE))
        self.ram = frozenset(at // PAGE for run in chip.runs(Holding.RAM) for at in range(run.start, run.stop, PAGE))
        self.ports = chip.ports
        self.data_ports = chip.data_ports


class OnBus(Protocol):
    """A chip as the rule sees it."""
    seat: Seat
    counters: list[int]


class Ruling(NamedTuple):
    """The place in the list of the chip that drives or takes, None where none has to; or why the step isn't served."""
    chip: int | None = None
    fault: Fault | None = None


SERVED_BY_NONE = Ruling()


def by_counter(chips: Sequence[OnBus], counter: Counter, reference: int, is_store: bool) -> Ruling:
    """A read at a counter, or a store: each chip goes by its own copy."""
    parties, is_there, page = [], [], reference // PAGE
    for number, chip in enumerate(chips):
        pages = chip.seat.ram if is_store else chip.seat.held
        if chip.counters[counter] // PAGE in pages:
            parties.append(number)
        if page in pages:
            is_there.append(number)
    if len(parties) > 1:
        return Ruling(fault=Fault.CONFLICT)
    if not parties:
        if not is_store:
            return Ruling(fault=Fault.UNDRIVEN)
        return Ruling(fault=Fault.ASTRAY) if is_there else SERVED_BY_NONE
    if chips[parties[0]].counters[counter] != reference or is_there != parties:
        return Ruling(fault=Fault.ASTRAY)
    return Ruling(parties[0])


def ruling(code: int, chips: Sequence[OnBus], reference: Sequence[int], last: int) -> Ruling:
    """The rule for a step, by the counters of the reference and by the byte heard last. It leaves out the two steps of a vector."""
    if code in USED:
        return by_counter(chips, USED[code], reference[USED[code]], code == STORE)
    if code not in (PORT_READ, PORT_WRITE):
        return SERVED_BY_NONE
    parties = [number for number, chip in enumerate(chips)
               if last in (chip.seat.data_ports if code == PORT_READ else chip.seat.ports)]
    if len(parties) > 1:
        return Ruling(fault=Fault.CONFLICT)
    if code == PORT_READ and not parties:
        return Ruling(fault=Fault.UNDRIVEN)
    return Ruling(parties[0]) if parties else SERVED_BY_NONE
