"""A chip of a description on the bus: its counters, bytes, ports, timer and request, by docs/MACHINE.md and docs/INTERRUPTS.md."""
from __future__ import annotations

from companion.auditing.arbitration import VECTOR_HIGH, Seat
from companion.bus import PORT_WRITE, STORE
from companion.counters import DC0, Copies
from companion.description import PULSE, Chip, Holding
from companion.memory import VOID_BYTE

TIMER_STEP = 31  # Φ
STOPPED, BEFORE_EXPIRY = 0xFF, 0x7F
FEEDBACK = 0b1011_1000
PULSES, EXPIRIES = 1, 3  # what the low two bits of control let in
CONTROL, TIMER = 2, 3  # of the four ports


def next_state(state: int) -> int:
    """The state of a timer one step later."""
    return state if state == STOPPED else 2 * state % 256 + (bin(state & FEEDBACK).count('1') + 1) % 2


NEXT_STATE = tuple(map(next_state, range(256)))


class BusChip:
    """A chip from power-on. One without memory has counters that nobody asks for."""

    def __init__(self, chip: Chip, power: int):
        self.seat = Seat(chip)
        self.copies = Copies.of(chip, power)
        self.counters = self.copies.counters
        self.vector = 0 if chip.kind.has_fixed_ports else chip.vector
        self.bytes = dict(chip.bytes)
        fill = power if chip.fill is None else chip.fill
        self.bytes.update((at, fill) for run in chip.runs(Holding.RAM) for at in run)
        self.latches, self.keys = [0, 0], [0, 0]
        self.control, self.timer, self.phase = 0, STOPPED, 0
        self.has_request = False

    @property
    def chip(self) -> Chip:
        return self.seat.chip

    @property
    def is_asking(self) -> bool:
        return self.has_request and self.chip.interrupt

    def byte(self, at: int) -> int:
        """The byte at an address that it holds."""
        return self.bytes.get(at, VOID_BYTE)

    def given_vector(self) -> int:
        """Bit 7 is clear for the timer, and set under every other control."""
        return self.vector & ~PULSE | (0 if self.control % 4 == EXPIRIES else PULSE)

    def latch(self, port: int) -> int:
        return self.latches[port - self.seat.data_ports.start]

    def read(self, port: int) -> int:
        return self.latch(port) | self.keys[port - self.seat.data_ports.start]

    def key(self, port: int, byte: int) -> None:
        self.keys[port - self.seat.data_ports.start] = byte

    @property
    def admits_pulses(self) -> bool:
        return self.control % 4 == PULSES

    def pulse(self) -> None:
        self.has_request = self.has_request or self.admits_pulses

    def hear(self, code: int, byte: int, phi: int, last: int, is_acknowledged: bool) -> None:
        """A step: the timer first, under the old control, then the effect of the code. `last` is the byte of the step before."""
        if self.timer != STOPPED:
            self.pass_time(phi)
        if code == STORE and self.counters[DC0] // 256 in self.seat.ram:
            self.bytes[self.counters[DC0]] = byte
        elif code == VECTOR_HIGH and is_acknowledged:
            self.has_request = False
        elif code == PORT_WRITE and last in self.seat.ports:
            self.write(last - self.seat.ports.start, byte)
        self.copies.hear(code, byte)

    def pass_time(self, phi: int) -> None:
        self.phase += phi
        if self.phase >= TIMER_STEP:
            self.phase -= TIMER_STEP
            if self.timer == BEFORE_EXPIRY and self.control % 4 == EXPIRIES:
                self.has_request = True
            self.timer = NEXT_STATE[self.timer]

    def write(self, offset: int, byte: int) -> None:
        """A write to one of its four ports. The first two are data ports, or the halves of the vector."""
        if offset == TIMER:
            self.timer, self.phase = byte, 0
        elif offset == CONTROL:
            self.control, self.has_request = byte, False
        elif not self.chip.kind.has_fixed_ports:
            self.latches[offset] = byte
        else:
            self.vector = byte << 8 | self.vector & 0xFF if offset == 0 else self.vector & 0xFF00 | byte
