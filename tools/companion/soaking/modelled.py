"""What `play --trace` writes behind the verdict, worked out by the model of chips and processor that the auditor of the tests has."""
from __future__ import annotations

from typing import Iterator, NamedTuple

from audited import give, is_over
from companion.auditing.arbitration import Fault
from companion.auditing.chips import BusChip
from companion.auditing.machine import Course, Machine
from companion.auditing.traces import line_of
from companion.bus import PORT_READ, PORT_WRITE, STORE
from companion.counters import DC0, DC1, PC1, USED
from companion.description import PAGE, Description
from companion.processor import FRAME
from companion.script import Script
from companion.soaking.pictured import Board

PORT_STEPS = (PORT_READ, PORT_WRITE)
OWN_WRITES = (0xB0, 0xB1)  # OUTS of the ports 0 and 1


class Registers(NamedTuple):
    """What is told at the end of a run."""
    at: int
    p1: int
    d0: int
    d1: int
    a: int
    isar: int
    status: int
    scratchpad: bytes
    instructions: int
    phi: int

    def told(self) -> Iterator[str]:
        yield (f'regs P={self.at:04X} P1={self.p1:04X} D0={self.d0:04X} D1={self.d1:04X} A={self.a:02X} IS={self.isar:02o} '
               f'W={self.status:02X}')
        for row in range(4):
            yield f's{row}0 {self.scratchpad[16 * row:16 * row + 16].hex(" ").upper()}'
        yield f'total {self.instructions} instructions {self.phi} phi'


class Modelled:
    """A run by a script."""

    def __init__(self, description: Description, script: Script):
        self.machine, self.script = Machine(description, script), script
        self.lines: list[str] = []
        self.board = Board()
        self.last: Registers  # before the instruction that comes next

    @property
    def count(self) -> int:
        return self.machine.cpu.instructions

    def run(self) -> bytes:
        machine = self.machine
        self.last = self.registers(0)
        give(machine, self.script, 0)
        stop = self.told(machine.reset())
        while not stop:
            self.last = self.registers(machine.address)
            stop = self.ended() or self.instruction()
        return ''.join(f'{line}\n' for line in [*self.lines, stop, *self.last.told()]).encode()

    def ended(self) -> str:
        if is_over(self.machine, self.script):
            return 'stop done'
        return f'stop reserved {self.machine.opcode:02X} at {self.machine.address:04X}' if self.machine.is_reserved else ''

    def instruction(self) -> str:
        machine, opcode, before = self.machine, self.machine.opcode, self.machine.phi // FRAME
        course = machine.instruction()
        stop = self.told(course)
        if not stop:
            for port, byte in self.writes(opcode, course):
                self.lines.append(f'out {machine.phi} {port:02X} {byte:02X}')
                self.board.write(port, byte)
            if machine.phi // FRAME != before:
                self.fall(machine.phi // FRAME)
        return stop

    def fall(self, frame: int) -> None:
        """A frame falls at the end of an instruction: it is shown, and then its events come."""
        if frame in self.script.shown:
            self.lines += self.board.lines(frame, self.machine.phi)
        give(self.machine, self.script, frame)

    def told(self, course: Course) -> str:
        """The lines of steps, and the stop line where one isn't served."""
        self.lines += map(line_of, course.steps)
        return stop_line(self.machine, course.steps[-1].code, course.fault) if course.fault else ''

    def writes(self, opcode: int, course: Course) -> Iterator[tuple[int, int]]:
        """The instruction's port write, if a port took a byte."""
        if opcode in OWN_WRITES:
            yield opcode & 15, self.machine.cpu.a
        for before, step in zip(course.steps, course.steps[1:]):
            if step.code == PORT_WRITE and any(before.byte in chip.seat.ports for chip in self.machine.chips):
                yield before.byte, step.byte

    def registers(self, address: int) -> Registers:
        cpu, counters = self.machine.cpu, self.machine.reference.counters
        return Registers(address, counters[PC1], counters[DC0], counters[DC1], cpu.a, cpu.isar, cpu.status, bytes(cpu.scratchpad),
                         cpu.instructions, self.machine.phi)


# ---- stop lines, by docs/BUS.md

def stop_line(machine: Machine, code: int, fault: Fault) -> str:
    port = machine.last_byte if code in PORT_STEPS else None
    reference = machine.reference.counters[USED[code]] if port is None else port
    parties = [chip for chip in in_order(machine) if is_party(chip, code, port)]
    if fault is Fault.UNDRIVEN:
        return f'stop undriven romc {code:02X} at {reference:04X}'
    if fault is Fault.CONFLICT:
        told = ' '.join(f'socket {chip.chip.socket} at {own(chip, code, port):04X}' for chip in parties)
        return f'stop conflict romc {code:02X} {told}'
    away = [chip for chip in parties if own(chip, code, port) != reference]
    chip = (away or [chip for chip in in_order(machine) if chip not in parties and reference // PAGE in pages(chip, code)])[0]
    return f'stop astray romc {code:02X} socket {chip.chip.socket} at {own(chip, code, port):04X} reference {reference:04X}'


def in_order(machine: Machine) -> list[BusChip]:
    return sorted(machine.chips, key=lambda chip: chip.chip.socket)


def pages(chip: BusChip, code: int) -> frozenset[int]:
    return chip.seat.ram if code == STORE else chip.seat.held


def own(chip: BusChip, code: int, port: int | None) -> int:
    return chip.counters[USED[code]] if port is None else port


def is_party(chip: BusChip, code: int, port: int | None) -> bool:
    """Whether a chip drives or takes in a step."""
    if port is None:
        return chip.counters[USED[code]] // PAGE in pages(chip, code)
    return port in (chip.seat.data_ports if code == PORT_READ else chip.seat.ports)
