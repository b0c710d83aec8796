"""The processor with the chips of a description, bus step by bus step, as docs/MACHINE.md and docs/INTERRUPTS.md have it."""
from __future__ import annotations

from dataclasses import replace
from typing import Callable, NamedTuple

from companion.auditing.arbitration import CPU, NOBODY, VECTOR_HIGH, VECTOR_LOW, Fault, ruling
from companion.auditing.chips import BusChip
from companion.bus import FETCH, OPERAND, PHI, PORT_READ, PORT_WRITE, Step, Turn
from companion.counters import PC0, USED, Copies, Counter, REFERENCE
from companion.description import EMPTY_ROM, Chip, Description
from companion.instructions import OPCODES, Instruction
from companion.processor import HL, HU, ICB, KL, KU, OPERATIONS, QL, QU, Keys, Processor
from companion.script import Script
from companion.words import Refused

HIGHS = frozenset({0x06, 0x07, 0x1F})  # the steps that tell the high half of a counter
LOWS = frozenset({0x09, 0x0B, 0x1E})
OUT, IN = 0x27, 0x26
SHIELDING = frozenset({0x0C, 0x1B, 0x1C, 0x1D, 0x28, 0x29, OUT, *range(0xB4, 0xC0)})  # no interrupt is taken at their end
IDLE_STEP = (0x1C, False, None)
Source = Callable[[Processor, list[Step]], int]
Told = tuple[int, bool, 'Source | None']  # a code, whether the step is long, and where the processor gets the byte that it drives


def register(number: int) -> Source:
    return lambda cpu, steps: cpu.scratchpad[number]


def accumulator(cpu: Processor, steps: list[Step]) -> int:
    return cpu.a


def first_byte(cpu: Processor, steps: list[Step]) -> int:
    """The high byte of an address, which the processor kept."""
    return steps[0].byte


def long(code: int, source: Source | None = None) -> Told:
    return code, True, source


def short(code: int) -> Told:
    return code, False, None


def number_of(port: int) -> Told:
    """The step in which the processor names a port."""
    return 0x1C, True, lambda cpu, steps: port


A_BYTE, AT_DC0, HALVES = (long(0x03),), (long(0x02),), (long(0x06), long(0x09))
ADDRESS_END = (long(0x0C), long(0x14, first_byte))
OWN: dict[int, tuple[Told, ...]] = {
    0x08: (long(0x07), long(0x0B)), 0x09: (long(0x15, register(KU)), long(0x18, register(KL))),
    0x0C: (long(0x12, register(KL)), long(0x14, register(KU))), 0x0D: (long(0x17, register(QL)), long(0x14, register(QU))),
    0x0E: HALVES, 0x11: HALVES, 0x0F: (long(0x16, register(QU)), long(0x19, register(QL))),
    0x10: (long(0x16, register(HU)), long(0x19, register(HL))), 0x16: AT_DC0, 0x17: (long(0x05, accumulator),),
    0x1A: (IDLE_STEP,), 0x1B: (IDLE_STEP,), 0x1D: (IDLE_STEP,), 0x1C: (short(0x04),), IN: (long(0x03), long(PORT_READ)),
    OUT: (long(0x03), long(PORT_WRITE, accumulator)), 0x28: (long(0x03), short(0x0D), *ADDRESS_END), 0x29: (long(0x03), *ADDRESS_END),
    0x2A: (long(0x11), short(0x03), long(0x0E), short(0x03)), 0x2C: (short(0x1D),), 0x8E: (long(0x0A, accumulator),)}
SKIPPED, TAKEN = short(OPERAND), long(0x01)


def steps_of(opcode: int) -> tuple[Told, ...]:
    """The steps before the last fetch, but for the one that a branch decides."""
    high, low = opcode >> 4, opcode & 15
    if opcode in OWN:
        return OWN[opcode]
    if opcode in range(0x20, 0x26):
        return A_BYTE
    if opcode in range(0x88, 0x8E):
        return AT_DC0
    if high in (0x8, 0x9) and opcode != 0x8F or high in (0xA, 0xB) and low < 2 or high == 0xD:
        return (IDLE_STEP,)
    if high == 0xA:
        return number_of(low), long(PORT_READ)
    if high == 0xB:
        return number_of(low), long(PORT_WRITE, accumulator)
    return ()


STEPS = tuple(map(steps_of, range(256)))
BRANCHES = frozenset({*range(0x80, 0x88), *range(0x8F, 0xA0)})


def is_taken(cpu: Processor, opcode: int) -> bool:
    if opcode == 0x8F:
        return cpu.isar & 7 != 7
    return bool(cpu.status & opcode & 7) if opcode < 0x90 else not cpu.status & opcode & 15


def is_long_fetch(opcode: int) -> bool:
    return opcode >> 4 == 0x3


class Course(NamedTuple):
    """The steps of reset or an instruction, the last of them the one that isn't served where there is a fault."""
    steps: list[Step]
    fault: Fault | None = None


def filled(chip: Chip) -> Chip:
    """A chip with the bytes of its ROM, where no source gives them."""
    if chip.bytes or not chip.rom:
        return chip
    if chip.source is not None:
        raise Refused(f'the bytes of {chip.source} are not known: the program has to assemble it')
    found = dict.fromkeys(chip.rom_addresses, EMPTY_ROM)
    found.update(zip(chip.rom_addresses, bytes.fromhex(chip.digits or '')))
    return replace(chip, bytes=found)


class Machine:
    """From power-on with a script's power-on byte and key bytes of the ports 0 and 1. Other key bytes and pulses are given from outside."""

    def __init__(self, description: Description, script: Script):
        power = script.power or 0
        self.chips = [BusChip(filled(chip), power) for chip in description.chips]
        self.reference = Copies(REFERENCE, -1, [0] * len(Counter), True)
        self.cpu = Processor(power, Keys.of(script.events))
        self.last_byte = self.phi = 0
        self.opcode: int | None = None  # the one that is fetched

    @property
    def address(self) -> int:
        """That of the instruction that comes next. Its opcode is fetched."""
        return (self.reference.counters[PC0] - 1) % 65_536

    # ---- one bus step

    def step(self, code: int, is_long: bool, own: int | None = None, acknowledged: BusChip | None = None) -> tuple[Step, Fault | None]:
        """A step with the byte that the processor drives, or none. The chips hear it where it is served."""
        found = ruling(code, self.chips, self.reference.counters, self.last_byte)
        if found.fault:
            return Step(code, is_long, None, ''), found.fault
        chip = acknowledged or (self.chips[found.chip] if found.chip is not None else None)
        byte, driver = self.driven(code, own, chip)
        phi = PHI[is_long]
        for each in self.chips:
            each.hear(code, byte, phi, self.last_byte, each is acknowledged)
        self.reference.hear(code, byte)
        self.last_byte = byte
        self.phi += phi
        return Step(code, is_long, byte, driver), None

    def driven(self, code: int, own: int | None, chip: BusChip | None) -> tuple[int, str]:
        """The byte, and who drives it."""
        if own is not None:
            return own, CPU
        if chip is None:
            return 0, NOBODY
        return self.offered(code, chip), str(chip.chip.socket)

    def offered(self, code: int, chip: BusChip) -> int:
        """The byte that a chip drives."""
        if code == VECTOR_LOW:
            return chip.given_vector() & 0xFF
        if code == VECTOR_HIGH:
            return chip.given_vector() >> 8
        if code == PORT_READ:
            return chip.read(self.last_byte)
        at = chip.counters[USED[code]]
        return at >> 8 if code in HIGHS else at & 0xFF if code in LOWS else chip.byte(at)

    # ---- reset and instructions

    def reset(self) -> Course:
        return self.carried(((0x1C, False, None), (0x08, True, lambda cpu, steps: 0), (FETCH, False, None)), [])

    def carried(self, told: tuple[Told, ...], steps: list[Step]) -> Course:
        """Steps one after another, up to the first that isn't served."""
        for code, is_long, source in told:
            step, fault = self.step(code, is_long, source(self.cpu, steps) if source else None)
            steps.append(step)
            if fault:
                return Course(steps, fault)
            if code == FETCH:
                self.opcode = step.byte
        return Course(steps)

    def before_fetch(self) -> tuple[Told, ...]:
        """The steps of the instruction that comes next, before its last fetch."""
        told = STEPS[self.opcode]
        return (*told, TAKEN if is_taken(self.cpu, self.opcode) else SKIPPED) if self.opcode in BRANCHES else told

    @property
    def is_reserved(self) -> bool:
        return OPCODES[self.opcode].is_reserved

    def instruction(self) -> Course:
        """The instruction that comes next, up to the fetch behind it. Its opcode isn't a reserved one."""
        opcode = self.opcode
        steps, fault = self.carried(self.before_fetch(), [])
        if fault:
            return Course(steps, fault)
        OPERATIONS[opcode](self.cpu, Turn((Step(FETCH, False, opcode, ''), *steps)))
        asking = self.asking() if self.cpu.status & ICB and opcode not in SHIELDING else None
        fault = self.interrupt(asking, steps) if asking else self.carried(((FETCH, is_long_fetch(opcode), None),), steps).fault
        self.cpu.instructions += 0 if fault else 1
        self.cpu.keys.come(self.phi)
        return Course(steps, fault)

    def asking(self) -> BusChip | None:
        """The first chip of the description that asks."""
        return next((chip for chip in self.chips if chip.is_asking), None)

    def interrupt(self, chip: BusChip, steps: list[Step]) -> Fault | None:
        """The steps to a vector, in the place of the last fetch."""
        for code, is_long, acknowledged in ((0x10, True, None), (0x1C, False, None), (VECTOR_LOW, True, chip), (VECTOR_HIGH, True, chip)):
            steps.append(self.step(code, is_long, None, acknowledged)[0])
        self.cpu.status &= ~ICB
        return self.carried(((FETCH, False, None),), steps).fault

    # ---- what may be asked before an instruction

    def operand(self) -> int | None:
        """The byte behind the opcode, None where no step could read it."""
        found = ruling(OPERAND, self.chips, self.reference.counters, self.last_byte)
        return None if found.fault else self.offered(OPERAND, self.chips[found.chip])

    def readers(self, port: int) -> list[BusChip]:
        """The chips that have a port as a data port."""
        return [chip for chip in self.chips if port in chip.seat.data_ports]

    def next_instruction(self) -> Instruction:
        """The instruction that comes next, with as much of its operand as the chips hold."""
        opcode, found = OPCODES[self.opcode], bytearray()
        for at in range(self.address + 1, self.address + opcode.size):
            held = [chip for chip in self.chips if at % 65_536 // 256 in chip.seat.held]
            if len(held) != 1:
                break
            found.append(held[0].byte(at % 65_536))
        return Instruction(self.address, opcode, bytes(found))
