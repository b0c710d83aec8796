"""The processor's registers, worked out from the turns of a run by the rules of docs/MACHINE.md.

What comes from chips is in the bus steps: operands, bytes at DC0, counters, and data ports.  What isn't there are the
keys of the processor's own ports 0 and 1; those are the script's, and `Keys` gives them at their frames.
"""
from __future__ import annotations

import math
from dataclasses import dataclass, field
from enum import IntFlag
from functools import partial
from typing import Callable, Iterable

from companion.bus import OPERAND, PORT_READ, READ, Turn
from companion.instructions import OPCODES
from companion.script import Event, EventKind
from companion.sums import added, added_decimal

FRAME = 29_830  # clocks
NEVER = math.inf  # clocks
RESET_PHI = 10  # of the two steps before the first fetch
SCRATCHPAD = 64
J, HU, HL, KU, KL, QU, QL = range(9, 16)


class Flag(IntFlag):
    """The bits of the status word."""
    SIGN = 1  # bit 7 of the result is clear
    CARRY = 2
    ZERO = 4
    OVERFLOW = 8
    ICB = 16  # interrupts are let in


# As plain numbers, with which Python reckons faster than with flags.
CARRY, OVERFLOW, ICB = int(Flag.CARRY), int(Flag.OVERFLOW), int(Flag.ICB)
SIGN_AND_ZERO = tuple(int(Flag.SIGN) * (value < 0x80) + int(Flag.ZERO) * (value == 0) for value in range(256))


def letters(status: int) -> str:
    """The status word with a letter for each flag that is set: I, O, Z, C and S."""
    return ''.join(flag.name[0] if status & flag else '-' for flag in sorted(Flag, reverse=True))


@dataclass
class Keys:
    """The key bytes of ports 0 and 1, as the events of a script give them at their frames."""
    due: list[Event] = field(default_factory=list)  # the next one last
    bytes: dict[int, int] = field(default_factory=lambda: {0: 0, 1: 0})
    next_phi: float = NEVER  # at which the next ones come

    @classmethod
    def of(cls, events: Iterable[Event]) -> Keys:
        """The events of one frame come in the order of the text."""
        own = [event for event in events if event.kind is EventKind.KEYS and event.place in (0, 1)]
        keys = cls(sorted(own, key=lambda event: event.frame)[::-1])
        keys.come(0)
        return keys

    def come(self, phi: int) -> None:
        """The bytes of all frames that fall up to these clocks."""
        while self.due and self.due[-1].frame * FRAME <= phi:
            event = self.due.pop()
            self.bytes[event.place] = event.byte
        self.next_phi = self.due[-1].frame * FRAME if self.due else NEVER


class Processor:
    """The registers between two turns, the clocks, and how many instructions were done."""

    def __init__(self, power: int = 0, keys: Keys | None = None):
        self.a = power
        self.isar = power % SCRATCHPAD
        self.status = 0
        self.scratchpad = [power] * SCRATCHPAD
        self.latches = {0: 0, 1: 0}
        self.keys = keys or Keys()
        self.phi = RESET_PHI
        self.instructions = 0

    def registers(self) -> dict[str, str]:
        """The registers as they are printed, by their names."""
        found = {'A': f'{self.a:02X}', 'W': f'{self.status:02X}', 'ISAR': f'{self.isar:02o}'}
        found.update((f'r{number}', f'{byte:02X}') for number, byte in enumerate(self.scratchpad))
        return found

    def do(self, turn: Turn) -> None:
        """What the instruction of a turn does. The fetch of its opcode ends the one before it, and the keys of a frame that falls there come."""
        phi = self.phi + turn.fetch_phi
        if phi >= self.keys.next_phi:
            self.keys.come(phi)
        OPERATIONS[turn.opcode](self, turn)
        if turn.is_interrupted:
            self.status &= ~ICB
        self.phi = phi + turn.phi
        self.instructions += 1

    def result(self, value: int, carry: bool = False, overflow: bool = False) -> int:
        """Sets the four flags of a result, and gives it."""
        self.status = self.status & ICB | SIGN_AND_ZERO[value] | (CARRY if carry else 0) | (OVERFLOW if overflow else 0)
        return value

    def sum(self, left: int, right: int, carry: int = 0) -> int:
        """The sum of two bytes and a carry, with its flags."""
        return self.result(*added(left, right, carry))

    def decimal(self, left: int, right: int) -> int:
        """The decimal sum of two bytes, with the flags of the binary one."""
        self.sum(left, right)
        return added_decimal(left, right)

    def register(self, number: int) -> int:
        """The register that a field names: 12 to 14 by ISAR, whose low digit the last two step afterwards."""
        return number if number < 12 else self.isar

    def step_isar(self, number: int) -> None:
        if number > 12:
            self.isar = self.isar & 0o70 | (self.isar + (1 if number == 13 else -1)) & 7


Operation = Callable[[Processor, Turn], None]


def nothing(cpu: Processor, turn: Turn) -> None:
    """An instruction that changes no register."""


def load_a(cpu: Processor, turn: Turn, register: int) -> None:
    cpu.a = cpu.scratchpad[cpu.register(register)]
    cpu.step_isar(register)


def store_a(cpu: Processor, turn: Turn, register: int) -> None:
    cpu.scratchpad[cpu.register(register)] = cpu.a
    cpu.step_isar(register)


def load_half(cpu: Processor, turn: Turn, half: int) -> None:
    cpu.a = cpu.scratchpad[half]


def store_half(cpu: Processor, turn: Turn, half: int) -> None:
    cpu.scratchpad[half] = cpu.a


def decrement(cpu: Processor, turn: Turn, register: int) -> None:
    at = cpu.register(register)
    cpu.scratchpad[at] = cpu.sum(cpu.scratchpad[at], 0xFF)
    cpu.step_isar(register)


def with_register(cpu: Processor, turn: Turn, register: int, compute: Callable[[Processor, int], int]) -> None:
    cpu.a = compute(cpu, cpu.scratchpad[cpu.register(register)])
    cpu.step_isar(register)


def with_byte(cpu: Processor, turn: Turn, code: int, compute: Callable[[Processor, int], int]) -> None:
    """With the byte of a bus step: an operand, one at DC0, or that of a port."""
    cpu.a = compute(cpu, turn.byte(code))


def with_a(cpu: Processor, turn: Turn, compute: Callable[[Processor], int]) -> None:
    cpu.a = compute(cpu)


def digit(cpu: Processor, turn: Turn, number: int, is_high: bool) -> None:
    cpu.isar = number << 3 | cpu.isar & 7 if is_high else cpu.isar & 0o70 | number


def set_isar(cpu: Processor, turn: Turn) -> None:
    cpu.isar = cpu.a % SCRATCHPAD


def high_of_address(cpu: Processor, turn: Turn) -> None:
    """PI and JMP need A for the high byte of their address, which stays there."""
    cpu.a = turn.operand[0]


def interrupts(cpu: Processor, turn: Turn, are_let_in: bool) -> None:
    cpu.status = cpu.status & ~ICB | (ICB if are_let_in else 0)


def load_status(cpu: Processor, turn: Turn) -> None:
    cpu.status = cpu.scratchpad[J] & 0x1F


def store_status(cpu: Processor, turn: Turn) -> None:
    cpu.scratchpad[J] = cpu.status


def write_port(cpu: Processor, turn: Turn, port: int) -> None:
    cpu.latches[port] = cpu.a


def load_pair(cpu: Processor, turn: Turn, high: int, codes: tuple[int, int]) -> None:
    """A counter, which comes in two bytes, goes into a pair of registers."""
    cpu.scratchpad[high], cpu.scratchpad[high + 1] = (turn.byte(code) for code in codes)


# What A becomes, by A and another byte.
COMPUTE: dict[str, Callable[[Processor, int], int]] = {
    'load': lambda cpu, byte: byte,
    'and': lambda cpu, byte: cpu.result(cpu.a & byte),
    'or': lambda cpu, byte: cpu.result(cpu.a | byte),
    'xor': lambda cpu, byte: cpu.result(cpu.a ^ byte),
    'add': lambda cpu, byte: cpu.sum(cpu.a, byte),
    'decimal': lambda cpu, byte: cpu.decimal(cpu.a, byte),
    'read': lambda cpu, byte: cpu.result(byte)}


def compare(cpu: Processor, byte: int) -> int:
    """The flags of the byte plus the complement of A plus 1; A stays."""
    cpu.sum(byte, cpu.a ^ 0xFF, 1)
    return cpu.a


COMPUTE['compare'] = compare
ON_A: dict[int, Callable[[Processor], int]] = {
    0x0A: lambda cpu: cpu.isar,
    0x12: lambda cpu: cpu.result(cpu.a >> 1),
    0x13: lambda cpu: cpu.result(cpu.a << 1 & 0xFF),
    0x14: lambda cpu: cpu.result(cpu.a >> 4),
    0x15: lambda cpu: cpu.result(cpu.a << 4 & 0xFF),
    0x18: lambda cpu: cpu.result(cpu.a ^ 0xFF),
    0x19: lambda cpu: cpu.sum(cpu.a, 1 if cpu.status & CARRY else 0),
    0x1F: lambda cpu: cpu.sum(cpu.a, 1)}
OWN: dict[int, Operation] = {
    0x08: partial(load_pair, high=KU, codes=(0x07, 0x0B)), 0x0B: set_isar,
    0x0E: partial(load_pair, high=QU, codes=(0x06, 0x09)), 0x11: partial(load_pair, high=HU, codes=(0x06, 0x09)),
    0x1A: partial(interrupts, are_let_in=False), 0x1B: partial(interrupts, are_let_in=True),
    0x1D: load_status, 0x1E: store_status, 0x28: high_of_address, 0x29: high_of_address}
WITH_OPERAND = dict(zip(range(0x20, 0x26), ('load', 'and', 'or', 'xor', 'add', 'compare')))
AT_DC0 = {0x16: 'load', **dict(zip(range(0x88, 0x8E), ('add', 'decimal', 'and', 'or', 'xor', 'compare')))}
BY_REGISTER = {0xC: 'add', 0xD: 'decimal', 0xE: 'xor', 0xF: 'and'}
PAIRS = (KU, KL, QU, QL)


def operation(code: int) -> Operation:
    """What the instruction with an opcode does to the registers."""
    high, low = code >> 4, code & 15
    if code in OWN:
        return OWN[code]
    if code in ON_A:
        return partial(with_a, compute=ON_A[code])
    if code < 8:
        return partial(load_half if code < 4 else store_half, half=PAIRS[code % 4])
    if code in WITH_OPERAND:
        return partial(with_byte, code=OPERAND, compute=COMPUTE[WITH_OPERAND[code]])
    if code in AT_DC0:
        return partial(with_byte, code=READ, compute=COMPUTE[AT_DC0[code]])
    if code == 0x26 or high == 0xA and low > 3:
        return partial(with_byte, code=PORT_READ, compute=COMPUTE['read'])
    return by_rows(high, low)


def by_rows(high: int, low: int) -> Operation:
    """The opcodes whose low half is a register or a number."""
    if OPCODES[high << 4 | low].is_reserved:
        return nothing
    if high in (0x3, 0x4, 0x5):
        return partial({0x3: decrement, 0x4: load_a, 0x5: store_a}[high], register=low)
    if high == 0x6:
        return partial(digit, number=low & 7, is_high=low < 8)
    if high == 0x7:
        return partial(with_a, compute=lambda cpu: low)
    if high == 0xA:
        return partial(with_a, compute=lambda cpu: cpu.result(cpu.latches[low] | cpu.keys.bytes[low]))
    if high == 0xB and low < 2:
        return partial(write_port, port=low)
    if high in BY_REGISTER:
        return partial(with_register, register=low, compute=COMPUTE[BY_REGISTER[high]])
    return nothing


OPERATIONS = tuple(operation(code) for code in range(256))
