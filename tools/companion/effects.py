"""What each instruction makes of what is known, as docs/CHECKER.md and docs/MACHINE.md have it: a rule for each opcode.

A result is known where all that it needs is known. Otherwise it is what lost one of these, so that each part keeps its cause.
"""
from __future__ import annotations

import operator
from dataclasses import dataclass
from enum import Enum
from typing import Callable, Iterable

from companion.domain import (FLAGS, REGISTERS, STATUS, DataRead, Exchanged, Known, Lost, Part, PerhapsWritten, Point, PortRead, PowerOn, State,
                              Unknown, Unstated)
from companion.instructions import ADDRESSES, Instruction, signed
from companion.memory import Memory
from companion.sums import Sum, added, added_decimal

J, H, K, Q = 9, 10, 12, 14  # registers of the scratchpad; H, K and Q are pairs, the high byte first
POINTED, STEPPED_UP, STEPPED_DOWN = 12, 13, 14  # fields that name the register of ISAR; the last two then step its low digit


@dataclass(frozen=True)
class Write:
    """A byte that is written to the register that two octal digits name, each of them known or not."""
    high: Known
    low: Known
    value: Known

    def may_reach(self, register: int) -> bool:
        return all(isinstance(digit, Unknown) or digit == own for digit, own in zip((self.high, self.low), divmod(register, 8)))

    def lost_digits(self) -> list[Lost]:
        digits = ((Part.ISAR_HIGH, self.high), (Part.ISAR_LOW, self.low))
        return [Lost(part, digit) for part, digit in digits if isinstance(digit, Unknown)]


class Step:
    """An instruction at a point, and the parts as they become."""

    def __init__(self, memory: Memory, instruction: Instruction, point: Point, state: State):
        self.memory, self.instruction, self.point, self.before = memory, instruction, point, state
        self.parts: list[Known] = list(state)
        self.opcode = instruction.opcode.code
        self.writes: list[Write] = []

    @property
    def field(self) -> int:
        return self.opcode % 16

    def operand(self) -> int:
        """The first byte behind the opcode."""
        return self.instruction.operand[0]

    def pair(self, register: int) -> Known:
        """The address in two registers, as they are before the instruction."""
        return combined(lambda high, low: high * 256 + low, self.before[register], self.before[register + 1])

    # ---- registers that a field names

    def digits_of(self, field: int) -> tuple[Known, Known]:
        """The two octal digits of the register that a field names, by ISAR as it is before the instruction."""
        return divmod(field, 8) if field < POINTED else (self.before[Part.ISAR_HIGH], self.before[Part.ISAR_LOW])

    def read(self, field: int) -> Known:
        number = combined(lambda high, low: high * 8 + low, *self.digits_of(field))
        return number if isinstance(number, Unknown) else self.before[number]

    def write(self, field: int, value: Known) -> None:
        """A write by an ISAR with an unknown digit leaves what the old value and the new one have in common."""
        write = Write(*self.digits_of(field), value)
        self.writes.append(write)
        lost = write.lost_digits()
        if not lost:
            self.parts[write.high * 8 + write.low] = value
            return
        for register in filter(write.may_reach, range(REGISTERS)):
            old = self.parts[register]
            if not isinstance(old, Unknown) and old != value:
                self.parts[register] = Unknown(PerhapsWritten(self.point.at, Part(register), lost[0]))

    def step_isar(self) -> None:
        moves = {STEPPED_UP: 1, STEPPED_DOWN: 7}
        if self.field in moves:
            self.parts[Part.ISAR_LOW] = combined(lambda digit: (digit + moves[self.field]) % 8, self.parts[Part.ISAR_LOW])

    # ---- results with their flags

    def set_result(self, value: Known) -> None:
        """A result that clears carry and overflow."""
        self.parts[Part.A] = value
        self.parts[Part.CARRY] = self.parts[Part.OVERFLOW] = False
        self.parts[Part.SIGN] = combined(lambda byte: byte < 128, value)
        self.parts[Part.ZERO] = combined(lambda byte: byte == 0, value)

    def set_flags(self, first: Known, second: Known, carry: Known = False) -> Known:
        """The flags of a sum; the sum's byte is the answer."""
        total = combined(added, first, second, carry)
        flags = (lambda one: (one.value < 128, one.carry, one.value == 0, one.overflow))(total) if isinstance(total, Sum) else (total,) * 4
        for part, flag in zip(FLAGS, flags):
            self.parts[part] = flag
        return total.value if isinstance(total, Sum) else total

    def add(self, byte: Known, carry: Known = False) -> None:
        self.parts[Part.A] = self.set_flags(self.before[Part.A], byte, carry)

    def add_decimal(self, byte: Known) -> None:
        self.set_flags(self.before[Part.A], byte)
        self.parts[Part.A] = combined(added_decimal, self.before[Part.A], byte)

    def compare(self, byte: Known) -> None:
        self.set_flags(byte, combined(lambda own: 255 - own, self.before[Part.A]), True)

    # ---- data counters

    def data_byte(self) -> Known:
        """The byte at D0."""
        at = self.before[Part.D0]
        if isinstance(at, Unknown):
            return at
        byte = self.memory.byte(at)
        return Unknown(DataRead(self.point.at, at)) if byte is None else byte

    def load_data(self, at: Known) -> None:
        """After a load of D0 each DC0 is D0."""
        self.parts[Part.D0] = self.parts[Part.C] = at
        self.parts[Part.S0] = self.parts[Part.P0] = True
        self.state_p1()

    def move_data(self, by: Known) -> None:
        """D0 and each DC0 move alike."""
        for part in (Part.D0, Part.C):
            self.parts[part] = combined(lambda at, byte: (at + signed(byte)) % ADDRESSES, self.before[part], by)
        self.state_p1()

    def state_p1(self) -> None:
        c, d1 = self.parts[Part.C], self.parts[Part.D1]
        agree = not isinstance(c, Unknown) and not isinstance(d1, Unknown) and c == d1
        self.parts[Part.P1] = True if agree else Unknown(Unstated(self.point.at, Part.P1))


def combined(function: Callable[..., object], *values: Known) -> object:
    """What a function makes of values, where all of them are known."""
    lost = [value for value in values if isinstance(value, Unknown)]
    return function(*values) if not lost else next((value for value in lost if isinstance(value.cause, LASTING)), lost[0])


LASTING = (PowerOn, PortRead, DataRead)  # causes that stay, whatever ways are kept apart


class Data(Enum):
    """How an instruction goes by D0."""
    NOT = 'not at all'
    READ = 'a read at D0'
    COUNTER = "a read of D0's own bytes"
    STORE = 'a store'


class PortUse(Enum):
    NOT = 'none'
    IN = 'a read'
    OUT = 'a write'


@dataclass(frozen=True)
class Rule:
    """How the instruction of an opcode is followed."""
    effect: Callable[[Step], None]
    data: Data = Data.NOT
    port: PortUse = PortUse.NOT
    shields: bool = False
    gives_return: bool = False  # a chip has to give the bytes of the return
    sets_return: bool = False  # K becomes the return


RULES: dict[int, Rule] = {}  # by opcode; a reserved one has none


def rule(*opcodes: int, **facts: object) -> Callable[[Callable[[Step], None]], Callable[[Step], None]]:
    """Makes a function the rule of some opcodes."""
    def given(effect: Callable[[Step], None]) -> Callable[[Step], None]:
        RULES.update(dict.fromkeys(opcodes, Rule(effect, **facts)))
        return effect
    return given


def fields(first: int) -> Iterable[int]:
    """The opcodes of an instruction whose field names a register."""
    return range(first, first + 15)


@rule(0x2B, 0x0D, *range(0x80, 0x88), 0x8F, *range(0x90, 0xA0), 0xB0, 0xB1)
@rule(0x09, sets_return=True)
@rule(0x0C, 0x1C, shields=True)
@rule(0x27, *range(0xB4, 0xC0), port=PortUse.OUT, shields=True)
def nothing(step: Step) -> None:
    """NOP, LR P0,Q, branches, OUTS, LR P,K, PK, POP and OUT leave all parts."""


@rule(*range(0x00, 0x04))
def lr_a_half(step: Step) -> None:
    step.parts[Part.A] = step.before[K + step.opcode]


@rule(*range(0x04, 0x08))
def lr_half_a(step: Step) -> None:
    step.writes.append(Write(*divmod(K + step.opcode - 4, 8), step.before[Part.A]))
    step.parts[K + step.opcode - 4] = step.before[Part.A]


def write_pair(step: Step, register: int, address: Known) -> None:
    halves = (combined(lambda at: at // 256, address), combined(lambda at: at % 256, address))
    for number, byte in enumerate(halves, register):
        step.writes.append(Write(*divmod(number, 8), byte))
        step.parts[number] = byte


@rule(0x08, gives_return=True)
def lr_k_p(step: Step) -> None:
    write_pair(step, K, step.point.ret)


@rule(0x0E, data=Data.COUNTER)
def lr_q_dc(step: Step) -> None:
    write_pair(step, Q, step.before[Part.D0])


@rule(0x11, data=Data.COUNTER)
def lr_h_dc(step: Step) -> None:
    write_pair(step, H, step.before[Part.D0])


@rule(0x0A)
def lr_a_is(step: Step) -> None:
    step.parts[Part.A] = combined(lambda high, low: high * 8 + low, step.before[Part.ISAR_HIGH], step.before[Part.ISAR_LOW])


@rule(0x0B)
def lr_is_a(step: Step) -> None:
    step.parts[Part.ISAR_HIGH] = combined(lambda byte: byte % 64 // 8, step.before[Part.A])
    step.parts[Part.ISAR_LOW] = combined(lambda byte: byte % 8, step.before[Part.A])


@rule(0x0F)
def lr_dc_q(step: Step) -> None:
    step.load_data(step.pair(Q))


@rule(0x10)
def lr_dc_h(step: Step) -> None:
    step.load_data(step.pair(H))


@rule(0x2A)
def dci(step: Step) -> None:
    step.load_data(step.instruction.target)


@rule(*range(0x12, 0x16), 0x18)
def shifted(step: Step) -> None:
    """SR 1, SL 1, SR 4, SL 4 and COM."""
    functions = {0x12: lambda byte: byte // 2, 0x13: lambda byte: byte * 2 % 256, 0x14: lambda byte: byte // 16,
                 0x15: lambda byte: byte * 16 % 256, 0x18: lambda byte: 255 - byte}
    step.set_result(combined(functions[step.opcode], step.before[Part.A]))


@rule(0x19)
def lnk(step: Step) -> None:
    step.add(0, step.before[Part.CARRY])


@rule(0x1F)
def inc(step: Step) -> None:
    step.add(1)


@rule(0x1A)
def di(step: Step) -> None:
    step.parts[Part.ICB] = False


@rule(0x1B, shields=True)
def ei(step: Step) -> None:
    step.parts[Part.ICB] = True


@rule(0x1D, shields=True)
def lr_w_j(step: Step) -> None:
    for bit, part in enumerate(STATUS):
        step.parts[part] = combined(lambda byte: byte >> bit & 1 == 1, step.before[J])


@rule(0x1E)
def lr_j_w(step: Step) -> None:
    byte = combined(lambda *bits: sum(bit << place for place, bit in enumerate(bits)), *(step.before[part] for part in STATUS))
    step.writes.append(Write(*divmod(J, 8), byte))
    step.parts[J] = byte


@rule(0x20)
@rule(0x28, 0x29, shields=True)
def li(step: Step) -> None:
    """LI; PI and JMP need A for the high byte of their address, which stays there."""
    step.parts[Part.A] = step.operand()


LOGICAL = (operator.and_, operator.or_, operator.xor)


@rule(0x21, 0x22, 0x23)
def with_operand(step: Step) -> None:
    """NI, OI and XI."""
    step.set_result(combined(LOGICAL[step.opcode - 0x21], step.before[Part.A], step.operand()))


@rule(0x24)
def ai(step: Step) -> None:
    step.add(step.operand())


@rule(0x25)
def ci(step: Step) -> None:
    step.compare(step.operand())


@rule(0xA0, 0xA1)
@rule(0x26, *range(0xA4, 0xB0), port=PortUse.IN)
def port_read(step: Step) -> None:
    """IN and INS. What a port gives is never known."""
    step.set_result(Unknown(PortRead(step.point.at, port_of(step))))


def port_of(step: Step) -> int:
    """The port that IN, OUT, INS or OUTS names."""
    return step.operand() if step.opcode in (0x26, 0x27) else step.field


@rule(0x2C)
def xdc(step: Step) -> None:
    for one, other in ((Part.D0, Part.D1), (Part.S0, Part.S1), (Part.P0, Part.P1)):
        step.parts[one], step.parts[other] = step.before[other], step.before[one]
    if isinstance(step.parts[Part.P0], Unknown):
        step.parts[Part.P0] = Unknown(Exchanged(step.point.at))


@rule(0x16, data=Data.READ)
def lm(step: Step) -> None:
    step.parts[Part.A] = step.data_byte()
    step.move_data(1)


@rule(0x17, data=Data.STORE)
def st(step: Step) -> None:
    step.move_data(1)


@rule(0x88, data=Data.READ)
def am(step: Step) -> None:
    step.add(step.data_byte())
    step.move_data(1)


@rule(0x89, data=Data.READ)
def amd(step: Step) -> None:
    step.add_decimal(step.data_byte())
    step.move_data(1)


@rule(0x8A, 0x8B, 0x8C, data=Data.READ)
def with_data(step: Step) -> None:
    """NM, OM and XM."""
    step.set_result(combined(LOGICAL[step.opcode - 0x8A], step.before[Part.A], step.data_byte()))
    step.move_data(1)


@rule(0x8D, data=Data.READ)
def cm(step: Step) -> None:
    step.compare(step.data_byte())
    step.move_data(1)


@rule(0x8E)
def adc(step: Step) -> None:
    step.move_data(step.before[Part.A])


@rule(*range(0x60, 0x68))
def lisu(step: Step) -> None:
    step.parts[Part.ISAR_HIGH] = step.opcode % 8


@rule(*range(0x68, 0x70))
def lisl(step: Step) -> None:
    step.parts[Part.ISAR_LOW] = step.opcode % 8


@rule(*range(0x70, 0x80))
def lis(step: Step) -> None:
    step.parts[Part.A] = step.field


@rule(*fields(0x30))
def ds(step: Step) -> None:
    step.write(step.field, step.set_flags(step.read(step.field), 255))
    step.step_isar()


@rule(*fields(0x40))
def lr_a_r(step: Step) -> None:
    step.parts[Part.A] = step.read(step.field)
    step.step_isar()


@rule(*fields(0x50))
def lr_r_a(step: Step) -> None:
    step.write(step.field, step.before[Part.A])
    step.step_isar()


@rule(*fields(0xC0))
def add_register(step: Step) -> None:
    """AS."""
    step.add(step.read(step.field))
    step.step_isar()


@rule(*fields(0xD0))
def asd(step: Step) -> None:
    step.add_decimal(step.read(step.field))
    step.step_isar()


@rule(*fields(0xE0))
def xs(step: Step) -> None:
    step.set_result(combined(LOGICAL[2], step.before[Part.A], step.read(step.field)))
    step.step_isar()


@rule(*fields(0xF0))
def ns(step: Step) -> None:
    step.set_result(combined(LOGICAL[0], step.before[Part.A], step.read(step.field)))
    step.step_isar()
