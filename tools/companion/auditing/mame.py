"""An instruction trace of MAME's debugger, and the bus cycles of its instructions as far as it tells them."""
from __future__ import annotations

import re
from dataclasses import dataclass
from typing import Callable, Iterable, Iterator

from companion.auditing.arbitration import IDLE, RESET
from companion.auditing.drivers import Cycle
from companion.auditing.machine import BRANCHES, IN, OUT, SKIPPED, STEPS, TAKEN, is_long_fetch
from companion.bus import ADD, BRANCH, FETCH, OPERAND, PORT_READ, PORT_WRITE, READ, STORE
from companion.instructions import ADDRESSES, OPCODES, Flow, Instruction
from companion.words import Refused

# For the debugger, with the name of the file that it writes. The addresses go by PC0, which is one past that of the instruction.
COMMANDS = '''trace {file},maincpu,noloop,{{tracelog "PC0=%04X OP=%02X%02X%02X A=%02X W=%02X IS=%02o PC1=%04X DC0=%04X M=%02X  ",\
pc0,b@(pc0-1),b@pc0,b@(pc0+1),a,w,is,pc1,dc0,b@dc0}}
softreset
go
'''
BYTE, WORD = '([0-9A-F]{2})', '([0-9A-F]{4})'
LINE = re.compile(rf'PC0={WORD} OP=([0-9A-F]{{6}}) A={BYTE} W={BYTE} IS=([0-7]{{2}}) PC1={WORD} DC0={WORD} M={BYTE}(?:\s.*)?', re.I)


class Untold(Refused):
    """What the trace doesn't tell, or what can't be."""


@dataclass(frozen=True)
class Before:
    """A line: an instruction, and the registers before it."""
    line: int
    address: int
    bytes: bytes  # those from the opcode on, three of them
    a: int
    status: int
    isar: int
    pc1: int
    dc0: int
    memory: int  # the byte at DC0

    @property
    def opcode(self) -> int:
        return self.bytes[0]

    @property
    def instruction(self) -> Instruction:
        return Instruction(self.address, OPCODES[self.opcode], self.bytes[1:OPCODES[self.opcode].size])

    @property
    def is_taken(self) -> bool:
        """Whether its branch is taken."""
        if self.opcode == 0x8F:
            return self.isar & 7 != 7
        return bool(self.status & self.opcode & 7) if self.opcode < 0x90 else not self.status & self.opcode & 15

    @property
    def next(self) -> int | None:
        """The address that comes next, None where registers tell it that aren't in the line."""
        flow, instruction = self.instruction.opcode.flow, self.instruction
        if flow is Flow.BRANCH:
            return instruction.target if self.is_taken else instruction.next
        if flow in (Flow.JUMP, Flow.CALL):
            return instruction.target
        return self.pc1 if flow is Flow.RETURN else None if flow in (Flow.CALL_K, Flow.JUMP_Q) else instruction.next


def lines_of(lines: Iterable[str]) -> Iterator[Before]:
    """The lines of the form above; MAME writes others as well, which are skipped."""
    for number, line in enumerate(lines, 1):
        if match := LINE.fullmatch(line.rstrip('\r\n')):
            pc0, code, a, status, isar, pc1, dc0, memory = match.groups()
            yield Before(number, (int(pc0, 16) - 1) % ADDRESSES, bytes.fromhex(code), int(a, 16), int(status, 16), int(isar, 8),
                         int(pc1, 16), int(dc0, 16), int(memory, 16))


def halves(value: int) -> tuple[int, int]:
    return value >> 8, value & 0xFF


Bytes = Callable[[Before, Before], 'dict[int, int]']  # the bytes of steps by their codes, of an instruction and the one behind it


def pair(codes: tuple[int, int], value: Callable[[Before, Before], int]) -> Bytes:
    """A word that goes over the bus in two steps, the code of the high half first."""
    return lambda now, then: dict(zip(codes, halves(value(now, then))))


def to_address(now: Before, then: Before) -> dict[int, int]:
    """The high byte of an address comes by the operand, and again from the processor."""
    return {OPERAND: now.bytes[1], 0x0C: now.bytes[2], 0x14: now.bytes[1]}


LOADED = pair((0x16, 0x19), lambda now, then: then.dc0)
TOLD = pair((0x06, 0x09), lambda now, then: now.dc0)
WORDS: dict[int, Bytes] = {
    0x08: pair((0x07, 0x0B), lambda now, then: now.pc1), 0x09: pair((0x15, 0x18), lambda now, then: then.pc1),
    0x0C: pair((0x14, 0x12), lambda now, then: then.address), 0x0D: pair((0x14, 0x17), lambda now, then: then.address),
    0x0E: TOLD, 0x11: TOLD, 0x0F: LOADED, 0x10: LOADED,
    0x28: to_address, 0x29: to_address}


def bytes_of(now: Before, then: Before) -> dict[int, int]:
    """The bytes of the steps of an instruction, by their codes."""
    if now.opcode in WORDS:
        return WORDS[now.opcode](now, then)
    port = now.bytes[1] if now.opcode in (IN, OUT) else now.opcode & 15
    named = {IDLE: port} if now.opcode not in (IN, OUT) and now.opcode >> 4 in (0xA, 0xB) and port > 1 else {}
    operand = dict.fromkeys((BRANCH, OPERAND), now.bytes[1])
    return {**operand, READ: now.memory, **dict.fromkeys((STORE, ADD, PORT_WRITE), now.a), PORT_READ: then.a, **named}


def told_cycles(now: Before, then: Before) -> Iterator[Cycle]:
    """The cycles of an instruction, up to the fetch of the one behind it."""
    if now.opcode == 0x2A:  # the high byte of the address is read twice, and then the low one
        yield from (Cycle(code, code in (0x11, 0x0E), now.bytes[at]) for code, at in ((0x11, 1), (0x03, 1), (0x0E, 2), (0x03, 2)))
    else:
        steps = STEPS[now.opcode] + ((TAKEN if now.is_taken else SKIPPED,) if now.opcode in BRANCHES else ())
        found = bytes_of(now, then)
        yield from (Cycle(code, is_long, found.get(code, 0)) for code, is_long, _ in steps)
    yield Cycle(FETCH, is_long_fetch(now.opcode), then.opcode)


def cycles_of(lines: Iterable[Before]) -> Iterator[Cycle]:
    """Reset and the cycles of all instructions but the last, of which the trace doesn't tell what comes of it."""
    now: Before | None = None
    for then in lines:
        if now is None:
            if then.address:
                raise Untold(f'line {then.line}: the trace begins at {then.address:04X}, and not at 0000 behind a reset')
            yield from (Cycle(IDLE, False, 0), Cycle(RESET, True, 0), Cycle(FETCH, False, then.opcode))
        else:
            check(now, then)
            yield from told_cycles(now, then)
        now = then
    if now is None:
        raise Untold('no line has the form that the commands of --commands give')


def check(now: Before, then: Before) -> None:
    """What hinders an instruction from being told."""
    if OPCODES[now.opcode].is_reserved:
        raise Untold(f'line {now.line}: the opcode {now.opcode:02X} belongs to no instruction')
    if now.next not in (None, then.address):
        raise Untold(f'line {then.line}: {then.address:04X} comes behind {now.instruction.text()} at {now.address:04X}, which leads to '
                     f'{now.next:04X}: an interrupt or a reset, of which no line tells')
