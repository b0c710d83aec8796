"""The bus steps of a run as `play --trace` tells them, taken together by instructions.

A *turn* is an instruction with its steps, from the fetch of its own opcode to before that of the next one.  The program
counts that last fetch to the instruction too; taken so, a turn can be read by itself.
"""
from __future__ import annotations

import re
from dataclasses import dataclass
from functools import cached_property, lru_cache
from typing import BinaryIO, Iterator

from companion.instructions import OPCODES, Instruction, signed

LINE = re.compile(rb'bus ([01][0-9A-F]) ([SL]) (?:([0-9A-F]{2}) (\S+)|-- fault)')
OTHER_LINES = re.compile(rb'\n(?!bus ).*')
FETCH_LINE = b'bus 00 '
OUT, FRAME = b'\nout ', b'\nframe '
BLOCK = 1 << 16
PHI = {False: 4, True: 6}  # the clocks of a short step and of a long one

FETCH, BRANCH, READ, OPERAND, STORE = 0x00, 0x01, 0x02, 0x03, 0x05
ADD, LOW_OF_PC0, LOW_OF_DC0, HIGH_OF_DC0, RELEASE = 0x0A, 0x0C, 0x0E, 0x11, 0x10
PORT_WRITE, PORT_READ = 0x1A, 0x1B
OPERANDS = (BRANCH, OPERAND, LOW_OF_PC0, LOW_OF_DC0, HIGH_OF_DC0)
# Codes by which no counter changes, and those by which all copies move alike.
STILL = frozenset({0x06, 0x07, 0x09, 0x0B, RELEASE, PORT_WRITE, PORT_READ, 0x1C, 0x1E, 0x1F})
MOVES_PC0 = frozenset({FETCH, BRANCH, OPERAND})
MOVES_DC0 = frozenset({READ, STORE, ADD})


@dataclass(frozen=True)
class Step:
    """A bus step as its line tells it. One that isn't served has neither byte nor driver."""
    code: int
    is_long: bool
    byte: int | None
    driver: str  # a socket, `cpu`, or `-`

    @property
    def phi(self) -> int:
        return PHI[self.is_long]

    @property
    def moves(self) -> int:
        """By how much all copies of a counter move, in a step that moves them alike."""
        if self.byte is None or self.code in STILL:
            return 0
        return signed(self.byte) if self.code in (BRANCH, ADD) else 1

    def told(self) -> str:
        byte = '--' if self.byte is None else f'{self.byte:02X}'
        return f'{self.code:02X} {"L" if self.is_long else "S"}  {byte}  {self.driver if self.byte is not None else "FAULT":<5}'


@lru_cache(maxsize=1 << 16)
def step_of(line: bytes) -> Step | None:
    """The bus step of a line, or None where it is another one."""
    match = LINE.fullmatch(line.rstrip(b'\r\n'))
    if not match:
        return None
    if match[3] is None:
        return Step(int(match[1], 16), match[2] == b'L', None, '')
    return Step(int(match[1], 16), match[2] == b'L', int(match[3], 16), match[4].decode('ascii', 'replace'))


@dataclass(frozen=True)
class Turn:
    """An instruction as it was carried out. The first step is the fetch of its opcode."""
    steps: tuple[Step, ...]

    @cached_property
    def opcode(self) -> int | None:
        """None where the fetch wasn't served."""
        return self.steps[0].byte if self.steps else None

    @cached_property
    def operand(self) -> bytes:
        size = OPCODES[self.opcode].operand.size if self.opcode is not None else 0
        codes = (HIGH_OF_DC0, LOW_OF_DC0) if self.opcode == 0x2A else OPERANDS
        return bytes(step.byte for step in self.steps[1:] if step.code in codes and step.byte is not None)[:size]

    @cached_property
    def phi(self) -> int:
        """The clocks of its steps behind the fetch of its opcode."""
        return sum(step.phi for step in self.steps[1:])

    @cached_property
    def fetch_phi(self) -> int:
        return self.steps[0].phi if self.steps else 0

    @cached_property
    def is_served(self) -> bool:
        return all(step.byte is not None for step in self.steps)

    @cached_property
    def is_interrupted(self) -> bool:
        """Whether an interrupt is taken at its end."""
        return any(step.code == RELEASE for step in self.steps)

    @cached_property
    def is_plain(self) -> bool:
        """Whether all copies of each counter move alike, so that none can part."""
        return self.is_served and all(step.code in STILL or step.code in MOVES_PC0 or step.code in MOVES_DC0 for step in self.steps)

    @cached_property
    def moves(self) -> tuple[int, int]:
        """By how much PC0 and DC0 move in a plain turn."""
        return (sum(step.moves for step in self.steps if step.code in MOVES_PC0),
                sum(step.moves for step in self.steps if step.code in MOVES_DC0))

    def byte(self, code: int) -> int:
        """The byte of the step with this code, which the turn has."""
        return next(step.byte for step in self.steps if step.code == code and step.byte is not None)

    def instruction(self, address: int) -> Instruction:
        return Instruction(address, OPCODES[self.opcode or 0], self.operand)


@lru_cache(maxsize=1 << 16)
def turn_of_lines(lines: bytes) -> Turn:
    return Turn(tuple(step for line in lines.split(b'\n') if (step := step_of(line))))


def turn_of(piece: bytes) -> Turn:
    """The turn of a piece. Lines of writes and pictures, each of which is another one, are left out before it is looked up."""
    if OUT in piece:
        before, _, behind = piece.partition(OUT)
        piece = before + b'\n' + behind.partition(b'\n')[2]
    return turn_of_lines(OTHER_LINES.sub(b'', piece) if FRAME in piece else piece)


def is_turn(piece: bytes) -> bool:
    """Whether a piece begins with the fetch of an opcode; what is before the first one doesn't."""
    return piece.startswith(FETCH_LINE)


def pieces(stream: BinaryIO) -> Iterator[bytes]:
    """The text of a traced run in pieces: what is before the first fetch, and then each from its fetch to before the next."""
    cut = b'\n' + FETCH_LINE
    rest, lead = b'', b''
    while block := (stream.read1(BLOCK) if hasattr(stream, 'read1') else stream.read(BLOCK)):
        *whole, rest = (rest + block).split(cut)
        for piece in whole:
            yield lead + piece + b'\n'
            lead = FETCH_LINE
    yield lead + rest
