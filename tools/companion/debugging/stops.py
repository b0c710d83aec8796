"""What ends a run: breaks, which are those of the program, and watches, for which each instruction is looked at."""
from __future__ import annotations

from dataclasses import dataclass
from enum import Enum
from typing import Callable

from companion.debugging.replay import SHOW_REGS, State
from companion.instructions import ADDRESSES

OWN_PORTS = {0xB0: 0, 0xB1: 1}
SHORT_OUTPUTS = range(0xB4, 0xC0)  # OUTS of the ports 4 to 15
LONG_OUTPUT = 0x27


@dataclass(frozen=True)
class Break:
    """A break of the program: the words behind `break`, and how it is told."""
    words: str
    name: str = ''  # the place by its label

    @property
    def commands(self) -> list[str]:
        return ['clear', f'break {self.words}']

    def told(self) -> str:
        return f'break {self.words}' + (f' ({self.name})' if self.name else '')


@dataclass(frozen=True)
class Sample:
    """What is known between two instructions: the registers, the bytes of memory by the commands that ask for them, and what ran."""
    state: State
    memory: dict[str, str]
    ran: int


class Watched(Enum):
    REGISTER = 'register'
    COUNTER = 'counter'
    SCRATCHPAD = 'scratchpad byte'
    MEMORY = 'byte of memory'
    PORT = 'port'


@dataclass(frozen=True)
class Watch:
    """A value, and a run ends behind an instruction that changes it; of a port, behind one that writes to it."""
    kind: Watched
    name: str  # as it is told
    number: int = 0  # of a register of the scratchpad, an address or a port
    code: Callable[[int], int | None] = lambda address: None  # the byte of ROM at an address, for ports

    @property
    def probes(self) -> list[str]:
        return [f'mem {self.number:04X} 1'] if self.kind is Watched.MEMORY else [SHOW_REGS]

    def value(self, sample: Sample) -> str:
        state = sample.state
        if self.kind is Watched.MEMORY:
            return sample.memory[self.probes[0]]
        if self.kind is Watched.SCRATCHPAD:
            return f'{state.scratchpad[self.number]:02X}'
        if self.kind is Watched.COUNTER:
            return f'{state.counters[self.name]:04X}'
        return {'A': f'{state.a:02X}', 'W': f'{state.status:02X}', 'IS': f'{state.isar:02o}'}[self.name]

    def is_met(self, before: Sample, after: Sample) -> bool:
        if self.kind is Watched.PORT:
            return self.port_written(before.state) == self.number
        return self.value(before) != self.value(after)

    def told(self, before: Sample, after: Sample) -> str:
        if self.kind is Watched.PORT:
            return f'{self.name} gets {before.state.a:02X}'
        return f'{self.name} {self.value(before)}>{self.value(after)}'

    def port_written(self, state: State) -> int | None:
        """The port to which the next instruction writes, as far as the bytes of the ROMs tell it."""
        opcode = self.code(state.address)
        if opcode == LONG_OUTPUT:
            return self.code((state.address + 1) % ADDRESSES)
        return opcode & 15 if opcode in SHORT_OUTPUTS else OWN_PORTS.get(opcode)
