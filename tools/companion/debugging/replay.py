"""One call of `debug`: a file of commands, and what each of them printed."""
from __future__ import annotations

import re
from collections import deque
from dataclasses import dataclass
from typing import Iterable

from companion.program import Program
from companion.words import Refused

MOST_BYTES = 65_536  # of a file of commands
MOST_STEP = 1_000_000  # instructions of a command
MOST_INSTRUCTIONS = 10_000_000  # of all commands of a file

REGS = re.compile(r'regs P=(\w{4}) P1=(\w{4}) D0=(\w{4}) D1=(\w{4}) A=(\w\w) IS=(\w\w) W=(\w\w)')
TOTAL = re.compile(r'total (\d+) instructions (\d+) phi')
SHOW_REGS = 'show regs'
SHOW_CHIPS = 'show chips'


@dataclass(frozen=True)
class State:
    """What `show regs` tells, between two instructions."""
    lines: tuple[str, ...]
    counters: dict[str, int]  # P, the address of the next instruction, P1, D0 and D1
    a: int
    isar: int
    status: int
    scratchpad: bytes
    instructions: int
    phi: int

    @classmethod
    def of(cls, lines: list[str]) -> State:
        regs, total = REGS.fullmatch(lines[0]), TOTAL.fullmatch(lines[5])
        counters = dict(zip(('P', 'P1', 'D0', 'D1'), (int(word, 16) for word in regs.groups()[:4])))
        scratchpad = b''.join(bytes.fromhex(line.partition(' ')[2]) for line in lines[1:5])
        return cls(tuple(lines), counters, int(regs[5], 16), int(regs[6], 8), int(regs[7], 16), scratchpad, int(total[1]), int(total[2]))

    @property
    def address(self) -> int:
        return self.counters['P']


@dataclass(frozen=True)
class Ran:
    """How a `step` or `run` ended."""
    count: int
    stop: str = ''
    is_break: bool = False

    @classmethod
    def of(cls, lines: list[str]) -> Ran:
        count, rest = int(lines[0].split()[1]), lines[1:]
        return cls(count, next((line for line in rest if line.startswith('stop ')), ''), 'break' in rest)


@dataclass(frozen=True)
class Returned:
    """Where a step back led, and whether that instruction met a break."""
    at: int
    is_break: bool = False

    @classmethod
    def of(cls, lines: list[str]) -> Returned:
        return cls(int(lines[0].split()[1]), 'break' in lines[1:])


def steps(count: int) -> list[str]:
    """The commands for a number of instructions, none of which asks for too many."""
    whole, rest = divmod(count, MOST_STEP)
    return [f'step {MOST_STEP}'] * whole + [f'step {rest}'] * (rest > 0)


def asked(commands: Iterable[str]) -> int:
    """How many instructions commands ask for, on and back."""
    return sum(int(command.split()[-1]) for command in commands if command.startswith(('step ', 'run ', 'back ')))


def text_of(commands: list[str]) -> bytes:
    return ''.join(command + '\n' for command in commands).encode()


def taken(command: str, lines: deque[str]) -> list[str]:
    """The lines of a command, from those that are left."""
    word = command.split()[0]
    if command == SHOW_REGS:
        return [lines.popleft() for _ in range(6)]
    if command == SHOW_CHIPS:
        found = []
        while not found or not found[-1].startswith('probe '):
            found.append(lines.popleft())
        return found
    if word in ('mem', 'power', 'stored'):
        return [lines.popleft()]
    if word not in ('step', 'run', 'back'):
        return []
    found = [lines.popleft()]
    if lines and (lines[0] == 'break' or lines[0].startswith('stop ')):
        found.append(lines.popleft())
    return found


def carry_out(program: Program, cart: str, commands: list[str]) -> list[list[str]]:
    """What each command printed. What the program refuses raises Fault, with its line."""
    text = text_of(commands)
    if len(text) > MOST_BYTES:
        raise Refused(f'the commands so far have {len(text):,} bytes, and the program takes {MOST_BYTES:,}: begin anew with `power`')
    if asked(commands) > MOST_INSTRUCTIONS:
        raise Refused(f'a replay has at most {MOST_INSTRUCTIONS:,} instructions, and {asked(commands):,} are needed')
    lines = deque(program.on_text('debug', text, cart).done().decode('ascii', 'replace').splitlines())
    try:
        return [taken(command, lines) for command in commands]
    except (IndexError, ValueError, TypeError) as error:
        raise Refused('the program answered in another form than docs/PROGRAM.md has') from error
