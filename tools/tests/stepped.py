"""What the debugger's steps back are to print, worked out by fresh sessions: one that is given the power-on byte, the key bytes, pulses and
single instructions that are kept, and the breaks, stands for one that went further and came back."""
from __future__ import annotations

from dataclasses import dataclass, field
from typing import Callable

from companion.debugging.replay import SHOW_REGS, Ran, State, carry_out
from companion.description import Description, Holding
from companion.program import Program

STEP = 'step 1'
STORE = 'break romc 05'


@dataclass
class Fresh:
    """What a session has come to, and what its commands print."""
    program: Program
    cart: str
    description: Description
    fill: str = '00'
    done: list[str] = field(default_factory=list)  # key bytes, pulses and single instructions since power-on
    is_stopped: bool = False
    breaks: dict[str, str] = field(default_factory=dict)  # by their kinds
    pending: list[str] = field(default_factory=list)
    printed: list[str] = field(default_factory=list)

    @property
    def count(self) -> int:
        return self.done.count(STEP)

    # ---- commands

    def give(self, command: str) -> None:
        words = command.split()
        if words[0] == 'stored':
            self.flush()
            self.printed.append(f'stored {self.last(self.stores(int(words[1], 16)), range(1, self.count + 1)) or "none"}')
        elif words[0] == 'back':
            self.flush()
            self.back(int(words[-1]), words[1] == 'run')
        else:
            self.pending.append(command)

    def back(self, count: int, runs: bool) -> None:
        place = max(self.count - count, 0)
        met = self.last(self.met(), range(max(place, 1), self.count)) if runs else None
        self.printed += [f'at {place if met is None else met}', *['break'] * (met is not None)]
        self.go_to(place if met is None else met)

    def go_to(self, place: int) -> None:
        """Drops what came behind an instruction, and a stop, unless reset has stopped the session."""
        ends = [0, *(at for at, entry in enumerate(self.done, 1) if entry == STEP)]
        self.is_stopped = self.is_stopped and self.resets_badly()
        del self.done[ends[place]:]

    # ---- sessions

    def session(self, commands: list[str]) -> list[list[str]]:
        return carry_out(self.program, self.cart, commands)

    def resets_badly(self) -> bool:
        return self.session([f'power {self.fill}'])[0][0] != 'ready'

    def flush(self) -> None:
        """Carries out the commands that are due in a fresh session."""
        before = [f'power {self.fill}', *self.done, *self.breaks.values(), *[STEP] * self.is_stopped]
        lines = self.session([*before, *self.pending])
        self.is_stopped = self.is_stopped or lines[0][0] != 'ready'
        for command, told in zip(self.pending, lines[len(before):]):
            self.printed += told
            self.note(command, told)
        self.pending = []

    def note(self, command: str, told: list[str]) -> None:
        """What a command made of the session, by what it printed."""
        words = command.split()
        if words[0] == 'power':
            self.fill, self.done, self.is_stopped = words[1], [], told[0] != 'ready'
        elif words[0] in ('step', 'run'):
            ran = Ran.of(told)
            self.done += [STEP] * ran.count
            self.is_stopped = bool(ran.stop)
        elif words[0] in ('keys', 'pulse'):
            self.done += [command] * (not self.is_stopped)
        elif words[0] == 'break':
            self.breaks[words[1]] = command
        elif words[0] == 'clear':
            self.breaks = {}

    # ---- instructions that are done, counted from 1

    def last(self, found: list[bool], numbers: range) -> int | None:
        return next((number for number in reversed(numbers) if found[number - 1]), None)

    def each(self, breaks: list[str], is_so: Callable[[State, Ran], bool]) -> list[bool]:
        """Each instruction by the state before it, and by what came of it where these breaks are set."""
        commands = [f'power {self.fill}', *breaks]
        for entry in self.done:
            commands += [SHOW_REGS, 'run 1'] if entry == STEP else [entry]
        told = list(zip(commands, self.session(commands)))
        return [is_so(State.of(shown), Ran.of(ran)) for (_, shown), (command, ran) in zip(told, told[1:]) if command == 'run 1']

    def met(self) -> list[bool]:
        return self.each(list(self.breaks.values()), lambda state, ran: ran.is_break)

    def stores(self, address: int) -> list[bool]:
        """Whether an instruction had the step 05 at this address, where a chip has RAM."""
        takes = any(chip.holds(address) is Holding.RAM for chip in self.description.chips)
        return self.each([STORE], lambda state, ran: takes and ran.is_break and state.counters['D0'] == address)

    def stored_at(self) -> list[int]:
        """The addresses at which its instructions had the step 05."""
        at: list[int] = []
        self.each([STORE], lambda state, ran: bool(at.append(state.counters['D0'])) if ran.is_break else False)
        return at
