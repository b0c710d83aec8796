"""The bus step that wasn't served: who drove it and who should have, and the steps before it."""
from __future__ import annotations

from collections import deque
from dataclasses import dataclass, field
from enum import Enum
from typing import BinaryIO, Iterator

from companion.bus import FETCH, PORT_READ, PORT_WRITE, STORE, Step, Turn, pieces, step_of, turn_of
from companion.counters import USED, Copies, Counter, Heard, Rack
from companion.description import Chip, Description, Holding
from companion.names import Names
from companion.program import Program
from companion.words import Progress

LAST_STEPS = 20
TOLD_EVERY = 1 << 13  # turns, between two looks at the clock


class Role(Enum):
    """What a chip does in the step: its class on the page."""
    RIGHT = 'right'  # drives or takes at the reference
    WRONG = 'wrong'  # drives or takes elsewhere, or beside another one
    MISSING = 'missing'  # has what the step is about, and keeps off the bus
    QUIET = 'quiet'


@dataclass(frozen=True)
class Shown:
    """A step with the instruction that it belongs to."""
    heard: Heard
    within: str


@dataclass
class Followed:
    """What is kept of a traced run: the steps at its end, that at which copies first parted, and the counters at the stop."""
    rack: Rack
    steps: deque[Shown] = field(default_factory=lambda: deque(maxlen=LAST_STEPS))
    first: Shown | None = None
    endings: list[str] = field(default_factory=list)

    @property
    def failed(self) -> Step | None:
        """The step that wasn't served, which is the last one."""
        return self.steps[-1].heard.step if self.steps and self.steps[-1].heard.step.byte is None else None


class Follower:
    """Follows a traced run. Turns before the last ones are followed without their lines, but for those in which copies may first part."""

    def __init__(self, rack: Rack, names: Names):
        self.found, self.names = Followed(rack), names
        self.address: int | None = None  # of the instruction that is under way, after reset's own steps
        self.turn: Turn | None = None

    def run(self, stream: BinaryIO, stop: str) -> Followed:
        held: deque[bytes] = deque()
        progress, rack = Progress('page'), self.found.rack
        for number, piece in enumerate(pieces(stream)):
            held.append(piece)
            if len(held) > LAST_STEPS + 2:
                self.pass_by(held.popleft())
            if number % TOLD_EVERY == 0:
                progress.tell(f'following {rack.steps:,} bus steps')
        progress.clear()
        for piece in held:
            self.hear(piece)
        rack.settle()
        self.found.endings = list(rack.ending(stop))
        return self.found

    def pass_by(self, piece: bytes) -> None:
        turn, rack = turn_of(piece), self.found.rack
        if rack.first is None and not turn.is_plain:
            self.hear(piece)
            return
        self.address, self.turn = rack.address, turn
        rack.follow(turn)

    def hear(self, piece: bytes) -> None:
        turn, rack = turn_of(piece), self.found.rack
        for step in filter(None, map(step_of, piece.splitlines())):
            address, parted = rack.address, rack.first
            shown = Shown(rack.hear(step), self.within())
            rack.name(shown.within)
            if parted is None and rack.first is not None:
                self.found.first = shown
            self.found.steps.append(shown)
            if step.code == FETCH and step.byte is not None:
                self.address, self.turn = address, turn

    def within(self) -> str:
        return self.names.statement(self.turn.instruction(self.address)) if self.turn and self.address is not None else 'reset'


def followed(program: Program, cart: str, script: str, description: Description, power: int, stop: str, names: Names) -> Followed:
    """The run once more, with its bus steps."""
    with program.started('play', '--trace', cart, script) as child:
        return Follower(Rack.of(description.chips, power), names).run(child.stdout, stop)


@dataclass(frozen=True)
class Part:
    """A chip's part in the step that wasn't served."""
    chip: Chip
    copies: Copies | None  # of a chip that has counters
    role: Role
    words: str


@dataclass
class Fault:
    """The step with the parts that all chips had in it."""
    stop: str
    step: Step
    counter: Counter | None
    reference: int | None  # its address, or the port
    rack: Rack
    chips: tuple[Chip, ...]

    @classmethod
    def of(cls, stop: str, found: Followed, description: Description) -> Fault | None:
        step = found.failed
        if step is None:
            return None
        counter = USED.get(step.code)
        reference = found.rack.reference.counters[counter] if counter is not None else found.rack.last_byte
        return cls(stop, step, counter, reference, found.rack, description.chips)

    @property
    def sort(self) -> str:
        return self.stop.split(' ')[1]

    @property
    def is_port(self) -> bool:
        return self.step.code in (PORT_READ, PORT_WRITE)

    @property
    def verb(self) -> str:
        return 'take' if self.step.code in (STORE, PORT_WRITE) else 'drive'

    def answers(self, chip: Chip, address: int) -> bool:
        """Whether a chip drives or takes where it stands at an address, or for a port."""
        if self.step.code == PORT_WRITE:
            return address in chip.ports
        if self.step.code == PORT_READ:
            return address in chip.data_ports
        holding = chip.holds(address)
        return holding is Holding.RAM if self.step.code == STORE else holding is not None

    def parts(self) -> Iterator[Part]:
        by_socket = {copies.socket: copies for copies in self.rack.chips}
        pairs = [(chip, by_socket.get(chip.socket)) for chip in self.chips]
        driving = sum(self.answers(chip, self.own(copies)) for chip, copies in pairs)
        for chip, copies in pairs:
            yield self.part(chip, copies, driving)

    def own(self, copies: Copies | None) -> int:
        """Where a chip stands. One without counters answers nowhere but for its ports, so the reference does for it."""
        return self.reference if self.counter is None or copies is None else copies.counters[self.counter]

    def part(self, chip: Chip, copies: Copies | None, driving: int) -> Part:
        own, reference, verb = self.own(copies), self.reference, self.verb
        has, hasnt = ('has RAM at', 'has no RAM at') if self.step.code == STORE else ('holds', "doesn't hold")
        drives, holds = self.answers(chip, own), self.answers(chip, reference)
        if self.is_port:
            sort = 'data port' if self.step.code == PORT_READ else 'port'
            words = f'has port {reference:02X}: {verb}s' if drives else f'no {sort} {reference:02X}'
            return Part(chip, copies, Role.QUIET if not drives else Role.WRONG if driving > 1 else Role.RIGHT, words)
        if drives and own == reference:
            return Part(chip, copies, Role.WRONG if driving > 1 else Role.RIGHT, f'{verb}s at {own:04X}, the reference')
        if drives:
            return Part(chip, copies, Role.WRONG, f'{verb}s at its own {own:04X}' + (f', and {has} {reference:04X} too' if holds else ''))
        if holds:
            return Part(chip, copies, Role.MISSING, f'{has} {reference:04X} and should {verb}, but is at {own:04X}')
        neither = f'{hasnt} {own:04X}' if own == reference else f'{has} neither {own:04X} nor {reference:04X}'
        return Part(chip, copies, Role.QUIET, f'keeps off the bus: {neither}')
