"""What is wrong with a state that is refused, in words: a sentence for each of the twelve reasons, and what helps against it."""
from __future__ import annotations

from dataclasses import dataclass
from typing import Callable, Iterator

from companion.causes import Words
from companion.description import PULSE, Chip
from companion.domain import FACTS, Part
from companion.effects import RULES, Data
from companion.memory import Memory, Sort
from companion.rules import Reason, Refusal


@dataclass
class Explained:
    """A refusal with the words of its causes."""
    refusal: Refusal
    words: Words

    @property
    def memory(self) -> Memory:
        return self.words.search.rules.memory

    @property
    def statement(self) -> str:
        return self.words.statement(self.refusal.point.at)

    def lines(self) -> Iterator[str]:
        refusal = self.refusal
        yield self.words.place(refusal.point.at)
        calls = self.words.calls(refusal.point)
        if calls:
            yield 'By the calls and interrupts at:' if self.memory.vectors else 'By the calls at:'
            yield from self.words.places(calls)
        yield f'Reason {int(refusal.reason)}: {SENTENCES[refusal.reason](self)}'
        for lost in refusal.lost:
            yield from self.words.lost(lost)
        yield from self.helps()

    def helps(self) -> Iterator[str]:
        given = HELPS.get(self.refusal.reason, lambda _: '')(self)
        yield from filter(None, [given] if given else self.words.remedies(self.refusal.lost))

    def interrupting(self) -> Chip | None:
        """The chip whose interrupt led to the place."""
        origin = self.words.search.origins[self.refusal.point]
        return self.words.interrupting(origin, self.refusal.point) if origin else None

    # ---- the address or port that a reason is about

    def holders(self, at: int) -> str:
        """The chips that hold an address, in words."""
        chips = [f'chip {chip.number}' for chip in self.memory.chips if chip.holds(at)]
        return ' and '.join(chips) or 'no chip'

    def code(self) -> str:
        """A byte of code that isn't held by exactly one chip, or lies in RAM."""
        at = self.refusal.address
        own = 'its opcode' if at == self.refusal.point.at else 'a byte behind its opcode'
        held = 'holds' if ' and ' not in self.holders(at) else 'hold'
        ram = ' as RAM, and what a store may change is not followed' if self.memory.sort(at) is Sort.RAM else ''
        return f'{own}, at {at:04X}, is one that {self.holders(at)} {held}{ram}.'

    def jump(self) -> str:
        return f'{self.statement} goes to the address in {"K" if self.statement == "PK" else "Q"}, of which a byte is not known.'

    def return_held(self) -> str:
        back = self.refusal.address
        return f'{self.statement} needs the chip at the return {back:04X}, which {self.holders(back)} has.'

    def came(self) -> str:
        """How a place was reached that has no code, or none that counts."""
        origin = self.words.search.origins[self.refusal.point]
        if origin is None:
            return 'A program begins at 0000.'
        if chip := self.interrupting():
            cause = 'a pulse' if self.refusal.point.at & PULSE else 'its timer'
            return f'An interrupt of chip {chip.number} leads to it, by {cause}, as behind {self.words.place(origin.at)}.'
        return f'It is reached from {self.words.place(origin.at)}.'

    def handler(self) -> str:
        """What helps where an interrupt leads to no code."""
        return ('No list helps: both addresses of a vector need code in ROM, `EI` and `POP` at least, whatever the chip lets in; or leave out '
                'its `interrupt = true`.') if self.interrupting() else ''

    def written(self) -> str:
        """The chips that can interrupt, and whose vector ports write, in words."""
        return ' and '.join(f'chip {chip.number}' for chip in self.memory.chips if chip.interrupt and not chip.vectors)

    def ports(self) -> str:
        port = self.refusal.port
        chips = self.memory.readers(port) if self.statement.startswith('IN') else self.memory.takers(port)
        names = ' and '.join(f'chip {chip.number}' for chip in chips)
        if not self.statement.startswith('IN'):
            return f'{self.statement} writes to port {port:02X}, which {names} have.'
        return f'{self.statement} reads port {port:02X}, which is ' + (f'a data port of {names}.' if names else NO_DATA_PORT)

    def apart(self) -> str:
        """An access at D0 for which a chip may stand elsewhere."""
        own, which = self.refusal.address, 'a 3853' if any(lost.part is Part.S0 for lost in self.refusal.lost) else 'a 3851'
        does = {Data.STORE: 'stores at D0', Data.COUNTER: "needs a chip at D0 to give the bytes of it"}
        data = does.get(RULES[self.words.search.rules.code(self.refusal.point.at).instruction.opcode.code].data, 'reads at D0')
        d0 = self.refusal.state[Part.D0]
        at = f', which is {d0:04X}' if isinstance(d0, int) else ''
        where = f': that is known to stand at {own:04X}, which {self.holders(own)} holds' if own is not None else ''
        return f'{self.statement} {data}{at}, and {which} may have its own DC0 elsewhere{where}.'

    def shared(self) -> str:
        at = self.refusal.address
        where = f'is {at:04X}, which {self.holders(at)} hold' if at is not None else "isn't known, and several chips hold some addresses"
        return f'{self.statement} goes by D0, which {where}.'

    def blurred(self) -> str:
        if any(lost.part not in (Part.ISAR_HIGH, Part.ISAR_LOW) for lost in self.refusal.lost):
            register = next(lost.part for lost in self.refusal.lost)
            return f'{self.statement} writes r{int(register)}, which is tracked, with what is not known.'
        tracked = ', '.join(f'r{register}' for register in self.words.search.rules.tracked)
        return f'{self.statement} writes by an ISAR that is not known, and may reach a tracked register ({tracked}).'

    def isar_helps(self) -> str:
        if all(lost.part not in (Part.ISAR_HIGH, Part.ISAR_LOW) for lost in self.refusal.lost):
            return ''
        return ("ISAR itself can't be tracked. `LISU` and `LISL` before the write fix its digits; `LISU` directly behind `LR IS,A` pins the "
                'write to eight registers, of which none may be tracked.')


NO_DATA_PORT = 'the data port of no chip: the first two of the four ports of a 3851 or a 3861 are data ports, and a 3853 has none.'
SENTENCES: dict[Reason, Callable[[Explained], str]] = {
    Reason.CODE_NOT_HELD_ONCE: lambda told: told.code() + f' {told.came()}',
    Reason.CODE_IN_RAM: lambda told: told.code() + f' {told.came()}',
    Reason.RESERVED: lambda told: f'{told.memory.byte(told.refusal.point.at):02X} is the opcode of no instruction. {told.came()}',
    Reason.JUMP_LOST: Explained.jump,
    Reason.RETURN_LOST: lambda told: f"{told.statement} makes K the return, and a byte of K isn't known.",
    Reason.RETURN_UNSET: lambda told: f'{told.statement} needs the return, and no call has set it on the way from power-on. {told.came()}',
    Reason.MAY_PART: Explained.apart,
    Reason.RETURN_NOT_HELD_ONCE: Explained.return_held,
    Reason.BAD_PORT: Explained.ports,
    Reason.VECTOR_LOST: lambda told: f"{told.statement} may end with an interrupt: ICB may be 1, and the vector of {told.written()} isn't known.",
    Reason.MAY_BE_SHARED: Explained.shared,
    Reason.BLURRED: Explained.blurred,
}
HELPS: dict[Reason, Callable[[Explained], str]] = {
    Reason.CODE_NOT_HELD_ONCE: lambda told: told.handler() or 'No list helps: mend the address, or describe the chip that is missing.',
    Reason.CODE_IN_RAM: lambda told: told.handler() or 'No list helps: code has to lie in ROM.',
    Reason.RESERVED: lambda told: told.handler() or 'No list helps: put a branch before data, or bytes where the ROM has FF.',
    Reason.RETURN_UNSET: lambda told: 'No list helps: call by PI or PK on each way to it; where an interrupt leads, it has set the return.',
    Reason.RETURN_NOT_HELD_ONCE: lambda told: 'No list helps: a return has to lie in exactly one chip.',
    Reason.BAD_PORT: lambda told: "No list helps: mend the number, or the chip's `ports`.",
    Reason.VECTOR_LOST: lambda told: ('No list helps: ports write the vector of a 3853. Let a 3851 or a 3861 interrupt in its place, whose '
                                          'vector the description has; or leave out `EI`, or `interrupt = true`.'),
    Reason.BLURRED: Explained.isar_helps,
}
