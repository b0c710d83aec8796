"""Which instructions a program reaches from its entries, and by which calls, as far as its bytes tell.

Branches, JMP and PI name where they lead.  PK and LR P0,Q lead to the address in K or Q, which is known where its halves
were loaded from LI or LIS on every way there.  A call is taken to come back behind itself, and that a POP leads elsewhere
isn't seen.  So what is told here helps to find a place, and shows nothing.
"""
from __future__ import annotations

import re
from collections import deque
from dataclasses import dataclass
from enum import Enum
from typing import Iterator

from companion.description import Description
from companion.instructions import ADDRESSES, Flow, Instruction, Operand, decoded

RESET = 0x0000
CALLS = (Flow.CALL, Flow.CALL_K)

# The bytes that are known at an address, by the names A, KU, KL, QU and QL.
Known = dict


class Sort(Enum):
    """How an instruction leads to another one."""
    NEAR = 'to the next one or by a branch'
    JUMP = 'by JMP or LR P0,Q'
    CALL = 'by PI or PK'
    BACK = 'by a PK that ends a routine'


@dataclass(frozen=True)
class Way:
    """A step from an instruction to one that may come next."""
    origin: int
    target: int
    sort: Sort = Sort.NEAR

    @property
    def is_call(self) -> bool:
        return self.sort is Sort.CALL


def known_behind(instruction: Instruction, known: Known) -> Known:
    """What is known behind an instruction: a number loaded into A, and the halves of K and Q that got one."""
    name, found = instruction.opcode.name, dict(known)
    loaded = re.fullmatch(r'LR ([KQ][UL]),A', name)
    if loaded:
        found[loaded[1]] = found.get('A')
    elif name == 'LI':
        found['A'] = instruction.operand[0]
    elif name.startswith('LIS '):
        found['A'] = instruction.opcode.code & 15
    elif re.fullmatch(r'LR A,[KQ][UL]', name):
        found['A'] = found.get(name[5:])
    elif name in ('LR K,P', 'LR Q,DC'):
        found.update(dict.fromkeys((name[3] + 'U', name[3] + 'L')))
    elif not re.match('LR [^A]|B|NOP|LIS[UL]', name):
        found['A'] = None
    return {key: value for key, value in found.items() if value is not None}


def address_in(known: Known, register: str) -> int | None:
    """The address in K or Q, where both halves are known."""
    high, low = known.get(register + 'U'), known.get(register + 'L')
    return None if high is None or low is None else high << 8 | low


def ways_from(instruction: Instruction, known: Known) -> Iterator[tuple[Way, Known]]:
    """Where the program may go on behind an instruction, and what is known there."""
    flow, at = instruction.opcode.flow, instruction.address
    target = {Flow.CALL_K: address_in(known, 'K'), Flow.JUMP_Q: address_in(known, 'Q')}.get(flow, instruction.target)
    behind = known_behind(instruction, known)
    if flow in (Flow.BRANCH, Flow.JUMP, Flow.JUMP_Q, *CALLS) and target is not None:
        is_far = flow is Flow.JUMP_Q or flow is Flow.JUMP and instruction.opcode.operand is Operand.ADDRESS
        yield Way(at, target, Sort.CALL if flow in CALLS else Sort.JUMP if is_far else Sort.NEAR), behind
    # A PK without a known K is taken for the way back of a routine that kept its return there.
    if flow in (Flow.NEXT, Flow.BRANCH) or flow in CALLS and target is not None:
        yield Way(at, instruction.next), {} if flow in CALLS else behind


class Reach:
    """What is reached from the entries: the instructions, and the ways between them."""

    def __init__(self, memory: dict[int, int], entries: list[int]):
        self.entries = entries
        self.instructions: dict[int, Instruction] = {}
        self.ways: dict[int, list[Way]] = {}
        known: dict[int, Known] = {entry: {} for entry in entries}
        todo = deque(entries)
        while todo:
            at = todo.popleft()
            instruction = decoded(memory, at)
            if instruction is None or not instruction.is_whole:
                continue
            self.instructions[at] = instruction
            ways = list(ways_from(instruction, known[at]))
            self.ways[at] = [way for way, _ in ways]
            for way, behind in ways:
                before = known.get(way.target)
                both = behind if before is None else dict(before.items() & behind.items())
                if before != both:
                    known[way.target] = both
                    todo.append(way.target)

    @classmethod
    def of(cls, description: Description) -> Reach:
        """From reset, and from the vectors of the chips that can ask for an interrupt."""
        vectors = [vector for chip in description.chips for vector in chip.vectors]
        memory = description.memory()
        return cls(memory, [RESET, *(vector for vector in dict.fromkeys(vectors) if vector in memory)])

    def before(self, back: int) -> Instruction | None:
        """The PI or PK behind which a return lies."""
        found = (self.instructions.get((back - size) % ADDRESSES) for size in (3, 1))
        return next((one for one in found if one and one.opcode.flow in CALLS and one.next == back), None)

    def path(self, address: int, start: int | None = None) -> list[Way] | None:
        """The jumps and the fewest calls by which an address is reached from an entry, or from a start; None where no way is known."""
        starts = self.entries if start is None else [start]
        came: dict[int, Way | None] = dict.fromkeys(starts)
        todo = deque(starts)
        seen: set[int] = set()
        while todo and address not in seen:
            at = todo.popleft()
            if at in seen:
                continue
            seen.add(at)
            for way in self.ways.get(at, []):
                if way.target not in came or way.target not in seen and not way.is_call:
                    came[way.target] = way
                    (todo.append if way.is_call else todo.appendleft)(way.target)
        if address not in came:
            return None
        found, at = [], address
        while way := came[at]:
            found += [way] * (way.sort is not Sort.NEAR)
            at = way.origin
        return found[::-1]

    def way_to(self, address: int, back: int | None = None) -> list[Way]:
        """A path to an address, where the return is known through the call behind which it lies; empty where no way is known."""
        call = self.before(back) if back is not None else None
        return (self.path_behind(call, address) if call else None) or self.path(address) or []

    def path_behind(self, call: Instruction, address: int) -> list[Way] | None:
        """The path to an address where the return is that of this PI or PK: through it, or back from the routine that it ends."""
        there = self.path(call.address)
        calls = [way for way in there or [] if way.is_call]
        known = next((way for way in self.ways.get(call.address, []) if way.is_call), None)
        if there is None or known is None and not calls:
            return None
        behind = self.path(address, known.target if known else self.instructions[calls[-1].origin].next)
        return None if behind is None else [*there, known or Way(call.address, address, Sort.BACK), *behind]
