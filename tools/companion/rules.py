"""The checker's rules, as docs/CHECKER.md has them: when a state is refused at its point, where it leads, and when it is free of faults."""
from __future__ import annotations

from dataclasses import dataclass
from enum import IntEnum
from typing import Iterator, Optional, Sequence, Tuple

from companion.description import Chip, Kind
from companion.domain import FLAGS, Known, Lost, Part, Point, State, Unknown, Way, joined, start_point, start_state
from companion.effects import RULES, Data, K, PortUse, Q, Rule, Step, port_of
from companion.instructions import ADDRESSES, OPCODES, Flow, Instruction
from companion.memory import Memory, Sort


class Reason(IntEnum):
    """Why a state isn't safe at its point."""
    CODE_NOT_HELD_ONCE = 1
    CODE_IN_RAM = 2
    RESERVED = 3
    JUMP_LOST = 4
    RETURN_LOST = 5
    RETURN_UNSET = 6
    MAY_PART = 7
    RETURN_NOT_HELD_ONCE = 8
    BAD_PORT = 9
    VECTOR_LOST = 10
    MAY_BE_SHARED = 11
    BLURRED = 12


@dataclass(frozen=True)
class Refusal:
    """The first reason against a state at its point, with the parts that would have to be known, and the address or port that it is about."""
    point: Point
    state: State
    reason: Reason
    lost: tuple[Lost, ...] = ()
    address: int | None = None
    port: int | None = None

    def text(self) -> str:
        return f'refused {self.point.text()} {int(self.reason)}'


@dataclass(frozen=True)
class Code:
    """What stands at an address: an instruction, or the reason against it with the address of the byte that it is about."""
    instruction: Instruction | None = None
    reason: Reason | None = None
    address: int | None = None


def code_at(memory: Memory, at: int) -> Code:
    """The instruction at an address, where each byte of it is held by one chip alone and no store may change it."""
    found = bytearray()
    while not found or len(found) < OPCODES[found[0]].size:
        address = (at + len(found)) % ADDRESSES
        sort = memory.sort(address)
        if not sort.is_held_once:
            return Code(reason=Reason.CODE_NOT_HELD_ONCE, address=address)
        if sort is Sort.RAM:
            return Code(reason=Reason.CODE_IN_RAM, address=address)
        found.append(memory.byte(address))
        if OPCODES[found[0]].is_reserved:
            return Code(reason=Reason.RESERVED, address=address)
    return Code(Instruction(at, OPCODES[found[0]], bytes(found[1:])))


Exit = Tuple[int, Optional[int]]  # an address, with the return there


class Rules:
    """The rules for some chips, with the registers that are tracked."""

    def __init__(self, memory: Memory, tracked: Sequence[int] = ()):
        self.memory, self.tracked = memory, tuple(tracked)
        self.codes: dict[int, Code] = {}

    def start(self) -> tuple[Point, State]:
        return start_point(len(self.tracked)), start_state()

    def code(self, at: int) -> Code:
        if at not in self.codes:
            self.codes[at] = code_at(self.memory, at)
        return self.codes[at]

    def after(self, point: Point, state: State) -> Refusal | list[tuple[Point, State]]:
        """What is known at each point to which a state may lead, each point once, or why the state isn't safe."""
        code = self.code(point.at)
        if code.instruction is None:
            return Refusal(point, state, code.reason, address=code.address)
        step, rule = Step(self.memory, code.instruction, point, state), RULES[code.instruction.opcode.code]
        refused = next(filter(None, self.refusals_before(step, rule)), None)
        if refused:
            return refused
        rule.effect(step)
        return next(filter(None, self.refusals_after(step, rule)), None) or self.successors(step, rule)

    def refusals_before(self, step: Step, rule: Rule) -> Iterator[Refusal | None]:
        """The reasons by what holds before the instruction, in order."""
        flow = step.instruction.opcode.flow
        if flow in PAIRS or rule.sets_return:
            yield pair_lost(step, *PAIRS.get(flow, (Reason.RETURN_LOST, K)))
        if flow is Flow.RETURN or rule.gives_return:
            yield return_unset(step)
        if rule.data is not Data.NOT:
            yield may_part(step, rule.data)
        if rule.gives_return:
            yield return_not_held_once(step)
        if rule.port is not PortUse.NOT:
            yield bad_port(step, rule.port)

    def refusals_after(self, step: Step, rule: Rule) -> Iterator[Refusal | None]:
        """The reasons by what it leaves and writes, and by D0 before it."""
        if self.memory.has_written_vector and lets_interrupts_in(step, rule):
            yield Refusal(step.point, step.before, Reason.VECTOR_LOST, lost_of(step.parts, Part.ICB))
        if rule.data is not Data.NOT:
            yield may_be_shared(step)
        for register in self.tracked:
            yield blurred(step, register)

    def successors(self, step: Step, rule: Rule) -> list[tuple[Point, State]]:
        state = tuple(step.parts)
        tracked = tuple(None if isinstance(state[register], Unknown) else state[register] for register in self.tracked)
        interrupted = (*state[:Part.ICB], False, *state[Part.ICB + 1:])
        found: dict[Point, State] = {}
        for (at, back), is_interrupt in self.ways(step, rule):
            point, after = Point(at, back, tracked), interrupted if is_interrupt else state
            found[point] = joined(point, Way(step.point, found[point]), Way(step.point, after)) if point in found else after
        return list(found.items())

    def ways(self, step: Step, rule: Rule) -> Iterator[tuple[Exit, bool]]:
        """Where an instruction leads, and behind each way where an interrupt leads from there, whose return is the next address."""
        vectors = self.memory.vectors if lets_interrupts_in(step, rule) else ()
        for way in exits(step, rule):
            yield way, False
            for vector in vectors:
                yield (vector, way[0]), True

    def interrupting(self, origin: Point, state: State, point: Point) -> Chip | None:
        """The chip whose interrupt leads from a state to a point, where the instruction doesn't lead there by itself."""
        if point.at not in self.memory.vectors:
            return None
        instruction = self.code(origin.at).instruction
        found = exits(Step(self.memory, instruction, origin, state), RULES[instruction.opcode.code])
        if (point.at, point.ret) in found or point.ret not in [at for at, _ in found]:
            return None
        return next(chip for chip in self.memory.chips if point.at in chip.vectors)

    def is_fault_free(self, point: Point, state: State) -> bool:
        """Whether some chip answers where the instruction of a safe state reads at D0."""
        instruction = self.code(point.at).instruction
        if instruction is None or RULES[instruction.opcode.code].data not in (Data.READ, Data.COUNTER):
            return True
        at, alike = state[Part.D0], state[Part.P0] is True
        if isinstance(at, Unknown):
            return self.memory.held_everywhere and (alike or not self.memory.any(Kind.PSU))
        return self.memory.held(at, Kind.SMI) or self.memory.held(at, Kind.PSU) and alike


# ---- where an instruction leads

def lets_interrupts_in(step: Step, rule: Rule) -> bool:
    """Whether an interrupt may be taken at the end of an instruction, as far as is known after it."""
    return not rule.shields and step.parts[Part.ICB] is not False


def exits(step: Step, rule: Rule) -> list[Exit]:
    """Where an instruction leads. A branch that isn't known goes both ways, to its target first, and learns nothing from it."""
    instruction, back = step.instruction, step.point.ret
    flow = instruction.opcode.flow
    if flow is Flow.BRANCH:
        return [(at, back) for at in branched(step)]
    if flow in (Flow.CALL, Flow.CALL_K):
        return [(instruction.target if flow is Flow.CALL else step.pair(K), instruction.next)]
    if flow in (Flow.JUMP, Flow.JUMP_Q):
        return [(instruction.target if flow is Flow.JUMP else step.pair(Q), back)]
    if flow is Flow.RETURN:
        return [(back, back)]
    return [(instruction.next, step.pair(K) if rule.sets_return else back)]


def branched(step: Step) -> list[int]:
    taken, target, onward = is_taken(step), step.instruction.target, step.instruction.next
    return [target, onward] if isinstance(taken, Unknown) else [target if taken else onward]


def is_taken(step: Step) -> Known:
    """Whether a branch is taken: BR7 by ISAR, BT where a flag that it chooses is set, BF where none of them is."""
    if step.opcode == BR7:
        low = step.before[Part.ISAR_LOW]
        return low if isinstance(low, Unknown) else low != 7
    chosen = [step.before[part] for bit, part in enumerate(FLAGS) if step.opcode >> bit & 1]
    lost = next((flag for flag in chosen if isinstance(flag, Unknown)), False)
    some = True if True in chosen else lost
    return some if isinstance(some, Unknown) or step.opcode < BF else not some


BR7, BF = 0x8F, 0x90

# ---- reasons

def lost_of(state: Sequence[Known], *parts: Part) -> tuple[Lost, ...]:
    """Those of some parts that aren't known."""
    return tuple(Lost(part, state[part]) for part in parts if isinstance(state[part], Unknown))



PAIRS = {Flow.CALL_K: (Reason.JUMP_LOST, K), Flow.JUMP_Q: (Reason.JUMP_LOST, Q)}


def pair_lost(step: Step, reason: Reason, register: int) -> Refusal | None:
    """A byte of K or Q isn't known, by which the instruction goes."""
    lost = lost_of(step.before, Part(register), Part(register + 1))
    return Refusal(step.point, step.before, reason, lost) if lost else None


def return_unset(step: Step) -> Refusal | None:
    return Refusal(step.point, step.before, Reason.RETURN_UNSET) if step.point.ret is None else None


def may_part(step: Step, data: Data) -> Refusal | None:
    """A 3853's DC0 may be away from D0, or a 3851 whose DC0 may be away from it may answer."""
    memory, state = step.memory, step.before
    if memory.any(Kind.SMI) and state[Part.S0] is not True:
        return Refusal(step.point, state, Reason.MAY_PART, lost_of(state, Part.S0))
    if data is Data.STORE or not memory.any(Kind.PSU) or state[Part.P0] is True:
        return None
    own = state[Part.C]
    if isinstance(own, Unknown):
        return Refusal(step.point, state, Reason.MAY_PART, lost_of(state, Part.C, Part.P0))
    return Refusal(step.point, state, Reason.MAY_PART, lost_of(state, Part.P0), address=own) if memory.held(own, Kind.PSU) else None


def return_not_held_once(step: Step) -> Refusal | None:
    back = step.point.ret
    return Refusal(step.point, step.before, Reason.RETURN_NOT_HELD_ONCE, address=back) if not step.memory.sort(back).is_held_once else None


def bad_port(step: Step, use: PortUse) -> Refusal | None:
    port = port_of(step)
    bad = len(step.memory.readers(port)) != 1 if use is PortUse.IN else len(step.memory.takers(port)) >= 2
    return Refusal(step.point, step.before, Reason.BAD_PORT, port=port) if bad else None


def may_be_shared(step: Step) -> Refusal | None:
    at = step.before[Part.D0]
    if isinstance(at, Unknown):
        return Refusal(step.point, step.before, Reason.MAY_BE_SHARED, lost_of(step.before, Part.D0)) if step.memory.overlaps else None
    return Refusal(step.point, step.before, Reason.MAY_BE_SHARED, address=at) if step.memory.sort(at) is Sort.SHARED else None


def blurred(step: Step, register: int) -> Refusal | None:
    """A tracked register may be written, and with what isn't known, or whether it is the one."""
    for write in step.writes:
        value = [Lost(Part(register), write.value)] if isinstance(write.value, Unknown) else []
        lost = tuple(write.lost_digits() or value)
        if lost and write.may_reach(register):
            return Refusal(step.point, step.before, Reason.BLURRED, lost)
    return None
