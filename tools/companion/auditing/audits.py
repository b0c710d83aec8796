"""Whether a trace can come from a cartridge: the run that it dictates, instruction by instruction (crates/bus_audit/README.md)."""
from __future__ import annotations

from dataclasses import dataclass, field
from typing import Callable, Sequence

from companion.auditing.arbitration import IDLE, VECTOR_LOW, Fault
from companion.auditing.machine import BRANCHES, IN, STEPS, Course, Machine
from companion.auditing.traces import Trace
from companion.bus import FETCH, RELEASE, Step, Turn
from companion.instructions import Instruction

OWN_PORTS = 2  # the ports 0 and 1 are the processor's own
OWN_READS = (0xA0, 0xA1)  # INS of them
MOST_STEPS = 9  # of an instruction with an interrupt
TO_A_VECTOR = [RELEASE, IDLE, VECTOR_LOW]
TOLD_EVERY = 1 << 12  # instructions, between two calls of those who wait


@dataclass
class Audit:
    """What was found: how many instructions are done, and how many steps of the trace they are together with reset.

    Where something of the trace is left: what was due in its place, of which instruction. Nothing is due where the run is over.
    """
    trace: Trace
    instructions: int = 0
    matched: int = 0
    due: list[Step] = field(default_factory=list)
    instruction: Instruction | None = None  # None in reset
    fault: Fault | None = None  # of the last step that is due, or the one by which the run is over
    is_reserved: bool = False  # the run is over at the opcode of the instruction
    has_read_own_ports: bool = False  # before that

    @property
    def is_accepted(self) -> bool:
        return 0 < len(self.trace.steps) == self.matched

    @property
    def line(self) -> int:
        """The line of the first step that is left, and the one behind the text where the trace has no step."""
        return self.trace.line(self.matched)

    @property
    def status(self) -> int:
        return 0 if self.is_accepted else 7

    def told(self) -> str:
        return f'accept {self.instructions}' if self.is_accepted else f'reject line {self.line}'

    def goes_on(self, course: Course, instruction: Callable[[list[Step]], Instruction] | None = None) -> bool:
        """Takes the steps of reset or an instruction from the trace where they stand next. A fault ends the run."""
        end = self.matched + len(course.steps)
        self.fault = course.fault
        stands = list(self.trace.steps[self.matched:end]) == course.steps
        if stands:
            self.matched = end
        else:
            self.due = course.steps
        if stands and not course.fault:
            return True
        self.instruction = instruction(course.steps) if instruction else None
        return False


def give_key(machine: Machine, rest: Sequence[Step]) -> None:
    """The key byte by which a port reads as the trace tells. That byte has every bit of the port's latch, and some chip has the port."""
    opcode = machine.opcode
    port = machine.operand() if opcode == IN else opcode & 15 if opcode >> 4 == 0xA else None
    told = rest[1].byte if len(rest) > 1 else None
    if port is None or port < OWN_PORTS or told is None:
        return
    for chip in machine.readers(port):
        if told & chip.latch(port) == chip.latch(port):
            chip.key(port, told)


def give_pulse(machine: Machine, rest: Sequence[Step]) -> None:
    """A pulse to the chip that gives the vector in the trace, where it can interrupt and lets pulses in."""
    before = len(STEPS[machine.opcode]) + (machine.opcode in BRANCHES)
    steps = rest[before:before + len(TO_A_VECTOR)]
    if [step.code for step in steps] != TO_A_VECTOR:
        return
    for chip in machine.chips:
        if str(chip.chip.socket) == steps[-1].driver and chip.chip.interrupt:
            chip.pulse()


def instruction_of(machine: Machine) -> Callable[[list[Step]], Instruction]:
    """The instruction that comes next, by the steps that it will have."""
    at, fetch = machine.address, Step(FETCH, False, machine.opcode, '')
    return lambda steps: Turn((fetch, *steps)).instruction(at)


def audited(machine: Machine, trace: Trace, tell: Callable[[int], None] = lambda steps: None) -> Audit:
    """The run that a trace dictates, from a machine at power-on, as far as its record is what stands next.

    No choice is there before reset: what it could be, a key byte, comes behind reset as well, which reads no port.
    """
    found = Audit(trace)
    if not found.goes_on(machine.reset()):
        return found
    while not machine.is_reserved:
        rest = trace.steps[found.matched:found.matched + MOST_STEPS]
        give_key(machine, rest)
        give_pulse(machine, rest)
        if found.instructions % TOLD_EVERY == 0:
            tell(found.matched)
        instruction, reads_own = instruction_of(machine), machine.opcode in OWN_READS
        if not found.goes_on(machine.instruction(), instruction):
            return found
        found.instructions += 1
        found.has_read_own_ports |= reads_own
    found.is_reserved, found.instruction = True, machine.next_instruction()
    return found
