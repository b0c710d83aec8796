"""Faults of traces: the line that is out of form, and the step that was due where a trace is rejected."""
from __future__ import annotations

from itertools import zip_longest
from typing import Iterator

from companion.auditing.arbitration import NOBODY
from companion.auditing.audits import Audit, audited
from companion.auditing.machine import Machine
from companion.auditing.traces import Trace, Unreadable, fault_in, line_of
from companion.bus import FETCH, PORT_READ, RELEASE, Step
from companion.description import Description
from companion.explaining.files import Files, Sort
from companion.page_tables import row_of_code
from companion.script import Script
from companion.words import Refused, waiting

NO_STEP = 'No line of it begins with `bus `: the steps of a run are printed by `play --trace`.'
OVER = 'So the run is over, and no step comes behind it.'
BESIDE = 28  # columns, to the steps of the trace
FAULTS = {'conflict': 'several chips drive or take', 'undriven': 'no chip drives', 'astray': 'a chip is away from the reference'}


# ---- lines out of form

def out_of_form(files: Files, line: str) -> list[str]:
    """The word of a line that is none of a trace."""
    shown, text = files.line('trace', int(line))
    if odd := files.looks_like('trace', Sort.TRACE, Sort.NOTHING):
        return [*shown, *odd]
    if not text.startswith('bus '):
        return shown
    column, said = fault_in(text)
    return [*files.line('trace', int(line), column)[0], said]


# ---- traces that are rejected

def rejected(files: Files, line: str) -> list[str]:
    """The place, and what was due there."""
    shown, _ = files.line('trace', int(line))
    if odd := files.looks_like('trace', Sort.TRACE, Sort.NOTHING):
        return [*shown, *odd]
    try:
        found = audit_of(files)
    except (Refused, Unreadable, OSError, ValueError):
        found = None
    if found is None:
        return [*shown, 'What was due there is told where the description, its bytes, the script and the trace are at hand.']
    if found.told() != f'reject line {line}':
        return [*shown, f'This tool finds another answer: {found.told()}. So it says nothing of what was due.']
    return [*shown, *due(files, found)] if found.trace.steps else [*shown[:1], NO_STEP]


def audit_of(files: Files) -> Audit | None:
    """The audit by the tool's own model of the chips."""
    script, trace = files.read('script'), files.read('trace')
    description = files.cartridge if any(chip.bytes for chip in files.cartridge.chips) else files.description
    if script is None or trace is None or not files.path('cart'):
        return None
    with waiting('explain', 'goes through the trace'):
        return audited(Machine(description, Script.of(script)), Trace.of(trace))


def due(files: Files, found: Audit) -> list[str]:
    """What stands next in the run that the trace dictates, beside what the trace has."""
    count = found.instructions
    behind = f'{count} instruction{" is" if count == 1 else "s are"} done as the trace has {"it" if count == 1 else "them"}. '
    name = files.labels.statement(found.instruction) if found.instruction else 'reset'
    if found.is_reserved:
        return [f'{behind}The next one would be {name}: its opcode belongs to no instruction. {OVER}']
    if not found.due:
        return [f'{behind}The step before is one of {name} that is not served. {OVER}']
    came = list(found.trace.steps[found.matched:found.matched + len(found.due)])
    at = next(at for at, (step, other) in enumerate(zip_longest(found.due, came)) if step != other)
    other = came[at] if at < len(came) else None
    where = f'line {found.trace.line(found.matched + at)}' if other else 'the trace ends'
    said = difference(found.due[at], other)
    rows = [f'    {"due":<{BESIDE}}in the trace', *beside(found, came, at)]
    return [f'{behind}The next steps are those of {name}:', *rows, f'In {where} {said}' if other else f'{where.capitalize()} before {said}',
            row_of_code(f'{found.due[at].code:02X}'), *hints(files.description, found, at, other)]


def beside(found: Audit, came: list[Step], at: int) -> Iterator[str]:
    """The steps due, and those of the trace with their lines, up to the first that differs."""
    for number, (step, other) in enumerate(zip_longest(found.due, came)):
        told = f'line {found.trace.line(found.matched + number)}  {line_of(other)}' if other else ''
        yield f'    {line_of(step):<{BESIDE}}{told}{"  <" * (number == at)}'.rstrip()
        if number == at:
            return


def difference(step: Step, other: Step | None) -> str:
    if other is None:
        return f'the step {line_of(step)[4:]}, and no run is broken off within an instruction.'
    if step.byte is None:
        return 'a step is served that can not be.'
    if other.byte is None:
        return 'a step is not served that is.'
    names = {'code': 'code', 'length': 'is_long', 'byte': 'byte', 'driver': 'driver'}
    parts = [name for name, part in names.items() if getattr(step, part) != getattr(other, part)]
    return f'{" and ".join(f"the {part}" for part in parts)} {"is" if len(parts) == 1 else "are"} another one.'


def hints(description: Description, found: Audit, at: int, other: Step | None) -> Iterator[str]:
    """What is usually behind it."""
    step = found.due[at]
    if step.byte is None and found.fault:
        yield f'By the bus rule {FAULTS[found.fault.value]} there ({found.fault.value}, docs/BUS.md).'
    if other is None:
        return
    if found.instruction is None:
        yield 'A trace begins with the three steps of reset, whose last one fetches the byte at 0000.'
    elif step.code == FETCH and other.code == RELEASE:
        yield ('No interrupt can be taken at the end of this instruction: ICB is clear, the instruction shields, or no chip can ask '
               '(docs/INTERRUPTS.md).')
    elif step.code == RELEASE and other.code == FETCH:
        yield 'A chip asks there and ICB is set, so the interrupt is taken, and the fetch waits.'
    elif step.code == PORT_READ and other.byte is not None:
        yield 'A port reads as the bits that were written to it and those of a key byte: no key byte takes away a bit that was written.'
    elif step.code == other.code and step.byte != other.byte:
        yield from hints_of_bytes(description, found, step)


def hints_of_bytes(description: Description, found: Audit, step: Step) -> Iterator[str]:
    """Where a byte that the trace has otherwise may come from."""
    if step.driver == NOBODY:
        yield 'A step that nobody drives has the byte 00.'
    elif found.has_read_own_ports:
        yield 'The program has read port 0 or 1: their key bytes come from the script alone, by lines `at F keys 00 HH`.'
    else:
        yield ('The bytes are those of the description, and what the run stored; registers and RAM begin with the power-on byte of the '
               'script.')
