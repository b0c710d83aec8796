"""What `audit` answers, worked out by other means than the program's: by the model of chips and processor in companion/auditing.

    python3 audited.py audit CART SCRIPT TRACE
    python3 audited.py trace CART SCRIPT

The first answers as the program does on files that are in order, so that a tool that calls it for `audit` alone can be tried where the
program isn't built. The second prints the steps of a run, as `play --trace` does, up to the end of the script in instructions. A
description whose chips have sources needs the program for their bytes.
"""
from __future__ import annotations

import sys
from pathlib import Path
from random import Random
from typing import Iterator

sys.path.insert(0, str(Path(__file__).resolve().parent.parent))  # where the package `companion` lies

from companion.auditing.audits import audited
from companion.auditing.machine import Machine
from companion.auditing.traces import MOST_BYTES, Trace, Unreadable, line_of
from companion.bus import Step
from companion.description import Description
from companion.processor import FRAME
from companion.script import End, EventKind, Script


def answer(description: Description, script: bytes, trace: bytes) -> tuple[str, int]:
    """The line of `audit` and its status."""
    if len(trace) > MOST_BYTES:
        return 'error long trace', 2
    try:
        found = audited(Machine(description, Script.of(script)), Trace.of(trace))
    except Unreadable as fault:
        return str(fault), 2
    return found.told(), found.status


def steps(description: Description, script: Script) -> Iterator[Step]:
    """The bus steps of a run by a script, with its key bytes and pulses."""
    machine = Machine(description, script)
    give(machine, script, 0)
    course = machine.reset()
    yield from course.steps
    while not course.fault and not is_over(machine, script) and not machine.is_reserved:
        before = machine.phi // FRAME
        course = machine.instruction()
        yield from course.steps
        if machine.phi // FRAME != before:
            give(machine, script, machine.phi // FRAME)


def free_run(description: Description, script: Script, random: Random, most: int) -> list[Step]:
    """The bus steps of a free run: key bytes of chips' ports and pulses come at random, before reset and at the ends of instructions."""
    machine = Machine(description, script)
    give_at_random(machine, random)
    found, fault = machine.reset()
    for _ in range(most):
        if fault or machine.is_reserved:
            break
        give_at_random(machine, random)
        course, fault = machine.instruction()
        found += course
    return found


def give_at_random(machine: Machine, random: Random) -> None:
    for chip in machine.chips:
        if chip.seat.data_ports and random.random() < 0.2:
            chip.key(random.choice(chip.seat.data_ports), random.randrange(256))
        if random.random() < 0.1:
            chip.pulse()


def is_over(machine: Machine, script: Script) -> bool:
    done = machine.cpu.instructions if script.end is End.STEPS else machine.phi // FRAME
    return done >= script.count


def give(machine: Machine, script: Script, frame: int) -> None:
    """The events of a frame, but for the processor's own keys."""
    for event in script.events:
        if event.frame == frame and event.kind is EventKind.PULSE and event.place < len(machine.chips):
            machine.chips[event.place].pulse()
        elif event.frame == frame and event.kind is EventKind.KEYS:
            for chip in machine.readers(event.place):
                chip.key(event.place, event.byte)


def altered(random: Random, lines: list[bytes]) -> tuple[str, list[bytes]]:
    """Lines of a trace with one change in a step: a byte, a bit, a code, a length, a driver, a fault, or a line left out or doubled."""
    at = random.choice([number for number, line in enumerate(lines) if line.startswith(b'bus ')])
    code, length, byte, driver = lines[at].split()[1:]
    is_served = byte != b'--'
    digits, flipped = b'%02X' % random.randrange(256), b'%02X' % (int(byte if is_served else b'00', 16) ^ 1 << random.randrange(8))
    who = random.choice((b'cpu', b'-', b'0', b'1', b'12', b'14'))
    what, words = random.choice([
        ('byte', (code, length, digits, driver if is_served else who)), ('bit', (code, length, flipped, driver if is_served else who)),
        ('code', (b'%02X' % random.randrange(32), length, byte, driver)),
        ('length', (code, b'L' if length == b'S' else b'S', byte, driver)),
        ('driver', (code, length, byte if is_served else digits, who)), ('fault', (code, length, b'--', b'fault')),
        ('out of form', (code, length, digits, b'16')), ('left out', None), ('doubled', (code, length, byte, driver))])
    found = [] if words is None else [b' '.join((b'bus', *words))]
    return f'{what} in line {at + 1}', [*lines[:at], *found, *lines[at + (what != 'doubled'):]]


def main(words: list[str]) -> int:
    if len(words) != {'audit': 4, 'trace': 3}.get(words[0] if words else '', 0):
        print('error words')
        return 1
    description, script = Description.of(Path(words[1]).read_bytes(), words[1]), Path(words[2]).read_bytes()
    if words[0] == 'trace':
        print(*map(line_of, steps(description, Script.of(script))), sep='\n')
        return 0
    line, status = answer(description, script, Path(words[3]).read_bytes())
    print(line)
    return status


if __name__ == '__main__':
    sys.exit(main(sys.argv[1:]))
