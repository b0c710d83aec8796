"""Descriptions with traces of them that were worked out by hand, or that the pages show; and traces that the program prints."""
from __future__ import annotations

import re
import subprocess
from pathlib import Path

from tool import PROGRAM, TOP

from audited import steps
from companion.auditing.traces import line_of
from companion.description import Description
from companion.script import Script
from worked import LOOP_STEPS

PSU = 'format = 1\n[[chip]]\nkind = "3851"\nbase = {base}\nports = {ports}\nvector = {vector}\ninterrupt = {interrupt}\nrom = "{rom}"\n'


def psu(rom: str, base: int = 0, ports: int = 4, vector: int = 0, interrupt: bool = False) -> str:
    return PSU.format(rom=rom, base=base, ports=ports, vector=vector, interrupt=str(interrupt).lower())


def chips(*texts: str) -> str:
    """Descriptions of a chip each as one of all."""
    return texts[0] + ''.join(text.removeprefix('format = 1\n') for text in texts[1:])


LOOP, MISSING_PORT = psu('712B90FE'), psu('200FB4A42602')
TIMER = psu('73B6207FB7' + '2B' * 7 + '1B2B', vector=0x180, interrupt=True)
FIRST_OF_TWO = psu('71B6BA1B90FF' + 'FF' * (0x180 - 6) + '1B1C', vector=0x100, interrupt=True)
SECOND_OF_TWO = psu('', 0x400, 8, 0x200, True)
OWN_PORT = psu('A0B490FE')
# Of docs/INTERRUPTS, from a 3861.
ROUTINES = '1B1C' + 'FF' * 126 + '1B1C'  # at 0100 and 0180
PIO = 'format = 2\n[[chip]]\nkind = "3861"\nports = 8\nvector = 256\ninterrupt = true\n'
OF_PIO = chips(PIO, psu('71BA1B90FF' + 'FF' * 251 + ROUTINES))
# Controls that let in the timer and pulses in turn, and a key byte that goes to a data port.
BOTH_SORTS = psu('1B73B6207FB7A4B5' + '2B' * 8 + '71B6A4B590EC' + 'FF' * (0x100 - 22) + ROUTINES, vector=0x100, interrupt=True)
STEPS_1, PULSES = b'steps 1\n', b'at 1 pulse 1\nat 1 pulse 0\nsteps 2135\n'
OF_LOOP = LOOP_STEPS.splitlines()
OF_MISSING_PORT = '''bus 1C S 00 -
bus 08 L 00 cpu
bus 00 S 20 0
bus 03 L 0F 0
bus 00 S B4 0
bus 1C L 04 cpu
bus 1A L 0F cpu
bus 00 S A4 0
bus 1C L 04 cpu
bus 1B L 3F 0
bus 00 S 26 0
bus 03 L 02 0
bus 1B L -- fault'''.splitlines()
# Of docs/INTERRUPTS, a timeline.
OF_TIMER = '''1C S 00 -|08 L 00 cpu|00 S 73 0|00 S B6 0|1C L 06 cpu|1A L 03 cpu|00 S 20 0|03 L 7F 0|00 S B7 0
1C L 07 cpu|1A L 7F cpu|00 S 2B 0|00 S 2B 0|00 S 2B 0|00 S 2B 0|00 S 2B 0|00 S 2B 0|00 S 2B 0|00 S 1B 0|1C S 00 -|00 S 2B 0
10 L 00 -|1C S 00 -|0F L 00 0|13 L 01 0|00 S FF 0'''
OF_TIMER = [f'bus {line}' for line in OF_TIMER.replace('\n', '|').split('|')]
OF_OWN_PORT = '''bus 1C S 00 -
bus 08 L 00 cpu
bus 00 S A0 0
bus 1C S 00 -
bus 00 S B4 0
bus 1C L 04 cpu
bus 1A L 05 cpu
bus 00 S 90 0
bus 1C S 00 -
bus 01 L FE 0
bus 00 S B4 0'''.splitlines()
OF_RESERVED = ['bus 1C S 00 -', 'bus 08 L 00 cpu', 'bus 00 S 2D 0']
OF_NOTHING = ['bus 1C S 00 -', 'bus 08 L 00 cpu', 'bus 00 S -- fault']
CARTRIDGES = sorted(path for path in TOP.glob('cartridges/*/*.toml'))
PICTURE = re.compile(rb'(frame|[0-3] [0-3]{128})')


def changed(lines: list[str], number: int, line: str) -> list[str]:
    """Lines with that of a number, from 1, changed."""
    return [*lines[:number - 1], line, *lines[number:]]


def printed(cart: str, script: bytes) -> list[str]:
    """The steps of a run as `play --trace` would print them."""
    return list(map(line_of, steps(Description.of(cart.encode()), Script.of(script))))


def played(cart: Path, script: Path) -> bytes:
    """What `play --trace` prints, but for pictures."""
    done = subprocess.run([PROGRAM, 'play', '--trace', cart, script], cwd=TOP, capture_output=True, timeout=60)
    return b''.join(line for line in done.stdout.splitlines(True) if not PICTURE.match(line))
