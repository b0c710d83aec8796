"""Descriptions that worked rows have in common, and the lines behind a run."""
from __future__ import annotations

PSU = "[[chip]]\nkind = '3851'\nbase = {}\nports = {}\nrom = '{}'\n"
SOURCED = "format = 1\n[[chip]]\nkind = '3851'\nbase = 0\nports = 4\nsource = '{}'\n"
RAM = "[[chip]]\nkind = '3853'\nram_page = 0x28\nram_pages = 1\n"


def alone(rom: str) -> str:
    """A 3851 at 0000 and no other chip."""
    return 'format = 1\n' + PSU.format(0, 4, rom)


LOOP = alone('712B90FE')  # LIS 1; NOP; BR to the NOP
STEPS = 'steps 3\n'
READS = alone('2A00001690FE')  # DCI 0000; LM; BR to the LM
RESERVED = alone('2D')
KEYED = alone('200FB4A42602')  # LI 0F; OUTS 4; INS 4; IN of port 02, which no chip has
POPS = alone('1C') + PSU.format('0x400', 8, '')
# DCI 2800; XDC; DCI 0010 or 2801; XDC; LM
EXCHANGES = alone('2A28002C2A00102C16') + RAM
TURNS = '2A28002C2A28012C1690FF'


def ended(stop: str, registers: str, scratchpad: list[str], total: str) -> str:
    """The lines behind a run."""
    rows = ''.join(f's{number}0 {row}\n' for number, row in enumerate(scratchpad))
    return f'stop {stop}\nregs {registers}\n{rows}total {total} phi\n'


def alike(byte: str) -> list[str]:
    """A scratchpad of one byte."""
    return [' '.join([byte] * 16)] * 4


LOOP_END = ended('done', 'P=0001 P1=0000 D0=0000 D1=0000 A=01 IS=00 W=00', alike('00'), '3 instructions 36')
LOOP_STEPS = '''bus 1C S 00 -
bus 08 L 00 cpu
bus 00 S 71 0
bus 00 S 2B 0
bus 00 S 90 0
bus 1C S 00 -
bus 01 L FE 0
bus 00 S 2B 0
'''
