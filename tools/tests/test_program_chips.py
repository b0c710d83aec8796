"""Chips that are powered on as described, each by its place and not by its socket; and 3861s, without memory and counters."""
from __future__ import annotations

import unittest

from tool import needs_program
from rooms import Rows
from worked import PSU, SOURCED, TURNS, alike, ended

PIO = "[[chip]]\nkind = '3861'\nports = {}\n"


def described(*chips: str) -> str:
    return 'format = 2\n' + ''.join(chips)


def powered(keys: str, base: int | str, ports: int, rom: str) -> str:
    """A 3851 with keys in front of its ROM."""
    return PSU.format(base, ports, rom).replace('rom = ', f'{keys}rom = ')


def smi(pages: str, fill: str, more: str = '') -> str:
    return f"[[chip]]\nkind = '3853'\npages = [{pages}]\nfill = {fill}\n{more}"


# POP at once, to a stack register that was given.
POPS = described(powered('start = 0\n', 0, 4, '1C'), powered('start = 0\n', '0x400', 8, ''))
FILLED = described(PSU.format(0, 4, TURNS), smi("'ram 28'", '0x33'))
# The 3853 is described first, and sits behind the others. Of the last chip nothing is said.
ORDERED = described(smi("'ram 28', 'rom 20', 'void 30-31'", '0x33', "start = 0x1111\nrom = 'AA'\n"),
                    powered('start = 0x2222\n', 0, 4, '2A2800162A2801162B90FE'), PSU.format('0x400', 8, ''))
# Two RAMs, each with a byte of its own. They share a page.
SHARED = described(PSU.format(0, 4, '2A2800162A29001690FF'), smi("'ram 28', 'ram 29'", '0x11'), smi("'ram 29'", '0x22'))
AT_ORDERED = ended('done', 'P=0008 P1=0000 D0=2802 D1=0000 A=33 IS=32 W=00', alike('5A'), '4 instructions 82')
POWERS = {
    'a stack register that is given': (
        'play cart script', {'cart': POPS, 'script': 'power 12\nsteps 3\n'}, 0, 'verdict none\n' + ended(
            'done', 'P=0000 P1=0000 D0=0000 D1=0000 A=12 IS=22 W=00', alike('12'), '3 instructions 38')),
    'a byte of RAM that is given': (
        'play cart script', {'cart': FILLED, 'script': 'power 5A\nsteps 6\n'}, 0, 'verdict whole\n' + ended(
            'done', 'P=0009 P1=0000 D0=2801 D1=2801 A=33 IS=32 W=00', alike('5A'), '6 instructions 102')),
    'a 3853 that is described first': (
        'play cart script', {'cart': ORDERED, 'script': 'power 5A\nsteps 4\n'}, 0, 'verdict whole\n' + AT_ORDERED),
    'the same on the flat machine': ('ref cart script', {'cart': ORDERED, 'script': 'power 5A\nsteps 4\n'}, 0, AT_ORDERED),
    'the same in the debugger, also over a second power': (
        'debug cart commands', {'cart': ORDERED, 'commands': 'show chips\nmem 28FF 2\npower 5A\nshow chips\nmem 28FF 2\n'}, 0,
        '''chip 0 3851 PC0=0001 PC1=2222 DC0=2222
chip 1 3851 PC0=0001 PC1=0001 DC0=0001
chip 12 3853 PC0=0001 PC1=1111 DC0=1111 DC1=1111
probe PC0=0001 PC1=0000 DC0=0000 DC1=0000
mem 28FF 33 --
ready
chip 0 3851 PC0=0001 PC1=2222 DC0=2222
chip 1 3851 PC0=0001 PC1=5A5B DC0=5A5B
chip 12 3853 PC0=0001 PC1=1111 DC0=1111 DC1=1111
probe PC0=0001 PC1=0000 DC0=0000 DC1=0000
mem 28FF 33 --
'''),
    'a page of two RAMs': (
        'play cart script', {'cart': SHARED, 'script': 'power 5A\nsteps 9\n'}, 3, 'verdict none\n' + ended(
            'conflict romc 02 socket 12 at 2900 socket 13 at 2900', 'P=0007 P1=0000 D0=2900 D1=0000 A=11 IS=32 W=00', alike('5A'),
            '3 instructions 72')),
    'the same on the flat machine, which reads FF': (
        'ref cart script', {'cart': SHARED, 'script': 'power 5A\nsteps 9\n'}, 0, ended(
            'done', 'P=0008 P1=0000 D0=2901 D1=0000 A=FF IS=32 W=00', alike('5A'), '9 instructions 152')),
}
# LI 0F; OUTS 8; INS 8; BR to itself
HAS_THE_PORT, SHARES_THE_PORT = (described(PSU.format(0, ports, '200FB8A890FF'), PIO.format(8)) for ports in (4, 8))
KEYS = 'at 0 keys 08 30\nsteps 3\n'
TURNING = described(PSU.format(0, 4, '2B90FE'), PIO.format(8))  # NOP; BR to it
# The 3861 is described first. Its vector leads to EI and POP.
CALLED = SOURCED.format('loop.f8').replace('format = 1\n', described(PIO.format(8), 'vector = 0x0100\ninterrupt = true\n'))
ROUTINES = ' ORG 0\n DB $71,$BA,$1B,$90,$FF\n ORG $100\n DB $1B,$1C\n ORG $180\n DB $1B,$1C\n'
# A pulse comes at the end of a branch at phi 29,834, the 2,131st instruction. In the branch behind it the 3861 alone drives both halves of
# its vector, of which a pulse sets bit 7.
PULSED_END = '''bus 1C S 00 -
bus 01 L FF 0
bus 10 L 00 -
bus 1C S 00 -
bus 0F L 80 14
bus 13 L 01 14
bus 00 S 1B 0
''' + ended('done', 'P=0180 P1=0003 D0=0000 D1=0000 A=01 IS=00 W=00', alike('00'), '2132 instructions 29870')
# All chips that the rack takes. Two drive the byte that LM reads: the 3853 in socket 12 at 2800, by its first data counter, and the 3851 in
# socket 0, which has one data counter and is at 0010.
WHOLE_RACK = described(
    SOURCED.format('text').replace('format = 1\n', ''),
    *(PSU.format(1024 * page, ports, '') for page, ports in zip((1, 2, 3, 4, 5, 6, 7, 8, 9, 12, 13), (8, *range(16, 56, 4)))),
    *(f"[[chip]]\nkind = '3853'\npages = ['ram {pages}']\n" for pages in ('28-2B', '2C-2F')), PIO.format(56), PIO.format(60))
CONFLICT_TRACE = '''verdict none
bus 1C S 00 -
bus 08 L 00 cpu
bus 00 S 2A 0
bus 11 L 28 0
bus 03 S 28 0
bus 0E L 00 0
bus 03 S 00 0
bus 00 S 2C 0
bus 1D S 00 -
bus 00 S 2A 0
bus 11 L 00 0
bus 03 S 00 0
bus 0E L 10 0
bus 03 S 10 0
bus 00 S 2C 0
bus 1D S 00 -
bus 00 S 16 0
bus 02 L -- fault
''' + ended('conflict romc 02 socket 0 at 0010 socket 12 at 2800', 'P=0008 P1=0000 D0=2800 D1=0010 A=00 IS=00 W=00', alike('00'),
          '4 instructions 78')
WHOLE = {
    'the first fault on all sockets': (
        'play --trace cart script', {
            'cart': WHOLE_RACK, 'text': ' DCI $2800\n XDC\n DCI $0010\n XDC\n LM\n', 'script': 'power 00\nsteps 9\n'}, 3,
        CONFLICT_TRACE),
}
PARALLEL = {
    'a port that a 3861 has': (
        'play cart script', {'cart': HAS_THE_PORT, 'script': KEYS}, 0, 'verdict whole\nout 40 08 0F\n' + ended(
            'done', 'P=0004 P1=0000 D0=0000 D1=0000 A=3F IS=00 W=01', alike('00'), '3 instructions 56')),
    'its verdict': ('check cart', {'cart': HAS_THE_PORT}, 0, 'whole 4\n'),
    'a port that both chips have': (
        'play cart script', {'cart': SHARES_THE_PORT, 'script': KEYS}, 3, 'verdict none\n' + ended(
            'conflict romc 1A socket 0 at 0008 socket 14 at 0008', 'P=0002 P1=0000 D0=0000 D1=0000 A=0F IS=00 W=00', alike('00'),
            '1 instructions 24')),
    'its refusal': ('check cart', {'cart': SHARES_THE_PORT}, 7, 'refused 0002 ---- . 9\n'),
    'a pulse': (
        'play cart script', {'cart': CALLED, 'loop.f8': ROUTINES, 'script': 'at 1 pulse 0\nframes 2\n'}, 0,
        'verdict whole\nout 34 0A 01\n' + ended(
            'done', 'P=0003 P1=0003 D0=0000 D1=0000 A=01 IS=00 W=10', alike('00'), '4261 instructions 59664')),
    'the verdict on its routines': ('check cart', {'cart': CALLED, 'loop.f8': ROUTINES}, 0, 'whole 9\n'),
    'one alone, which holds no address': (
        'play cart script', {'cart': described(PIO.format(8)), 'script': 'steps 1\n'}, 3, 'verdict none\n' + ended(
            'undriven romc 00 at 0000', 'P=0000 P1=0000 D0=0000 D1=0000 A=00 IS=00 W=00', alike('00'), '0 instructions 0')),
    'what the debugger shows of one': (
        'debug cart commands', {'cart': TURNING, 'commands': 'break apart\nrun 4\nshow chips\n'}, 0,
        'ran 4\nchip 0 3851 PC0=0001 PC1=0000 DC0=0000\nchip 14 3861\nprobe PC0=0001 PC1=0000 DC0=0000 DC1=0000\n'),
    'a 3851 that is apart, by its stack register': (
        'debug cart commands', {'cart': TURNING, 'commands': 'power 04\nbreak apart\nrun 4\n'}, 0, 'ready\nran 1\nbreak\n'),
}


@needs_program
class Chips(Rows):
    def test_powers(self):
        self.assert_rows(POWERS)

    def test_parallel_ports(self):
        self.assert_rows(PARALLEL)

    def test_a_whole_rack(self):
        self.assert_rows(WHOLE)

    def test_the_trace_of_a_pulse(self):
        files = {'cart': CALLED, 'loop.f8': ROUTINES, 'script': 'at 1 pulse 0\nsteps 2132\n'}
        status, text = self.answered('play --trace cart script', files)
        self.assertEqual((status, text[-len(PULSED_END):]), (0, PULSED_END))


if __name__ == '__main__':
    unittest.main()
