"""Audits of traces with their other lines, as the program prints them, and the first file at fault. Most traces are in test_auditing."""
from __future__ import annotations

import unittest

from tool import needs_program
from rooms import Rows
from worked import KEYED, LOOP, LOOP_END, LOOP_STEPS, POPS, RESERVED, STEPS, alike, ended

LOOP_TRACE = 'verdict whole\n' + LOOP_STEPS + LOOP_END
# POP behind reset.
POP_TRACE = 'bus 1C S 00 -\nbus 08 L 00 cpu\nbus 00 S 1C 0\nbus 04 S 00 -\nbus 00 S 1C 0\n'
# A key byte is read behind what the program wrote to its port, and then a port is read that no chip has.
KEYED_STEPS = '''verdict none
bus 1C S 00 -
bus 08 L 00 cpu
bus 00 S 20 0
bus 03 L 0F 0
bus 00 S B4 0
bus 1C L 04 cpu
bus 1A L 0F cpu
bus 00 S A4 0
out 40 04 0F
bus 1C L 04 cpu
bus 1B L {} 0
bus 00 S 26 0
bus 03 L 02 0
bus 1B L -- fault
'''
# The timer expires before EI ends, which shields its own end: the NOP behind it is followed by the vector.
TIMED = ("format = 1\n[[chip]]\nkind = '3851'\nbase = 0\nports = 4\nvector = 0x0180\ninterrupt = true\n"
         "rom = '73B6207FB72B2B2B2B2B2B2B1B2B'\n")
TIMED_TRACE = '''verdict none
bus 1C S 00 -
bus 08 L 00 cpu
bus 00 S 73 0
bus 00 S B6 0
bus 1C L 06 cpu
bus 1A L 03 cpu
bus 00 S 20 0
out 34 06 03
bus 03 L 7F 0
bus 00 S B7 0
bus 1C L 07 cpu
bus 1A L 7F cpu
bus 00 S 2B 0
out 60 07 7F
bus 00 S 2B 0
bus 00 S 2B 0
bus 00 S 2B 0
bus 00 S 2B 0
bus 00 S 2B 0
bus 00 S 2B 0
bus 00 S 1B 0
bus 1C S 00 -
bus 00 S 2B 0
bus 10 L 00 -
bus 1C S 00 -
bus 0F L 00 0
bus 13 L 01 0
bus 00 S FF 0
''' + ended('done', 'P=0100 P1=000E D0=0000 D1=0000 A=7F IS=00 W=00', alike('00'), '13 instructions 122')
# Two chips ask at one end: the first of the description is taken, and the second behind EI and POP at 0180.
WIRED = "[[chip]]\nkind = '3851'\nbase = {}\nports = {}\nvector = {}\ninterrupt = true\n{}\n"
PULSED = 'format = 1\n' + WIRED.format(0, 4, '0x0100', "source = 'loop.f8'") + WIRED.format('0x400', 8, '0x0200', "rom = ''")
PULSED_SOURCE = ' ORG $0000\n DB $71, $B6, $BA, $1B, $90, $FF\n ORG $0180\n DB $1B, $1C\n'
# Description, script, trace, the status, and the line.
ROWS = {
    'the whole record of a run': (LOOP, STEPS, LOOP_TRACE, 0, 'accept 3'),
    'a power-on byte by which the second chip drives nothing': (POPS, STEPS, POP_TRACE, 0, 'accept 1'),
    'one by which it drives too': (POPS, 'power 04\nsteps 3\n', POP_TRACE, 7, 'reject line 4'),
    'lines that are skipped': (LOOP, STEPS, 'a\nbus\nb\n', 7, 'reject line 4'),
    'the record of a fault': (KEYED, 'steps 1\n', KEYED_STEPS.format('3F') + 'stop undriven romc 1B at 0002\n', 0, 'accept 3'),
    'another key byte': (KEYED, 'steps 1\n', KEYED_STEPS.format('FF'), 0, 'accept 3'),
    'a bit missing that the port has': (KEYED, 'steps 1\n', KEYED_STEPS.format('30'), 7, 'reject line 11'),
    'a step behind a reserved opcode': (
        RESERVED, 'steps 1\n', 'bus 1C S 00 -\nbus 08 L 00 cpu\nbus 00 S 2D 0\nstop reserved 2D at 0000\nbus 00 S FF 0', 7,
        'reject line 5'),
    'a step behind one that is not served': (
        'format = 1\n', 'steps 1\n', 'bus 1C S 00 -\nbus 08 L 00 cpu\nbus 00 S -- fault\n\nbus 00 S -- fault\n', 7, 'reject line 5'),
    'an interrupt by the timer': (TIMED, 'steps 13\n', TIMED_TRACE, 0, 'accept 13'),
    'a code that is none': (LOOP, STEPS, 'bus 20 S 00 -\nbus 1C S 00 -\n', 2, 'error trace line 1'),
    # files in their order
    'an empty description': ('', None, None, 2, 'error cart key format cause 1'),
    'an empty script': (LOOP, '', None, 2, 'error script line 1 cause 6'),
    'a line at fault': (LOOP, STEPS, 'verdict\nbus 1C S 00\n', 2, 'error trace line 2'),
}


@needs_program
class Audits(Rows):
    def test_rows(self):
        for name, (*texts, status, line) in ROWS.items():
            files = {file: text for file, text in zip(('cart', 'script', 'trace'), texts) if text is not None}
            self.assert_rows({name: ('audit cart script trace', files, status, line + '\n')})

    def test_what_is_printed_of_two_pulses_by_a_script_that_has_none(self):
        files = {'cart': PULSED, 'loop.f8': PULSED_SOURCE}
        status, trace = self.answered('play --trace cart script', {**files, 'script': 'at 1 pulse 1\nat 1 pulse 0\nsteps 2135\n'})
        self.assertEqual(status, 0)
        self.assertEqual(self.answered('audit cart script trace', {**files, 'script': 'steps 1\n', 'trace': trace}), (0, 'accept 2135\n'))


if __name__ == '__main__':
    unittest.main()
