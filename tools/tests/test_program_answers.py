"""What the program answers to its commands: runs, also with interrupts, verdicts, a session, texts, generated cartridges and migrated
descriptions, to the byte."""
from __future__ import annotations

import unittest

from tool import needs_program
from rooms import Rows
from test_program_audits import PULSED, PULSED_SOURCE, TIMED, TIMED_TRACE
from worked import EXCHANGES, KEYED, LOOP, LOOP_END, LOOP_STEPS, POPS, RAM, READS, SOURCED, STEPS, TURNS, alike, alone, ended

CONFLICT = 'conflict romc 02 socket 0 at 0010 socket 12 at 2800'
WAITS = alone('90FF')  # BR to itself
ROWS = {
    'a run': ('play cart script', {'cart': LOOP, 'script': STEPS}, 0, 'verdict whole\n' + LOOP_END),
    'a run with its trace': ('play cart --trace script', {'cart': LOOP, 'script': STEPS}, 0, 'verdict whole\n' + LOOP_STEPS + LOOP_END),
    'a key byte that is read and written back, and a port that no chip has': (
        'play cart script', {'cart': KEYED, 'script': 'at 0 keys 04 30\nsteps 4\n'}, 3, 'verdict none\nout 40 04 0F\n' + ended(
            'undriven romc 1B at 0002', 'P=0004 P1=0000 D0=0000 D1=0000 A=3F IS=00 W=01', alike('00'), '3 instructions 56')),
    'a read that two chips answer': (
        'play cart script', {'cart': EXCHANGES, 'script': 'steps 9\n'}, 3, 'verdict none\n' + ended(
            CONFLICT, 'P=0008 P1=0000 D0=2800 D1=0010 A=00 IS=00 W=00', alike('00'), '4 instructions 78')),
    'no chip, by a description without an end of line': (
        'play cart script', {'cart': 'format = 1', 'script': 'steps 1\n'}, 3, 'verdict none\n' + ended(
            'undriven romc 00 at 0000', 'P=0000 P1=0000 D0=0000 D1=0000 A=00 IS=00 W=00', alike('00'), '0 instructions 0')),
    'a power-on byte': ('play cart script', {'cart': LOOP, 'script': 'power 00\nsteps 3\n'}, 0, 'verdict whole\n' + LOOP_END),
    'a power-on byte that RAM has': (
        'play cart script', {'cart': alone(TURNS) + RAM, 'script': 'power 5A\nsteps 6\n'}, 0, 'verdict whole\n' + ended(
            'done', 'P=0009 P1=0000 D0=2801 D1=2801 A=5A IS=32 W=00', alike('5A'), '6 instructions 102')),
    'a power-on byte by which the second chip is elsewhere': (
        'play cart script', {'cart': POPS, 'script': 'power 04\nsteps 3\n'}, 3, 'verdict none\n' + ended(
            'astray romc 00 socket 1 at 0405 reference 0000', 'P=0000 P1=0000 D0=0000 D1=0000 A=04 IS=04 W=00', alike('04'),
            '0 instructions 14')),
    'a source on the flat machine': (
        'ref cart script', {'cart': SOURCED.format('loop.f8'), 'loop.f8': ' LIS 1\nLOOP: NOP\n BR LOOP\n', 'script': STEPS}, 0, LOOP_END),
    'a whole verdict': ('check cart', {'cart': LOOP}, 0, 'whole 3\n'),
    'an agreed verdict': ('check cart', {'cart': READS}, 0, 'agreed 3\n'),
    'a refused cartridge': ('check cart', {'cart': EXCHANGES}, 7, 'refused 0008 ---- . 7\n'),
    'a session that goes back and looks at memory': (
        'debug cart commands', {'cart': LOOP, 'commands': 'break at 0002\nrun 9\nback 1\nmem 0000 4\n'}, 0,
        'ran 2\nbreak\nat 1\nmem 0000 71 2B 90 FE\n'),
    'a migrated description': (
        'migrate cart', {'cart': WAITS}, 0, 'format = 2\n\n[[chip]]\nbase = 0\nkind = "3851"\nports = 4\nrom = "90FF"\n'),
    'an assembly text': ('asm loop.f8', {'loop.f8': 'LOOP: NOP\nBR LOOP\n'}, 0, '0000 2B90FE\nsym LOOP 0\n'),
    'digits': ('dis -- bytes', {'bytes': '71 2D\n20'}, 0, 'ORG $0000\nLIS 1\nDB $2D\nDB $20\n'),
}
TWO_PULSES = {'cart': PULSED, 'loop.f8': PULSED_SOURCE, 'script': 'at 1 pulse 1\nat 1 pulse 0\nsteps 2135\n'}
PULSED_END = ended('done', 'P=0280 P1=0004 D0=0000 D1=0000 A=01 IS=00 W=00', alike('00'), '2135 instructions 29924')
# The last four instructions: a branch, EI and POP of the first chip's vector, and the same branch once more.
PULSED_STEPS = '''bus 1C S 00 -
bus 01 L FF 0
bus 10 L 00 -
bus 1C S 00 -
bus 0F L 80 0
bus 13 L 01 0
bus 00 S 1B 0
bus 1C S 00 -
bus 00 S 1C 0
bus 04 S 00 -
bus 00 S 90 0
bus 1C S 00 -
bus 01 L FF 0
bus 10 L 00 -
bus 1C S 00 -
bus 0F L 80 1
bus 13 L 02 1
bus 00 S FF 0
'''
INTERRUPTS = {
    'that of a timer': (
        'play cart script', {'cart': TIMED, 'script': 'steps 13\n'}, 0, 'verdict none\nout 34 06 03\nout 60 07 7F\n' + ended(
            'done', 'P=0100 P1=000E D0=0000 D1=0000 A=7F IS=00 W=00', alike('00'), '13 instructions 122')),
    'its trace': ('play --trace cart script', {'cart': TIMED, 'script': 'steps 13\n'}, 0, TIMED_TRACE),
    'those of two pulses at one frame': (
        'play cart script', TWO_PULSES, 0, 'verdict none\nout 34 06 01\nout 50 0A 01\n' + PULSED_END),
}


def generated(number: int, sums: str) -> tuple[str, dict[str, str], int, str]:
    return f'gen {number}', {}, 0, f'gen {number}\nverdict whole\nstop done\n{sums}'


GENERATED = {
    'the cartridge of 0': generated(0, 'total 352240 instructions 1789800 phi\nwrites 20661 sum 1390761\nscratch 312\n'),
    'that of 1': generated(1, 'total 352203 instructions 1789800 phi\nwrites 21121 sum 1542497\nscratch 207\n'),
    'that of 2': generated(2, 'total 348157 instructions 1789800 phi\nwrites 21874 sum 1537277\nscratch 107\n'),
    'that of the greatest number': generated(
        4_294_967_295, 'total 352272 instructions 1789802 phi\nwrites 20833 sum 1520005\nscratch 276\n'),
}


@needs_program
class Answers(Rows):
    def test_rows(self):
        self.assert_rows(ROWS)

    def test_interrupts(self):
        self.assert_rows(INTERRUPTS)

    def test_the_trace_of_two_pulses(self):
        status, text = self.answered('play --trace cart script', TWO_PULSES)
        self.assertTrue(text.startswith('verdict none\n'), text[:40])
        end = PULSED_STEPS + PULSED_END
        self.assertEqual((status, text[-len(end):]), (0, end))

    def test_generated_cartridges(self):
        self.assert_rows(GENERATED)

    def test_a_migrated_description_plays_as_the_old_one(self):
        old = '# The exchange.\n' + EXCHANGES.replace('format = 1\n', 'format = 1\nsplit = [3]\n')
        status, new = self.answered('migrate cart', {'cart': old})
        self.assertEqual(status, 0)
        self.assertIn('"ram 28"', new)
        self.assertNotIn('ram_page', new)
        self.assertEqual(self.answered('migrate cart', {'cart': new}), (0, new))
        played = {cart: self.answered('play cart script', {'cart': cart, 'script': 'steps 9\n'}) for cart in (old, new)}
        self.assertEqual(played[new], played[old])
        self.assertEqual((played[new][0], played[new][1].splitlines()[:2]), (3, ['verdict none', f'stop {CONFLICT}']))


if __name__ == '__main__':
    unittest.main()
