"""tools/why: where a value was lost, and what helps."""
from __future__ import annotations

import tempfile
import unittest
from pathlib import Path

import nested_calls
from tool import PROGRAM, call, needs_program, needs_toml

from companion.causes import Words
from companion.memory import Memory
from companion.names import Names
from companion.rules import Rules
from companion.search import Search
from companion.verdict_words import told, too_many
from random_cartridges import described

PARTED = '''refused 0009 ---- . 7
0009  COPY, copy.f8 line 11: LM
Reason 7: LM reads at D0, and a 3851 may have its own DC0 elsewhere.
The DC0 of the 3851s isn't known: the ways from 0008 and 000E meet at 0009 with 0012 and 0014.
    0008  copy.f8 line 10: LR 0,A
    000E  COPY+5, copy.f8 line 16: BNZ COPY
    0009  COPY, copy.f8 line 11: LM
It isn't known that the DC0 of each 3851 is D0: XDC at 000C exchanged the data counters, and a 3851 keeps its DC0.
    000C  COPY+3, copy.f8 line 14: XDC
Tracked, r0 keeps these ways apart.
'''
ONE_CHIP = 'format = 1\nsplit = {split}\n[[chip]]\nkind = "3851"\nbase = 0\nports = 4\nrom = "{code}"\n{more}'
RAM = '[[chip]]\nkind = "3853"\nram_page = 0x28\nram_pages = 1\n'


def searched(text: str) -> Search:
    description = described(text)
    search = Search(Rules(Memory(description.chips), description.split))
    search.run()
    return search


def of_code(code: str, split: list[int] = [], more: str = '') -> Search:
    return searched(ONE_CHIP.format(code=code, split=split, more=more))


@needs_toml
class Told(unittest.TestCase):
    """What is said of a map, by hand-made bytes."""

    def told(self, search: Search) -> str:
        return '\n'.join(told(search, Names(), 8))

    def test_a_port_and_ram_help_by_no_list(self):
        # INS 0; LR KL,A; LR KU,A; PK
        told = self.told(of_code('A005040C'))
        self.assertIn("r13 isn't known: it comes from port 00, and what a port gives is never known.\n    0000  INS 0", told)
        # DCI 2805; LM; LR KL,A; LR KU,A; PK
        told = self.told(of_code('2A2805' '160504' '0C', more=RAM))
        self.assertIn("r12 isn't known: it comes from a read at 2805, which is RAM, and what RAM holds is never known.\n    0003  LM", told)
        self.assertIn('No list helps: keep it in a register', told)
        self.assertNotIn('Tracked', told)

    def test_power_on(self):
        # LIS 1; LR KL,A; PK
        told = self.told(of_code('71050C'))
        self.assertIn('Reason 4: PK goes to the address in K, of which a byte is not known.\n', told)
        self.assertIn("\nr12 isn't known: nothing has set it since power-on.", told)
        self.assertIn('No list helps: set r12 before, on each way.', told)
        self.assertNotIn('r13', told)

    def test_what_else_goes_wrong_is_said(self):
        """The sentences of the other reasons, each at a program that has it."""
        again = '[[chip]]\nkind = "3851"\nbase = 0\nports = 8\n' 'rom = "2B"\n'
        for code, more, sentence in [
                ('290400', '', 'Reason 1: its opcode, at 0400, is one that no chip holds. It is reached from 0000  JMP $0400.'),
                ('2B', again, 'Reason 1: its opcode, at 0000, is one that chip 0 and chip 1 hold. A program begins at 0000.'),
                ('292800', RAM, 'Reason 2: its opcode, at 2800, is one that chip 1 holds as RAM, and what a store may change is not followed.'),
                ('2B2D', '', 'Reason 3: 2D is the opcode of no instruction. It is reached from 0000  NOP.'),
                ('0D', '', 'Reason 4: LR P0,Q goes to the address in Q, of which a byte is not known.'),
                ('09', '', "Reason 5: LR P,K makes K the return, and a byte of K isn't known."),
                ('1C', '', 'Reason 6: POP needs the return, and no call has set it on the way from power-on.'),
                ('74047005' '0908', '', 'Reason 8: LR K,P needs the chip at the return 0400, which no chip has.'),
                ('A8', '', 'Reason 9: INS 8 reads port 08, which is the data port of no chip')]:
            with self.subTest(sentence=sentence[:9]):
                self.assertIn(sentence, self.told(of_code(code, more=more)))

    def test_a_vector_without_code(self):
        # EI; BR .
        told = self.told(of_code('1B90FF', more='vector = 0x0200\ninterrupt = true\n'))
        self.assertIn('Reason 3: FF is the opcode of no instruction. An interrupt of chip 0 leads to it, by its timer, as behind 0001  BR $0001.', told)
        self.assertIn('both addresses of a vector need code in ROM', told)
        self.assertIn('By the calls and interrupts at:\n    0001  BR $0001\nReason 3', told)

    def test_a_vector_in_ports(self):
        told = self.told(of_code('1B90FF', more='[[chip]]\nkind = "3853"\ninterrupt = true\n'))
        self.assertIn("Reason 10: BR $0001 may end with an interrupt: ICB may be 1, and the vector of chip 1 isn't known.", told)
        self.assertIn('Let a 3851 or a 3861 interrupt in its place', told)

    def test_a_write_by_an_unknown_isar(self):
        # LIS 3; LR 3,A; INS 0; LR IS,A; LR S,A, with r3 tracked
        told = self.told(of_code('7353A00B5C', [3]))
        self.assertIn('Reason 12: LR S,A writes by an ISAR that is not known, and may reach a tracked register (r3).', told)
        self.assertIn("ISAR's high digit isn't known: it comes from port 00", told)
        self.assertIn('`LISU` directly behind `LR IS,A` pins the write to eight', told)

    def test_a_register_that_such_a_write_may_have_reached(self):
        # LIS 0; LR KU,A; LIS 7; LR KL,A; INS 0; LR IS,A; LIS 9; LR S,A; PK
        told = self.told(of_code('7004' '7705' 'A00B' '795C' '0C'))
        self.assertIn("r13 isn't known: the write at 0007 may reach it. ISAR's high digit isn't known: it comes from port 00", told)

    def test_no_register_tells_ways_apart(self):
        # INS 0; BZ 6; LIS 1; BR 7; 6: LIS 2; 7: LR KL,A; LIS 0; LR KU,A; PK, so that A is lost at 7
        self.assertIn('No register tells these ways apart. Let one do so', self.told(of_code('A0' '8404' '71' '9002' '72' '05' '7004' '0C')))

    def test_the_lost_register_comes_before_others_that_tell_the_ways_apart(self):
        # INS 0; BZ 8; LIS 1; LR 5,A; LR 3,A; BR B; 8: LIS 2; LR 5,A; LR 3,A; B: LR A,5; LR KL,A; LIS 0; LR KU,A; PK
        told_of_it = self.told(of_code('A0' '8406' '715553' '9004' '725553' '4505' '7004' '0C'))
        self.assertIn("r13 isn't known: it goes by r5, and the ways from 0006 and 000A meet at 000B with 01 and 02.", told_of_it)
        self.assertIn('Tracked, r5 or r3 keeps these ways apart.', told_of_it)

    def test_what_no_list_helps_against_is_told_first(self):
        # the same with LR 6,A behind INS 0, and XS 6 behind LR A,5: K goes by r5, which two ways lost, and by r6, which a port gave
        told_of_it = self.told(of_code('A056' '8406' '715553' '9004' '725553' '45E605' '7004' '0C'))
        self.assertIn("r13 isn't known: it comes from port 00", told_of_it)
        self.assertNotIn('Tracked', told_of_it)

    def test_calls_that_came_back_are_left_out(self):
        # PI 10; PI 10; PI 18; at 10 POP; at 18 LR K,P; PI 10; INS 0; LR KL,A; PK
        code = ('280010' '280010' '280018' '90FF').ljust(32, 'F') + '1C'.ljust(16, 'F') + '08' '280010' 'A0050C'
        self.assertIn('By the calls at:\n    0006  PI $0018\nReason 4', self.told(of_code(code)))

    def test_points_are_counted_by_what_multiplies_them(self):
        # two loops: LIS 2; LR 1,A; LIS 3; LR 0,A; DS 0; BNZ 4; DS 1; BNZ 2; BR .
        search = of_code('7251' '7350' '30' '94FE' '31' '94FA' '90FF', [0, 1])
        told = list(too_many(search, Words(search, Names()), 1))
        self.assertEqual(told[1:3], ['      6  0004  DS 0', '         3 values of r0, 2 values of r1'])

    def test_interrupts_multiply_returns(self):
        # 12 NOPs behind EI, and JMP back; EI and POP at 0080 and 0100
        code = (bytes.fromhex('1B' + '2B' * 12 + '290001').ljust(0x80, b'\xFF') + b'\x1B\x1C').ljust(0x100, b'\xFF') + b'\x1B\x1C'
        search = of_code(code.hex(), more='vector = 0x0100\ninterrupt = true\n')
        self.assertEqual(search.line(), 'refused 0180 0002 . 3')
        search = of_code(code.ljust(0x180, b'\xFF').hex() + '1B1C', more='vector = 0x0100\ninterrupt = true\n')
        told = list(too_many(search, Words(search, Names()), 1))
        self.assertEqual((search.line(), told[2]), (f'whole {1 + 13 * 13 + 4 * 12}', '         13 returns'))
        self.assertIn('Let interrupts in at one place', told[-1])

    def test_where_no_chip_answers(self):
        told = self.told(of_code('2A0400' '16' '90FF'))  # DCI 0400; LM; BR .
        self.assertIn('at 1 address a read at D0 may find no chip that answers:\n0003  LM\nD0 is 0400: no chip answers there.', told)


@needs_program
@needs_toml
class Called(unittest.TestCase):
    def test_a_refusal_with_names(self):
        done = call('why', 'cartridges/parted/cart.toml')
        self.assertEqual((done.returncode, done.text[:len(PARTED)], done.told), (7, PARTED, ''))

    def test_agreed_tells_the_reads_that_may_find_nobody(self):
        done = call('why', 'cartridges/summed/cart.toml')
        self.assertEqual(done.returncode, 0)
        self.assertIn('0008  NEXT+1, sum.f8 line 9: AM\n', done.text)
        self.assertIn("\nD0 isn't known: the ways from 0006 and 000B meet at 0007 with 000F and 0010.\n", done.text)

    def test_nested_calls(self):
        with tempfile.TemporaryDirectory() as folder:
            done = call('why', nested_calls.write(Path(folder), [13]), cwd=Path(folder))
        self.assertIn('Reason 12: LR KL,A writes r13, which is tracked, with what is not known.\n', done.text)
        self.assertIn("\nr13 isn't known: it goes by r41, and ", done.text)
        self.assertIn('Tracked, r41 ', done.text)

    def test_names_for_the_bytes_of_a_rom(self):
        with tempfile.TemporaryDirectory() as folder:
            Path(folder, 'cart.toml').write_text(ONE_CHIP.format(code='A005040C', split=[], more=''))  # INS 0; LR KL,A; LR KU,A; PK
            Path(folder, 'names').write_text('KEYS 0000\nAWAY 0003\n')
            told = call('why', '--names', 'names', 'cart.toml', cwd=Path(folder)).text.splitlines()
        self.assertEqual((told[1], told[4]), ('0003  AWAY: PK', '    0000  KEYS: INS 0'))

    def test_it_says_so_where_the_program_finds_another_line(self):
        with tempfile.TemporaryDirectory() as folder:
            other = Path(folder, 'other')
            other.write_text(f'#!/bin/sh\n[ "$1" = check ] && echo whole 5 || exec "{PROGRAM}" "$@"\n')
            other.chmod(0o755)
            told = call('why', '--program', other, 'cartridges/parted/cart.toml').text
        said = 'whole 5\nThis tool finds another line: refused 0009 ---- . 7. What it says below may be wrong.\n0009  COPY'
        self.assertEqual(told[:len(said)], said)

    def test_a_description_that_is_refused(self):
        with tempfile.TemporaryDirectory() as folder:
            Path(folder, 'cart.toml').write_text('format = 3\n')
            done = call('why', 'cart.toml', cwd=Path(folder))
        self.assertEqual((done.returncode, done.text), (2, 'error cart key format cause 4\n'))
        self.assertIn('tools/explain', done.told)


if __name__ == '__main__':
    unittest.main()
