from __future__ import annotations

import re
import sys
import tempfile
import unittest
from pathlib import Path

import tool
from companion.assembly import Assembler, Image, Line, Text
from companion.plans import shares
from companion.program import Program
from companion.words import Refused
from tool import call, needs_program


LINKER = f'{sys.executable} {tool.TOOLS}/tests/linked.py'  # in the program's place, where `link` is enough
MODULES = {
    'plan': 'module other 0400 07FF\nmodule text 0000 03FF\n',
    'text': '; a comment\n EXPORT START\n IMPORT TICK,N\nSTART: PI TICK ; \u00e9\n LI N\n\n BR START\nEND: DB SIZE,<END,1,2,3,4,5\nSIZE: EQU END-START\n',
    'other': ' EXPORT TICK,N\nN: EQU -7\nSTART:\n NOP\nTICK: POP\n'}
LISTED = [
    '    1                           ; a comment',
    '    2                            EXPORT START',
    '    3                            IMPORT TICK,N',
    '    4  0000  28 04 01           START: PI TICK ; \u00e9',
    '    5  0003  20 F9               LI N',
    '    6',
    '    7  0005  90 FA               BR START',
    '    8  0007  07 07 01 02 03 04  END: DB SIZE,<END,1,2,3,4,5',
    '       000D  05',
    '    9        = 07               SIZE: EQU END-START',
    '',
    'N       -07      -7  line    3  used 5',
    'START    00       0  line    4  used 7 9',
    'END      07       7  line    8  used 9',
    'SIZE     07       7  line    9  used 8',
    'TICK    401    1025  line    3  used 4']


class Module(unittest.TestCase):
    """A module of a plan, as the tests' own linker tells it, and as the program does."""

    def listed(self, files: dict[str, str], name: str, program: str = LINKER):
        with tempfile.TemporaryDirectory() as folder:
            for file, text in files.items():
                (Path(folder) / file).write_bytes(text.encode())
            return call('listing', '--plan', 'plan', '--program', program, name, cwd=Path(folder))

    def test_a_module_as_it_is_linked(self):
        self.assertEqual(self.listed(MODULES, 'text').text.splitlines(), LISTED)
        self.assertEqual(self.listed({**MODULES, 'text': MODULES['text'].replace('\n', '\r\n')}, 'text').text.splitlines(), LISTED)

    @needs_program
    def test_a_module_as_the_program_links_it(self):
        self.assertEqual(self.listed(MODULES, 'text', str(tool.PROGRAM)).text.splitlines(), LISTED)

    def test_modules_that_do_not_go_together(self):
        for name, text, told in (('other', ' ORG 5\n', 'error module 0 line 1 column 2 cause 11'), ('text', ' IMPORT X\n', 'error link module 1 cause 2'),
                                 ('plan', 'module text 0 1\n', 'error plan line 1 cause 2')):
            done = self.listed({**MODULES, name: text}, 'text')
            self.assertEqual((done.text, done.returncode), (f'{told}\n', 2))

    def test_a_text_that_is_no_module_of_the_plan(self):
        done = self.listed(MODULES, 'texts')
        self.assertEqual((done.text, done.returncode), ('', 1))
        self.assertIn('the plan plan names no module texts', done.told)

    def test_a_long_module(self):
        done = self.listed({**MODULES, 'text': ' NOP\n' * 900 + ';' * 257_000}, 'text')
        self.assertEqual((done.text, done.returncode), ('', 1))
        self.assertRegex(done.told, r'^listing: a module of 261,500 bytes is too long for a listing: .* 262,144 are taken\n$')

    def test_names_that_look_like_those_of_the_copy(self):
        done = self.listed({'plan': 'module text 0000 00FF\nmodule other 0100 01FF\n', 'text': '_1: NOP\n__2: NOP\n', 'other': ' EXPORT _3\n_3: EQU 1\n'}, 'text')
        self.assertEqual(done.text.splitlines()[:2], ['    1  0000  2B                 _1: NOP', '    2  0001  2B                 __2: NOP'])


class Listing(unittest.TestCase):
    def listed(self, text: str | bytes, *words: str):
        with tempfile.TemporaryDirectory() as folder:
            path = Path(folder) / 'text.f8'
            path.write_bytes(text if isinstance(text, bytes) else text.encode())
            return call('listing', *words, path)

    @needs_program
    def test_lines_have_their_addresses_and_bytes(self):
        done = self.listed('; a comment\nCOUNT: EQU 3\n ORG $0400\n\nLOOP: LI COUNT ; é\n BR LOOP\nALONE:\n DB 1,2,3,4,5,6,7\n')
        self.assertEqual(done.text.split('\n\n')[0].split('\n'), [
            '    1                           ; a comment',
            '    2        = 03               COUNT: EQU 3',
            '    3  0400                      ORG $0400',
            '    4',
            '    5  0400  20 03              LOOP: LI COUNT ; é',
            '    6  0402  90 FD               BR LOOP',
            '    7  0404                     ALONE:',
            '    8  0404  01 02 03 04 05 06   DB 1,2,3,4,5,6,7',
            '       040A  07'])
        self.assertEqual(done.text.split('\n\n')[1].split('\n'), [
            'COUNT    03       3  line    2  used 5', 'LOOP    400    1024  line    5  used 6', 'ALONE   404    1028  line    7  used -', ''])
        self.assertEqual((done.returncode, done.told), (0, ''))

    @needs_program
    def test_values_below_zero_keep_their_sign(self):
        done = self.listed('LESS: EQU -5\nLEAST: EQU 0-$1234\n LI LESS\n')
        self.assertEqual(done.text.split('\n')[:3], [
            '    1        = -05              LESS: EQU -5', '    2        = -1234            LEAST: EQU 0-$1234',
            '    3  0000  20 FB               LI LESS'])
        self.assertEqual(done.text.split('\n\n')[1].split('\n'),
                         ['LEAST  -1234   -4660  line    2  used -', 'LESS    -05      -5  line    1  used 3', ''])

    @needs_program
    def test_names_of_one_value_come_by_lines_with_the_lines_that_use_them(self):
        done = self.listed('Z: NOP\nB: EQU Z\nM: BR M\n DB B,B,Z\n')
        self.assertEqual(done.text.split('\n\n')[1].split('\n'),
                         ['Z    00       0  line    1  used 2 4', 'B    00       0  line    2  used 4', 'M    01       1  line    3  used -', ''])

    @needs_program
    def test_org_may_lead_back_and_have_a_label(self):
        done = self.listed(' ORG $10\n NOP\nBEFORE: ORG 2\n NOP\n ORG 2+1\n')
        self.assertEqual([line[7:16].strip() for line in done.text.split('\n')[:5]], ['0010', '0010  2B', '0002', '0002  2B', '0003'])
        self.assertIn('BEFORE    11      17  line    3', done.text)

    @needs_program
    def test_names_that_look_like_its_own(self):
        done = self.listed('_1: NOP\n NOP\n__3: NOP\n; ' + '_' * 40 + '\n')
        self.assertIn('    2  0001  2B', done.text)
        self.assertEqual(done.returncode, 0)

    @needs_program
    def test_text_of_nothing(self):
        self.assertEqual(self.listed('').text, '    1\n')

    @needs_program
    def test_line_feeds_of_windows(self):
        self.assertIn('0001  2B                  NOP\n', self.listed(b' NOP\r\n NOP\r\n').text)

    @needs_program
    def test_long_text_is_marked_in_portions(self):
        text = ' NOP\n' * 300 + ';' + 'x' * 260_000 + '\n' + ' POP\n'
        done = self.listed(text)
        self.assertEqual((done.returncode, done.told), (0, ''))
        self.assertIn('  302  012C  1C ', done.text)
        done = self.listed(';' + 'x' * 262_142 + '\n')
        self.assertEqual(done.returncode, 1)
        self.assertIn('too long for a listing', done.told)

    @needs_program
    def test_refusal_passes_with_its_place_and_status(self):
        done = self.listed(' NOP\n LI 0x20\n')
        self.assertEqual((done.text, done.returncode), ('error asm file line 2 column 6 cause 11\n', 2))
        done = call('listing', 'no/such/file')
        self.assertEqual((done.text, done.returncode), ('error store file\n', 4))

    @needs_program
    def test_bytes_are_those_of_asm_in_every_cartridge(self):
        program = Program((str(tool.PROGRAM),))
        texts = [path for path in sorted((tool.TOP / 'cartridges').glob('*/*.f8')) if not any(map(shares, path.read_bytes().split(b'\n')))]
        self.assertGreater(len(texts), 10)
        for path in texts:
            placed = {line.address + n: byte for line in Text.read(path, program).lines for n, byte in enumerate(line.bytes)}
            self.assertEqual(placed, Image.of(program.done('asm', path)).bytes, path)

    def test_names_of_a_line(self):
        line = Line(1, b"X: DB 'A',';',$FF,Y ; Z")
        self.assertEqual(list(line.names()), [b'X', b'DB', b'Y'])

    def test_program_that_fails(self):
        stub = f'{sys.executable} -c "print(\'error words\'); raise SystemExit(1)"'
        done = self.listed('', '--program', stub)
        self.assertEqual((done.text, done.returncode), ('error words\n', 1))
        self.assertEqual(self.listed('', '--program', 'no/such/program').returncode, 1)
        done = self.listed('', '--program', 'x "y')
        self.assertEqual((done.text, done.returncode), ('', 1))
        self.assertRegex(done.told, r'^listing: .* no closing quotation\n$')

    def test_the_program_is_called_a_few_times_at_most(self):
        class Stub(Assembler):
            runs = 0

            def image(self, text):
                self.runs += 1
                return Image(names={name: 0 for name in re.findall(rb'^(_\d+):', text, re.M)})

        stub = Stub(Program(()))
        nops = b' NOP\n' * 5000
        stub.placed(nops + b';' + b'x' * 236_434 + b'\n')
        self.assertEqual(stub.runs, 50)
        with self.assertRaisesRegex(Refused, '261,437 bytes is too long for a listing: with 5,001 lines it may have 261,436$'):
            stub.placed(nops + b';' + b'x' * 236_435 + b'\n')
        self.assertEqual(stub.runs, 50)


if __name__ == '__main__':
    unittest.main()
