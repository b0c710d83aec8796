from __future__ import annotations

import random
import tempfile
import unittest
from pathlib import Path

import tool
from companion.assembly import Image
from companion.program import Answer, Program
from companion.words import Refused
from tool import call, needs_program

LOOP = '0400 20038F0190FB1C\nsym LOOP 1024\nsym COUNT 3\n'


class Disassembly(unittest.TestCase):
    tool = tool.load('disassembly')

    @needs_program
    def test_lines_of_asm_keep_addresses_and_names(self):
        done = call('disassembly', '-', stdin=LOOP)
        self.assertEqual(done.text.split('\n'), [
            '        ORG $0400',
            'LOOP:   LI $03                              ; 0400  20 03',
            '        BR7 L0404                           ; 0402  8F 01',
            'L0404:  BR LOOP                             ; 0404  90 FB',
            '        POP                                 ; 0406  1C', ''])
        self.assertEqual((done.returncode, done.told), (0, ''))

    @needs_program
    def test_digits_begin_at_an_address(self):
        done = call('disassembly', '--at', '0x0800', '-', stdin='2B 28 08\n00 290FFF\n')
        self.assertEqual([line.split(';')[0].rstrip() for line in done.text.split('\n')],
                         ['        ORG $0800', 'L0800:  NOP', '        PI L0800', '        JMP $0FFF', ''])

    @needs_program
    def test_binary_bytes_that_no_instruction_has_are_data(self):
        done = call('disassembly', '-', stdin=b'\x2b' + b'\xff' * 10)
        self.assertIn('DB $FF,$FF,$FF,$FF,$FF,$FF,$FF,$FF  ; 0001  FF', done.text)
        self.assertIn('DB $FF,$FF                          ; 0009  FF FF\n', done.text)
        done = call('disassembly', '--binary', '-', stdin=b'2B')
        self.assertIn('DS 2                                ; 0000  32\n', done.text)

    @needs_program
    def test_data_is_listed_as_bytes(self):
        done = call('disassembly', '--data', '3-4', '-', stdin='2A00032B2B1C')
        self.assertEqual([line.split(';')[0].rstrip() for line in done.text.split('\n')],
                         ['        ORG $0000', '        DCI L0003', 'L0003:  DB $2B,$2B', '        POP', ''])

    @needs_program
    def test_data_is_parted_at_a_label_and_at_a_gap(self):
        done = call('disassembly', '--data', '3-8', '-', stdin='0000 2A00052B2B2B\n0007 2B2B29\n000A 0000\nsym TABLE 5\n')
        self.assertEqual([line.split(';')[0].rstrip() for line in done.text.split('\n')],
                         ['        ORG $0000', 'L0000:  DCI TABLE', '        DB $2B,$2B', 'TABLE:  DB $2B',
                          '        ORG $0007', '        DB $2B,$2B', '        JMP L0000', ''])

    @needs_program
    def test_a_long_name_has_a_line_of_its_own(self):
        done = call('disassembly', '-', stdin='0000 290004\r\n0004 1C\r\nsym SEVENTH 4\r\n')
        self.assertEqual([line.split(';')[0].rstrip() for line in done.text.split('\n')],
                         ['        ORG $0000', '        JMP SEVENTH', '        ORG $0004', 'SEVENTH:', '        POP', ''])
        self.assertIn('SIXTH:  POP', call('disassembly', '-', stdin='0000 290004\n0004 1C\nsym SIXTH 4\n').text)

    @needs_program
    def test_the_last_address_has_a_byte(self):
        done = call('disassembly', '--at', 'FFFF', '-', stdin='2B')
        self.assertEqual((done.text.split(';')[0].split(), done.told), (['ORG', '$FFFF', 'NOP'], ''))

    @needs_program
    def test_random_bytes_come_out_again(self):
        data = random.Random(1975).randbytes(3000)
        with tempfile.TemporaryDirectory() as folder:
            path = Path(folder) / 'text.f8'
            path.write_text(call('disassembly', '--at', '2000', '-', stdin=data).text)
            image = Image.of(Program((str(tool.PROGRAM),)).done('asm', path))
            self.assertEqual(image.bytes, dict(enumerate(data, 0x2000)))

    @needs_program
    def test_comments_go_where_the_text_would_be_too_long(self):
        done = call('disassembly', '-', stdin=b'\x2b' * 8000)
        self.assertEqual(done.returncode, 0)
        self.assertNotIn(';', done.text)
        self.assertEqual(done.text.count('NOP'), 8000)

    def test_refusals(self):
        for words, stdin, hint in ((['--at', '0', '-'], LOOP, 'leave out --at'), (['-'], '2B9', 'half a byte'),
                                   (['--at', 'FFFF', '-'], '2B90', 'past FFFF'), (['-'], 'error store file\n', 'is a refusal'),
                                   (['no/such/file'], '', 'No such file'), (['-'], '', 'no bytes'), (['-'], 'sym X 1\n', 'no bytes'),
                                   (['-'], '0000 2B2B\n0001 2C\n', 'two bytes at 0001'), (['-'], f'0000 2B\nsym X {"1" * 5000}\n', 'X has 5000 digits'),
                                   (['--program', 'x "y', '-'], '2B', 'no closing quotation')):
            done = call('disassembly', *words, stdin=stdin)
            self.assertEqual((done.text, done.returncode), ('', 1))
            self.assertIn(hint, done.told)
            self.assertEqual(done.told.count('\n'), 1)
        self.assertEqual(call('disassembly', '--at', '10000', '-').returncode, 2)
        self.assertEqual(call('disassembly', '--data', '5-4', '-').returncode, 2)

    def test_text_that_gives_other_bytes_is_not_written(self):
        class Wrong(Program):
            def run(self, command, *words):
                return Answer(b'ORG $0000\nNOP\n' if command == 'dis' else b'0000 2C\n', 0)
        with self.assertRaisesRegex(Refused, 'not assemble to the same bytes'):
            self.tool.disassembled(self.tool.read(b'2B', None, False), [], Wrong(()))

    def test_name_of_a_label_is_free(self):
        statements = [self.tool.Statement(0, 'BF 0,$0000', b'\x90\xff')]
        self.assertEqual(self.tool.labelled(statements, self.tool.Input(names={7: 'L0000'})), {0: 'L0000_1'})

    @needs_program
    def test_names_of_a_file(self):
        with tempfile.TemporaryDirectory() as folder:
            names = Path(folder) / 'game.names'
            names.write_text('0.loop 0800\nlr 0801\nmain.wait = 0803\nmain_wait 0804\nRAM 2800\nend 0806\n')
            done = call('disassembly', '--at', '0800', '--names', names, '-', stdin='2B90FE2A28002B')
        self.assertEqual([line.split(';')[0].rstrip() for line in done.text.split('\n')], [
            '        ORG $0800', '_0_loop:', '        NOP', 'lr_1:   BR _0_loop', 'main_wait:', '        DCI $2800', 'end:    NOP', ''])


if __name__ == '__main__':
    unittest.main()
