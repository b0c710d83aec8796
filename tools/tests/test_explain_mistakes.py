"""Mistakes as people make them, through the program: what `explain` says of each."""
from __future__ import annotations

import socket
import sys
import tempfile
import unittest
from pathlib import Path

import tool
from companion.explaining.files import Files, Sort, sort_of
from companion.explaining.lines import explained
from companion.program import Program
from tool import call, needs_program

needs_toml = unittest.skipUnless(sys.version_info >= (3, 11), 'Python before 3.11 has no reader of TOML')

PROGRAM = Program((str(tool.PROGRAM),))
CHIP = '[[chip]]\nkind = "3851"\nbase = 0x0000\nports = 4\n'
CART = 'format = 1\n' + CHIP + 'rom = "90FF"\n'
SCRIPT = 'power 04\nat 3 keys 00 01\nshow 20\nframes 44\n'
# A routine with two callers calls others, so it keeps K in the scratchpad. Which of both returns is there isn't known at the end.
STACK = '''
        PI OUTER
        PI OUTER
DONE:   BR DONE
OUTER:  LR K,P
        PI PUSHK
        PI INNER
        JMP POPK
INNER:  LR K,P
        PK
PUSHK:  LISU 5
        LISL 0
        LR A,KU
        LR I,A
        LR A,KL
        LR I,A
        POP
POPK:   LISU 5
        LISL 0
        LR A,I
        LR KU,A
        LR A,I
        LR KL,A
        PK
'''


@needs_program
class Mistakes(unittest.TestCase):
    def setUp(self):
        room = tempfile.TemporaryDirectory()
        self.addCleanup(room.cleanup)
        self.room = Path(room.name).resolve()

    def put(self, name: str, text: str | bytes) -> str:
        path = self.room / name
        path.parent.mkdir(exist_ok=True)
        path.write_bytes(text if isinstance(text, bytes) else text.encode())
        return name

    def said(self, *words: str, **options: str) -> str:
        """What is said of a call of the program in the folder."""
        named = [word for name, value in options.items() for word in (f'--{name}', value)]
        return call('explain', *named, tool.PROGRAM, *words, cwd=self.room).told

    def assert_said(self, told: str, *hints: str) -> None:
        for hint in hints:
            self.assertIn(hint, told)

    def assert_asm(self, text: str, *hints: str) -> None:
        path = self.room / self.put('text.f8', text.encode() + b'\n')
        lines = PROGRAM.run('asm', path).output.splitlines()
        self.assert_said('\n'.join(explained(lines, Files.of(['channel_f', 'asm', str(path)]))), *hints)

    def test_registers(self):
        self.assert_asm(' lr a,(is)+', 'write `I` for `(is)+`')
        self.assert_asm(' LR A,(IS)-', 'write `D` for `(IS)-`')
        self.assert_asm(' ds (is)', 'write `S` for `(is)`')
        self.assert_asm(' lr a,12', '`S`, `I` and `D`', 'KU, KL, QU and QL')
        self.assert_asm(' LR A,29', '`LISU 3`, `LISL 5`, and then `S`')
        self.assert_asm(' lr a,r14', 'reached as QU alone')
        self.assert_asm(' lr r45,a', '`LISU 5`, `LISL 5`')
        self.assert_asm(' LR 64,A', '0 to 63')
        self.assert_asm(' SETISAR 29', '`LISU 3` and `LISL 5`')
        self.assert_asm(' setisar X', '`LISU` and `LISL`')

    def test_numbers_and_places(self):
        for written, here in (("O'17'", '`15`'), ("O'7'", '`7`'), ("B'1'", '`%1`'), ("b'0101'", '`%0101`'), ("D'1'", '`1`'), ("D'12'", '`12`'),
                              ("C'A'", "`'A'`"), ("H'FF'", '`$FF`')):
            self.assert_asm(f' LI {written}', f'write {here} for `{written}`')
        self.assert_asm(' BR *', '`.` and not `*`')
        self.assert_asm(" DB 'ab',#5", 'has quotes of its own')  # the mark behind it isn't the fault
        self.assert_asm('.l: NOP', 'no local labels')
        self.assert_asm(' BR .l', 'no local labels')
        self.assert_asm(' HEX 0a 0B', '`DB $0a,$0B`')

    def test_the_form_is_that_of_the_statement(self):
        self.assert_asm(' LIS 16', 'The form: `LIS n`, 0 to 15.')
        self.assert_asm(' LISU 8', 'The form: `LISU n`, 0 to 7.')
        self.assert_asm(' CLR 5', 'The form: `CLR`, without operands.')
        self.assert_asm(' LR KU,5', '`LR` takes `A,KU')
        self.assert_asm(' BNZ', 'The form: `BNZ a`')

    def test_the_file_as_a_whole(self):
        self.assert_asm('\ufeff NOP', 'byte order mark')
        told = self.said('asm', self.put('text.f8', b' NOP\r LI 5\r NOP' + b'\r NOP' * 100))
        self.assert_said(told, 'Lines end with LF, or with CR and LF')
        self.assertNotIn('\r', told)
        self.assertLess(max(map(len, told.split('\n'))), 160)
        self.assert_asm(' NOP ; one\r LI 5\r NOP', 'text.f8 has carriage returns alone')
        self.assertEqual(self.said('asm', self.put('text.f8', ' NOP ; one\r\n LI 5\r\n')), '')
        self.assert_asm(' DB ' + '1,' * 150 + '$', '\n    ..1,1,1', '1,$\n', '  ^\n')

    @needs_toml
    def test_split(self):
        for written in ('"0"', '["r0"]', '["0"]', '0'):
            self.assert_said(self.said('check', self.put('c.toml', f'split = {written}\n{CART}')), '`split = [0]`')
        self.assert_said(self.said('check', self.put('c.toml', f'split = [r0]\n{CART}')), '`split = [0]`', 'line 1, column 10')
        self.assert_said(self.said('check', self.put('c.toml', f'split = [1, 1]\n{CART}')), 'Each register is there once.')
        self.assert_said(self.said('check', self.put('c.toml', f'{CART}split = [1]\n')), 'line 7', '`split` is no key of a chip', 'before the first')

    @needs_toml
    def test_keys_in_another_place(self):
        self.assert_said(self.said('check', self.put('c.toml', 'base = 0\n' + CART)), '`base` is a key of a chip')
        self.assert_said(self.said('check', self.put('c.toml', CART + 'ram_page = 1\n')), 'no key of a 3851, but of a 3853')
        self.assert_said(self.said('migrate', self.put('c.toml', CART + 'start = 0\n')), '`start` is a key of format 2')
        told = self.said('check', self.put('c.toml', CART.replace('4', '12345678901234567890123')))
        self.assert_said(told, 'c.toml, line 5, column 9', 'too many digits')
        self.assertNotIn('nested', told)
        self.assert_said(self.said('check', self.put('c.toml', 'x = ' + '[' * 90 + ']' * 90)), 'nested more than 80 deep')

    @needs_toml
    def test_files_in_the_place_of_others(self):
        self.put('cart.toml', CART)
        self.put('script.txt', SCRIPT)
        self.put('game.f8', '; a game\nSTART: LI 5\n LR 0,A\n\n BR START\n')
        self.put('game.bin', bytes(range(256)))
        self.put('commands.txt', 'break at 0009\nrun 100\nshow regs\n')
        self.put('made.cert', 'F8CERT 1 1\n')
        self.assert_said(self.said('play', 'script.txt', 'cart.toml'), 'This is a script: it is the second file after `play`')
        self.assert_said(self.said('debug', 'commands.txt', 'cart.toml'), 'These are commands of the debugger')
        self.assert_said(self.said('verify', 'made.cert', 'cart.toml'), 'This is a certificate')
        self.assert_said(self.said('migrate', 'script.txt'), 'This is a script')
        self.assert_said(self.said('play', 'cart.toml', 'cart.toml'), 'This is a description')
        self.assert_said(self.said('verify', 'cart.toml', 'cart.toml'), 'This is a description')
        self.assert_said(self.said('check', 'game.f8'), 'This is an assembly text', '`source = "game.f8"`')
        self.assert_said(self.said('check', 'game.bin'), 'This is a binary file: tools/describe')
        self.assert_said(self.said('asm', 'cart.toml'), 'This is a description')
        self.assert_said(self.said('debug', 'cart.toml', 'script.txt'), 'This is a script')

    def test_a_file_that_cannot_be_read(self):
        with socket.socket(socket.AF_UNIX) as lonely:
            lonely.bind(str(self.room / 'cart.toml'))
            told = self.said('check', 'cart.toml')
        self.assert_said(told, 'is there, and can not be read: ')
        self.assertNotIn('meant', told)
        self.assert_said(self.said('check', '.'), '. is a folder.')

    @needs_toml
    def test_sources_and_folders(self):
        self.put('game/cart.toml', 'format = 1\n' + CHIP + 'source = "game/game.f8"\n')
        self.put('game/game.f8', ' BR .\n')
        done = call('explain', tool.PROGRAM, 'check', self.room / 'game/cart.toml', cwd=tool.TOP)
        self.assert_said(done.told, f'It is there from the folder {self.room}')
        self.put('game/cart.toml', 'format = 1\n' + CHIP + 'source = "game.f8"\n')
        self.assert_said(self.said('check', 'game/cart.toml'), 'write `source = "game/game.f8"`')
        self.assert_said(self.said('check', 'game/cart.tolm'), 'Is game/cart.toml meant?')

    @needs_toml
    def test_too_many_chips_of_a_kind(self):
        smi = '[[chip]]\nkind = "3853"\n'
        self.put('script.txt', SCRIPT)
        told = self.said('play', self.put('c.toml', CART + smi * 3), 'script.txt')
        self.assert_said(told, 'chips 1, 2 and 3 of the description are of the kind 3853', '3 chips of a kind are wanted')

    @needs_toml
    def test_warnings(self):
        told = self.said('check', self.put('c.toml', CART + CHIP.replace('0x0000', '0x400') + 'rom = ""\n'))
        self.assert_said(told, 'Warning: chip 0, the 3851, and chip 1, the 3851, have the ports 04 to 07 in common.')
        told = self.said('check', self.put('c.toml', CART.replace('ports = 4', 'ports = 12') + '[[chip]]\nkind = "3853"\nram_page = 0x28\n'))
        self.assert_said(told, 'the 3853, have the ports 0C to 0F', 'Warning: chip 1 has `ram_page` and no `ram_pages`')
        self.assertEqual(self.said('check', self.put('c.toml', CART + '[[chip]]\nkind = "3853"\n' * 2)), '')

    @needs_toml
    def test_a_refusal_has_names_and_the_calls_that_lead_there(self):
        self.put('game.f8', STACK)
        told = self.said('check', self.put('c.toml', 'format = 1\n' + CHIP + 'source = "game.f8"\n'))
        self.assert_said(told, '\n0021 is POPK+6, game.f8 line 24: PK. It lies in chip 0 of the description.\nOne way to it:\n'
                               '    0000 game.f8 line 2: PI OUTER\n    000C OUTER+4, game.f8 line 7: PI INNER\n'
                               '    0013 INNER+1, game.f8 line 10: PK, and back\n    000F OUTER+7, game.f8 line 8: JMP POPK\n'
                               'The return is 0014 PUSHK, game.f8 line 11: LISU 5, behind 0013 INNER+1, game.f8 line 10: PK.\n')

    @needs_toml
    def test_a_stop_has_the_place(self):
        self.put('script.txt', 'steps 9\n')
        self.put('game.f8', '        DCI $2800\nFETCH:  LM\n')
        self.put('c.toml', 'format = 1\n' + CHIP + 'source = "game.f8"\n')
        self.assert_said(self.said('play', 'c.toml', 'script.txt'), '\nIt stopped in 0003 FETCH, game.f8 line 2: LM.\n')
        self.put('c.toml', 'format = 1\n' + CHIP + 'rom = "2A280016"\n')
        self.assert_said(self.said('play', 'c.toml', 'script.txt'), '\nIt stopped in 0003 LM.\n')
        stop = 'stop undriven romc 02 at 2800\n'
        told = call('explain', '--cart', 'c.toml', stdin=f'{stop}regs P=0003 P1=0000\n{stop}', cwd=self.room).told
        self.assertIn('No chip has that address', told)
        self.assertNotIn('It stopped in', told)  # the registers are those of another stop
        self.put('names', 'fetch 0003\n')
        self.assert_said(self.said('play', 'c.toml', 'script.txt', names='names'), '\nIt stopped in 0003 fetch: LM.\n')


class Sorts(unittest.TestCase):
    def test_what_files_look_like(self):
        for data, sort in ((b'', Sort.NOTHING), (b'\n \n', Sort.NOTHING), (CART.encode(), Sort.DESCRIPTION), (SCRIPT.encode(), Sort.SCRIPT),
                           (b'# mine\nrun 5\nshow regs\n', Sort.COMMANDS), (b'0000 2B90FE\nsym X 1\n', Sort.ASM_LINES), (b'2B' * 9, Sort.DIGITS),
                           (b'F8CERT 1 3\n', Sort.CERTIFICATE), (b'\x7fELF\0', Sort.BINARY), (STACK.encode(), Sort.ASSEMBLY),
                           (b'To whom it may concern\n', Sort.OTHER)):
            self.assertEqual(sort_of(data), sort, data)


if __name__ == '__main__':
    unittest.main()
