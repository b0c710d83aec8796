from __future__ import annotations

import re
import sys
import tempfile
import unittest
from pathlib import Path
from textwrap import dedent

import tool
from companion.explaining.files import Files
from companion.explaining.lines import explain
from explanations import explanation
from tool import call, needs_program

CHIP = 'format = 1\n\n[[chip]]\nkind = "3851"\nbase = 0x0000\nports = 4\n'
SMI = 'format = 2\n\n[[chip]]\nkind = "3853"\n'
HAS_TOML = sys.version_info >= (3, 11)


class Explain(unittest.TestCase):
    def explained(self, line: str, **files: str) -> str:
        """What is said of a line, where the files cart, script or file have these texts."""
        return explanation(line, **files)

    def assert_asm(self, text: str, column: int, cause: int, hint: str) -> None:
        told = self.explained(f'error asm file line 1 column {column} cause {cause}', file=text)
        self.assertIn(hint, told)
        self.assertIn(f'file, line 1, column {column}\n    {text}\n    {" " * (column - 1)}^\nCause {cause}, ', told)

    def test_a_line_is_shown_whole(self):
        told = self.explained('error asm file line 2 column 6 cause 11', file='\tNOP\r\n\tLI 0x20 ; blue\r\n')
        self.assertEqual(re.sub(r' \(docs/\w+\.md\)\.', '', told), dedent('''\
            file, line 2, column 6
                \tLI 0x20 ; blue
                \t    ^
            Cause 11, Form: the tokens make no statement
            A hexadecimal number begins with `$`: write `$20` for `0x20`.
            '''))

    def test_columns_count_bytes(self):
        told = self.explained("error asm file line 1 column 11 cause 6", file="LI 'é'+256")
        self.assertIn("\n    LI 'é'+256\n             ^\n", told)

    def test_other_ways_to_write_numbers(self):
        self.assert_asm(' LI 20H', 7, 11, 'write `$20` for `20H`')
        self.assert_asm(" LI H'20'", 6, 2, "write `$20` for `H'20'`")
        self.assert_asm(' LI 0b101', 6, 11, 'write `%101`')
        self.assert_asm(' LI #$20', 5, 2, 'needs no `#`')
        self.assert_asm(' LI FFH', 5, 5, '`$FF`')

    def test_other_ways_to_write_statements(self):
        self.assert_asm('START = $0400', 7, 2, '`START: EQU $0400`')
        self.assert_asm('*=$0800', 2, 2, '`ORG $0800`')
        self.assert_asm(' .byte 1', 2, 11, 'A directive has no dot. Bytes are given by DB')
        self.assert_asm(' INCLUDE "ves.h"', 10, 2, 'no INCLUDE')
        self.assert_asm('LOOP LI 5', 1, 3, 'colon after it: `LOOP:`')
        self.assert_asm('LOOP', 1, 3, 'colon after it: `LOOP:`')
        self.assert_asm(' LSI 4', 2, 3, 'Is `LI` or `LIS` meant?')
        self.assert_asm(' LR A,(IS)+', 8, 11, 'write `I` for `(IS)+`')
        self.assert_asm(' LR DC0,Q', 9, 11, 'is named `DC`')
        self.assert_asm(' LR A,R5', 7, 5, 'write `5` for `R5`')
        self.assert_asm(' LI 256', 5, 6, '-128 to 255')
        self.assert_asm(' LI', 4, 11, 'Something is missing here')

    def test_names(self):
        self.assertIn('Is `LOOP` meant? Names keep their case.',
                      self.explained('error asm file line 2 column 5 cause 5', file='LOOP: NOP\n BR loop\n'))
        self.assertIn('is given in line 2', self.explained('error asm file line 1 column 6 cause 5', file=' ORG X\nX: NOP\n'))
        self.assertIn('was given in line 1 already', self.explained('error asm file line 2 column 1 cause 4', file='X: NOP\nX: NOP\n'))

    @unittest.skipUnless(HAS_TOML, 'Python before 3.11 has no reader of TOML')
    def test_a_fault_of_toml_has_its_line(self):
        told = self.explained('error cart toml', cart=CHIP.replace('0x0000', '$0400'))
        self.assertIn('cart, line 5, column 8\n    base = $0400\n           ^\nTOML: Invalid value.\n', told)
        self.assertIn('begins with 0x', told)
        self.assertIn('there twice', self.explained('error cart toml', cart=CHIP + 'ports = 4\n'))
        self.assertIn('`"a.f8"`', self.explained('error cart toml', cart=CHIP + 'source = a.f8\n'))
        self.assertIn('binary file: tools/describe', call('explain', '--cart', '/bin/sh', stdin='error cart toml\n').told)
        self.assertIn('too many digits', self.explained('error cart toml', cart=CHIP.replace('0x0000', '1' * 5000)))
        self.assertIn('nested too deep', self.explained('error cart toml', cart='split = ' + '[' * 2000))

    @unittest.skipUnless(HAS_TOML, 'Python before 3.11 has no reader of TOML')
    def test_keys_of_a_description(self):
        told = self.explained('error cart chip 0 key ? cause 2', cart=CHIP.replace('ports', 'port'))
        self.assertIn('cart, line 6\n    port = 4\n`port` is no key here: is `ports` meant?\n', told)
        told = self.explained('error cart chip 0 key base cause 5', cart=CHIP.replace('0x0000', '0x0500'))
        self.assertIn('The nearest that fit: 0x0400 and 0x0800.', told)
        self.assertIn('a multiple of 1,024', told)
        self.assertIn('half a byte', self.explained('error cart chip 0 key rom cause 7', cart=CHIP + 'rom = "2B0"\n'))
        self.assertIn("there is ' '", self.explained('error cart chip 0 key rom cause 7', cart=CHIP + 'rom = "2B 00"\n'))
        self.assertIn('`kind = "3851"`', self.explained('error cart chip 0 key kind cause 3', cart=CHIP.replace('"', '')))
        self.assertIn('Put it before', self.explained('error cart key format cause 1', cart=CHIP[10:] + 'format = 1\n'))
        self.assertIn('too many digits', self.explained('error cart chip 0 key base cause 4', cart=CHIP.replace('0x0000', '0x' + 'F' * 5000)))

    def assert_pages(self, pages: str, cause: int, *hints: str) -> None:
        told = self.explained(f'error cart chip 0 key pages cause {cause}', cart=f'{SMI}pages = {pages}\n')
        self.assertIn(f'cart, line 5\n    pages = {pages}\nCause {cause}, ', told)
        self.assertIn('The rule for `pages`: ', told)
        for hint in hints:
            self.assertIn(hint, told)

    @unittest.skipUnless(HAS_TOML, 'Python before 3.11 has no reader of TOML')
    def test_pages_of_format_2(self):
        self.assert_pages('"ram 28"', 3, 'in brackets: `pages = ["ram 28"]`')
        self.assert_pages('0x28', 3, 'a list of texts')
        self.assert_pages('["rom 20", 5]', 3, 'Entry 2 is no text')
        for text, hint in (('RAM 28', 'in small letters'), ('ram 0x28', 'without a mark'), ('ram 2800', '`28` for all from 2800 to 28FF'),
                           ('ram  28', 'One blank stands'), ('ram 28 - 2B', 'One blank stands'), ('ram 2', '`02`'), ('ram 2B-28', '`ram 28-2B`'),
                           ('ram 28,29', 'has a hyphen'), ('28', 'A text is `rom`, `ram` or `void`'), ('ram 28-', 'A text is')):
            self.assert_pages(f'["void 30", "{text}"]', 4, f'`{text}` gives no pages. ', hint)
        told = self.explained('error cart chip 0 key pages cause 4', cart=SMI + 'pages = [' + '"ram 28",' * 257 + ']\n')
        self.assertIn('There are 257 texts, and at most 256', told)
        self.assert_pages('["ram 28", "rom 20-28"]', 5, 'Page 28 stands in `ram 28` and in `rom 20-28`')

    @unittest.skipUnless(HAS_TOML, 'Python before 3.11 has no reader of TOML')
    def test_keys_by_format(self):
        def unknown(cart: str) -> str:
            return self.explained('error cart chip 0 key ? cause 2', cart=cart)

        self.assertIn('`ram_page` is a key of format 1. In format 2 the pages of a 3853 are texts', unknown(SMI + 'ram_page = 0x28\n'))
        told = unknown(SMI.replace('2', '1', 1) + 'pages = ["ram 28"]\n')
        self.assertIn('`pages` is a key of format 2: in format 1 they are given by `ram_page`', told)
        self.assertIn('`start` is a key of format 2. `./channel_f migrate CART` makes', unknown(CHIP + 'start = 0\n'))
        self.assertIn('`fill` is no key of a 3851, but of a 3853. The keys of a 3851 are kind, base, ports, vector, interrupt, start, rom, source.',
                      unknown(CHIP.replace('1', '2', 1) + 'fill = 0\n'))
        self.assertIn('is `pages` meant?', unknown(SMI + 'page = ["ram 28"]\n'))
        self.assertIn('The formats are 1 and 2', self.explained('error cart key format cause 4', cart='format = 3\n'))
        for key, cause, hint in (('fill', 4, '0 to 255'), ('start', 4, '0 to 65,535'), ('fill', 3, 'without quotes: `fill = 0x33`')):
            told = self.explained(f'error cart chip 0 key {key} cause {cause}', cart=SMI + f'{key} = "0x33"\n')
            self.assertRegex(told, f'The rule for `{key}`: 0 to ')
            self.assertIn(hint, told)

    @unittest.skipUnless(HAS_TOML, 'Python before 3.11 has no reader of TOML')
    def test_a_source_for_pages_with_a_gap(self):
        told = self.explained('error cart chip 0 key source cause 4', cart=SMI + 'pages = ["rom 24", "ram 28", "rom 20-21"]\nsource = "a.f8"\n')
        self.assertIn('The pages 22 to 23 lie between its ROM pages', told)
        told = self.explained('error cart chip 0 key source cause 4', cart=SMI + 'pages = ["rom 21", "rom 20"]\nsource = ""\n')
        self.assertNotIn('lie between', told)

    @unittest.skipUnless(HAS_TOML, 'Python before 3.11 has no reader of TOML')
    def test_a_fill_of_nothing(self):
        warned = [self.explained_all(SMI + f'pages = ["{pages}"]\nfill = 0x33\n') for pages in ('rom 20', 'ram 28')]
        self.assertEqual([('Warning: chip 0 has `fill` and no page of RAM' in told) for told in warned], [True, False])

    def explained_all(self, cart: str) -> str:
        """What is said of a description whatever the command answers."""
        with tempfile.TemporaryDirectory() as folder:
            (Path(folder) / 'cart.toml').write_text(cart)
            return call('explain', '--cart', 'cart.toml', stdin='whole 1\n', cwd=Path(folder)).told

    @unittest.skipUnless(HAS_TOML, 'Python before 3.11 has no reader of TOML')
    def test_a_source_beside_the_description(self):
        with tempfile.TemporaryDirectory() as folder:
            (Path(folder) / 'cart.toml').write_text(CHIP + 'source = "game.f8"\n')
            (Path(folder) / 'game.f8').write_text('')
            done = call('explain', '--cart', f'{folder}/cart.toml', stdin='error store source 0\n', cwd=Path(folder).parent)
        self.assertIn(f'write `source = "{Path(folder).name}/game.f8"`', done.told)

    def test_scripts(self):
        for text, cause, hint in (('steps = 5', 1, 'Only blanks'), ('steps 5 ', 1, 'after the last word'), ('STEPS 5', 1, 'small letters'),
                                  ('power 5', 2, '`05`'), ('power 0x05', 2, 'nothing else: `05`'), ('at 3 keys 0 01', 2, '`00`'),
                                  ('frame 5', 1, 'Is `frames` meant?'), ('at 3 key 00 01', 1, 'Is `keys` meant?'), ('frames 601', 3, '1 to 600'),
                                  ('steps 5 # all', 1, 'line of its own'), ('', 6, 'Add a line')):
            told = self.explained(f'error script line 1 cause {cause}', script=text + '\n')
            self.assertIn(hint, told, text)
            self.assertIn(f'Cause {cause}, ', told)
        self.assertIn('Cause 6, NoEnd', self.explained('error script line 1 cause 6'))
        told = self.explained('error script line 2 cause 1', script='show 1\nsteps = 5\n')
        self.assertIn('script, line 2, column 7\n    steps = 5\n          ^\n', told)

    def test_files_of_digits(self):
        self.assertIn('file, line 2, column 3\n    2B,90', self.explained('error hex', file='2B\n2B,90\n'))
        self.assertIn('lines of `asm`', self.explained('error hex', file='0000 2B90FE\nsym LOOP 1\n'))
        self.assertIn('half a byte', self.explained('error hex', file='2B9'))

    @unittest.skipUnless(HAS_TOML, 'Python before 3.11 has no reader of TOML')
    def test_stop_lines_name_the_chips(self):
        two = CHIP + 'rom = "2B"\n[[chip]]\nkind = "3853"\nram_page = 0x28\nram_pages = 1\n'
        told = self.explained('stop conflict romc 02 socket 0 at 0010 socket 12 at 2800', cart=two)
        self.assertIn('Socket 0 has chip 0 of the description, the 3851 at 0000; it is at 0010.', told)
        self.assertIn('Socket 12 has chip 1 of the description, the 3853; it is at 2800.', told)
        self.assertIn('XDC', told)
        self.assertIn('belongs to chip 0', self.explained('stop undriven romc 00 at 0000', cart=two))
        self.assertIn('No chip has that address', self.explained('stop undriven romc 00 at 0400', cart=two))
        self.assertIn('the port 0008', self.explained('stop undriven romc 1B at 0008', cart=two))
        self.assertRegex(self.explained('stop reserved FF at 0001'), '(?s)0001.*A ROM has FF')

    @unittest.skipUnless(HAS_TOML, 'Python before 3.11 has no reader of TOML')
    def test_verdicts_name_the_reason(self):
        told = self.explained('refused 0009 ---- 03 7', cart='format = 1\nsplit = [5]\n' + CHIP.split('\n', 1)[-1] + 'rom = "2B"\n')
        self.assertRegex(told, r'(?s)Reason 7: a data access.*What helps: .*0009 lies in chip 0.*r5 is 03.*The return is not known')
        self.assertIn('`split`', call('explain', 'toomany').told)
        self.assertIn('tools/why CART names these reads.', call('explain', 'agreed', 27).told)

    @unittest.skipUnless(HAS_TOML, 'Python before 3.11 has no reader of TOML')
    def test_interrupts(self):
        cart = CHIP + 'interrupt = true\nvector = 0x0100\nrom = "1B90FF"\n[[chip]]\nkind = "3853"\ninterrupt = true\n'
        told = self.explained('refused 0180 0001 . 3', cart=cart)
        self.assertIn('0180 is where an interrupt of chip 0 leads, by a pulse. Both addresses of a vector need code', told)
        self.assertNotIn('Both addresses', self.explained('refused 0001 ---- . 3', cart=cart))
        told = self.explained('refused 0001 ---- . 10', cart=cart)
        self.assertRegex(told, '(?s)Reason 10: an interrupt may be taken.*What helps: a 3851 or a 3861 in its place.*The vector of chip 1 is in ports')
        self.assertIn('gives one more return', self.explained('toomany', cart=cart))
        self.assertNotIn('gives one more return', call('explain', 'toomany').told)

    @unittest.skipUnless(HAS_TOML, 'Python before 3.11 has no reader of TOML')
    def test_a_description_of_another_run(self):
        cart = f'split = [0x{"F" * 5000}]\n' + CHIP.partition('\n')[2] + 'rom_page = "x"\nram_page = 0x28\nram_pages = [1]\n'
        for line in ('stop undriven romc 00 at 0000', 'refused 0000 ---- 03 7', 'unsafe 0000 ---- 03 7', 'notclosed start to 0000 ---- 03'):
            self.assertIn('chip 0', self.explained(line, cart=cart), line)

    def test_addresses_are_four_digits(self):
        for line in ('refused zzzz ---- . 7', 'unsafe 009 ---- . 7', 'notclosed start to 000g ---- .', 'stop undriven romc 00 at 00a0',
                     'stop astray romc 02 socket 0 at 0014 reference 13', 'stop reserved FF at 00010', 'error script line ' + '1' * 5000 + ' cause 3'):
            self.assertEqual(self.explained(line), '', line)

    def test_certificates(self):
        told = self.explained('error cert line 2 cause 4', cert='F8CERT 1 2\n0000\n')
        self.assertRegex(told, r'cert, line 2\n    0000\nCause 4, Order: .*\nEach point is there once')
        self.assertIn('Cause 5, End: ', self.explained('error cert line 9 cause 5', cert='F8CERT 1 2\n'))
        self.assertRegex(self.explained('unsafe 0000 ---- . 3'), '(?s)Reason 3: .*check --cert CART makes')
        self.assertRegex(self.explained('notclosed start to 0000 ---- .'), 'No state covers the start.*\nThe certificate belongs to another')
        self.assertRegex(self.explained('notclosed 0000 ---- . to 0001 ---- .'), 'No state covers what holds at the second point.*\nWhat holds')

    def test_commands_of_the_debugger(self):
        told = self.explained('error debug line 2 cause 1', commands='step 4\nstop 5\n')
        self.assertRegex(told, r'commands, line 2\n    stop 5\nCause 1, Word: .*\nIs `step` meant\?\nThe form: `step N`\.')
        self.assertNotIn('show chips', self.explained('error script line 1 cause 1', script='stop 5\n'))

    def test_steps_back_of_the_debugger(self):
        for line, cause, hint in (('back run', 2, 'Say by how many instructions at most: `back run 100`.'), ('back', 1, 'Say by how many instructions: `back 1`.'),
                                  ('run back 5', 1, '`back` stands in front: `back 5`, or `back run 5` to a break.'),
                                  ('stored 28', 2, 'An address has four hexadecimal digits, with zeros in front.'), ('stored $2800', 2, ': `2800`.')):
            told = self.explained(f'error debug line 2 cause {cause}', commands=f'step 4\n{line}\n')
            self.assertIn(f'{hint}\n', told, line)
        self.assertIn('The form: `back N`, or `back run N`.', self.explained('error debug line 1 cause 3', commands='back 0\n'))

    def test_the_line_may_have_lines_behind_it(self):
        done = call('explain', stdin='verdict none\nstop reserved 2D at 0000\nregs P=0000\ntotal 0 instructions 14 phi\n')
        self.assertIn('Look whether 0000 holds data', done.told)

    def test_a_good_run_gets_no_word(self):
        lines = 'verdict whole\nstop done\nregs P=0000\n'
        done = call('explain', stdin=lines)
        self.assertEqual((done.text, done.told, done.returncode), (lines, '', 0))
        self.assertEqual(call('explain').told, '')

    def test_words_and_statuses(self):
        self.assertIn('Cause 3, Range', call('explain', 'error', 'script', 'line', 1, 'cause', 3).told)
        self.assertEqual(call('explain', 'error', 'of', 'another', 'kind').returncode, 1)
        done = call('explain', sys.executable, '-c', 'print("error words"); raise SystemExit(1)', 'paly', 'a', 'b')
        self.assertEqual((done.text, done.returncode), ('error words\n', 1))
        self.assertIn('./channel_f play --trace CART SCRIPT', done.told)
        self.assertEqual(call('explain', 'no/such/program').returncode, 1)
        done = call('explain', '--names', 'no/such/file', sys.executable, '-c', 'print("error words")')
        self.assertEqual((done.text, done.told, done.returncode), ('', 'explain: no/such/file: No such file or directory\n', 1))

    def test_every_cause_of_the_pages_is_found(self):
        lines = [f'error asm {what} line 1 column 1 cause {n}' for what in ('file', 'source 0') for n in (1, 2, 3, 4, 5, 6, 7, 8, 9, 11)]
        lines += [f'error cart key {key} cause {n}' for key, n in (('format', 1), ('?', 2), ('chip', 3), ('split', 4), ('chip', 6))]
        lines += [f'error cart chip 0 key {key} cause {n}'
                  for key, n in (('rom', 1), ('?', 2), ('base', 3), ('base', 4), ('base', 5), ('rom', 7), ('source', 8),
                                 ('pages', 3), ('pages', 4), ('pages', 5), ('fill', 3), ('fill', 4), ('start', 3), ('start', 4))]
        lines += [f'error script line 1 cause {n}' for n in range(1, 7)]
        lines += [f'error cert line 1 cause {n}' for n in range(1, 7)]
        lines += [f'error debug line 1 cause {n}' for n in range(1, 5)]
        lines += [f'error {what} cause {n}' for what in ('plan line 1', 'link module 0') for n in range(1, 6)]
        lines += [f'error module 0 line 1 column 1 cause {n}' for n in (1, 2, 3, 4, 5, 6, 7, 8, 11, 12)]
        for line in lines:
            self.assertRegex('\n'.join(explain(line, Files())), r'Cause \d+, \w+: .+ \(docs/\w+\.md\)', line)
        self.assertIn('not found', self.explained('error asm file line 1 column 1 cause 10'))

    @needs_program
    def test_the_program_and_the_pages_agree(self):
        done = call('explain', tool.PROGRAM, 'play', 'cartridges/parted/cart.toml', 'cartridges/parted/script.txt')
        self.assertEqual(done.returncode, 3)
        self.assertIn('stop astray romc 02 socket 0 at 0014 reference 0013\n', done.text)
        self.assertIn('The reference is 0013', done.told)
        done = call('explain', tool.PROGRAM, 'paly', 'a', 'b')
        self.assertEqual((done.text, done.returncode), ('error words\n', 1))
        self.assertIn('is `play` meant?', done.told)


if __name__ == '__main__':
    unittest.main()
