"""`link` on plans with their modules: worked by hand, drawn at random and compared with a linker that was written apart, and against one text."""
from __future__ import annotations

import re
import subprocess
import tempfile
import unittest
from pathlib import Path
from textwrap import dedent

from tool import PROGRAM, TOP, needs_program

from companion.assembly import Image
from linked import one_source, parts_of, printed
from random_modules import Modules

# By hand. Modules begin at 0000, 0100 and so on, with rooms of 256 bytes, where no plan is given. What link writes stands behind.
LINKED = [
    # a call, and a branch back, whose displacement byte lies at 0104
    ([' IMPORT DONE\n JMP DONE\n', ' EXPORT DONE\nDONE: PI DONE\n BR DONE\n'], '', ['0000 290100', '0100 28010090FC', 'sym DONE 256']),
    # halves as bytes and as words, and distances within a module
    ([' IMPORT X\n DB <X,>X,(<(X+1))\n DW >X,X-$100\n', ' EXPORT X\n NOP\nX: DB X-0-X\n'], '', ['0000 0101020001' + '0001', '0100 2B00', 'sym X 257']),
    # a name of both modules is each one's own, and an exported constant needs no place
    (['X: DB <X\n', ' EXPORT N,N2\n NOP\nX: DB <X,N2-N\nN: EQU 3\nN2: EQU -4\n'], '', ['0000 00', '0100 2B01F9', 'sym N 3', 'sym N2 -4']),
    # a branch reaches 127 on and 128 back
    ([' IMPORT ON,BACK\n BR ON\n BR BACK\n', ' EXPORT ON\nON: POP\n', ' EXPORT BACK\nBACK: EQU 128\n'],
     'module 0 00FC 00FF\nmodule 1 017C 017C\nmodule 2 0000 0000', ['00FC 907F' + '9081', '017C 1C', 'sym ON 380', 'sym BACK 128']),
    # names differ in case, and the words of the language don't
    ([' Import x ; lower\n db <x,<X\nX: Nop\n', ' export x\nx: EQU 9\n'], '', ['0000 09022B', 'sym x 9']),
    # a label behind the last byte of all
    ([' EXPORT END\n' + ' DW 0\n' * 32_768 + 'END:\n'], 'module 0 0000 FFFF', [f'{at:04X} ' + '00' * 16 for at in range(0, 65_536, 16)] + ['sym END 65536']),
    (['; nothing\n', ' EXPORT HERE\nHERE:\n'], '', ['sym HERE 256']),
    # an import less itself is a constant, and a sum of one is an import still, up to 65535 away
    ([' IMPORT X\n DB X-X,1+X,X-65535+65535,X-X-5\n', ' EXPORT X\nX: EQU 6\n'], '', ['0000 000706FB', 'sym X 6']),
    # imports that are spelled alike but for their case, in modules that import from each other
    ([' EXPORT X\n IMPORT x\nX: DW x\n', ' EXPORT x\n IMPORT X\nx: DW X\n'], '', ['0000 0100', '0100 0000', 'sym X 0', 'sym x 256']),
]
REFUSED = [
    ([' EXPORT X\nX: NOP\n', ' NOP\n', 'X: NOP\n EXPORT X\n'], '', 'error link module 2 cause 1'),
    (['X: NOP\n EXPORT X\n EXPORT X\n'], '', 'error link module 0 cause 1'),
    ([' IMPORT X\n', ' EXPORT Y\nY: NOP\n'], '', 'error link module 0 cause 2'),
    ([' NOP\n NOP\n', ' NOP\n NOP\n'], 'module 0 0000 0001\nmodule 1 0400 0400', 'error link module 1 cause 3'),
    ([' DW 1\n', ' NOP\n'], 'module 0 0000 00FF\nmodule 1 0001 0001', 'error link module 1 cause 4'),
    ([' IMPORT X\n LI X\n', ' EXPORT X\nX: EQU 256\n'], '', 'error link module 0 cause 5'),
    ([' IMPORT X\n DCI X\n', ' EXPORT X\nX: EQU -1\n'], '', 'error link module 0 cause 5'),
    ([' IMPORT X\n LI >X\n', ' EXPORT X\nX: EQU -1\n'], '', 'error link module 0 cause 5'),
    ([' IMPORT X\n BR X\n', ' EXPORT X\nX: NOP\n'], '', 'error link module 0 cause 5'),
    ([' IMPORT X\n', ' EXPORT X\nX: EQU 4294901761\n'], '', 'error link module 0 cause 5'),
    ([' BR $200\n'], '', 'error link module 0 cause 5'),
    # no address is read before all names are there, and nothing put before all bytes have a place
    ([' LI 1\n', ' LI 2\n IMPORT X\n'], 'module 0 0000 0000\nmodule 1 0000 0001', 'error link module 1 cause 2'),
    ([' DB 1\n BR $200\n', ' DB 1,2\n'], 'module 0 0000 00FF\nmodule 1 0000 0000', 'error link module 1 cause 3'),
    # the first module at fault, whatever the later ones are
    ([' NOP\n', ' NOP\n ORG 5\n', ' FOO\n'], '', 'error module 1 line 2 column 2 cause 11'),
    ([' IMPORT X\nY: EQU X-X\n'], '', 'error module 0 line 2 column 8 cause 12'),
    ([' DB 1\n EXPORT Y\n'], '', 'error module 0 line 2 column 9 cause 5'),
    (['X: DB 0,<(X+65536)\n'], '', 'error module 0 line 1 column 9 cause 6'),
    ([' DB 0,0-.\n'], '', 'error module 0 line 1 column 7 cause 12'),
    # of two causes the earlier one
    ([' EXPORT X\n IMPORT Y\nX: NOP\n', ' EXPORT X\nX: NOP\n'], '', 'error link module 1 cause 1'),
    ([' BR $200\n', ' NOP\n'], 'module 0 0000 00FF\nmodule 1 0001 0001', 'error link module 1 cause 4'),
    # how far a branch goes is seen where it is put
    ([' BR 65536\n'], '', 'error link module 0 cause 5'),
    # an import in EQU, whichever line imports it
    (['Y: EQU X\n IMPORT X\n'], '', 'error module 0 line 1 column 8 cause 12'),
    (['Y: EQU 1/0+X\n IMPORT X\n'], '', 'error module 0 line 1 column 8 cause 12'),
    ([' IMPORT X\n DB X+65536-65536\n'], '', 'error module 0 line 2 column 5 cause 6'),
    ([' IMPORT X\n IMPORT X\n'], '', 'error module 0 line 2 column 9 cause 4'),
    (['X: NOP\n IMPORT X\n'], '', 'error module 0 line 2 column 9 cause 4'),
    ([' BT 1,X\n IMPORT X\n BR <X\n'], '', 'error module 0 line 3 column 5 cause 12'),
    # no other sum of places has a shape, nor a half within one
    *(([f' IMPORT X,Y\n DB {operand}\n'], '', 'error module 0 line 2 column 5 cause 12') for operand in (
        '-X', 'X*1', '1*X', 'X/1', 'X&1', 'X|0', '1-X', 'X+X', 'X+Y', 'X-Y', '<X+0', '<<X', '<-X', '(>X)-1')),
    # and a place is no small number, though this one is 0
    *(([f'X: {statement}\n'], '', f'error module 0 line 1 column {4 + statement.rindex("X")} cause 12') for statement in (
        'LR A,X', 'LR X,A', 'DS X', 'LISU X', 'LISL X', 'LIS X', 'IN X', 'OUT X', 'INS X', 'OUTS X', 'AS X', 'ASD X', 'XS X', 'NS X', 'SR X', 'SL X',
        'BT X,.', 'BF X,.')),
]
PLANS = [
    ('', 1, 5), ('# none\n\n', 3, 5), ('module 0 0000 00FF\nmodules 0 0000 00FF\n', 2, 1), ('module 0 0000', 1, 1), ('module 0  0000 00FF', 1, 1),
    (' module 0 0000 00FF', 1, 1), ('module 0 0000 00FF ', 1, 1), ('module \xe9 0000 00FF', 1, 1), ('module 0 0 00FF', 1, 2), ('module 0 0000 00FG', 1, 2),
    ('module ' + 'x' * 65 + ' 0000 00F', 1, 2), ('module ' + 'x' * 65 + ' 0000 00FF', 1, 3), ('module 0 0001 0000', 1, 3),
    ('module 0 0000 FFFF\n' * 65, 65, 4), ('module 0 0000 FFFF\n' * 64 + 'module 0 1 2\n', 65, 2),
]
CASES = 300  # of random modules


def files_of(texts: list[str], plan: str) -> dict[str, bytes]:
    lines = plan or '\n'.join(f'module {number} {256 * number:04X} {256 * number + 255:04X}' for number in range(len(texts)))
    return {'plan': lines.encode(), **{str(number): text.encode() for number, text in enumerate(texts)}}


class Linking(unittest.TestCase):
    """The linker of the tests, on what was worked by hand and on the pages."""

    def test_modules_by_hand(self) -> None:
        for texts, plan, lines in LINKED:
            self.assertEqual(printed('plan', files_of(texts, plan)), (lines, 0), texts)

    def test_refusals_by_hand(self) -> None:
        for texts, plan, line in REFUSED:
            self.assertEqual(printed('plan', files_of(texts, plan)), ([line], 2), texts)

    def test_plans_by_hand(self) -> None:
        for plan, line, cause in PLANS:
            self.assertEqual(printed('plan', {'plan': plan.encode('latin-1'), '0': b''}), ([f'error plan line {line} cause {cause}'], 2), plan)

    def test_the_modules_of_the_pages(self) -> None:
        self.assertEqual(printed('plan', of_the_pages()), (shown_lines(), 0))
        beeps = parts_of('plan', of_the_pages())[0].object
        page = (TOP / 'docs/ASSEMBLY.md').read_text('utf-8')
        self.assertIn(f'`{beeps.bytes.hex(" ").upper()}`', ' '.join(page.split()))
        self.assertEqual([(fixup.kind, fixup.offset, fixup.base, fixup.k) for fixup in beeps.fixups], [('Byte', 4, 'LONG', 0), ('Word', 6, 'WAIT', 0)])

    def test_random_modules_are_of_all_sorts(self) -> None:
        told = {re.sub(r'(line|column|module) \d+', r'\1', line) for seed in range(CASES) for line in printed('plan', Modules(seed).files)[0][:1]}
        kinds = {line if line.startswith('error') else '' for line in told}
        self.assertLessEqual({'', *(f'error link module cause {n}' for n in range(1, 6)), *(f'error module line column cause {n}' for n in (2, 4, 5, 6, 11, 12))},
                             kinds)


def of_the_pages() -> dict[str, bytes]:
    """The two modules that ASSEMBLY shows beside each other, and the plan of PROGRAM."""
    page = (TOP / 'docs/ASSEMBLY.md').read_text('utf-8').split('\n')
    at = next(number for number, line in enumerate(page) if '; beeps.f8' in line)
    wide = page[at].index('; waits.f8')
    rows = [line for line in page[at:page.index('', at)]]
    plan = (TOP / 'docs/PROGRAM.md').read_text('utf-8').partition('and this plan\n\n')[2].partition('\n\n')[0]
    return {'plan': dedent(plan).encode(), 'beeps.f8': '\n'.join(line[4:wide].rstrip() for line in rows).encode(),
            'waits.f8': '\n'.join(line[wide:] for line in rows).encode()}


def shown_lines() -> list[str]:
    text = (TOP / 'docs/PROGRAM.md').read_text('utf-8').partition('and this plan\n\n')[2].partition('it writes\n\n')[2].partition('\n\n')[0]
    return dedent(text).split('\n')


@needs_program
class Programs(unittest.TestCase):
    """The program against that linker."""

    def setUp(self) -> None:
        room = tempfile.TemporaryDirectory()
        self.addCleanup(room.cleanup)
        self.folder = Path(room.name)

    def run_on(self, command: str, name: str, files: dict[str, bytes]) -> tuple[list[str], int]:
        for old in self.folder.iterdir():
            old.unlink()
        for file, text in files.items():
            (self.folder / file).write_bytes(text)
        done = subprocess.run([PROGRAM, command, name], cwd=self.folder, capture_output=True, text=True, timeout=60)
        return done.stdout.splitlines(), done.returncode

    def assert_as_linked(self, files: dict[str, bytes]) -> None:
        self.assertEqual(self.run_on('link', 'plan', files), printed('plan', files), files)

    def test_modules_by_hand(self) -> None:
        for texts, plan, lines in LINKED:
            self.assertEqual(self.run_on('link', 'plan', files_of(texts, plan)), (lines, 0), texts)

    def test_refusals_by_hand(self) -> None:
        for texts, plan, line in REFUSED:
            self.assertEqual(self.run_on('link', 'plan', files_of(texts, plan)), ([line], 2), texts)

    def test_plans_by_hand(self) -> None:
        for plan, line, cause in PLANS:
            self.assertEqual(self.run_on('link', 'plan', {'plan': plan.encode('latin-1'), '0': b''}), ([f'error plan line {line} cause {cause}'], 2), plan)

    def test_the_modules_of_the_pages(self) -> None:
        self.assertEqual(self.run_on('link', 'plan', of_the_pages()), (shown_lines(), 0))

    def test_random_modules(self) -> None:
        for seed in range(CASES):
            with self.subTest(seed=seed):
                self.assert_as_linked(Modules(seed).files)

    def test_the_one_source_of_random_modules(self) -> None:
        """Where modules go together, `asm` makes the same bytes of their one source, and gives shared names the same values."""
        found = 0
        for seed in range(CASES // 3):
            files = Modules(seed).files
            lines, status = self.run_on('link', 'plan', files)
            if status == 0:
                found += 1
                source = one_source(parts_of('plan', files))
                told, ended = self.run_on('asm', 'text', {'text': source})
                linked, image = (Image.of('\n'.join(part).encode()) for part in (lines, told))
                self.assertEqual((ended, image.bytes), (0, linked.bytes), source)
                self.assertEqual({name: image.names[name] for name in linked.names}, linked.names, source)
        self.assertGreater(found, CASES // 10)

    def test_files_in_their_order(self) -> None:
        good, bad = b' NOP\n', b' FOO\n'
        plan = b'module a 0000 00FF\nmodule b 0100 01FF\n'
        for files in ({}, {'plan': b'?'}, {'plan': plan}, {'plan': plan, 'a': bad}, {'plan': plan, 'a': good}, {'plan': plan, 'b': bad},
                      {'plan': plan, 'a': good, 'b': good}, {'plan': plan, 'a': b'X: NOP\n EXPORT X\n', 'b': b' IMPORT Y\n'},
                      {'plan': b'module a 0000 00FF\nmodule a 0100 01FF\n', 'a': b'X: NOP\n EXPORT X\n'}):
            self.assert_as_linked(files)

    def test_limits(self) -> None:
        plan = b'module a 0000 00FF\n'
        for files in ({'plan': plan + b'#' * (65_536 - len(plan)), 'a': b' NOP\n'}, {'plan': plan + b'#' * (65_537 - len(plan)), 'a': b' NOP\n'},
                      {'plan': plan, 'a': b';' * 262_144}, {'plan': plan, 'a': b';' * 262_145},
                      {'plan': plan, 'a': b' DB ' + b'0,' * 65_535 + b'0\n NOP\n'}, {'plan': b'module a 0000 FFFF', 'a': b' DB ' + b'0,' * 65_535 + b'0\n'},
                      {'plan': plan * 64, 'a': b'X:\n'}):
            self.assert_as_linked(files)

    def test_words(self) -> None:
        for words in (['link'], ['link', 'a', 'b'], ['link', '--trace', 'a'], ['link', '-x']):
            done = subprocess.run([PROGRAM, *words], cwd=self.folder, capture_output=True, text=True, timeout=60)
            self.assertEqual((done.stdout, done.returncode), ('error words\n', 1), words)


if __name__ == '__main__':
    unittest.main()
