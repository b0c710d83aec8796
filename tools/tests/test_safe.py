"""The programs of docs/SAFE.md: each is what `check` says below it."""
from __future__ import annotations

import re
import subprocess
import tempfile
import unittest
from pathlib import Path
from typing import Iterator

from tool import PROGRAM, TOP, needs_program

CHIPS = 'format = 1\nsplit = [{split}]\n[[chip]]\nkind = "3851"\nbase = 0\nports = 4\n{wired}source = "text.f8"\n'
RAM = '[[chip]]\nkind = "3853"\nram_page = 0x28\nram_pages = 1\n'
VECTOR = 'vector = 0x0100\ninterrupt = true\n'
PIO = '[[chip]]\nkind = "3861"\nports = 8\n' + VECTOR
VERDICT = re.compile(r'(whole \d+|agreed \d+|refused .*)')


def blocks() -> Iterator[str]:
    """The indented blocks of the page, without their indentation."""
    for block in re.findall(r'(?:^ {4}.*\n|^\n(?= {4}))+', (TOP / 'docs/SAFE.md').read_text(), re.M):
        yield re.sub('^ {4}', '', block, flags=re.M).strip('\n')


def programs() -> Iterator[tuple[str, str]]:
    """Each program, with the line that stands below it as a block of its own."""
    for block in blocks():
        text, _, line = block.rpartition('\n\n')
        if 'ORG $0000' in text and VERDICT.fullmatch(line):
            yield text, line


def checked(text: str, folder: Path) -> str:
    first = text.split('\n')[0]
    split = re.search(r'split = \[(.*?)\]', first)
    (folder / 'text.f8').write_text(text + '\n')
    chips = CHIPS.format(split=split[1] if split else '', wired=VECTOR * ('interrupt' in first)) + RAM * ('RAM' in first)
    (folder / 'cart.toml').write_text(chips.replace('format = 1', 'format = 2') + PIO if '3861' in first else chips)
    return subprocess.run([PROGRAM, 'check', 'cart.toml'], cwd=folder, capture_output=True, text=True, timeout=60).stdout.strip()


WIPING = 'LR A,S\n        LR KU,A\n        CLR\n        LR I,A\n        LR A,S\n        LR KL,A\n        CLR\n        LR S,A\n'
NOT_WIPING = 'LR A,I\n        LR KU,A\n        LR A,S\n        LR KL,A\n'


def checked_signboard(there: str, instead: str) -> str:
    """What `check` says of the signboard with other statements in its routines, and with the address of PRINT that follows from them."""
    folder = TOP / 'cartridges/signboard'
    bios, sign, cart = ((folder / name).read_text() for name in ('bios.f8', 'sign.f8', 'cart.toml'))
    assert there in bios
    with tempfile.TemporaryDirectory() as room:
        Path(room, 'bios.f8').write_text(bios.replace(there, instead))
        names = subprocess.run([PROGRAM, 'asm', 'bios.f8'], cwd=room, capture_output=True, text=True, timeout=60).stdout
        at = int(re.search(r'sym PRINT (\d+)', names)[1])
        Path(room, 'sign.f8').write_text(re.sub(r'(PRINT: *EQU) \S+', rf'\1 {at}', sign))
        Path(room, 'cart.toml').write_text(cart.replace('cartridges/signboard/', ''))
        return subprocess.run([PROGRAM, 'check', 'cart.toml'], cwd=room, capture_output=True, text=True, timeout=60).stdout.strip()


@needs_program
class Safe(unittest.TestCase):
    def test_each_program_is_what_stands_below_it(self):
        found = list(programs())
        self.assertGreaterEqual(len(found), 8)
        with tempfile.TemporaryDirectory() as folder:
            for text, line in found:
                with self.subTest(program=text.split('\n')[:3]):
                    self.assertEqual(checked(text, Path(folder)), line)

    def test_what_is_said_of_the_same_programs_with_less(self):
        found = {line: text for text, line in programs()}
        with tempfile.TemporaryDirectory() as folder:
            self.assertEqual(checked(found['whole 20'].replace('[0]', '[]'), Path(folder)), 'agreed 8')
            pinned = re.sub('.*LISU 4.*\n', '', found['whole 31'])
            self.assertEqual(checked(pinned, Path(folder)), 'refused 0005 ---- 04 12')
            open_wide = re.sub('.* DI\n', '', found['whole 19'])
            self.assertEqual(checked(open_wide, Path(folder)), 'whole 36')
            self.assertEqual(checked(found['whole 19'].partition('        ORG $0180')[0], Path(folder)), 'refused 0180 0007 . 3')
            other = found['whole 19'].replace('; interrupt', '; 3861').replace('OUTS 6 ', 'OUTS 10')
            self.assertEqual(checked(other, Path(folder)), 'whole 19')

    def test_a_signboard_that_wipes_less(self):
        """The numbers of points in the page and in the signboard's README."""
        said = (TOP / 'cartridges/signboard/README.md').read_text() + (TOP / 'docs/SAFE.md').read_text()
        for there, instead in [(WIPING, NOT_WIPING), ('CLR\n        LR QL,A ', '; ')]:
            line = checked_signboard(there, instead)
            self.assertRegex(line, 'whole 1[0-9]{3}')
            self.assertIn(f'{int(line.split()[1]):,}', said)


if __name__ == '__main__':
    unittest.main()
