"""The walk of docs/DEBUGGER.md on the built program: every command of the page prints what the page says."""
from __future__ import annotations

import re
import subprocess
import tempfile
import unittest
from pathlib import Path

from tool import PROGRAM, TOP, needs_program

SHOWN = [
    'ran 4',
    'chip 0 3851 PC0=0009 PC1=0000 DC0=0010',
    'chip 12 3853 PC0=0009 PC1=000C DC0=2800 DC1=0010',
    'probe PC0=0009 PC1=0000 DC0=2800 DC1=0010']
# DCI 2800, XDC, DCI 0010, XDC and LM, with a page of RAM.
CART = ('format = 1\n[[chip]]\nkind = "3851"\nbase = 0\nports = 4\nrom = "2A28002C2A00102C16"\n'
        '[[chip]]\nkind = "3853"\nram_page = 0x28\nram_pages = 1\n')


def walk() -> tuple[str, str]:
    """The commands of the page in their order, and all that they print."""
    text = (TOP / 'docs/DEBUGGER.md').read_text('utf-8')
    parts = re.findall(r'((?:^    .*\n)+)\nprints\n\n((?:^    .*\n)+)', text, re.M)
    return tuple(''.join(re.sub(r'^    ', '', part, flags=re.M) for part in side) for side in zip(*parts))


@needs_program
class Debugger(unittest.TestCase):
    def told(self, cart: str, commands: str) -> subprocess.CompletedProcess:
        with tempfile.TemporaryDirectory() as folder:
            path = Path(folder, 'commands.txt')
            path.write_text(commands)
            return subprocess.run([PROGRAM, 'debug', cart, path], cwd=TOP, capture_output=True, text=True, timeout=60)

    def test_the_walk_prints_what_the_page_says(self):
        commands, printed = walk()
        self.assertGreaterEqual(commands.count('\n'), 12)
        done = self.told('cartridges/parted/cart.toml', commands)
        self.assertEqual((done.stdout, done.returncode), (printed, 0))

    def test_the_file_has_the_commands_of_the_page(self):
        lines = (TOP / 'cartridges/parted/commands.txt').read_text('utf-8').splitlines()
        self.assertEqual(''.join(f'{line}\n' for line in lines if line and not line.startswith('#')), walk()[0])

    def test_counters_of_each_chip(self):
        with tempfile.NamedTemporaryFile('w', suffix='.toml') as cart:
            cart.write(CART)
            cart.flush()
            done = self.told(cart.name, 'step 4\nshow chips\n')
        self.assertEqual((done.stdout.splitlines(), done.returncode), (SHOWN, 0))

    def test_refusals(self):
        for commands, line in (('walk 5\n', 'error debug line 1 cause 1'), ('step 5\nstep 1000001\n', 'error debug line 2 cause 3')):
            done = self.told('cartridges/parted/cart.toml', commands)
            self.assertEqual((done.stdout, done.returncode), (line + '\n', 2))
