"""Words of each command: what is done where they ask for something, by files of such names, and the lines that are refused."""
from __future__ import annotations

import subprocess
import unittest

from tool import PROGRAM, needs_program
from rooms import Room

# LIS 1, NOP and BR to the NOP.
CART = 'format = 1\n[[chip]]\nkind = "3851"\nbase = 0\nports = 4\nrom = "712B90FE"\n'
SCRIPT = 'steps 1\n'
POINTS = ''.join(f'{line} -- 00000 0000 0000 ---- 0000 {"-" * 128}\n' for line in ('0000 ---- . --', '0001 ---- . 01', '0002 ---- . 01'))
CERT = 'F8CERT 1 3\n' + POINTS
CASES = 'F8CASES 1 3\n' + ''.join(
    f'{at} ---- {a} -- 00000 0000 0000 ---- 0000 --{" --" * 64}\n' for at, a in (('0000', '--'), ('0001', '01'), ('0002', '01')))
TRACE = 'bus 1C S 00 -\nbus 08 L 00 cpu\nbus 00 S 71 0\nbus 00 S 2B 0\n'
PLAN = 'module text 0000 00FF\n'
COMMANDS = 'step 1\n'

# The words behind `play`, with the files that stand for the description and the script.
RUNS = {'game.toml run.txt': ('game.toml', 'run.txt'), '-- a -b': ('a', '-b'), '- s': ('-', 's'), 'a -- -b': ('a', '-b'),
        'a b --': ('a', 'b'), 'a -- --': ('a', '--'), 'help play': ('help', 'play'), 'a -- --trace': ('a', '--trace'),
        'trace -': ('trace', '-')}
TRACED = {'a b --trace': ('a', 'b'), 'a --trace b': ('a', 'b'), '--trace a b': ('a', 'b'), '--trace -- -a -b': ('-a', '-b'),
          'a --trace -- --trace': ('a', '--trace'), 'a b --trace --': ('a', 'b')}
# Lines of words, the files that are there, and what is written first.
DONE = {
    'ref c s': ({'c': CART, 's': SCRIPT}, 'stop done'),
    'ref c -- s': ({'c': CART, 's': SCRIPT}, 'stop done'),
    'migrate c.toml': ({'c.toml': CART}, None),
    'asm a.asm': ({'a.asm': ' NOP\n'}, '0000 2B'),
    'asm -- --': ({'--': ' NOP\n'}, '0000 2B'),
    'link plan': ({'plan': PLAN, 'text': ' NOP\n'}, '0000 2B'),
    'dis -': ({'-': '2B'}, 'ORG $0000'),
    'dis b --': ({'b': '2B'}, 'ORG $0000'),
    'dis -- --help': ({'--help': '2B'}, 'ORG $0000'),
    'audit c s t': ({'c': CART, 's': SCRIPT, 't': TRACE}, 'accept 1'),
    'audit c -- s --trace': ({'c': CART, 's': SCRIPT, '--trace': TRACE}, 'accept 1'),
    'audit c.toml s -- --trace': ({'c.toml': CART, 's': SCRIPT, '--trace': TRACE}, 'accept 1'),
    'check c.toml': ({'c.toml': CART}, 'whole 3'),
    'check --cert c.toml': ({'c.toml': CART}, 'F8CERT 1 3'),
    'check c --cert --': ({'c': CART}, 'F8CERT 1 3'),
    'check -- --cert': ({'--cert': CART}, 'whole 3'),
    'verify c.toml -- -': ({'c.toml': CART, '-': CERT}, 'whole 3'),
    'prove c.toml': ({'c.toml': CART}, 'whole 3'),
    'prove --cases c.toml': ({'c.toml': CART}, 'F8CASES 1 3'),
    'prove c --cases --': ({'c': CART}, 'F8CASES 1 3'),
    'prove -- --cases': ({'--cases': CART}, 'whole 3'),
    'confirm c.toml -- -': ({'c.toml': CART, '-': CASES}, 'whole 3'),
    'debug c.toml -- -': ({'c.toml': CART, '-': COMMANDS}, 'ran 1'),
}
# Words that are taken, though a file is missing: the one without a name, or one that can't be what it is named for.
TAKEN = {
    'play  s': ({'s': SCRIPT}, 4, 'error store cart'),
    'play --trace - ': ({'-': CART}, 4, 'error store script'),
    'play -- --trace --trace': ({'--trace': CART}, 2, 'error script line 1 cause 1'),
    'asm ': ({}, 4, 'error store file'),
    'audit - trace ': ({'-': CART, 'trace': SCRIPT}, 4, 'error store trace'),
}
SEEDS = {'gen 0': 0, 'gen 1': 1, 'gen 0000000000': 0, 'gen 0000000001': 1, 'gen 12 --': 12, 'gen -- 9': 9, 'gen 4294967295': 4_294_967_295}
REFUSED = {
    'seeds': ['gen', 'gen ', 'gen --', 'gen 1 2', 'gen 4294967296', 'gen 9999999999', 'gen 00000000001', 'gen 04294967295', 'gen +1',
              'gen -1', 'gen -- -1', 'gen 1_0', 'gen 0x10', 'gen 1a', 'gen \u0661', 'gen --trace 1'],
    'too few or too many': [
        '', 'play', 'play a', 'play a --', 'play a b c', 'play -- a b c', 'ref a', 'ref a b ', 'check --cert', 'verify c', 'prove',
        'prove a b', 'confirm c', 'debug c', 'audit a b', 'audit c s', 'audit a b c d', 'audit c s t u', 'migrate', 'asm', 'asm --',
        'asm a b', 'dis', 'dis a -- b'],
    'commands that there are not': ['help', '--help', '-h', '--version', '-- play a b', 'Play a b', 'run a b', '--trace play a b'],
    'flags that there are not': [
        'play -a b', 'play a b -c', 'play a b --trace=x', 'play a b --trace=', 'play a b --tracex', 'play a b --trac', 'play a b -trace',
        'play a b -t', 'play a b --Trace', 'check --cert=x c', 'play --help', 'ref -h a b', 'asm --version', 'asm -V', 'asm -\u00e9',
        'dis --help', 'dis -- -a -- b'],
    'flags twice, or without their names': [
        'play --trace a b --trace', 'play --trace --trace a b', 'play a --trace b --trace --', 'play --trace', 'play --trace a',
        'play a b c --trace', 'check --cert c --cert', 'prove --cases c --cases'],
    'flags of other commands': [
        'ref a b --trace', 'ref --trace a b', 'asm --trace a', 'asm --cert a', 'audit --trace c s t', 'check --trace c', 'verify c --cert',
        'check --cases c', 'prove --cert c', 'confirm --cases a b', 'dis a --trace'],
}


@needs_program
class Words(Room):
    def told(self, words: list[str], files: dict[str, str]) -> tuple[int, list[str]]:
        """The status and the lines, where these files are there and no others."""
        for old in self.room.iterdir():
            old.unlink()
        for name, text in files.items():
            self.put(name, text)
        done = subprocess.run([PROGRAM, *words], cwd=self.room, capture_output=True, timeout=60)
        return done.returncode, done.stdout.decode().splitlines()

    def test_runs(self):
        for rows, traced in ((RUNS, False), (TRACED, True)):
            for line, (cart, script) in rows.items():
                with self.subTest(line):
                    status, lines = self.told(['play', *line.split(' ')], {cart: CART, script: SCRIPT})
                    self.assertEqual((status, lines[0], 'stop done' in lines), (0, 'verdict whole', True))
                    self.assertEqual(any(line.startswith('bus ') for line in lines), traced)

    def test_what_other_words_ask_for(self):
        for line, (files, first) in DONE.items():
            with self.subTest(line):
                status, lines = self.told(line.split(' '), files)
                self.assertEqual((status, first or lines[0]), (0, lines[0]))

    def test_words_that_are_taken_without_such_a_file(self):
        for line, (files, status, refusal) in TAKEN.items():
            with self.subTest(line):
                self.assertEqual(self.told(line.split(' '), files), (status, [refusal]))

    def test_seeds(self):
        """The first line has the number. The run behind it isn't waited for."""
        for line, seed in SEEDS.items():
            with self.subTest(line):
                with subprocess.Popen([PROGRAM, *line.split(' ')], cwd=self.room, stdout=subprocess.PIPE) as child:
                    self.assertEqual(child.stdout.readline().decode(), f'gen {seed}\n')
                    child.terminate()

    def test_words_refused(self):
        """Of `link` and `migrate` some more stand in test_linking and test_formats."""
        for sort, lines in REFUSED.items():
            for line in lines:
                with self.subTest(line, sort=sort):
                    self.assertEqual(self.told(line.split(' '), {}), (1, ['error words']))

    def test_no_words(self):
        self.assertEqual(self.told([], {}), (1, ['error words']))


if __name__ == '__main__':
    unittest.main()
