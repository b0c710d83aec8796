from __future__ import annotations

import csv
import subprocess
import tempfile
import unittest
from pathlib import Path

import tool
from test_describe import needs_toml
from tool import call, needs_program

# A branch to itself; with NOP before it; and a read of a port that no chip has.
LOOP = 'format = 1\n[[chip]]\nkind = "3851"\nbase = 0\nports = 4\nrom = "90FF"\n'
LONGER = LOOP.replace('90FF', '2B90FF')
REFUSED = LOOP.replace('90FF', 'A8')
# LIS 3; LR 0,A; DS 0; BNZ to the DS; LR A,0; LR KU,A; LI 10; LR KL,A; PK; at 0010 BR . : after the loop register 0 has 0.
COUNTED = LOOP.replace('90FF', '7350' '30' '94FE' '4004' '201005' '0C' 'FFFFFFFFFF' '90FF')
SOURCE = LOOP.replace('rom = "90FF"', 'source = "deep/loop.f8"')


@needs_toml
@needs_program
class Survey(unittest.TestCase):
    def setUp(self):
        folder = tempfile.TemporaryDirectory()
        self.addCleanup(folder.cleanup)
        self.folder = Path(folder.name)

    def write(self, **files: str) -> None:
        for name, text in files.items():
            path = self.folder / name.replace('__', '/').replace('_', '.')
            path.parent.mkdir(exist_ok=True)
            path.write_text(text)

    def rows(self, *words: object) -> list[list[str]]:
        self.done = call('survey', '--csv', *words, cwd=self.folder)
        return [[row[name] for name in ('description', 'check', 'points', 'certificate', 'verify', 'why')]
                for row in csv.DictReader(self.done.text.splitlines())]

    def test_all_that_is_below_a_folder(self):
        self.write(a_toml=LOOP, b_toml=LONGER, deep__c_toml=SOURCE, deep__loop_f8=' BR .\n', deep__other_toml='[tool]\nx = 1\n')
        certificate = subprocess.run([tool.PROGRAM, 'check', '--cert', self.folder / 'a.toml'], capture_output=True, text=True).stdout
        self.write(a_cert=certificate)
        self.assertEqual(self.rows('.'), [['a.toml', 'whole', '1', 'a.cert', 'whole', ''], ['b.toml', 'whole', '2', '', '', ''],
                                          ['deep/c.toml', 'whole', '1', '', '', '']])
        self.assertEqual(self.done.returncode, 0)
        self.write(b_cert=certificate)
        self.assertEqual(self.rows('b.toml'), [['b.toml', 'whole', '2', 'b.cert', 'notclosed', 'notclosed 0000 ---- . to 0001 ---- .']])
        self.assertEqual(self.done.returncode, 7)

    def test_one_failure_ends_nothing_else(self):
        self.write(a_toml='format = ', b_toml=LOOP, c_toml=REFUSED, d__d_toml=LOOP, d__x_cert='F8CERT')
        self.assertEqual(self.rows('.'), [
            ['a.toml', 'error', '', '', '', 'error cart toml'], ['b.toml', 'whole', '1', '', '', ''],
            ['c.toml', 'refused', '', '', '', 'refused 0000 ---- . 9'],
            ['d/d.toml', 'whole', '1', 'd/x.cert', 'error', 'error cert line 1 cause 5']])
        self.assertEqual(self.done.returncode, 2)
        self.assertEqual([row[1] for row in self.rows('b.toml', '--program', 'false')], ['failed'])
        self.assertEqual(self.done.returncode, 1)
        self.assertEqual([row[1] for row in self.rows('b.toml', '--program', 'no/such/program')], ['failed'])

    def test_a_table_for_people(self):
        self.write(b_toml=LOOP, c_toml=REFUSED)
        done = call('survey', '--jobs', 1, '.', cwd=self.folder)
        lines = done.text.splitlines()
        self.assertEqual(lines[0].split(), ['description', 'check', 'points', 'verify', 'seconds', 'why'])
        self.assertRegex(lines[1], r'^b\.toml       whole         1          +\d+\.\d$')
        self.assertEqual((lines[-1], done.returncode), ('2 descriptions: 1 whole, 1 refused', 7))

    def test_what_prove_finds(self):
        self.write(a_toml=COUNTED, b_toml=LOOP, c_toml=REFUSED)
        done = call('survey', '--csv', '--prove', '.', cwd=self.folder)
        rows = [(row['check'], row['prove'], row['entries'].isdigit(), row['why']) for row in csv.DictReader(done.text.splitlines())]
        self.assertEqual(rows, [('refused', 'whole', True, 'refused 000A ---- . 4'), ('whole', '', False, ''),
                                ('refused', 'unproved', False, 'refused 0000 ---- . 9; unproved 0000 ---- . 9')])
        self.assertEqual(done.returncode, 7)
        done = call('survey', '--prove', 'a.toml', cwd=self.folder)
        self.assertEqual(done.text.splitlines()[-1], '1 descriptions: 1 refused; `prove` of 1: 1 whole')
        self.assertEqual(done.returncode, 0)

    def test_nothing_to_ask_for(self):
        for words, hint in ((['.'], 'no description'), (['nowhere'], 'no such folder')):
            done = call('survey', *words, cwd=self.folder)
            self.assertEqual((done.text, done.returncode), ('', 1))
            self.assertIn(hint, done.told)


if __name__ == '__main__':
    unittest.main()
