from __future__ import annotations

import subprocess
import tempfile
import unittest
from pathlib import Path

import tool
from test_survey import COUNTED
from tool import TOP, call, needs_program, needs_toml, tomllib

# A source in a table of one line, which is written anew, and one in a table with a comment.
INLINE = 'format = 1\nsplit = [3]\nchip = [{kind = "3851", base = 0x0400, ports = 8, interrupt = true, vector = 0x0180, source = "a.f8"}]\n'


@needs_toml
@needs_program
class Bundle(unittest.TestCase):
    def setUp(self):
        folder = tempfile.TemporaryDirectory()
        self.addCleanup(folder.cleanup)
        self.folder = Path(folder.name)

    def test_a_cartridge_travels_with_its_certificate(self):
        done = call('bundle', TOP / 'cartridges/copied/cart.toml', '--to', 'there', '--name', 'copied', cwd=self.folder)
        self.assertEqual((done.returncode, done.told), (0, ''))
        self.assertTrue(done.text.endswith(' bytes, whole 30\n'))
        new = (self.folder / 'there/copied.toml').read_text()
        old = (TOP / 'cartridges/copied/cart.toml').read_text()
        self.assertEqual(new.splitlines()[:7], old.splitlines()[:7])  # comments and all keys but the source
        chips = tomllib.loads(new)['chip']
        # By hand: DCI $2800, XDC, DCI $2000, LIS 4, LR 0,A, LM, XDC, ST, XDC, DS 0, BNZ to the LM, and BR to itself.
        self.assertEqual([chip.get('rom') for chip in chips], ['2A28002C2A20007450162C172C3094FA90', 'C0FFEE11'])
        self.assertNotIn('source', chips[0])
        answer = subprocess.run([tool.PROGRAM, 'verify', 'there/copied.toml', 'there/copied.cert'], cwd=self.folder, capture_output=True,
                                text=True)
        self.assertEqual((answer.stdout, answer.returncode), ('whole 30\n', 0))

    def test_a_text_in_another_layout_and_no_certificate(self):
        (self.folder / 'cart.toml').write_text(INLINE)
        (self.folder / 'a.f8').write_text(' ORG $0402\n NOP\n')
        done = call('bundle', 'cart.toml', '--to', 'there', cwd=self.folder)
        self.assertIn('no certificate: refused 0000 ---- -- 1; tools/why cart.toml', done.text)
        self.assertEqual(tomllib.loads((self.folder / 'there/cart.toml').read_text()),
                         {'format': 1, 'split': [3], 'chip': [{'kind': '3851', 'base': 0x400, 'ports': 8, 'interrupt': True, 'vector': 0x180,
                                                               'rom': 'FFFF2B'}]})
        self.assertFalse((self.folder / 'there/cart.cert').exists())

    def test_a_cartridge_travels_with_its_list_of_cases(self):
        """One that `check` refuses, and for which `prove` finds a list."""
        (self.folder / 'cart.toml').write_text(COUNTED)
        done = call('bundle', 'cart.toml', '--to', 'there', cwd=self.folder)
        lines = done.text.splitlines()
        self.assertEqual(lines[1], 'no certificate: refused 000A ---- . 4; tools/why cart.toml looks for the cause')
        self.assertRegex(lines[2], 'there/cart.cases: [0-9,]+ bytes, whole [0-9]+')
        self.assertEqual(sorted(path.name for path in (self.folder / 'there').iterdir()), ['cart.cases', 'cart.toml'])

    def test_format_2(self):
        """All keys of format 2 stay, also where the table is written anew."""
        (self.folder / 'cart.toml').write_text('format = 2\nchip = [{kind = "3853", pages = ["ram 28", "rom 00-01"], fill = 1, start = 2, source = "a.f8"}]\n')
        (self.folder / 'a.f8').write_text(' BR .\n')
        done = call('bundle', 'cart.toml', '--to', 'there', cwd=self.folder)
        self.assertTrue(done.text.endswith(' bytes, whole 1\n'), done.text + done.told)
        self.assertEqual(tomllib.loads((self.folder / 'there/cart.toml').read_text()),
                         {'format': 2, 'chip': [{'kind': '3853', 'pages': ['ram 28', 'rom 00-01'], 'fill': 1, 'start': 2, 'rom': '90'}]})

    def test_what_cannot_be_done(self):
        (self.folder / 'cart.toml').write_text('format = 1\n')
        for words, hint in ((['cart.toml', '--to', '.'], 'would be written over'), (['no.toml'], 'error store cart'),
                            (['cart.toml', '--name', 'a/b'], 'without a folder')):
            done = call('bundle', *words, cwd=self.folder)
            self.assertEqual((done.text, done.returncode, done.told.count('\n')), ('', 1, 1))
            self.assertIn(hint, done.told)
        (self.folder / 'bundle').mkdir()
        (self.folder / 'bundle/cart.cert').write_text('mine')
        self.assertIn('is there already', call('bundle', 'cart.toml', cwd=self.folder).told)
        self.assertEqual((self.folder / 'bundle/cart.cert').read_text(), 'mine')
        self.assertEqual(call('bundle', 'cart.toml', '--force', cwd=self.folder).text.splitlines()[1],
                         'no certificate: refused 0000 ---- . 1; tools/why cart.toml looks for the cause')
        self.assertEqual(sorted(path.name for path in (self.folder / 'bundle').iterdir()), ['cart.toml'])


if __name__ == '__main__':
    unittest.main()
