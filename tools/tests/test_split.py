"""tools/split: a list is found wherever one is known, and where none is, the cause is said."""
from __future__ import annotations

import tempfile
import unittest
from pathlib import Path

import nested_calls
from tool import call, needs_program, needs_toml


LONG = ('--seconds', 55)  # on a machine that is busy


@needs_program
@needs_toml
class Split(unittest.TestCase):
    def test_the_lists_that_are_known(self):
        for name, line, verdict in [('copied', 'split = [0]', 'whole 30'), ('product', 'split = []', 'whole 30')]:
            with self.subTest(cartridge=name):
                done = call('split', *LONG, f'cartridges/{name}/cart.toml')
                self.assertEqual((done.returncode, done.text.splitlines()[:2]), (0, [line, verdict]))

    def test_what_a_register_is_for(self):
        told = call('split', *LONG, 'cartridges/copied/cart.toml').text.splitlines()
        self.assertEqual(told[2], 'r0: without it, refused 0009 ---- . 7: 0009  COPY, copy.f8 line 11: LM')

    def test_agreed_becomes_whole(self):
        # The counter of the loop is r2: LR 2,A at 0404 and DS 2 at 0407.
        self.assertEqual(call('split', *LONG, 'cartridges/two_roms/cart.toml').text.splitlines()[0], 'split = [2]')

    def test_a_stack_with_its_pointer_in_r59(self):
        with tempfile.TemporaryDirectory() as folder:
            path = nested_calls.write(Path(folder), [])
            done = call('split', *LONG, path, cwd=Path(folder))
        # The low bytes alone: r13 of K, and r41 of the slot in r40 and r41, which holds a return while another call is made.
        self.assertEqual((done.returncode, done.text.splitlines()[0]), (0, 'split = [13, 41]'))
        self.assertTrue(done.text.splitlines()[1].startswith('whole '))

    def test_what_is_not_needed_is_left_out(self):
        """Two ways set r3 and r5 to 1 or 2, and call by r3. Then r3 is cleared, the ways meet again, and call by r5: with r5 alone they stay apart."""
        code = {0x00: 'A0' '8406' '715553' '9004' '725553' '7004' '43152420050C',  # INS 0; BZ; LIS 1; ..; LR A,3; SL 4; AI $20; LR KL,A; PK
                0x30: '7053290050', 0x40: '7053290050',  # CLR; LR 3,A; JMP $0050
                0x50: '4515245005' '70040C', 0x60: '90FF', 0x70: '90FF'}  # LR A,5; SL 4; AI $50; LR KL,A; CLR; LR KU,A; PK
        rom = bytearray(b'\xff' * 0x80)
        for at, digits in code.items():
            part = bytes.fromhex(digits)
            rom[at:at + len(part)] = part
        with tempfile.TemporaryDirectory() as folder:
            Path(folder, 'cart.toml').write_text(f'format = 1\n[[chip]]\nkind = "3851"\nbase = 0\nports = 4\nrom = "{rom.hex()}"\n')
            done = call('split', *LONG, 'cart.toml', cwd=Path(folder))
        self.assertEqual((done.returncode, done.text.splitlines()[0]), (0, 'split = [5]'))

    def test_where_nothing_helps(self):
        done = call('split', *LONG, 'cartridges/parted/cart.toml')
        self.assertEqual(done.returncode, 7)
        self.assertIn('No list of registers was found.\nWith split = [0]: refused 0009 ---- 03 7\n', done.text)
        self.assertIn('that is known to stand at 0014, which chip 0 holds', done.text)

    def test_calls_are_bounded(self):
        done = call('split', '--calls', 1, 'cartridges/copied/cart.toml')
        self.assertEqual(done.returncode, 7)
        self.assertIn('No list of registers was found in 1 call: --calls and --seconds give it longer.', done.text)
        self.assertIn('With split = []: refused 0009 ---- . 7', done.text)

    def test_no_list_for_a_register_that_a_port_gives(self):
        # INS 0; LR 0,A; then K from r0: LR A,0; LR KL,A; LIS 0; LR KU,A; PK
        with tempfile.TemporaryDirectory() as folder:
            Path(folder, 'cart.toml').write_text('format = 1\n[[chip]]\nkind = "3851"\nbase = 0\nports = 4\nrom = "A0504005' '70040C"\n')
            done = call('split', *LONG, 'cart.toml', cwd=Path(folder))
        self.assertEqual(done.returncode, 7)
        self.assertIn("r13 isn't known: it comes from port 00", done.text)


if __name__ == '__main__':
    unittest.main()
