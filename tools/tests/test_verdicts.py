"""Verdicts on large cartridges, on the built program: as many points as there may be, with the certificate of them, one more, and the
generated cartridge."""
from __future__ import annotations

import subprocess
import tempfile
import unittest
from pathlib import Path

from tool import PROGRAM, TOP, needs_program

# Two loops, one in the other: r1 counts 127 times what r0 counts 254 times. Each NOP behind them is a point more. The numbers of points were
# computed by a model of the checker that was written apart.
LOOPS = bytes.fromhex('207F5120FE503094FE3194F8')
END = bytes.fromhex('90FF')
OPCODES = bytes.fromhex('12131415 18191F40 5152C1D2 E3F433B4')
WIRED = 'vector = 0x0100\ninterrupt = true\n'
ROUTINE = b'\x1B\x1C'  # EI; POP


def generated(seed: int) -> bytes:
    """The bytes of the cartridge that `gen` makes, by the README of the crate generator."""
    state, code = seed, bytearray()
    for _ in range(12_285):
        state = (1_664_525 * state + 1_013_904_223) % 2**32
        code.append(OPCODES[(state >> 24) % 16])
    return bytes(code) + b'\x29\x00\x00'


def interrupted(code: bytes, vector: int = 0x0100) -> bytes:
    """Code with a routine at both addresses of a vector."""
    return (code.ljust(vector, b'\xFF') + ROUTINE).ljust(vector + 0x80, b'\xFF') + ROUTINE


def described(code: bytes, tracked: list[int], keys: str = '') -> str:
    """The description of 3851s one behind another that hold the bytes, each with these keys besides."""
    chips = [f'[[chip]]\nkind = "3851"\nbase = {at}\nports = {4 + at // 256}\nrom = "{code[at:at + 1024].hex()}"\n{keys}' for at in range(0, len(code), 1024)]
    return f'format = 1\nsplit = {tracked}\n' + ''.join(chips)


def run(*words) -> tuple[int, str]:
    """The status of the program, and what it writes."""
    done = subprocess.run([PROGRAM, *words], capture_output=True, text=True, timeout=60)
    return done.returncode, done.stdout


def checked(code: bytes, tracked: list[int], keys: str = '') -> tuple[int, str]:
    """The status and the line of `check` for such chips."""
    with tempfile.TemporaryDirectory() as folder:
        cart = Path(folder, 'cart.toml')
        cart.write_text(described(code, tracked, keys))
        return run('check', cart)


@needs_program
class Verdicts(unittest.TestCase):
    def test_as_many_points_as_there_may_be(self):
        self.assertEqual(checked(LOOPS + 509 * b'\x2B' + END, [0, 1]), (0, 'whole 65536\n'))

    def test_the_certificate_of_as_many_points(self):
        with tempfile.TemporaryDirectory() as folder:
            cart, cert = Path(folder, 'cart.toml'), Path(folder, 'cart.cert')
            cart.write_text(described(LOOPS + 509 * b'\x2B' + END, [0, 1]))
            status, text = run('check', '--cert', cart)
            self.assertEqual((status, text[:15], text.count('\n')), (0, 'F8CERT 1 65536\n', 65_537))
            cert.write_text(text)
            self.assertEqual(run('verify', cart, cert), (0, 'whole 65536\n'))
            cert.write_text(text.replace('65536', '65537', 1))
            self.assertEqual(run('verify', cart, cert), (2, 'error cert line 1 cause 2\n'))

    def test_one_point_more(self):
        self.assertEqual(checked(LOOPS + 510 * b'\x2B' + END, [0, 1]), (7, 'toomany\n'))

    def test_calls_are_followed_where_the_return_is_tracked(self):
        code = bytes.fromhex('28001028001090FF').ljust(16, b'\xFF') + bytes.fromhex('082800200C').ljust(16, b'\xFF') + b'\x1C'
        self.assertEqual(checked(code, [12, 13]), (0, 'whole 11\n'))
        self.assertEqual(checked(code, []), (7, 'refused 0014 0014 . 4\n'))

    def test_interrupts_are_followed(self):
        code = interrupted(bytes.fromhex('71B61B90FF'))
        self.assertEqual(checked(code, [], WIRED), (0, 'whole 9\n'))
        status, line = checked(code[:0x180], [], WIRED)
        self.assertEqual((status, line), (7, 'refused 0180 0003 . 3\n'))

    def test_a_vector_that_ports_write_is_refused(self):
        smi = '[[chip]]\nkind = "3853"\nram_page = 0x28\nram_pages = 1\ninterrupt = true\n'
        self.assertEqual(checked(interrupted(bytes.fromhex('71B61B90FF')), [], WIRED + smi), (7, 'refused 0003 ---- . 10\n'))

    def test_returns_of_interrupts_multiply_points(self):
        for nops, answer in [(10, (0, 'whole 164\n')), (60, (0, 'whole 3964\n')), (120, (0, 'whole 15124\n')), (250, (0, 'whole 64004\n')),
                             (253, (0, 'whole 65531\n')), (254, (7, 'toomany\n'))]:
            with self.subTest(nops=nops):
                code = interrupted(bytes.fromhex('71B61B') + nops * b'\x2B' + bytes.fromhex('290003'), 0x0200)
                self.assertEqual(checked(code, [], WIRED.replace('0x0100', '0x0200')), answer)
                self.assertIn(f'`{answer[1].strip()}`', (TOP / 'docs/CHECKER.md').read_text())

    def test_the_generated_cartridge(self):
        self.assertEqual(checked(generated(1), []), (0, 'whole 12286\n'))


if __name__ == '__main__':
    unittest.main()
