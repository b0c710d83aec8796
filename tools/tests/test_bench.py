"""The measurements in bench/: their words, the programs that they build, and what they measure. None is run to its end."""
from __future__ import annotations

import contextlib
import io
import sys
import tempfile
import unittest
from pathlib import Path
from types import ModuleType
from typing import Callable
from unittest import mock

from tool import TOP, load

BENCH = TOP / 'bench'
sys.path.insert(0, str(BENCH))  # where the measurements find what they have alike

import measuring  # noqa: E402

PLAIN = ('audit', 'certificates', 'check', 'link')
COUNTED = {'assemble': 'LAPS', 'bus_step': 'LAPS', 'reading': 'LAPS', 'speed': 'SECONDS'}
BUILT = (*PLAIN, 'debug', 'reading', 'speed')


def loaded(name: str) -> ModuleType:
    return load(name, BENCH)


def ended(name: str, *words: str) -> tuple[int, str, str]:
    """How a measurement ends on words: its status, and what it writes and tells."""
    wrote, told = io.StringIO(), io.StringIO()
    with contextlib.redirect_stdout(wrote), contextlib.redirect_stderr(told), mock.patch.object(sys, 'argv', [name, *words]), \
            mock.patch.multiple(sys.modules['companion.words'], drop_output=mock.DEFAULT, give_streams=mock.DEFAULT), mock.patch('signal.signal'):
        try:
            measuring.run(measuring.NAME, loaded(name).main)
        except SystemExit as end:
            return end.code, wrote.getvalue(), told.getvalue()


class Words(unittest.TestCase):
    def test_help_of_all(self) -> None:
        for name in (*PLAIN, 'debug', *COUNTED):
            status, wrote, told = ended(name, '--help')
            self.assertEqual((status, told), (0, ''))
            self.assertIn(f'\n    bench/{name}', wrote)
            self.assertEqual([line for line in wrote.splitlines() if len(line) > 80], [])

    def test_bad_words_end_with_a_line(self) -> None:
        for name, word in COUNTED.items():
            for given in ('x', '0', '-1', 'nan'):
                status, wrote, told = ended(name, given)
                self.assertEqual((status, wrote), (2, ''), (name, given))
                self.assertIn(f'bench/{name}: error: ', told.splitlines()[-1])
            self.assertIn(f'error: argument {word}: ', ended(name, 'x')[2])
        for name in PLAIN:
            self.assertEqual(ended(name, 'x')[::2], (2, f'usage: bench/{name} [-h] [--program PATH]\n'
                                                        f'bench/{name}: error: unrecognized arguments: x\n'))

    def test_a_program_that_is_not_there_or_says_something_else(self) -> None:
        for name in BUILT:
            self.assertEqual(ended(name, '--program', '/nowhere/program'), (1, '', 'bench: /nowhere/program: No such file or directory\n'))
            status, wrote, told = ended(name, '--program', '/bin/false')
            self.assertEqual((status, wrote), (1, ''))
            self.assertRegex(told, r'^bench: the run of \[.*\] tells "" and ends with 1\n$')


class Built(unittest.TestCase):
    """Programs beside copies of the crates, and what rt is asked for."""

    def setUp(self) -> None:
        folder = tempfile.TemporaryDirectory()
        self.addCleanup(folder.cleanup)
        self.top = Path(folder.name, 'top')
        self.put('crates.txt', '# a comment\nlow: std\nside:\nthin: low # above it\nwide: low thin\n')
        self.put('HANDLES', 'handles\n')
        for name in ('low', 'side', 'thin', 'wide'):
            self.put(f'crates/{name}/src/lib.rt', name)
        patched = mock.patch.object(measuring, 'TOP', self.top)
        patched.start()
        self.addCleanup(patched.stop)

    def put(self, name: str, text: str) -> None:
        path = self.top / name
        path.parent.mkdir(parents=True, exist_ok=True)
        path.write_text(text)

    def test_it_lies_beside_the_crates_that_it_stands_on(self) -> None:
        with tempfile.TemporaryDirectory() as name:
            folder = Path(name)
            crate = measuring.OwnProgram('own', ('anyhow', 'thin'), '\nmain\n').write(folder)
            self.assertEqual((folder / 'crates.txt').read_text(), 'low: std\nthin: low\nown: anyhow thin\n')
            self.assertEqual((folder / 'HANDLES').read_text(), 'handles\n')
            self.assertEqual({path.relative_to(folder).as_posix(): path.read_text() for path in folder.glob('crates/*/src/*')},
                             {'crates/low/src/lib.rt': 'low', 'crates/thin/src/lib.rt': 'thin', 'crates/own/src/main.rt': 'main\n'})
            self.assertEqual(crate, folder / 'crates/own')

    def test_the_first_run_has_to_write_what_it_should(self) -> None:
        done = mock.Mock(returncode=0, stdout='size 0\n', stderr='proved\n')
        with mock.patch.object(measuring.subprocess, 'run', return_value=done) as called, tempfile.TemporaryDirectory() as name:
            path = measuring.first_run(Path(name, 'own'), ['assemble', '1'], 'size 0\n')
            self.assertEqual(path, f'{name}/own/out/own')
            self.assertEqual(called.call_args, mock.call(['rt', 'run', '--', 'assemble', '1'], cwd=Path(name, 'own'), capture_output=True, text=True))
            with self.assertRaisesRegex(measuring.Refused, '^the program does not run:\nsize 0\nproved\n$'):
                measuring.first_run(Path(name, 'own'), [], 'size 1\n')


class Measured(unittest.TestCase):
    def test_steps_back_beside_the_steps_and_an_earlier_program(self) -> None:
        debug, ran = loaded('debug'), 'ran 1000000\n'
        printed = {debug.STEPS: ran, 10 * debug.STEPS: 10 * ran, **{debug.STEPS + one.commands: ran + one.printed for one in debug.SESSIONS}}

        def told(words: list[str], is_right: Callable[[measuring.Run], bool]) -> measuring.Cost:
            program, command, _, commands = words
            text = Path(commands).read_text()
            self.assertEqual((command, [is_right(measuring.Run(1, 1, printed[text], status)) for status in (0, 3)]), ('debug', [True, False]))
            return measuring.Cost(text.count('step') + text.count('back') / 2 + (program == '/new'), 1)

        with mock.patch.object(debug, 'cost_of', told), contextlib.redirect_stdout(io.StringIO()) as wrote:
            self.assertEqual(debug.main(['--program', '/new', '/old']), 0)
        lines = wrote.getvalue().splitlines()
        self.assertEqual(lines[:2], ['step, 1,000,000 instructions: 2.000 seconds of processor time (median of 5)',
                                     'back 1: 0.500 seconds besides, 0.25 times the steps (at most 1.2)'])
        self.assertEqual(lines[-1], 'step, 10,000,000 instructions: 11.000 seconds, 1.10 times the 10.000 of the earlier program')

    def test_texts_of_the_size_that_is_said(self) -> None:
        reading = loaded('reading')
        self.assertEqual(len(loaded('assemble').text()), 262_144)
        self.assertEqual((len(reading.FULL_CART), len(reading.FULL_SCRIPT)), (65_536, 65_536))
        self.assertEqual((reading.FULL_CART.count('[[chip]]'), reading.FULL_SCRIPT.count('\nat ')), (16, 1024))

    def test_bytes_over_several_chips(self) -> None:
        self.assertEqual(measuring.described(b'\x2B' * 1024 + b'\x90', chips=3, lines='vector = 9\n', tracked=(0, 1)), f'''format = 1
split = [0, 1]
[[chip]]
kind = "3851"
base = 0
ports = 4
vector = 9
rom = "{'2B' * 1024}"
[[chip]]
kind = "3851"
base = 1024
ports = 8
rom = "90"
[[chip]]
kind = "3851"
base = 2048
ports = 12
rom = ""
''')

    def test_a_loop_goes_back_over_stones(self) -> None:
        # Two bytes and back; and where 130 bytes are too far for one branch, two that lead to each other.
        speed = loaded('speed')
        self.assertEqual(speed.looped([[0x2B], [0x2B]]).hex(), '2b2b90fd')
        code = speed.looped([[0x2B]] * 130)
        at = code.index(0x90)
        self.assertEqual((code[at + 1], code[at + 2]), (3, 0x90))
        stone, end = at + 2, len(code) - 2
        self.assertEqual([place + 1 + (code[place + 1] - 256) for place in (stone, end)], [0, stone])

    def test_processor_time_of_a_run(self) -> None:
        work = [sys.executable, '-S', '-c', 'for n in range(10**6): pass\nprint("done")']
        made = measuring.run_of(work, lambda made: made.output == 'done\n')
        self.assertTrue(0.001 < made.seconds < 30 and made.memory > 1, made)
        self.assertEqual((made.status, measuring.median_of_five(iter([5, 1, 4, 2, 3]).__next__)), (0, 3))


if __name__ == '__main__':
    unittest.main()
