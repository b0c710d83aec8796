"""tools/starve: which programs it takes, and that a call of the built program ends as it has to without any one of its allocations."""
from __future__ import annotations

import contextlib
import io
import re
import tempfile
import unittest
from pathlib import Path
from unittest import mock

import tool

starve = tool.load('starve')


class Programs(unittest.TestCase):
    def test_only_programs_with_symbols(self):
        with tempfile.NamedTemporaryFile() as text:
            text.write(b'#!/bin/sh\n')
            text.flush()
            done = tool.call('starve', '--program', text.name, 'gen', '1')
        self.assertEqual((done.returncode, done.text), (2, ''))
        self.assertTrue(done.told.startswith('starve: '))

    def test_a_missing_program(self):
        self.assertEqual(tool.call('starve', '--program', '/missing', 'gen', '1').returncode, 2)

    def test_help(self):
        done = tool.call('starve', '--help')
        self.assertEqual(done.returncode, 0)
        self.assertIn('Refuses each allocation', done.text)


class Played(starve.Starving):
    """A call whose runs are given: the first with all memory, and then each without one allocation."""

    def __init__(self, *runs: tuple[int, bytes]):
        self.words, self.runs = ['asm', 'x.f8'], runs

    def once(self, refused: int | None) -> tuple[int, int, bytes]:
        status, written = self.runs[refused or 0]
        return status, len(self.runs) - 1, written


class Judging(unittest.TestCase):
    def judged(self, *runs: tuple[int, bytes]) -> tuple[bool, str]:
        told = io.StringIO()
        with contextlib.redirect_stdout(told):
            right = Played(*runs).all()
        return right, told.getvalue()

    def test_each_run_ends_with_6_and_writes_nothing(self):
        self.assertEqual(self.judged((0, b'0000 2B\n'), (6, b''), (6, b'')), (True, (
            'asm x.f8: status 0, 8 bytes, 2 allocations\n'
            'asm x.f8: 2 allocations refused, 2 of them with status 6 and nothing written\n')))

    def test_a_run_that_wrote_something_is_wrong(self):
        right, told = self.judged((0, b'0000 2B\n'), (6, b''), (6, b'0'))
        self.assertFalse(right)
        self.assertIn('without allocation 2 status 6, 1 bytes written\n', told)
        self.assertIn('2 allocations refused, 1 of them with status 6', told)

    def test_a_run_that_ends_otherwise_is_wrong(self):
        for ended in (0, 2, -11):
            right, told = self.judged((0, b''), (ended, b''), (6, b''))
            self.assertFalse(right)
            self.assertIn(f'without allocation 1 status {ended}, 0 bytes written\n', told)

    def test_a_program_that_asks_for_nothing_shows_nothing(self):
        self.assertFalse(self.judged((0, b''))[0])

    def test_one_call_of_its_own_that_fails_is_told(self):
        for wrong, status in ((None, 0), ('play', 1), ('debug', 1), ('asm', 1), ('check', 1)):
            with mock.patch.object(starve, 'Starving', lambda program, words, folder: mock.Mock(all=lambda: words[0] != wrong)):
                self.assertEqual(starve.main(['--program', '/bin/sh']), status)


@tool.needs_program
class Calls(unittest.TestCase):
    def test_a_session_without_each_allocation(self):
        with tempfile.TemporaryDirectory() as folder:
            call = next(call for call in starve.own_calls(Path(folder)) if call[0] == 'debug')
            commands = Path(folder, call[2])
            done = [tool.call('starve', *call, cwd=Path(folder))]
            # As many commands without a key byte and a pulse: then the session keeps nothing.
            commands.write_text(re.sub('(?m)^(keys|pulse) .*', 'clear', starve.SESSION))
            done.append(tool.call('starve', *call, cwd=Path(folder)))
        if done[0].returncode == 2:
            self.skipTest(done[0].told)
        self.assertEqual([one.returncode for one in done], [0, 0], done[0].text)
        kept, plain = (int(re.search(r'(\d+) allocations refused, \1 of them with status 6 and nothing written\n\Z', one.text)[1]) for one in done)
        self.assertGreater(kept, plain)

    def test_an_assembly_without_each_allocation(self):
        with tempfile.TemporaryDirectory() as folder:
            Path(folder, 'loop.f8').write_text(starve.LOOP)
            done = tool.call('starve', 'asm', 'loop.f8', cwd=Path(folder))
        if done.returncode == 2:
            self.skipTest(done.told)
        self.assertEqual(done.returncode, 0, done.text)
        self.assertRegex(done.text, r'\Aasm loop.f8: status 0, 23 bytes, \d+ allocations\n')
        counts = re.findall(r'(\d+) allocations refused, (\d+) of them with status 6 and nothing written\n\Z', done.text)
        self.assertEqual(len(counts), 1)
        self.assertEqual(counts[0][0], counts[0][1])
        self.assertGreater(int(counts[0][0]), 16)
