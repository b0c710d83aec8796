"""tools/soak: cases of a fixed seed agree, the same seed gives the same cases, and a program that lies is found."""
from __future__ import annotations

import os
import re
import stat
import subprocess
import sys
import tempfile
import unittest
from collections import Counter
from pathlib import Path
from random import Random

import tool
from tool import PROGRAM, needs_program, needs_toml

if tool.tomllib:
    from companion.soaking import described
    from companion.soaking.answers import fault_in
    from companion.soaking.calls import Caller, Told
    from companion.soaking.commanded import commands_refusal, plain_words
    from companion.soaking.crew import Plan, Worker, ended, pieces
    from companion.soaking.kinds import KINDS, WHEEL, kind_of
    from companion.soaking.trials import Outcome, Trial

CASES, SEED = 300, 5
PSU = 'format = 1\n[[chip]]\nkind = "3851"\nbase = 0\nports = 4\nrom = "90FF"\n'
# By hand: descriptions with the line by which each is refused, if it is.
DESCRIPTIONS = [
    (PSU, None), ('', 'error cart key format cause 1'), ('format = 3', 'error cart key format cause 4'), ('format = true', 'error cart key format cause 3'),
    ('format', 'error cart toml'), ('at = "\\e"', 'error cart key ? cause 2'), ('at = "\\q"', 'error cart toml'),
    (PSU.replace('ports = 4\n', ''), 'error cart chip 0 key ports cause 1'),
    (PSU.replace('base = 0', 'base = 5'), 'error cart chip 0 key base cause 5'), (PSU.replace('90FF', '90F'), 'error cart chip 0 key rom cause 7'),
    (PSU + 'source = "x"\n', 'error cart chip 0 key source cause 8'), (PSU + 'start = 1\n', 'error cart chip 0 key ? cause 2'),
    ('split = [1, 1]\n' + PSU, 'error cart key split cause 4'), (PSU.replace('3851', '3861'), 'error cart chip 0 key kind cause 4'),
    ('format = 2\n[[chip]]\nkind = "3853"\npages = ["ram 28", "ram 27-28"]\n', 'error cart chip 0 key pages cause 5'),
    ('format = 1\n[[chip]]\nkind = "3853"\nrom_page = 3\nrom_pages = 2\nram_page = 4\nram_pages = 1\n', 'error cart chip 0 key ram_pages cause 5')]
COMMANDS = [('step 5\n', None), ('step 1000001', 'error debug line 1 cause 3'), ('\nback run', 'error debug line 2 cause 2'), ('mem 28 1', 'error debug line 1 cause 2'),
            ('break', 'error debug line 1 cause 1'), ('step 1000000\n' * 10 + 'run 1', 'error debug line 11 cause 4'), ('clear ', 'error debug line 1 cause 1')]
WORDS = [(('check', 'x'), ['x']), (('check', '--cert', 'x'), ['x']), (('check', 'x', '--', '--cert'), None), (('check', '--', '--cert'), ['--cert']),
         (('play', 'x'), None), (('dis', '-'), ['-']), (('dis', '--trace', 'x'), None), (('gen', '4294967296'), None), (('gen', '007'), ['007']), ((), None)]


class Stub:
    """A program that refuses all words."""

    def call(self, *words):
        return Told(words, b'error words\n', 1, 0.0)


@needs_toml
class Cases(unittest.TestCase):
    """What can be tried without the program."""

    def setUp(self):
        room = tempfile.TemporaryDirectory()
        self.addCleanup(room.cleanup)
        self.addCleanup(os.chdir, os.getcwd())
        os.chdir(room.name)

    def tried(self, seed: int, number: int) -> tuple:
        trial = Trial(seed, number, Stub(), Random(f'{seed} {number}'))
        ended(trial, KINDS[kind_of(number)].tried)
        trial.take_away()
        return trial.files, trial.calls

    def test_the_same_number_gives_the_same_case(self):
        numbers = [number for number in range(100) if kind_of(number) != 'opcodes']
        first = [self.tried(SEED, number) for number in numbers]
        self.assertEqual([self.tried(SEED, number) for number in reversed(numbers)], first[::-1])
        others = [self.tried(SEED + 1, number) for number in numbers]
        self.assertLess(sum(one == other for one, other in zip(first, others)), 10)
        self.assertEqual(os.listdir('.'), [])

    def test_each_kind_has_its_share(self):
        self.assertEqual(Counter(WHEEL), {name: kind.share for name, kind in KINDS.items()})
        self.assertEqual([len(piece) for piece in pieces(range(100, 300))], [28, 128, 44])

    def test_descriptions_by_hand(self):
        for text, line in DESCRIPTIONS:
            self.assertEqual(described.refusal_of(text.encode()), line, text)

    def test_commands_and_words_by_hand(self):
        for text, line in COMMANDS:
            self.assertEqual(commands_refusal(text.encode()), line, text)
        for words, names in WORDS:
            self.assertEqual(plain_words(words), names, words)

    def test_the_table_of_answers(self):
        for words, output, status, is_right in [
                (('check', 'x'), b'whole 3\n', 0, True), (('check', 'x'), b'whole 3\n', 7, False), (('check', 'x'), b'whole 3', 0, False),
                (('check', 'x'), b'', 139, False), (('check', 'x'), b'error cart toml\n', 2, True), (('check', 'x'), b'error script line 1 cause 1\n', 2, False),
                (('check', 'x'), b'error cart toml\nwhole 3\n', 2, False), (('asm', 'x'), b'error store file\n', 4, True), (('asm', 'x'), b'', 0, True),
                (('ref', 'x', 'y'), b'error words\n', 1, True), ((), b'error words\n', 1, True), ((), b'', 0, False), (('gen', '1'), b'error store file\n', 4, False)]:
            self.assertEqual(fault_in(Told(words, output, status, 0.1)) == '', is_right, (words, output, status))
        self.assertIn('seconds', fault_in(Told(('check', 'x'), b'whole 3\n', 0, 99.0)))
        self.assertIn('error', fault_in(Told(('check', 'x'), b'whole 3\n', 0, 0.1, b'out of range')))

    def test_calls(self):
        caller = Caller(['sh', '-c', 'echo "$1"; echo more >&2; exit 3', 'sh'], Path('errors'))
        self.addCleanup(caller.close)
        for _ in range(2):
            told = caller.call('play')
            self.assertEqual((told.output, told.status, told.errors, told.is_ended), (b'play\n', 3, b'more\n', False))
        self.assertEqual(Caller(['sh', '-c', 'kill -9 $$'], Path('errors')).call('play').status, 137)

    def test_a_case_that_can_not_be_tried_is_lost_and_kept(self):
        worker = Worker(Plan(('sh', '-c', 'kill -9 $$'), Path.cwd(), Path.cwd() / 'kept', SEED))
        number = next(number for number in range(100) if kind_of(number) == 'texts')
        outcome, finding = worker.tried(number, 'texts')
        self.assertEqual((outcome, finding.what), (Outcome.LOST, 'it ended with the status 137'))
        self.assertEqual(sorted(path.name for path in Path(finding.folder).iterdir()), ['calls', 'digits.txt'])


# A program that changes a line of one command's answers.
LIAR = '''#!/bin/sh
if [ "$1" = {command} ]; then
    out=$({program} "$@"; echo "$?")
    printf '%s\\n' "$out" | sed -e '$d' -e '{edit}'
    exit "$(printf '%s\\n' "$out" | tail -n 1)"
fi
exec {program} "$@"
'''


@needs_program
@needs_toml
class Soaks(unittest.TestCase):
    def setUp(self):
        room = tempfile.TemporaryDirectory()
        self.addCleanup(room.cleanup)
        self.room = Path(room.name)

    def soaked(self, *words: object):
        given = map(str, ('--program', PROGRAM, '--seed', SEED, '--keep', self.room / 'found', *words))
        return subprocess.run([sys.executable, tool.TOOLS / 'soak', *given], cwd=self.room, capture_output=True, text=True, timeout=300)

    def lying(self, command: str, edit: str) -> Path:
        path = self.room / 'liar'
        path.write_text(LIAR.format(command=command, program=PROGRAM, edit=edit))
        path.chmod(path.stat().st_mode | stat.S_IXUSR)
        return path

    def test_cases_agree(self):
        done = self.soaked('--cases', CASES)
        self.assertEqual(done.returncode, 0, done.stdout)
        lines = done.stdout.splitlines()
        self.assertEqual(lines[0].split(), ['kind', 'cases', 'agreed', 'refused', 'lost', 'differed'])
        self.assertRegex(lines[-1], rf'^all +{CASES} +\d+ +\d+ +0 +0$')
        self.assertFalse((self.room / 'found').exists())

    def test_a_program_that_lies_is_found(self):
        for kind, command, edit, cases in (('runs', 'ref', 's/ A=[0-7]/ A=8/', 6), ('traces', 'audit', 's/accept/accept 1/', 4)):
            done = self.soaked('--kind', kind, '--cases', cases, '--jobs', 1, '--program', self.lying(command, edit))
            self.assertEqual(done.returncode, 1, done.stdout)
            found = re.search(rf'^{kind}, seed {SEED}, case (\d+): (?:differed|lost)\n    .*\n    cd (\S+) && ', done.stdout, re.M)
            self.assertTrue(found, done.stdout)
            self.assertIn('calls', os.listdir(found[2]))
            self.assertEqual(self.soaked('--first', found[1], '--cases', 1).returncode, 0)

    def test_without_a_program(self):
        done = self.soaked('--cases', 1, '--program', '/no/such/program')
        self.assertEqual(done.returncode, 1)


if __name__ == '__main__':
    unittest.main()
