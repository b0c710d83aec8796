"""The prompt over `debug`, on the walk of docs/DEBUGGER.md and on a cartridge with keys and a timer."""
from __future__ import annotations

import os
import tempfile
import unittest
from pathlib import Path
from unittest import mock

import tool
from companion.calls import Reach
from companion.debugging.places import Places
from companion.debugging.prompt import Prompt
from companion.debugging.session import Session
from companion.description import Description
from companion.names import Names
from companion.program import Program
from companion.words import Refused
from test_trace import needs_toml
from tool import TOP, call, needs_program

PROGRAM = Program((str(tool.PROGRAM),))
# INS 0, LR 1,A, OUTS 4, and a branch to the first: 8, 4, 16 and 14 clocks.
ECHO = 'format = 1\n[[chip]]\nkind = "3851"\nbase = 0\nports = 4\nrom = "A051B490FC"\n'
TURN = 8 + 4 + 16 + 14


def prompt_of(cart: str | Path) -> Prompt:
    description = Description.read(cart, PROGRAM)
    prompt = Prompt(Session(PROGRAM, str(cart)), Places(Names.of(description), description.memory()), Reach.of(description))
    prompt.session.begin(0)
    return prompt


@needs_toml
@needs_program
class Debugger(unittest.TestCase):
    def setUp(self):
        folder = tempfile.TemporaryDirectory()
        self.addCleanup(folder.cleanup)
        self.folder = Path(folder.name)
        (self.folder / 'echo.toml').write_text(ECHO)

    def at(self, prompt: Prompt, *lines: str) -> list[str]:
        """What the last of some lines prints, at the top of the repository, from which sources have their names."""
        was = os.getcwd()
        os.chdir(TOP)
        try:
            return [list(prompt.carry_out(line)) for line in lines][-1]
        finally:
            os.chdir(was)

    def parted(self) -> Prompt:
        was = os.getcwd()
        os.chdir(TOP)
        try:
            return prompt_of('cartridges/parted/cart.toml')
        finally:
            os.chdir(was)

    def test_several_breaks_and_watches_and_the_way_back(self):
        prompt = self.parted()
        self.at(prompt, 'break copy.f8:15', 'break COPY', 'watch r0')
        self.assertEqual(self.at(prompt, 'run')[0], '5 done: r0 00>04')
        self.assertEqual(self.at(prompt, 'clear 3', 'run')[:2], ['4 done: break at 000D (COPY+4)', '000D COPY+4, copy.f8 line 15: DS 0'])
        self.assertEqual(self.at(prompt, 'chips')[0], 'chip 0 3851 PC0=000E PC1=0000 DC0=0014  apart: DC0')
        self.assertEqual(self.at(prompt, 'clear', 'run')[:2], ['2 done', 'stop astray romc 02 socket 0 at 0014 reference 0013'])
        self.assertEqual(self.at(prompt, 'run')[0], '0 done')
        self.assertEqual(self.at(prompt, 'back 4')[:2], ['4 back', '000B COPY+2, copy.f8 line 13: ST'])
        self.assertEqual(self.at(prompt, 'watch ram 2800', 'run')[0], '1 done: 2800 00>C0')
        self.assertEqual(self.at(prompt, 'history 2'),
                         ['       7  000A COPY+1, copy.f8 line 12: XDC', '       8  000B COPY+2, copy.f8 line 13: ST'])

    def test_back_to_breaks_and_by_whom_a_byte_was_stored(self):
        prompt = self.parted()
        self.at(prompt, 'break romc 1D', 'step 100')
        self.assertEqual(self.at(prompt, 'back run')[:2], ['2 back: break romc 1D', '000D COPY+4, copy.f8 line 15: DS 0'])
        self.assertEqual(self.at(prompt, 'back run 2')[0], '2 back: break romc 1D')
        self.assertEqual(self.at(prompt, 'chips')[0], 'chip 0 3851 PC0=000C PC1=0000 DC0=0013  apart: DC0')
        self.assertEqual(self.at(prompt, 'break COPY', 'back run')[:2], ['2 back: break at 0009 (COPY)', '0009 COPY, copy.f8 line 11: LM'])
        self.assertEqual(self.at(prompt, 'stored 2800'), ['no instruction stored at 2800'])
        self.assertEqual(self.at(prompt, 'step 100', 'stored 2800'), ['2800 was stored by instruction 8 of 11', '000B COPY+2, copy.f8 line 13: ST'])
        self.assertEqual(self.at(prompt, 'back run 1')[0], '1 back: no break before')
        self.assertEqual(self.at(prompt, 'commands'), ['power 00', 'step 10'])
        self.assertEqual([self.at(prompt, line)[0] for line in ('back 20', 'back run', 'back')], ['10 back', '0 back: no break before', '0 back'])

    def test_back_at_the_most_instructions(self):
        prompt = prompt_of(self.folder / 'echo.toml')
        self.at(prompt, 'step 40', 'break 0')
        with mock.patch.multiple('companion.debugging.session', MOST_INSTRUCTIONS=40), mock.patch('companion.debugging.replay.MOST_INSTRUCTIONS', 40):
            self.assertEqual(self.at(prompt, 'back 3')[:2], ['3 back', '0001 LR 1,A'])
        self.assertEqual(self.at(prompt, 'back run')[0], '1 back: break at 0000')

    def test_what_came_behind_an_instruction_is_gone_but_for_a_script_s(self):
        (self.folder / 'script.txt').write_text('power 11\nat 2 keys 00 3F\nat 0 keys 00 20\nframes 9\n')
        prompt = prompt_of(self.folder / 'echo.toml')
        self.at(prompt, f'script {self.folder}/script.txt', 'until frame 2', 'keys 00 44', 'step 3')
        frame = prompt.session.moves[1].count
        self.assertEqual(self.at(prompt, 'commands'), ['power 11', 'keys 00 20', f'step {frame}', 'keys 00 3F', 'keys 00 44', 'step 3'])
        self.assertEqual(self.at(prompt, 'back 1', 'commands')[-2:], ['keys 00 44', 'step 2'])
        self.assertEqual(self.at(prompt, 'back 2', 'commands')[-2:], [f'step {frame}', 'keys 00 3F'])
        self.assertEqual(self.at(prompt, 'keys 00 55', 'back 99999', 'commands'), ['power 11', 'keys 00 20'])

    def test_the_way_back_leads_to_the_same_state(self):
        for count, back in ((7, 3), (40, 13), (5, 5), (5, 9)):
            prompt, fresh = prompt_of(self.folder / 'echo.toml'), prompt_of(self.folder / 'echo.toml')
            self.at(prompt, 'keys 00 40', f'step {count}', f'back {back}')
            if count > back:
                self.at(fresh, 'keys 00 40', f'step {count - back}')
            self.assertEqual((prompt.session.state, self.at(prompt, 'chips')), (fresh.session.state, self.at(fresh, 'chips')))

    def test_a_script_s_keys_come_at_their_frames(self):
        (self.folder / 'script.txt').write_text('power 11\nat 2 keys 00 3F\nat 0 keys 00 20\nframes 9\n')
        prompt = prompt_of(self.folder / 'echo.toml')
        self.at(prompt, f'script {self.folder}/script.txt', 'watch r1')
        self.assertEqual(self.at(prompt, 'run 9')[0], '2 done: r1 11>20')
        turns, rest = divmod(2 * 29_830 - 14, TURN)
        count = 4 * turns + next(n for n, phi in enumerate((0, 8, 12, 28, 42)) if phi >= rest)
        self.assertEqual(count % 4, 1)  # behind an INS, which still read the old key byte
        self.assertEqual(self.at(prompt, 'clear', 'until frame 2')[0], f'{count - 2:,} done')
        self.assertEqual(self.at(prompt, 'watch A', 'watch port 04', 'run 9')[0], '2 done: port 04 gets 20')
        self.assertEqual(self.at(prompt, 'run 9')[0], '2 done: A 20>3F')
        self.assertEqual(self.at(prompt, 'run 9')[0], '2 done: port 04 gets 3F')
        self.assertEqual(self.at(prompt, 'commands'), ['power 11', 'keys 00 20', f'step {count}', 'keys 00 3F', 'step 6'])

    def test_a_pipe_of_commands(self):
        done = call('debugger', 'echo.toml', stdin='over\nfoo\nbreak\nquit\nstep\n', cwd=self.folder)
        self.assertEqual(done.text.splitlines()[-4:], [
            '1 done', '0001 LR 1,A', 'A=00 W=--Z-S IS=00 P1=0000 D0=0000 D1=0000, 1 instructions, frame 0', 'no break and no watch'])
        self.assertEqual((done.returncode, done.told), (1, 'debugger: foo is no command, `help` has all\n'))

    def test_what_cannot_be_done(self):
        prompt = prompt_of(self.folder / 'echo.toml')
        for line in ('break NOWHERE', 'break romc 20', 'watch r64', 'keys 00', 'pulse 16', 'step 0', 'script no/such/file', 'c x', 'b :3'):
            with self.assertRaises((Refused, OSError), msg=line):
                self.at(prompt, line)


if __name__ == '__main__':
    unittest.main()
