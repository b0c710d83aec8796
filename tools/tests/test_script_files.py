"""tools/script, which makes and changes script files."""
from __future__ import annotations

import random
import subprocess
import tempfile
import unittest
from pathlib import Path

import tool
from companion.script import Cause, Fault, Script
from tool import call, needs_program

# The script of cartridges/lighthouse but for its comment, and the order of its lines.
LIGHTHOUSE = ['# key night 00 01', '# key lamp 00 02', 'at 20 keys 00 01', 'at 22 keys 00 00', 'at 40 keys 00 02',
              'show 20', 'show 40', 'show 43', 'frames 44']


class ScriptFiles(unittest.TestCase):
    def made(self, *words: object, stdin: str = '') -> list[str]:
        done = call('script', *words, stdin=stdin)
        self.assertEqual((done.returncode, done.told), (0, ''))
        return done.text.splitlines()

    def test_keys_by_names_and_ranges_of_frames(self):
        self.assertEqual(self.made('--key', 'night=00.0', '--key', 'lamp=00:02', '--press', 'night@20-22', '--press', 'lamp@40',
                                   '--show', 20, '--show', '40-45/3', '--frames', 44), LIGHTHOUSE)

    def test_a_script_is_changed_and_its_other_lines_stay(self):
        lines = self.made('-', '--press', 'night@39-41', '--hide', '1-39', '--show', '43-44', '--steps', 9, '--power', '5c', '--pulse', '1@3',
                          stdin='# of the lighthouse\n' + '\n'.join(LIGHTHOUSE))
        self.assertEqual(lines, ['# of the lighthouse', '# key night 00 01', '# key lamp 00 02', 'show 40', 'show 43', 'steps 9', 'power 5C',
                                 'at 20 keys 00 01', 'at 22 keys 00 00', 'at 39 keys 00 01', 'at 40 keys 00 03', 'at 41 keys 00 02',
                                 'at 3 pulse 1', 'show 44'])

    def test_keys_that_are_up_when_idle(self):
        self.assertEqual(self.made('--idle', 'FF@01,0F@00', '--key', 'fire=01.3', '--press', 'fire@2-4', '--frames', 9),
                         ['# key fire 01 08', '# idle 01 FF', '# idle 00 0F', 'at 0 keys 00 0F', 'at 0 keys 01 FF', 'at 2 keys 01 F7',
                          'at 4 keys 01 FF', 'frames 9'])
        self.assertEqual(self.made('-', '--idle', 'F0@00', stdin='at 3 keys 00 01\nat 4 keys 00 00\nframes 9\n'),
                         ['# idle 00 F0', 'at 3 keys 00 F1', 'at 4 keys 00 F0', 'frames 9', 'at 0 keys 00 F0'])

    def test_what_cannot_be_done(self):
        for words, stdin, hint in ((['--show', 5], '', 'no end'), (['--frames', 5, '--press', 'x@1'], '', '--key x=PP.BIT'),
                                   (['-'], 'frames 7 ', 'line 1: word'), (['-', '--show', '1-600', '--frames', '600'],
                                    'at 1 keys 00 00\n' * 500 + 'steps 1', 'too many'), (['no/such/file'], '', 'No such file')):
            done = call('script', *words, stdin=stdin)
            self.assertEqual((done.text, done.returncode, done.told.count('\n')), ('', 1, 1))
            self.assertIn(hint, done.told)
        for words in (['--show', '0'], ['--show', '5-4'], ['--show', '1-9/0'], ['--key', 'a=0.1'], ['--key', 'a=00:00'], ['--press', 'a@5-5'],
                      ['--press', 'a@600'], ['--pulse', '16@1'], ['--idle', 'FF'], ['--frames', '601'], ['--frames', 1, '--steps', 1]):
            self.assertEqual(call('script', *words).returncode, 2, words)

    def test_the_ends_of_ranges(self):
        """By docs/FORMATS.md: the first and last numbers that a line may have, and those beside them."""
        for line in ('show 1', 'show 600', 'frames 1', 'frames 600', 'steps 0', 'steps 1000000', 'at 0 keys 00 FF', 'at 599 pulse 15'):
            self.assertIn(Script.of(line.encode()).fault, (None, Fault(2, Cause.NO_END)), line)
        for line in ('show 0', 'show 601', 'frames 0', 'frames 601', 'steps 1000001', 'at 600 keys 00 00', 'at 1 pulse 16'):
            self.assertEqual(Script.of(line.encode()).fault, Fault(1, Cause.RANGE), line)
        for line in ('power 5', 'power 0x05', 'at 1 keys 0 00', 'at 1 keys 00 g0', 'at 600 pulse x', 'show 00000001'):
            self.assertEqual(Script.of(line.encode()).fault, Fault(1, Cause.NUMBER), line)
        for line in ('show  1', 'show 1 ', 'STEPS 5', 'at 1 keys 00', '\ufeffframes 1'):
            self.assertEqual(Script.of(line.encode()).fault, Fault(1, Cause.WORD), line)

    def test_the_ends_of_lines(self):
        """By docs/FORMATS.md: a CR right before an LF is dropped once, and skipped lines count where there is no end."""
        for text, fault in ((b'steps 5\r\n', None), (b'steps 5', None), (b'steps 5\r', Fault(1, Cause.WORD)), (b'steps 5\r\r\n', Fault(1, Cause.WORD)),
                            (b'', Fault(1, Cause.NO_END)), (b'\n', Fault(2, Cause.NO_END)), (b'show 1\n\n# more', Fault(4, Cause.NO_END))):
            self.assertEqual(Script.of(text).fault, fault, text)

    @needs_program
    def test_faults_are_those_of_the_program(self):
        """Lines at random, and the line and cause of the first fault."""
        chance = random.Random(1977)
        pieces = ['power', 'at', 'show', 'steps', 'frames', 'keys', 'pulse', '1', '15', '16', '600', '00', 'FF', '0', '# x', '', '12345678',
                  '5x', '599']
        with tempfile.TemporaryDirectory() as folder:
            cart, path = Path(folder) / 'cart.toml', Path(folder) / 'script.txt'
            cart.write_text('format = 1\n')
            for _ in range(30):
                lines = [' '.join(chance.choice(pieces) for _ in range(chance.choice((0, 2, 2, 4, 5)))) for _ in range(2)]
                lines[0] = chance.choice([lines[0], 'at 7 keys 00 F1', 'show 3', 'power 11', 'steps 0', 'at 1 pulse 99', 'show 601'])
                path.write_text('\n'.join(lines))
                told = subprocess.run([tool.PROGRAM, 'ref', cart, path], capture_output=True, text=True).stdout.split('\n')[0]
                fault = Script.of(path.read_bytes()).fault
                self.assertEqual(f'error script line {fault.line} cause {fault.cause.value}' if fault else told, told, lines)
                self.assertEqual(told.startswith('error'), fault is not None)


if __name__ == '__main__':
    unittest.main()
