"""What `explain` says of traces: of lines out of form, and of what was due where one is rejected."""
from __future__ import annotations

import subprocess
import sys
import tempfile
import unittest
from pathlib import Path

from tool import PROGRAM, TOOLS, TOP, call, needs_program, needs_toml

from explanations import explanation
from traced import (LOOP, MISSING_PORT, OF_LOOP, OF_MISSING_PORT, OF_NOTHING, OF_OWN_PORT, OF_RESERVED, OF_TIMER, OWN_PORT, TIMER, changed,
                    psu)

STEPS = 'steps 1\n'
# Lines out of form, the column of the word at fault, and what is said.
LINES = [
    ('bus 20 S 00 -', 5, 'from 00 to 1F'), ('bus 1c S 00 -', 5, 'capital letters'), ('bus 1C s 00 -', 8, '`S`, short, or `L`, long'),
    ('bus 1C S 0 -', 10, 'A byte is two digits'), ('bus 1C S 00 16', 13, 'a socket from 0 to 15'), ('bus 1C S 00 00', 13, 'without a zero'),
    ('bus 1C S -- -', 13, 'stands `fault`'),
    ('bus 1C S 00', 12, 'Four words'), ('bus 1C S 00 - 0', 15, 'Four words'),
    ('bus 1C  S 00 -', 8, 'One blank'), ('bus 1C S 00 - ', 15, 'Four words'), ('bus ', 5, 'One blank')]
# A description, the lines of a trace, the line that is rejected, and what is said of it.
REJECTED = [
    (LOOP, changed(OF_LOOP, 7, 'bus 01 L FD 0'), 6, [
        '2 instructions are done as the trace has them. The next steps are those of 0002 BR $0001:',
        'bus 01 L FE 0               line 7  bus 01 L FD 0  <', 'In line 7 the byte is another one.', 'Code 01: ']),
    (LOOP, OF_LOOP[:7], 6, ['The trace ends before the step 00 S 2B 0']), (LOOP, [], 1, ['No line of it begins with `bus `']),
    (LOOP, OF_LOOP[3:], 1, [
        '0 instructions are done', 'those of reset', 'In line 1 the code and the byte and the driver are another',
        'A trace begins with the three steps of reset']),
    (LOOP, changed(OF_LOOP, 4, 'bus 00 L 2B 0'), 4, ['those of 0000 LIS 1', 'In line 4 the length is another one']),
    (LOOP, changed(OF_LOOP, 4, 'bus 00 S -- fault'), 4, ['In line 4 a step is not served that is.']),
    (LOOP, changed(OF_LOOP, 4, 'bus 10 L 00 -'), 4, ['No interrupt can be taken at the end']),
    (MISSING_PORT, [*OF_MISSING_PORT, 'bus 00 S 2B 0'], 14, ['The step before is one of 0004 IN $02 that is not served']),
    (MISSING_PORT, changed(OF_MISSING_PORT, 13, 'bus 1B L 02 0'), 12, [
        'In line 13 a step is served that can not be.', 'no chip drives there (undriven']),
    (MISSING_PORT, changed(OF_MISSING_PORT, 10, 'bus 1B L 30 0'), 9, ['no key byte takes away a bit that was written']),
    (psu('2D'), [*OF_RESERVED, 'bus 00 S 2B 0'], 4, ['The next one would be 0000 reserved 2D: its opcode belongs to no instruction']),
    ('format = 1\n', [*OF_NOTHING, 'bus 00 S -- fault'], 4, ['one of reset that is not served']),
    (TIMER, [*OF_TIMER[:21], 'bus 00 S FF 0'], 22, ['A chip asks there and ICB is set']),
    (OWN_PORT, OF_OWN_PORT, 6, ['come from the script alone'])]


def text(lines: list[str]) -> str:
    return ''.join(line + '\n' for line in lines)


class ExplainTraces(unittest.TestCase):
    def test_lines_out_of_form(self) -> None:
        for line, column, hint in LINES:
            told = explanation('error trace line 9', trace=text([*OF_LOOP, line]))
            self.assertIn(f'trace, line 9, column {column}\n    {line}\n    {" " * (column - 1)}^\n', told)
            self.assertIn(hint, told, line)

    @needs_toml
    def test_what_was_due(self) -> None:
        for cart, lines, line, hints in REJECTED:
            told = explanation(f'reject line {line}', cart=cart, script=STEPS, trace=text(lines))
            self.assertIn(f'trace, line {line}\n', told)
            for hint in hints:
                self.assertIn(hint, told, lines)

    @needs_toml
    def test_another_answer_is_told(self) -> None:
        self.assertIn('another answer: accept 3', explanation('reject line 2', cart=LOOP, script=STEPS, trace=text(OF_LOOP)))

    def test_files_in_another_order(self) -> None:
        self.assertIn('This is a script', explanation('reject line 2', cart=LOOP, script=text(OF_LOOP), trace='power 00\nsteps 1\n'))
        self.assertIn('This is a trace', explanation('error script line 1 cause 1', cart=LOOP, script=text(OF_LOOP)))

    def test_files_that_are_missing(self) -> None:
        self.assertIn('are at hand', call('explain', 'reject', 'line', '2').told)

    @needs_toml
    def test_a_command(self) -> None:
        """Names come from --names where no source tells them."""
        with tempfile.TemporaryDirectory() as folder:
            trace = text(changed(OF_LOOP, 7, 'bus 01 L FD 0'))
            files = {'cart.toml': LOOP, 'script.txt': STEPS, 'trace.txt': trace, 'game.sym': 'LOOP 0001\n'}
            for name, data in files.items():
                (Path(folder) / name).write_text(data)
            paths = [Path(folder) / name for name in files]
            done = call('explain', '--names', paths[3], sys.executable, TOOLS / 'tests/audited.py', 'audit', *paths[:3])
        self.assertEqual((done.text, done.returncode), ('reject line 6\n', 7))
        self.assertIn('those of 0002 LOOP+1: BR LOOP:', done.told)

    @needs_program
    @needs_toml
    def test_the_walk_of_the_page(self) -> None:
        files = ['cartridges/summed/cart.toml', 'cartridges/summed/script.txt']
        printed = subprocess.run([PROGRAM, 'play', '--trace', *files], cwd=TOP, capture_output=True, text=True, timeout=60).stdout.split('\n')
        shown = [line[4:] for line in (TOP / 'docs/AUDIT.md').read_text('utf-8').partition('## A walk')[2].partition('\n## ')[0].split('\n')]
        self.assertIn(printed[14], shown)
        with tempfile.TemporaryDirectory() as folder:
            trace = Path(folder) / 'changed.txt'
            for top, lines in (('changed.txt, line', changed(printed, 15, printed[14].replace('03 0', '04 0'))),
                               ('    due ', [*printed[:15], *printed[16:]])):
                trace.write_text('\n'.join(lines))
                done = call('explain', PROGRAM, 'audit', *files, trace)
                self.assertEqual((done.text, done.returncode), ('reject line 15\n', 7))
                told = done.told.replace(f'{folder}/', '').splitlines()
                first, due = (next(at for at, line in enumerate(told) if line.startswith(start)) for start in (top, '    due '))
                self.assertEqual([line for line in told[first:due + 3] if line not in shown], [])


if __name__ == '__main__':
    unittest.main()
