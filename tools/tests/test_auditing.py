"""`audit` on traces worked out by hand, on those of cartridges and of free runs, whole and changed, against another auditor."""
from __future__ import annotations

import os
import re
import subprocess
import tempfile
import unittest
from pathlib import Path
from random import Random
from typing import Iterator

from tool import PROGRAM, TOP, needs_program, needs_toml

from audited import altered, answer, free_run
from companion.auditing.traces import MOST_BYTES, line_of
from companion.description import Description
from companion.program import Program
from companion.script import Script
from random_cartridges import cartridge
from traced import (BOTH_SORTS, CARTRIDGES, FIRST_OF_TWO, LOOP, MISSING_PORT, OF_LOOP, OF_MISSING_PORT, OF_NOTHING, OF_OWN_PORT, OF_PIO,
                    OF_RESERVED, OF_TIMER, OWN_PORT, PULSES, SECOND_OF_TWO, STEPS_1, TIMER, changed, chips, played, printed, psu)

OTHER_OWN_PORT, OF_OTHER_OWN_PORT = psu('A1B490FE'), [line.replace(' A0 ', ' A1 ') for line in OF_OWN_PORT]
# INS 0, OUTS 4 and a branch back, of 8, 16 and 14 clocks: an OUTS ends at 29,830, which is the first frame's, and one at 59,660.
ECHO, TOLD_ECHO = psu('A0B490FD'), 4709


def of_long_read(port: str, byte: str, driver: str) -> list[str]:
    """IN of a port, with its last step up to the fetch."""
    return ['bus 1C S 00 -', 'bus 08 L 00 cpu', 'bus 00 S 26 0', f'bus 03 L {port} 0', f'bus 1B L {byte} {driver}']


# By hand: description, script, lines of the trace, what is answered.
ANSWERS = [
    (LOOP, STEPS_1, OF_LOOP, 'accept 3'), (LOOP, b'steps 0\n', OF_LOOP, 'accept 3'),
    (LOOP, STEPS_1, ['verdict whole', *OF_LOOP, 'stop done'], 'accept 3'),
    (LOOP, STEPS_1, changed(['verdict whole', *OF_LOOP], 8, 'bus 01 L FD 0'), 'reject line 7'),
    (LOOP, STEPS_1, ['verdict whole', *OF_LOOP[:7]], 'reject line 7'),
    (LOOP, STEPS_1, OF_LOOP[:4], 'accept 1'), (LOOP, STEPS_1, OF_LOOP[:3], 'accept 0'), (LOOP, STEPS_1, OF_LOOP[:2], 'reject line 1'),
    (LOOP, STEPS_1, ['verdict whole', *OF_LOOP[:2]], 'reject line 2'), (LOOP, STEPS_1, [], 'reject line 1'),
    (LOOP, STEPS_1, ['one', '', 'three'], 'reject line 4'), (LOOP, STEPS_1, ['bus'], 'reject line 2'),
    (LOOP, STEPS_1, [*OF_LOOP, 'bus 1C S 00 -'], 'reject line 9'), (LOOP, STEPS_1, changed(OF_LOOP, 5, 'bus 00 S 90 cpu'), 'reject line 5'),
    (LOOP, STEPS_1, changed(OF_LOOP, 5, 'bus 00 L 90 0'), 'reject line 5'),
    (LOOP, STEPS_1, changed(OF_LOOP, 3, 'bus 00 S 72 0'), 'reject line 1'),
    (LOOP, STEPS_1, changed(OF_LOOP, 7, 'bus 01 L -- fault'), 'reject line 6'),
    (MISSING_PORT, STEPS_1, OF_MISSING_PORT, 'accept 3'),
    (MISSING_PORT, STEPS_1, [*OF_MISSING_PORT, 'bus 00 S -- fault'], 'reject line 14'),
    (MISSING_PORT, STEPS_1, [*OF_MISSING_PORT, 'bus 00 S 2B 0'], 'reject line 14'),
    (MISSING_PORT, STEPS_1, changed(OF_MISSING_PORT, 10, 'bus 1B L FF 0'), 'accept 3'),
    (MISSING_PORT, STEPS_1, changed(OF_MISSING_PORT, 10, 'bus 1B L 30 0'), 'reject line 9'),
    (MISSING_PORT, STEPS_1, changed(OF_MISSING_PORT, 13, 'bus 1B L 02 0'), 'reject line 12'),
    (psu('2D'), STEPS_1, OF_RESERVED, 'accept 0'), (psu('2D'), STEPS_1, [*OF_RESERVED, 'bus 00 S 2B 0'], 'reject line 4'),
    ('format = 1\n', STEPS_1, OF_NOTHING, 'accept 0'), ('format = 1\n', STEPS_1, [*OF_NOTHING, 'bus 00 S -- fault'], 'reject line 4'),
    (TIMER, STEPS_1, OF_TIMER, 'accept 13'), (TIMER, STEPS_1, changed(OF_TIMER, 24, 'bus 0F L 80 0'), 'reject line 22'),
    (TIMER, STEPS_1, [*OF_TIMER[:21], 'bus 00 S FF 0'], 'reject line 22'),  # the request is there, so it is taken
    (OWN_PORT, b'at 0 keys 00 05\nsteps 1\n', OF_OWN_PORT, 'accept 3'), (OWN_PORT, STEPS_1, OF_OWN_PORT, 'reject line 6'),
    (OWN_PORT, b'power 05\nsteps 1\n', OF_OWN_PORT, 'reject line 6'),
    # port 1 by INS, with its own key byte; by IN both ports are nobody's, whatever the script says of them
    (OTHER_OWN_PORT, b'at 0 keys 01 05\nsteps 1\n', OF_OTHER_OWN_PORT, 'accept 3'),
    (OTHER_OWN_PORT, b'at 0 keys 00 05\nsteps 1\n', OF_OTHER_OWN_PORT, 'reject line 6'),
    *((psu('26' + port), f'at 0 keys {port} 05\nsteps 1\n'.encode(), trace, line) for port in ('00', '01') for trace, line in (
        (of_long_read(port, '--', 'fault'), 'accept 0'), (of_long_read(port, '05', 'cpu'), 'reject line 4'), (of_long_read(port, '05', '0'), 'reject line 4'))),
    # the script's key byte of a chip's port doesn't count, but the trace's does
    (MISSING_PORT, b'at 0 keys 04 FF\nsteps 1\n', OF_MISSING_PORT, 'accept 3'),
]
# Lines that are at fault, and others with `bus` in front that are skipped.
OUT_OF_FORM = ['bus ', 'bus 20 S 00 -', 'bus 1c S 00 -', 'bus 1C s 00 -', 'bus 1C S 0 -', 'bus 1C S 00', 'bus 1C S 00 16', 'bus 1C S 00 00',
               'bus 1C S 00 CPU', 'bus 1C S -- -', 'bus 1C S 00 fault', 'bus 1C  S 00 -', 'bus 1C S 00 - ', 'bus 1C S 00 -\t',
               'bus 1C M 00 -', 'bus C S 00 -', 'bus 1C S fe 0', 'bus 1C S 00 -1', 'bus 1C S -- fault ', 'bus  1C S 00 -']
SKIPPED = ['bus', 'buses', ' bus 1C S 00 -', 'BUS 1C S 00 -', 'out 40 04 0F', '# bus', 'bus\t1C S 00 -', '']


def judged(cart: str, script: bytes, lines: list[str]) -> str:
    return answer(Description.of(cart.encode()), script, ''.join(line + '\n' for line in lines).encode())[0]




@needs_toml
class Auditing(unittest.TestCase):
    """The auditor of the tests, on what was worked out by hand."""

    def test_answers_by_hand(self) -> None:
        for cart, script, lines, line in ANSWERS:
            self.assertEqual(judged(cart, script, lines), line, (cart, lines))

    def test_lines_by_hand(self) -> None:
        for line in OUT_OF_FORM:
            self.assertEqual(judged(LOOP, STEPS_1, [*OF_LOOP, line]), 'error trace line 9', line)
        for line in SKIPPED:
            self.assertEqual(judged(LOOP, STEPS_1, [*OF_LOOP[:5], line, *OF_LOOP[5:]]), 'accept 3', line)

    def test_ends_of_lines(self) -> None:
        description, text = Description.of(LOOP.encode()), '\n'.join(OF_LOOP).encode()
        self.assertEqual(answer(description, STEPS_1, text), ('accept 3', 0))
        self.assertEqual(answer(description, STEPS_1, text.replace(b'\n', b'\r\n') + b'\r\n'), ('accept 3', 0))
        self.assertEqual(answer(description, STEPS_1, text + b'\r\r\n'), ('error trace line 8', 2))
        self.assertEqual(answer(description, STEPS_1, text + b'\r'), ('error trace line 8', 2))  # no LF comes behind it
        self.assertEqual(answer(description, STEPS_1, b'\xff\0\n' + text), ('accept 3', 0))
        self.assertEqual(answer(description, STEPS_1, text.ljust(MOST_BYTES + 1, b'\n')), ('error long trace', 2))

    def test_traces_by_hand(self) -> None:
        """What the steps of a run are, which the vectors above and the pages tell."""
        for cart, script, lines in ((LOOP, b'steps 3\n', OF_LOOP), (MISSING_PORT, b'at 0 keys 04 30\nsteps 4\n', OF_MISSING_PORT),
                                    (TIMER, b'steps 13\n', OF_TIMER), (OWN_PORT, b'at 0 keys 00 05\nsteps 3\n', OF_OWN_PORT)):
            self.assertEqual(printed(cart, script), lines)

    def test_pulses(self) -> None:
        """Two pulses that a script gave, in an audit without a script that gives any."""
        lines = printed(chips(FIRST_OF_TWO, SECOND_OF_TWO), PULSES)
        self.assertEqual((len(lines), lines[-5:-1]), (6411, ['bus 10 L 00 -', 'bus 1C S 00 -', 'bus 0F L 80 1', 'bus 13 L 02 1']))
        self.assertEqual(judged(chips(FIRST_OF_TWO, SECOND_OF_TWO), STEPS_1, lines), 'accept 2135')
        unwired = chips(FIRST_OF_TWO, SECOND_OF_TWO.replace('true', 'false'))
        self.assertEqual(judged(unwired, STEPS_1, lines), 'reject line 6405')  # 6408 behind a verdict and two writes


RUNS, MOST_INSTRUCTIONS = 30, 300
OWN_KEYS = b'power 5A\nat 0 keys 00 A5\nat 0 keys 01 3C\nsteps 1\n'


def random_runs() -> Iterator[tuple[str, Description, list[bytes]]]:
    """Descriptions with free runs of them, as the lines of traces."""
    texts = [chips(FIRST_OF_TWO, SECOND_OF_TWO), OF_PIO, *[BOTH_SORTS] * 4, *(cartridge(seed) for seed in range(RUNS))]
    for seed, text in enumerate(texts):
        description = Description.of(text.encode())
        run = free_run(description, Script.of(OWN_KEYS), Random(seed), MOST_INSTRUCTIONS)
        yield text, description, [line_of(step).encode() for step in run]


@needs_toml
class FreeRuns(unittest.TestCase):
    """Whatever key bytes and pulses a run was given, its record is accepted without them."""

    def test_free_runs(self) -> None:
        found = ''
        for text, description, lines in random_runs():
            answered = answer(description, OWN_KEYS, b'\n'.join(lines))
            self.assertRegex(answered[0], 'accept [0-9]+', text)
            found += b'\n'.join(lines).decode()
        for pattern in ('0F L 8. [0-9]', '0F L 0. [0-9]', '1B L .. [0-9]', '-- fault'):
            self.assertRegex(found, pattern)


class Traces(unittest.TestCase):
    """The program against that auditor."""

    def setUp(self) -> None:
        room = tempfile.TemporaryDirectory()
        self.addCleanup(room.cleanup)
        self.folder = Path(room.name)

    def program(self, cart: Path, script: Path, trace: bytes) -> tuple[str, int]:
        (self.folder / 'trace').write_bytes(trace)
        done = subprocess.run([PROGRAM, 'audit', cart, script, self.folder / 'trace'], cwd=TOP, capture_output=True, text=True, timeout=60)
        return done.stdout.removesuffix('\n'), done.returncode

    def files(self, cart: str, script: bytes) -> tuple[Path, Path]:
        """A description and a script as files."""
        names = self.folder / 'cart.toml', self.folder / 'script.txt'
        for path, data in zip(names, (cart.encode(), script)):
            path.write_bytes(data)
        return names


@needs_program
@needs_toml
class Programs(Traces):
    """On what was worked out by hand."""

    def test_answers_by_hand(self) -> None:
        for cart, script, lines, line in ANSWERS:
            status = 0 if line.startswith('accept') else 7
            trace = ''.join(line + '\n' for line in lines).encode()
            self.assertEqual(self.program(*self.files(cart, script), trace), (line, status), lines)

    def test_lines_by_hand(self) -> None:
        files = self.files(LOOP, STEPS_1)
        for line in OUT_OF_FORM:
            self.assertEqual(self.program(*files, '\n'.join([*OF_LOOP, line]).encode()), ('error trace line 9', 2), line)
        for line in SKIPPED:
            self.assertEqual(self.program(*files, '\n'.join([*OF_LOOP[:5], line, *OF_LOOP[5:]]).encode()), ('accept 3', 0), line)

    def test_pulses(self) -> None:
        two = chips(FIRST_OF_TWO, SECOND_OF_TWO)
        trace = played(*self.files(two, PULSES))
        self.assertEqual(self.program(*self.files(two, STEPS_1), trace), ('accept 2135', 0))
        unwired = chips(FIRST_OF_TWO, SECOND_OF_TWO.replace('true', 'false'))
        self.assertEqual(self.program(*self.files(unwired, STEPS_1), trace), ('reject line 6408', 7))

    def test_own_keys_of_the_frame_at_which_the_script_ends(self) -> None:
        """They come in an audit, which goes on behind that end."""
        trace = played(*self.files(ECHO, b'at 1 keys 00 05\nframes 2\n'))
        for script in (b'at 1 keys 00 05\nframes 1\n', b'at 1 keys 00 05\nat 2 keys 00 FF\nframes 2\n', b'at 1 keys 00 05\nsteps 0\n'):
            self.assertEqual(self.program(*self.files(ECHO, script), trace), (f'accept {TOLD_ECHO}', 0), script)
        # the verdict, reset, 785 turns of 8 steps and a write, and the next INS stand before
        for script in (STEPS_1, b'at 2 keys 00 05\nframes 2\n', b'at 1 keys 01 05\nframes 2\n'):
            self.assertEqual(self.program(*self.files(ECHO, script), trace), ('reject line 7072', 7), script)

    def test_limits(self) -> None:
        files, text = self.files(LOOP, STEPS_1), '\n'.join(OF_LOOP).encode() + b'\n'
        self.assertEqual(self.program(*files, text.ljust(MOST_BYTES, b'\n')), ('accept 3', 0))
        self.assertEqual(self.program(*files, text.ljust(MOST_BYTES + 1, b'\n')), ('error long trace', 2))

    def test_files_in_their_order(self) -> None:
        cart, script = self.files(LOOP, STEPS_1)
        for words, line, status in (([cart, script, 'missing'], 'error store trace', 4),
                                    ([cart, 'missing', 'missing'], 'error store script', 4),
                                    (['missing', script, 'missing'], 'error store cart', 4), ([cart, script], 'error words', 1),
                                    (['--trace', cart, script, script], 'error words', 1), ([cart, script, script], 'reject line 2', 7)):
            done = subprocess.run([PROGRAM, 'audit', *words], cwd=self.folder, capture_output=True, text=True, timeout=60)
            self.assertEqual((done.stdout, done.returncode), (line + '\n', status), words)


@needs_program
@needs_toml
class RandomRuns(Traces):
    """On free runs, and with one change."""

    def test_random_runs(self) -> None:
        for number, (text, description, lines) in enumerate(random_runs()):
            files, random = self.files(text, OWN_KEYS), Random(number)
            for what, case in (('whole', lines), *(altered(random, lines) for _ in range(CHANGES))):
                trace = b''.join(line + b'\n' for line in case)
                self.assertEqual(self.program(*files, trace), answer(description, OWN_KEYS, trace), (what, text, trace))


CHANGES = 12  # of each cartridge
MOST_LINES, MOST_CHANGED = 20_000, 4_000  # that the slower of the two goes over, of a trace as it is and of one that is changed


@needs_program
@needs_toml
class Cartridges(Traces):
    """On the traces of the cartridges here."""

    def setUp(self) -> None:
        super().setUp()
        self.addCleanup(os.chdir, os.getcwd())
        os.chdir(TOP)  # where the names of sources start

    def test_every_trace_is_accepted_and_every_change_judged(self) -> None:
        told = set()
        for cart in CARTRIDGES:
            with self.subTest(cart=cart.parent.name):
                script, description = cart.parent / 'script.txt', Description.read(cart, Program.of(str(PROGRAM)))
                trace = played(cart, script)
                count = re.search(rb'total (\d+) instructions', trace)[1].decode()
                self.assertEqual(self.program(cart, script, trace), (f'accept {count}', 0))
                told |= set(self.judge(description, cart, script, trace.splitlines()[:MOST_LINES]))
        self.assertLessEqual({'accept', 'reject', 'error'}, told)

    def judge(self, description: Description, cart: Path, script: Path, lines: list[bytes]) -> list[str]:
        random, text = Random(cart.parent.name), script.read_bytes()
        cases = [('whole', lines), *(altered(random, lines[:MOST_CHANGED]) for _ in range(CHANGES))]
        found = []
        for what, case in cases:
            trace = b''.join(line + b'\n' for line in case)
            own = answer(description, text, trace)
            self.assertEqual(self.program(cart, script, trace), own, f'{cart}: {what}')
            found.append(own[0].split()[0])
        return found


if __name__ == '__main__':
    unittest.main()
