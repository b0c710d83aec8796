"""`capture` on tables that are made from traces, whose lines it has to give back."""
from __future__ import annotations

import re
import subprocess
import tempfile
import unittest
from pathlib import Path
from random import Random
from typing import Iterator

from tool import call, needs_program, needs_toml

from companion.auditing.drivers import Cycle, Drivers
from companion.auditing.traces import Trace, line_of
from companion.description import Description
from traced import (CARTRIDGES, FIRST_OF_TWO, LOOP, MISSING_PORT, OF_LOOP, OF_MISSING_PORT, OF_TIMER, PULSES, SECOND_OF_TWO, TIMER, chips,
                    played, printed, psu)

NAMES = [*(f'ROMC{bit}' for bit in range(5)), *(f'D{bit}' for bit in range(8)), 'WRITE', 'PHI']
FLOATING = 0xA5  # on the wires where nobody drives them
MOST_LINES = 3_000  # of a cartridge's trace
# A 3853 with RAM, whose pages aren't those of the 3851.
WITH_RAM = psu('2A280075172A280016B490FF').replace('format = 1', 'format = 2') + '[[chip]]\nkind = "3853"\npages = ["ram 28"]\n'


def levels(value: int, bits: int) -> list[int]:
    return [value >> bit & 1 for bit in range(bits)]


def rows(lines: list[str]) -> Iterator[list[int]]:
    """The levels of the wires in a row for each half of a clock. WRITE is up in the last clock of a cycle, and falls with the next one."""
    yield [*[1] * 13, 1, 1]  # what ends here has begun before
    for line in lines:
        code, length, byte, driver = line.split()[1:]
        on_wires = FLOATING if byte == '--' or driver == '-' else int(byte, 16)
        clocks = 6 if length == 'L' else 4
        for clock in range(clocks):
            is_late = clock > clocks - 3  # codes and data are settled late in the cycle
            values = [*levels(int(code, 16) if clock else 0x1F, 5), *levels(on_wires if is_late else 0, 8), int(clock == clocks - 1)]
            yield [*values, 0]
            yield [*values, 1]
    yield [*[0] * 13, 0, 0]


def table(lines: list[str], names: list[str] | None = None, before: str = '') -> str:
    """A capture of the steps of a trace, with its columns in an order of names, and others beside them."""
    names = names or ['Time [s]', *NAMES]
    found = [before + ','.join(names)]
    for number, values in enumerate(rows(lines)):
        by_name = dict(zip(NAMES, map(str, values)), **{'Φ': str(values[-1])})
        found.append(','.join(by_name.get(name.strip().upper(), f'{number * 1e-7:.7f}') for name in names))
    return '\n'.join(found) + '\n'


@needs_toml
class Capture(unittest.TestCase):
    def setUp(self) -> None:
        room = tempfile.TemporaryDirectory()
        self.addCleanup(room.cleanup)
        self.folder = Path(room.name)

    def captured(self, cart: str, capture: str, *options: str) -> subprocess.CompletedProcess:
        (self.folder / 'cart.toml').write_text(cart)
        (self.folder / 'capture.csv').write_text(capture)
        return call('capture', *options, self.folder / 'cart.toml', self.folder / 'capture.csv')

    def assert_given_back(self, cart: str, lines: list[str], *options: str) -> None:
        done = self.captured(cart, table(lines), *options)
        self.assertEqual((done.text.splitlines(), done.returncode, done.told), (lines, 0, ''))

    def test_traces_by_hand(self) -> None:
        for cart, lines in ((LOOP, OF_LOOP), (TIMER, OF_TIMER), (MISSING_PORT, OF_MISSING_PORT[:-1])):
            self.assert_given_back(cart, lines)

    def test_a_store_and_a_read_of_ram(self) -> None:
        lines = printed(WITH_RAM, b'steps 6\n')
        self.assertIn('bus 05 L 05 cpu', lines)
        self.assertIn('bus 02 L 05 12', lines)
        self.assert_given_back(WITH_RAM, lines)

    def test_vectors_of_two_chips(self) -> None:
        """Which pulse led to which vector, in a run that would be a long table."""
        two = chips(FIRST_OF_TWO, SECOND_OF_TWO)
        lines = printed(two, PULSES)
        cycles = [Cycle(step.code, step.is_long, step.byte) for step in Trace.of('\n'.join(lines).encode()).steps]
        self.assertEqual(list(map(line_of, Drivers(Description.of(two.encode()), 0).steps(cycles))), lines)

    def test_columns_in_any_order(self) -> None:
        names = [*NAMES[:-1], 'Φ', 'time', 'trigger']
        for seed in range(3):
            Random(seed).shuffle(names)
            done = self.captured(LOOP, table(OF_LOOP, [name.lower() if seed else name for name in names], '; sigrok\n; samples\n'))
            self.assertEqual((done.text.splitlines(), done.returncode), (OF_LOOP, 0))

    def test_before_reset_nothing_counts(self) -> None:
        done = self.captured(LOOP, table([*OF_LOOP[3:6], *OF_LOOP]))
        self.assertEqual(done.text.splitlines(), OF_LOOP)

    def test_a_step_that_no_chip_drives(self) -> None:
        done = self.captured(MISSING_PORT, table([*OF_MISSING_PORT, 'bus 00 S 2B 0']))
        self.assertEqual((done.text.splitlines(), done.returncode), (OF_MISSING_PORT, 3))
        self.assertIn('step 13 is undriven', done.told)

    def test_power_on(self) -> None:
        """A POP goes by the counters of power-on, and so does who drives."""
        cart = chips(psu('1C'), psu('', 0x400, 8))
        lines = printed(cart, b'power 04\nsteps 3\n')
        self.assertEqual(lines[-1], 'bus 00 S -- fault')
        self.assertEqual(self.captured(cart, table(lines), '--power', '04').text.splitlines(), lines)
        self.assertEqual(self.captured(cart, table(lines)).text.splitlines()[-1], f'bus 00 S {FLOATING:02X} 0')

    def test_tables_at_fault(self) -> None:
        good = table(OF_LOOP)
        for capture, told in (('', 'no line with the names'), (good.replace('ROMC3', 'ROM'), 'no column ROMC3'),
                              (good.replace('Time [s]', 'WRITE'), 'more than one column WRITE'),
                              (good.replace(',1\n', ',x\n', 1), 'line 2 of the capture: each column has a level'),
                              ('\n'.join(good.split('\n')[:20] + good.split('\n')[21:]), 'a bus cycle of'),
                              (table(OF_LOOP[2:]), 'no reset')):
            done = self.captured(LOOP, capture)
            self.assertEqual(done.returncode, 1, told)
            self.assertIn(told, done.told)

    def test_descriptions_at_fault(self) -> None:
        self.assertIn('describes no chip', self.captured('format = 1\n', table(OF_LOOP)).told)
        self.assertEqual(self.captured('format = ', table(OF_LOOP)).returncode, 1)

    @needs_program
    def test_traces_of_the_cartridges(self) -> None:
        for cart in CARTRIDGES:
            with self.subTest(cart=cart.parent.name):
                script = cart.parent / 'script.txt'
                lines = [line for line in played(cart, script).decode().splitlines() if line.startswith('bus ')][:MOST_LINES]
                power = re.search(r'(?m)^power (..)', script.read_text())
                done = self.captured(cart.read_text(), table(lines), *(['--power', power[1]] if power else []))
                self.assertEqual((done.text.splitlines(), done.returncode), (lines, 3 if lines[-1].endswith('fault') else 0))


if __name__ == '__main__':
    unittest.main()
