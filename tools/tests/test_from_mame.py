"""`from_mame` on lines that MAME wrote, and on such lines of random programs, whose steps it has to give."""
from __future__ import annotations

import tempfile
import unittest
from pathlib import Path
from random import Random
from typing import Iterator

from tool import TOP, call, needs_toml

from audited import answer
from companion.auditing.drivers import Drivers
from companion.auditing.machine import Machine
from companion.auditing.mame import cycles_of, lines_of
from companion.auditing.traces import line_of
from companion.counters import DC0, PC1
from companion.description import Description
from companion.instructions import ADDRESSES, OPCODES, RESERVED
from companion.script import Script
from traced import psu

# What MAME 0.251 wrote of cartridges/summed, whose bytes lay in the place of the ROM at 0000.
OF_SUMMED = '''PC0=0001 OP=2A000F A=00 W=00 IS=00 PC1=0004 DC0=000F M=03  0000: DCI  H'000F'
PC0=0004 OP=785070 A=00 W=00 IS=00 PC1=0004 DC0=000F M=03  0003: LIS  H'08'
PC0=0005 OP=507051 A=08 W=00 IS=00 PC1=0004 DC0=000F M=03  0004: LR   R0,A
PC0=0006 OP=705141 A=08 W=00 IS=00 PC1=0004 DC0=000F M=03  0005: CLR
PC0=0007 OP=514188 A=00 W=00 IS=00 PC1=0004 DC0=000F M=03  0006: LR   R1,A
PC0=0008 OP=418851 A=00 W=00 IS=00 PC1=0004 DC0=000F M=03  0007: LR   A,R1
PC0=0009 OP=885130 A=00 W=00 IS=00 PC1=0004 DC0=000F M=03  0008: AM
PC0=000A OP=513094 A=03 W=01 IS=00 PC1=0004 DC0=0010 M=01  0009: LR   R1,A
PC0=000B OP=3094FB A=03 W=01 IS=00 PC1=0004 DC0=0010 M=01  000A: DS   R0
PC0=000C OP=94FB90 A=03 W=03 IS=00 PC1=0004 DC0=0010 M=01  000B: BNZ  H'0007'
PC0=0008 OP=418851 A=03 W=03 IS=00 PC1=0004 DC0=0010 M=01  0007: LR   A,R1
'''
SUMMED = psu('2A000F785070514188513094FB90FF0301040105090206')
STEPS_OF_SUMMED = '''1C S 00 -|08 L 00 cpu|00 S 2A 0|11 L 00 0|03 S 00 0|0E L 0F 0|03 S 0F 0|00 S 78 0|00 S 50 0|00 S 70 0
00 S 51 0|00 S 41 0|00 S 88 0|02 L 03 0|00 S 51 0|00 S 30 0|00 L 94 0|1C S 00 -|01 L FB 0|00 S 41 0'''.replace('\n', '|').split('|')
WITH_RAM = 'format = 2\n[[chip]]\nkind = "3853"\npages = ["rom 00-0F", "ram 10-FF"]\nrom = "{}"\n[[chip]]\nkind = "3861"\nports = 4\n'
PROGRAMS, MOST_INSTRUCTIONS = 60, 400


def told(machine: Machine) -> str:
    """The line before an instruction, as MAME writes it by the commands of --commands."""
    memory, cpu = machine.chips[0], machine.cpu
    code = ''.join(f'{memory.byte((machine.address + at) % ADDRESSES):02X}' for at in range(3))
    counters = machine.reference.counters
    return (f'PC0={(machine.address + 1) % ADDRESSES:04X} OP={code} A={cpu.a:02X} W={cpu.status:02X} IS={cpu.isar:02o} '
            f'PC1={counters[PC1]:04X} DC0={counters[DC0]:04X} M={memory.byte(counters[DC0]):02X}  '
            f'{machine.address:04X}: {OPCODES[machine.opcode].name}\n')


def random_program(random: Random) -> bytes:
    """Code in which jumps and counters lead into the chip: most high bytes of addresses are small."""
    opcodes = [code for code in range(256) if code not in RESERVED]
    found = bytearray()
    while len(found) < 4096:
        opcode = OPCODES[random.choice(opcodes)]
        operand = bytes([random.choice((4, 5, random.randrange(2, 12))), random.randrange(256)])
        found += bytes([opcode.code]) + operand[:opcode.operand.size]
    return bytes(found[:4096])


def run(cart: Description, script: Script) -> Iterator[tuple[str, list[str]]]:
    """Instruction by instruction, what MAME would write before it and its steps; reset has no line."""
    machine = Machine(cart, script)
    yield '', list(map(line_of, machine.reset().steps))
    for _ in range(MOST_INSTRUCTIONS):
        if machine.is_reserved:
            return
        line = told(machine)
        course = machine.instruction()
        yield line, list(map(line_of, course.steps))
        if course.fault:
            return


@needs_toml
class FromMame(unittest.TestCase):
    def setUp(self) -> None:
        room = tempfile.TemporaryDirectory()
        self.addCleanup(room.cleanup)
        self.folder = Path(room.name)

    def converted(self, cart: str, trace: str, *options: str):
        (self.folder / 'cart.toml').write_text(cart)
        (self.folder / 'game.tr').write_text(trace)
        return call('from_mame', *options, self.folder / 'cart.toml', self.folder / 'game.tr')

    def test_lines_of_mame(self) -> None:
        done = self.converted(SUMMED, OF_SUMMED)
        self.assertEqual((done.text.splitlines(), done.returncode), ([f'bus {step}' for step in STEPS_OF_SUMMED], 0))
        self.assertEqual(answer(Description.of(SUMMED.encode()), b'steps 1\n', done.stdout), ('accept 10', 0))

    def test_lines_of_others_are_skipped(self) -> None:
        lines = OF_SUMMED.splitlines(True)
        mixed = ''.join(['\n', 'PC0=0001\n', *lines[:3], '   (loops for 7 instructions)\n', *lines[3:]])
        self.assertEqual(self.converted(SUMMED, mixed).text, self.converted(SUMMED, OF_SUMMED).text)

    def test_random_programs(self) -> None:
        opcodes: set[int] = set()
        for seed in range(PROGRAMS):
            with self.subTest(seed=seed):
                cart = Description.of(WITH_RAM.format(random_program(Random(seed)).hex()).encode())
                told_lines, steps = zip(*run(cart, Script()))
                # the last instruction is left out, since no line stands behind it
                expected = [step for course in steps[:-1] for step in course] if len(told_lines) > 1 else []
                lines = [line for line in told_lines if line]
                found = list(map(line_of, Drivers(cart, 0).steps(cycles_of(lines_of(lines))))) if lines else []
                self.assertEqual(found, expected)
                opcodes |= {int(line[12:14], 16) for line in lines}
        self.assertGreater(len(opcodes), 220)

    def test_a_step_that_no_chip_drives(self) -> None:
        """MAME reads FF at an address that the description gives to no chip."""
        trace = ('PC0=0001 OP=29FFFE A=00 W=00 IS=00 PC1=0000 DC0=0000 M=29  0000: JMP\n'
                 'PC0=FFFF OP=2B29FF A=FF W=00 IS=00 PC1=0000 DC0=0000 M=29  FFFE: NOP\n')
        done = self.converted(psu('29FFFE'), trace)
        self.assertEqual((done.text.splitlines()[-1], done.returncode), ('bus 00 S -- fault', 3))

    def test_what_is_not_told(self) -> None:
        lines = OF_SUMMED.splitlines(True)
        for trace, told_words in (('0000: NOP\n', 'no line has the form'), (''.join(lines[1:]), 'not at 0000 behind a reset'),
                                  (lines[0] + lines[3], 'an interrupt or a reset'),
                                  (lines[0].replace('OP=2A', 'OP=2D') + lines[1], 'belongs to no instruction')):
            done = self.converted(SUMMED, trace)
            self.assertEqual(done.returncode, 1)
            self.assertIn(told_words, done.told)

    def test_commands(self) -> None:
        """Each value of a line has its expression, and the page shows the first command."""
        lines = call('from_mame', '--commands', 'game.tr').text.splitlines()
        form, values = lines[0].split('"')[1:]
        self.assertEqual((len(lines), lines[1:], form.count('%')), (3, ['softreset', 'go'], len(values.strip(',}').split(','))))
        self.assertIn(lines[0], (TOP / 'docs/AUDIT.md').read_text('utf-8'))

    def test_words(self) -> None:
        self.assertIn('name the description', call('from_mame', 'cart.toml').told)


if __name__ == '__main__':
    unittest.main()
