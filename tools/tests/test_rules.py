"""The checker's rules in Python: verdict, map and refusal are those of `check --cert`, byte for byte."""
from __future__ import annotations

import os
import tempfile
import unittest
from pathlib import Path

from tool import PROGRAM, TOP, needs_program, needs_toml

from companion.certificates import certificate
from companion.description import Description
from companion.domain import Met, Part, Point, PortRead, PowerOn, Unknown
from companion.memory import Memory
from companion.program import Program
from companion.rules import Reason, Rules
from companion.search import Search, Verdict
from random_cartridges import cartridge, described, every_instruction

RANDOM = range(1, 30)  # the numbers of the random descriptions; a call of the program takes a fifth of a second

ONE_CHIP = 'format = 1\nsplit = {split}\n[[chip]]\nkind = "3851"\nbase = 0\nports = 4\nrom = "{code}"\n{keys}'


def searched(description: Description) -> Search:
    search = Search(Rules(Memory(description.chips), description.split))
    search.run()
    return search


def written(search: Search) -> str:
    """What `check --cert` writes, as the rules have it."""
    return certificate(search.notes) if search.verdict in (Verdict.WHOLE, Verdict.AGREED) else f'{search.line()}\n'


def of_code(code: str, split: list[int] = [], keys: str = '') -> Search:
    """The search of a 3851 at 0000 with the ports 04 to 07 and of what else is described."""
    return searched(described(ONE_CHIP.format(split=split, code=code, keys=keys)))


@needs_program
@needs_toml
class AgainstTheProgram(unittest.TestCase):
    def setUp(self):
        self.program = Program.of(str(PROGRAM))
        self.addCleanup(os.chdir, os.getcwd())
        os.chdir(TOP)  # where the names of sources start

    def assert_same(self, search: Search, path: Path):
        self.assertEqual(written(search), self.program.run('check', '--cert', path).output.decode())

    def test_cartridges(self):
        for path in sorted(Path('cartridges').glob('*/cart.toml')):
            with self.subTest(cartridge=path.parent.name):
                self.assert_same(searched(Description.read(path, self.program)), path)

    def test_every_instruction_with_known_operands(self):
        with tempfile.TemporaryDirectory() as folder:
            for number in range(3):
                with self.subTest(number=number):
                    path = Path(folder, f'{number}.toml')
                    path.write_text(every_instruction(number))
                    search = searched(described(path.read_text()))
                    self.assertEqual(search.verdict, Verdict.WHOLE)
                    self.assert_same(search, path)

    def test_points_of_two_tracked_registers(self):
        # LIS 2; LR 1,A; LIS 3; LR 0,A; DS 0; BNZ 4; DS 1; BNZ 2; BR .
        text = ONE_CHIP.format(split=[0, 1], code='7251' '7350' '30' '94FE' '31' '94FA' '90FF', keys='')
        with tempfile.TemporaryDirectory() as folder:
            path = Path(folder, 'cart.toml')
            path.write_text(text)
            self.assert_same(searched(described(text)), path)

    def test_a_branch_to_a_vector(self):
        """Its return is the one that an interrupt of its other way leaves. So both stand at one point, where ICB is 1 and 0."""
        # EI; PI F2; BR .; at F0: BP 100; F2: INS 0; EI; BR F0; at 100 and 180: POP
        code = bytes.fromhex('1B' '2800F2' '90FF').ljust(0xF0, b'\xFF') + bytes.fromhex('810F' 'A0' '1B' '90FB')
        text = ONE_CHIP.format(split=[], code=((code.ljust(0x100, b'\xFF') + b'\x1C').ljust(0x180, b'\xFF') + b'\x1C').hex(),
                               keys='vector = 0x0100\ninterrupt = true\n')
        search = searched(described(text))
        self.assertIsInstance(search.notes[Point(0x100, 0xF2, ())][Part.ICB], Unknown)
        with tempfile.TemporaryDirectory() as folder:
            path = Path(folder, 'cart.toml')
            path.write_text(text)
            self.assert_same(search, path)

    def test_random_descriptions(self):
        with tempfile.TemporaryDirectory() as folder:
            for number in RANDOM:
                with self.subTest(number=number):
                    path = Path(folder, f'{number}.toml')
                    path.write_text(cartridge(number))
                    self.assert_same(searched(described(path.read_text())), path)


@needs_toml
class Reasons(unittest.TestCase):
    """Each reason once, at the example that docs/CHECKER.md gives for it, and what is kept of its cause."""

    def assert_refused(self, search: Search, at: int, reason: Reason):
        self.assertEqual((search.verdict, search.refusal.point.at, search.refusal.reason), (Verdict.REFUSED, at, reason))

    def test_examples(self):
        ram = '[[chip]]\nkind = "3853"\nram_page = 0x28\nram_pages = 1\n'
        again = '[[chip]]\nkind = "3853"\nrom_page = 0x28\nrom_pages = 1\n'
        wired = '[[chip]]\nkind = "3853"\ninterrupt = true\n'
        for code, split, keys, at, reason in [
                ('290400', [], '', 0x0400, Reason.CODE_NOT_HELD_ONCE), ('292800', [], ram, 0x2800, Reason.CODE_IN_RAM),
                ('2D', [], '', 0, Reason.RESERVED), ('0C', [], '', 0, Reason.JUMP_LOST), ('09', [], '', 0, Reason.RETURN_LOST),
                ('1C', [], '', 0, Reason.RETURN_UNSET), ('2A00052C16', [], ram, 4, Reason.MAY_PART),
                ('74047005' '0908', [], '', 5, Reason.RETURN_NOT_HELD_ONCE), ('A8', [], '', 0, Reason.BAD_PORT),
                ('1B2B', [], wired, 1, Reason.VECTOR_LOST), ('2A280016', [], ram + again, 3, Reason.MAY_BE_SHARED),
                ('A050', [0], '', 1, Reason.BLURRED)]:
            with self.subTest(reason=reason.name):
                self.assert_refused(of_code(code, split, keys), at, reason)

    def test_a_loss_is_kept_with_its_cause(self):
        # LIS 1 or LIS 2, as the carry of a port isn't known: LR 3,A; LR KL,A; PK
        search = of_code('A024FF' '8204' '7190' '0272' '53' '05' '0C')
        lost = {part: unknown.cause for part, unknown in search.refusal.lost}
        self.assertEqual(lost[Part.R12], PowerOn(Part.R12))
        self.assertIsInstance(lost[Part.R13], Met)
        ways = (lost[Part.R13].meeting.first, lost[Part.R13].meeting.second)
        self.assertEqual({way.origin.at for way in ways}, {6, 8})
        self.assertEqual({way.state[Part.A] for way in ways}, {1, 2})

    def test_a_port_lasts_over_a_meeting(self):
        search = of_code('A04C50' '90FC')
        self.assertEqual(search.verdict, Verdict.WHOLE)
        state = search.notes[max(search.notes)]
        self.assertEqual([type(state[part].cause) for part in (Part.R0,)], [PowerOn])
        self.assertTrue(all(isinstance(state[part], Unknown) for part in (Part.R0, Part.SIGN)))
        self.assertEqual(state[Part.SIGN].cause, PortRead(0, 0))


if __name__ == '__main__':
    unittest.main()
