"""`prove` on programs that `check` refuses and on random ones: its lists are confirmed, by another judge too, and it says no less than `check`."""
from __future__ import annotations

import re
import unittest
from pathlib import Path

from tool import PROGRAM, TOP, needs_program, needs_toml

import nested_calls
from case_lists import BR_SELF, LOOP, PROGRAMS, psu
from cased import Judge, confirmed
from companion.description import Description
from companion.explaining.files import Files
from companion.explaining.lines import explain
from random_cartridges import cartridge
from test_cases import CARTRIDGES, Confirming

RANK = {'whole': 2, 'agreed': 1}  # of an answer; 0 of all others
RANDOM = 40
OTHERS = {'candle': 'whole', 'signboard': 'whole', 'lighthouse': 'agreed', 'heartbeat': 'unproved', 'parted': 'unproved',
          'restarted': 'unproved'}  # as they are
READ_OF_NOTHING = psu({0: '2A1000' '16' '90FB'})  # DCI 1000; LM; BR to the DCI: no chip answers there


def without_split(text: str) -> str:
    return re.sub(r'(?m)^split = .*\n', '', text)


@needs_program
@needs_toml
class Proving(Confirming):
    """Calls of the program."""

    def assert_proved(self, cart: Path, cwd: Path = TOP) -> str:
        """The answer to `prove`, which is that to `confirm` on the list that it writes, and the other judge's."""
        line, status = self.called('prove', cart, cwd=cwd)
        listed, other = self.called('prove', '--cases', cart, cwd=cwd)
        self.assertEqual(other, status)
        if status:
            self.assertEqual((status, listed), (7, line))
            self.assertRegex(line, r'unproved [0-9A-F]{4} ([0-9A-F]{4}|----) \. ([0-9]|1[012])')
            return line
        cases = self.file('found.cases', listed + '\n')
        self.assertEqual(self.called('confirm', cart, cases, cwd=cwd), (line, 0))
        description = Description.read(cwd / cart, self.program.within(cwd))
        self.assertEqual(confirmed(Judge(description), cases.read_bytes()), (line, 0))
        return line

    def test_programs_that_are_refused(self) -> None:
        for name, (cart, line) in PROGRAMS.items():
            with self.subTest(program=name):
                path = self.file('cart.toml', cart)
                self.assertEqual(self.called('check', path), (line, 7))
                self.assertRegex(self.assert_proved(path), 'whole [0-9]+')

    def test_cartridges_without_a_list_of_registers(self) -> None:
        for name, verdict in CARTRIDGES.items():
            with self.subTest(cartridge=name):
                text = (TOP / 'cartridges' / name / 'cart.toml').read_text()
                self.assertRegex(self.assert_proved(self.file('cart.toml', without_split(text))), f'{verdict} [0-9]+')

    def test_other_cartridges_as_they_are(self) -> None:
        for name, verdict in OTHERS.items():
            with self.subTest(cartridge=name):
                self.assertRegex(self.assert_proved(TOP / 'cartridges' / name / 'cart.toml'), f'{verdict} [0-9A-F]+')

    def test_nested_calls_with_their_stack_in_the_scratchpad(self) -> None:
        path = nested_calls.write(self.folder, [])
        self.assertRegex(self.called('check', path, cwd=self.folder)[0], 'refused .*')
        self.assertRegex(self.assert_proved(path, self.folder), 'whole [0-9]+')

    def test_no_less_than_the_checker(self) -> None:
        ranks = []
        for seed in range(RANDOM):
            with self.subTest(seed=seed):
                cart = self.file('cart.toml', cartridge(seed))
                check = self.called('check', cart)[0].split()[0]
                prove = self.assert_proved(cart).split()[0]
                self.assertGreaterEqual(RANK.get(prove, 0), RANK.get(check, 0))
                ranks.append(RANK.get(check, 0))
        self.assertEqual(set(ranks), {0, 1, 2})

    def test_each_answer_with_its_status(self) -> None:
        for cart, line, status in ((LOOP, 'whole 3', 0), (psu(BR_SELF), 'whole 1', 0), (READ_OF_NOTHING, 'agreed 3', 0),
                                   (psu('2D'), 'unproved 0000 ---- . 3', 7), (psu('2B2D'), 'unproved 0001 ---- . 3', 7),
                                   (psu('1C'), 'unproved 0000 ---- . 6', 7), (psu('0C'), 'unproved 0000 ---- . 4', 7)):
            path = self.file('cart.toml', cart)
            self.assertEqual(self.called('prove', path), (line, status))
            self.assert_proved(path)

    def test_words_and_files(self) -> None:
        cart = self.file('cart.toml', LOOP)
        sourced = self.file('sourced.toml', re.sub('rom = .*', 'source = "missing.f8"', LOOP))
        for words, line, status in (([cart], 'whole 3', 0), (['--', cart], 'whole 3', 0), (['missing'], 'error store cart', 4),
                                    (['--cases', 'missing'], 'error store cart', 4), ([sourced], 'error store source 0', 4),
                                    (['--cert', cart], 'error words', 1), ([cart, cart], 'error words', 1), ([], 'error words', 1),
                                    (['--cases', cart, '--cases'], 'error words', 1), (['--case', cart], 'error words', 1)):
            self.assertEqual(self.called('prove', *words, cwd=self.folder), (line, status), words)
        listed = self.called('prove', '--cases', cart)
        self.assertEqual(self.called('prove', cart, '--cases'), listed)
        self.assertRegex(listed[0], 'F8CASES 1 3\n0000 ---- -- -- 00000 0000 0000 ---- 0000 -- .*\n0001 .*\n0002 .*')

    def test_where_it_gave_up_is_explained(self) -> None:
        cart = self.file('cart.toml', psu('0C'))
        for number, word in ((4, 'Reason 4'), (0, 'too many entries')):
            told = ' '.join(explain(f'unproved 0000 ---- . {number}', Files.of([str(PROGRAM), 'prove', str(cart)])))
            self.assertIn(word, told)


if __name__ == '__main__':
    unittest.main()
