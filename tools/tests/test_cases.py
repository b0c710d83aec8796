"""`confirm` on lists worked out by hand, and on lists that are searched for, as they are found and changed, against another judge."""
from __future__ import annotations

import re
import subprocess
import tempfile
import unittest
from pathlib import Path
from random import Random
from typing import Iterator, Sequence

from tool import PROGRAM, TOP, needs_program, needs_toml

import nested_calls
from case_lists import AT, BR_SELF, LOOP, OF_LOOP, PROGRAMS, changed, entry, list_of_opcodes, lone, psu, worked
from case_search import searched
from cased import Entry, Judge, Remembering, confirmed, line_of, read_list, status_of, text_of
from companion.description import Description
from companion.memory import Memory
from companion.program import Program
from companion.rules import Rules
from companion.search import Search
from random_cartridges import described

HEADER, FIRST, SECOND, THIRD = text_of(OF_LOOP).decode().splitlines()
ANY = ['--'] * 64
OPCODE_LISTS, OPCODE_CHANGES, OTHER_CHANGES = range(4), 8, 4
CARTRIDGES = {'product': 'whole', 'copied': 'whole', 'summed': 'whole', 'two_roms': 'whole', 'snail': 'whole'}  # without `split`
BIG = 65_536  # entries, as many as there may be


def text(*lines: str) -> bytes:
    return ''.join(line + '\n' for line in lines).encode()


def with_word(number: int, word: str, line: str = SECOND) -> str:
    """A line with another word in a place."""
    words = line.split(' ')
    return ' '.join([*words[:number], word, *words[number + 1:]])


def refused(line: int, cause: int) -> str:
    return f'error cases line {line} cause {cause}'


# ---- texts for the cartridge of OF_LOOP, with what is answered

def first_lines() -> Iterator[tuple[bytes, str]]:
    rest = [FIRST, SECOND, THIRD]
    for header in ('F8CASES 1 3', 'F8CASES 1 0000003', 'F8CASES 1 03'):
        yield text(header, *rest), 'whole 3'
    for header in ('F8CASES 1 ', 'F8CASES 1', 'F8CASES 1 00000003', 'F8CASES 2 3', 'F8CERT 1 3', 'f8cases 1 3', 'F8CASES 1 +3',
                   'F8CASES 1  3', 'F8CASES 1 3 ', 'F8CASES 1 3\r', ' F8CASES 1 3', 'F8CASES 1 0x3', 'F8CASES 1 3 3', ''):
        yield text(header, *rest), refused(1, 1)
    for header in ('F8CASES 1 0', 'F8CASES 1 0000000', 'F8CASES 1 65537', 'F8CASES 1 9999999'):
        yield text(header, *rest), refused(1, 2)
    yield b'', refused(1, 5)
    yield b'F8CASES 1 3', refused(1, 5)
    yield b'F8CERT', refused(1, 5)


def ends() -> Iterator[tuple[bytes, str]]:
    whole = text(HEADER, FIRST, SECOND, THIRD)
    yield whole[:-1], refused(4, 5)
    yield whole[:-40], refused(4, 5)
    yield whole[:-1] + b'\r', refused(4, 5)
    yield text(HEADER, FIRST, SECOND), refused(4, 5)
    yield text(HEADER), refused(2, 5)
    yield whole + b'\n', refused(5, 5)
    yield whole + b'x', refused(5, 5)
    yield text('F8CASES 1 2', FIRST, SECOND, THIRD), refused(4, 5)
    yield text('F8CASES 1 4', FIRST, SECOND, THIRD), refused(5, 5)
    yield text('F8CASES 1 65536', FIRST), refused(3, 5)
    yield text('F8CASES 1 4', FIRST, 'x', THIRD), refused(3, 3)


def orders() -> Iterator[tuple[bytes, str]]:
    yield text(HEADER, FIRST, THIRD, SECOND), refused(4, 4)
    yield text(HEADER, SECOND, FIRST, THIRD), refused(3, 4)
    yield text(HEADER, FIRST, SECOND, SECOND), refused(4, 4)
    yield text(HEADER, FIRST, SECOND, with_word(2, '00', THIRD).replace('0002', '0001', 1)), refused(4, 4)
    yield text(HEADER, FIRST, THIRD, with_word(73, 'x')), refused(4, 3)
    pair = [with_word(73, word, with_word(2, '01')) for word in ('ab', 'AC')]
    both = text('F8CASES 1 5', FIRST, *pair, SECOND.replace(' 01 ', ' 02 ', 1), THIRD)
    yield both, 'notclosed 2 to 0001 ---- .'
    yield text('F8CASES 1 4', FIRST, *reversed(pair), THIRD), refused(4, 4)
    yield text('F8CASES 1 4', FIRST, with_word(73, 'ab'), with_word(73, 'AB'), THIRD), refused(4, 4)
    small = text('F8CASES 1 4', FIRST, SECOND, THIRD, with_word(0, '000a', THIRD))
    yield small, 'unsafe 5 3'
    yield small.replace(b'000a', b'000A'), 'unsafe 5 3'


def lists_of(count: int, form: str) -> str:
    return ''.join(format(number, form) for number in range(count))


def words() -> Iterator[tuple[int, str, bool]]:
    """Words by their places in a line, and whether they are in the form."""
    yield from ((0, word, False) for word in ('', '1', '001', '00001', '----', '000G', '0x01', '+001'))
    good = ('----', '0000', 'ffFF')
    yield from ((1, word, word in good) for word in (*good, '', '--', '-----', '000', '00000000', '-000'))
    for place in (2, 10, 73):  # A, and registers
        good = ('--', '01', '0102', 'aAfF', lists_of(16, '02X'))
        bad = ('', '-', '---', '----', '1', '011', '0101', '0201', '01--', '0102,03', '0G', lists_of(17, '02X'), '01\r', '\t01', '０１')
        yield from ((place, word, word in good) for word in (*good, *bad))
    good = ('--', '00', '77', '0077', lists_of(64, '02o'), lists_of(63, '02o'))
    bad = ('', '0', '08', '80', '0000', '7700', '100', '----', lists_of(64, '02o') + '77')
    yield from ((3, word, word in good) for word in (*good, *bad))
    good = ('00000', '11111', '-----', '0-1-0')
    yield from ((4, word, word in good) for word in (*good, '', '0000', '000000', '00002', '0000x', '--', '0000 '))
    for place in (5, 6, 7):  # D0, D1 and c
        good = ('----', '0000', '00000001', 'fffeFFFF', lists_of(512, '04X'))
        bad = ('', '--', '--------', '000', '00', '00000000', '00010000', '0000----', lists_of(513, '04X'))
        yield from ((place, word, word in good) for word in (*good, *bad))
    good = ('0000', '1111', '0101')
    yield from ((8, word, word in good) for word in (*good, '', '000', '00000', '----', '000-', '2000'))
    good = ('--', '00', '77')
    yield from ((9, word, word in good) for word in (*good, '', '0', '0001', '78', '-', '----'))


def forms() -> Iterator[tuple[bytes, str]]:
    """Each word in its place, of an entry to which nothing leads: at 0009, where no instruction stands, so that it isn't safe."""
    own = with_word(0, '0009', THIRD)
    for place, word, is_right in words():
        yield text('F8CASES 1 4', FIRST, SECOND, THIRD, with_word(place, word, own)), 'unsafe 5 3' if is_right else refused(5, 3)
    short, gap, tab = own.rsplit(' ', 1)[0], own.replace(' ', '  ', 1), own.replace(' ', '\t', 1)
    for line in (own + ' ', own + ' --', ' ' + own, gap, short, own + '\r', tab, '', '# a comment', own.replace('0', '\0', 1)):
        yield text('F8CASES 1 4', FIRST, SECOND, THIRD, line), refused(5, 3)


def texts() -> Iterator[tuple[bytes, str]]:
    for group in (first_lines, ends, orders, forms):
        yield from group()


# ---- the judge of the tests, and the search

@needs_toml
class Judging(unittest.TestCase):
    """The judge of the tests, on what was worked out by hand."""

    def test_lists_by_hand(self) -> None:
        for number, (cart, entries, line) in enumerate(worked()):
            with self.subTest(number=number):
                self.assertEqual(confirmed(Judge(described(cart)), text_of(entries)), (line, status_of(line)))

    def test_texts_by_hand(self) -> None:
        judge = Remembering(described(LOOP))
        for given, line in texts():
            self.assertEqual(confirmed(judge, given), (line, status_of(line)), given[:200])

    def test_what_is_written_is_read(self) -> None:
        for _, entries, _ in worked():
            self.assertEqual(set(read_list(text_of(entries))), set(entries))

    def test_the_list_of_the_page(self) -> None:
        """The list that docs/FORMATS.md has, with the words that it cuts short."""
        page = (TOP / 'docs/FORMATS.md').read_text()
        lines = re.search(r'\n    (F8CASES 1 3\n(?:    .*\n){3})', page)[1].replace(' ..\n', ' --' * 62 + '\n')
        self.assertEqual(text(*(line.strip() for line in lines.splitlines())), text_of(OF_LOOP))

    def test_the_longest_line(self) -> None:
        """A line that has all that it may have, with its LF, has no more bytes than the page says."""
        bytes_of, words_of = range(16), range(512)
        regs = {f'R{number}': bytes_of for number in range(64)}
        full = entry(0, 0, 0, F='1111', A=bytes_of, D0=words_of, D1=words_of, C=words_of, **regs)
        length = len(with_word(3, lists_of(64, '02o'), line_of(full))) + 1
        section = (TOP / 'docs/FORMATS.md').read_text().split('## List of cases')[1]
        told = re.search(r'A line has at most ([0-9,]+) bytes', section)[1]
        self.assertEqual(length, 8445)
        self.assertLessEqual(length, int(told.replace(',', '')))


@needs_toml
class Searching(unittest.TestCase):
    """The search finds lists for programs that `check` refuses, since no register is tracked."""

    def test_programs(self) -> None:
        for name, (cart, line) in PROGRAMS.items():
            with self.subTest(program=name):
                description = described(cart)
                search = Search(Rules(Memory(description.chips)))
                search.run()
                self.assertEqual(search.line(), line)
                found = searched(description)
                self.assertEqual(confirmed(Judge(description), found.text), (f'whole {len(found.entries)}', 0))

    def test_nothing_is_found_where_nothing_is(self) -> None:
        # INS 0; LR 0,A; LR A,0; LR KL,A; CLR; LR KU,A; PK leads anywhere from 0000 to 00FF, and so to 0007.
        for code, line in (('0C', '0000 ---- . 4'), ('1C', '0000 ---- . 6'), ('A0504005' '70040C', '0007 0007 . 3')):
            found = searched(described(psu(code)))
            self.assertEqual((found.entries, found.refusal.text()), ([], f'refused {line}'))

    def test_lists_of_opcodes(self) -> None:
        cart, entries = list_of_opcodes(0)
        self.assertRegex(confirmed(Judge(described(cart)), text_of(entries))[0], f'(whole|agreed) {len(entries)}')


# ---- the program

class Confirming(unittest.TestCase):
    """Calls of the program in a folder of their own."""

    def setUp(self) -> None:
        room = tempfile.TemporaryDirectory()
        self.addCleanup(room.cleanup)
        self.folder = Path(room.name)
        self.program = Program.of(str(PROGRAM))

    def called(self, *words: object, cwd: Path = TOP) -> tuple[str, int]:
        done = subprocess.run([PROGRAM, *map(str, words)], cwd=cwd, capture_output=True, text=True, timeout=60)
        return done.stdout.removesuffix('\n'), done.returncode

    def file(self, name: str, given: str | bytes) -> Path:
        path = self.folder / name
        path.write_bytes(given if isinstance(given, bytes) else given.encode())
        return path

    def confirmed(self, cart: str | Path, cases: bytes) -> tuple[str, int]:
        return self.called('confirm', cart if isinstance(cart, Path) else self.file('cart.toml', cart), self.file('list.cases', cases))

    def assert_judged(self, cart: str | Path, judge: Judge, cases: bytes) -> str:
        """The program answers as the judge does, with its line."""
        own = confirmed(judge, cases)
        self.assertEqual(self.confirmed(cart, cases), own)
        return own[0]

    def assert_changes(self, cart: str | Path, description: Description, entries: Sequence[Entry], seed: str, count: int) -> list[str]:
        """A list, and some that are changed, each for itself."""
        judge, random = Remembering(description), Random(seed)
        entries = read_list(text_of(entries))
        found = [self.assert_judged(cart, judge, text_of(entries))]
        for number in range(count):
            with self.subTest(seed=seed, change=number):
                found.append(self.assert_judged(cart, judge, text_of(changed(random, entries))))
        return found


@needs_program
@needs_toml
class ByHand(Confirming):
    """On what was worked out by hand."""

    def test_lists(self) -> None:
        for number, (cart, entries, line) in enumerate(worked()):
            with self.subTest(number=number):
                self.assertEqual(self.confirmed(cart, text_of(entries)), (line, status_of(line)))

    def test_texts(self) -> None:
        cart = self.file('loop.toml', LOOP)
        for given, line in texts():
            self.assertEqual(self.confirmed(cart, given), (line, status_of(line)), given[:200])

    def test_each_answer_with_its_status(self) -> None:
        read = psu({0: '2A1000' '16' '90FB'})  # DCI 1000; LM; BR to the DCI: no chip answers there
        agreed = [entry(0, D0=None), entry(3, D0=[0x1000], C=[0x1000], F='1010'), entry(4, D0=[0x1001], C=[0x1001], F='1010')]
        for cart, entries, line, status in ((LOOP, OF_LOOP, 'whole 3', 0), (read, agreed, 'agreed 3', 0),
                                            (LOOP, OF_LOOP[1:], 'notclosed start to 0000 ---- .', 7),
                                            (LOOP, OF_LOOP[:2], 'notclosed 3 to 0002 ---- .', 7),
                                            (*lone('2D', entry(AT)), 'unsafe 3 3', 7)):
            self.assertEqual(self.confirmed(cart, text_of(entries)), (line, status))

    def test_split_makes_no_difference(self) -> None:
        for split in ('[]', '[0]', '[12, 13]', '[0, 1, 2, 3, 4, 5, 6, 63]'):
            for code, entries, line in ((BR_SELF, [entry(0)], 'whole 1'), ('A050' + BR_SELF, [entry(0)], 'notclosed 2 to 0001 ---- .'),
                                        ('5C' + BR_SELF, [entry(0), entry(1)], 'whole 2')):  # LR S,A by any ISAR
                cart = psu(code).replace('format = 2\n', f'format = 2\nsplit = {split}\n')
                self.assertEqual(self.confirmed(cart, text_of(entries))[0], line)

    def test_files_in_their_order(self) -> None:
        cart, cases = self.file('cart.toml', LOOP), self.file('list.cases', text_of(OF_LOOP))
        sourced = self.file('sourced.toml', re.sub('rom = .*', 'source = "missing.f8"', LOOP))
        for files, line, status in (([cart, cases], 'whole 3', 0), ([cart, 'missing'], 'error store cases', 4),
                                    (['missing', 'missing'], 'error store cart', 4), ([cases, 'missing'], 'error cart toml', 2),
                                    ([sourced, 'missing'], 'error store source 0', 4)):
            self.assertEqual(self.called('confirm', *files, cwd=self.folder), (line, status), files)
        for files in ([], [cart], [cart, cases, cases], ['--trace', cart, cases], ['--cert', cart, cases], [cart, '--cases']):
            self.assertEqual(self.called('confirm', *files, cwd=self.folder), ('error words', 1), files)

    def test_as_many_entries_as_there_may_be(self) -> None:
        """NOPs from 0000 on, and BR . behind them, with 32 returns each, and some more returns at the last one."""
        last, returns = 2046, ['----', *(f'{number:04X}' for number in range(31))]
        second = psu({0x0400: '2B' * 1022 + BR_SELF}, base=0x0400).replace('ports = 4', 'ports = 8')
        chips = psu('2B' * 1024, more=second.removeprefix('format = 2\n'))
        tail = line_of(entry(0)).split(' ', 2)[2]
        lines = [f'{at:04X} {back} {tail}\n' for at in range(last + 1) for back in returns]
        lines += [f'{last:04X} {number:04X} {tail}\n' for number in range(31, 31 + BIG - len(lines))]
        whole = f'F8CASES 1 {BIG}\n{"".join(lines)}'
        self.assertEqual(self.confirmed(chips, whole.encode()), (f'whole {BIG}', 0))
        self.assertEqual(self.confirmed(chips, whole.replace('65536', '65535', 1).encode()), (refused(BIG + 1, 5), 2))


@needs_program
@needs_toml
class Searched(Confirming):
    """On lists that the search finds, and on changes of them: the program's answer is that of the other judge."""

    def test_cartridges(self) -> None:
        for name, verdict in CARTRIDGES.items():
            with self.subTest(cartridge=name):
                cart = Path('cartridges', name, 'cart.toml')
                description = Description.read(TOP / cart, self.program.within(TOP))
                found = searched(description)
                answers = self.assert_changes(cart, description, found.entries, name, OTHER_CHANGES)
                self.assertEqual(answers[0], f'{verdict} {len(found.entries)}')

    def test_programs(self) -> None:
        for name, (cart, line) in PROGRAMS.items():
            self.assertEqual(self.called('check', self.file('cart.toml', cart)), (line, 7))
            description = described(cart)
            answers = self.assert_changes(cart, description, searched(description).entries, name, OTHER_CHANGES)
            self.assertRegex(answers[0], 'whole [0-9]+')

    def test_a_stack_with_its_pointer_in_r59(self) -> None:
        path = nested_calls.write(self.folder, [])
        self.assertRegex(self.called('check', path, cwd=self.folder)[0], 'refused .*')
        description = Description.read(self.folder / path, self.program.within(self.folder))
        found = searched(description)
        answered = self.called('confirm', path, self.file('list.cases', found.text), cwd=self.folder)
        self.assertEqual(answered, (f'whole {len(found.entries)}', 0))

    def test_every_opcode(self) -> None:
        told: set[str] = set()
        for seed in OPCODE_LISTS:
            cart, entries = list_of_opcodes(seed)
            told |= {line.split()[0] for line in self.assert_changes(cart, described(cart), entries, str(seed), OPCODE_CHANGES)}
        self.assertIn('notclosed', told)


if __name__ == '__main__':
    unittest.main()
