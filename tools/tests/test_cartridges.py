"""The cartridges as they lie in cartridges/, on the built program: real files, sources that are fetched, a 3853 in its socket.

A cartridge is named by its folder, and where a folder has several descriptions, by its folder and its own name.
"""
from __future__ import annotations

import functools
import subprocess
import tempfile
import unittest
from pathlib import Path

import tool
from linked import printed
from tool import PROGRAM, TOP, needs_program

# What is the same with chips and without.
PRODUCT = [
    'stop done',
    'regs P=0022 P1=0000 D0=0000 D1=0000 A=00 IS=00 W=05',
    's00 80 64 00 4F 44 00 00 00 00 00 00 00 00 00 00 00',
    'total 200 instructions 1586 phi']
HEARTBEAT = [
    'frame 12 phi 357972 tone 2',
    'frame 33 phi 984402 tone 0',
    'stop done',
    'regs P=0019 P1=0019 D0=0200 D1=0000 A=20 IS=00 W=17',
    's00 83 16 00 1F 00 00 00 00 00 00 00 00 00 00 00 00',
    'total 72345 instructions 984402 phi']
CANDLE = [
    'frame 5 phi 149152 tone 0',
    'frame 10 phi 298310 tone 0',
    'frame 14 phi 417622 tone 0',
    'stop done',
    'regs P=0032 P1=0067 D0=0000 D1=0000 A=00 IS=00 W=15',
    's00 C1 23 04 00 00 BD 29 18 3F 00 00 01 00 00 00 00',
    'total 53298 instructions 417622 phi']
SNAIL = [
    'frame 14 phi 417622 tone 0',
    'out 894002 09 6A',
    'frame 32 phi 954562 tone 0',
    'stop done',
    'regs P=0018 P1=0016 D0=0000 D1=0000 A=00 IS=00 W=05',
    's00 C4 1D 01 6A 00 00 00 00 00 00 00 00 00 00 00 00',
    'total 134384 instructions 954562 phi']

RESTARTED = [
    'stop done',
    'regs P=000E P1=0000 D0=2801 D1=0000 A=03 IS=50 W=07',
    's00 28 28 28 28 28 28 28 28 28 28 28 28 28 28 28 28',
    'total 40 instructions 546 phi']
CITY = [
    'frame 4 phi 119324 tone 0',
    'frame 12 phi 357972 tone 0',
    'stop done',
    'regs P=0029 P1=0027 D0=0092 D1=0000 A=00 IS=00 W=07',
    's00 85 2B 80 00 3F 7F 00 00 00 00 00 00 00 00 00 00',
    'total 40322 instructions 357972 phi']
TUNNEL = [
    'frame 4 phi 119324 tone 0',
    'frame 12 phi 357970 tone 0',
    'stop done',
    'regs P=002C P1=0016 D0=0000 D1=0000 A=00 IS=00 W=07',
    's00 BF 1B 00 00 BF B7 00 1F 00 00 00 00 00 00 00 00',
    'total 39714 instructions 357970 phi']

# What a run has to end with, by the words in front of the cartridge's files. The lines are those of the cartridge's README. The totals were
# counted by hand, by docs/MACHINE.md: 14 clocks of reset, and then, for instance in `parted`, DCI 24, XDC 8, DCI 24, LIS 4, LR 4, LM 10,
# XDC 8, ST 10, XDC 8, DS 6 and BNZ 14 up to the LM that isn't served. Those of `heartbeat`, `candle`, `snail` and `postcards`, which are
# too long for that, were computed by models of their programs and timers that were written apart, in Python.
RUNS = [
    (['play'], 'product', 0, PRODUCT),
    (['ref'], 'product', 0, PRODUCT),
    (['play'], 'two_roms', 0, [
        'stop done',
        'regs P=0017 P1=0016 D0=280B D1=0000 A=E8 IS=56 W=07',
        's00 90 E9 00 E9 E8 EE EE EE EE EE EE EE EE EE EE EE',
        'total 200 instructions 1712 phi']),
    (['play'], 'parted', 3, [
        'stop astray romc 02 socket 0 at 0014 reference 0013',
        'regs P=0009 P1=0000 D0=0013 D1=2801 A=C0 IS=00 W=03',
        's00 03 00 00 00 00 00 00 00 00 00 00 00 00 00 00 00',
        'total 11 instructions 134 phi']),
    (['play', '--trace'], 'parted', 3, [
        'bus 02 L -- fault',
        'stop astray romc 02 socket 0 at 0014 reference 0013',
        'regs P=0009 P1=0000 D0=0013 D1=2801 A=C0 IS=00 W=03',
        's00 03 00 00 00 00 00 00 00 00 00 00 00 00 00 00 00',
        'total 11 instructions 134 phi']),
    (['play'], 'copied', 0, [
        'verdict whole',
        'stop done',
        'regs P=0010 P1=0000 D0=2004 D1=2804 A=11 IS=00 W=07',
        's00 00 00 00 00 00 00 00 00 00 00 00 00 00 00 00 00',
        'total 100 instructions 1294 phi']),
    (['play'], 'summed', 0, [
        'verdict agreed',
        'stop done',
        'regs P=000D P1=0000 D0=0017 D1=0000 A=1F IS=00 W=07',
        's00 00 1F 00 00 00 00 00 00 00 00 00 00 00 00 00 00',
        'total 100 instructions 1126 phi']),
    (['play'], 'lighthouse', 0, [
        'frame 20 phi 596600 tone 0',
        'frame 40 phi 1193204 tone 0',
        'frame 43 phi 1282700 tone 2',
        'stop done']),
    (['play'], 'signboard', 0, [
        'verdict whole',
        'frame 2 phi 59662 tone 0',
        'frame 3 phi 89492 tone 0',
        'frame 5 phi 149152 tone 0',
        'stop done']),
    (['play'], 'heartbeat', 0, HEARTBEAT),
    (['ref'], 'heartbeat', 0, HEARTBEAT),
    (['play'], 'candle', 0, ['verdict whole', *CANDLE]),
    (['ref'], 'candle', 0, CANDLE),
    (['play'], 'snail', 0, ['verdict whole', *SNAIL]),
    (['ref'], 'snail', 0, SNAIL),
    (['play'], 'postcards/city', 0, ['verdict agreed', *CITY]),
    (['ref'], 'postcards/city', 0, CITY),
    (['play'], 'postcards/tunnel', 0, ['verdict whole', *TUNNEL]),
    (['ref'], 'postcards/tunnel', 0, TUNNEL),
    (['play'], 'restarted', 0, ['verdict none', *RESTARTED]),
    (['ref'], 'restarted', 0, RESTARTED),
]

# Without chips the copy of `parted` is done: four bytes are gone over, the last of them is 11, and r0 is 0.
PARTED_WITHOUT_CHIPS = ['stop done', 'regs P=0010 P1=0000 D0=0016 D1=2804 A=11 IS=00 W=07', 'total 100 instructions 1294 phi']


# The verdict on each cartridge. Where no register is tracked, the points are the instructions that a run can come to; of `copied`, the five
# before the loop, six in each of its four turns, and the branch at the end. Those of `lighthouse` weren't counted by hand, so its
# row has the word of the verdict alone. Of `candle` they are 80 instructions that are met with one return, and 25 with four; of `snail` 59
# with one and 15 with three.
VERDICTS = {
    'product': (0, 'whole 30'), 'copied': (0, 'whole 30'), 'summed': (0, 'agreed 11'), 'two_roms': (0, 'agreed 27'), 'lighthouse': (0, 'agreed'),
    'signboard': (0, 'whole'),
    'parted': (7, 'refused 0009 ---- . 7'), 'heartbeat': (7, 'refused 0019 ---- . 10'), 'candle': (0, 'whole 180'),
    'snail': (0, 'whole 104'), 'postcards/city': (0, 'agreed 79'), 'postcards/tunnel': (0, 'whole 58'),
    'restarted': (7, 'refused 000D ---- . 6')}


# The rectangles of the city, by column, row, width, height and colour, and its stars by column and row.
HOUSES = [(6, 30, 14, 30, 1), (22, 18, 12, 42, 1), (36, 38, 20, 22, 1), (60, 12, 10, 48, 1), (64, 6, 2, 6, 2), (72, 26, 18, 34, 1), (94, 34, 26, 26, 1),
          (9, 34, 3, 3, 3), (14, 40, 3, 3, 3), (26, 24, 4, 4, 3), (40, 44, 5, 3, 3), (63, 20, 4, 2, 3), (63, 28, 4, 2, 3), (78, 32, 6, 4, 3),
          (100, 40, 3, 4, 3), (110, 46, 3, 4, 3), (0, 60, 128, 4, 2)]
STARS = [(4, 8), (17, 4), (46, 10), (50, 22), (84, 7), (99, 15), (118, 5), (122, 20)]


def painted(rectangles: list[tuple[int, int, int, int, int]]) -> list[str]:
    """The rows of a picture of rectangles, each over those before it."""
    rows = [[0] * 128 for _ in range(64)]
    for left, top, width, height, colour in rectangles:
        for row in rows[top:top + height]:
            row[left:left + width] = [colour] * width
    return [marked(''.join(map(str, row))) for row in rows]


def marked(digits: str) -> str:
    """The pixels of a row as the READMEs have them."""
    return digits.translate(str.maketrans('0123', ' .o#'))


def picture(lines: list[str], number: int) -> list[str]:
    """The rows of a shown frame."""
    at = next(at for at, line in enumerate(lines) if line.startswith(f'frame {number} '))
    return [marked(line[2:]) for line in lines[at + 1:at + 65]]


def folder_of(name: str) -> str:
    return name.split('/')[0]


def readme(name: str) -> str:
    return (TOP / 'cartridges' / folder_of(name) / 'README.md').read_text()


def shown(name: str, before: str, behind: str = '') -> list[str]:
    """The lines of a README between two texts, of which the second is else the next empty line."""
    return [line.rstrip() for line in readme(name).partition(before)[2].partition(behind or '\n\n')[0].splitlines()]


def indented(rows: list[str]) -> list[str]:
    return [f'    {row}'.rstrip() for row in rows]


def run(command: list[str], name: str) -> tuple[int, list[str]]:
    """The status of the program on a cartridge, and its lines. Long runs are made once for all tests."""
    folder = f'cartridges/{folder_of(name)}'
    return ran(*command, f'{folder}/{name.partition("/")[2] or "cart"}.toml', *([] if command == ['check'] else [f'{folder}/script.txt']))


@functools.cache
def ran(*words: str) -> tuple[int, list[str]]:
    done = subprocess.run([PROGRAM, *words], cwd=TOP, capture_output=True, text=True, timeout=60)
    return done.returncode, done.stdout.splitlines()


@needs_program
class Cartridges(unittest.TestCase):
    def assert_in_order(self, expected: list[str], lines: list[str]):
        self.assertEqual([line for line in lines if line in expected], expected)

    def test_each_run_ends_as_its_readme_says(self):
        for command, name, status, expected in RUNS:
            with self.subTest(words=[*command, name]):
                ended, lines = run(command, name)
                self.assertEqual(ended, status)
                self.assert_in_order(expected, lines)
                self.assertEqual(lines[0].startswith('verdict '), command[0] == 'play')
                self.assertTrue(lines[-1].startswith('total '))

    def test_each_verdict_is_that_of_its_readme(self):
        for name, (status, line) in VERDICTS.items():
            with self.subTest(cartridge=name):
                ended, lines = run(['check'], name)
                self.assertEqual((ended, len(lines)), (status, 1))
                self.assertEqual(lines[0] if ' ' in line else lines[0].split()[0], line)
                self.assertIn(line, readme(name))

    def test_copy_with_both_data_counters_is_done_without_chips(self):
        ended, lines = run(['ref'], 'parted')
        self.assertEqual(ended, 0)
        self.assert_in_order(PARTED_WITHOUT_CHIPS, lines)

    def test_readmes_have_the_lines(self):
        for command, name, _, expected in RUNS:
            text = readme(name)
            for line in expected:
                self.assertTrue(line in text or line.startswith(('total', 'bus')), line)

    def test_pictures_of_the_lighthouse_are_those_of_its_readme(self):
        _, lines = run(['play'], 'lighthouse')
        for number in (20, 43):
            self.assertEqual(indented(picture(lines, number)[::2]), shown('lighthouse', f'\nFrame {number}:\n\n'))

    def test_pictures_of_the_candle(self):
        _, lines = run(['play'], 'candle')
        parts = [[row[50:78] for row in picture(lines, number)[14:54:2]] for number in (5, 10, 14)]
        self.assertEqual(indented(['   '.join(row) for row in zip(*parts)]), shown('candle', '`#` for 3:\n\n', '\n\nThe other'))

    def test_the_shell_of_the_snail(self):
        _, lines = run(['play'], 'snail')
        rows = picture(lines, 32)
        self.assertEqual(indented([row[46:84] for row in rows[16:43]]), shown('snail', '`#` for 3:\n\n', '\n\nThe other'))
        self.assertEqual(set(''.join(rows[:16] + rows[43:])), {' '})

    def test_certificates(self):
        """They are there as the checker writes them, and show the verdict."""
        for name in ('candle', 'snail'):
            cart, cert = (f'cartridges/{name}/{file}' for file in ('cart.toml', 'cart.cert'))
            self.assertEqual(ran('check', '--cert', cart), (0, (TOP / cert).read_text().splitlines()))
            self.assertEqual(ran('verify', cart, cert), (0, [VERDICTS[name][1]]))

    def test_what_is_said_of_other_snails(self):
        source, cart = ((TOP / 'cartridges/snail' / name).read_text() for name in ('snail.f8', 'cart.toml'))
        said = (TOP / 'cartridges/snail/README.md').read_text()
        other = cart.replace('kind = "3861"\nports = 8\nvector = 0x0100\n', 'kind = "3853"\n')
        with tempfile.TemporaryDirectory() as folder:
            for source_of, cart_of, line in [(source.partition('        ORG $0180')[0], cart, 'refused 0180 0016 . 3'),
                                             (source, cart.replace('ports = 8', 'ports = 4'), 'refused 0059 000F . 9'),
                                             (source, other, 'refused 0015 000F . 10'),
                                             (source, cart.replace('format = 2', 'format = 1'), 'error cart chip 1 key kind cause 4')]:
                Path(folder, 'snail.f8').write_text(source_of)
                Path(folder, 'cart.toml').write_text(cart_of.replace('cartridges/snail/', ''))
                done = subprocess.run([PROGRAM, 'check', 'cart.toml'], cwd=folder, capture_output=True, text=True, timeout=60)
                self.assertEqual(done.stdout, f'{line}\n')
                self.assertIn(f'`{line}`', said)

    def test_what_is_said_of_other_candles(self):
        source, cart = ((TOP / 'cartridges/candle' / name).read_text() for name in ('candle.f8', 'cart.toml'))
        begin, _, behind = source.partition('        ORG $0180')
        without = begin + '        ORG $0200' + behind.partition('        ORG $0200')[2]
        said = (TOP / 'cartridges/candle/README.md').read_text()
        with tempfile.TemporaryDirectory() as folder:
            Path(folder, 'cart.toml').write_text(cart.replace('cartridges/candle/', ''))
            for text, line in [(source.replace('        DI\n', ''), 'whole 1490'), (without, 'refused 0180 0032 . 3')]:
                Path(folder, 'candle.f8').write_text(text)
                done = subprocess.run([PROGRAM, 'check', 'cart.toml'], cwd=folder, capture_output=True, text=True, timeout=60)
                self.assertEqual(done.stdout, f'{line}\n')
                self.assertIn(f'`{line}`', said)

    def test_what_is_said_of_other_power_ons(self):
        cart = (TOP / 'cartridges/restarted/cart.toml').read_text()
        start, said = 'start = 0x0000\n', (TOP / 'cartridges/restarted/README.md').read_text()
        for text, line in [(cart.replace(start, ''), 'stop astray romc 00 socket 12 at 2834 reference 0000'),
                           (cart.removesuffix(start), 'stop conflict romc 00 socket 0 at 0000 socket 12 at 2834'),
                           (cart.replace(start, '', 1), 'stop undriven romc 00 at 0000')]:
            self.assertEqual(self.restarted(text, '28')[1:3], [line, 'regs P=000D P1=0000 D0=2801 D1=0000 A=01 IS=50 W=01'])
            self.assertIn(f'`{line}`', said)
        self.assertEqual(self.restarted(cart.replace(start, '').replace('fill = 0x00\n', ''), '00')[1], 'stop done')

    def restarted(self, cart: str, power: str) -> list[str]:
        """The lines of a run of another description with this power-on byte."""
        with tempfile.TemporaryDirectory() as folder:
            Path(folder, 'cart.toml').write_text(cart)
            Path(folder, 'script.txt').write_text(f'power {power}\nsteps 40\n')
            done = subprocess.run([PROGRAM, 'play', f'{folder}/cart.toml', f'{folder}/script.txt'], cwd=TOP, capture_output=True, text=True,
                                  timeout=60)
        return done.stdout.splitlines()

    def test_letters_of_the_signboard(self):
        _, lines = run(['play'], 'signboard')
        rows = [row.replace('#', '?').replace('o', '#') for row in picture(lines, 5)]
        self.assertEqual(indented(rows[20:43]), shown('signboard', 'for the colour 2:\n\n', '\n\nThe other'))
        self.assertEqual({mark for row in rows[:20] + rows[43:] for mark in row}, {' '})

    def test_pictures_of_the_postcards(self):
        """Those of the READMEs, and those that the rectangles and stars make."""
        city = painted([*HOUSES, *((column, row, 1, 1, 3) for column, row in STARS)])
        tunnel = painted([(32 + 8 * turn, 16 + 4 * turn, 64 - 16 * turn, 32 - 8 * turn, (1 + turn) % 4) for turn in range(4)])
        for name, rows in (('city', city), ('tunnel', tunnel)):
            _, lines = run(['play'], f'postcards/{name}')
            self.assertEqual(picture(lines, 12), rows)
            self.assertNotEqual(picture(lines, 4), rows)
            writes = sum(line.startswith('out ') for line in lines)
            self.assertIn(f'{writes:,} writes', ' '.join(readme('postcards').split()))

    def test_postcards_as_the_program_links_them(self):
        for name in ('city', 'tunnel'):
            told = ran('link', f'cartridges/postcards/{name}.plan')
            self.assertEqual(told, (0, linked(name)))


@tool.needs_toml
class Postcards(unittest.TestCase):
    """What the tests' own linker makes of their modules."""

    def test_descriptions_have_what_is_linked(self):
        for name in ('city', 'tunnel'):
            done = tool.call('describe', '-', stdin='\n'.join(linked(name)) + '\n')
            self.assertEqual(done.text, (TOP / f'cartridges/postcards/{name}.toml').read_text())

    def test_pictures_of_the_readme(self):
        city = painted([*HOUSES, *((column, row, 1, 1, 3) for column, row in STARS)])
        found = shown('postcards', '`o` for 2 and `#` for 3:\n\n')
        self.assertEqual(found, indented(city[::2])[-len(found):])
        self.assertEqual({row.strip() for row in city[:64 - 2 * len(found)]}, {''})

    def test_what_is_said_of_other_modules(self):
        source = {path.name: path.read_text() for path in (TOP / 'cartridges/postcards').iterdir()}
        tunnel = source['tunnel.f8'].replace('IMPORT FILL', 'IMPORT LEFT,FILL').replace('LEFT:   EQU 0           ; what FILL takes\n', '')
        for changed, line in (({'tunnel.plan': source['tunnel.plan'].replace('0040 007F', '0000 007F')}, 'error link module 1 cause 4'),
                              ({'draw.f8': source['draw.f8'].replace('EXPORT FILL,', 'EXPORT ')}, 'error link module 0 cause 2'),
                              ({'tunnel.f8': tunnel}, 'error module 0 line 16 column 12 cause 12')):
            files = {f'cartridges/postcards/{name}': text.encode() for name, text in {**source, **changed}.items()}
            self.assertEqual(printed('cartridges/postcards/tunnel.plan', files), ([line], 2))
            self.assertIn(f'`{line}`', readme('postcards'))


def linked(name: str) -> list[str]:
    """The lines of a program of the postcards, by the tests' own linker."""
    files = {f'cartridges/postcards/{path.name}': path.read_bytes() for path in (TOP / 'cartridges/postcards').iterdir()}
    lines, _ = printed(f'cartridges/postcards/{name}.plan', files)
    return lines


if __name__ == '__main__':
    unittest.main()
