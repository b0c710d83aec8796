"""The two formats of a description: what each says, and what `migrate` makes of one."""
from __future__ import annotations

import unittest

from tool import TOP, needs_program, needs_toml, tomllib

from companion.counters import Rack
from companion.description import Description, Holding, filled
from migration import migrated
from random_cartridges import cartridge
from rooms import Room

PSU = '[[chip]]\nkind = "3851"\nbase = {}\nports = {}\nrom = "{}"\n'
# By hand, from page keys: two runs that begin at one page, of which one is empty, a 3853 without pages, and a source with a quote in its name.
OLD = '''format = 1
split = [3]
[[chip]]
kind = "3853"
rom_page = 0x20
rom_pages = 9
ram_page = 0x28
ram_pages = 0
void_pages = 1
[[chip]]
kind = "3853"
[[chip]]
kind = "3851"
base = 0
ports = 4
source = 'a"b'
'''
NEW = {'format': 2, 'split': [3], 'chip': [{'kind': '3853', 'pages': ['rom 20-28', 'void 00']}, {'kind': '3853', 'pages': []},
                                           {'kind': '3851', 'base': 0, 'ports': 4, 'source': 'a"b'}]}
# Chips that are powered on each in its own way, the 3853 first.
POWERS = ('format = 2\n[[chip]]\nkind = "3853"\npages = ["ram 28", "rom 20", "void 30-31"]\nfill = 0x33\nstart = 0x1111\nrom = "AA"\n'
          + PSU.format(0, 4, '2A2800162A2801162B90FE') + 'start = 0x2222\n' + PSU.format(1024, 8, ''))


def described(text: str) -> Description:
    return Description.of(text.encode())


@needs_toml
class Formats(unittest.TestCase):
    def test_pages_in_any_order(self):
        chip, = described('format = 2\n[[chip]]\nkind = "3853"\npages = ["rom 22", "ram 21", "void 2a-2B", "rom 20"]\n'
                          f'rom = "{"11" * 256}22"\n').chips
        self.assertEqual([chip.holds(page << 8) for page in (0x20, 0x21, 0x22, 0x23, 0x2A, 0x2B, 0x2C)],
                         [Holding.ROM, Holding.RAM, Holding.ROM, None, Holding.VOID, Holding.VOID, None])
        self.assertEqual(chip.rom, (range(0x2000, 0x2100), range(0x2200, 0x2300)))
        bytes_of = filled(chip, None).bytes
        self.assertEqual([bytes_of[at] for at in (0x2000, 0x20FF, 0x2200, 0x2201)], [0x11, 0x11, 0x22, 0xFF])
        self.assertEqual(len(bytes_of), 512)

    def test_pages_that_touch_are_one_run(self):
        chip, = described('format = 2\n[[chip]]\nkind = "3853"\npages = ["rom 21", "rom 22-23", "rom 20"]\n').chips
        self.assertEqual(chip.rom, (range(0x2000, 0x2400),))

    def test_what_is_no_text_of_pages(self):
        for text in ('"ram"', '"RAM 28"', '"ram  28"', '"ram 28 "', '" ram 28"', '"ram 2"', '"ram 028"', '"ram 28-"', '"ram 2B-28"', '"ram 28-2B-2C"',
                     '"rim 28"', '28', '["ram 28"]'):
            chip, = described(f'format = 2\n[[chip]]\nkind = "3853"\npages = [{text}]\n').chips
            self.assertEqual(chip.spaces, (), text)

    def test_each_format_has_keys_of_its_own(self):
        keys = 'ram_page = 0x28\nram_pages = 1\npages = ["ram 30"]\nfill = 1\nstart = 2\n'
        one, two = (described(f'format = {format}\n[[chip]]\nkind = "3853"\n{keys}').chips[0] for format in (1, 2))
        self.assertEqual((one.spaces, one.fill, one.start), (((Holding.RAM, range(0x2800, 0x2900)),), None, None))
        self.assertEqual((two.spaces, two.fill, two.start), (((Holding.RAM, range(0x3000, 0x3100)),), 1, 2))

    def test_counters_at_power_on(self):
        rack = Rack.of(described(POWERS).chips, 0x5A)
        self.assertEqual([chip.counters for chip in rack.chips], [[0x1111] * 4, [0x2222] * 4, [0x5A5B] * 4])

    def test_migrated_descriptions_say_the_same(self):
        self.assertEqual(migrated(tomllib.loads(OLD)), NEW)
        texts = [OLD, *(cartridge(number) for number in range(1, 9)), *(path.read_text() for path in sorted(TOP.glob('cartridges/*/cart.toml')))]
        for old in map(described, texts):
            new = described(written(migrated(old.values)))
            self.assertEqual((new.fault, new.chips, new.split), ('', old.chips, old.split))


def written(values: dict) -> str:
    """A table as a text."""
    lines = [f'{key} = {value!r}' for key, value in values.items() if key != 'chip']
    for chip in values.get('chip', []):
        lines += ['[[chip]]', *(f'{key} = {toml_of(value)}' for key, value in chip.items())]
    return '\n'.join(lines) + '\n'


def toml_of(value: object) -> str:
    if isinstance(value, bool):
        return str(value).lower()
    return f"'{value}'" if isinstance(value, str) else repr(value)


@needs_program
@needs_toml
class Migrate(Room):
    def document(self, text: str) -> str:
        return self.program.done('migrate', self.put('old', text)).decode()

    def test_the_table_of_the_document(self):
        texts = [OLD, POWERS, 'format = 1\n', 'format = 2\nchip = []\n', *(cartridge(number) for number in range(1, 9)),
                 *(path.read_text() for path in sorted(TOP.glob('cartridges/*/cart.toml')))]
        for text in texts:
            self.assertEqual(tomllib.loads(self.document(text)), migrated(tomllib.loads(text)), text)

    def test_a_migrated_description_is_the_same_cartridge(self):
        for number in range(1, 9):
            old = cartridge(number)
            new = self.document(old)
            self.assertEqual(self.program.run('check', '--cert', self.put('cart', new)), self.program.run('check', '--cert', self.put('cart', old)))
            self.assertEqual(tomllib.loads(self.document(new)), tomllib.loads(new))

    def test_neither_sources_nor_the_rack_are_looked_at(self):
        chips = ''.join(f'[[chip]]\nkind = "3851"\nbase = 0\nports = {4 * number}\nsource = "no such file"\n' for number in range(1, 14))
        self.assertEqual(len(tomllib.loads(self.document('format = 1\n' + chips))['chip']), 13)

    def test_statuses(self):
        for words, text, answer in ((['old'], 'format = 3\n', ('error cart key format cause 4', 2)),
                                    (['old'], 'format', ('error cart toml', 2)), (['none'], '', ('error store cart', 4)),
                                    (['old', 'old'], '', ('error words', 1)), (['--cert', 'old'], '', ('error words', 1))):
            self.put('old', text)
            told = self.program.run('migrate', *words)
            self.assertEqual((told.lines, told.status), ([answer[0]], answer[1]))


if __name__ == '__main__':
    unittest.main()
