"""Descriptions: what is taken, each with the first fault of what isn't, and where the bytes of a ROM come to lie."""
from __future__ import annotations

import unittest

from tool import needs_program
from rooms import Room

# What `migrate` says of a text: nothing, or the first fault at the top, as its key and its cause.
TOPS = {
    '': 'format cause 1', '\ufeffformat = 1': '', 'format = 3': 'format cause 4', 'format = 1.0': 'format cause 3',
    "format = '1'": 'format cause 3', 'format = 1\nsplit = 5': 'split cause 3', 'format = 1\nsplit = [1, 1]': 'split cause 4',
    'format = 1\nsplit = [64]': 'split cause 4', 'format = 1\nsplit = [0, 1, 2, 3, 4, 5, 6, 7, 64]': 'split cause 6',
    "format = 1\n[chip]\nkind = '3851'": 'chip cause 3', 'format = 1\nchip = 5': 'chip cause 3', 'format = 1\nchip = [1]': 'chip cause 3',
}
PSU = "kind = '3851'\nbase = 0\nports = 4\n"
SMI = "kind = '3853'\n"
# The same of the keys of one chip.
CHIPS = {
    "kind = '3851'\nbase = 0x200\nports = 4\nrom = '71'": 'base cause 5',
    "kind = '3851'\nbase = 65535\nports = 4\nrom = '71'": 'base cause 4',
    "kind = '3851'\nbase = 0\nrom = '712B90FE'": 'ports cause 1',
    "kind = '3851'\nbase = 0\nports = 4.0\nrom = '71'": 'ports cause 3',
    "kind = '3851'\nbase = 0\nports = 0\nrom = '71'": 'ports cause 4',
    "kind = '3851'\nbase = 0\nports = 254\nrom = '71'": 'ports cause 4',
    "kind = '3851'\nbase = 0\nports = '4'\nrom = '71'": 'ports cause 3',
    "kind = '3851'\nbase = 0\nports = 6\nrom = '71'": 'ports cause 5',
    "kind = '3850'\nbase = 0\nports = 4\nrom = '71'": 'kind cause 4',
    PSU + 'colour = 1': '? cause 2',
    SMI + 'ram_page = 0xFA\nram_pages = 10': 'ram_pages cause 5',
    SMI + 'ram_page = 1\nram_pages = 256': 'ram_pages cause 5',
    SMI + 'ram_page = 0\nram_pages = 256': '',
    SMI + 'rom_page = 5\nrom_pages = 2\nram_page = 5\nram_pages = 0': '',
    SMI + "rom = ''": '',
    SMI + "rom = '71'": 'rom cause 7',
    SMI + "source = 'a'": 'source cause 4',
    PSU + "rom = '712'": 'rom cause 7',
    PSU + 'rom = 7': 'rom cause 3',
    PSU: 'rom cause 1',
    PSU + 'source = 7': 'source cause 3',
    PSU + "rom = '71'\nsource = 'a'": 'source cause 8',
    PSU + "rom = '712'\nsource = 'a'": 'rom cause 7',
    PSU + "rom = '71'\nsource = 7": 'source cause 3',
    PSU + "rom = '71'\nsource = ''": 'source cause 4',
}
# A 3851 at 0400 and a 3853 with ROM at 2800 to 29FF, each with a source, and a 3853 with RAM.
SOURCED = ("format = 1\nsplit = [9]\n[[chip]]\nkind = '3851'\nbase = 0x400\nports = 4\nsource = 'one.asm'\n"
           "[[chip]]\nkind = '3853'\nrom_page = 0x28\nrom_pages = 2\nsource = 'two.asm'\n"
           "[[chip]]\nkind = '3853'\nram_page = 0x30\nram_pages = 8\n")
OUTSIDE = 'error asm source {} line 2 column 2 cause 8'
# The two sources, and the line that refuses one: a byte at the first and at the last address of each room, and beside it.
ROOMS = [
    (' ORG $0400\n DB 1', '', None), (' ORG $07FF\n DB 1', '', None), ('', ' ORG $2800\n DB 1', None), ('', ' ORG $29FF\n DB 1', None),
    (' ORG $03FF\n DB 1', '', OUTSIDE.format(0)), (' ORG $0800\n DB 1', '', OUTSIDE.format(0)),
    ('', ' ORG $27FF\n DB 1', OUTSIDE.format(1)), ('', ' ORG $2A00\n DB 1', OUTSIDE.format(1)),
]
FORMAT_2 = ("format = 2\n[[chip]]\nkind = '3853'\npages = ['ram 28', 'rom 20-21']\nrom = '70'\nfill = 0x33\nstart = 0x2000\n"
            "[[chip]]\nkind = '3861'\nports = 8\nvector = 0x0100\ninterrupt = true\n")


@needs_program
class Descriptions(Room):
    def assert_told(self, text: str, line: str) -> None:
        """The line of a refusal; or that the text is taken, where it is empty."""
        done = self.program.run('migrate', self.put('cart.toml', text))
        self.assertEqual((done.status, done.lines if line else ''), (2, [line]) if line else (0, ''))

    def test_tops(self):
        for text, fault in TOPS.items():
            with self.subTest(text):
                self.assert_told(text, fault and f'error cart key {fault}')

    def test_chips(self):
        for keys, fault in CHIPS.items():
            with self.subTest(keys):
                self.assert_told(f'format = 1\n[[chip]]\n{keys}\n', fault and f'error cart chip 0 key {fault}')

    def test_sixteen_chips_are_the_most(self):
        chip = f"[[chip]]\n{PSU}rom = '712B90FE'\n"
        self.assert_told('format = 1\n' + chip * 16, '')
        self.assert_told('format = 1\n' + chip * 17, 'error cart key chip cause 6')

    def test_digits_are_no_description(self):
        done = self.program.run('play', self.put('cart.toml', '7 12B\t90\r\nfe'), self.put('script.txt', 'steps 7\n'))
        self.assertEqual((done.status, done.lines), (2, ['error cart toml']))

    def shown(self, cart: str, commands: str) -> list[str]:
        done = self.program.run('debug', self.put('cart.toml', cart), self.put('commands.txt', commands))
        self.assertEqual(done.status, 0, done.lines)
        return done.lines

    def test_format_2(self):
        """The counters of such a chip and a 3861's keys stand in test_formats and test_pio."""
        self.assertEqual(self.shown(FORMAT_2, 'mem 2000 1\nmem 21FF 2\nmem 2800 1\nmem 28FF 2\n'),
                         ['mem 2000 70', 'mem 21FF FF --', 'mem 2800 33', 'mem 28FF 33 --'])

    def test_a_source_has_the_room_of_its_chip(self):
        for one, two, line in ROOMS:
            with self.subTest(one + two):
                self.put('one.asm', one)
                self.put('two.asm', two)
                done = self.program.run('check', self.put('cart.toml', SOURCED))
                # (no chip holds 0000)
                self.assertEqual((done.status, done.lines), (2, [line]) if line else (7, ['refused 0000 ---- -- 1']))

    def test_bytes_of_sources(self):
        self.put('one.asm', ' ORG $0402\n DB $71,3')
        self.put('two.asm', ' ORG $2900\n DB 5')
        self.assertEqual(self.shown(SOURCED, 'mem 0401 4\nmem 28FF 2\n'), ['mem 0401 FF 71 03 FF', 'mem 28FF FF 05'])


if __name__ == '__main__':
    unittest.main()
