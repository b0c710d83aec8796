"""What the program refuses, with the one line that says so: words, descriptions, damaged documents, sources, scripts and digits."""
from __future__ import annotations

import unittest

from tool import needs_program
from rooms import Rows
from worked import LOOP, PSU, SOURCED, STEPS, alone

PLAY = 'play cart script'
ROWS = {
    'a word too few': ('play a', {}, 1, 'error words\n'),
    'a base within a page': (PLAY, {'cart': 'format = 1\n' + PSU.format('0x200', 4, '71')}, 2, 'error cart chip 0 key base cause 5\n'),
    'a number in the place of a list': ('ref cart script', {'cart': 'format = 1\nsplit = 8\n'}, 2, 'error cart key split cause 3\n'),
    'a source at fault, which is read before the script': (
        PLAY, {'cart': SOURCED.format('loop.f8'), 'loop.f8': ' LI 256'}, 2, 'error asm source 0 line 1 column 5 cause 6\n'),
    'the same as a text of its own': ('asm loop.f8', {'loop.f8': ' LI 256'}, 2, 'error asm file line 1 column 5 cause 6\n'),
    'a power-on byte of one digit': (PLAY, {'cart': LOOP, 'script': 'power 0\n'}, 2, 'error script line 1 cause 2\n'),
    'half a byte': ('dis bytes', {'bytes': '712'}, 2, 'error hex\n'),
    'a source that is not there': (PLAY, {'cart': SOURCED.format('loop.f8')}, 4, 'error store source 0\n'),
    'a script that is not there': (PLAY, {'cart': LOOP}, 4, 'error store script\n'),
}
ONE = alone('71')
SMI, PIO = ("format = 2\n[[chip]]\nkind = '3853'\n", "format = 2\n[[chip]]\nkind = '3861'\n")
TWO = ONE.replace('format = 1', 'format = 2')
# Descriptions, each with what is told behind `error cart`.
DESCRIPTIONS = {
    'an empty text': ('', 'key format cause 1'),
    'a format that is not there yet': (ONE.replace('format = 1', 'format = 3'), 'key format cause 4'),
    'a register twice': ('format = 1\nsplit = [1, 1]\n', 'key split cause 4'),
    'seventeen chips': ('format = 1\n' + '[[chip]]\n' * 17, 'key chip cause 6'),
    'a kind of chip that is none': (ONE.replace('3851', '3850'), 'chip 0 key kind cause 4'),
    'a key that is none': (ONE + 'colour = 1\n', 'chip 0 key ? cause 2'),
    'ports as a text': (ONE.replace('ports = 4', "ports = '4'"), 'chip 0 key ports cause 3'),
    'ports that are no multiple of 4': (ONE.replace('ports = 4', 'ports = 6'), 'chip 0 key ports cause 5'),
    'a ROM of half a byte': (alone('712'), 'chip 0 key rom cause 7'),
    'a ROM and a source': (ONE + "source = 'a'\n", 'chip 0 key source cause 8'),
    'pages past the last one': ("format = 1\n[[chip]]\nkind = '3853'\nram_page = 250\nram_pages = 10\n", 'chip 0 key ram_pages cause 5'),
    'a start in format 1': (ONE.replace('rom =', 'start = 0\nrom ='), 'chip 0 key ? cause 2'),
    'pages in format 1': ("format = 1\n[[chip]]\nkind = '3853'\npages = []\n", 'chip 0 key ? cause 2'),
    'a fill of a 3851': (TWO.replace('rom =', 'fill = 0\nrom ='), 'chip 0 key ? cause 2'),
    'a page key in format 2': (SMI + 'rom_page = 0\n', 'chip 0 key ? cause 2'),
    'pages as a text': (SMI + "pages = 'rom 20'\n", 'chip 0 key pages cause 3'),
    'a number among the pages, behind a text at fault': (SMI + "pages = ['rom 2', 5]\n", 'chip 0 key pages cause 3'),
    'a text of pages at fault, before a page twice': (SMI + "pages = ['ram 28', 'rom 2', 'rom 28']\n", 'chip 0 key pages cause 4'),
    'a page twice': (TWO + SMI.removeprefix('format = 2\n') + "pages = ['ram 28', 'rom 20-28']\n", 'chip 1 key pages cause 5'),
    'the same, before an interrupt at fault': (SMI + "pages = ['rom 20', 'rom 20']\ninterrupt = 1\n", 'chip 0 key pages cause 5'),
    'an interrupt at fault, before a fill at fault': (SMI + 'fill = 256\ninterrupt = 1\n', 'chip 0 key interrupt cause 3'),
    'a fill at fault, before a start at fault': (SMI + "fill = 256\nstart = ''\n", 'chip 0 key fill cause 4'),
    'a start at fault, before a ROM at fault': (SMI + "start = 65536\nrom = '0'\n", 'chip 0 key start cause 4'),
    'a start below 0': (TWO.replace("rom = '71'", 'start = -1'), 'chip 0 key start cause 4'),
    'a source for pages that do not touch': (SMI + "pages = ['rom 20', 'rom 22']\nsource = 'a'\n", 'chip 0 key source cause 4'),
    **{f'a 3861 with {key}': (PIO + f'ports = 8\n{key}\n', 'chip 0 key ? cause 2') for key in (
        "rom = ''", "source = 'a'", 'start = 0', 'fill = 0', 'pages = []')},
    'a 3861 without ports, before a vector at fault': (PIO + 'vector = 65536\n', 'chip 0 key ports cause 1'),
    'a 3861 with ports that are no multiple of 4': (PIO + 'ports = 6\n', 'chip 0 key ports cause 5'),
    # damaged documents
    'a document that is cut off': ('format = ', 'toml'),
    'a key that stands twice': ('format = 1\nformat = 1\n', 'toml'),
    'a table that stands twice': ('[a]\n[a]\n', 'toml'),
    'a number past 64 bits': ('format = 9223372036854775808\n', 'toml'),
    '81 lists in one another': ('a = ' + '[' * 81 + ']' * 81 + '\n', 'toml'),
}
# Scripts, each with what is told behind `error script`.
SCRIPTS = {
    'an empty text': ('', 'line 1 cause 6'),
    'a word that is none': ('jump 3', 'line 1 cause 1'),
    'a port of one digit': ('at 0 keys 4 00', 'line 1 cause 2'),
    'no frames': ('frames 0', 'line 1 cause 3'),
    'a frame past the last one': ('at 600 keys 04 00', 'line 1 cause 3'),
    'two ends': ('frames 1\nsteps 1\n', 'line 2 cause 5'),
    'a shown frame too many': ('show 1\n' * 1025, 'line 1025 cause 4'),
}


@needs_program
class Refusals(Rows):
    def test_rows(self):
        self.assert_rows(ROWS)

    def test_descriptions(self):
        self.assert_rows({name: (PLAY, {'cart': cart, 'script': STEPS}, 2, f'error cart {told}\n')
                          for name, (cart, told) in DESCRIPTIONS.items()})

    def test_a_source(self):
        files = {'cart': SOURCED.format('a'), 'a': ' BT 1,$200', 'script': STEPS}
        self.assertEqual(self.answered(PLAY, files), (2, 'error asm source 0 line 1 column 7 cause 7\n'))

    def test_scripts(self):
        self.assert_rows({name: (PLAY, {'cart': LOOP, 'script': script}, 2, f'error script {told}\n')
                          for name, (script, told) in SCRIPTS.items()})


if __name__ == '__main__':
    unittest.main()
