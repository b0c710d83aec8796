from __future__ import annotations

import os
import random
import tempfile
import unittest
from pathlib import Path

import tool
from companion.description import Description
from tool import call, needs_program, needs_toml, tomllib


class Describe(unittest.TestCase):
    def setUp(self):
        folder = tempfile.TemporaryDirectory()
        self.addCleanup(folder.cleanup)
        self.folder = Path(folder.name)

    def described(self, *words: object, **files: bytes):
        for name, data in files.items():
            (self.folder / name).write_bytes(data)
        return call('describe', *words, cwd=self.folder)

    def refused(self, hint: str, *words: object, **files: bytes) -> None:
        done = self.described(*words, **files)
        self.assertEqual((done.text, done.returncode, done.told.count('\n')), ('', 1, 1))
        self.assertIn(hint, done.told)

    def test_a_small_file_is_one_3851(self):
        done = self.described('game.bin', **{'game.bin': bytes.fromhex('2b90feffff')})
        self.assertEqual(done.text, 'format = 1\n\n# game.bin: 5 bytes from 0000 on, CRC-32 CC0F4489\n[[chip]]\nkind = "3851"\n'
                                    'base = 0x0000\nports = 4\nrom = "2B90FE"\n')
        self.assertEqual((done.returncode, done.told), (0, ''))

    def test_a_description_is_utf_8_whatever_the_output_takes(self):
        name = os.fsdecode('spiél.bin'.encode())
        (self.folder / name).write_bytes(b'\x2b')
        for taken in ('ascii', 'latin-1'):
            done = call('describe', name, cwd=self.folder, PYTHONUTF8='1', PYTHONIOENCODING=taken)
            self.assertEqual((done.returncode, done.told), (0, ''))
            self.assertIn('# spiél.bin: 1 bytes'.encode(), done.stdout)

    @needs_toml
    def test_bytes_come_out_again(self):
        data = random.Random(1976).randbytes(2500) + b'\x00'
        chips = tomllib.loads(self.described('--at', '0800', 'a', a=data).text)['chip']
        self.assertEqual([(chip['base'], chip['ports']) for chip in chips], [(0x800, 4), (0xC00, 8), (0x1000, 12)])
        self.assertEqual(bytes.fromhex(''.join(chip['rom'] for chip in chips)), data)

    @needs_toml
    def test_files_follow_each_other_and_ports_leave_room_for_the_3853(self):
        chips = tomllib.loads(self.described('a', 'b', '--ram', '28-29', a=b'\x2b', b=b'\x00' * 2049).text)['chip']
        self.assertEqual([(chip['base'], chip['ports']) for chip in chips[:4]], [(0, 4), (0x400, 8), (0x800, 16), (0xC00, 20)])
        self.assertEqual(chips[4], {'kind': '3853', 'ram_page': 0x28, 'ram_pages': 2})

    @needs_toml
    def test_rom_pages_of_a_3853(self):
        chips = tomllib.loads(self.described('--smi', '--ram', '28', '--at', '0100', 'a', a=b'\x2b' * 257).text)['chip']
        self.assertEqual(chips, [{'kind': '3853', 'rom_page': 1, 'rom_pages': 2, 'ram_page': 0x28, 'ram_pages': 1, 'rom': '2B' * 257}])

    @needs_toml
    def test_format_2(self):
        done = self.described('--format', '2', '--smi', '--ram', '28-2B', '--at', '0100', 'a', 'b', a=b'\x2b' * 257, b=b'\x17')
        self.assertEqual((done.text.splitlines()[0], done.returncode), ('format = 2', 0))
        self.assertEqual(tomllib.loads(done.text)['chip'], [{'kind': '3853', 'pages': ['rom 01-02', 'ram 28-2B'], 'rom': '2B' * 257},
                                                           {'kind': '3853', 'pages': ['rom 03'], 'rom': '17'}])
        chips = tomllib.loads(self.described('--format', '2', '--ram', 'FF', 'a', a=b'\x2b').text)['chip']
        self.assertEqual(chips, [{'kind': '3851', 'base': 0, 'ports': 4, 'rom': '2B'}, {'kind': '3853', 'pages': ['ram FF']}])

    @needs_toml
    def test_a_3861(self):
        done = self.described('--pio', 'a', a=b'\x2b')
        self.assertEqual(done.text.split('\n\n')[0::2], ['format = 2', '[[chip]]\nkind = "3861"\nports = 8\n'])
        for words, ports in ((['a', '--ram', '28'], [4, 8, None, 16]), (['--smi', 'a'], [None, 4]), (['--smi', '--ports', '12', 'a'], [None, 16]),
                             (['--pio', 'a'], [4, 8, 12])):
            chips = tomllib.loads(self.described('--pio', *words, a=b'\x2b' * (1025 if 'a' == words[0] else 1)).text)['chip']
            self.assertEqual([chip.get('ports') for chip in chips], ports)
            self.assertEqual(chips[-1]['kind'], '3861')
        self.assertEqual(self.described('--pio', '--format', '2', 'a').text, self.described('--pio', 'a').text)
        self.refused('format 1 has no 3861', '--pio', '--format', '1', 'a')
        self.refused('3 chips of the kind 3861 are needed, and the rack has sockets for 2', *['--pio'] * 3, 'a')
        self.refused('the ports would go up to 259', '--pio', '--ports', '252', 'a', a=b'\x2b')

    @needs_toml
    def test_both_formats_say_the_same(self):
        for words in (['a', '--ram', '28'], ['--smi', '--ram', '20-27', 'a'], ['a'], ['--smi', 'a', 'b@1000']):
            one, two = (Description.of(self.described('--format', format, *words, a=b'\x2b' * 1025, b=b'\x17').stdout) for format in (1, 2))
            self.assertEqual((one.format, two.format, one.fault), (1, 2, ''))
            self.assertEqual(one.chips, two.chips)

    @needs_toml
    def test_files_at_addresses_of_their_own_and_a_jump(self):
        chips = tomllib.loads(self.described('a@0800', 'b', '--jump', '0802', a=b'\x2b', b=b'\x17').text)['chip']
        self.assertEqual([(chip['base'], chip['ports'], chip['rom']) for chip in chips],
                         [(0, 4, '290802'), (0x800, 8, '2B'), (0xC00, 12, '17')])
        (self.folder / 'a@b@1').write_bytes(b'\x99')
        chips = tomllib.loads(self.described('a', 'a@b@1@$0400', '--smi', a=b'\x2b').text)['chip']
        self.assertEqual([(chip['rom_page'], chip['rom']) for chip in chips], [(0, '2B'), (4, '99')])

    @needs_toml
    def test_lines_of_asm_over_several_chips(self):
        done = call('describe', '-', stdin='0002 2B90\n0400 17\nsym A -3\n', cwd=self.folder)
        self.assertIn('# lines of asm: 3 bytes from 0002 on', done.text)
        self.assertEqual([(chip['base'], chip['rom']) for chip in tomllib.loads(done.text)['chip']], [(0, 'FFFF2B90'), (0x400, '17')])
        chips = tomllib.loads(call('describe', '--smi', '-', stdin='0102 2B\n0300 17\n').text)['chip']
        self.assertEqual([(chip['rom_page'], chip['rom_pages'], chip['rom']) for chip in chips], [(1, 3, 'FFFF2B' + 'FF' * 509 + '17')])

    @needs_toml
    @needs_program
    def test_an_assembly_text(self):
        chips = tomllib.loads(self.described('game.f8', **{'game.f8': b' NOP\n ORG $0400\nX: JMP X\n'}).text)['chip']
        self.assertEqual([(chip['base'], chip['rom']) for chip in chips], [(0, '2B'), (0x400, '290400')])
        self.refused('bad.f8: error asm file line 1 column 2 cause 3; tools/explain', 'bad.f8', **{'bad.f8': b' NOPE\n'})

    @needs_toml
    def test_the_last_ports(self):
        chips = tomllib.loads(self.described('--ports', '252', 'a', a=b'\x2b').text)['chip']
        self.assertEqual([chip['ports'] for chip in chips], [252])

    def test_what_cannot_be_done(self):
        self.refused('both have 0400 to 07FF', 'a@0400', 'b@0400', a=b'\x2b', b=b'\x2b')
        self.refused('its own addresses', 'b@0400', b=b'0400 2B\n')
        self.refused("a@4x: '4x' is not one to 4 hexadecimal digits", 'a@4x', a=b'\x2b')
        self.refused('no bytes', 'a', a=b'')
        self.refused('no multiple of 1,024', '--at', '0100', 'a', a=b'\x2b')
        self.refused('13 chips of the kind 3851', 'a', a=b'\x2b' * 12289)
        self.refused('ROM and RAM would both have 0300 to 03FF', '--ram', '03', 'a', a=b'\x2b')
        self.refused('there is room for 1,024', '--at', 'FC00', 'a', a=b'\x2b' * 1025)
        self.refused('the program takes 65,536', '--smi', 'a', a=b'\x2b' * 40_000)
        self.refused('the last is 255', '--ports', '252', 'a', a=b'\x2b' * 1025)
        self.refused('no/such/file', 'no/such/file')
        self.assertEqual(self.described('--ram', '2800', 'a').returncode, 2)
        self.assertEqual(self.described('--ports', '5', 'a').returncode, 2)
        self.assertEqual(self.described('--format', '3', 'a').returncode, 2)
        self.assertEqual(self.described().returncode, 2)

    @needs_program
    def test_the_program_takes_the_descriptions(self):
        script = self.folder / 'script.txt'
        script.write_text('steps 3\n')
        long = bytes.fromhex('290800') + b'\x2b' * 2045 + bytes.fromhex('90ff')
        for format in (1, 2):
            for words in (['a'], ['a', '--ram', '28'], ['--smi', '--ram', '28', 'a'], *[['--pio', '--smi', 'a']] * (format == 2)):
                (self.folder / 'cart.toml').write_text(self.described('--format', format, *words, a=long).text)
                done = call('explain', tool.PROGRAM, 'play', 'cart.toml', script, cwd=self.folder)
                self.assertIn('stop done\nregs P=0800', done.text)
                self.assertEqual(done.returncode, 0)


if __name__ == '__main__':
    unittest.main()
