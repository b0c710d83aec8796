"""Assembly texts that were worked out by hand: their bytes and names, or the first fault, and what bytes are listed as."""
from __future__ import annotations

import unittest

from tool import needs_program
from rooms import Room

# A text, and the lines of `asm`.
IMAGES = {
    '': [],
    'LOOP: NOP\nBR LOOP': ['0000 2B90FE', 'sym LOOP 0'],
    " ORG 3\r\n DB -1,'A'\n ORG 0\n DW $102": ['0000 0102', '0003 FF41'],
    'X: ORG .+2\n lr a,J\n Lr 9,a': ['0002 4959', 'sym X 0'],
    'X: EQU -1&$FFFFFFFF': ['sym X 4294967295'],
    'X: EQU -1|0': ['sym X -1'],
    " DB ' ',';',''' ; any \r byte": ['0000 203B27'],
    # a line ends at a gap and behind 16 bytes
    'NOP\nORG $0400\nDB 1,$AB\n': ['0000 2B', '0400 01AB'],
    'NOP\nORG 2\nNOP\n': ['0000 2B', '0002 2B'],
    'ORG $2800\nDB 0,1,2,3,4,5,6,7,8,9,10,11,12,13,14,15,16\n': ['2800 000102030405060708090A0B0C0D0E0F', '2810 10'],
    'LOW: EQU -5\nHIGH: EQU 4294967295\n': ['sym LOW -5', 'sym HIGH 4294967295'],
    # both sides of the last address
    ' ORG $FFFE\n BR $FFFF': ['FFFE 9000'],
    ' ORG $FFFF\n NOP\nX:': ['FFFF 2B', 'sym X 65536'],
}
# A text, and the line, the column and the cause of its first fault.
FAULTS = {
    ' LI 256': (1, 5, 6), ' BT 1,$200': (1, 7, 7), ' ORG 2\n DB 1\n ORG 2\n DB 2': (4, 2, 9), 'X: EQU $100000000': (1, 8, 6),
    ' #': (1, 2, 2), 'X: Y: NOP': (1, 4, 3), 'X:\nX: NOP': (2, 1, 4), 'X: ORG X': (1, 8, 5), ' BT 1': (1, 6, 11), ' LI (5': (1, 7, 11),
    'NOP: NOP': (1, 4, 11), 'LI: NOP': (1, 3, 11), 'A: NOP': (1, 1, 11), ' LI 123abc': (1, 8, 11), ' LI 12ab': (1, 7, 11),
    ' NOP\r NOP': (1, 5, 2), ' A 5': (1, 2, 11), ' EQU 5': (1, 2, 11), ' 5': (1, 2, 11), ' LR A,A': (1, 7, 11), ' LR HU,W': (1, 8, 11),
    ' LI 1/0+X': (1, 9, 5), ' DB 1/0,X': (1, 5, 6), ' LR 12,A': (1, 5, 6), ' LR A,12': (1, 7, 6), ' ORG $FFFE\n BR 0': (2, 5, 7),
    ' BR $FFFF': (1, 5, 7), ' ORG $FFFF\n NOP\n NOP': (3, 2, 8), ' ORG $FFFF\n DW 1': (2, 2, 8), ' ORG 65536': (1, 6, 6),
}
# What stands in front of a 5 so many times, what behind it, and the column of the fault, if there is one.
OPENED = [('(', 64, ')', None), ('(', 65, ')', 69), ('-', 64, '', None), ('-', 65, '', 69), ('(-', 32, ')', None), ('(-', 33, ')', 69),
          ('-0+', 65, '', None)]
LISTINGS = {
    '712D4C90FE9080A428123420': 'ORG $0000\nLIS 1\nDB $2D\nLR A,S\nBF 0,$0002\nDB $90\nDB $80\nINS 4\nPI $1234\nDB $20\n',
    '': 'ORG $0000\n',
    '712D20': 'ORG $0000\nLIS 1\nDB $2D\nDB $20\n',
}


@needs_program
class Assembly(Room):
    def answer(self, command: str, text: bytes) -> tuple[int, list[str]]:
        (self.room / 'file').write_bytes(text)
        done = self.program.run(command, 'file')
        return done.status, done.lines

    def test_images(self):
        for text, lines in IMAGES.items():
            with self.subTest(text):
                self.assertEqual(self.answer('asm', text.encode()), (0, lines))

    def test_faults(self):
        for text, (line, column, cause) in FAULTS.items():
            with self.subTest(text):
                self.assertEqual(self.answer('asm', text.encode()), (2, [f'error asm file line {line} column {column} cause {cause}']))

    def test_bytes_past_utf_8(self):
        self.assertEqual(self.answer('asm', b' NOP\n ;\xFF'), (2, ['error asm file line 2 column 1 cause 1']))

    def test_at_most_64_constructs_are_open(self):
        for front, depth, behind, column in OPENED:
            with self.subTest(f'{depth} times {front}'):
                told = (2, [f'error asm file line 1 column {column} cause 11']) if column else (0, ['0000 2005'])
                self.assertEqual(self.answer('asm', f' LI {front * depth}5{behind * depth}'.encode()), told)

    def test_listings(self):
        for digits, text in LISTINGS.items():
            with self.subTest(digits):
                self.assertEqual(self.answer('dis', digits.encode()), (0, text.splitlines()))

    def test_a_listing_assembles_to_its_bytes(self):
        status, lines = self.answer('dis', b'12002D8FFC8F8090')
        self.assertEqual(status, 0)
        self.assertEqual(self.answer('asm', '\n'.join(lines).encode()), (0, ['0000 12002D8FFC8F8090']))


if __name__ == '__main__':
    unittest.main()
