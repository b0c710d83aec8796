"""`verify` on certificates worked out by hand: points that nobody needs, and the first fault of a text."""
from __future__ import annotations

import unittest

from tool import needs_program
from rooms import Room

# LIS 1, NOP and BR to the NOP; and behind them, where nothing leads: LM and BR to the LM, and BR to itself.
CHIP = '[[chip]]\nkind = "3851"\nbase = 0\nports = 4\nrom = "712B90FE1690FE90FF"\n'
LOOP, TRACKED = ('format = 1\n' + split + CHIP for split in ('', 'split = [0]\n'))


def line(at: str, a: str = '--', isar: str = '--', w: str = '00000', counters: str = '0000 0000 ----', facts: str = '0000',
         split: str = '.', scratchpad: str = '') -> str:
    """The line of a point with the return unset, where what isn't given is known as at the start."""
    return f'{at} ---- {split} {a} {isar} {w} {counters} {facts} {scratchpad.ljust(128, "-")}\n'


START, NOP, BRANCH = line('0000'), line('0001', '01'), line('0002', '01')
NEEDED = START + NOP + BRANCH
WAIT = line('0007')
# Of the LM it is known that the chip's data counter is the reference, and of the branch behind it too.
LM, BACK = (line(at, w='-----', counters='---- ---- ----', facts='0010') for at in ('0004', '0005'))
ANSWERS = {
    'what is needed': ('3', NEEDED, 'whole 3'),
    'a point more': ('4', NEEDED + WAIT, 'whole 4'),
    'a read more that nobody may answer': ('5', NEEDED + LM + BACK, 'agreed 5'),
    'the same without what makes it safe': ('5', NEEDED + LM.replace(' 0010 ', ' 0000 ') + BACK, 'unsafe 0004 ---- . 7'),
    'the same without what it leads to': ('4', NEEDED + LM, 'notclosed 0004 ---- . to 0005 ---- .'),
    'a digit of ISAR that is not known': ('3', line('0000', isar='7-') + NOP + BRANCH, 'notclosed start to 0000 ---- .'),
    'seven digits of a number': ('0000003', NEEDED, 'whole 3'),
}
FIELD, SPLIT_FIELD, ORDER, END = 3, 6, 4, 5
# A line in the place of that of the NOP.
SECOND = {
    'an octal digit 8': (line('0001', isar='8-'), FIELD), 'and as the low one': (line('0001', isar='-8'), FIELD),
    'a bit that is 2': (line('0001', w='00200'), FIELD), 'the last one': (line('0001', w='----2'), FIELD),
    'a fact that is 2': (line('0001', facts='0200'), FIELD), 'a fact that is unknown': (line('0001', facts='-000'), FIELD),
    'half a byte': (line('0001', a='1-'), FIELD), 'a blank more': (line('0001').replace(' . ', ' .  '), FIELD),
    'a point again': (START, ORDER), 'the same, with a digit 8': (line('0000', isar='8-'), FIELD),
    'no LF behind a digit 8': (line('0001', isar='8-').rstrip('\n'), END),
}
HEADER, COUNT = 1, 2
# A first line, and nothing behind it or the three points.
FIRST = {
    '': END, 'F8CERT 2 0': END, 'F8CERT 2 0\n': HEADER, 'F8CERT 2 65537\n': HEADER, 'F8CERT 1 00000003\n': HEADER, 'F8CERT 1 +3\n': HEADER,
    'F8CERT 1 3 \n': HEADER, 'F8CERT 1 \n': HEADER, 'F8CERT 1 0\n': COUNT, 'F8CERT 1 0000000\n': COUNT, 'F8CERT 1 9999999\n': COUNT,
}


@needs_program
class Certificates(Room):
    def assert_answered(self, text: str, answer: str, cart: str = LOOP) -> None:
        done = self.program.run('verify', self.put('cart.toml', cart), self.put('cart.cert', text))
        status = {'whole': 0, 'agreed': 0, 'error': 2}.get(answer.split()[0], 7)
        self.assertEqual((done.output.decode(), done.status), (answer + '\n', status))

    def test_what_is_listed_is_judged(self):
        for name, (count, lines, answer) in ANSWERS.items():
            with self.subTest(name):
                self.assert_answered(f'F8CERT 1 {count}\n{lines}', answer)

    def test_points_that_nobody_needs_are_not_written(self):
        done = self.program.run('check', '--cert', self.put('cart.toml', LOOP))
        self.assertEqual((done.output.decode(), done.status), ('F8CERT 1 3\n' + NEEDED, 0))

    def test_faults_of_a_line(self):
        for name, (second, cause) in SECOND.items():
            with self.subTest(name):
                rest = BRANCH if second.endswith('\n') else ''
                self.assert_answered('F8CERT 1 3\n' + START + second + rest, f'error cert line 3 cause {cause}')

    def test_a_tracked_register_goes_before_the_order(self):
        first = line('0000', split='--')
        for second, cause in ((first, ORDER), (line('0000', split='--', scratchpad='05'), SPLIT_FIELD),
                              (line('0001', split='05'), SPLIT_FIELD), (line('0001', split='05', isar='8-'), FIELD)):
            self.assert_answered('F8CERT 1 2\n' + first + second, f'error cert line 3 cause {cause}', TRACKED)

    def test_faults_of_the_first_line(self):
        for first, cause in FIRST.items():
            with self.subTest(first):
                self.assert_answered(first, f'error cert line 1 cause {cause}')
                if first.endswith('\n'):
                    self.assert_answered(first + NEEDED, f'error cert line 1 cause {cause}')

    def test_a_cartridge_without_code(self):
        for cart, reason in (('format = 1\n', 1), ('format = 1\n[[chip]]\nkind = "3853"\nram_pages = 1\n', 2),
                             ('format = 1\n[[chip]]\nkind = "3853"\nvoid_pages = 1\n', 3)):
            self.assert_answered('F8CERT 1 1\n' + START, f'unsafe 0000 ---- . {reason}', cart)


if __name__ == '__main__':
    unittest.main()
