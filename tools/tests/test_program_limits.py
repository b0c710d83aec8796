"""Files of the program at their greatest length, and past it. A trace that is too long is in test_auditing."""
from __future__ import annotations

import unittest

from tool import needs_program
from rooms import Rows
from worked import LOOP, LOOP_END, STEPS

PLAYED = 'verdict whole\n' + LOOP_END
# Words, the file `text`, the status, what is written first, and how many bytes are written. The other files are the loop and its script.
ROWS = {
    'a listing of 65,536 bytes': ('dis text', '7' * 131_072, 0, 'ORG $0000\nLIS 7\nLIS 7\n', 393_226),
    'an image of 65,536 bytes': ('asm text', 'NOP\n' * 65_536, 0, '0000 ' + '2B' * 16 + '\n0010 2B2B', 155_648),
    '1,024 events and shown frames': (
        'play cart text', 'at 0 keys 04 01\n' * 256 + 'at 599 pulse 15\n' * 256 + 'show 1\n' * 512 + STEPS, 0, PLAYED, 312),
    # texts of as many bytes as they may have
    'a script': ('play cart text', STEPS + '\n' * 65_528, 0, PLAYED, 312),
    'a description': ('play text script', LOOP + '\n' * 65_466, 0, PLAYED, 312),
    'a description with a long comment': ('check text', LOOP + '#' * 65_466, 0, 'whole 3\n', 8),
    'commands': ('debug cart text', 'step 1\n' + '\n' * 65_529, 0, 'ran 1\n', 6),
    'an assembly text': ('asm text', 'NOP\n' + '\n' * 262_140, 0, '0000 2B\n', 8),
    'digits': ('dis text', '2B' + '\n' * 262_142, 0, 'ORG $0000\nNOP\n', 14),
    'a trace of one line': ('audit cart script text', '#' * 16_777_216, 7, 'reject line 2\n', 14),
    'a script of blanks': ('play cart text', ' ' * 65_536, 2, 'error script line 2 cause 6\n', 28),
    # and of one byte more
    'a script that is too long': ('play cart text', ' ' * 65_537, 2, 'error long script\n', 18),
    'a description that is too long': ('ref text script', ' ' * 65_537, 2, 'error long cart\n', 16),
    'a certificate that is too long': ('verify cart text', '0' * 16_777_217, 2, 'error long cert\n', 16),
    'an assembly text that is too long': ('asm text', ' ' * 262_145, 2, 'error long file\n', 16),
    'digits of 65,537 bytes': ('dis text', '7' * 131_074, 2, 'error long file\n', 16),
    'a plan that is too long': ('link text', '#' * 65_537, 2, 'error long plan\n', 16),
}


@needs_program
class Limits(Rows):
    def test_rows(self):
        for name, (words, text, status, first, size) in ROWS.items():
            with self.subTest(name):
                ended, written = self.answered(words, {'cart': LOOP, 'script': STEPS, 'text': text})
                self.assertEqual((ended, written[:len(first)], len(written)), (status, first, size))

    def test_a_module_that_is_too_long(self):
        self.assertEqual(self.answered('link plan', {'plan': 'module a 0000 03FF\n', 'a': ' ' * 262_145}), (2, 'error long module 0\n'))


if __name__ == '__main__':
    unittest.main()
