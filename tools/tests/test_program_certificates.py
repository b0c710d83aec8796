"""Certificates and lists of entries that are written and judged. Most are in test_certificates, test_cases and test_prove."""
from __future__ import annotations

import unittest

from tool import needs_program
from rooms import Rows
from test_certificates import line
from worked import LOOP, READS, RESERVED

START, NOP, BRANCH = line('0000'), line('0001', '01'), line('0002', '01')
# Description, first line, points, the status, and the line.
CERTIFICATES = {
    'points that say no more than is needed': (LOOP, 'F8CERT 1 3', START + line('0001') + line('0002'), 0, 'whole 3'),
    'another A': (LOOP, 'F8CERT 1 3', START + line('0001', '02') + BRANCH, 7, 'notclosed 0000 ---- . to 0001 ---- .'),
    'a point twice, in the last line': (LOOP, 'F8CERT 1 3', START + NOP + NOP, 2, 'error cert line 4 cause 4'),
    'a point fewer than its first line says': (LOOP, 'F8CERT 1 3', START + NOP, 2, 'error cert line 4 cause 5'),
    'no point of the start': (LOOP, 'F8CERT 1 2', NOP + BRANCH, 7, 'notclosed start to 0000 ---- .'),
    'no point behind the NOP': (LOOP, 'F8CERT 1 2', START + NOP, 7, 'notclosed 0001 ---- . to 0002 ---- .'),
    'a reserved opcode': (RESERVED, 'F8CERT 1 1', START, 7, 'unsafe 0000 ---- . 3'),
    'a description that is cut off': ('format = ', 'F8CERT 1 1', START, 2, 'error cart toml'),
}
ENTRIES = ('0000 ---- --', '0001 ---- 01', '0002 ---- 01')
LISTED = 'F8CASES 1 3\n' + ''.join(f'{entry} -- 00000 0000 0000 ---- 0000 --{" --" * 64}\n' for entry in ENTRIES)
TOLD = {
    'a certificate': ('check --cert cart', {'cart': LOOP}, 0, 'F8CERT 1 3\n' + START + NOP + BRANCH),
    'none of an unsafe cartridge': ('check cart --cert', {'cart': RESERVED}, 7, 'refused 0000 ---- . 3\n'),
    'that a list is found': ('prove cart', {'cart': LOOP}, 0, 'whole 3\n'),
    'the list': ('prove --cases cart', {'cart': LOOP}, 0, LISTED),
    # PK with any K
    'no list of an unsafe cartridge': ('prove cart --cases', {'cart': RESERVED.replace('2D', '0C')}, 7, 'unproved 0000 ---- . 4\n'),
}


@needs_program
class Certificates(Rows):
    def test_certificates(self):
        self.assert_rows({name: ('verify cart cert', {'cart': cart, 'cert': f'{first}\n{points}'}, status, answer + '\n')
                          for name, (cart, first, points, status, answer) in CERTIFICATES.items()})

    def test_what_is_told(self):
        self.assert_rows(TOLD)

    def test_what_is_told_is_verified(self):
        status, told = self.answered('check --cert cart', {'cart': READS})
        self.assertEqual(status, 0)
        self.assertEqual(self.answered('verify cart cert', {'cart': READS, 'cert': told}), (0, 'agreed 3\n'))


if __name__ == '__main__':
    unittest.main()
