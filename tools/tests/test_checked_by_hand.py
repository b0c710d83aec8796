"""Verdicts on small cartridges that were worked out by hand, their certificates as texts, and what is found of such texts."""
from __future__ import annotations

import unittest

from tool import needs_program
from rooms import Room

PSU = 'format = 1\n{}[[chip]]\nkind = "3851"\nbase = 0\nports = 4\nrom = "{}"\n'
LOOP = PSU.format('', '712B90FE')  # LIS 1; NOP; BR to the NOP
# DCI 2800; XDC; DCI 0010; XDC; LM beside a page of RAM: a read that two chips may answer.
PARTED = PSU.format('', '2A28002C2A00102C16') + '[[chip]]\nkind = "3853"\nram_page = 0x28\nram_pages = 1\n'
VERDICTS = {
    'LIS 1, NOP, BR to the NOP': (LOOP, 'whole 3'),
    'DCI 0000, LM, BR to the LM, by which the data counter comes to be unknown': (PSU.format('', '2A00001690FE'), 'agreed 3'),
    'DCI 0005, XDC, LM: chips may have their data counters elsewhere': (PSU.format('', '2A00052C16'), 'refused 0004 ---- . 7'),
    'a read of the last byte of ROM': (PSU.format('', '2A03FF1690FF'), 'whole 3'),
    'and behind it': (PSU.format('', '2A04001690FF'), 'agreed 3'),
    'LM where ROM may answer, and RAM': (PARTED, 'refused 0008 ---- . 7'),
}


def point(begins: str, isar: str = '--', w: str = '00000', counters: str = '0000 0000 ----', facts: str = '0000',
          scratchpad: str = '') -> str:
    """The line of a point that begins so, up to A."""
    return f'{begins} {isar} {w} {counters} {facts} {scratchpad.ljust(128, "-")}\n'


START, NEXT, LAST = map(point, ('0000 ---- . --', '0001 ---- . 01', '0002 ---- . 01'))
THREE = START + NEXT + LAST
RESERVED = 3  # the reason of an opcode that no instruction has
HEADER, COUNT, FIELD, ORDER, END, SPLIT_FIELD = range(1, 7)
# The text of a certificate, and the line and the cause of its first fault.
FAULTS = [
    ('F8CERT 2 3\n' + THREE, 1, HEADER), ('F8CERT 1 3\r\n' + THREE, 1, HEADER), ('F8CERT 1 0\n' + THREE, 1, COUNT),
    ('F8CERT 1 0\n', 1, COUNT), ('F8CERT 1 65537\n' + THREE, 1, COUNT), ('F8CERT 1 3\n' + START + point('0001 ---- . 1-') + NEXT, 3, FIELD),
    ('F8CERT 1 3\n' + START + NEXT + NEXT, 4, ORDER), ('F8CERT 1 4\n' + THREE, 5, END), ('F8CERT 1 2\n' + THREE, 4, END),
    ('F8CERT 1 2\n', 2, END), ('F8CERT 1 3', 1, END),
]
# Where the registers 9 and 0 are tracked: a point of which more is known, with a return and a byte of each sort.
KNOWN = point('0123 ABCD A5,-- --', '7-', '00001', 'FFFE 0000 ----', '0001', '--' * 9 + 'A5')
# A cartridge, the points of a certificate, and what is found.
FOUND = {
    'all of a loop': (LOOP, [START, NEXT, LAST], 'whole 3'),
    'another byte in A': (LOOP, [START, point('0001 ---- . 02'), LAST], 'notclosed 0000 ---- . to 0001 ---- .'),
    'an opcode that no instruction has': (PSU.format('', '2D'), [START], f'unsafe 0000 ---- . {RESERVED}'),
}


@needs_program
class Checked(Room):
    def assert_told(self, command: str, cart: str, cert: str | None, line: str) -> None:
        files = [self.put('cart.toml', cart)]
        if cert is not None:
            (self.room / 'cart.cert').write_bytes(cert.encode())
            files.append('cart.cert')
        done = self.program.run(command, *files)
        status = {'whole': 0, 'agreed': 0, 'error': 2}.get(line.split()[0], 7)
        self.assertEqual((done.status, done.lines), (status, [line]))

    def test_verdicts(self):
        """Those with interrupts, and with as many points as there may be, stand in test_verdicts."""
        for name, (cart, line) in VERDICTS.items():
            with self.subTest(name):
                self.assert_told('check', cart, None, line)

    def test_faults_of_a_certificate(self):
        for text, line, cause in FAULTS:
            with self.subTest(text[:16], line=line, cause=cause):
                self.assert_told('verify', LOOP, text, f'error cert line {line} cause {cause}')

    def test_a_tracked_register_has_another_byte(self):
        text = 'F8CERT 1 1\n' + point('0000 ---- 01 --')
        self.assert_told('verify', PSU.format('split = [0]\n', '712B90FE'), text, f'error cert line 2 cause {SPLIT_FIELD}')

    def test_a_line_in_which_much_is_known_is_read(self):
        """The start leads to itself, and at the other point is a reserved opcode."""
        cart = PSU.format('split = [9, 0]\n', '90FF'.ljust(2 * 0x123, 'F') + '2D')
        self.assert_told('verify', cart, 'F8CERT 1 2\n' + point('0000 ---- --,-- --') + KNOWN, f'unsafe 0123 ABCD A5,-- {RESERVED}')

    def test_what_is_known_behind_DCI(self):
        """At the 3851's own data counter too; c is its byte, and it is D0."""
        done = self.program.run('check', '--cert', self.put('cart.toml', PSU.format('', '2A000590FF')))
        known = point('0003 ---- . --', counters='0005 0000 0005', facts='1010')
        self.assertEqual((done.status, done.output.decode()), (0, 'F8CERT 1 2\n' + START + known))

    def test_what_is_written_of_a_loop(self):
        done = self.program.run('check', '--cert', self.put('cart.toml', LOOP))
        self.assertEqual((done.status, done.output.decode()), (0, 'F8CERT 1 3\n' + THREE))

    def test_what_is_found(self):
        for name, (cart, points, line) in FOUND.items():
            with self.subTest(name):
                self.assert_told('verify', cart, f'F8CERT 1 {len(points)}\n' + ''.join(points), line)


if __name__ == '__main__':
    unittest.main()
