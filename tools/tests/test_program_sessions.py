"""Sessions of the debugger, to the byte, and what refuses them. Those that go back are in test_stepping."""
from __future__ import annotations

import unittest

from tool import needs_program
from rooms import Rows
from worked import EXCHANGES, LOOP, LOOP_END, alone

# Description, commands, the status, and what is printed.
ROWS = {
    'counters of each chip': (EXCHANGES, 'step 4\nshow chips\n', 0, '''ran 4
chip 0 3851 PC0=0009 PC1=0000 DC0=0010
chip 12 3853 PC0=0009 PC1=000C DC0=2800 DC1=0010
probe PC0=0009 PC1=0000 DC0=2800 DC1=0010
'''),
    # DCI 0005; XDC; LM: the 3851 has no second data counter
    'a break where counters have parted': (
        alone('2A00052C16'), 'break apart\nrun 9\nstep 1\nmem 0000 5\n', 0,
        'ran 2\nbreak\nran 0\nstop astray romc 02 socket 0 at 0005 reference 0000\nmem 0000 2A 00 05 2C 16\n'),
    'registers': (LOOP, 'step 3\nshow regs\n', 0, 'ran 3\n' + LOOP_END.partition('\n')[2]),
    'a break at an address, and power': (LOOP, 'break at 0002\nrun 9\nclear\nrun 3\npower 00\n', 0, 'ran 2\nbreak\nran 3\nready\n'),
    'an instruction too many': (LOOP, 'step 5\nstep 1000001\n', 2, 'error debug line 2 cause 3\n'),
    'a word that is none': (LOOP, 'walk 5\n', 2, 'error debug line 1 cause 1\n'),
}


@needs_program
class Sessions(Rows):
    def test_rows(self):
        self.assert_rows({name: ('debug cart commands', {'cart': cart, 'commands': commands}, status, text)
                          for name, (cart, commands, status, text) in ROWS.items()})


if __name__ == '__main__':
    unittest.main()
