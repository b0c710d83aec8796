"""Scripts and files of the debugger's commands: ordinary ones, and the line and the cause of the first fault of others."""
from __future__ import annotations

import unittest

from tool import needs_program
from rooms import Room

# INS 4, and a BR to itself behind it.
CART = 'format = 1\n[[chip]]\nkind = "3851"\nbase = 0\nports = 4\nrom = "A490FF"\n'
ORDINARY = '# a script\npower 5a\r\n \t\n\nat 0 keys 04 fF\nat 599 pulse 15\nshow 600\nshow 1\nshow 600\nframes 0000600'
SCRIPTS = {
    '': (1, 6), '# no end\n\n': (3, 6), 'jump 3\n': (1, 1), 'steps  1\n': (1, 1), 'steps 1\r': (1, 1), 'power 0\n': (1, 2),
    'steps 00000001\n': (1, 2), 'steps \n': (1, 2), 'at 2 keys  2D\n': (1, 2), 'frames 0\n': (1, 3), 'frames 601\n': (1, 3),
    'at 600 keys 04 00\n': (1, 3), 'frames 1\nsteps 1\n': (2, 5), 'power 00\npower 00\n': (2, 5),
    # of a line's faults the first in the order Word, Number, Range, Twice
    'at 600 jump 4 0\n': (1, 1), 'at 600 keys 4 00\n': (1, 2), 'steps 1\nframes 601\n': (2, 3),
}
COMMANDS = {
    'step 5 6\n': (1, 1), 'back\n': (1, 1), 'step 1\nback run 5 6\n': (2, 1), 'stored 2800 1\n': (1, 1), 'back run\n': (1, 2),
    'back x\n': (1, 2), 'stored 28\n': (1, 2), 'back 0\n': (1, 3), 'back run 0\n': (1, 3), 'back 1000001\n': (1, 3),
    'back 1000000\n' * 10 + 'step 1\n': (11, 4),
}
RAM = '[[chip]]\nkind = "3853"\nram_page = 0x28\nram_pages = 1\n'
SESSIONS = {
    'a break that is not met': (CART, '# a session\nbreak apart\nrun 9\nmem 0000 5\n', 'ran 9\nmem 0000 A4 90 FF FF FF\n'),
    'one that is met': (CART + RAM, '# a session\nbreak apart\nrun 9\nmem 0000 5\n', 'ran 1\nbreak\nmem 0000 A4 90 FF FF FF\n'),
    'steps back where none is done': (CART, 'back 1\nback run 1000000\nstored 28fF\n', 'at 0\nat 0\nstored none\n'),
    'a step back': (CART, 'step 9\nback 1\nback run 1000000\n', 'ran 9\nat 8\nat 0\n'),
}


@needs_program
class Lines(Room):
    def answer(self, command: str, text: str, cart: str = CART) -> tuple[int, str]:
        (self.room / 'text').write_bytes(text.encode())
        done = self.program.run(command, self.put('cart.toml', cart), 'text')
        return done.status, done.output.decode()

    def test_scripts_at_fault(self):
        for text, (line, cause) in SCRIPTS.items():
            with self.subTest(text):
                self.assertEqual(self.answer('ref', text), (2, f'error script line {line} cause {cause}\n'))

    def test_commands_at_fault(self):
        for text, (line, cause) in COMMANDS.items():
            with self.subTest(text):
                self.assertEqual(self.answer('debug', text), (2, f'error debug line {line} cause {cause}\n'))

    def test_1024_lines_of_events_and_shown_frames_are_the_most(self):
        text = 'steps 0\nat 0 pulse 0\n' + 'show 1\n' * 1023
        self.assertEqual(self.answer('ref', text)[0], 0)
        self.assertEqual(self.answer('ref', text + 'show 1'), (2, 'error script line 1026 cause 4\n'))

    def test_an_ordinary_script(self):
        """Its last frame is shown once, and a pulse to a chip that isn't there changes nothing."""
        status, text = self.answer('ref', ORDINARY)
        lines = text.splitlines()
        self.assertEqual((status, [line.split()[1] for line in lines if line.startswith('frame ')]), (0, ['1', '600']))
        self.assertEqual((lines[-7], lines[-6].split()[5]), ('stop done', 'A=FF'))
        self.assertEqual(lines[-5:-1], [f's{row}0' + ' 5A' * 16 for row in range(4)])

    def test_a_script_of_one_line(self):
        status, text = self.answer('ref', 'steps 1000000\n')
        self.assertEqual((status, text.splitlines()[2]), (0, 's00' + ' 00' * 16))
        self.assertTrue(text.splitlines()[-1].startswith('total 1000000 instructions '))

    def test_sessions(self):
        for name, (cart, commands, text) in SESSIONS.items():
            with self.subTest(name):
                self.assertEqual(self.answer('debug', commands, cart), (0, text))


if __name__ == '__main__':
    unittest.main()
