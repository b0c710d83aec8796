"""`back`, `back run` and `stored` of the debugger: worked sessions, and random ones beside fresh sessions that have never gone further."""
from __future__ import annotations

import unittest
from random import Random
from typing import Iterator

from tool import needs_program, needs_toml

from random_cartridges import cartridge, described
from random_sessions import RAM, command, of, psu, storing
from rooms import Room
from stepped import Fresh

CARTS, SESSIONS, COMMANDS = 30, 2, 24


# DCI 2800, XDC, DCI 0010 or 2801, XDC and LM.
PARTED, BROKEN = of(psu('2A28002C2A00102C16'), RAM), of(psu('2A28002C2A28012C1690FF'), RAM)
# A loop copies sixteen bytes of a 3853 to its RAM, each with XDC before and behind the store.
COPIED = of(psu('2A28002C2A2000201050162C172C3094FA90FF'), RAM + 'rom_page = 0x20\nrom_pages = 1\n')
# A JMP to 03FF, where the last byte of the only ROM is ST: it stores, and can't fetch what comes next.
CUT = of(psu('2A28007529' + '03FF' + 'FF' * 1016 + '17'), RAM)
TWICE = of(psu('2A28007017710A2A28001790FF'), RAM)
ECHO = of(psu('A450A45190FB'))
CONFLICT = 'stop conflict romc 02 socket 0 at 0010 socket 12 at 2800'
UNDRIVEN = 'stop undriven romc 00 at 0000'
RESERVED = 'stop reserved 2D at 0001'

# By hand: description, commands, and what they print.
WORKED = [
    (PARTED, 'step 4;back 2;show chips', 'ran 4;at 2;chip 0 3851 PC0=0005 PC1=0000 DC0=2800;chip 12 3853 PC0=0005 PC1=000C DC0=000C DC1=2800;'
                                         'probe PC0=0005 PC1=0000 DC0=0000 DC1=2800'),
    (PARTED, 'step 9;back 1;step 9;back 9;show chips', f'ran 4;{CONFLICT};at 3;ran 1;{CONFLICT};at 0;chip 0 3851 PC0=0001 PC1=0000 DC0=0000;'
                                                       'chip 12 3853 PC0=0001 PC1=000C DC0=000C DC1=000C;probe PC0=0001 PC1=0000 DC0=0000 DC1=0000'),
    (PARTED, 'step 9;stored 2800;show chips;step 1', f'ran 4;{CONFLICT};stored none;chip 0 3851 PC0=0009 PC1=0000 DC0=0010;chip 12 3853 PC0=0009 PC1=000C '
                                                     f'DC0=2800 DC1=0010;probe PC0=0009 PC1=0000 DC0=2800 DC1=0010;ran 0;{CONFLICT}'),
    (BROKEN, 'break romc 1D;step 6;back run 6;back run 6;back run 6', 'ran 6;at 4;break;at 2;break;at 0'),
    (BROKEN, 'step 6;stored 2800', 'ran 6;stored none'),
    (BROKEN, 'break romc 1D;step 6;back run 2;step 9;clear;back run 3', 'ran 6;at 4;break;ran 9;at 10'),
    (BROKEN, 'break at 0009;run 9;back run 9;step 9;back run 1', 'ran 5;break;at 0;ran 9;at 8;break'),
    (BROKEN, 'power 5A;step 6;back 2;show regs', 'ready;ran 6;at 4;regs P=0008 P1=0000 D0=2800 D1=2801 A=5A IS=32 W=00;s00' + ' 5A' * 16 + ';s10' + ' 5A' * 16
             + ';s20' + ' 5A' * 16 + ';s30' + ' 5A' * 16 + ';total 4 instructions 78 phi'),
    (BROKEN, 'step 6;power 12;back 1;step 0', 'ran 6;ready;at 0;ran 0'),
    (COPIED, 'step 8;stored 2800', 'ran 8;stored 8'),
    (COPIED, 'step 100;stored 2800;stored 280F;back 50;stored 2805;mem 2800 16', 'ran 100;stored 8;stored 98;at 50;stored 38;mem 2800' + ' FF' * 8 + ' 00' * 8),
    (CUT, 'step 9;mem 2800 1;stored 2800;mem 2800 1;step 1;back 1;mem 2800 1',
     'ran 3;stop undriven romc 00 at 0400;mem 2800 03;stored none;mem 2800 03;ran 0;stop undriven romc 00 at 0400;at 2;mem 2800 00'),
    (TWICE, 'step 5;stored 2800;step 9;stored 2800;back 5;stored 2800', 'ran 5;stored 3;ran 9;stored 7;at 9;stored 7'),
    (of(), 'back 3;stored 0000;step 1;back run 3;step 1', f'at 0;stored none;ran 0;{UNDRIVEN};at 0;ran 0;{UNDRIVEN}'),
    (of(psu('712D')), 'step 9;back 5;step 9', f'ran 1;{RESERVED};at 0;ran 1;{RESERVED}'),
]
# Key bytes that are dropped and kept: commands, and the lines of A, of the first scratchpad bytes and of the total.
KEYED = [
    ('keys 04 30;step 2;keys 04 55;step 1;keys 04 66;step 1;back 2;step 2', 'A=30', 's00 30 30', 'total 4 instructions 54 phi'),
    ('keys 04 30;step 2;keys 04 55;step 1;back 9;step 2', 'A=00', 's00 00 00', 'total 2 instructions 34 phi'),
    ('keys 04 30;step 1;keys 04 55;step 4;back 2;step 2', 'A=55', 's00 30 55', 'total 5 instructions 68 phi'),
]
# A line that is at fault: its number and its cause, behind nothing or behind as much as may be asked for.
FAULTS = [('back 0', 1, 3), ('back run 0', 1, 3), ('back 1000001', 1, 3), ('back run 1000001', 1, 3), ('back', 1, 1), ('back run 5 6', 1, 1),
          ('back on 5', 1, 1), ('stored 2800 1', 1, 1), ('stored', 1, 1), ('back run', 1, 2), ('back x', 1, 2), ('stored 28', 1, 2),
          ('back run x', 1, 2), ('back 1000000\n' * 10 + 'step 1', 11, 4), ('step 1000000\n' * 9 + 'back run 1000000\nback 1', 11, 4)]

def told(commands: str) -> str:
    return commands.replace(';', '\n') + '\n'


@needs_program
class Worked(Room):
    def printed(self, cart: str, commands: str) -> tuple[str, int]:
        answer = self.program.run('debug', self.put('cart.toml', cart), self.put('commands.txt', commands))
        return answer.output.decode(), answer.status

    def test_sessions(self):
        for cart, commands, lines in WORKED:
            self.assertEqual(self.printed(cart, told(commands)), (told(lines), 0), commands)

    def test_key_bytes(self):
        for commands, a, scratchpad, total in KEYED:
            lines = self.printed(ECHO, told(commands + ';show regs'))[0].splitlines()[-6:]
            self.assertIn(f' {a} ', lines[0], commands)
            self.assertTrue(lines[1].startswith(scratchpad), lines[1])
            self.assertEqual(lines[5], total, commands)

    def test_faults(self):
        for commands, line, cause in FAULTS:
            self.assertEqual(self.printed(ECHO, commands + '\n'), (f'error debug line {line} cause {cause}\n', 2), commands)

    def test_the_most_instructions_and_many_key_bytes(self):
        self.assertEqual(self.printed(ECHO, 'back 1000000\n' * 10), ('at 0\n' * 10, 0))
        events = 65_000 // len('pulse 0\n')
        self.assertEqual(self.printed(ECHO, 'pulse 0\n' * events + 'step 1\nback 1\nstep 1\n'), ('ran 1\nat 0\nran 1\n', 0))


@needs_toml
@needs_program
class BesideFreshOnes(Room):
    def carts(self) -> Iterator[str]:
        yield from (PARTED, BROKEN, COPIED, CUT, TWICE, ECHO, of(), of(psu('712D')))
        for seed in range(CARTS):
            yield storing(Random(seed)) if seed % 3 else cartridge(seed)

    def test_sessions_beside_fresh_ones(self):
        kinds: dict[str, int] = {}
        for number, text in enumerate(self.carts()):
            path = self.put('cart.toml', text)
            for seed in range(SESSIONS):
                random = Random(1000 * number + seed)
                fresh = Fresh(self.program, path, described(text))
                commands: list[str] = []
                for _ in range(COMMANDS):
                    commands.append(command(random, fresh))
                    fresh.give(commands[-1])
                fresh.flush()
                lines = self.program.run('debug', path, self.put('commands.txt', '\n'.join(commands))).done().decode().splitlines()
                self.assertEqual(lines, fresh.printed, (text, commands))
                for line, following in zip(lines, [*lines[1:], '']):
                    kind = f'{line.split()[0]} {following}' if line.startswith('at ') and following == 'break' else line.split()[0]
                    kinds[kind + ' none' * line.endswith('none')] = kinds.get(kind + ' none' * line.endswith('none'), 0) + 1
        for kind in ('at', 'at break', 'stored', 'stored none', 'stop'):
            self.assertGreater(kinds[kind], 20, kinds)


if __name__ == '__main__':
    unittest.main()
