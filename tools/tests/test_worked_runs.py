"""Runs, checks and sessions that were worked out by hand, or by a model that was written apart: what the program writes, to the byte."""
from __future__ import annotations

import unittest

from tool import needs_program
from rooms import Room
from worked import alike, ended

PSU = '[[chip]]\nkind = "3851"\nbase = {}\nports = {}\nrom = "{}"\n'
ALONE = 'format = 1\n' + PSU
POPS = 'format = 1\n' + PSU.format(0, 4, '1C') + PSU.format(0x400, 8, '')
# ROM with a picture routine behind a PI of the first chip: it goes over the lower 64 addresses and draws by the key byte of port 4.
ORDINARY = ('format = 1\n' + PSU.format(0, 4, '2A0800162555940429080290FF') + PSU.format(0x400, 8, '')
            + PSU.format(0x800, 32, '552B28081090FCFFFFFFFFFFFFFFFFFF0870B4B0A418B42037B52020B00C'))
# LIS 1; OUTS 6; EI; BR to itself; and EI, POP at 0100 and 0180, where the chip's own vector leads.
ROUTINE = '1B1C'.ljust(0x100, 'F')
ANSWERED = ('format = 1\n' + PSU.format(0, 4, '71B61B90FF'.ljust(0x200, 'F') + ROUTINE * 2)
            + 'vector = 0x0100\ninterrupt = true\n')
# A copy of 16 bytes from ROM at 2000 to RAM at 2800 by two data counters of a 3853, counted in r0.
COPIES = (PSU.format(0, 4, '2A28002C2A2000201050162C172C3094FA90FF')
          + '[[chip]]\nkind = "3853"\nrom_page = 0x20\nrom_pages = 1\nram_page = 0x28\nram_pages = 1\n')
# Two 3851s with code at 0180 alone, of the four addresses where their vectors lead.
TWO_VECTORS = ('format = 1\n' + PSU.format(0, 4, '71B6BA1B90FF'.ljust(0x300, 'F') + '1B1C') + 'vector = 0x0100\ninterrupt = true\n'
               + PSU.format(0x400, 8, '') + 'vector = 0x0200\ninterrupt = true\n')
# LIS 1; OUTS 6; EI; DCI 1234: of all instructions that let an interrupt in it takes the longest.
LOADS = ALONE.format(0, 4, '71B61B2A1234') + 'vector = 0x0100\ninterrupt = true\n'
READS = ALONE.format(0, 4, '2A00001690FE')  # DCI 0; LM; BR to the LM
KEYED = ALONE.format(0, 4, '200FB4A42602')  # LI 0F; OUTS 4; INS 4; IN of port 02, which no chip has
# A JMP to the last byte of the only chip, OUTS 4; and one to a JMP there, of which the third byte lies behind it.
WRITES_AT_THE_END = ALONE.format(0, 4, '2903FF'.ljust(2046, 'F') + 'B4')
CUT = ALONE.format(0, 4, '2903FE'.ljust(2044, 'F') + '2908')


def beside(code: str, pages: str) -> str:
    """A 3851 at 0000, and a 3853 with these pages."""
    return ALONE.format(0, 4, code) + f'[[chip]]\nkind = "3853"\n{pages}\n'


def with_first(bytes_in_order: str) -> list[str]:
    """A scratchpad of these bytes and zeros."""
    return [bytes_in_order + ' 00' * (16 - len(bytes_in_order.split()))] + alike('00')[1:]


RESERVED = ended('reserved 2D at 0000', 'P=0000 P1=0000 D0=0000 D1=0000 A=00 IS=00 W=00', alike('00'), '0 instructions 14')
ROWS = {
    'POP to the counters of power-on, which lead back to itself': (
        'play', POPS, 'power 00\nsteps 3\n', 0, 'verdict none\n'
        + ended('done', 'P=0000 P1=0000 D0=0000 D1=0000 A=00 IS=00 W=00', alike('00'), '3 instructions 38')),
    'POP to the counters of power-on, which lie in no chip': (
        'play', POPS, 'power 12\nsteps 3\n', 3, 'verdict none\n'
        + ended('undriven romc 00 at 0000', 'P=0000 P1=0000 D0=0000 D1=0000 A=12 IS=22 W=00', alike('12'), '0 instructions 14')),
    'a reserved opcode': ('play', ALONE.format(0, 4, '2D'), 'steps 5\n', 8, 'verdict none\n' + RESERVED),
    'a reserved opcode on the flat machine': ('ref', ALONE.format(0, 4, '2D'), 'steps 5\n', 8, RESERVED),
    'ASD of 67 and 01': (
        'play', ALONE.format(0, 4, '20675071D090FF'), 'steps 4\n', 0, 'verdict whole\n'
        + ended('done', 'P=0005 P1=0000 D0=0000 D1=0000 A=02 IS=00 W=01', with_first('67'), '4 instructions 40')),
    'ASD of 6A and 05': (
        'play', ALONE.format(0, 4, '206A5075D090FF'), 'steps 4\n', 0, 'verdict whole\n'
        + ended('done', 'P=0005 P1=0000 D0=0000 D1=0000 A=09 IS=00 W=01', with_first('6A'), '4 instructions 40')),
    'a copy without a tracked counter': ('check', 'format = 1\n' + COPIES, None, 7, 'refused 000A ---- . 7\n'),
    'the same with one': ('check', 'format = 1\nsplit = [0]\n' + COPIES, None, 0, 'whole 102\n'),
    'a pulse that is answered': (
        'play', ANSWERED, 'at 1 pulse 0\nframes 2\n', 0, 'verdict whole\nout 34 06 01\n'
        + ended('done', 'P=0003 P1=0003 D0=0000 D1=0000 A=01 IS=00 W=10', alike('00'), '4261 instructions 59664')),
}

# Addresses that two chips hold, or all: the reasons in their order, and then whether reads are answered.
OVER, RAM_OVER = ('rom_page = 1\nrom_pages = 1', 'ram_page = 1\nram_pages = 1')
SHARED = {
    'code at an address of two chips': ('format = 1\n' + PSU.format(0, 4, '2B') + PSU.format(0, 8, '2B'), 'refused 0000 ---- . 1'),
    'code that no chip holds': ('format = 1\n', 'refused 0000 ---- . 1'),
    'a read at a known address of two chips': (beside('2A01FF1690FF', OVER), 'refused 0003 ---- . 11'),
    'a read beside it': (beside('2A02001690FF', OVER), 'whole 3'),
    'a store there': (beside('2A01001790FF', RAM_OVER), 'refused 0003 ---- . 11'),
    'a read at an unknown address, with one that two chips hold': (beside('0F1690FF', OVER), 'refused 0001 ---- . 11'),
    'the same, with a data counter that may be another': (beside('1690FF', OVER), 'refused 0000 ---- . 7'),
    'a read at an unknown address, with all of them held': (beside('0F1690FF', 'void_page = 4\nvoid_pages = 252'), 'whole 3'),
    'the same, with a page that nobody holds': (beside('0F1690FF', 'void_page = 5\nvoid_pages = 251'), 'agreed 3'),
    'the same, with a page that two chips hold': (beside('0F1690FF', 'void_page = 3\nvoid_pages = 253'), 'refused 0001 ---- . 11'),
}
AT_START = 'P=0000 P1=0000 D0=0000 D1=0000 A=00 IS=00 W=00'
ENDS = {
    'reset without a chip, where no step is asked for': (
        'play', 'format = 1\n', 'steps 0\n', 3, 'verdict none\n' + ended('undriven romc 00 at 0000', AT_START, alike('00'), '0 instructions 0')),
    'the same on the flat machine': ('ref', 'format = 1\n', 'steps 0\n', 0, ended('done', AT_START, alike('00'), '0 instructions 14')),
    'and with a step': ('ref', 'format = 1\n', 'steps 1\n', 8, ended('reserved FF at 0000', AT_START, alike('00'), '0 instructions 14')),
    'a reserved opcode, where no step is asked for': (
        'play', ALONE.format(0, 4, '2D'), 'steps 0\n', 0, 'verdict none\n' + ended('done', AT_START, alike('00'), '0 instructions 14')),
    'several key bytes for one port in one frame, of which the last one counts': (
        'play', KEYED, 'at 0 keys 04 55\nat 1 keys 04 FF\nat 0 keys 04 C0\nat 0 keys 04 30\nsteps 4\n', 3, 'verdict none\nout 40 04 0F\n' + ended(
            'undriven romc 1B at 0002', 'P=0004 P1=0000 D0=0000 D1=0000 A=3F IS=00 W=01', alike('00'), '3 instructions 56')),
    'a frame that comes behind the end': (
        'play', ALONE.format(0, 4, '90FF'), 'at 1 keys 04 FF\nshow 2\nframes 1\n', 0,
        'verdict whole\n' + ended('done', AT_START, alike('00'), '2130 instructions 29834')),
    'a frame that comes behind a fault': (
        'play', READS, 'show 1\nframes 1\n', 3, 'verdict agreed\n' + ended(
            'undriven romc 02 at 0400', 'P=0003 P1=0000 D0=0400 D1=0000 A=FF IS=00 W=00', alike('00'), '2049 instructions 24614')),
    'a store to RAM that lies over ROM': (
        'play', beside('2A01001790FF', RAM_OVER), 'steps 3\n', 0, 'verdict none\n' + ended(
            'done', 'P=0004 P1=0000 D0=0101 D1=0000 A=00 IS=00 W=00', alike('00'), '3 instructions 62')),
    'a write whose instruction is not done': (
        'play --trace', WRITES_AT_THE_END, 'steps 9\n', 3, 'verdict none\nbus 1C S 00 -\nbus 08 L 00 cpu\nbus 00 S 29 0\n'
        'bus 03 L 03 0\nbus 0C L FF 0\nbus 14 L 03 cpu\nbus 00 S B4 0\nbus 1C L 04 cpu\nbus 1A L 03 cpu\nbus 00 S -- fault\n' + ended(
            'undriven romc 00 at 0400', 'P=03FF P1=0000 D0=0000 D1=0000 A=03 IS=00 W=00', alike('00'), '1 instructions 36')),
}


def shown(registers: str, total: str) -> str:
    """What `show regs` prints, where the scratchpad is all 0."""
    return ended('', registers, alike('00'), total).partition('\n')[2]


SESSIONS = {
    'the most clocks of an instruction: 46': (LOADS, 'step 2;pulse 0;step 1;show regs;step 1;show regs', (
        'ran 2\nran 1\n' + shown('P=0003 P1=0000 D0=0000 D1=0000 A=01 IS=00 W=10', '3 instructions 42')
        + 'ran 1\n' + shown('P=0180 P1=0006 D0=1234 D1=0000 A=01 IS=00 W=00', '4 instructions 88'))),
    'the last of two key bytes': (KEYED, 'keys 04 FF;keys 04 30;step 3;show regs', (
        'ran 3\n' + shown('P=0004 P1=0000 D0=0000 D1=0000 A=3F IS=00 W=01', '3 instructions 56'))),
    'ROM in two pages that do not touch, listed from behind': (
        'format = 2\n' + PSU.format(0, 4, '') + '[[chip]]\nkind = "3853"\npages = ["rom 22", "ram 21", "rom 20"]\nrom = "' + '11' * 256 + '22"\n',
        'mem 20FF 2;mem 2200 2;mem 21FF 1;mem 2300 1', 'mem 20FF 11 00\nmem 2200 22 FF\nmem 21FF 00\nmem 2300 --\n'),
    'a break at the last of so many instructions': (ALONE.format(0, 4, '712B90FE'), 'break at 0001;run 1;run 1', 'ran 1\nbreak\nran 1\n'),
    'no break at an instruction that was not done, though its step was served': (
        CUT, 'break romc 03;run 9;run 9;show regs', 'ran 1\nbreak\nran 0\nstop undriven romc 0C at 0400\n' + shown(
            'P=03FE P1=0000 D0=0000 D1=0000 A=03 IS=00 W=00', '1 instructions 36')),
    'nor before a reserved opcode at its address': (
        ALONE.format(0, 4, '712D'), 'break at 0001;run 9;run 9', 'ran 1\nbreak\nran 0\nstop reserved 2D at 0001\n'),
}


@needs_program
class WorkedRuns(Room):
    """One row each."""

    def assert_written(self, command: str, cart: str, script: str | None, status: int, text: str) -> None:
        files = [self.put('cart.toml', cart)] + ([self.put('script.txt', script)] if script else [])
        done = self.program.run(*command.split(), *files)
        self.assertEqual((done.status, done.output.decode()), (status, text))

    def test_rows(self):
        for name, row in (ROWS | ENDS).items():
            with self.subTest(name):
                self.assert_written(*row)

    def test_shared_addresses(self):
        for name, (cart, line) in SHARED.items():
            with self.subTest(name):
                self.assert_written('check', cart, None, 7 if line.startswith('refused') else 0, line + '\n')

    def test_sessions(self):
        for name, (cart, commands, text) in SESSIONS.items():
            with self.subTest(name):
                self.assert_written('debug', cart, commands.replace(';', '\n') + '\n', 0, text)

    def test_vectors_that_lead_to_no_code(self):
        """Any of the three is an answer."""
        done = self.program.run('check', self.put('cart.toml', TWO_VECTORS))
        self.assertEqual(done.status, 7)
        self.assertIn(done.output.decode(), [f'refused {at} 0004 . 3\n' for at in ('0100', '0200', '0280')])

    def test_two_frames_with_pictures(self):
        script = self.put('script.txt', 'at 0 keys 04 05\nat 1 keys 04 06\nshow 1\nshow 2\nframes 2\n')
        done = self.program.run('play', self.put('cart.toml', ORDINARY), script)
        lines = done.output.decode().splitlines()
        writes = [line for line in lines if line.startswith('out ')]
        self.assertEqual((done.status, len(writes), writes[:2]), (0, 1655, ['out 154 04 00', 'out 162 00 00']))
        first, second = lines.index('frame 1 phi 29834 tone 0'), lines.index('frame 2 phi 59672 tone 0')
        self.assertEqual(drawn(lines, first), {(5, 8): '3'})
        self.assertEqual(drawn(lines, second), {(5, 8): '3', (6, 8): '3'})
        row = '00 00 00 00 00 00 00 00 00 00 00 00 08 05 00 00'
        self.assertEqual('\n'.join(lines[second + 65:]) + '\n', ended(
            'done', 'P=0802 P1=081E D0=0801 D1=0000 A=20 IS=00 W=00', [row] + alike('00')[1:], '4639 instructions 59672'))


def drawn(lines: list[str], frame: int) -> dict[tuple[int, int], str]:
    """The pixels of a frame that aren't 0, by column and row, each with its digit."""
    rows = [line.split()[1] for line in lines[frame + 1:frame + 65]]
    return {(column, row): digit for row, digits in enumerate(rows) for column, digit in enumerate(digits) if digit != '0'}


if __name__ == '__main__':
    unittest.main()
