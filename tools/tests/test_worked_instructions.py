"""Small programs of the processor that were worked out by hand or by the manual's table: registers, memory, ports and clocks on the flat
machine and on the rack, and the bus steps of single instructions."""
from __future__ import annotations

import re
import unittest

from tool import needs_program
from rooms import Room

PSU = '[[chip]]\nkind = "3851"\nbase = {}\nports = {}\nrom = "{}"\n'
ALONE = 'format = 1\n' + PSU
# Beside the 3851: a page of RAM at 28, and one that holds nothing at 80.
BESIDE = ALONE + '[[chip]]\nkind = "3853"\nram_page = 0x28\nram_pages = 1\nvoid_page = 0x80\nvoid_pages = 1\n'
NOPS = '2B' * 1023

# A program, the power-on byte and the number of instructions; then the counters and A, and the clocks.
COUNTERS = {
    'a return to 0000': ('1C', '04', 3, 'P=0000 P1=0000 D0=0000 D1=0000 A=04', 38),
    'an exchange of data counters': ('2A00052C16', '00', 2, 'P=0004 P1=0000 D0=0000 D1=0005 A=00', 46),
    'exchanges, and a load from RAM': ('2A28002C2A28012C1690FF', '5A', 6, 'P=0009 P1=0000 D0=2801 D1=2801 A=5A', 102),
    'a load of each byte of the ROM, and of the one behind': ('2A00001690FE', '00', 2049, 'P=0003 P1=0000 D0=0400 D1=0000 A=FF', 24614),
    'a jump': ('2903FE', '00', 1, 'P=03FE P1=0000 D0=0000 D1=0000 A=03', 36),
}
# A program and the number of instructions; then A, W, register 0, the next address and the clocks.
RESULTS = {
    '0 less 1 in a register': ('70503090FF', 3, '00', '00', 'FF', '0003', 28),
    '0 compared with 0': ('70250090FF', 2, '00', '07', '00', '0003', 28),
    'ASD of 67 and 01': ('20675071D090FF', 4, '02', '01', '67', '0005', 40),
    'ASD of 6A and 05': ('206A5075D090FF', 4, '09', '01', '6A', '0005', 40),
}
# 33 is stored at such a page's second address; what is read there then.
STORES = {'RAM': ('28', '33'), 'ROM': ('02', 'FF'), 'a page that holds nothing': ('80', 'FF'), 'where no chip is': ('40', 'FF')}
# LI 5A, a write to a port, and a read of it: the line of the write, and A. LI takes 10 clocks, a long OUTS, OUT and IN 16, and those of the
# ports 0 and 1 take 8.
PORTS = {
    'port 0 of the processor': ('B0A0', 'out 32 00 5A', '5A'), 'port 4 of the 3851': ('B4A4', 'out 40 04 5A', '5A'),
    'the timer': ('B7A7', 'out 40 07 5A', 'FF'), 'port D of the 3853': ('BDAD', 'out 40 0D 5A', 'FF'),
    'a port that is nowhere': ('B8A8', None, 'FF'),
    'OUT and IN of port 5': ('27052605', 'out 40 05 5A', '5A'), 'OUT and IN of port 0, which go to the bus': ('27002600', None, 'FF'),
    'OUT and IN of port 40': ('27402640', None, 'FF'),
}
# LIS 3; OUTS 6; LI 7F; OUTS 7; seven NOPs; EI; NOP. The timer expires at 87 clocks, and EI, which ends at 96, shields its end. So the
# interrupt comes behind the last NOP, to the vector with bit 7 of its low byte clear.
TIMER = ALONE.format(0, 4, '73B6207FB7' + '2B' * 7 + '1B2B') + 'vector = 0x0180\ninterrupt = true\n'
# LIS 1; OUTS 6; EI; NOP; NOP, where 0180 is the vector of pulses.
PULSED = BESIDE.format(0, 4, '71B61B2B2B').replace('[[chip]]\nkind = "3853"', 'vector = 0x0180\ninterrupt = true\n[[chip]]\nkind = "3853"')

# The code of an instruction behind the instructions that lead to it; then its bus steps before the fetch, by their codes and lengths.
STEPS = {
    'LR A,KU': ('00', ''), 'LR K,P': ('08', '07L 0BL'), 'LR P,K': ('09', '15L 18L'), 'PK': ('0C', '12L 14L'), 'LR P0,Q': ('0D', '17L 14L'),
    'LR Q,DC': ('0E', '06L 09L'), 'LR H,DC': ('11', '06L 09L'), 'LR DC,Q': ('0F', '16L 19L'), 'LR DC,H': ('10', '16L 19L'),
    'LM': ('16', '02L'), 'ST': ('17', '05L'), 'DI': ('1A', '1CS'), 'POP': ('1C', '04S'), 'LR W,J': ('1D', '1CS'), 'LI': ('20', '03L'),
    'IN': ('2604', '03L 1BL'), 'OUT': ('2704', '03L 1AL'), 'PI': ('280000', '03L 0DS 0CL 14L'), 'JMP': ('290000', '03L 0CL 14L'),
    'DCI': ('2A0000', '11L 03S 0EL 03S'), 'XDC': ('2C', '1DS'), 'DS': ('30', ''), 'BP to be taken': ('70 1F 81FE', '1CS 01L'),
    'BP not to be taken': ('81FE', '1CS 03S'),
    'CM': ('8D', '02L'), 'ADC': ('8E', '0AL'), 'BR7 to be taken': ('8FFF', '01L'), 'BR7 not to be taken': ('6F 8FFF', '03S'),
    'BR': ('90FF', '1CS 01L'), 'OUTS 1': ('B1', '1CS'), 'INS 4': ('A4', '1CL 1BL'), 'OUTS 4': ('B4', '1CL 1AL'), 'ASD 0': ('D0', '1CS'),
}
# Instructions whose fetch isn't served: by a jump, or as the last byte of the chip.
UNSERVED = {'JMP': ('290400', 1, '0000'), 'LR K,P': (NOPS + '08', 1024, '03FF'), 'ASD 0': (NOPS + 'D0', 1024, '03FF')}
# AI F1; INS 0; LI 0F; OUTS 1; INS 1; OUTS 0; IN 5; OUT 5; INS 4; OUTS 4, with the key bytes F0, 30 and 5A of the ports 0, 1 and 5: A and W
# behind each, from the power-on byte 0F on.
OWN_PORTS = ALONE.format(0, 4, '24F1A0200FB1A1B026052705A4B42B')
BEHIND_EACH = ['00 07', 'F0 00', '0F 00', '0F 00', '3F 01', '3F 01', '5A 01', '5A 01', '00 05', '00 05']


def registers(lines: list[str]) -> dict[str, str]:
    """The registers of a run by their names, with s0 and the clocks."""
    found = dict(word.split('=') for word in next(line for line in lines if line.startswith('regs ')).split()[1:])
    return {**found, 's0': next(line for line in lines if line.startswith('s00 ')).split()[1], 'phi': lines[-1].split()[3]}


class Runs(Room):
    def ran(self, command: str, cart: str, script: str, status: int = 0) -> list[str]:
        """The lines of a run."""
        done = self.program.run(*command.split(), self.put('cart.toml', cart), self.put('script.txt', script))
        self.assertEqual(done.status, status, done.lines)
        return done.lines

    def session(self, cart: str, commands: str) -> list[str]:
        """The lines of a debugger's session."""
        done = self.program.run('debug', self.put('cart.toml', cart), self.put('commands.txt', commands.replace(';', '\n') + '\n'))
        self.assertEqual(done.status, 0, done.lines)
        return done.lines


@needs_program
class Instructions(Runs):
    def test_counters_and_loads(self):
        for name, (code, power, steps, counters, phi) in COUNTERS.items():
            with self.subTest(name):
                lines = self.ran('ref', BESIDE.format(0, 4, code), f'power {power}\nsteps {steps}\n')
                self.assertEqual(lines[:2], ['stop done', f'regs {counters} ' + lines[1].split(' ', 6)[6]])
                self.assertEqual(lines[-1], f'total {steps} instructions {phi} phi')

    def test_results(self):
        """The two sums stand on the rack in test_worked_runs."""
        for name, (code, steps, *wanted, phi) in RESULTS.items():
            for command in ('ref', 'play') if code[-6:-4] != 'D0' else ('ref',):
                with self.subTest(name, command=command):
                    found = registers(self.ran(command, BESIDE.format(0, 4, code), f'steps {steps}\n'))
                    self.assertEqual([found[part] for part in ('A', 'W', 's0', 'P', 'phi')], [*wanted, str(phi)])

    def test_stores(self):
        for name, (page, byte) in STORES.items():
            with self.subTest(name):
                cart = BESIDE.format(0, 4, f'2A{page}01203317' + f'2A{page}0116')
                self.assertEqual(registers(self.ran('ref', cart, 'power 5A\nsteps 3\n'))['P'], '0006')
                self.assertEqual(registers(self.ran('ref', cart, 'power 5A\nsteps 5\n'))['A'], byte)

    def test_code_of_two_chips_is_reserved_on_the_flat_machine(self):
        lines = self.ran('ref', ALONE.format(0, 4, '2B') + PSU.format(0, 4, '2B'), 'steps 1\n', 8)
        self.assertEqual((lines[0], lines[-1]), ('stop reserved FF at 0000', 'total 0 instructions 14 phi'))
        self.assertEqual(registers(lines)['P'], '0000')

    def test_writes_to_ports_and_reads(self):
        for name, (code, line, byte) in PORTS.items():
            with self.subTest(name):
                lines = self.ran('ref', BESIDE.format(0, 4, '205A' + code), 'steps 3\n')
                self.assertEqual(lines[:-6], [line] * (line is not None) + ['stop done'])
                self.assertEqual((registers(lines)['A'], registers(lines)['P1']), (byte, '0000'))

    def test_a_port_of_two_chips_on_the_flat_machine(self):
        lines = self.ran('ref', ALONE.format(0, 4, '205AB4A4') + PSU.format(0x400, 4, ''), 'steps 3\n')
        self.assertEqual((lines[0], registers(lines)['A']), ('stop done', 'FF'))

    def test_keys(self):
        self.assertEqual(registers(self.ran('ref', BESIDE.format(0, 4, '2050B1A1'), 'at 0 keys 01 0F\nsteps 3\n'))['A'], '5F')

    def test_an_interrupt_of_the_timer(self):
        for command in ('ref', 'play'):
            with self.subTest(command):
                self.assertEqual(registers(self.ran(command, TIMER, 'steps 12\n'))['P1'], '0000')
                found = registers(self.ran(command, TIMER, 'steps 13\n'))
                self.assertEqual([found[part] for part in ('P', 'P1', 'D0', 'D1', 'A', 'W', 'phi')],
                                 ['0100', '000E', '0000', '0000', '7F', '00', '122'])

    def test_an_interrupt_of_a_pulse(self):
        """Pulses that come to another chip and to none are none of it."""
        lines = self.session(PULSED, 'step 3;pulse 1;pulse 2;step 1;show regs;pulse 0;step 1;show regs')
        first, second = (line for line in lines if line.startswith('regs '))
        self.assertIn('P1=0000', first)
        self.assertTrue(second.startswith('regs P=0180 P1=0005 D0=0000 D1=0000 '), second)

    def test_a_pulse_changes_no_register(self):
        cart = BESIDE.format(0, 4, '71B62B')
        shown = self.session(cart, 'pulse 0;step 1;' * 3 + 'show regs')[3:]
        for found in (registers(shown), registers(self.ran('ref', cart, 'at 0 pulse 0\n' * 3 + 'steps 3\n'))):
            self.assertEqual((found['phi'], found['P']), ('38', '0003'))


@needs_program
class BusSteps(Runs):
    def test_steps_of_instructions(self):
        for name, (code, steps) in STEPS.items():
            with self.subTest(name):
                lines = self.ran('play --trace', ALONE.format(0, 4, code.replace(' ', '')), f'steps {len(code.split())}\n')
                found = [''.join(line.split()[1:3]) for line in lines if line.startswith('bus ')]
                wanted = [*steps.split(), '00L' if name == 'DS' else '00S']
                self.assertEqual(found[-len(wanted):], wanted)
                self.assertEqual(found[-len(wanted) - 1][:2], '00', 'the fetch of the instruction')

    def test_bytes_that_the_processor_drives(self):
        """PI 03FE keeps 03 for the step before its fetch; OUTS 4 drives the port's number, and then A."""
        lines = self.ran('play --trace', ALONE.format(0, 4, '2803FE'.ljust(2 * 0x3FE, 'F') + 'B42B'), 'power 5A\nsteps 2\n')
        self.assertEqual([line for line in lines if line.startswith('bus ')][3:], [
            'bus 03 L 03 0', 'bus 0D S 00 -', 'bus 0C L FE 0', 'bus 14 L 03 cpu', 'bus 00 S B4 0', 'bus 1C L 04 cpu', 'bus 1A L 03 cpu',
            'bus 00 S 2B 0'])

    def test_an_instruction_whose_fetch_is_not_served_changes_nothing(self):
        for name, (code, steps, at) in UNSERVED.items():
            with self.subTest(name):
                cart = 'format = 2\n' + PSU.format(0, 4, code) + 'start = 0\n'
                lines = self.ran('play', cart, f'power 5A\nsteps {steps}\n', 3)
                self.assertEqual(lines[1], 'stop undriven romc 00 at 0400')
                self.assertEqual([registers(lines)[part] for part in ('P', 'A', 'IS', 'W')], [at, '5A', '32', '00'])
                self.assertEqual(lines[3:7], [f's{row}0' + ' 5A' * 16 for row in range(4)])

    def test_nor_is_its_write_told(self):
        lines = self.ran('play', ALONE.format(0, 4, NOPS + 'B0'), 'power 5A\nsteps 1024\n', 3)
        self.assertEqual(lines[:2], ['verdict none', 'stop undriven romc 00 at 0400'])

    def test_interrupts_are_let_in_and_reserved_opcodes_are_not_done(self):
        self.assertEqual(registers(self.ran('play', ALONE.format(0, 4, '1B2B'), 'steps 1\n'))['W'], '10')
        self.assertIn('stop reserved FF at 0000', self.ran('play', ALONE.format(0, 4, 'FF'), 'steps 1\n', 8))

    def test_own_ports(self):
        keys = 'keys 00 F0;keys 01 30;keys 05 5A'
        lines = self.session(OWN_PORTS, f'power 0F;{keys}' + ';step 1;show regs' * 10)
        shown = [re.search(' A=(..) .* W=(..)', line).groups() for line in lines if line.startswith('regs ')]
        self.assertEqual([' '.join(pair) for pair in shown], BEHIND_EACH)
        script = 'power 0F\n' + ''.join(f'at 0 {key}\n' for key in keys.split(';')) + 'steps 10\n'
        written = [line.split()[2:] for line in self.ran('play', OWN_PORTS, script) if line.startswith('out ')]
        self.assertEqual(written, [['01', '0F'], ['00', '3F'], ['05', '5A'], ['04', '00']])

    def test_IN_of_port_0_goes_to_the_bus(self):
        self.assertIn('stop undriven romc 1B at 0000', self.ran('play', ALONE.format(0, 4, '2600'), 'steps 1\n', 3))


if __name__ == '__main__':
    unittest.main()
