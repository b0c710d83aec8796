from __future__ import annotations

import random
import re
import subprocess
import sys
import tempfile
import unittest
from pathlib import Path

import tool
from companion.instructions import OPCODES, Flow, Operand
from tool import TOP, call, needs_program
from traced import OF_LOOP

needs_toml = unittest.skipUnless(sys.version_info >= (3, 11), 'Python before 3.11 has no reader of TOML')

PARTED = ('cartridges/parted/cart.toml', 'cartridges/parted/script.txt')
# A 3851 with the bytes 71 2B 90 FE: LIS 1, NOP, and a branch to the NOP.
CART = 'format = 1\n[[chip]]\nkind = "3851"\nbase = 0x0000\nports = 4\nrom = "712B90FE"\n'
SMI = '[[chip]]\nkind = "3853"\nram_page = 0x28\nram_pages = 4\n'
# What parts copies or leaves the code and the RAM: LR K,P and LR P,K, loads of DC0 from registers, interrupts, XDC, and ports of no chip.
NOT_IN_A_ROW = {0x08, 0x09, 0x0F, 0x10, 0x2C, *range(0xA6, 0xB0), *range(0xB6, 0xC0)}
RUN = '\n'.join(('verdict whole', *OF_LOOP, 'stop done', ''))

# DCI $2800, ST, LI $FF, ADC, and NOP with an interrupt to 0180 at its end; A is 04 from power-on.
WALK = '''verdict none
bus 1C S 00 -
bus 08 L 00 cpu
bus 00 S 2A 0
bus 11 L 28 0
bus 03 S 28 0
bus 0E L 00 0
bus 03 S 00 0
bus 00 S 17 0
bus 05 L 04 cpu
bus 00 S 20 0
bus 03 L FF 0
bus 00 S 8E 0
bus 0A L FF cpu
bus 00 S 2B 0
bus 10 L 00 -
bus 1C S 00 -
bus 0F L 80 0
bus 13 L 01 0
bus 00 S FF 0
stop reserved FF at 0180
'''


@needs_toml
class Trace(unittest.TestCase):
    tool = tool.load('trace')

    def setUp(self):
        folder = tempfile.TemporaryDirectory()
        self.addCleanup(folder.cleanup)
        self.folder = Path(folder.name)
        (self.folder / 'cart.toml').write_text(CART)
        (self.folder / 'script.txt').write_text('power 04\nsteps 3\n')

    def piped(self, *words: object, stdin: str = RUN):
        return call('trace', *words, '--cart', 'cart.toml', '--script', 'script.txt', stdin=stdin, cwd=self.folder)

    def test_steps_stand_below_their_instruction(self):
        done = self.piped()
        self.assertEqual([line.rstrip() for line in done.text.split('\n')], [
            'verdict whole',
            '                                   reference            0: 3851 at 0000',
            '   step  code      from   at       PC0  PC1  DC0  DC1   PC0   PC1   DC0',
            '         reset',
            '      1  1C S  00  -               0000 0000 0000 0000  0404  0404  0404',
            '      2  08 L  00  cpu             0000 0000 0000 0000  .     0404  0404',
            '      3  00 S  71  0      0000     0001 0000 0000 0000  .     0404  0404',
            '         0000 LIS 1',
            '      4  00 S  2B  0      0001     0002 0000 0000 0000  .     0404  0404',
            '         0001 NOP',
            '      5  00 S  90  0      0002     0003 0000 0000 0000  .     0404  0404',
            '         0002 BR $0001',
            '      6  1C S  00  -               0003 0000 0000 0000  .     0404  0404',
            '      7  01 L  FE  0      0003     0001 0000 0000 0000  .     0404  0404',
            '      8  00 S  2B  0      0001     0002 0000 0000 0000  .     0404  0404',
            'stop done',
            'no copy parted', ''])
        self.assertEqual((done.returncode, done.told), (0, ''))

    def test_some_steps_alone(self):
        done = self.piped('--from', 5, '--count', 1)
        self.assertEqual(re.findall(r'^ +(\d+)  \w\w [SL] ', done.text, re.M), ['5'])
        self.assertEqual(re.findall(r'^ +(\d+)  \w\w [SL] ', self.piped('--last', 2).text, re.M), ['7', '8'])
        self.assertIn('0002 BR $0001\n      7 ', self.piped('--last', 2).text)
        self.assertEqual(re.findall(r'^ +(\d+)  \w\w [SL] ', self.piped('--at', '0001').text, re.M), ['5'])
        self.assertNotIn(' step ', self.piped('--parted').text)

    def test_other_lines_pass_and_pictures_do_not(self):
        done = self.piped(stdin=RUN + 'out 32 00 20\nframe 1 phi 2 tone 0\n' + ('0 ' + '0' * 128 + '\n') * 64 + 'regs P=0001\n')
        self.assertIn('out 32 00 20\nframe 1 phi 2 tone 0\nregs P=0001\n', done.text)

    def test_refusal_and_nothing_pass(self):
        self.assertEqual(self.piped(stdin='error cart toml\n').text, 'error cart toml\n')
        self.assertEqual(self.piped(stdin='').text, '')
        for cart in ('not TOML', CART.replace('0x0000', '1' * 5000), 'chip = ' + '[' * 2000, CART.replace('"3851"', '["3851"]')):
            (self.folder / 'cart.toml').write_text(cart)
            done = self.piped(stdin='error cart toml\n')
            self.assertEqual((done.text, done.told, done.returncode), ('error cart toml\n', '', 0))

    def test_what_cannot_be_done(self):
        for words, hint in (([], '--cart'), (['ls', 'play', 'x'], 'play CART SCRIPT'), (['--cart', 'no/such/file'], 'No such file')):
            done = call('trace', *words)
            self.assertEqual((done.text, done.returncode), ('', 1))
            self.assertIn(hint, done.told)
        self.assertEqual(call('trace', '--from', '0').returncode, 2)

    def test_counters_that_are_not_the_program_s_are_told(self):
        done = self.piped(stdin=RUN.replace('stop done', 'bus 02 L -- fault\nstop astray romc 02 socket 0 at 0405 reference 0000'))
        self.assertIn('are not those of the program: it has 0405 in socket 0', done.text)

    def test_a_store_goes_to_dc0_and_adc_adds_a_signed_byte_and_an_interrupt_sets_pc1(self):
        done = self.piped(stdin=WALK)
        for line in ('      9  05 L  04  cpu    2800     0004 0000 2801 0000', '     13  0A L  FF  cpu             0007 0000 2800 0000',
                     '     17  0F L  80  0               0080 0008 2800 0000', '     19  00 S  FF  0      0180     0181 0008 2800 0000'):
            self.assertIn('\n' + line, done.text)

    def test_registers(self):
        done = self.piped('--registers', stdin=WALK)
        self.assertEqual(done.text.splitlines(), [
            'verdict none',
            ' number  at   instruction       A   W      IS  what changes',
            '      1  0000 DCI $2800         04  -----  04  DC0 0000>2800',
            '      2  0003 ST                04  -----  04  DC0 2800>2801, 2800:=04',
            '      3  0004 LI $FF            FF  -----  04  A 04>FF',
            '      4  0006 ADC               FF  -----  04  DC0 2801>2800',
            '      5  0007 NOP               FF  -----  04  PC1 0000>0008, interrupt',
            'stop reserved FF at 0180',
            'no copy parted'])
        told = self.piped('--registers', '--last', 1, stdin=WALK + 'regs P=0180 P1=0008 D0=2800 D1=0000 A=FE IS=04 W=00\n')
        self.assertEqual([line for line in told.text.splitlines() if 'NOP' in line or 'ADC' in line],
                         ['      5  0007 NOP               FF  -----  04  PC1 0000>0008, interrupt'])
        self.assertIn('are not those of the program: it has FE in A, and not FF\n', told.text)

    @needs_program
    def test_registers_are_those_of_the_program(self):
        """Instructions at random, with RAM from 2800 on, one by one beside those of `debug`."""
        chance = random.Random(1975)
        plain = [opcode.code for opcode in OPCODES if opcode.flow is Flow.NEXT and opcode.code not in NOT_IN_A_ROW]
        code = bytes.fromhex('2A2800')
        while len(code) < 900:
            opcode = OPCODES[chance.choice(plain)]
            code += bytes([opcode.code, *(chance.choice((4, 5)) if opcode.operand is Operand.PORT else chance.randrange(256)
                                          for _ in range(opcode.operand.size))])
            code += bytes.fromhex('2A2800') if opcode.code in (0x8E, 0x2A) else b''
        (self.folder / 'cart.toml').write_text(CART.replace('712B90FE', code.hex()) + SMI)
        (self.folder / 'script.txt').write_text('power 5C\nsteps 400\n')
        (self.folder / 'commands').write_text('power 5C\n' + 'step 1\nshow regs\n' * 400)
        debug = subprocess.run([tool.PROGRAM, 'debug', self.folder / 'cart.toml', self.folder / 'commands'], capture_output=True, text=True)
        known = re.findall(r' A=(..) IS=(..) W=(..)', debug.stdout)
        done = call('trace', '--registers', tool.PROGRAM, 'play', 'cart.toml', 'script.txt', cwd=self.folder)
        shown = re.findall(r'^ +\d+  [0-9A-F]{4} .{16}  (..)  (.....)  (..)', done.text, re.M)
        self.assertEqual(len(known), 400)
        self.assertEqual([(a, isar, f'{sum(16 >> at for at in range(5) if flags[at] != "-"):02X}') for a, flags, isar in shown], known)
        self.assertNotIn('not those of the program', done.text)

    @needs_program
    def test_keys_come_to_ports_0_and_1_at_their_frames(self):
        (self.folder / 'cart.toml').write_text(CART.replace('712B90FE', 'A090FE'))  # INS 0, and a branch to it
        (self.folder / 'script.txt').write_text('at 1 keys 00 83\nat 0 keys 00 10\nat 1 keys 01 FF\nsteps 6000\n')
        done = call('trace', '--registers', tool.PROGRAM, 'play', 'cart.toml', 'script.txt', cwd=self.folder)
        found = re.findall(r'^ +(\d+)  0000 INS 0 .* A (..>..)', done.text, re.M)
        # Of the frame at 29,830 clocks: 14 of reset, and then 8 for INS and 14 for BR in turns.
        self.assertEqual(found, [('1', '00>10'), (str(2 * -(-(29830 - 14) // 22) + 1), '10>83')])

    @needs_program
    def test_parted(self):
        done = call('trace', '--parted', tool.PROGRAM, 'play', *PARTED)
        self.assertEqual(done.returncode, 3)
        self.assertTrue(done.text.split('DC1\n')[-1].startswith('         0003 copy.f8 line 7: XDC\n'))
        self.assertIn('     30  02 L  --  FAULT  0013     000A 0000 0013 2801  .     .     0014   .     000C  .     .\n'
                      'stop astray romc 02 socket 0 at 0014 reference 0013\n', done.text)
        self.assertTrue(done.text.endswith('first parted: step 9: socket 0 DC0 2800, reference 0000, in 0003 copy.f8 line 7: XDC\n'
                                           'at the stop: socket 0 DC0 0014, apart since step 20, in 000A COPY+1, copy.f8 line 12: XDC\n'))

    @needs_program
    def test_the_reference_ends_where_the_registers_of_the_run_do(self):
        for name in ('product', 'two_roms'):
            done = call('trace', tool.PROGRAM, 'play', f'cartridges/{name}/cart.toml', f'cartridges/{name}/script.txt')
            last = re.findall(r'^ +\d+  00 [SL]  ..  .{5}  .{7}  (.{19})', done.text, re.M)[-1].split()
            regs = re.search(r'regs P=(\w+) P1=(\w+) D0=(\w+) D1=(\w+)', done.text).groups()
            self.assertEqual([f'{(int(last[0], 16) - 1):04X}', *last[1:]], list(regs))

    @needs_program
    def test_the_last_ones_are_the_end_of_all(self):
        files = [TOP / f'cartridges/two_roms/{name}' for name in ('cart.toml', 'script.txt')]
        run = subprocess.run([tool.PROGRAM, 'play', '--trace', *files], capture_output=True, cwd=TOP).stdout
        for words, form in (([], r'^ +\d+  \w\w [SL] .*'), (['--registers'], r'^ +\d+  \w{4} .*')):
            whole, last = (re.findall(form, self.piped(*words, *more, stdin=run.decode()).text, re.M) for more in ([], ['--last', 40]))
            self.assertEqual(len(last), 40)
            self.assertEqual(last, whole[-40:])

    @needs_program
    def test_the_worked_faults_of_the_bus_page(self):
        psu = '[[chip]]\nkind = "3851"\nbase = 0x{:04X}\nports = {}\nrom = "{}"\n'
        smi = '[[chip]]\nkind = "3853"\n{0}_page = 0x{1:02X}\n{0}_pages = 1\n'
        for chips, stop in (
                (psu.format(0, 4, '2A28002C2A00102C16') + smi.format('ram', 0x28), 'conflict romc 02 socket 0 at 0010 socket 12 at 2800'),
                (psu.format(0, 4, '2A00052C16'), 'astray romc 02 socket 0 at 0005 reference 0000'),
                (psu.format(0, 4, '2A04002C2A90002C16') + psu.format(0x400, 8, '') + smi.format('rom', 4),
                 'astray romc 02 socket 1 at 9000 reference 0400')):
            (self.folder / 'cart.toml').write_text('format = 1\n' + chips)
            (self.folder / 'script.txt').write_text('steps 9\n')
            done = call('trace', tool.PROGRAM, 'play', 'cart.toml', 'script.txt', cwd=self.folder)
            self.assertIn(f'stop {stop}\n', done.text)
            self.assertNotIn('not those of the program', done.text)
            self.assertIn('at the stop: socket', done.text)


if __name__ == '__main__':
    unittest.main()
