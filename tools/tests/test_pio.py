"""The 3861, a chip with ports, timer and interrupt and without memory: what the program does with it, and what the companions say.

Ends of runs, verdicts and clocks were worked out by a model that was written apart.
"""
from __future__ import annotations

import unittest

from test_debugger_prompt import prompt_of
from test_rules import searched
from tool import call, needs_program, needs_toml

from companion.bus import FETCH, Step
from companion.counters import PC0, Rack
from companion.description import Description, Kind
from companion.names import Names
from companion.run_page.document import power_on
from companion.run_page.rack import Fault, Role, followed
from companion.run_page.rack_drawing import rack_drawing
from companion.verdict_words import told
from random_cartridges import described
from rooms import Room

PSU = '[[chip]]\nkind = "3851"\nbase = 0\nports = {}\nrom = "{}"\n'
SMI = '[[chip]]\nkind = "3853"\n'
PIO = '[[chip]]\nkind = "3861"\nports = 8\n'
WRITES = '200FB8A890FF'  # LI 0F; OUTS 8; INS 8; BR to itself
HAS_THE_PORT, SHARES_THE_PORT = ('format = 2\n' + PSU.format(ports, WRITES) + PIO for ports in (4, 8))
KEYS = 'at 0 keys 08 30\nsteps 3\n'
# LIS 1; OUTS 10; EI; BR to itself; and EI, POP at 0100 and 0180, where the 3861 leads.
ROUTINE = '1B1C'.ljust(0x100, 'F')
CALLED = ('format = 2\n' + PIO + 'vector = 0x0100\ninterrupt = true\n' + PSU.format(4, '71BA1B90FF'.ljust(0x200, 'F') + ROUTINE * 2))
PULSE = 'at 1 pulse 0\nframes 2\n'
CONFLICT = 'stop conflict romc 1A socket 0 at 0008 socket 14 at 0008'
TRACED = '''bus 1C S 00 -
bus 08 L 00 cpu
bus 00 S A8 0
bus 1C L 08 cpu
bus 1B L 30 14
bus 10 L 00 -
bus 1C S 00 -
bus 0F L 80 14
bus 13 L 01 14
bus 00 S FF 0
'''


@needs_toml
class Known(Room):
    """What is known of it without the program."""

    def test_a_chip_with_ports_alone(self):
        psu, pio = described(HAS_THE_PORT).chips
        self.assertEqual((pio.kind, pio.socket, pio.name, pio.ports, pio.data_ports), (Kind.PIO, 14, '14: 3861', range(8, 12), range(8, 10)))
        self.assertEqual((pio.spaces, pio.bytes, pio.fill, pio.start), ((), {}, None, None))
        self.assertEqual([copies.socket for copies in Rack.of([psu, pio], 0).chips], [0])
        self.assertEqual((power_on(psu), power_on(pio)), ('by the power-on byte', 'no RAM, no counters'))
        self.assertEqual([kind.first_socket for kind in Kind], [0, 12, 14])
        self.assertEqual(described(CALLED).chips[0].vectors, (0x0100, 0x0180))

    def test_verdicts(self):
        for cart, line in ((HAS_THE_PORT, 'whole 4'), (SHARES_THE_PORT, 'refused 0002 ---- . 9'), (CALLED, 'whole 9')):
            self.assertEqual(searched(described(cart)).line(), line)
        said = '\n'.join(told(searched(described(SHARES_THE_PORT)), Names(), 8))
        self.assertIn('Reason 9: OUTS 8 writes to port 08, which chip 0 and chip 1 have.', said)

    def test_steps_that_it_drives(self):
        """It has no column of counters, and is told where it drives."""
        self.put('cart.toml', HAS_THE_PORT)
        lines = call('trace', '--cart', 'cart.toml', stdin=TRACED, cwd=self.room).text.splitlines()
        self.assertTrue(lines[0].endswith(' 0: 3851 at 0000'), lines[0])
        for line in ('      5  1B L  30  14     port 08  0001 0000 0000 0000  .     .     .',
                     '      8  0F L  80  14              0080 0001 0000 0000  .     .     .'):
            self.assertIn(line, [line.rstrip() for line in lines])

    def test_it_has_no_part_in_a_step_of_memory(self):
        chips = described(HAS_THE_PORT).chips
        rack = Rack.of(chips, 0)
        rack.chips[0].counters[PC0] = 0x0400
        fault = Fault('stop undriven romc 00 at 0400', Step(FETCH, False, None, ''), PC0, 0x0400, rack, chips)
        self.assertEqual([(part.role, part.words) for part in fault.parts()], [(Role.QUIET, "keeps off the bus: doesn't hold 0400")] * 2)
        self.assertEqual(rack_drawing(fault).count('its own PC0'), 1)

    def explained(self, line: str, cart: str) -> str:
        return call('explain', '--cart', self.put('cart.toml', cart), stdin=line + '\n', cwd=self.room).told

    def test_a_port_of_two_chips(self):
        said = self.explained(CONFLICT, SHARES_THE_PORT)
        self.assertIn('Socket 14 has chip 1 of the description, the 3861; it has the port 0008.\nTwo chips have the same port', said)
        self.assertIn('Warning: chip 0, the 3851, and chip 1, the 3861, have the ports 08 to 0B in common.', said)
        self.assertIn('give each 3851 and 3861 `ports` of its own', said)

    def test_keys(self):
        said = self.explained('error cart chip 0 key ? cause 2', 'format = 2\n' + PIO + 'base = 0\n')
        self.assertIn('`base` is no key of a 3861, but of a 3851. The keys of a 3861 are kind, ports, vector, interrupt. '
                      'A 3861 has neither memory nor counters.', said)
        said = self.explained('error cart chip 0 key ports cause 5', 'format = 2\n' + PIO.replace('ports = 8', 'ports = 9'))
        self.assertIn('The rule for `ports`: the first of four ports: 4 to 252, a multiple of 4.', said)
        self.assertIn('The nearest that fit: 8 and 12.', said)

    def test_kinds(self):
        kind = 'error cart chip 0 key kind cause 4'
        self.assertIn('A 3861 is a chip of format 2: begin with `format = 2`.', self.explained(kind, 'format = 1\n' + PIO))
        for format, kinds in ((1, '`"3851"` and `"3853"`'), (2, '`"3851"`, `"3853"` and `"3861"`')):
            self.assertIn(f'The kinds of format {format} are {kinds}.', self.explained(kind, f'format = {format}\n' + PIO.replace('3861', '3850')))

    def test_too_many(self):
        said = self.explained('error sockets 3861 need 3 have 2', 'format = 2\n' + PIO * 3)
        self.assertIn('3 chips of a kind are wanted, and the rack has 2 sockets for them', said)
        self.assertIn('The chips 0, 1 and 2 of the description are of the kind 3861.', said)


@needs_program
@needs_toml
class Played(Room):
    def lines(self, command: str, cart: str, script: str = '') -> tuple[list[str], int]:
        files = [self.put('cart.toml', cart), *([self.put('script.txt', script)] if script else [])]
        done = self.program.run(*command.split(), *files)
        return [line for line in done.lines if line[:1] != 's' or line.startswith('stop')], done.status

    def test_its_pulse(self):
        end = ['stop done', 'regs P=0003 P1=0003 D0=0000 D1=0000 A=01 IS=00 W=10', 'total 4261 instructions 59664 phi']
        traced = self.lines('play --trace', CALLED, PULSE)[0]
        self.assertEqual([line for line in traced if line.endswith(' 14')], ['bus 0F L 80 14', 'bus 13 L 01 14'])
        self.assertEqual(self.lines('ref', CALLED, PULSE), (['out 34 0A 01', *end], 0))

    def test_the_debugger_shows_it_without_counters(self):
        cart = 'format = 2\n' + PSU.format(4, '2B90FE') + PIO
        self.assertIn('chip 14 3861', list(prompt_of(self.room / self.put('cart.toml', cart)).carry_out('chips')))

    def test_the_rack_has_two_sockets_for_it(self):
        psus, smis, pios = (chip * (most + 1) for chip, most in ((PSU.format(4, ''), 12), (SMI, 2), (PIO, 2)))
        for chips, line in ((psus + smis, '3851 need 13 have 12'), (smis + pios, '3853 need 3 have 2'), (pios, '3861 need 3 have 2')):
            self.assertEqual(self.lines('play', 'format = 2\n' + chips, KEYS), ([f'error sockets {line}'], 2))

    def test_faults_in_their_order(self):
        for keys, fault in (('', 'ports cause 1'), ('ports = 8\nbase = 0\n', '? cause 2'), ('ports = 256\n', 'ports cause 4'),
                            ('ports = 9\nvector = -1\n', 'ports cause 5'), ('ports = 8\nvector = 65536\ninterrupt = 1\n', 'vector cause 4'),
                            ('ports = 8\ninterrupt = 1\n', 'interrupt cause 3'), ('start = 0\n', '? cause 2')):
            cart = f'format = 2\n[[chip]]\nkind = "3861"\n{keys}'
            self.assertEqual(self.lines('check', cart), ([f'error cart chip 0 key {fault}'], 2))
        self.assertEqual(self.lines('check', 'format = 1\n' + PIO), (['error cart chip 0 key kind cause 4'], 2))

    def test_the_page_of_a_fault(self):
        files = [str(self.room / self.put(name, text)) for name, text in (('cart.toml', SHARES_THE_PORT), ('script.txt', KEYS))]
        description = Description.read(files[0], self.program)
        fault = Fault.of(CONFLICT, followed(self.program, *files, description, 0, CONFLICT, Names()), description)
        self.assertEqual([(part.role, part.words) for part in fault.parts()], [(Role.WRONG, 'has port 08: takes')] * 2)
        self.assertIn('Socket 14, a 3861, has port 08: takes.', rack_drawing(fault))


if __name__ == '__main__':
    unittest.main()
