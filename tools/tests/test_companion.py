from __future__ import annotations

import os
import signal
import subprocess
import sys
import tempfile
import time
import unittest
from pathlib import Path
from unittest import mock

import tool
from companion.calls import Reach
from companion.description import Description, Holding, Kind
from companion.instructions import OPCODES, Operand, decode
from companion.names import Names
from companion.places import Name
from companion.program import Fault, Program
from companion.words import Refused
from tool import needs_program

PROGRAM = Program((str(tool.PROGRAM),))
needs_toml = unittest.skipUnless(sys.version_info >= (3, 11), 'Python before 3.11 has no reader of TOML')

# A routine at 0010 that keeps K on the way to one at 0020, which comes back by PK; code behind it at 0030 is never reached.
NESTED = """
        DCI MAIN        ; the EQU below has the value of no place
ONE:    EQU 1
MAIN:   PI OUTER
        BR MAIN
        ORG $10
OUTER:  LR K,P
        LI ONE
        PI INNER
        PK
        ORG $20
INNER:  LR K,P
        BR BACK
        ORG $30
        NOP
BACK:   PK
"""
# What dasm 2.20 writes of one text with -s and with -l.
SYMBOLS = """--- Symbol List (sorted by symbol)
0.loop                   0804              (R )
COLS                     0004              (R )
main                     0802                  
--- End of Symbol List.
"""
LISTING = """------- FILE t.asm LEVEL 1 PASS 2
      1  080c\t\t       00 04\t   COLS       equ\t$04
      2  0800\t\t\t\t\t      org\t$0800
      3  0802\t\t\t\t   main
      4  0802\t\t       20 04\t\t      li\tCOLS
      5  0804\t\t       50\t   .loop      lr\t0,a\t; kept
      6  0805\t\t       28 08 0a \t      pi\tsub
      7 U0040\t\t       00\t   x          byte
      8  0808\t\t       01 02 03 04*data       db.b\t1,2,3,4,5,6,7,8,9,10
      0  0812\t\t\t\t\t      twice
      1  0812\t\t       2b\t\t      nop
     10  0813\t\t       0c\t   sub        pk
"""
# What tools/listing writes.
OWN_LISTING = """    1        = 03               COUNT: EQU 3
    2  0400                      ORG $0400
    3  0400  20 03              LOOP: LI COUNT ; kept
    4
    5  0402  90 FD               BR LOOP
    6  0404                     ALONE:
    7  0404  01 02 03 04 05 06   DB 1,2,3,4,5,6,7
       040A  07

COUNT    03       3  line    1  used 3
LOOP    400    1024  line    3  used 5
ALONE   404    1028  line    6  used -
"""


class Instructions(unittest.TestCase):
    @needs_program
    def test_names_and_operands_are_those_of_the_program(self):
        known = [opcode for opcode in OPCODES if not opcode.is_reserved]
        digits = '\n'.join(f'{opcode.code:02X}' + '01' * opcode.operand.size for opcode in known)
        lines = PROGRAM.on_text('dis', digits.encode()).lines[1:]
        self.assertEqual(len(lines), len(known))
        for line, opcode in zip(lines, known):
            behind = line[len(opcode.name):]
            self.assertEqual(line[:len(opcode.name)], opcode.name)
            self.assertEqual(behind[:2], {Operand.NONE: '', Operand.OFFSET: behind[:1] + '$'}.get(opcode.operand, ' $')[:2], opcode)

    def test_an_instruction_at_the_end_of_memory(self):
        self.assertEqual([decode(bytes(data), 0xFFFE).text() for data in ([0x90, 0x81], [0x84, 0xFE], [0x28, 8], [0x53], [0xFF])],
                         ['BR $FF80', 'BZ $FFFD', 'PI', 'LR 3,A', 'reserved FF'])
        self.assertEqual(decode(b'\x28\x08\x00', 0xFFFE).text('SUB'), 'PI SUB')
        self.assertEqual(decode(b'\x8f\x02', 0xFFFE).next, 0)


class Room(unittest.TestCase):
    """A folder with files, for descriptions whose sources are named by their paths."""

    def setUp(self):
        room = tempfile.TemporaryDirectory()
        self.addCleanup(room.cleanup)
        self.room = Path(room.name)

    def put(self, name: str, text: str) -> Path:
        (self.room / name).write_text(text)
        return self.room / name

    def nested(self) -> Description:
        path = self.put('n.f8', NESTED)
        return Description.read(self.put('cart.toml', 'format = 1\n[[chip]]\nkind = "3853"\nram_page = 0x28\nram_pages = 2\n[[chip]]\n'
                                         f'kind = "3851"\nbase = 0\nports = 8\nsource = "{path}"\n'), PROGRAM)


@needs_program
@needs_toml
class Descriptions(Room):
    def test_chips_with_their_sockets_spaces_and_bytes(self):
        smi, psu = self.nested().chips
        self.assertEqual([(chip.kind, chip.socket, chip.ports, chip.name) for chip in (smi, psu)],
                         [(Kind.SMI, 12, range(12, 16), '12: 3853 at 2800'), (Kind.PSU, 0, range(8, 12), '0: 3851 at 0000')])
        self.assertEqual((smi.runs(Holding.RAM), smi.bytes, psu.rom), ((range(0x2800, 0x2A00),), {}, (range(1024),)))
        self.assertEqual([psu.bytes[at] for at in (0, 1, 2, 3, 4, 5, 6, 1023)], [0x2A, 0, 3, 0x28, 0, 0x10, 0x90, 0xFF])

    def test_addresses_of_two_chips_have_no_byte(self):
        chip = '[[chip]]\nkind = "3853"\nrom_page = {}\nrom_pages = 2\nrom = "2B"\n'
        found = Description.read(self.put('cart.toml', 'format = 1\n' + chip.format(0) + chip.format(1)), PROGRAM)
        self.assertEqual(sorted(found.memory()), [*range(0x100), *range(0x200, 0x300)])
        self.assertEqual([len(found.holders(at)) for at in (0, 0x100, 0x200, 0x300)], [1, 2, 1, 0])

    def test_what_the_program_refuses(self):
        for text, line in (('format = 3\n', 'error cart key format cause 4'), ('format', 'error cart toml')):
            with self.assertRaises(Fault) as raised:
                Description.read(self.put('cart.toml', text), PROGRAM)
            self.assertEqual(raised.exception.answer.last, line)

    def test_escapes_of_a_later_toml(self):
        text = r'''a = "\e\x41\\x" # \e
b = '\e"\x41' # "
c = """\x4A"\e""\"""" # '
d = "\n\x7a"
'''
        self.assertEqual(Description.of(text.encode()).values,
                         {'a': '\x1bA\\x', 'b': '\\e"\\x41', 'c': 'J"\x1b"""', 'd': '\nz'})

    def test_any_bytes(self):
        for data in (b'\xff', b'chip = 1', b'[[chip]]\nkind = ["3851"]', b'x = ' + b'1' * 5000, b'split = ' + b'[' * 2000):
            self.assertEqual(Description.of(data).chips, ())


class Files(Room):
    def names(self, text: str) -> Names:
        return Names.of(Description(''), [self.put('names', text)])

    def test_symbols_of_dasm(self):
        names = self.names(SYMBOLS)
        self.assertEqual([names.place(at) for at in (4, 0x802, 0x803, 0x805)], ['', 'main', 'main+1', '0.loop+1'])

    def test_a_listing_of_dasm(self):
        names = self.names(LISTING)
        self.assertEqual([names.place(at) for at in (0x0004, 0x40, 0x802, 0x804, 0x807, 0x811, 0x812, 0x813, 0x814)], [
            '', '', 'main, t.asm line 4: li COLS', 'main.loop, t.asm line 5: lr 0,a', 'main.loop+3, t.asm line 6: pi sub',
            'data+9, t.asm line 8: db.b 1,2,3,4,5,6,7,8,9,10', 'data+A, t.asm line 9: nop', 'sub, t.asm line 10: pk', ''])

    def test_a_listing_of_tools_listing(self):
        names = self.names(OWN_LISTING)
        self.assertEqual([names.place(at) for at in (0x0003, 0x0400, 0x0403, 0x0404, 0x040A, 0x040B)], [
            '', 'LOOP, names line 3: LI COUNT', 'LOOP+3, names line 5: BR LOOP', 'ALONE, names line 7: DB 1,2,3,4,5,6,7',
            'ALONE+6, names line 7: DB 1,2,3,4,5,6,7', ''])

    def test_lines_of_names(self):
        names = self.names('# mine\nstart 0\nWAIT = $0812 ; keys\n_x: 0x28FF\n\n')
        self.assertEqual([names.short(at) for at in (0, 0x813, 0x28FF)], ['start', 'WAIT+1', '_x'])
        self.assertEqual((names.value('WAIT'), names.value('wait')), (0x812, None))
        for text in ('start\n', 'x 10000\n', 'a b c\n'):
            with self.assertRaisesRegex(Refused, 'names, line 1: '):
                self.names(text)


@needs_program
@needs_toml
class Places(Room):
    def test_labels_lines_and_values_apart(self):
        names = Names.of(self.nested())
        self.assertEqual([names.full(at) for at in (0, 3, 4, 0x15, 0x31, 0x33, 0x2800)], [
            '0000 n.f8 line 2: DCI MAIN', '0003 MAIN, n.f8 line 4: PI OUTER', '0004 MAIN+1, n.f8 line 4: PI OUTER',
            '0015 OUTER+5, n.f8 line 9: PI INNER', '0031 BACK, n.f8 line 16: PK', '0033', '2800'])
        self.assertEqual([name.text for name in names.values], ['ONE'])

    def test_which_calls_lead_to_a_place(self):
        reach = Reach.of(self.nested())
        self.assertEqual([way.origin for way in reach.path(0x31)], [0x03, 0x13])
        self.assertEqual([reach.path(at) for at in (6, 0x30, 0x32)], [[], None, None])

    def test_labels_do_not_cross_chips(self):
        first, second = self.put('first.f8', 'FIRST: NOP\nBACK: EQU $0403\n'), self.put('second.f8', ' ORG $400\n NOP\nOTHER: NOP\n NOP\n')
        chip = '[[chip]]\nkind = "3851"\nbase = {}\nports = {}\n{}\n'
        path = self.put('cart.toml', 'format = 1\n' + chip.format(0, 4, f'source = "{first}"') + chip.format(0x400, 8, f'source = "{second}"')
                        + chip.format(0x800, 32, 'rom = "2B"'))
        names = Names.of(Description.read(path, PROGRAM), [self.put('names', 'END 0BFF\nGAME 0801\nAGAIN 0401\n')])
        self.assertEqual([names.short(at) for at in (0, 1, 0x400, 0x401, 0x402, 0x403, 0x800, 0x812)],
                         ['FIRST', '0001', '0400', 'OTHER', 'OTHER+1', '0403', '0800', 'GAME+11'])
        self.assertEqual((names.value('OTHER'), names.value('BACK')), (0x401, None))

    def test_instructions_with_names(self):
        names = Names(spaces=[range(0x400)])
        names.add(Name('LOOP', 0x10))
        for data, told in (('90FE', '0011 LOOP+1: BR LOOP'), ('280010', '0011 LOOP+1: PI LOOP'), ('2A0010', '0011 LOOP+1: DCI $0010'),
                           ('8402', '0011 LOOP+1: BZ $0014')):
            self.assertEqual(names.statement(decode(bytes.fromhex(data), 0x11)), told)
        self.assertEqual(names.statement(decode(b'\x0c', 0x400)), '0400 PK')

    def test_interrupts_are_entries_too(self):
        chip = '[[chip]]\nkind = "3851"\nbase = 0\nports = 4\nvector = 0x0020\nrom = "90FF"\ninterrupt = {}\n'
        for can_ask, entries in (('true', [0, 0x20, 0xA0]), ('false', [0])):
            description = Description.read(self.put('cart.toml', 'format = 1\n' + chip.format(can_ask)), PROGRAM)
            self.assertEqual(Reach.of(description).entries, entries)

    def test_the_fewest_calls_and_the_jumps_between(self):
        # 0000 PI 0010; PI 0050; PI 0020; BR itself.  0010 JMP 0030; 0020 POP; 0030 PI 0020; POP; 0050 PI 0010; PI 0060; POP; 0060 PI 0030; POP.
        code = {0x00: '28001028005028002090FF', 0x10: '290030', 0x20: '1C', 0x30: '2800201C', 0x50: '2800102800601C', 0x60: '2800301C'}
        memory = {at + n: byte for at, digits in code.items() for n, byte in enumerate(bytes.fromhex(digits))}
        reach = Reach(memory, [0])
        self.assertEqual([[way.origin for way in reach.path(at)] for at in (0x20, 0x33)], [[0x06], [0x00, 0x10]])
        self.assertEqual([reach.before(at) and reach.before(at).address for at in (0x03, 0x09, 0x33, 0x13, 0x21)], [0x00, 0x06, 0x30, None, None])

    def test_a_call_by_k_that_is_known(self):
        for code, calls in (('7004' '2020' '05' '0C', [5]), ('7004' '2020' '05' '08' '0C', None),  # with LR K,P, K isn't known any more
                            ('7004' '2020' '1F' '05' '0C', None), ('7006' '2020' '07' '0D', [5])):  # INC changes A; LR P0,Q leads by Q
            memory = {**dict(enumerate(bytes.fromhex(code))), 0x20: 0x1C}
            path = Reach(memory, [0]).path(0x20)
            self.assertEqual(path and [way.origin for way in path], calls)


def heed_interrupts() -> None:
    """What a shell ignores for jobs in the background stays ignored in all that they start."""
    signal.signal(signal.SIGINT, signal.SIG_DFL)


class Calls(unittest.TestCase):
    def test_only_a_program_that_answers_at_once_is_asked_for_names(self):
        with mock.patch.dict(os.environ, CHANNEL_F_PROGRAM='a b'):
            for words, program in ((['p', '--unproved'], ('a', 'b')), ([str(tool.TOP / 'channel_f')], ('a', 'b')), (['p', 'x'], ('p', 'x')),
                                   ([], ('a', 'b'))):
                self.assertEqual(Program.at_hand(words).words, program)

    def test_names_with_a_dash_are_marked(self):
        program = Program(('p',))
        self.assertEqual(program.call('check', '--cert', '-x'), ['p', 'check', '--cert', '--', '-x'])
        self.assertEqual(program.call('asm', '--x'), ['p', 'asm', '--', '--x'])
        self.assertEqual(program.call('play', 'x', '-'), ['p', 'play', '--', 'x', '-'])
        self.assertEqual(program.call('play', '--trace', 'x', 'y'), ['p', 'play', '--trace', 'x', 'y'])


class Ends(unittest.TestCase):
    """How a tool ends where its output or its user does."""

    def start(self, *words: object, **streams: object) -> subprocess.Popen:
        return subprocess.Popen([sys.executable, tool.TOOLS / 'explain', *map(str, words)], stderr=subprocess.PIPE, text=True,
                                env=tool.plain(), preexec_fn=heed_interrupts, **streams)

    def test_a_closed_pipe_is_silent(self):
        reader, writer = os.pipe()
        os.close(reader)
        with self.start(sys.executable, '-c', 'print("stop done")', stdout=writer) as process:
            os.close(writer)
            self.assertEqual(process.communicate(timeout=30)[1], '')
            self.assertEqual(process.returncode, -signal.SIGPIPE)

    def test_a_full_output_is_told_once(self):
        with open('/dev/full', 'wb') as full, self.start(sys.executable, '-c', 'print("stop done")', stdout=full) as process:
            self.assertRegex(process.communicate(timeout=30)[1], r'\Aexplain: No space left on device\n\Z')
            self.assertEqual(process.returncode, 1)

    def test_an_interrupt(self):
        with tempfile.TemporaryDirectory() as folder:
            begun = Path(folder) / 'begun'
            with self.start(sys.executable, '-c', f'open({str(begun)!r}, "w"); import time; time.sleep(2)', stdout=subprocess.PIPE) as process:
                while not begun.exists():
                    time.sleep(0.05)
                process.send_signal(signal.SIGINT)
                self.assertEqual((process.communicate(timeout=30)[1], process.returncode), ('', 130))

    def test_closed_streams(self):
        done = subprocess.run(['sh', '-c', f'exec {sys.executable} {tool.TOOLS}/explain error words <&- >&- 2>&-'])
        self.assertEqual(done.returncode, 0)


class Help(unittest.TestCase):
    def test_every_help_is_within_80_columns(self):
        for path in sorted(tool.TOOLS.iterdir()):
            if path.is_file() and path.suffix == '':
                done = tool.call(path.name, '--help')
                self.assertEqual((done.returncode, done.told), (0, ''), path)
                self.assertLessEqual(max(map(len, done.text.split('\n'))), 80, path)


if __name__ == '__main__':
    unittest.main()
