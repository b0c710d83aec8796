"""Modules that were worked out by hand, linked alone, by two and by three: what is written, or the first fault of a text or of a plan.
`test_linking` has more, and compares the program with another linker."""
from __future__ import annotations

import unittest

from tool import needs_program
from rooms import Room

# The text of a module and its first address, and what is written.
ALONE = [
    ('', 0, []), (' BR $410', 0x400, ['0400 900F']), (' BR $410', 0x300, 'error link module 0 cause 5'),
    ('X: DW X+65535', 0, ['0000 FFFF']),
    ('X: DW X+65535', 1, 'error link module 0 cause 5'), (' EXPORT X\nX: EQU 7', 9, ['sym X 7']),
    (' EXPORT X\n NOP\nX:', 9, ['0009 2B', 'sym X 10']),
    (' EXPORT X,X\nX: EQU 7', 0, 'error link module 0 cause 1'), (' IMPORT X', 0, 'error link module 0 cause 2'),
    (' IMPORT X\n EXPORT Y\nY: DB X', 0, 'error link module 0 cause 2'), (' NOP\n NOP', 0xFFFF, 'error link module 0 cause 3'),
]
BRANCH = (' IMPORT X\n BR X', 0, 0xFF)
HALVES = ' IMPORT X\n DB <(X+65535),>(X+65535)'
MOST, BEYOND, ZERO = (f' EXPORT X\nX: EQU {value}' for value in (4294901760, 4294901761, 0))
# Texts with the first and the last address of their rooms, and what is written.
TOGETHER = [
    ([BRANCH, (' EXPORT X\nX: POP', 128, 0xFF)], ['0000 907F', '0080 1C', 'sym X 128']),
    ([BRANCH, (' EXPORT X\nX: POP', 129, 0xFF)], 'error link module 0 cause 5'),
    *(([(text, 0, 0xFF), (export, 0, 0xFF)], told) for text, export, told in (
        (HALVES, MOST, ['0000 FFFF', 'sym X 4294901760']), (HALVES, BEYOND, 'error link module 0 cause 5'),
        (' IMPORT X\n DB <(X-1)', ZERO, 'error link module 0 cause 5'), (' IMPORT X\n DB X-1', ZERO, ['0000 FF', 'sym X 0']),
        (' IMPORT X\n DW <X,X-3', ZERO, 'error link module 0 cause 5'),
        (' IMPORT X\n DW <(X+258),>(X+258)', ZERO, ['0000 00020001', 'sym X 0']))),
    # each cause over all modules before the next
    ([(' DB 1', 0, 0), (' DB 1', 0, 0), (' DB 1,2', 5, 5)], 'error link module 2 cause 3'),
    ([(' DB 1', 0, 0), (' DB 1', 0, 0), (' DB 1,2', 5, 6)], 'error link module 1 cause 4'),
    # a name of its own in each module
    ([('X: DB 1\n DW X', 0, 0xFF), ('X: DB 2\n DW X', 0x10, 0xFF), (' EXPORT X\nX: DB 3\n DW X', 0x20, 0xFF)],
     ['0000 010000', '0010 020010', '0020 030020', 'sym X 32']),
]
# The text of a module, and the line, the column and the cause of its first fault.
FAULTS = {
    ' IMPORT X\n DB X*2': (2, 5, 12), ' IMPORT X\n DB <X,>X+0': (2, 8, 12), ' IMPORT X\nY: EQU Z+X': (2, 8, 12),
    ' IMPORT X\n LIS X': (2, 6, 12), ' IMPORT X\n IN <X': (2, 5, 12), 'X: EQU .': (1, 8, 12), ' DW 0-X\nX:': (1, 5, 12),
    'X: DB X+65536': (1, 7, 6), ' IMPORT X\n BR <X': (2, 5, 12), ' IMPORT X\n DB 1/0+X*2': (2, 5, 6), ' IMPORT X\n DB X*2+Z': (2, 9, 5),
    ' IMPORT X\n DB X*2+Q': (2, 9, 11), ' BR .+129': (1, 5, 7), ' BR .-128': (1, 5, 7), ' DB Z\nY: EQU Z': (2, 8, 5),
    ' IMPORT X,X': (1, 11, 4), ' IMPORT X\nX: NOP': (2, 1, 4), ' EXPORT X': (1, 9, 5), ' EXPORT X\n IMPORT X': (1, 9, 5),
    ' IMPORT X\n EXPORT X': (2, 9, 5), 'export x\nX: NOP': (1, 8, 5), ' IMPORT X,X,5': (1, 11, 4), ' IMPORT X,5,X': (1, 11, 11),
    ' IMPORT X,': (1, 11, 11), ' IMPORT A': (1, 9, 11), ' EXPORT import': (1, 9, 11), ' IMPORT': (1, 8, 11), ' IMPORT 5': (1, 9, 11),
    ' IMPORT X Y': (1, 11, 11), 'X: EXPORT Y': (1, 4, 11), 'EXPORT: NOP': (1, 7, 11), ' DB EXPORT': (1, 5, 11), ' ORG 5': (1, 2, 11),
    ' DB 1,,EXPORT': (1, 7, 11),
}
WORDS = ' DW ' + ','.join('0' * 16) + '\n'  # 32 bytes
# So many such lines and a rest: how many bytes are written, and the names; or the first fault.
LONG = [(2_047, 'X: DW X\n PI X', (65_509, [])), (2_048, 'X: EQU 5', (65_536, [])), (2_048, 'X:\n EXPORT X', (65_536, ['sym X 65536'])),
        (2_048, 'X:\nY: EQU X-X', 'error module 0 line 2050 column 8 cause 6'),
        (2_048, 'X: DB X', 'error module 0 line 2049 column 4 cause 8')]
# Plans at fault. Others stand in test_linking.
PLANS = [
    ('module a 0000 03FF\n\nmodules b 0000 03FF\n', 3, 1), ('module a b', 1, 1), ('module  0000 03FF', 1, 1), ('module a 0000\t03FF', 1, 1),
    ('module a 0000 03F', 1, 2), ('module a 0x00 03FF', 1, 2), ('module a 0000 03FF\n' * 64 + 'module a 0001 0000', 65, 3),
    ('module a 0000 03FF\n' * 63 + 'module a 0000', 64, 1),
]


@needs_program
class Modules(Room):
    def linked(self, plan: str, *texts: str) -> tuple[int, list[str]]:
        for number, text in enumerate(texts):
            self.put(str(number), text)
        done = self.program.run('link', self.put('plan', plan))
        return done.status, done.lines

    def assert_linked(self, modules: list[tuple[str, int, int]], told: list[str] | str) -> None:
        plan = ''.join(f'module {number} {first:04X} {last:04X}\n' for number, (_, first, last) in enumerate(modules))
        self.assertEqual(self.linked(plan, *(text for text, _, _ in modules)), (2, [told]) if isinstance(told, str) else (0, told))

    def test_modules_alone(self):
        for text, first, told in ALONE:
            with self.subTest(text, first=first):
                self.assert_linked([(text, first, 0xFFFF)], told)

    def test_modules_together(self):
        for modules, told in TOGETHER:
            with self.subTest(modules):
                self.assert_linked(modules, told)

    def test_faults_of_texts(self):
        for text, (line, column, cause) in FAULTS.items():
            with self.subTest(text):
                self.assert_linked([(text, 0, 0xFFFF)], f'error module 0 line {line} column {column} cause {cause}')

    def test_long_modules(self):
        for count, rest, told in LONG:
            with self.subTest(rest):
                status, lines = self.linked('module 0 0000 FFFF', WORDS * count + rest)
                digits = sum(len(line) - 5 for line in lines if not line.startswith('sym'))
                names = [line for line in lines if line.startswith('sym')]
                self.assertEqual(lines[0] if status else (digits // 2, names), told)

    def test_plans_at_fault(self):
        for plan, line, cause in PLANS:
            with self.subTest(plan):
                self.assertEqual(self.linked(plan), (2, [f'error plan line {line} cause {cause}']))

    def test_a_comment_behind_64_modules(self):
        self.put('a', '')
        self.assertEqual(self.linked('module a 0000 03FF\n' * 64 + '# the last\n'), (0, []))


if __name__ == '__main__':
    unittest.main()
