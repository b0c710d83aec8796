"""Random modules with a plan, for trials of `link`: most go together, and in the others one thing is wrong."""
from __future__ import annotations

from random import Random

ENDS = (0, 1, 127, 128, 255, 256, 65_535, 65_536, 2 ** 31, 4_294_901_760, 4_294_901_761, 4_294_967_295)
NOT_PLACED = ('NOP', 'CLR', 'LR A,3', 'LR 5,A', 'LR K,P', 'DS J', 'LIS 7', 'SL 4', 'INS 0', 'OUTS 4', 'IN 32', 'OUT $FF', 'AS S', 'lm', 'POP')
# Lines in which something is wrong, at most places where it may be. {0} and {1} are names.
ODD = (' DB {0}*2', ' DB 2-{0}', ' DB -{0}', ' DB {0}+{1}', ' DB <{0}+0', ' DB <(<{0})', ' BR <{0}', ' BR {0}*2', ' LIS {0}', ' IN <{0}', ' DS {0}',
       ' BT {0},.', ' BT 8,{0}', ' LI 256', ' DW -1', ' DB 1/0+{0}*2', ' DB {0}*2+NOBODY', ' DB NOBODY+1/0', ' DB {0}+65535,{0}+65536', ' DW {0}-70000',
       'ODD: EQU {0}', 'ODD: EQU {0}-{0}', 'ODD: EQU .', 'ODD: EQU NOBODY+{0}', '{0}: NOP', ' EQU 5', ' ORG 5', ' org {0}', '{0}: EXPORT {1}', 'EXPORT: NOP',
       ' DB EXPORT', ' DB 1,,IMPORT', ' FOO ORG', ' DB org,2,', ' EXPORT', ' EXPORT NOBODY', ' EXPORT {0},{0}', ' EXPORT {0},', ' EXPORT {0} {1}',
       ' EXPORT 5', ' EXPORT LI', ' EXPORT Import', ' IMPORT NOBODY,NOBODY', ' IMPORT NOBODY', ' IMPORT {0}', ' IMPORT .', ' FOO', ' A', '?', " LI 'A",
       ' LR A,A', ' LI', ' DB 1,', ' DB (1', ' DB ' + '(' * 64 + '-1' + ')' * 64, ' DB 1 2', ' DB 5000000000', ' BR .+200', ' BR 5', ' DB 0-1/2')


class Modules:
    """A plan with its modules. Each shared name is exported by one of them, and the others may import it."""

    def __init__(self, seed: int):
        self.random = Random(seed)
        self.count = self.random.choice((1, 2, 2, 3, 4))
        self.shared = [f'S{number}' for number in range(self.random.randrange(5))]
        self.owner = {name: self.random.randrange(self.count) for name in self.shared}
        self.files = {f'm{number}': self.text(number).encode() for number in range(self.count)}
        self.files['plan'] = self.plan().encode()

    def is_rare(self, chances: int = 25) -> bool:
        return self.random.randrange(chances) == 0

    # ---- plans

    def plan(self) -> str:
        lines, first = [], self.random.choice((0, 0, 0, 7, 0x400, 0x7F80, 0xFF00))
        for number in range(self.count):
            last = first + self.random.choice((0x3F, 0x3F, 0x3F, 0xFF, 9 if self.is_rare(8) else 0x3F))
            lines.append(f'module m{number} {min(first, 0xFFFF):04x} {min(last, 0xFFFF):04X}')
            first += self.random.choice((0x40, 0x40, 0x40, 0x48, 4 if self.is_rare(3) else 0x40))
        if self.is_rare(8):
            self.random.shuffle(lines)
        if self.is_rare():
            lines.insert(self.random.randrange(len(lines) + 1), self.random.choice(
                ('', '# more', ' \t', 'module m0 0000', 'module m0 000 00FF', 'module m0 0200 01FF', 'module nobody 0000 00FF', ' module m0 0000 00FF')))
        return '\n'.join(lines) + '\n' * (not self.is_rare())

    # ---- texts

    def text(self, number: int) -> str:
        own = [f'L{place}' for place in range(self.random.randrange(4))]
        exported = [name for name in self.shared if self.owner[name] == number or self.is_rare(40)]
        imported = [name for name in self.shared if name not in exported and not self.is_rare(3)] + ['NOBODY'] * self.is_rare(60)
        names = own + exported + imported
        lines = [self.statement(names) for _ in range(self.random.randrange(8))]
        for name in own + exported:
            lines.insert(self.random.randrange(len(lines) + 1), self.definition(name))
        for word, given in (('EXPORT', exported), ('IMPORT', imported)):
            for part in (given[:1], given[1:]):
                lines.insert(self.random.randrange(len(lines) + 1), f' {word} {",".join(part)} ; shared' if part else '')
        if self.is_rare(8):
            odd = self.random.choice(ODD).format(*(self.random.choice(names or ['NOBODY']) for _ in range(2)))
            lines.insert(self.random.randrange(len(lines) + 1), odd)
        end = self.random.choice(('\n', '\n', '\r\n'))
        return end.join(lines) + end * (not self.is_rare(5))

    def definition(self, name: str) -> str:
        value = self.random.choice(ENDS if self.is_rare(12) else (self.random.randrange(256), 'L0-L0' if self.is_rare(8) else 3))
        return f'{name}: EQU {value}' if self.is_rare(4) else f'{name}: {self.random.choice(("", "NOP", "DB 1,2", "PI .", "BR ."))}'

    def statement(self, names: list[str]) -> str:
        pick = self.random.choice
        name = pick(names) if names else '.'
        return ' ' + pick((
            lambda: pick(NOT_PLACED), lambda: f'DB {self.byte(name)},{self.byte(name)},{pick(range(256))}', lambda: f'DW {self.word(name)},{self.word(pick(names or ["."]))}',
            lambda: f'LI {self.byte(name)}', lambda: f'{pick(("PI", "JMP", "DCI"))} {self.word(name)}', lambda: f'{pick(("PI", "JMP", "DCI"))} {self.word(name)}',
            lambda: f'{pick(("BR", "BNZ", "BT 4,", "BF 9,", "BR7"))} {self.place(names)}', lambda: f'DB {pick(names) if names and self.is_rare(12) else name}-{name}+{pick((0, 1, 200))}'))()

    def number(self) -> str:
        return str(self.random.choice((*range(8), *((255, 65_535, 65_534) if self.is_rare(8) else ()))))

    def moved(self, name: str) -> str:
        number = self.number()
        return self.random.choice((name, f'{name}+{number}', f'{number}+{name}', f'{name}-{number}'))

    def byte(self, name: str) -> str:
        return self.random.choice((f'<{name}', f'>{name}', f'<({self.moved(name)})', f'(>({self.moved(name)}))', name if self.is_rare(12) else f'<{name}'))

    def word(self, name: str) -> str:
        return self.random.choice((self.moved(name), self.moved(name), f'<{name}', f'>({self.moved(name)})'))

    def place(self, names: list[str]) -> str:
        own = [name for name in names if name.startswith('L')]
        return self.random.choice((*own, *own, '.', '.+5', *(names if self.is_rare(4) else ()), *(('5', '$0410') if self.is_rare(8) else ())))
