"""The files of a command, the places in them, and what a file looks like."""
from __future__ import annotations

import re
from dataclasses import dataclass, field
from enum import Enum
from functools import cached_property
from pathlib import Path

from companion.assembly import ASM_LINE
from companion.calls import Reach
from companion.description import Description
from companion.names import Names
from companion.page_tables import forms_of, mnemonics
from companion.plans import Planned, planned
from companion.program import Program

COMMANDS = ('play', 'debug', 'check', 'verify', 'prove', 'confirm', 'migrate', 'ref', 'asm', 'link', 'dis', 'gen', 'audit')
NAMES = ('cart', 'script', 'commands', 'cert', 'cases', 'file', 'plan', 'trace')
FILES_OF = {'play': ('cart', 'script'), 'debug': ('cart', 'commands'), 'ref': ('cart', 'script'), 'check': ('cart',), 'verify': ('cart', 'cert'),
            'prove': ('cart',), 'confirm': ('cart', 'cases'), 'migrate': ('cart',), 'link': ('plan',), 'audit': ('cart', 'script', 'trace')}
FEWEST_DIGITS = 16  # of a file of digits, which a short word like BC would be too
MOST_OF = 0.7  # of the lines of a script or of commands have a word of theirs in front
SHOWN = 140  # characters of a line, at most


class Sort(Enum):
    """What a file looks like, with what is said of it in the place of another one."""
    NOTHING = 'This file is empty.'
    DESCRIPTION = 'This is a description of a cartridge: it is the first file after `play`, `ref`, `debug`, `check`, `verify`, `prove`, `confirm`, ' \
                  '`migrate` and `audit`.'
    SCRIPT = 'This is a script: it is the second file after `play`, `ref` and `audit`, behind the description.'
    COMMANDS = 'These are commands of the debugger: they are the second file after `debug`, behind the description.'
    CERTIFICATE = 'This is a certificate: it is the second file after `verify`, behind the description.'
    CASES = 'This is a list of cases: it is the second file after `confirm`, behind the description.'
    TRACE = 'This is a trace, as `play --trace` prints it: it is the third file after `audit`, behind description and script.'
    PLAN = 'This is a plan of modules: it is the file after `link`.'
    ASSEMBLY = 'This is an assembly text. A description names it: `source = "{name}"` below a `[[chip]]` with `kind`, `base` and `ports`.'
    ASM_LINES = 'These are lines of `asm`, with addresses in front: tools/disassembly and tools/describe read them.'
    DIGITS = 'These are digits, for `dis`. In a description they stand in quotes: `rom = "{digits}"`.'
    BINARY = 'This is a binary file: tools/describe makes a description of it, and tools/disassembly a text.'
    OTHER = ''


def share(found: list[str], known: set[str]) -> float:
    """How many of some words are known ones."""
    return sum(word in known for word in found) / max(len(found), 1)


def statements(lines: list[str]) -> list[str]:
    """The words in the place of a mnemonic, behind a label, in capitals."""
    return [re.match(r'\s*(?:[A-Za-z_.]\w*\s*:)?\s*([\w.]*)', line)[1].upper() for line in lines]


def sort_of(data: bytes) -> Sort:
    """What the bytes of a file look like."""
    if data.startswith(b'F8CERT '):
        return Sort.CERTIFICATE
    if data.startswith(b'F8CASES '):
        return Sort.CASES
    if re.search(rb'[\0-\x08\x0e-\x1f]', data):
        return Sort.BINARY
    lines = [line.rstrip() for line in data.decode('utf-8', 'replace').lstrip('\ufeff').splitlines() if line.strip()]
    if not lines:
        return Sort.NOTHING
    if all(ASM_LINE.fullmatch(line.encode()) for line in lines):
        return Sort.ASM_LINES
    digits = ''.join(''.join(lines).split())
    if len(digits) >= FEWEST_DIGITS and not re.search('[^0-9A-Fa-f]', digits):
        return Sort.DIGITS
    if any(re.match(r'\s*(\[\[\s*chip\s*\]\]|format\s*=)', line) for line in lines):
        return Sort.DESCRIPTION
    firsts = [line.split()[0] for line in lines if not line.lstrip().startswith('#')]
    if share(firsts, {'bus'}) > 0.5:
        return Sort.TRACE
    for sort, section in ((Sort.SCRIPT, 'Script'), (Sort.COMMANDS, 'Debugger'), (Sort.PLAN, 'Plan')):
        if share(firsts, {form.split()[0] for form in forms_of(section)}) > MOST_OF:
            return sort
    code = [line for line in lines if not line.lstrip().startswith((';', '*'))]
    return Sort.ASSEMBLY if share(statements(code), mnemonics()) > 0.5 else Sort.OTHER


def shown_line(raw: bytes, column: int) -> list[str]:
    """A line with a caret below the byte of a column, counted from 1: a part of it, where it is long. 0 is for no caret."""
    text, before = raw.decode('utf-8', 'replace'), raw[:max(column - 1, 0)].decode('utf-8', 'replace')
    start = max(0, len(before) - SHOWN // 2) if len(text) > SHOWN else 0
    part = ''.join(char if char.isprintable() or char == '\t' else '\N{REPLACEMENT CHARACTER}' for char in text[start:start + SHOWN])
    lead = '..' * (start > 0)
    caret = ['    ' + ' ' * len(lead) + re.sub(r'[^\t]', ' ', part[:len(before) - start]) + '^'] if column else []
    return [f'    {lead}{part}' + '..' * (start + SHOWN < len(text)), *caret]


@dataclass
class Files:
    """The words of a command, by which the files of a refusal are found. Lines of a pipe have only those that were named."""
    words: list[str] = field(default_factory=list)
    names: dict[str, str] = field(default_factory=dict)
    name_files: list[str] = field(default_factory=list)  # of --names

    @classmethod
    def of(cls, words: list[str], name_files: list[str] | None = None) -> Files:
        at = cls.command_at(words)
        plain = [word for word in words[at + 1:] if not (len(word) > 1 and word.startswith('-'))]
        keys = FILES_OF.get(words[at] if at < len(words) else '', ('file',))
        return cls(words, dict(zip(keys, plain)), name_files or [])

    @staticmethod
    def command_at(words: list[str]) -> int:
        return next((n for n, word in enumerate(words) if n and word in COMMANDS), len(words))

    @property
    def command(self) -> str:
        return next(iter(self.words[self.command_at(self.words):]), '')

    @cached_property
    def description(self) -> Description:
        """The description as far as TOML's reader takes it."""
        return Description.of(self.read('cart') or b'', self.path('cart'))

    @cached_property
    def cartridge(self) -> Description:
        """The same with the bytes and texts of its chips, where the program takes it."""
        program = Program.at_hand(self.words[:self.command_at(self.words)])
        return Description.at_hand(self.path('cart'), program) if self.path('cart') else Description('')

    @cached_property
    def modules(self) -> list[Planned]:
        """The modules of the plan, as far as its lines are in order."""
        return planned(self.read('plan') or b'')

    @cached_property
    def labels(self) -> Names:
        return Names.of(self.cartridge, self.name_files)

    @cached_property
    def reach(self) -> Reach:
        return Reach.of(self.cartridge)

    def path(self, what: str) -> str:
        """The name of the file that a refusal calls cart, script, commands, cert, cases, file, plan, trace, source I or module I."""
        if what.startswith('module '):
            return next((module.file for module in self.modules if module.number == int(what[7:])), '')
        if what.startswith('source '):
            tables, number = self.description.tables, int(what[7:])
            return str(tables[number].get('source', '')) if number < len(tables) else ''
        return self.names.get(what, '')

    def read(self, what: str) -> bytes | None:
        try:
            return Path(self.path(what)).read_bytes() if self.path(what) else None
        except (OSError, ValueError):
            return None

    def looks_like(self, what: str, *expected: Sort) -> list[str]:
        """What a file is, where it is none of those that are expected in its place."""
        data = self.read(what)
        sort = sort_of(data) if data is not None else Sort.OTHER
        if sort in (*expected, Sort.OTHER) or data is None:
            return []
        return [sort.value.format(name=self.path(what), digits=data[:8].decode('ascii', 'replace').strip() + '..')]

    def line(self, what: str, number: int, column: int = 0) -> tuple[list[str], str]:
        """The place of a fault as lines to show, and the text of its line."""
        data = self.read(what)
        at = f'{self.path(what) or what}, line {number}' + (f', column {column}' if column else '')
        lines = data.split(b'\n') if data is not None else []
        if not 1 <= number <= len(lines):
            return [at], ''
        raw = lines[number - 1].removesuffix(b'\r')
        return [at, *shown_line(raw, column)], raw.decode('utf-8', 'replace')
