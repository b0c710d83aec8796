"""What `link` prints for a plan and its texts, worked out by other means than the program's; and the one source of modules as a text.

    python3 linked.py link PLAN

answers as the program does, so that a tool that calls it for `link` alone can be tried where the program isn't built.
"""
from __future__ import annotations

import re
import sys
from dataclasses import dataclass
from pathlib import Path
from typing import Iterator, Mapping, Optional

from modules import RESERVED, Fault, Fixup, Object, Placed, compiled, lines_of, tokens_of

TWICE, MISSING, OUTSIDE, OVERLAP, REACH = range(1, 6)
WORD, NUMBER, RANGE, TOO_MANY, NO_MODULE = range(1, 6)
MOST_MODULES = 64
LEAST_IMPORT, MOST_IMPORT = -2_147_418_113, 4_294_901_760
PLAN_BYTES, MODULE_BYTES = 65_536, 262_144


class Refused(Exception):
    """A line of refusal, with its status."""

    def __init__(self, line: str, status: int = 2):
        self.line, self.status = line, status


@dataclass
class Part:
    file: str
    first: int
    last: int
    object: Object
    text: bytes = b''


# ---- plans

def planned(line: str) -> Optional[tuple[str, int, int]]:
    """What a line of a plan says, nothing where it is skipped. A line at fault raises ValueError with the cause."""
    words = line.split(' ')
    if not re.fullmatch('[ -~]*', line) or len(words) != 4 or words[0] != 'module' or '' in words:
        raise ValueError(WORD)
    if not all(re.fullmatch('[0-9A-Fa-f]{4}', word) for word in words[2:]):
        raise ValueError(NUMBER)
    first, last = (int(word, 16) for word in words[2:])
    if len(words[1]) > 64 or last < first:
        raise ValueError(RANGE)
    return words[1], first, last


def plan_of(text: bytes) -> list[tuple[str, int, int]]:
    modules, lines = [], lines_of(text)
    for number, raw in enumerate(lines, 1):
        if raw.startswith(b'#') or not raw.strip(b' \t'):
            continue
        try:
            found = planned(raw.decode('latin-1'))
            if len(modules) == MOST_MODULES:
                raise ValueError(TOO_MANY)
        except ValueError as fault:
            raise Refused(f'error plan line {number} cause {fault.args[0]}') from None
        modules.append(found)
    if not modules:
        raise Refused(f'error plan line {len(lines) + 1} cause {NO_MODULE}')
    return modules


# ---- linking

def fitted(fixup: Fixup, value: int, address: int) -> Optional[bytes]:
    """What a fixup puts, or nothing where the value doesn't fit."""
    if fixup.kind == 'Word':
        return value.to_bytes(2, 'big') if 0 <= value <= 65_535 else None
    if fixup.kind in ('Low', 'High'):
        return bytes([value // (256 if fixup.kind == 'High' else 1) % 256]) if 0 <= value <= 4_294_967_295 else None
    number, most = (value - address, 127) if fixup.kind == 'Branch' else (value, 255)
    return bytes([number & 255]) if -128 <= number <= most else None


class Linker:
    """Modules in their rooms. Each cause is tried over all of them before the next."""

    def __init__(self, parts: list[Part]):
        self.parts = parts
        self.names: dict[str, int] = {}
        self.bytes: dict[int, int] = {}

    def link(self) -> None:
        for cause, is_at_fault in ((TWICE, self.gives_twice), (MISSING, self.lacks), (OUTSIDE, self.is_outside), (OVERLAP, self.overlaps),
                                   (REACH, self.is_out_of_reach)):
            for number, part in enumerate(self.parts):
                if is_at_fault(part):
                    raise Refused(f'error link module {number} cause {cause}')

    def gives_twice(self, part: Part) -> bool:
        for name, value in part.object.exports:
            if name in self.names:
                return True
            self.names[name] = part.first + value.k if isinstance(value, Placed) else value
        return False

    def lacks(self, part: Part) -> bool:
        return any(name not in self.names for name in part.object.imports)

    def is_outside(self, part: Part) -> bool:
        return bool(part.object.bytes) and part.first + len(part.object.bytes) - 1 > part.last

    def overlaps(self, part: Part) -> bool:
        own = dict(enumerate(part.object.bytes, part.first))
        if own.keys() & self.bytes.keys():
            return True
        self.bytes.update(own)
        return False

    def is_out_of_reach(self, part: Part) -> bool:
        return (not all(LEAST_IMPORT <= self.names[name] <= MOST_IMPORT for name in part.object.imports)
                or not all(self.put(part, fixup) for fixup in part.object.fixups))

    def put(self, part: Part, fixup: Fixup) -> bool:
        base = 0 if not fixup.is_based else part.first if fixup.base is None else self.names[fixup.base]
        address = part.first + fixup.offset
        found = fitted(fixup, base + fixup.k, address)
        self.bytes.update(enumerate(found or b'', address))
        return found is not None


# ---- the command

def rows(memory: Mapping[int, int]) -> Iterator[str]:
    """Bytes as lines, at most 16 on each."""
    row: list[int] = []
    for address in sorted(memory):
        if row and (address != row[-1] + 1 or len(row) == 16):
            yield f'{row[0]:04X} ' + ''.join(f'{memory[at]:02X}' for at in row)
            row = []
        row.append(address)
    if row:
        yield f'{row[0]:04X} ' + ''.join(f'{memory[at]:02X}' for at in row)


def fetched(files: Mapping[str, bytes], name: str, what: str, most: int) -> bytes:
    if name not in files:
        raise Refused(f'error store {what}', 4)
    if len(files[name]) > most:
        raise Refused(f'error long {what}')
    return files[name]


def parts_of(plan: str, files: Mapping[str, bytes]) -> list[Part]:
    """The modules of a plan, each fetched and compiled before the next."""
    parts = []
    for number, (name, first, last) in enumerate(plan_of(fetched(files, plan, 'plan', PLAN_BYTES))):
        text = fetched(files, name, f'module {number}', MODULE_BYTES)
        try:
            parts.append(Part(name, first, last, compiled(text), text))
        except Fault as fault:
            raise Refused(f'error module {number} line {fault.line} column {fault.column} cause {fault.cause}') from None
    return parts


def printed(plan: str, files: Mapping[str, bytes]) -> tuple[list[str], int]:
    """The lines of `link PLAN` over files, and its status."""
    try:
        linker = Linker(parts_of(plan, files))
        linker.link()
    except Refused as refusal:
        return [refusal.line], refusal.status
    return [*rows(linker.bytes), *(f'sym {name} {value}' for name, value in linker.names.items())], 0


# ---- the one source

def own_name(name: str, number: int) -> str:
    return f'{name}__{number}'


def one_source(parts: list[Part]) -> bytes:
    """All lines of all modules as a text for `asm`. Names that a module keeps to itself get its number."""
    lines = []
    for number, part in enumerate(parts):
        shared = {name for name, _ in part.object.exports} | set(part.object.imports)
        lines.append(b' ORG $%04X' % part.first)
        lines += [spelled(line, number, shared) for line in lines_of(part.text) if not is_directive(line)]
    return b'\n'.join(lines) + b'\n'


def is_directive(line: bytes) -> bool:
    return any(token.word() in ('EXPORT', 'IMPORT') for token in tokens_of(line)[:1])


def spelled(line: bytes, number: int, shared: set[str]) -> bytes:
    """A line with its own names spelled anew: the label, and those behind the mnemonic that are no words of the language."""
    for token in reversed(tokens_of(line)):
        if token.word() and token.word() not in RESERVED and token.value not in shared:
            line = line[:token.column - 1] + own_name(token.value, number).encode() + line[token.end - 1:]
    return line


class Folder(dict):
    """The files below the folder in which this is started."""

    def __contains__(self, name: object) -> bool:
        return Path(str(name)).is_file()

    def __missing__(self, name: str) -> bytes:
        return Path(name).read_bytes()


if __name__ == '__main__':
    told, status = printed(sys.argv[2], Folder()) if sys.argv[1] == 'link' else (['error words'], 1)
    print(*told, sep='\n', end='\n' * bool(told))
    sys.exit(status)
