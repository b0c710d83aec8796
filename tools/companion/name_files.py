"""Files of names for addresses, by their form: dasm's symbol file and listing, what tools/listing wrote, lines of asm, and lines NAME VALUE."""
from __future__ import annotations

import re
from dataclasses import dataclass
from itertools import takewhile
from pathlib import Path
from typing import Iterator

from companion.assembly import ASM_LINE, Line
from companion.places import LAST_ADDRESS, Name, Place
from companion.words import Refused

# A symbol file of dasm (-s), and lines of asm, don't tell a label from the value of an EQU.  Below this one they count as values.
FIRST_LABEL = 0x0100
SYMBOLS_HEAD = re.compile(r'--- Symbol List.*')
SYMBOL = re.compile(r'(\S+)\s+([0-9a-fA-F]{4,8})(?:\s+\([^)]*\))?')
ASM_SYMBOL = re.compile(r'sym (\w+) (-?\d{1,11})')
GIVEN = re.compile(r'([\w.$]*[A-Za-z_][\w.$]*)\s*[\s=:]\s*(?:0x|\$)?([0-9A-Fa-f]{1,8})')
# A listing of dasm (-l): the number of the line, U in a segment without bytes, the address, and by columns bytes, label and statement.
LISTING_FILE = re.compile(r'------- FILE (.+?)(?: LEVEL \d+ PASS \d+)?')
LISTING_LINE = re.compile(r' *(\d{1,9}) ([ U])([0-9a-f]{4,8})(?: .*)?')
BYTES, CUT, LABEL = slice(31, 42), slice(42, 43), slice(43, None)
# A line of tools/listing: its number, or none where it goes on, the address, the bytes, and the text.
OWN_HEAD = re.compile(r' {4}1(?:  |$)')
OWN_LINE = re.compile(r' *(\d{0,9})  ([0-9A-F]{4})  ((?:[0-9A-F]{2} ?){0,6}) *(.*)')
VALUE = re.compile(r'(?:equ|=|set)(?:\s|$)', re.I)


def read_names(path: str | Path) -> Iterator[Name | Place]:
    """The names of a file, and the lines of a listing."""
    lines = Path(path).read_bytes().decode('utf-8-sig', 'replace').splitlines()
    filled = [line for line in lines if line.strip()]
    if filled and LISTING_FILE.fullmatch(filled[0]):
        return listed_names(lines)
    if filled and OWN_HEAD.match(filled[0]):
        return own_names(lines, str(path))
    if filled and SYMBOLS_HEAD.fullmatch(filled[0]):
        return (symbol(match[1], int(match[2], 16)) for line in filled if (match := SYMBOL.fullmatch(line.strip())))
    if filled and all(ASM_LINE.fullmatch(line.encode()) for line in filled):
        return (symbol(match[1], int(match[2])) for line in filled if (match := ASM_SYMBOL.fullmatch(line)))
    return given_names(lines, str(path))


def symbol(text: str, value: int) -> Name:
    return Name(text, value, is_label=value >= FIRST_LABEL)


def given_names(lines: list[str], path: str) -> Iterator[Name]:
    """Lines NAME VALUE, with comments behind a `;` or `#`."""
    for number, line in enumerate(lines, 1):
        bare = re.split('[;#]', line)[0].strip()
        match = GIVEN.fullmatch(bare)
        if match and int(match[2], 16) <= LAST_ADDRESS:
            yield Name(match[1], int(match[2], 16))
        elif bare:
            raise Refused(f'{path}, line {number}: this is no line NAME VALUE with a hexadecimal value up to FFFF, '
                          "and the file neither dasm's symbol file (-s) nor its listing (-l)")


@dataclass(frozen=True)
class Row:
    """A line of a listing of dasm."""
    file: str
    line: int
    address: int
    is_place: bool  # of the program: neither a value nor in a segment without bytes
    size: int  # of the bytes that are shown
    is_cut: bool  # there are more than these
    label: str
    statement: str


def row_of(file: str, line: int, match: re.Match[str]) -> Row:
    text = match[0]
    label, _, rest = text[LABEL].partition(' ')
    statement = ' '.join(re.split(";(?!')", rest)[0].split())
    is_place = match[2] != 'U' and not VALUE.match(statement)
    shown = re.fullmatch('((?:[0-9a-f]{2} ?)+)', text[BYTES].strip())
    return Row(file, line, int(match[3], 16), is_place, len(shown[1].split()) if shown else 0, text[CUT] == '*', label, statement)


def rows_of(lines: list[str]) -> Iterator[Row]:
    """The lines of a listing. Those of a macro, which count from 0, have the number of the line that calls it."""
    file, last = '', 0
    for line in (line.expandtabs(8).rstrip() for line in lines):
        if head := LISTING_FILE.fullmatch(line):
            file, last = head[1], 0
        elif match := LISTING_LINE.fullmatch(line):
            number = int(match[1])
            last = last + 1 if number == 0 else max(last, number)
            yield row_of(file, last, match)


def listed_names(lines: list[str]) -> Iterator[Name | Place]:
    rows = list(rows_of(lines))
    owner = ''
    for row, after in zip(rows, [*rows[1:], None]):
        if row.label and row.is_place:
            is_local = row.label.startswith('.')
            owner = owner if is_local else row.label
            yield Name(owner + row.label if is_local else row.label, row.address, row.file, row.line)
        if row.size and row.is_place:
            size = after.address - row.address if row.is_cut and after and after.address > row.address else row.size
            yield Place(row.file, row.line, row.address, size, row.statement)


def own_names(lines: list[str], path: str) -> Iterator[Name | Place]:
    """The labels and lines of a listing of tools/listing, up to the blank line in front of its names."""
    line = Line(0, b'')
    for match in filter(None, map(OWN_LINE.fullmatch, takewhile(str.strip, lines))):
        address, size = int(match[2], 16), len(match[3].split())
        if match[1].strip():
            line = Line(int(match[1]), match[4].encode())
            if line.label and line.statement != b'ORG':
                yield Name(line.label.decode(), address, path, line.number)
        if size:
            yield Place(path, line.number, address, size, line.bare)
