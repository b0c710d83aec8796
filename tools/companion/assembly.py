"""Assembly texts as the program assembles them: the bytes, the names, and which line has which address."""
from __future__ import annotations

import re
from dataclasses import dataclass, field
from pathlib import Path
from typing import Container, Iterator

from companion.instructions import BRANCHES, OPCODES
from companion.program import Fault, Program
from companion.words import Refused

MOST_BYTES = 262_144  # of a text that the program takes
MOST_NAME = 32  # bytes of a name
REGISTERS = 'A J HU HL KU KL QU QL K Q H S I D IS P P0 DC W'.split()
RESERVED_WORDS = frozenset([*(opcode.name.split()[0] for opcode in OPCODES if not opcode.is_reserved), *BRANCHES.values(), *REGISTERS,
                            'CLR', 'ORG', 'EQU', 'DB', 'DW'])  # in either case
MOST_RUNS = 50  # of the program, on copies of the text with labels

LABEL = re.compile(rb'[ \t]*([A-Za-z_]\w*)[ \t]*:')
STATEMENT = re.compile(rb'[ \t]*(?:[A-Za-z_]\w*[ \t]*:)?[ \t]*(\w*)')
# A character in quotes, a comment, or a name.
PIECES = re.compile(rb"'.'|(;.*)|(?<![\w$%])([A-Za-z_]\w*)")
ASM_LINE = re.compile(rb'([0-9A-F]{4}) ((?:[0-9A-F]{2})+)|sym (\w+) (-?\d+)')  # of the lines that asm writes


@dataclass
class Image:
    """What `asm` writes: bytes by address, and names with their values, in the order of the text."""
    bytes: dict[int, int] = field(default_factory=dict)
    names: dict[bytes, int] = field(default_factory=dict)

    @classmethod
    def of(cls, lines: bytes) -> Image:
        image = cls()
        for line in lines.splitlines():
            image.add(line)
        return image

    def add(self, line: bytes) -> None:
        match = ASM_LINE.fullmatch(line)
        if not match:
            raise Refused(f'this is no line of asm: {line[:60].decode("ascii", "replace")}')
        if match[3]:
            self.names[match[3]] = int(match[4])
        else:
            self.bytes.update(enumerate(bytes.fromhex(match[2].decode()), int(match[1], 16)))


@dataclass
class Line:
    """A line of the text, with its place in memory where it has one."""
    number: int
    text: bytes
    address: int | None = None
    value: int | None = None
    bytes: bytes = b''

    @property
    def label(self) -> bytes | None:
        match = LABEL.match(self.text)
        return match[1] if match else None

    @property
    def statement(self) -> bytes:
        return STATEMENT.match(self.text)[1].upper()

    @property
    def bare(self) -> str:
        """The statement with its operands, without label and comment, and with single blanks."""
        code = self.text[LABEL.match(self.text).end():] if self.label else self.text
        comment = next((match.start() for match in PIECES.finditer(code) if match[1]), len(code))
        return ' '.join(code[:comment].decode('ascii', 'replace').split())

    def has_place(self) -> bool:
        """Whether its address is shown: blank lines and comments have none of their own."""
        return self.address is not None and bool(self.statement or self.label)

    def names(self) -> Iterator[bytes]:
        """The words of the line outside its comment, its own label too."""
        return (match[2] for match in PIECES.finditer(self.text) if match[2])


@dataclass
class Text:
    """A text as the program assembles it: its image, and its lines with their places."""
    path: str
    image: Image
    lines: list[Line]

    @classmethod
    def read(cls, path: str | Path, program: Program) -> Text:
        """A text from a file. One at fault raises Fault, with the program's answer."""
        assembler = Assembler(program)
        try:
            data = Path(program.folder or '', path).read_bytes()
            return assembler.placed(data, str(path))
        except (Fault, OSError):
            program.done('asm', path)  # the refusal of the text itself, and not of a copy with labels
            raise


def label_of(text: str, taken: Container[str]) -> str:
    """A label that is like a name of another assembler, and none of those that are taken."""
    name = re.sub(r'\W', '_', text, flags=re.ASCII)[:MOST_NAME]
    name = f'_{name}'[:MOST_NAME] if re.match(r'\d|$', name) else name
    number = 0
    found = name
    while found in taken or found.upper() in RESERVED_WORDS:
        number += 1
        found = f'{name[:MOST_NAME - len(str(number)) - 1]}_{number}'
    return found


def free_prefix(text: bytes) -> bytes:
    """A beginning to which a number can be added so that the text doesn't have the name."""
    prefix = b'_'
    while re.search(prefix + rb'\d', text):
        prefix += b'_'
    return prefix


@dataclass
class Assembler:
    """The program's `asm`, on copies of a text that have a label more on each line without one.

    The program gives these labels their addresses. So one run tells bytes, names and places of most texts.
    """
    program: Program

    def image(self, text: bytes) -> Image:
        return Image.of(self.program.on_text('asm', text).done())

    def placed(self, data: bytes, path: str = '') -> Text:
        lines = [Line(number, part) for number, part in enumerate(data.removesuffix(b'\n').split(b'\n'), 1)]
        prefix = free_prefix(data)
        image = Image()
        for chosen in portions(lines, data, prefix):
            marked = [(prefix + b'%d:' % line.number if line.number in chosen else b'') + line.text for line in lines]
            marked += [prefix + b'%d:' % (len(lines) + 1)] if len(lines) + 1 in chosen else []
            found = self.image(b'\n'.join(marked))
            image.bytes = found.bytes
            image.names.update(found.names)
        place(lines, image, prefix)
        given = {name: value for name, value in image.names.items() if not re.fullmatch(prefix + rb'\d+', name)}
        return Text(path, Image(image.bytes, given), lines)


def portions(lines: list[Line], text: bytes, prefix: bytes) -> Iterator[set[int]]:
    """The numbers of the lines without a label, and that behind the last line, as many at a time as a text has room for."""
    cost = len(prefix) + len(str(len(lines) + 1)) + 2
    room = (MOST_BYTES - len(text) - 1) // cost
    bare = [line.number for line in lines if line.label is None] + [len(lines) + 1]
    if len(bare) > MOST_RUNS * room:
        most = MOST_BYTES - 1 - cost * -(-len(bare) // MOST_RUNS)
        raise Refused(f'a text of {len(text):,} bytes is too long for a listing: with {len(lines):,} lines it may have {most:,}')
    for start in range(0, len(bare), room):
        yield set(bare[start:start + room])


def place(lines: list[Line], image: Image, prefix: bytes) -> None:
    """Gives each line its address, value and bytes: from its label on, its own or the added one, to where the next line begins."""
    def start(line: Line) -> int:
        return image.names[line.label or prefix + b'%d' % line.number]

    end = image.names[prefix + b'%d' % (len(lines) + 1)]
    for line in reversed(lines):
        if line.statement == b'EQU':
            line.value = image.names[line.label]
        elif line.statement == b'ORG':
            line.address, end = end, start(line)
        else:
            line.address = start(line)
            line.bytes = bytes(image.bytes[address] for address in range(line.address, end))
            end = line.address
