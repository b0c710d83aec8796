"""Modules compiled as docs/ASSEMBLY says, by other means than the program's, so that tests can compare the two."""
from __future__ import annotations

import re
from dataclasses import dataclass, field
from enum import Enum
from typing import Callable, Iterator, NamedTuple, Optional, Union

UTF8, TOKEN, UNKNOWN, TWICE, UNDEFINED, RANGE, BRANCH, OUTSIDE, FORM, SHAPE = 1, 2, 3, 4, 5, 6, 7, 8, 11, 12
LEAST, MOST = -2 ** 31, 2 ** 32 - 1  # of a value
FARTHEST = 65_535  # of a placed value from its base
MOST_OPEN = 64  # prefixes and parentheses
STRAYS = ('ORG', 'EXPORT', 'IMPORT')

# ---- words

PLAIN = dict(PK=0x0C, LM=0x16, ST=0x17, COM=0x18, LNK=0x19, DI=0x1A, EI=0x1B, POP=0x1C, INC=0x1F, NOP=0x2B, XDC=0x2C, AM=0x88, AMD=0x89,
             NM=0x8A, OM=0x8B, XM=0x8C, CM=0x8D, ADC=0x8E, CLR=0x70)
BYTES = dict(LI=0x20, NI=0x21, OI=0x22, XI=0x23, AI=0x24, CI=0x25)
PORTS = dict(IN=0x26, OUT=0x27)
WORDS = dict(PI=0x28, JMP=0x29, DCI=0x2A)
BRANCHES = dict(BR7=0x8F, BR=0x90, BM=0x91, BNC=0x92, BNZ=0x94, BNO=0x98, BP=0x81, BC=0x82, BZ=0x84)
REGISTER_FIELDS = dict(DS=0x30, AS=0xC0, ASD=0xD0, XS=0xE0, NS=0xF0)
SMALL_PORTS = (0, 1, *range(4, 16))
FIELDS = {'LISU': {n: 0x60 + n for n in range(8)}, 'LISL': {n: 0x68 + n for n in range(8)}, 'LIS': {n: 0x70 + n for n in range(16)},
          'SR': {1: 0x12, 4: 0x14}, 'SL': {1: 0x13, 4: 0x15}, 'INS': {n: 0xA0 + n for n in SMALL_PORTS},
          'OUTS': {n: 0xB0 + n for n in SMALL_PORTS}}
TESTS = {'BT': {n: 0x80 + n for n in range(8)}, 'BF': {n: 0x90 + n for n in range(16)}}
PAIRS = {('A', 'KU'): 0, ('A', 'KL'): 1, ('A', 'QU'): 2, ('A', 'QL'): 3, ('KU', 'A'): 4, ('KL', 'A'): 5, ('QU', 'A'): 6, ('QL', 'A'): 7,
         ('K', 'P'): 8, ('P', 'K'): 9, ('A', 'IS'): 0xA, ('IS', 'A'): 0xB, ('P0', 'Q'): 0xD, ('Q', 'DC'): 0xE, ('DC', 'Q'): 0xF,
         ('DC', 'H'): 0x10, ('H', 'DC'): 0x11, ('W', 'J'): 0x1D, ('J', 'W'): 0x1E}
NUMBERED = dict(J=9, HU=10, HL=11, S=12, I=13, D=14)
REGISTERS = {*NUMBERED, *(word for pair in PAIRS for word in pair)}
RESERVED = {*PLAIN, *BYTES, *PORTS, *WORDS, *BRANCHES, *REGISTER_FIELDS, *FIELDS, *TESTS, *REGISTERS, 'LR', 'ORG', 'EQU', 'DB', 'DW'}


# ---- faults and tokens

class LineFault(Exception):
    """A fault of a line, at a column or at its end; a far one is of a value too far from a module's base, which the text alone may have."""

    def __init__(self, cause: int, column: Optional[int], is_far: bool = False):
        self.cause, self.column, self.is_far = cause, column, is_far


class Fault(Exception):
    """The fault of a module."""

    def __init__(self, line: int, column: int, cause: int, is_far: bool = False):
        self.line, self.column, self.cause, self.is_far = line, column, cause, is_far


@dataclass(frozen=True)
class Token:
    value: Union[str, int]  # a name or a mark, or a number
    column: int
    end: int

    def word(self) -> str:
        """The name in capitals, where it is one."""
        return self.value.upper() if isinstance(self.value, str) and re.match('[A-Za-z_]', self.value) else ''


PIECE = re.compile(rb"[ \t]+|(?P<comment>;.*)|(?P<name>[A-Za-z_]\w*)|(?P<ten>\d+)|\$(?P<hex>[0-9A-Fa-f]+)|%(?P<two>[01]+)"
                   rb"|'(?P<char>[ -~])'|(?P<mark>[-+*/&|()<>,.:])")
BASES = {'ten': 10, 'hex': 16, 'two': 2}


def tokens_of(line: bytes) -> list[Token]:
    try:
        line.decode('utf-8')
    except UnicodeDecodeError:
        raise LineFault(UTF8, 1) from None
    found, at = [], 0
    while at < len(line):
        match = PIECE.match(line, at)
        if not match or match['name'] and len(match['name']) > 32:
            raise LineFault(TOKEN, at + 1)
        sort, text = match.lastgroup, match[match.lastgroup].decode() if match.lastgroup != 'comment' and match.lastgroup else ''
        value = int(text, BASES[sort]) if sort in BASES else ord(text) if sort == 'char' else text
        if isinstance(value, int) and value > MOST:
            raise LineFault(RANGE, at + 1)
        if text:
            found.append(Token(value, at + 1, match.end() + 1))
        at = match.end()
    return found


def lines_of(text: bytes) -> list[bytes]:
    parts = text.split(b'\n')
    lines = [part.removesuffix(b'\r') for part in parts[:-1]]
    return lines + [parts[-1]] * bool(parts[-1])


# ---- values

class Placed(NamedTuple):
    base: Optional[str]  # an import, or None for the module
    k: int


class Half(NamedTuple):
    kind: str
    base: Optional[str]
    k: int


class Undefined(NamedTuple):
    column: int


class Lost(Enum):
    RANGE = RANGE
    FAR = 'a placed value too far from its base, which is out of range too'
    SHAPE = SHAPE


Value = Union[int, Placed, Half, Undefined, Lost]


def within(value: int) -> Value:
    return value if LEAST <= value <= MOST else Lost.RANGE


def near(base: Optional[str], k: int) -> Value:
    return Placed(base, k) if -FARTHEST <= k <= FARTHEST else Lost.FAR


def quotient(a: int, b: int) -> Value:
    return within(abs(a) // abs(b) * (1 if (a < 0) == (b < 0) else -1)) if b else Lost.RANGE


CONSTANTS: dict[str, Callable[[int, int], Value]] = {
    '+': lambda a, b: within(a + b), '-': lambda a, b: within(a - b), '*': lambda a, b: within(a * b), '/': quotient,
    '&': lambda a, b: within(a & b), '|': lambda a, b: within(a | b)}


def joined(mark: str, a: Value, b: Value) -> Value:
    """Two values joined: the first undefined name, else that one is out of range, else that there is no such value."""
    undefined = [value for value in (a, b) if isinstance(value, Undefined)]
    if undefined:
        return undefined[0]
    for lost in (Lost.RANGE, Lost.FAR):
        if lost in (a, b):
            return lost
    if isinstance(a, int) and isinstance(b, int):
        return CONSTANTS[mark](a, b)
    if mark == '+' and isinstance(a, int) and isinstance(b, Placed):
        return near(b.base, a + b.k)
    if mark in ('+', '-') and isinstance(a, Placed) and isinstance(b, int):
        return near(a.base, a.k + b if mark == '+' else a.k - b)
    if mark == '-' and isinstance(a, Placed) and isinstance(b, Placed) and a.base == b.base:
        return within(a.k - b.k)
    return Lost.SHAPE


def prefixed(mark: str, a: Value) -> Value:
    if isinstance(a, int):
        if mark == '-':
            return within(-a)
        return Lost.RANGE if a < 0 else a % 256 if mark == '<' else a // 256 % 256
    if isinstance(a, Placed) and mark != '-':
        return Half('Low' if mark == '<' else 'High', a.base, a.k)
    return a if isinstance(a, (Undefined, Lost)) else Lost.SHAPE


Scope = Callable[[int, str], Value]  # a name at a column
Formula = Callable[[Scope, int], Value]  # by names and the offset of the line


class Operand(NamedTuple):
    column: int
    value: Formula
    names: frozenset[str]


# ---- the reading of a line

class Reader:
    """The tokens of a statement, from the left."""

    def __init__(self, tokens: list[Token]):
        self.tokens, self.at = tokens, 0
        self.names: set[str] = set()

    @property
    def column(self) -> Optional[int]:
        return self.tokens[self.at].column if self.at < len(self.tokens) else None

    def form(self) -> LineFault:
        return LineFault(FORM, self.column)

    def peek(self) -> Union[str, int, None]:
        return self.tokens[self.at].value if self.at < len(self.tokens) else None

    def word(self) -> str:
        return self.tokens[self.at].word() if self.at < len(self.tokens) else ''

    def take(self, mark: str) -> None:
        if self.peek() != mark:
            raise self.form()
        self.at += 1

    def done(self) -> None:
        if self.at < len(self.tokens):
            raise self.form()

    def operand(self) -> Operand:
        column, self.names = self.column, set()
        value = self.level(('|', '&', '+-', '*/'), 0)
        return Operand(column, value, frozenset(self.names))

    def level(self, marks: tuple[str, ...], opened: int) -> Formula:
        if not marks:
            return self.single(opened)
        left = self.level(marks[1:], opened)
        while isinstance(self.peek(), str) and self.peek() and self.peek() in marks[0]:
            left = self.chained(self.peek(), left, marks, opened)
        return left

    def chained(self, mark: str, left: Formula, marks: tuple[str, ...], opened: int) -> Formula:
        self.at += 1
        right = self.level(marks[1:], opened)
        return lambda scope, offset: joined(mark, left(scope, offset), right(scope, offset))

    def single(self, opened: int) -> Formula:
        value, column, word = self.peek(), self.column, self.word()
        if value is None or word in RESERVED or isinstance(value, str) and not word and value not in ('.', '-', '<', '>', '('):
            raise self.form()
        if value in ('-', '<', '>', '(') and opened == MOST_OPEN:
            raise self.form()
        self.at += 1
        if isinstance(value, int):
            return lambda scope, offset: value
        if word:
            self.names.add(value)
            return lambda scope, offset: scope(column, value)
        if value == '.':
            return lambda scope, offset: near(None, offset)
        if value == '(':
            inner = self.level(('|', '&', '+-', '*/'), opened + 1)
            self.take(')')
            return inner
        behind = self.single(opened + 1)
        return lambda scope, offset: prefixed(value, behind(scope, offset))


@dataclass
class Statement:
    sort: str = 'nothing'
    code: int = 0
    codes: dict[int, int] = field(default_factory=dict)
    operands: list[Operand] = field(default_factory=list)

    @property
    def size(self) -> int:
        return {'nothing': 0, 'equ': 0, 'fixed': 1, 'small': 1, 'word': 3, 'DB': len(self.operands), 'DW': 2 * len(self.operands)}.get(self.sort, 2)


def one(reader: Reader, statement: Statement) -> Statement:
    statement.operands = [reader.operand()]
    reader.done()
    return statement


def register_statement(reader: Reader, base: int) -> Statement:
    if reader.word() in NUMBERED:
        code = base + NUMBERED[reader.word()]
        reader.at += 1
        reader.done()
        return Statement('fixed', code)
    return one(reader, Statement('small', codes={n: base + n for n in range(12)}))


def load_statement(reader: Reader) -> Statement:
    first = reader.word()
    if first not in REGISTERS:
        operand = reader.operand()
        reader.take(',')
        if reader.word() != 'A':
            raise reader.form()
        reader.at += 1
        reader.done()
        return Statement('small', codes={n: 0x50 + n for n in range(12)}, operands=[operand])
    reader.at += 1
    reader.take(',')
    second = reader.word()
    if second not in REGISTERS:
        if first != 'A':
            raise reader.form()
        return one(reader, Statement('small', codes={n: 0x40 + n for n in range(12)}))
    code = PAIRS.get((first, second))
    if code is None and first == 'A' and second in NUMBERED:
        code = 0x40 + NUMBERED[second]
    if code is None and second == 'A' and first in NUMBERED:
        code = 0x50 + NUMBERED[first]
    if code is None:
        raise reader.form()
    reader.at += 1
    reader.done()
    return Statement('fixed', code)


def item_statement(reader: Reader, word: str) -> Statement:
    operands = [reader.operand()]
    while reader.column is not None:
        reader.take(',')
        operands.append(reader.operand())
    return Statement(word, operands=operands)


def test_statement(reader: Reader, word: str) -> Statement:
    bits = reader.operand()
    reader.take(',')
    place = reader.operand()
    reader.done()
    return Statement('test', codes=TESTS[word], operands=[bits, place])


def statement_of(reader: Reader, is_labelled: bool) -> Statement:
    if reader.column is None:
        return Statement()
    word, column = reader.word(), reader.column
    if not word:
        raise reader.form()
    if word not in RESERVED or word in REGISTERS or word == 'EQU' and not is_labelled:
        raise LineFault(UNKNOWN if word not in RESERVED else FORM, column)
    reader.at += 1
    if word in PLAIN:
        reader.done()
        return Statement('fixed', PLAIN[word])
    for sort, table in (('byte', BYTES), ('port', PORTS), ('word', WORDS), ('branch', BRANCHES)):
        if word in table:
            return one(reader, Statement(sort, table[word]))
    if word in FIELDS:
        return one(reader, Statement('small', codes=FIELDS[word]))
    if word in REGISTER_FIELDS:
        return register_statement(reader, REGISTER_FIELDS[word])
    if word in TESTS:
        return test_statement(reader, word)
    if word in ('DB', 'DW'):
        return item_statement(reader, word)
    return load_statement(reader) if word == 'LR' else one(reader, Statement(word.lower()))


@dataclass
class Line:
    number: int
    end: int
    label: Optional[str]
    column: int
    statement: Statement


def label_in(tokens: list[Token]) -> Optional[str]:
    is_label = len(tokens) > 1 and tokens[1].value == ':' and tokens[0].word() and tokens[0].word() not in RESERVED
    return tokens[0].value if is_label else None


def read_statement(number: int, tokens: list[Token]) -> Line:
    """The statement of a line, unless a word that it may not have stands before its first fault."""
    stray = next((token.column for token in tokens if token.word() in STRAYS), None)
    label = label_in(tokens)
    reader = Reader(tokens[2 if label else 0:])
    end = tokens[-1].end if tokens else 1
    try:
        line = Line(number, end, label, reader.column or end, statement_of(reader, label is not None))
    except LineFault as fault:
        if stray is None or fault.column is not None and fault.column < stray:
            raise
        raise LineFault(FORM, stray) from None
    if stray is not None:
        raise LineFault(FORM, stray)
    return line


# ---- the passes

class Fixup(NamedTuple):
    offset: int
    kind: str
    base: Optional[str]  # an import; None for the module, or for a branch to a constant
    k: int
    is_based: bool = True


@dataclass
class Object:
    bytes: bytearray = field(default_factory=bytearray)
    exports: list[tuple[str, Value]] = field(default_factory=list)
    imports: list[str] = field(default_factory=list)
    fixups: list[Fixup] = field(default_factory=list)


@dataclass
class Export:
    number: int
    column: int
    name: str


@dataclass
class Module:
    """A text on its way to its object."""
    known: set[str] = field(default_factory=set)
    lines: list[Union[Line, Export]] = field(default_factory=list)
    offsets: list[int] = field(default_factory=list)
    names: dict[str, Value] = field(default_factory=dict)
    object: Object = field(default_factory=Object)

    def read(self, number: int, tokens: list[Token]) -> None:
        word = tokens[0].word() if tokens else ''
        if word in ('EXPORT', 'IMPORT'):
            for column, name in names_behind(tokens):
                self.name(number, word, column, name)
            return
        if (label := label_in(tokens)) is not None:
            if label in self.known:
                raise LineFault(TWICE, tokens[0].column)
            self.known.add(label)
        self.lines.append(read_statement(number, tokens))

    def name(self, number: int, word: str, column: int, name: str) -> None:
        if word == 'EXPORT':
            self.lines.append(Export(number, column, name))
            return
        if name in self.known:
            raise LineFault(TWICE, column)
        self.known.add(name)
        self.object.imports.append(name)

    def own(self, column: int, name: str) -> Value:
        value = self.names.get(name, Undefined(column))
        return near(None, value.k) if isinstance(value, Placed) else value

    def any(self, column: int, name: str) -> Value:
        return Placed(name, 0) if name in self.object.imports else self.own(column, name)

    def settle(self, here: int, line: Line) -> int:
        """The offset behind a line, whose label gets its value."""
        value: Value = Placed(None, here)
        if line.statement.sort == 'equ':
            operand = line.statement.operands[0]
            if operand.names & set(self.object.imports):
                raise LineFault(SHAPE, operand.column)
            value = constant(operand.column, operand.value(self.own, here))
        elif line.statement.size and here + line.statement.size > 65_536:
            raise LineFault(OUTSIDE, line.column)
        if line.label is not None:
            self.names[line.label] = value
        return here + line.statement.size

    def emit(self, offset: int, line: Line) -> None:
        for part, fixups in pieces(line.statement, offset, self.any):
            self.object.bytes += part
            self.object.fixups += fixups


def names_behind(tokens: list[Token]) -> Iterator[tuple[int, str]]:
    """The names of EXPORT and IMPORT."""
    reader = Reader(tokens[1:])
    while True:
        word = reader.word()
        if not word or word in RESERVED or word in STRAYS:
            raise reader.form()
        yield reader.column, reader.peek()
        reader.at += 1
        if reader.column is None:
            return
        reader.take(',')


def refused(column: int, value: Value) -> LineFault:
    if isinstance(value, Undefined):
        return LineFault(UNDEFINED, value.column)
    return LineFault(RANGE if value in (Lost.RANGE, Lost.FAR) else SHAPE, column, value is Lost.FAR)


def constant(column: int, value: Value) -> int:
    if not isinstance(value, int):
        raise refused(column, value)
    return value


def number(column: int, value: Value, least: int, most: int) -> int:
    if not least <= constant(column, value) <= most:
        raise LineFault(RANGE, column)
    return value


Piece = tuple[bytes, list[Fixup]]


def byte_piece(operand: Operand, value: Value, offset: int) -> Piece:
    if isinstance(value, Placed):
        return b'\0', [Fixup(offset, 'Byte', *value)]
    if isinstance(value, Half):
        return b'\0', [Fixup(offset, value.kind, value.base, value.k)]
    return bytes([number(operand.column, value, -128, 255) & 255]), []


def word_piece(operand: Operand, value: Value, offset: int) -> Piece:
    if isinstance(value, Placed):
        return b'\0\0', [Fixup(offset, 'Word', *value)]
    if isinstance(value, Half):
        return b'\0\0', [Fixup(offset + 1, value.kind, value.base, value.k)]
    return number(operand.column, value, 0, 65_535).to_bytes(2, 'big'), []


def branch_piece(operand: Operand, value: Value, offset: int) -> Piece:
    if isinstance(value, int):
        return b'\0', [Fixup(offset, 'Branch', None, value, is_based=False)]
    if isinstance(value, Placed) and value.base is not None:
        return b'\0', [Fixup(offset, 'Branch', *value)]
    if not isinstance(value, Placed):
        raise refused(operand.column, value)
    if not -128 <= value.k - offset <= 127:
        raise LineFault(BRANCH, operand.column)
    return bytes([value.k - offset & 255]), []


def small_code(statement: Statement, operand: Operand, value: Value) -> int:
    if constant(operand.column, value) not in statement.codes:
        raise LineFault(RANGE, operand.column)
    return statement.codes[value]


def pieces(statement: Statement, offset: int, scope: Scope) -> Iterator[Piece]:
    """The bytes of a statement with their fixups, operand by operand."""
    def value(operand: Operand) -> Value:
        return operand.value(scope, offset)

    sort, code = statement.sort, bytes([statement.code])
    if sort == 'fixed':
        yield code, []
    elif sort in ('DB', 'DW'):
        piece, size = (byte_piece, 1) if sort == 'DB' else (word_piece, 2)
        for at, operand in enumerate(statement.operands):
            yield piece(operand, value(operand), offset + size * at)
    elif sort in ('small', 'test'):
        first, *rest = statement.operands
        yield bytes([small_code(statement, first, value(first))]), []
        for place in rest:
            yield branch_piece(place, value(place), offset + 1)
    elif sort == 'port':
        operand, = statement.operands
        yield code + bytes([number(operand.column, value(operand), 0, 255)]), []
    elif sort in ('byte', 'word', 'branch'):
        operand, = statement.operands
        yield code, []
        yield {'byte': byte_piece, 'word': word_piece, 'branch': branch_piece}[sort](operand, value(operand), offset + 1)


def compiled(text: bytes) -> Object:
    """The object of a text. One at fault raises Fault."""
    module, here = Module(), 0
    for number_, raw in enumerate(lines_of(text), 1):
        end = 1
        try:
            tokens = tokens_of(raw)
            end = tokens[-1].end if tokens else 1
            module.read(number_, tokens)
        except LineFault as fault:
            raise Fault(number_, fault.column or end, fault.cause) from None
    for line in module.lines:
        module.offsets.append(here)
        try:
            here = module.settle(here, line) if isinstance(line, Line) else here
        except LineFault as fault:
            raise Fault(line.number, fault.column or line.end, fault.cause, fault.is_far) from None
    for offset, line in zip(module.offsets, module.lines):
        export_or_emit(module, offset, line)
    return module.object


def export_or_emit(module: Module, offset: int, line: Union[Line, Export]) -> None:
    if isinstance(line, Export):
        if line.name not in module.names:
            raise Fault(line.number, line.column, UNDEFINED)
        module.object.exports.append((line.name, module.names[line.name]))
        return
    try:
        module.emit(offset, line)
    except LineFault as fault:
        raise Fault(line.number, fault.column or line.end, fault.cause, fault.is_far) from None
