"""A cartridge's description: its chips with their sockets, spaces, ports, bytes and power-on, and the registers that are tracked.

`Description.of` reads any bytes as far as they make sense, and says what hinders TOML's reader in `fault`.  It doesn't
refuse what the program refuses: `Description.read` asks the program first, and gives the chips their bytes.
"""
from __future__ import annotations

import re
from contextlib import suppress
from dataclasses import dataclass, field, replace
from enum import Enum
from pathlib import Path
from typing import Any, Iterable, Iterator

from companion.assembly import Text
from companion.program import Program
from companion.words import Refused

try:
    import tomllib
except ImportError:  # before Python 3.11
    tomllib = None

NEEDS_TOML = 'Python 3.11 or later is needed, to read the description'
PAGE = 256
PSU_BYTES = 1024
SMI_PORTS = 12  # the first port of every 3853
PULSE = 0x80  # the bit of a vector that is set for a pulse, and clear for the timer
EMPTY_ROM = 0xFF  # a byte of ROM that nothing gives
PAGE_TEXTS = 2  # the format in which the pages of a 3853 are texts, and in which a chip may be a 3861
FORMATS = (1, PAGE_TEXTS)
PAGE_TEXT = re.compile('(rom|ram|void) ([0-9A-Fa-f]{2})(?:-([0-9A-Fa-f]{2}))?')
# Comments and texts of a TOML document, and what may follow a backslash in a text in double quotes.
TOML_PIECE = re.compile(r"#[^\n]*|'''.*?'''|'[^'\n]*'" r'|"""(?:\\.|[^\\])*?"""|"(?:\\.|[^"\\\n])*"', re.DOTALL)
ESCAPE = re.compile(r'\\(?:x([0-9A-Fa-f]{2})|.)', re.DOTALL)


class Kind(Enum):
    """The kinds of chips, by their names in a description and in the order of their sockets in the rack."""
    PSU = '3851'
    SMI = '3853'
    PIO = '3861'

    @property
    def sockets(self) -> int:
        """How many sockets the rack has for it."""
        return {Kind.PSU: 12, Kind.SMI: 2, Kind.PIO: 2}[self]

    @property
    def first_socket(self) -> int:
        kinds = list(Kind)
        return sum(kind.sockets for kind in kinds[:kinds.index(self)])

    @property
    def formats(self) -> tuple[int, ...]:
        """The formats of descriptions that have it."""
        return (PAGE_TEXTS,) if self is Kind.PIO else FORMATS

    @property
    def has_memory(self) -> bool:
        """Whether it has memory, and the counters that go with it."""
        return self is not Kind.PIO

    @property
    def has_second_data_counter(self) -> bool:
        return self is Kind.SMI

    @property
    def has_fixed_ports(self) -> bool:
        """Whether all chips of the kind have the same ports, none of which is a data port, and of which two write the vector."""
        return self is Kind.SMI


class Holding(Enum):
    """What a chip has at addresses of its space, by its word in a description."""
    ROM = 'rom'
    RAM = 'ram'
    VOID = 'void'

    @property
    def word(self) -> str:
        return self.value if self is Holding.VOID else self.value.upper()


@dataclass(frozen=True)
class Chip:
    """A chip as it is described. What is left out or has a wrong type is as if it were 0 or not there."""
    number: int  # in the order of the description, from 0
    kind: Kind
    socket: int
    spaces: tuple[tuple[Holding, range], ...] = ()  # runs of addresses, in the order of the description
    ports: range = range(0)
    vector: int = 0
    interrupt: bool = False
    digits: str | None = None  # of the key `rom`
    source: str | None = None
    bytes: dict[int, int] = field(default_factory=dict)  # the whole ROM by address, once it is read
    text: Text | None = None  # of the source, once it is read
    fill: int | None = None  # the byte in its RAM at power-on, where the description says it
    start: int | None = None  # the address of its counters at power-on, likewise

    def runs(self, holding: Holding) -> tuple[range, ...]:
        """The addresses of a sort as runs, ascending, of which none touches another."""
        return joined(space for sort, space in self.spaces if sort is holding)

    @property
    def rom(self) -> tuple[range, ...]:
        return self.runs(Holding.ROM)

    @property
    def rom_addresses(self) -> list[int]:
        """The addresses to which the bytes of `rom` go, one after another."""
        return [address for run in self.rom for address in run]

    @property
    def name(self) -> str:
        """The chip in words: its socket, kind and first address, as `0: 3851 at 0000`."""
        first = next((space.start for _, space in self.spaces), None)
        return f'{self.socket}: {self.kind.value}' + (f' at {first:04X}' if first is not None else '')

    @property
    def vectors(self) -> tuple[int, ...]:
        """Where its interrupts lead: for its timer, and for a pulse. None is known of a 3853, whose vector ports write."""
        is_known = self.interrupt and not self.kind.has_fixed_ports
        return tuple(self.vector & 0xFF7F | high for high in (0, PULSE)) if is_known else ()

    @property
    def data_ports(self) -> range:
        """The ports that can be read: the first two of the four, where there are such."""
        return range(0) if self.kind.has_fixed_ports else self.ports[:2]

    def holds(self, address: int) -> Holding | None:
        return next((holding for holding, space in self.spaces if address in space), None)


def joined(runs: Iterable[range]) -> tuple[range, ...]:
    """Runs of addresses by ascending addresses, those that touch as one."""
    found: list[range] = []
    for run in sorted(runs, key=lambda run: run.start):
        if found and run.start <= found[-1].stop:
            found[-1] = range(found[-1].start, max(found[-1].stop, run.stop))
        else:
            found.append(run)
    return tuple(found)


def number_in(table: dict[str, Any], key: str) -> int | None:
    """A whole number of a table, None where it is left out or something else."""
    value = table.get(key)
    return value if isinstance(value, int) and not isinstance(value, bool) else None


def whole(table: dict[str, Any], key: str) -> int:
    """The same, with 0 where there is none."""
    return number_in(table, key) or 0


def page_run(text: Any) -> tuple[Holding, range] | None:
    """The pages of a text such as `ram 28-2B`, None where it is none."""
    match = PAGE_TEXT.fullmatch(text) if isinstance(text, str) else None
    first, last = (int(match[2], 16), int(match[3] or match[2], 16)) if match else (0, -1)
    return (Holding(match[1]), range(first, last + 1)) if match and first <= last else None


def pages_of(format: int, table: dict[str, Any]) -> Iterator[tuple[Holding, range]]:
    """The pages of a 3853 as runs, each with its sort."""
    if format == PAGE_TEXTS:
        texts = table.get('pages')
        yield from (run for text in (texts if isinstance(texts, list) else []) if (run := page_run(text)))
        return
    for holding in Holding:
        first, count = whole(table, f'{holding.value}_page'), whole(table, f'{holding.value}_pages')
        if count > 0:
            yield holding, range(first, first + count)


def spaces_of(format: int, kind: Kind, table: dict[str, Any]) -> Iterator[tuple[Holding, range]]:
    """The addresses of a chip as runs, each with its sort."""
    if kind is Kind.SMI:
        yield from ((holding, range(PAGE * run.start, PAGE * run.stop)) for holding, run in pages_of(format, table))
    elif kind is Kind.PSU and isinstance(table.get('base'), int):
        yield Holding.ROM, range(whole(table, 'base'), whole(table, 'base') + PSU_BYTES)


def ports_of(kind: Kind, table: dict[str, Any]) -> range:
    first = SMI_PORTS if kind.has_fixed_ports else whole(table, 'ports')
    return range(first, first + 4) if first else range(0)


def chip_of(number: int, format: int, kind: Kind, socket: int, table: dict[str, Any]) -> Chip:
    texts = {key: value for key in ('rom', 'source') if isinstance(value := table.get(key), str)}
    power = {key: number_in(table, key) for key in ('fill', 'start')} if format == PAGE_TEXTS and kind.has_memory else {}
    return Chip(number, kind, socket, tuple(spaces_of(format, kind, table)), ports_of(kind, table), whole(table, 'vector'),
                table.get('interrupt') is True, texts.get('rom'), texts.get('source'), **power)


def chips_of(format: int, tables: Any) -> list[Chip]:
    """The chips whose kind is known, each in the next socket of its kind."""
    found: list[Chip] = []
    for number, table in enumerate(tables if isinstance(tables, list) else []):
        name = table.get('kind') if isinstance(table, dict) else None
        kind = next((kind for kind in Kind if kind.value == name), None)
        if kind is not None:
            socket = kind.first_socket + sum(chip.kind is kind for chip in found)
            found.append(chip_of(number, format, kind, socket, table))
    return found


def older_escape(found: re.Match[str]) -> str:
    if found[1]:
        return f'\\u00{found[1]}'
    return '\\u001B' if found[0] == '\\e' else found[0]


def with_older_escapes(text: str) -> str:
    """The same document without the escapes `\\e` and `\\x1B` of TOML 1.1, as Python reads TOML 1.0."""
    if '\\e' not in text and '\\x' not in text:
        return text
    return TOML_PIECE.sub(lambda piece: ESCAPE.sub(older_escape, piece[0]) if piece[0].startswith('"') else piece[0], text)


@dataclass(frozen=True)
class Description:
    """A description as TOML reads it."""
    path: str
    text: str = ''
    values: dict[str, Any] = field(default_factory=dict)
    chips: tuple[Chip, ...] = ()
    fault: str = ''

    @classmethod
    def of(cls, data: bytes, path: str = '') -> Description:
        """What any bytes describe, as far as they make sense."""
        try:
            text = data.decode('utf-8-sig')
        except UnicodeDecodeError:
            return cls(path, fault='The file is not UTF-8.')
        if tomllib is None:
            return cls(path, text, fault=f'{NEEDS_TOML}.')
        try:
            values = tomllib.loads(with_older_escapes(text))
        except tomllib.TOMLDecodeError as error:
            return cls(path, text, fault=str(error))
        except RecursionError:
            return cls(path, text, fault='Lists or tables are nested too deep: at most 80 are taken.')
        except ValueError:
            return cls(path, text, fault='A number has too many digits.')
        return cls(path, text, values, tuple(chips_of(whole(values, 'format'), values.get('chip'))))

    @classmethod
    def read(cls, path: str | Path, program: Program) -> Description:
        """A description that the program takes, with the bytes of its ROMs. What it refuses raises Fault, with its line."""
        answer = program.on_text('debug', b'', path)  # no command: the files are read, the chips fitted, and nothing else
        answer.done(f'check {path}')
        found = cls.of(Path(path).read_bytes(), str(path))
        if found.fault:
            raise Refused(found.fault.rstrip('.'))
        return replace(found, chips=tuple(filled(chip, program) for chip in found.chips))

    @classmethod
    def at_hand(cls, path: str, program: Program | None) -> Description:
        """A description as far as it can be read, with bytes and texts where the program takes it."""
        with suppress(Refused, OSError, ValueError):
            if program is not None:
                return cls.read(path, program)
        with suppress(OSError, ValueError):
            return cls.of(Path(path).read_bytes(), path)
        return cls(path)

    @property
    def format(self) -> int:
        """The number of its form, 0 where it gives none."""
        return whole(self.values, 'format')

    @property
    def tables(self) -> list[dict[str, Any]]:
        """The tables of the chips as they are written."""
        given = self.values.get('chip')
        return [table for table in given if isinstance(table, dict)] if isinstance(given, list) else []

    @property
    def split(self) -> tuple[int, ...]:
        """The registers that are tracked."""
        given = self.values.get('split')
        return tuple(value for value in given if isinstance(value, int)) if isinstance(given, list) else ()

    def holders(self, address: int) -> list[Chip]:
        """The chips in whose space an address lies: one, or none, or several, where they conflict."""
        return [chip for chip in self.chips if chip.holds(address)]

    def memory(self) -> dict[int, int]:
        """The bytes of ROM at the addresses that one chip holds."""
        return {address: byte for chip in self.chips for address, byte in chip.bytes.items() if len(self.holders(address)) == 1}


def filled(chip: Chip, program: Program) -> Chip:
    """A chip with the bytes of its ROM: those of `rom` or of the source, and FF where neither gives one."""
    found = dict.fromkeys(chip.rom_addresses, EMPTY_ROM)
    text = Text.read(chip.source, program) if chip.source is not None else None
    if text is not None:
        found.update(text.image.bytes)
    elif chip.digits is not None:
        found.update(zip(chip.rom_addresses, bytes.fromhex(chip.digits)))
    return replace(chip, bytes=found, text=text)
