"""The cartridge's listing: each chip's text or bytes, with what is known at each address, and which code no point reaches."""
from __future__ import annotations

from dataclasses import dataclass, field
from enum import Enum
from typing import Iterator

from companion.assembly import Line
from companion.calls import Reach
from companion.description import EMPTY_ROM, Chip, Description, Holding
from companion.instructions import decoded
from companion.names import Names
from companion.run_page.knowledge import At, Basis, Knowledge, differing, words_of
from companion.run_page.markup import Content, Markup, element, row, scrolling, section

BYTES_A_ROW = 8
MOST_RETURNS = 8  # of an address that are named
LONG_FILL = 16  # equal bytes from which on a stretch takes one row
NO_CODE = frozenset((b'', b'DB', b'EQU', b'ORG'))


class Mark(Enum):
    """What a row is marked with: its class on the page, and the words for it."""
    PLAIN = ''
    REFUSED = 'refused'
    STOPPED = 'stopped'
    UNSERVED = 'unserved'
    UNREACHED = 'unreached'


MARK_WORDS = {Mark.REFUSED: 'refused here', Mark.STOPPED: 'the run stopped here', Mark.UNSERVED: 'may read where no chip answers',
              Mark.UNREACHED: 'no point reaches it'}


@dataclass(frozen=True)
class Row:
    """A line of the listing."""
    text: str
    number: int | None = None  # of the source's line
    address: int | None = None
    bytes: bytes = b''
    value: int | None = None  # of an EQU
    is_code: bool = False


@dataclass
class Listing:
    """All that the listing is made of."""
    description: Description
    knowledge: Knowledge
    names: Names
    stopped_at: int | None = None
    notes: dict[int, list[str]] = field(default_factory=dict)  # what is said below the row of an address

    def __post_init__(self):
        # Where nothing is known of points, code is what calls and branches lead to, as far as bytes tell.
        self.starts = set(self.knowledge.places) or set(Reach.of(self.description).instructions)
        self.anchors: set[int] = set()
        self.above: set[str] = set()  # what is known at the row before

    def rows(self, chip: Chip) -> Iterator[Row]:
        if chip.text is not None:
            return (row_of(line) for line in chip.text.lines)
        return self.decoded_rows(chip)

    def decoded_rows(self, chip: Chip) -> Iterator[Row]:
        """Bytes without a text: instructions where points stand, and data between them."""
        for run in chip.rom:
            yield from self.decoded_run(chip, run)

    def decoded_run(self, chip: Chip, run: range) -> Iterator[Row]:
        at = run.start
        while at in run:
            instruction = decoded(chip.bytes, at) if at in self.starts else None
            if instruction is not None:
                label = self.names.at(instruction.target) if instruction.target is not None else None
                yield Row(self.labelled(at, instruction.text(label.text if label else None)), None, at, instruction.bytes, is_code=True)
                at += instruction.size
                continue
            end = next((later for later in range(at + 1, run.stop) if later in self.starts or self.names.at(later)), run.stop)
            yield from self.data_rows(chip, at, end)
            at = end

    def labelled(self, at: int, statement: str) -> str:
        label = self.names.at(at)
        return f'{label.text + ":" if label else "":<8}{statement}'

    def data_rows(self, chip: Chip, start: int, end: int) -> Iterator[Row]:
        """Bytes of data, a stretch of equal ones in one row."""
        at, fill = start, end
        while fill > start and chip.bytes[fill - 1] == chip.bytes[end - 1]:
            fill -= 1
        fill = fill if end - fill >= LONG_FILL else end
        while at < fill:
            part = bytes(chip.bytes[address] for address in range(at, min(at + BYTES_A_ROW, fill)))
            yield Row(self.labelled(at, 'DB ' + ','.join(f'${byte:02X}' for byte in part)), None, at, part)
            at += len(part)
        if fill < end:
            byte = chip.bytes[fill]
            yield Row(f'{"":<8}; {end - fill} bytes {byte:02X} to {end - 1:04X}' + ', which nothing gives' * (byte == EMPTY_ROM), None, fill)

    # ---- on the page

    def mark(self, line: Row) -> Mark:
        span = range(line.address, line.address + len(line.bytes)) if line.address is not None else range(0)
        refusal = self.knowledge.refusal
        if refusal is not None and refusal.point.at in span:
            return Mark.REFUSED
        if self.stopped_at in span:
            return Mark.STOPPED
        if any(address in span for address in self.knowledge.unserved):
            return Mark.UNSERVED
        if line.is_code and self.knowledge.is_shown and not any(address in self.starts for address in span):
            return Mark.UNREACHED
        return Mark.PLAIN

    def table_row(self, line: Row) -> Markup:
        mark = self.mark(line)
        shown = f'= {value_text(line.value)}' if line.value is not None else line.bytes.hex(' ').upper()
        beside = self.beside(line, mark)
        return row(element('td', str(line.number or ''), class_='number'),
                   element('td', f'{line.address:04X}' if line.address is not None else '', class_='at'),
                   element('td', shown, class_='bytes'), element('td', element('code', line.text), class_='text', colspan=None if beside else 2),
                   *([element('td', beside, class_='known')] if beside else []), class_=mark.value or None, id=self.anchor(line))

    def beside(self, line: Row, mark: Mark) -> list[Content]:
        """What stands beside a line: its mark, what is known there, and what is said of it."""
        at = self.knowledge.places.get(line.address) if line.bytes else None
        marked = [element('strong', MARK_WORDS[mark], class_='mark')] if mark in MARK_WORDS else []
        notes = [element('p', note) for note in self.notes.get(line.address, [])] if line.bytes else []
        return [*marked, *([self.known(at)] if at else []), *notes]

    def anchor(self, line: Row) -> str | None:
        """The first row of an address can be led to."""
        if line.address is None or not line.bytes or line.address in self.anchors:
            return None
        self.anchors.add(line.address)
        return f'a{line.address:04X}'

    def known(self, at: At) -> Content:
        """What is known at an address, in bold what the row above doesn't have; of several points what they have alike, and their returns."""
        words = [*words_of(at.common, self.knowledge.kinds), *differing(at)]
        shown = [[' ' * (number > 0), element('b', word) if word not in self.above else word] for number, word in enumerate(words)]
        self.above = set(words)
        if len(at.points) == 1 and at.points[0][0].ret is None:
            return element('span', shown or 'nothing')
        backs = [self.place(back) if back is not None else 'unset' for back in at.returns()]
        many = f'{len(at.points)} points, ' if len(at.points) > 1 else ''
        named = f'{len(backs)} returns' if len(backs) > MOST_RETURNS else ['return ', separated(backs)]
        return [element('span', shown or 'nothing'), ' ', element('span', many, named, class_='returns')]

    def place(self, address: int) -> Markup:
        name = self.names.short(address)
        return element('a', f'{address:04X}' + f' {name}' * (self.names.near(address) is not None), href=f'#a{address:04X}')

    def chip(self, chip: Chip) -> Markup:
        self.above = set()
        rows = [self.table_row(line) for line in self.rows(chip)]
        head = row(*(element('th', name, scope='col', class_=class_) for name, class_ in
                     (('line', 'number'), ('address', 'at'), ('bytes', 'bytes'), ('text', 'text'), ('what is known before it', 'known'))))
        summary = f'Socket {chip.name}' + (f', {chip.source}' if chip.source else ', from its bytes')
        return element('details', element('summary', summary),
                       scrolling(element('table', element('thead', head), element('tbody', rows), class_='listing'), f'listing of {chip.name}'),
                       open=True)


def row_of(line: Line) -> Row:
    text = line.text.rstrip(b'\r').decode('utf-8', 'replace')
    return Row(text, line.number, line.address if line.has_place() else None, line.bytes, line.value,
               bool(line.bytes) and line.statement not in NO_CODE)


def value_text(value: int) -> str:
    return f'{value:02X}' if value >= 0 else f'-{-value:02X}'


def separated(parts: list[Content]) -> Content:
    return [[', ' * (number > 0), part] for number, part in enumerate(parts)]


LEGENDS = {
    Basis.CERTIFICATE: 'Beside each instruction stands what is known before it in every run, by the certificate that check --cert writes.',
    Basis.SEARCH: 'Beside each instruction stands what was known before it when the checker came to the refusal, worked out by this tool '
                  "with the checker's rules. What the checker had not looked at has nothing beside it.",
    Basis.NONE: 'Nothing is said of what is known at each address: the verdict has no certificate, and the search for it took too long for a page.',
}
KEY = ('A, r0 to r63, IS: the accumulator, the scratchpad and ISAR. D0, D1: the data counters; c: the DC0 of every 3851. S, C, Z, O, I: '
       'the flags sign, carry, zero and overflow, and ICB. "3853s at D0": their own DC0 is D0. Two values or more belong to several points of '
       'one address. The return is the stack register, where all chips are known to have the same. What the row above does not have is bold.')


def listing(parts: Listing) -> Markup:
    chips = [parts.chip(chip) for chip in parts.description.chips if chip.rom]
    unmapped = [f'{holding.word} {space.start:04X} to {space.stop - 1:04X} of socket {chip.socket}' for chip in parts.description.chips
                for holding, space in chip.spaces if holding is not Holding.ROM]
    rest = element('p', 'Without a listing: ', '; '.join(unmapped), '.') if unmapped else None
    key = element('p', KEY, class_='small') if parts.knowledge.basis is not Basis.NONE else None
    return section('listing', 'Listing', element('p', LEGENDS[parts.knowledge.basis]), key, *chips, rest)
