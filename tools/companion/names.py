"""Names for addresses: the labels and lines of a description's sources, and those of files that are given for a binary.

Labels name places of the program.  Values of EQU name none, and are kept apart where they can be told.
"""
from __future__ import annotations

import argparse
from bisect import bisect_right, insort
from dataclasses import dataclass, field
from pathlib import Path
from typing import Iterable

from companion.assembly import Text
from companion.description import Description, Holding
from companion.instructions import Flow, Instruction
from companion.name_files import read_names
from companion.places import LAST_ADDRESS, Name, Place


@dataclass
class Names:
    """Labels by address, and the lines of texts by the addresses of their bytes."""
    labels: dict[int, Name] = field(default_factory=dict)
    values: list[Name] = field(default_factory=list)  # of EQU
    places: dict[int, Place] = field(default_factory=dict)
    spaces: list[range] = field(default_factory=list)  # no address counts from a label outside its own space
    known: list[int] = field(default_factory=list)  # the addresses of the labels, ascending

    @classmethod
    def of(cls, description: Description, files: Iterable[str | Path] = ()) -> Names:
        """The labels and lines of a description's sources, and of files of names."""
        found = cls(spaces=[run for chip in description.chips for holding in Holding for run in chip.runs(holding)])
        for chip in description.chips:
            if chip.text is not None:
                found.add_text(chip.text)
        for path in files:
            found.add_all(read_names(path))
        return found

    def add_text(self, text: Text) -> None:
        for line in text.lines:
            if line.label and line.statement == b'EQU':
                self.add(Name(line.label.decode(), line.value, text.path, line.number, is_label=False))
            elif line.label:
                self.add(Name(line.label.decode(), text.image.names[line.label], text.path, line.number))
            if line.bytes:
                self.add_place(Place(text.path, line.number, line.address, len(line.bytes), line.bare))

    def add(self, name: Name) -> None:
        """The first label of an address is the one that is shown."""
        if not name.is_label or not 0 <= name.value <= LAST_ADDRESS:
            self.values.append(name)
        elif name.value not in self.labels:
            self.labels[name.value] = name
            insort(self.known, name.value)

    def add_place(self, place: Place) -> None:
        for address in range(place.address, min(place.address + place.size, LAST_ADDRESS + 1)):
            self.places.setdefault(address, place)

    def add_all(self, found: Iterable[Name | Place]) -> None:
        for one in found:
            self.add(one) if isinstance(one, Name) else self.add_place(one)

    def at(self, address: int) -> Name | None:
        """The label at an address."""
        return self.labels.get(address)

    def value(self, text: str) -> int | None:
        """The address of a label, for words that people give."""
        return next((name.value for name in self.labels.values() if name.text == text), None)

    def near(self, address: int) -> Name | None:
        """The label at an address or the last one before it, in the same space, and in the same text where it is one of a text."""
        nowhere = range(address, address + 1) if self.spaces else range(LAST_ADDRESS + 1)
        space = next((space for space in self.spaces if address in space), nowhere)
        place = self.places.get(address)
        for index in range(bisect_right(self.known, address) - 1, -1, -1):
            at = self.known[index]
            label = self.labels[at]
            if at not in space:
                return None
            if at == address or not label.file or place and place.file == label.file:
                return label
        return None

    def short(self, address: int) -> str:
        """An address as `POPK+3`, or in four digits where no label is before it."""
        name = self.near(address)
        if name is None:
            return f'{address:04X}'
        return name.text + (f'+{address - name.value:X}' if address > name.value else '')

    def place(self, address: int) -> str:
        """An address in words, as `POPK+3, bios.f8 line 41: PK`; empty where nothing is known of it."""
        place = self.places.get(address)
        words = [self.short(address) if self.near(address) else '', place.told() if place else '']
        return ', '.join(word for word in words if word)

    def full(self, address: int) -> str:
        """An address with what is known of it: `0856 POPK+3, bios.f8 line 41: PK`."""
        return f'{address:04X} {self.place(address)}'.rstrip()

    def statement(self, instruction: Instruction) -> str:
        """An instruction at its address, by the line of its text or else by its bytes: `0856 POPK+3: PK`, where a line isn't known."""
        at = instruction.address
        place = self.places.get(at)
        if place and place.address == at and place.statement:
            return self.full(at)
        lead = f'{self.short(at)}: ' if self.near(at) else ''
        return f'{at:04X} {lead}{self.operation(instruction)}'

    def operation(self, instruction: Instruction) -> str:
        """An instruction without its address, with the label to which it leads in place of digits."""
        target = instruction.target
        label = self.at(target) if target is not None and instruction.opcode.flow is not Flow.NEXT else None
        return instruction.text(label.text if label else None)


def add_names(parser: argparse.ArgumentParser) -> None:
    parser.add_argument('--names', action='append', default=[], metavar='FILE',
                        help="names of addresses, for bytes without a source: dasm's symbol file (-s) or listing (-l), what tools/listing wrote, or "
                             'lines NAME VALUE with hexadecimal values; may be given several times')
