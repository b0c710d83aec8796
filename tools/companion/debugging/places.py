"""Places as people give them at the prompt, and the listing around one."""
from __future__ import annotations

import re
from pathlib import Path
from typing import Iterator

from companion.debugging.replay import State
from companion.instructions import ADDRESSES, decoded
from companion.names import Names
from companion.words import Refused

ADDRESS = re.compile(r'(?:\$|0x)?([0-9A-Fa-f]{1,4})')
OFFSET = re.compile(r'(.+?)\+(?:\$|0x)?([0-9A-Fa-f]{1,4})')
LINE = re.compile(r'(.*):(\d+)')


class Places:
    """The labels and lines of a cartridge, and the bytes of its ROMs."""

    def __init__(self, names: Names, memory: dict[int, int]):
        self.names, self.memory = names, memory

    def byte(self, address: int) -> int | None:
        return self.memory.get(address)

    def address(self, text: str, state: State) -> int:
        """An address by a counter, a label, a line of a source, or hexadecimal digits; a label goes before digits."""
        if offset := OFFSET.fullmatch(text):
            return (self.address(offset[1], state) + int(offset[2], 16)) % ADDRESSES
        if text in ('.', *state.counters):
            return state.counters.get(text, state.address)
        label = self.names.value(text)
        if label is not None:
            return label
        if line := LINE.fullmatch(text):
            return self.of_line(line[1], int(line[2]))
        if digits := ADDRESS.fullmatch(text):
            return int(digits[1], 16)
        raise Refused(f'{text} is neither a label nor an address of one to four hexadecimal digits, nor FILE:LINE')

    def of_line(self, file: str, number: int) -> int:
        """The first address of a line of a source, whose name may be cut short, or left out where there is one source."""
        found = {place.address: place for place in self.names.places.values()
                 if place.line == number and (not file or Path(place.file).name == Path(file).name)}
        if len({place.file for place in found.values()}) > 1:
            raise Refused(f'several sources have a line {number}: name one of them, as in {Path(next(iter(found.values())).file).name}:{number}')
        if not found:
            raise Refused(f'no byte comes from line {number}' + (f' of {file}' if file else ''))
        return min(found)

    def told(self, address: int) -> str:
        """The instruction at an address with its label and line, as far as they are known."""
        instruction = decoded(self.memory, address)
        if instruction is None or not instruction.is_whole:
            return f'{address:04X} {self.names.place(address) or "no byte of ROM is known here"}'
        return self.names.statement(instruction)

    def name(self, address: int) -> str:
        return self.names.short(address) if self.names.near(address) else ''

    def listing(self, start: int, count: int) -> Iterator[tuple[int, str]]:
        """Instructions from an address on, each with its text; bytes of data by the lines that give them."""
        at = start
        for _ in range(count):
            if at not in self.memory:
                return
            place, instruction = self.names.places.get(at), decoded(self.memory, at)
            if place is not None and place.address == at:
                size = place.size
            else:
                size = instruction.size
            yield at, self.told(at)
            at = (at + size) % ADDRESSES

    def before(self, address: int, count: int) -> int:
        """An address some lines further up, where the lines of the source are known."""
        at = address
        for _ in range(count):
            place = self.names.places.get((at - 1) % ADDRESSES)
            if place is None:
                break
            at = place.address
        return at
