"""What each address and each port is to the chips of a description."""
from __future__ import annotations

from enum import Enum
from typing import Sequence

from companion.description import PAGE, Chip, Holding, Kind
from companion.instructions import ADDRESSES


class Sort(Enum):
    """What an address is: that of its page where one chip holds it, and else nobody's or several chips'."""
    ROM = 'ROM'
    RAM = 'RAM'
    VOID = 'void'
    NOTHING = 'held by no chip'
    SHARED = 'held by several chips'

    @property
    def is_held_once(self) -> bool:
        return self not in (Sort.NOTHING, Sort.SHARED)


SORTS = {Holding.ROM: Sort.ROM, Holding.RAM: Sort.RAM, Holding.VOID: Sort.VOID}
VOID_BYTE = 0xFF


class Memory:
    """The map of all addresses, worked out once for each page of 256."""

    def __init__(self, chips: Sequence[Chip]):
        self.chips = chips
        self.sorts: list[Sort] = []
        self.pages: list[bytes | None] = []
        for first in range(0, ADDRESSES, PAGE):
            holders = [(chip, holding) for chip in chips if (holding := chip.holds(first))]
            sort = Sort.NOTHING if not holders else SORTS[holders[0][1]] if len(holders) == 1 else Sort.SHARED
            self.sorts.append(sort)
            self.pages.append(bytes([VOID_BYTE]) * PAGE if sort is Sort.VOID else
                              bytes(holders[0][0].bytes[at] for at in range(first, first + PAGE)) if sort is Sort.ROM else None)
        self.held_by = {kind: {first // PAGE for first in range(0, ADDRESSES, PAGE) for chip in chips if chip.kind is kind and chip.holds(first)}
                        for kind in Kind}
        self.vectors = [vector for chip in chips for vector in chip.vectors]
        self.has_written_vector = any(chip.interrupt and not chip.vectors for chip in chips)
        self.overlaps = Sort.SHARED in self.sorts
        self.held_everywhere = Sort.NOTHING not in self.sorts

    def sort(self, at: int) -> Sort:
        return self.sorts[at // PAGE]

    def byte(self, at: int) -> int | None:
        """The byte at an address of ROM, and FF at a void one; none where a store can change it, or where not exactly one chip is."""
        page = self.pages[at // PAGE]
        return None if page is None else page[at % PAGE]

    def held(self, at: int, kind: Kind) -> bool:
        """Whether some chip of a kind holds an address."""
        return at // PAGE in self.held_by[kind]

    def any(self, kind: Kind) -> bool:
        """Whether some chip of a kind has a page."""
        return bool(self.held_by[kind])

    def readers(self, port: int) -> list[Chip]:
        """The chips that have a port as a data port."""
        return [chip for chip in self.chips if port in chip.data_ports]

    def takers(self, port: int) -> list[Chip]:
        """The chips that have a port, whatever it is to them."""
        return [chip for chip in self.chips if port in chip.ports]
