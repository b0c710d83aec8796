"""What a text or a file of names tells of an address: a name for it, and the line that has its byte."""
from __future__ import annotations

from dataclasses import dataclass
from pathlib import Path

LAST_ADDRESS = 0xFFFF


@dataclass(frozen=True)
class Name:
    """A name for an address, or for another value, and the file and line that give it, where they are known."""
    text: str
    value: int
    file: str = ''
    line: int = 0
    is_label: bool = True


@dataclass(frozen=True)
class Place:
    """The line of a text to which the byte at an address belongs."""
    file: str
    line: int
    address: int  # of the line's first byte
    size: int
    statement: str

    def told(self) -> str:
        """The line in words, as `bios.f8 line 41: PK`."""
        return f'{Path(self.file).name} line {self.line}' + (f': {self.statement}' if self.statement else '')
