"""The frames of a run: their lines, their pictures in four colours, and these as PNG."""
from __future__ import annotations

import argparse
import re
import struct
import zlib
from dataclasses import dataclass, field
from typing import Iterable, Iterator, Sequence, Tuple

WIDTH, HEIGHT = 128, 64
HEAD = re.compile(rb'frame (\d+) phi (\d+) tone ([0-3])')
ROW = re.compile(rb'[0-3] [0-3]{128}')

COLOURS = {
    'paper': ('f5ecd7', '8db8c7', 'd8663a', '22304a'),
    'night': ('10142a', '35507a', 'e0b04c', 'f4f1e4'),
    'grey': ('ffffff', 'aaaaaa', '555555', '000000'),
}
Colour = Tuple[int, int, int]  # red, green and blue


@dataclass
class Frame:
    """A frame of a run: its lines as they came, what the first of them tells, and the rows of colours 0 to 3."""
    head: bytes
    lines: list[bytes] = field(default_factory=list)

    def __post_init__(self):
        self.number, self.phi, self.tone = map(int, HEAD.fullmatch(self.head.rstrip(b'\r\n')).groups())

    @property
    def rows(self) -> list[list[int]]:
        return [[digit - ord('0') for digit in line[2:2 + WIDTH]] for line in self.lines]

    def whole(self) -> bool:
        return len(self.lines) == HEIGHT


def parts(lines: Iterable[bytes]) -> Iterator[bytes | Frame]:
    """The lines of a run, those of a frame taken together. The last frame of a run that was cut off isn't whole."""
    frame = None
    for line in lines:
        bare = line.rstrip(b'\r\n')
        if frame is not None:
            if ROW.fullmatch(bare):
                frame.lines.append(line)
                if frame.whole():
                    yield frame
                    frame = None
                continue
            yield frame
            frame = None
        if HEAD.fullmatch(bare):
            frame = Frame(line)
        else:
            yield line
    if frame is not None:
        yield frame


def colours_of(text: str) -> tuple[Colour, ...]:
    """Four colours, by the name of a set or as four times RRGGBB with commas between."""
    words = COLOURS.get(text) or tuple(text.split(','))
    if len(words) != 4 or not all(re.fullmatch('[0-9a-fA-F]{6}', word) for word in words):
        names = ', '.join(COLOURS)
        raise argparse.ArgumentTypeError(f'{text!r} is neither one of {names} nor RRGGBB,RRGGBB,RRGGBB,RRGGBB')
    return tuple(tuple(bytes.fromhex(word)) for word in words)


def png(rows: Sequence[Sequence[int]], colours: Sequence[Colour], scale: int) -> bytes:
    """The picture as a PNG with a palette, two bits a pixel."""
    def chunk(name: bytes, body: bytes) -> bytes:
        return struct.pack('>I', len(body)) + name + body + struct.pack('>I', zlib.crc32(name + body))

    def packed(row: Sequence[int]) -> bytes:
        wide = [pixel for pixel in row for _ in range(scale)]
        return bytes(sum(pixel << (6 - 2 * n) for n, pixel in enumerate(wide[x:x + 4])) for x in range(0, len(wide), 4))

    head = struct.pack('>IIBBBBB', WIDTH * scale, HEIGHT * scale, 2, 3, 0, 0, 0)
    body = b''.join((b'\0' + packed(row)) * scale for row in rows)
    return (b'\x89PNG\r\n\x1a\n' + chunk(b'IHDR', head) + chunk(b'PLTE', bytes(sum(colours, ())))
            + chunk(b'IDAT', zlib.compress(body, 9)) + chunk(b'IEND', b''))
