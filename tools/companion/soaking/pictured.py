"""The picture that a run draws, and the lines of a shown frame, by docs/CONSOLE.md."""
from __future__ import annotations

from typing import Iterator

WIDTH, HEIGHT = 128, 64
STROKE = 0x20  # the bit of port 0 whose rise draws a pixel
SWITCHES = (125, 126)  # the pixels of a row that say its palette
DRAWING = (0, 1, 4, 5)


class Board:
    """The pixels, and the bytes last written to the ports that draw."""

    def __init__(self) -> None:
        self.pixels = [[0] * WIDTH for _ in range(HEIGHT)]
        self.latches = dict.fromkeys(DRAWING, 0)

    def write(self, port: int, byte: int) -> None:
        if port == 0 and byte & STROKE and not self.latches[0] & STROKE:
            self.pixels[(255 - self.latches[5]) % HEIGHT][(255 - self.latches[4]) % WIDTH] = (255 - self.latches[1]) // 64
        if port in self.latches:
            self.latches[port] = byte

    def lines(self, frame: int, phi: int) -> Iterator[str]:
        yield f'frame {frame} phi {phi} tone {self.latches[5] // 64}'
        for row in self.pixels:
            palette = sum((place + 1) * (row[at] > 1) for place, at in enumerate(SWITCHES))
            yield f'{palette} {"".join(map(str, row))}'
