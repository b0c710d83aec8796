"""Random scripts: short runs for the most part, with keys and pulses."""
from __future__ import annotations

from random import Random
from typing import Iterable

PORTS = (0, 1, 4, 5, 8, 9, 12)
SKIPPED = ('', '# more', ' \t', '#steps 5')


def text_of(lines: Iterable[str], random: Random | None = None) -> str:
    """Lines as a text, with the ends that a line may have."""
    end = random.choice(('\n', '\n', '\n', '\r\n')) if random else '\n'
    text = ''.join(line + end for line in lines)
    return text.removesuffix(end) if random and random.random() < 0.1 else text


def events(random: Random) -> list[str]:
    """The power-on byte, keys and pulses, and shown frames: all but the end of a run."""
    lines = [f'power {random.randrange(256):02X}'] * (random.random() < 0.5)
    for _ in range(random.choice((0, 0, 1, 2, 4))):
        lines.append(f'at {frame(random)} keys {random.choice(PORTS):02X} {random.randrange(256):02x}')
    for _ in range(random.choice((0, 0, 0, 1, 2))):
        lines.append(f'at {frame(random)} pulse {random.randrange(4)}')
    if random.random() < 0.05:
        lines.append(f'show {random.choice((1, 1, 2))}')
    if random.random() < 0.1:
        lines.insert(random.randrange(len(lines) + 1), random.choice(SKIPPED))
    return lines


def frame(random: Random) -> int:
    return random.choice((0, 0, 0, 1, 1, 2))


def end(random: Random) -> str:
    """Mostly some hundred instructions, and now and then a frame or two."""
    pick = random.random()
    if pick < 0.06:
        return f'frames {random.choice((1, 1, 2))}'
    return f'steps {random.randrange(3000 if pick < 0.2 else 300)}'
