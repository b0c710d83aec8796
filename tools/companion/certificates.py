"""The text of a certificate, as docs/FORMATS.md has it."""
from __future__ import annotations

from typing import Iterator, Mapping

from companion.domain import COUNTERS, FACTS, REGISTERS, STATUS, Known, Part, Point, PowerOn, State, Unknown, digits


def certificate(notes: Mapping[Point, State]) -> str:
    """What `check --cert` writes of a map."""
    return f'F8CERT 1 {len(notes)}\n' + ''.join(f'{entry(point, notes[point])}\n' for point in sorted(notes, key=Point.order))


def entry(point: Point, state: State) -> str:
    return ' '.join([point.text(), *fields(state)])


def fields(state: State) -> Iterator[str]:
    yield digits(state[Part.A], 2)
    yield ''.join(digits(state[part], 1) for part in (Part.ISAR_HIGH, Part.ISAR_LOW))
    yield ''.join(digits(state[part], 1) for part in STATUS)
    yield from (digits(state[part], 4) for part in COUNTERS)
    yield ''.join('0' if isinstance(state[part], Unknown) else '1' for part in FACTS)
    yield ''.join(digits(byte, 2) for byte in state[:REGISTERS])


def read_certificate(text: str) -> dict[Point, State]:
    """The states of a certificate that the program wrote. It doesn't say what lost a part, so each counts as lost since power-on."""
    return dict(read_entry(line.split(' ')) for line in text.splitlines()[1:])


def read_entry(words: list[str]) -> tuple[Point, State]:
    at, back, tracked, a, isar, status, d0, d1, c, facts, scratchpad = words
    values = [] if tracked == '.' else [number(word) for word in tracked.split(',')]
    found: dict[Part, Known | None] = {Part(register): number(scratchpad[2 * register:2 * register + 2]) for register in range(REGISTERS)}
    found[Part.A] = number(a)
    found.update(zip((Part.ISAR_HIGH, Part.ISAR_LOW), map(number, isar)))
    found.update((part, None if bit == '-' else bit == '1') for part, bit in zip(STATUS, status))
    found.update(zip(COUNTERS, map(number, (d0, d1, c))))
    found.update((part, True if bit == '1' else None) for part, bit in zip(FACTS, facts))
    state = tuple(Unknown(PowerOn(part)) if found[part] is None else found[part] for part in Part)
    return Point(int(at, 16), number(back), tuple(values)), state


def number(word: str) -> int | None:
    """A number in hexadecimal digits; dashes are none."""
    return None if word.startswith('-') else int(word, 16)
