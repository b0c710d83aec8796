"""Descriptions as texts that the program takes."""
from __future__ import annotations

import json
from typing import Any, Iterable, Iterator, Mapping, Sequence

from companion.description import EMPTY_ROM, PAGE_TEXTS, Chip, Holding

BYTES_A_LINE = 32


def rom_lines(data: bytes) -> Iterator[str]:
    """The key `rom`, over several lines where it is long: a `\\` at the end of a line joins it to the next one."""
    if len(data) <= BYTES_A_LINE:
        yield f'rom = "{data.hex().upper()}"'
        return
    yield 'rom = """\\'
    for at in range(0, len(data), BYTES_A_LINE):
        yield data[at:at + BYTES_A_LINE].hex().upper() + '\\'
    yield '"""'


def page_text(holding: Holding, run: range) -> str:
    """Pages as a text, such as `ram 28-2B`."""
    return f'{holding.value} {run.start:02X}' + (f'-{run.stop - 1:02X}' if len(run) > 1 else '')


def page_lines(format: int, runs: Iterable[tuple[Holding, range]]) -> Iterator[str]:
    """The keys that give a 3853 its pages. In format 1 each sort has at most one run."""
    given = [(holding, run) for holding, run in runs if run]
    if format == PAGE_TEXTS:
        yield f'pages = {value_of([page_text(holding, run) for holding, run in given])}'
        return
    for holding, run in given:
        yield f'{holding.value}_page = 0x{run.start:02X}'
        yield f'{holding.value}_pages = {len(run)}'


def digits_of(chip: Chip) -> bytes:
    """The bytes that `rom` has to spell: those behind the last that isn't FF need no digits."""
    return bytes(chip.bytes[address] for address in chip.rom_addresses).rstrip(bytes([EMPTY_ROM]))


def written_anew(values: Mapping[str, Any], tables: Sequence[Mapping[str, Any]], chips: Sequence[Chip]) -> str:
    """The same description in the plainest form, for texts that are laid out otherwise."""
    lines = [f'{key} = {value_of(value)}' for key, value in values.items() if key != 'chip']
    for chip, table in zip(chips, tables):
        lines += ['', '[[chip]]', *(f'{key} = {value_of(value)}' for key, value in table.items() if key not in ('rom', 'source'))]
        lines += rom_lines(digits_of(chip)) if chip.rom else []
    return '\n'.join(lines) + '\n'


def value_of(value: Any) -> str:
    """A value as TOML has it: a number, a truth value, a text of ASCII, or a list of numbers or of such texts."""
    return json.dumps(value)
