"""What `migrate` makes of a description, worked out apart from the program."""
from __future__ import annotations

from typing import Any, Iterator

SORTS = ('rom', 'ram', 'void')


def migrated(values: dict[str, Any]) -> dict[str, Any]:
    """The table in format 2 that says the same as one that the program takes."""
    if values['format'] == 2:
        return values
    chips = {'chip': [migrated_chip(chip) for chip in values['chip']]} if 'chip' in values else {}
    return {**values, 'format': 2, **chips}


def migrated_chip(chip: dict[str, Any]) -> dict[str, Any]:
    if chip['kind'] != '3853':
        return chip
    runs = {f'{sort}_page{end}' for sort in SORTS for end in ('', 's')}
    return {**{key: value for key, value in chip.items() if key not in runs}, 'pages': list(page_texts(chip))}


def page_texts(chip: dict[str, Any]) -> Iterator[str]:
    for sort in SORTS:
        first, count = chip.get(f'{sort}_page', 0), chip.get(f'{sort}_pages', 0)
        if count:
            yield f'{sort} {first:02X}' + (f'-{first + count - 1:02X}' if count > 1 else '')
