"""Why a description is refused, worked out by docs/FORMATS.md on what Python's own reader of TOML gives."""
from __future__ import annotations

import re
from typing import Any, Iterator, Optional

from companion.description import FORMATS, PAGE, PSU_BYTES, Description, Holding, page_run

MISSING, UNKNOWN, WRONG_TYPE, RANGE, BOUNDARY, TOO_MANY, BAD_HEX, BOTH = range(1, 9)
MOST_BYTES = 65_536
DEEPEST = 80  # lists and tables in one another
LARGEST = 2 ** 63
TOP_KEYS = ('format', 'split', 'chip')
RUNS = ('rom_page', 'rom_pages', 'ram_page', 'ram_pages', 'void_page', 'void_pages')
OF_KIND = {('3851', 1): ('base', 'ports', 'vector', 'interrupt', 'rom', 'source'), ('3853', 1): (*RUNS, 'interrupt', 'rom', 'source'),
           ('3851', 2): ('base', 'ports', 'vector', 'interrupt', 'start', 'rom', 'source'),
           ('3853', 2): ('pages', 'interrupt', 'fill', 'start', 'rom', 'source'), ('3861', 2): ('ports', 'vector', 'interrupt')}
NEEDED = ('base', 'ports')
NUMBERS = {'base': (0, 64_512, 1024), 'ports': (4, 252, 4), 'vector': (0, 65_535, 1), 'fill': (0, 255, 1), 'start': (0, 65_535, 1),
           **{key: (0, 256 if key.endswith('s') else 255, 1) for key in RUNS}}


class Unsure(Exception):
    """Here the two readers of TOML may rightly differ, or the pages say too little."""


class At(Exception):
    """A key with a cause."""


def refusal_of(data: bytes) -> Optional[str]:
    """The line by which a description is refused, None where it is taken."""
    if len(data) > MOST_BYTES:
        return 'error long cart'
    found = Description.of(data)
    if found.fault:
        if 'nested' in found.fault or 'digits' in found.fault:
            raise Unsure
        return 'error cart toml'
    if is_odd(found.values):
        raise Unsure
    try:
        top(found.values)
        for number, table in enumerate(found.values.get('chip', [])):
            chip(f'chip {number} ', table, found.values['format'])
    except At as place:
        return f'error cart {place}'
    return None


def is_odd(value: Any, depth: int = 0) -> bool:
    """Whether a document nests deep, or has a number out of 64 bits."""
    if isinstance(value, (dict, list)):
        inner = value.values() if isinstance(value, dict) else value
        return depth > DEEPEST // 2 or any(is_odd(one, depth + 1) for one in inner)
    return isinstance(value, int) and not -LARGEST <= value < LARGEST


def at(place: str, key: str, cause: int) -> At:
    return At(f'{place}key {key} cause {cause}')


def is_number(value: Any) -> bool:
    return isinstance(value, int) and not isinstance(value, bool)


def top(values: dict[str, Any]) -> None:
    if any(key not in TOP_KEYS for key in values):
        raise at('', '?', UNKNOWN)
    if 'format' not in values:
        raise at('', 'format', MISSING)
    if not is_number(values['format']):
        raise at('', 'format', WRONG_TYPE)
    if values['format'] not in FORMATS:
        raise at('', 'format', RANGE)
    split(values.get('split', []))
    tables = values.get('chip', [])
    if not isinstance(tables, list) or not all(isinstance(table, dict) for table in tables):
        raise at('', 'chip', WRONG_TYPE)
    if len(tables) > 16:
        raise at('', 'chip', TOO_MANY)


def split(value: Any) -> None:
    if not isinstance(value, list):
        raise at('', 'split', WRONG_TYPE)
    if len(value) > 8:
        raise at('', 'split', TOO_MANY)
    if not all(is_number(entry) and 0 <= entry < 64 for entry in value) or len(set(value)) < len(value):
        raise at('', 'split', RANGE)


def chip(place: str, table: dict[str, Any], format: int) -> None:
    kind = table.get('kind')
    if 'kind' not in table:
        raise at(place, 'kind', MISSING)
    if not isinstance(kind, str):
        raise at(place, 'kind', WRONG_TYPE)
    if (kind, format) not in OF_KIND:
        raise at(place, 'kind', RANGE)
    keys = OF_KIND[kind, format]
    if any(key != 'kind' and key not in keys for key in table):
        raise at(place, '?', UNKNOWN)
    taken: set[int] = set()
    for key in keys:
        if (cause := fault_at(key, table, kind, taken)):
            raise at(place, key, cause)


def fault_at(key: str, table: dict[str, Any], kind: str, taken: set[int]) -> int:
    """The first cause at a key of a chip, 0 where there is none."""
    if key == 'rom':
        return rom_fault(table, kind)
    if key not in table:
        return run_fault(key, table, taken) if key in RUNS else MISSING if key in NEEDED else 0
    value = table[key]
    if key == 'interrupt':
        return 0 if isinstance(value, bool) else WRONG_TYPE
    if key == 'pages':
        return pages_fault(value)
    if key == 'source':
        return source_fault(value, table, kind)
    if not is_number(value):
        return WRONG_TYPE
    least, most, step = NUMBERS[key]
    if not least <= value <= most:
        return RANGE
    return run_fault(key, table, taken) if key in RUNS else BOUNDARY if value % step else 0


def run_fault(key: str, table: dict[str, Any], taken: set[int]) -> int:
    """At the key of a number of pages: a run past the last page, or over an earlier one."""
    if not key.endswith('pages'):
        return 0
    first, count = table.get(key[:-1], 0), table.get(key, 0)
    run = set(range(first, first + count))
    is_wrong = count and (first + count > 256 or run & taken)
    taken |= run
    return BOUNDARY if is_wrong else 0


def pages_fault(value: Any) -> int:
    if not isinstance(value, list) or not all(isinstance(entry, str) for entry in value):
        return WRONG_TYPE
    runs = list(map(page_run, value))
    if len(value) > 256 or None in runs:
        return RANGE
    found = [page for _, run in runs for page in run]
    return BOUNDARY if len(set(found)) < len(found) else 0


def rom_pages(table: dict[str, Any]) -> list[int]:
    """The ROM pages of a 3853 in order, in either format."""
    if 'pages' in table:
        return sorted(page for sort, run in map(page_run, table['pages']) if sort is Holding.ROM for page in run)
    first = table.get('rom_page', 0)
    return list(range(first, first + table.get('rom_pages', 0)))


def rom_fault(table: dict[str, Any], kind: str) -> int:
    if 'rom' not in table:
        return MISSING if kind == '3851' and 'source' not in table else 0
    value = table['rom']
    if not isinstance(value, str):
        return WRONG_TYPE
    most = PSU_BYTES if kind == '3851' else PAGE * len(rom_pages(table))
    return 0 if re.fullmatch('([0-9A-Fa-f]{2})*', value) and len(value) <= 2 * most else BAD_HEX


def source_fault(value: Any, table: dict[str, Any], kind: str) -> int:
    if not isinstance(value, str):
        return WRONG_TYPE
    pages = rom_pages(table) if kind == '3853' else [0]
    is_in_one = bool(pages) and pages == list(range(pages[0], pages[0] + len(pages)))
    if not re.fullmatch('[ -~]{1,64}', value) or not is_in_one:
        return RANGE
    return BOTH if 'rom' in table else 0


def sources_of(values: dict[str, Any]) -> Iterator[tuple[int, str]]:
    """The names of the sources, with the numbers of their chips."""
    for number, table in enumerate(values.get('chip', [])):
        if 'source' in table:
            yield number, table['source']


def needs(values: dict[str, Any], kind: str) -> int:
    """How many chips of a kind there are."""
    return sum(table['kind'] == kind for table in values.get('chip', []))


SOCKETS = {'3851': 12, '3853': 2, '3861': 2}


def rack_refusal(data: bytes) -> Optional[str]:
    """The line by which a description that is taken finds no place in the rack."""
    values = Description.of(data).values
    for kind, have in SOCKETS.items():
        if (need := needs(values, kind)) > have:
            return f'error sockets {kind} need {need} have {have}'
    return None
