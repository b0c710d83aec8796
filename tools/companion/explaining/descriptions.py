"""Faults of descriptions, and what the program takes and is likely a mistake."""
from __future__ import annotations

import re
from itertools import combinations
from typing import Any, Iterator

from companion.description import FORMATS, PAGE, PAGE_TEXTS, PSU_BYTES, Chip, Holding, Kind, tomllib
from companion.explaining.files import Files, Sort
from companion.explaining.page_texts import pages_hint
from companion.page_tables import cause_of, close, row_about, tables

HEX = '[0-9A-Fa-f]'
LARGEST = 2 ** 63 - 1  # of a whole number of TOML, and below it the smallest
HINTS = [
    (r'=\s*\$', 'A hexadecimal number of TOML begins with 0x: `0x0400`.'),
    (rf'=\s*{HEX}+[hH]\s*(#|$)', 'A hexadecimal number of TOML begins with 0x: `0x0400`.'),
    (r'^\s*split\s*=\s*\[?[^#"\']*\br\d', 'Registers are numbers alone, in brackets: `split = [0]`.'),
    (r'^\s*[\w-]+\s*:', 'A key is separated from its value by `=`.'), (r'^\s*[;/]', 'A comment of TOML begins with `#`.'),
    (r'=\s*0\d', 'A decimal number of TOML has no zeros in front; a hexadecimal one begins with 0x.'),
    (r'=\s*"[^"]*\\', 'In double quotes `\\` is a mark of its own: write paths with `/`, or in single quotes.'),
    (r'=\s*[\'"][^\'"]*$', 'The closing quote is missing; a text of several lines is put between `"""` and `"""`.'),
    (r'=\s*(True|False|yes|no)\b', 'The truth values of TOML are `true` and `false`.'),
    (r'=\s*([A-Za-z_./][\w./-]*)', r'A text is written in quotes: `"\1"`.'), (r'=\s*(#|$)', 'The value is missing.'),
    (rf'=\s*{HEX}+\s*(#|$)', 'A hexadecimal number of TOML begins with 0x: `0x0400`.'),
]
PLAIN_HINTS = {
    ('format', 1): 'The first line is `format = 1` or `format = 2`.', ('rom', 1): 'Give the chip a `source`, or its bytes in `rom`.',
    ('source', 8): 'Leave out `rom` or `source`.', ('format', 4): 'The formats are 1 and 2: `format = 2`.',
}
KINDS = tuple(kind.value for kind in Kind)
ALIKE = 'the same'


def first(text: str) -> str:
    """The hint of the first form that is found in a line."""
    return next((match.expand(hint) if '\\1' in hint else hint for form, hint in HINTS if (match := re.search(form, text))), '')


def toml(files: Files) -> list[str]:
    """What hinders the reader of TOML, which is Python's own here."""
    fault = files.description.fault
    if odd := files.looks_like('cart', Sort.DESCRIPTION):
        return odd
    if tomllib is None:
        return ['The description is no TOML document. Python 3.11 or later tells the line, and this one is older.']
    if not fault:
        return taken_by_python(files)
    found = re.search(r'(.*) \(at (?:line (\d+), column (\d+)|end of document)\)', fault)
    if not found or not found[2]:
        return [fault.replace(' (at end of document)', ', up to the end of the document') + ('' if fault.endswith('.') else '.')]
    shown, text = files.line('cart', int(found[2]), int(found[3]))
    if 'verwrite' in found[1] or 'twice' in found[1]:
        return [*shown, 'A key or a table is there twice. Each further chip begins with a `[[chip]]` of its own.']
    return [*shown, f'TOML: {found[1]}.', *filter(None, [first(text)])]


def taken_by_python(files: Files) -> list[str]:
    """What the program refuses and Python's reader takes: numbers out of 64 bits, and deep nesting."""
    if files.read('cart') is None:
        return ['The description is no TOML document.']
    for number, text in enumerate(files.description.text.split('\n'), 1):
        for match in re.finditer(r'(?<![\w"\'.])[-+]?(0x[0-9A-Fa-f_]+|0b[01_]+|0o[0-7_]+|\d[\d_]*)(?![\w"\'.])', text):
            if abs(int(match[0], 0)) > LARGEST:
                shown = files.line('cart', number, len(text[:match.start()].encode()) + 1)[0]
                return [*shown, f'The number has too many digits: the largest is {LARGEST:,}.']
    return ["Python's reader takes this document: look for lists or tables that are nested more than 80 deep."]


def line_of(text: str, chip: int | None, key: str) -> int:
    """The line of a key, or of the head of its chip where it is left out; 0 where neither is found."""
    at, head = -1, 0
    for number, line in enumerate(text.split('\n'), 1):
        if re.match(r'\s*\[\[\s*chip\s*\]\]', line):
            at += 1
            head = number if at == chip else head
        if at == (-1 if chip is None else chip) and re.match(rf'\s*(\[+\s*)?"?{re.escape(key)}"?\s*[=\]]', line):
            return number
    return head


def known_keys(column: str, format: int) -> list[str]:
    """The keys of a table in a format, by the column of its kind in docs/FORMATS.md. Those at the top are the same in both formats."""
    return [name for table in tables('FORMATS.md') if column in table.head for row in table.rows
            if table.cell(row, column) != 'unknown' and str(format) in (table.cell(row, 'format') or str(format))
            for name in re.findall(r'`(\w+)`', row[0])]


def key(files: Files, chip: str | None, key: str, cause: str) -> list[str]:
    description, number = files.description, None if chip is None else int(chip)
    chips, format = description.tables, description.format if description.format in FORMATS else FORMATS[0]
    values = description.values if number is None else chips[number] if number < len(chips) else {}
    kind = str(values.get('kind')) if number is not None else ''
    column = f'in a {kind}' if kind in KINDS else 'value' if number is None else 'in a 3851'
    known = known_keys(column, format)
    lines = []
    for name in [name for name in values if name not in known] or ['?'] if key == '?' else [key]:
        places = [number, *range(len(chips))] if key == 'format' else [number]
        if at := next((at for place in places if (at := line_of(description.text, place, name))), 0):
            lines += files.line('cart', at)[0]
        if key == '?':
            lines.append(unknown_key(name, known, number, kind, format))
    rule = rule_of(key, column) if key != '?' else ''
    sentence = cause_of('FORMATS.md', 'Description', f'error cart {"" if chip is None else f"chip {chip} "}key {key} cause {cause}')
    hint = key_hint(key, int(cause), values.get(key), chips, format) or gap_hint(files, key, number)
    return [*lines, sentence, *([f'The rule for `{key}`: {rule}.'] if rule else []), *filter(None, [hint])]


def rule_of(key: str, column: str) -> str:
    """What docs/FORMATS.md says of the value at a key. A 3853 has many keys alike with a 3851."""
    rule, first = row_about('FORMATS.md', key, column), row_about('FORMATS.md', key, 'in a 3851')
    return first + rule[len(ALIKE):] if rule.startswith(ALIKE) and first != 'unknown' else rule


def unknown_key(name: str, known: list[str], chip: int | None, kind: str, format: int) -> str:
    """Where a key belongs that isn't known in its place, or which one is meant."""
    if chip is not None and name in known_keys('value', format):
        return f'`{name}` is no key of a chip: TOML takes all that is below a `[[chip]]` for keys of that chip. Put it before the first one.'
    other = next((other for other in KINDS if name in known_keys(f'in a {other}', format)), '')
    if other and chip is None:
        return f'`{name}` is a key of a chip: it stands below a line `[[chip]]`.'
    if other and kind in KINDS:
        return f'`{name}` is no key of a {kind}, but of a {other}. The keys of a {kind} are {", ".join(known)}.' + lacking(kind)
    if kind in KINDS and name in known_keys(f'in a {kind}', 3 - format):
        return of_other_format(name, format)
    meant = close(name, known)
    return f'`{name}` is no key here' + (f': is `{meant}` meant?' if meant else f'. The keys are {", ".join(known)}.')


def lacking(kind: str) -> str:
    """Why a kind has few keys."""
    return '' if Kind(kind).has_memory else f' A {kind} has neither memory nor counters.'


def of_other_format(name: str, format: int) -> str:
    """What is said of a key that the kind has in the other format."""
    if format == PAGE_TEXTS:
        return (f'`{name}` is a key of format 1. In format 2 the pages of a 3853 are texts, as in `pages = ["ram 28"]`. '
                'Of a whole description in format 1 `./channel_f migrate CART` makes one in format 2.')
    instead = ': in format 1 they are given by `ram_page` and `ram_pages`, and so on' if name == 'pages' else ''
    return f'`{name}` is a key of format 2{instead}. `./channel_f migrate CART` makes a description in format 2 of this one without that key.'


def gap_hint(files: Files, key: str, number: int | None) -> str:
    """Which pages lack for the source of a 3853, whose ROM has to be in one piece."""
    chip = next((chip for chip in files.description.chips if chip.number == number), None)
    if key != 'source' or chip is None or chip.kind is not Kind.SMI or len(chip.rom) < 2:
        return ''
    gap = f'{chip.rom[0].stop // PAGE:02X} to {chip.rom[1].start // PAGE - 1:02X}'
    return f'The pages {gap} lie between its ROM pages and are no ROM: give the bytes in `rom`, which may have such gaps, or part the text over two chips.'


def kind_hint(value: Any, format: int) -> str:
    """Which kinds there are in a format, or in which format there is one."""
    if value in KINDS and format not in (formats := Kind(value).formats):
        return (f'A {value} is a chip of format {formats[0]}: begin with `format = {formats[0]}`. '
                f'`./channel_f migrate CART` makes a description in format {formats[0]} of this one without that chip.')
    *most, last = [f'`"{kind.value}"`' for kind in Kind if format in kind.formats]
    return f'The kinds of format {format} are {", ".join(most)} and {last}.'


def key_hint(key: str, cause: int, value: Any, chips: list[dict], format: int) -> str:
    """What is likely meant by the value of a key."""
    if key == 'kind' and cause in (1, 4):
        return kind_hint(value, format)
    if key == 'split' and cause in (3, 4):
        return split_hint(value)
    if key == 'pages':
        return pages_hint(cause, value)
    if isinstance(value, str) and cause == 3 and key not in ('kind', 'rom', 'source'):
        return f'A number is written without quotes: `{key} = {value}`.'
    if isinstance(value, int) and value.bit_length() > 64:
        return 'The number has too many digits.'
    if isinstance(value, int) and cause == 3 and key == 'kind':
        return f'The kind is a text, in quotes: `kind = "{value}"`.'
    if isinstance(value, int) and cause in (4, 5) and key in ('base', 'ports'):
        return nearest(value, *((PSU_BYTES, 0, 64_512) if key == 'base' else (4, 4, 252)))
    if isinstance(value, int) and cause == 4 and key.endswith('_page') and value > 255:
        return f'The number of a page is an address divided by 256: `{key} = {value >> 8:#04x}`.'
    if isinstance(value, str) and key == 'rom' and cause == 7:
        odd = re.search(rf'[^{HEX[1:-1]}]', value)
        return (f'Only digits may be between the quotes, and there is {odd[0]!r}.' if odd else
                f'These are {len(value)} digits' + (': half a byte is left over.' if len(value) % 2 else f', or {len(value) // 2} bytes.'))
    if key == 'chip' and cause == 3:
        return 'Each chip begins with `[[chip]]`, in two brackets, also a single one.'
    if key == 'format' and cause == 1 and any('format' in chip for chip in chips):
        return 'It is after a `[[chip]]`, so TOML takes it for a key of that chip. Put it before the first one.'
    return PLAIN_HINTS.get((key, cause), '')


def split_hint(value: Any) -> str:
    given = value if isinstance(value, list) else [value]
    numbers = [match[1] for one in given if (match := re.fullmatch(r'\s*[rR]?(\d{1,2})\s*', str(one)))]
    if numbers and (not isinstance(value, list) or any(isinstance(one, str) for one in given)):
        return f'The registers are numbers alone, in brackets and without quotes: `split = [{", ".join(numbers)}]`.'
    if len(set(map(str, given))) < len(given):
        return 'Each register is there once.'
    return 'The registers are whole numbers from 0 to 63.'


def nearest(value: int, step: int, low: int, high: int) -> str:
    near = sorted({min(max(value // step * step + more, low), high) for more in (0, step)})
    return f'{value} is {value:#06x}. The nearest that fit: ' + ' and '.join(f'{one:#06x}' if step == PSU_BYTES else f'{one}' for one in near) + '.'


def sockets(files: Files, kind: str, need: str, have: str) -> list[str]:
    numbers = [str(number) for number, table in enumerate(files.description.tables) if str(table.get('kind')) == kind]
    *most, last = numbers or ['']
    chips = [f'The chips {", ".join(most)} and {last} of the description are of the kind {kind}.'] if most else []
    return [*chips, {'3851': 'A 3853 can hold as much ROM as all of them, in its pages, but it has no data ports.',
                     '3853': 'One 3853 can have several pages of ROM, of RAM and of void.',
                     '3861': 'A 3851 has two data ports, a timer and an interrupt too.'}.get(kind, '')]


def names_of(chips: tuple[Chip, ...]) -> str:
    return ' and '.join(f'chip {chip.number}, the {chip.kind.value},' for chip in chips)


def warnings(files: Files) -> Iterator[str]:
    """What the program takes and no run refuses before it is too late."""
    description = files.description
    for one, other in combinations(description.chips, 2):
        both = range(max(one.ports.start, other.ports.start), min(one.ports.stop, other.ports.stop))
        if both and not (one.kind.has_fixed_ports and other.kind.has_fixed_ports):
            yield (f'Warning: {names_of((one, other))} have the ports {both[0]:02X} to {both[-1]:02X} in common. A run stops where one of '
                   'them is read or written: give each 3851 and 3861 `ports` of its own, and not 12 beside a 3853.')
    for chip in description.chips:
        if chip.fill is not None and not chip.runs(Holding.RAM):
            yield f'Warning: chip {chip.number} has `fill` and no page of RAM, so that nothing is filled.'
    for number, table in enumerate(description.tables):
        for sort in ('rom', 'ram', 'void'):
            if table.get(f'{sort}_page') and not table.get(f'{sort}_pages') and table.get('kind') == '3853':
                yield (f'Warning: chip {number} has `{sort}_page` and no `{sort}_pages`, so that none of its pages is {sort.upper()}: '
                       f'add `{sort}_pages = 1`.')
