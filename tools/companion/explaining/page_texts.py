"""Faults of `pages`, the texts by which a description of format 2 gives the pages of a 3853."""
from __future__ import annotations

import re
from typing import Any

from companion.description import page_run

HEX = '[0-9A-Fa-f]'
MOST_TEXTS = 256
WRONG_TYPE, RANGE, BOUNDARY = 3, 4, 5
# What stands in a text, and what is meant by it. The first that fits is said.
HINTS = [
    (r'(?!(?:rom|ram|void)\b)(?i:rom|ram|void)\b', 'A text begins with `rom`, `ram` or `void` in small letters: `ram 28`.'),
    (rf'(?:rom|ram|void) +(?:0x|\$)?({HEX}{{2}}){HEX}{{2}}(?!{HEX})', r'A page is the high byte of its addresses: `\1` for all from \g<1>00 to \g<1>FF.'),
    (r'(?:rom|ram|void)\s.*(?:0x|\$)', 'Pages are two hexadecimal digits without a mark: `ram 28`.'),
    (r'(?:rom|ram|void)(?:  |\t| .*[ \t])', 'One blank stands behind the first word, and none elsewhere: `ram 28-2B`.'),
    (rf'(?:rom|ram|void) ({HEX})$', r'A page is two hexadecimal digits: `0\1`.'),
    (r'(?:rom|ram|void) .*(?:,|\.\.|:)', 'A range of pages has a hyphen between its ends, and each further one is a text of its own: `ram 28-2B`.'),
]
FORM = 'A text is `rom`, `ram` or `void`, one blank, and a page or a range of pages, each of two hexadecimal digits: `ram 28-2B`.'


def pages_hint(cause: int, value: Any) -> str:
    """What is likely meant by the value of `pages`."""
    if not isinstance(value, list):
        return f'The texts stand in brackets: `pages = ["{value}"]`.' if isinstance(value, str) else 'The value is a list of texts: `pages = ["ram 28"]`.'
    hints = {WRONG_TYPE: entry_hint, RANGE: text_hint, BOUNDARY: twice_hint}
    return hints[cause](value) if cause in hints else ''


def entry_hint(entries: list[Any]) -> str:
    number = next((number for number, entry in enumerate(entries, 1) if not isinstance(entry, str)), 0)
    return f'Entry {number} is no text. Each entry is one, in quotes: `pages = ["ram 28"]`.' if number else ''


def text_hint(entries: list[Any]) -> str:
    """What is wrong with the first text that is none, or that there are too many."""
    if len(entries) > MOST_TEXTS:
        return f'There are {len(entries)} texts, and at most {MOST_TEXTS} are taken. A range of pages needs one text alone: `ram 28-2B`.'
    text = next((entry for entry in entries if isinstance(entry, str) and page_run(entry) is None), None)
    if text is None:
        return ''
    shown = ''.join(char if char.isprintable() else '?' for char in text[:40]) + '..' * (len(text) > 40)
    return f'`{shown}` gives no pages. {meant_by(text)}'


def meant_by(text: str) -> str:
    ends = re.fullmatch(rf'(rom|ram|void) ({HEX}{{2}})-({HEX}{{2}})', text)
    if ends:
        return f'The second page lies below the first: `{ends[1]} {ends[3]}-{ends[2]}`.'
    for form, hint in HINTS:
        if match := re.match(form, text):
            return match.expand(hint)
    return FORM


def twice_hint(entries: list[Any]) -> str:
    """The first page that stands twice, and in which texts."""
    texts: dict[int, str] = {}
    for text in entries:
        _, run = page_run(text) or (None, range(0))
        if (page := next((page for page in run if page in texts), None)) is not None:
            return f'Page {page:02X} stands in `{texts[page]}` and in `{text}`: each page is there once.'
        texts.update(dict.fromkeys(run, text))
    return ''
