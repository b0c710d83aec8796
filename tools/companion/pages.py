"""Parts of pages that a tool writes from the sources: put into their place, or compared with what stands there."""
from __future__ import annotations

from pathlib import Path
from typing import Iterable, Iterator

from companion.words import TOP, Refused

BEGIN = '<!-- {tool} writes what follows: {part} -->'
END = '<!-- {tool} wrote what stands above: {part} -->'


def with_part(text: str, tool: str, part: str, lines: Iterable[str]) -> str:
    """A page with a part of it written anew, between two comments that name the tool."""
    begin, end = (mark.format(tool=tool, part=part) for mark in (BEGIN, END))
    before, opened, rest = text.partition(begin)
    _, closed, after = rest.partition(end)
    if not opened or not closed:
        raise Refused(f'the page has no part "{part}" of {tool}')
    return f'{before}{begin}\n\n' + '\n'.join(lines).strip('\n') + f'\n\n{end}{after}'


def write(pages: dict[Path, str]) -> None:
    for path, text in pages.items():
        path.write_text(text, 'utf-8')


def stale(pages: dict[Path, str], tool: str) -> Iterator[str]:
    """A line for each page that isn't as it has to be."""
    for path, text in pages.items():
        if path.read_text('utf-8') != text:
            yield f"{path.relative_to(TOP)} isn't as the sources have it: {tool} --write"
