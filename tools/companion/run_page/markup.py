"""Elements of HTML and SVG as text, with all that isn't an element escaped."""
from __future__ import annotations

import html
import json
from typing import Iterable, Union

VOID = frozenset('meta img input br'.split())  # the elements that have no end; those of a drawing have one


class Markup(str):
    """Text that is HTML already."""


Content = Union[str, int, None, Iterable['Content']]


def markup(content: Content) -> Markup:
    """Any content as HTML: plain text escaped, lists one after another, and nothing for None."""
    if content is None:
        return Markup('')
    if isinstance(content, Markup):
        return content
    if isinstance(content, (str, int)):
        return Markup(html.escape(str(content), quote=False))
    return Markup(''.join(markup(part) for part in content))


def element(name: str, /, *content: Content, **attributes: str | int | float | bool | None) -> Markup:
    """An element. An attribute's name loses a `_` at its end, and has a `-` for any other; None and False leave it out."""
    words = [name]
    for key, value in attributes.items():
        if value is None or value is False:
            continue
        key = key.rstrip('_').replace('_', '-')
        words.append(key if value is True else f'{key}="{html.escape(str(value))}"')
    start = f'<{" ".join(words)}>'
    return Markup(start if name in VOID and not content else f'{start}{markup(content)}</{name}>')


def svg(width: int, height: int, label: str, *content: Content, **attributes: str) -> Markup:
    """A drawing that is as wide as its place, with words for those who can't see it."""
    return element('svg', element('title', label), *content, viewBox=f'0 0 {width} {height}', role='img', **attributes)


def table(heads: Iterable[Content], rows: Iterable[Markup], caption: str | None = None, class_: str | None = None) -> Markup:
    """A table in a box that scrolls by itself where it is too wide."""
    return scrolling(element('table', caption and element('caption', caption),
                             element('thead', element('tr', [element('th', head, scope='col') for head in heads])),
                             element('tbody', rows), class_=class_), caption or 'table')


def row(*cells: Content, **attributes: str | None) -> Markup:
    return element('tr', [cell if isinstance(cell, Markup) and cell.startswith(('<td', '<th')) else element('td', cell) for cell in cells],
                   **attributes)


def scrolling(content: Markup, label: str) -> Markup:
    return element('div', content, class_='scrolling', tabindex=0, role='region', aria_label=f'{label}, may be scrolled')


def section(anchor: str, title: str, *content: Content) -> Markup:
    return element('section', element('h2', title, id=f'{anchor}-title'), *content, id=anchor, aria_labelledby=f'{anchor}-title')


def data(anchor: str, value: object) -> Markup:
    """Values for the page's own JavaScript. No text in them can end the element."""
    text = json.dumps(value, ensure_ascii=True, separators=(',', ':')).replace('<', '\\u003c')
    return element('script', Markup(text), type='application/json', id=anchor)
