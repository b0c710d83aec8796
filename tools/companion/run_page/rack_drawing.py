"""The rack drawn at the bus step that wasn't served: the processor, the bus, and each chip with its pages and counters."""
from __future__ import annotations

import textwrap
from typing import Iterator

from companion.description import PAGE
from companion.instructions import ADDRESSES
from companion.run_page.markup import Content, Markup, element, svg
from companion.run_page.rack import Fault, Part, Role

WIDTH, BUS, LEFT, RIGHT = 420, 22, 62, 412
CARD, HEAD, GAP = 142, 62, 14  # the heights of a chip, of the processor, and between them
MAP_LEFT, MAP_WIDTH = LEFT + 12, RIGHT - LEFT - 24
TEXT_WIDTH, HEADING_WIDTH = 50, 28  # letters of a line in a chip, and beside its name
COLUMN = 84  # of a counter


def text(x: float, y: float, content: Content, class_: str | None = None, **more: str) -> Markup:
    return element('text', content, x=x, y=y, class_=class_, **more)


def at_map(address: int) -> float:
    """Where an address lies in a chip's map of all pages."""
    return round(MAP_LEFT + MAP_WIDTH * address / ADDRESSES, 1)


def pages_of(part: Part, top: int) -> Iterator[Markup]:
    """The map of all 256 pages, with those that the chip holds."""
    yield element('rect', x=MAP_LEFT, y=top, width=MAP_WIDTH, height=10, class_='map')
    for holding, space in part.chip.spaces:
        pages = f'{holding.word} {space.start:04X} to {space.stop - 1:04X}'
        wide = max(round(MAP_WIDTH * len(space) / ADDRESSES, 1), 3)
        yield element('rect', element('title', pages), x=at_map(space.start), y=top, width=wide, height=10, class_=f'page {holding.value}')


def marker(address: int, top: int, class_: str, name: str) -> Markup:
    x = at_map(address)
    return element('path', element('title', f'{name} {address:04X}'), d=f'M{x} {top - 1}l-4 -6h8z', class_=class_)


def counters(fault: Fault, part: Part, top: int) -> Iterator[Markup]:
    """Each counter of the chip, above that of the reference."""
    reference = fault.rack.reference.counters
    for number, at in enumerate(part.copies.shown if part.copies else ()):
        x = MAP_LEFT + COLUMN * number
        own, known = part.copies.counters[at], reference[at]
        is_used, is_apart = at is fault.counter, own != known
        state = 'apart' if is_apart else 'alike'
        if is_used:
            yield element('rect', x=x - 5, y=top - 13, width=COLUMN - 4, height=33, rx=3, class_='used')
        yield text(x, top, [element('tspan', f'{at.name} ', class_='dim'), element('tspan', f'{own:04X}', class_=state)], 'mono')
        yield text(x, top + 15, f'≠ {known:04X}' if is_apart else '=', f'mono small {state}')


def arrow(part: Part, y: int) -> Markup | None:
    """From a chip that drives to the bus; a broken line where it should have."""
    if part.role is Role.QUIET:
        return element('path', d=f'M{LEFT} {y}H{BUS}', class_='wire')
    head = f'M{BUS + 9} {y - 5}L{BUS + 1} {y}L{BUS + 9} {y + 5}'
    return element('path', d=f'M{LEFT} {y}H{BUS + 2}{head}', class_=f'arrow {part.role.value}')


def place_of(part: Part) -> str:
    """What a chip holds."""
    found = [f'{holding.word} {space.start:04X}-{space.stop - 1:04X}'
             for holding, space in part.chip.spaces]
    return ', '.join(found) or 'no memory'


def heading(fault: Fault, part: Part, top: int) -> list[Markup]:
    """What a chip is and holds; a long list of pages has a line of its own."""
    ports = f'ports {part.chip.ports.start:02X}-{part.chip.ports.stop - 1:02X}' if part.chip.ports else 'no ports'
    held = ports if fault.is_port else place_of(part)
    name = text(MAP_LEFT, top + 19, [element('tspan', f'socket {part.chip.socket}', class_='strong'), f'  {part.chip.kind.value}'])
    if len(held) > HEADING_WIDTH:
        return [name, text(MAP_LEFT, top + 34, held, 'mono small')]
    return [name, text(RIGHT - 12, top + 19, held, 'mono small', text_anchor='end')]


def markers(fault: Fault, part: Part, top: int) -> Iterator[Markup]:
    """Where the chip's own counter lies in its map, and the reference where that is another place."""
    if fault.counter is None or part.copies is None:
        return
    yield marker(fault.own(part.copies), top, 'own', f'its own {fault.counter.name}')
    if fault.own(part.copies) != fault.reference:
        yield marker(fault.reference, top, 'reference', 'the reference')


def card(fault: Fault, part: Part, top: int) -> list[Markup | None]:
    """A chip: what it is, its pages, its counters, and its part in the step."""
    lines = textwrap.wrap(part.words, TEXT_WIDTH)[:2]
    return [element('rect', x=LEFT, y=top, width=RIGHT - LEFT, height=CARD - GAP, rx=6, class_=f'card {part.role.value}'),
            arrow(part, top + 20),
            *heading(fault, part, top), *pages_of(part, top + 46), *markers(fault, part, top + 46), *counters(fault, part, top + 73),
            *(text(MAP_LEFT, top + 111 + 13 * number, line, f'words {part.role.value}') for number, line in enumerate(lines))]


def processor(fault: Fault) -> list[Markup]:
    where = f'port {fault.reference:02X}' if fault.counter is None else f'{fault.counter.name} {fault.reference:04X}'
    return [element('rect', x=8, y=4, width=RIGHT - 8, height=HEAD - GAP - 2, rx=6, class_='processor'),
            text(BUS, 23, [element('tspan', '3850', class_='strong'), f'  sends ROMC {fault.step.code:02X}']),
            text(BUS, 40, [element('tspan', 'the reference: ', class_='dim'), element('tspan', where, class_='strong mono')])]


def in_words(fault: Fault, parts: list[Part]) -> str:
    """The drawing for those who can't see it."""
    chips = '. '.join(f'Socket {part.chip.socket}, a {part.chip.kind.value}, {part.words}' for part in parts)
    return f'The rack at the step that was not served, with the code {fault.step.code:02X}. {chips}.'


def rack_drawing(fault: Fault) -> Markup:
    parts = list(fault.parts())
    height = HEAD + CARD * len(parts)
    bus = element('path', d=f'M{BUS} {HEAD - GAP + 2}V{height - CARD + 20}', class_='bus') if parts else None
    cards = [shape for number, part in enumerate(parts) for shape in card(fault, part, HEAD + CARD * number)]
    return svg(WIDTH, height, in_words(fault, parts), bus, *processor(fault), *cards, class_='rack')


def sample(shape: Markup) -> Markup:
    return element('svg', shape, width=14, height=14, viewBox='0 0 14 14', aria_hidden='true')


def key() -> Markup:
    """What the colours and marks of the drawing mean."""
    marks = [('page rom', 'ROM'), ('page ram', 'RAM'), ('page void', 'void')]
    boxes = [[sample(element('rect', x=0, y=2, width=14, height=10, class_=class_)), f' {name} '] for class_, name in marks]
    points = [[sample(element('path', d='M7 12l-4 -8h8z', class_=class_)), f' {name} ']
              for class_, name in (('own', "the chip's own counter"), ('reference', 'the reference'))]
    return element('p', f'The bar of a chip is all {ADDRESSES // PAGE} pages from 0000 to FFFF: ', *boxes, *points,
                   'Below each counter stands that of the reference, where it differs.', class_='small rack-key')
