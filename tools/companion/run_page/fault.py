"""The section on a bus step that wasn't served: the explanation, the rack, and the steps that led to it."""
from __future__ import annotations

from typing import Sequence

from companion.counters import Copies, Counter
from companion.run_page.markup import Content, Markup, element, row, section, table
from companion.run_page.rack import Fault, Followed, Shown
from companion.run_page.rack_drawing import key, rack_drawing
from companion.run_page.run import Run

COPY_WIDTH = 5  # of a chip's counter in the table of steps
LEGEND = ('Counters are those after the step. Of each chip a dot is a counter that is as the reference; one that is marked parts in '
          'this step.')


def step_row(shown: Shown) -> list[Content]:
    heard, step = shown.heard, shown.heard.step
    byte = '--' if step.byte is None else f'{step.byte:02X}'
    driver = 'not served' if step.byte is None else {'-': '-', 'cpu': '3850'}.get(step.driver, f'socket {step.driver}')
    length = 'long' if step.is_long else 'short'
    return [str(heard.number), f'{step.code:02X} {length}', byte, driver, heard.at, *(f'{counter:04X}' for counter in heard.reference),
            *(element('td', apart(text), class_='copies') for text in heard.copies)]


def apart(text: str) -> list[Content]:
    """A chip's counters as trace writes them: a dot where it is the reference's, and a star where it parts."""
    return [[element('mark', word[:4]), ' '] if word.endswith('*') else f'{word:<{COPY_WIDTH}}' for word in text.split()]


def chip_head(chip: Copies) -> Content:
    return [chip.name, element('span', ''.join(f'{at.name:<{COPY_WIDTH}}' for at in chip.shown), class_='copies')]


def steps_table(steps: Sequence[Shown], found: Followed, caption: str) -> Markup:
    heads = ['step', 'code', 'byte', 'from', 'at', *(counter.name for counter in Counter), *map(chip_head, found.rack.chips)]
    rows, within = [], None
    for shown in steps:
        if shown.within != within:
            within = shown.within
            rows.append(element('tr', element('th', element('code', within), colspan=len(heads), scope='rowgroup'), class_='within'))
        rows.append(row(*step_row(shown), class_='refused' if shown.heard.step.byte is None else None))
    return table(heads, rows, caption, 'steps')


def parting(found: Followed) -> Markup:
    if found.first is None:
        return element('p', 'No copy of a counter parted from the reference before the stop.')
    number = element('strong', f'{found.first.heard.number}')
    return element('p', 'Copies first parted in step ', number, f', in {found.first.within}: {found.rack.first.what}.')


def steps_tables(found: Followed) -> list[Content]:
    """The last steps, and before them that at which copies first parted, where it isn't among them."""
    last = list(found.steps)
    is_before = found.first is not None and found.first.heard.number < last[0].heard.number
    first = steps_table([found.first], found, 'The step at which copies first parted') if is_before else None
    return [first, steps_table(last, found, f'The last {len(last)} bus steps')]


def fault_section(run: Run, found: Followed | None, fault: Fault | None) -> Markup:
    told = [element('p', line) for line in run.explanation if 'tools/trace' not in line]
    stop = element('p', element('code', run.stop, class_='stop'))
    if found is None or fault is None:
        return section('fault', 'Where it stopped', stop, *told)
    endings = [line for line in found.endings if not line.startswith(('first parted', 'no copy parted'))]
    told += [element('p', f'{line[0].upper()}{line[1:]}.') for line in endings]
    drawing = element('div', rack_drawing(fault), key(), class_='drawing')
    return section('fault', 'The bus step that was not served', stop,
                   element('div', drawing, element('div', *told, parting(found)), class_='beside'),
                   element('h3', 'The steps that led to it'), element('p', LEGEND, class_='small'), *steps_tables(found))
