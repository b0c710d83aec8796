"""The time line of a run: tone, keys, pulses and port writes along the clocks, as a drawing and as tables."""
from __future__ import annotations

from collections import Counter
from dataclasses import dataclass
from typing import Iterator, Sequence

from companion.run_page.markup import Markup, element, row, scrolling, section, svg, table
from companion.run_page.run import FRAME_PHI, Run, Write
from companion.script import EventKind

WIDTH, LEFT, RIGHT = 960, 84, 12  # of the drawing, with the names of its lanes
LANE, TOP = 34, 26
TONE_PORT = 5
MOST_BARS = 320
MOST_LISTED = 200  # port writes that are listed one by one


@dataclass(frozen=True)
class Span:
    """A stretch of time in which something has one value."""
    start: int
    end: int
    value: int


def spans(changes: Sequence[tuple[int, int]], end: int) -> Iterator[Span]:
    """The stretches between changes, the first of them from 0 on with the value 0; neighbours of one value as one."""
    at, value = 0, 0
    for phi, after in [*changes, (end, -1)]:
        if after != value:
            if phi > at:
                yield Span(at, phi, value)
            at, value = max(at, phi), after


@dataclass
class Axis:
    """Where clocks lie in the drawing."""
    end: int

    def at(self, phi: int) -> float:
        return round(LEFT + (WIDTH - LEFT - RIGHT) * min(phi, self.end) / max(self.end, 1), 1)

    @property
    def unit(self) -> int:
        """The clocks of a bar: of a frame, or of so many that there are few enough bars."""
        frames = self.end // FRAME_PHI + 1
        return FRAME_PHI * -(-frames // MOST_BARS) if frames > 8 else max(1, self.end // 80)


def lane(number: int, name: str, *marks: Markup) -> Markup:
    top = TOP + LANE * number
    base = element('line', x1=LEFT, x2=WIDTH - RIGHT, y1=30, y2=30, class_='base')
    return element('g', element('text', name, x=LEFT - 8, y=21, class_='name'), base, *marks, transform=f'translate(0 {top})')


def block(axis: Axis, span: Span, high: int, told: str, value: str) -> list[Markup]:
    """A stretch with its value in it, where there is room."""
    left, right = axis.at(span.start), axis.at(span.end)
    title = element('title', f'{told} {value} from Φ {span.start:,} to {span.end:,}')
    found = [element('rect', title, x=left, y=30 - high, width=round(max(right - left, 1.5), 1), height=high, class_='step')]
    if right - left > 22 and high > 12:
        found.append(element('text', value, x=round(left + 4, 1), y=26, class_='value'))
    return found


def tones(axis: Axis, found: Sequence[Span]) -> list[Markup]:
    """Blocks whose height tells the number of the tone."""
    return [mark for span in found if span.value for mark in block(axis, span, 7 * span.value, 'tone', f'{span.value}')]


def key_bytes(axis: Axis, found: Sequence[Span]) -> list[Markup]:
    return [mark for span in found if span.value for mark in block(axis, span, 18, 'key byte', f'{span.value:02X}')]


def bars(axis: Axis, writes: Sequence[Write]) -> list[Markup]:
    """How many bytes a port took in each unit of time, by height; or a stroke for each, where there are few."""
    if len(writes) <= MOST_BARS // 2:
        return [element('rect', element('title', f'{write.byte:02X} at Φ {write.phi:,}'), x=axis.at(write.phi), y=10, width=2, height=20,
                        class_='write') for write in writes]
    counts = Counter(write.phi // axis.unit for write in writes)
    return [bar(axis, at * axis.unit, count, max(counts.values())) for at, count in sorted(counts.items())]


def bar(axis: Axis, phi: int, count: int, most: int) -> Markup:
    left, high = axis.at(phi), round(2 + 24 * count / most, 1)
    wide = round(max(axis.at(phi + axis.unit) - left - 0.5, 1), 1)
    title = element('title', f'{count} writes from Φ {phi:,} on')
    return element('rect', title, x=left, width=wide, y=round(30 - high, 1), height=high, class_='write')


def ruler(axis: Axis, height: int) -> list[Markup]:
    """The numbers of frames along the top, as many as have room, or clocks in a run of few frames."""
    frames = axis.end // FRAME_PHI
    if frames < 2:
        marks = [(axis.end * part // 4, f'Φ {axis.end * part // 4:,}') for part in range(5)]
    else:
        every = next(step for step in (1, 2, 5, 10, 20, 50, 100, 200) if frames // step <= 12)
        marks = [(number * FRAME_PHI, str(number)) for number in range(0, frames + 1, every)]
    name = element('text', 'frame' if frames >= 2 else '', x=LEFT - 8, y=15, class_='name')
    return [name, *(part for phi, text in marks for part in
                    (element('line', x1=axis.at(phi), x2=axis.at(phi), y1=20, y2=height, class_='tick'),
                     element('text', text, x=axis.at(phi), y=15, class_='mark', text_anchor='end' if phi > 0.97 * axis.end else 'middle')))]


def port_writes(run: Run) -> dict[int, list[Write]]:
    found: dict[int, list[Write]] = {}
    for write in run.writes:
        found.setdefault(write.port, []).append(write)
    return dict(sorted(found.items()))


def tone_spans(run: Run) -> list[Span]:
    return list(spans([(write.phi, write.byte >> 6) for write in run.writes if write.port == TONE_PORT], run.phi))


def key_spans(run: Run) -> dict[int, list[Span]]:
    changes: dict[int, list[tuple[int, int]]] = {}
    for keys in run.events(EventKind.KEYS):
        changes.setdefault(keys.place, []).append((keys.frame * FRAME_PHI, keys.byte))
    return {port: list(spans(found, run.phi)) for port, found in sorted(changes.items())}


def pulse_marks(axis: Axis, run: Run) -> dict[int, list[Markup]]:
    found: dict[int, list[Markup]] = {}
    for pulse in run.events(EventKind.PULSE):
        x = axis.at(pulse.frame * FRAME_PHI)
        found.setdefault(pulse.place, []).append(element(
            'path', element('title', f'a pulse at frame {pulse.frame}'), d=f'M{x} 8l7 11-7 11-7-11z', class_='pulse'))
    return dict(sorted(found.items()))


def lanes(run: Run, axis: Axis) -> list[tuple[str, list[Markup]]]:
    found = [('tone', tones(axis, tone_spans(run)))]
    found += [(f'keys {port:02X}', key_bytes(axis, changes)) for port, changes in key_spans(run).items()]
    found += [(f'pulse {chip}', marks) for chip, marks in pulse_marks(axis, run).items()]
    found += [(f'port {port:02X}', bars(axis, writes)) for port, writes in port_writes(run).items()]
    return found


def drawing(run: Run) -> Markup:
    axis = Axis(run.phi)
    found = lanes(run, axis)
    height = TOP + LANE * len(found) + 8
    cursor = element('line', x1=LEFT, x2=LEFT, y1=20, y2=height, id='now', class_='now',
                     data_left=LEFT, data_wide=WIDTH - LEFT - RIGHT, data_end=run.phi)
    names = ', '.join(name for name, _ in found)
    return svg(WIDTH, height, f'Along {run.phi} clocks: {names}. The tables below have the same.', *ruler(axis, height),
               *(lane(number, name, *marks) for number, (name, marks) in enumerate(found)), cursor, class_='timeline')


def writes_table(run: Run) -> Markup | None:
    """The port writes, one by one where they are few, and else counted for each frame."""
    if not run.writes:
        return None
    if len(run.writes) <= MOST_LISTED:
        rows = [row(f'{write.phi:,}', f'{write.port:02X}', f'{write.byte:02X}') for write in run.writes]
        return table(('Φ', 'port', 'byte'), rows)
    ports = list(port_writes(run))
    counts = Counter((write.phi // FRAME_PHI, write.port) for write in run.writes)
    frames = sorted({frame for frame, _ in counts})
    rows = [row(f'{frame} to {frame + 1}', *(str(counts[frame, port]) for port in ports)) for frame in frames]
    return table(('frames', *(f'port {port:02X}' for port in ports)), rows, 'How many bytes each port took')


def changes_table(run: Run) -> Markup | None:
    found = [(span.start, f'tone {span.value}') for span in tone_spans(run)]
    found += [(span.start, f'keys of port {port:02X}: {span.value:02X}') for port, changes in key_spans(run).items() for span in changes]
    found += [(pulse.frame * FRAME_PHI, f'a pulse to chip {pulse.place}') for pulse in run.events(EventKind.PULSE)]
    rows = [row(f'{phi:,}', f'{phi / FRAME_PHI:.1f}', what) for phi, what in sorted(found)]
    return table(('from Φ', 'frame', 'what'), rows, 'Tone, keys and pulses')


def timeline_section(run: Run) -> Markup:
    if not run.writes and not run.events(EventKind.KEYS) and not run.events(EventKind.PULSE):
        return section('timeline', 'Time line', element('p', 'No port took a byte, and neither keys nor pulses came.'))
    count = f'{len(run.writes):,} port writes' if run.writes else 'No port took a byte'
    tables = [part for part in (changes_table(run), writes_table(run)) if part]
    return section('timeline', 'Time line',
                   element('p', f'{count} in {run.phi:,} Φ. Keys and pulses come at the end of the instruction at which their frame falls.'),
                   scrolling(drawing(run), 'time line'),
                   element('details', element('summary', 'The same in tables'), element('div', *tables, class_='tables')))
