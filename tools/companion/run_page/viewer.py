"""The frames of a run on the page: one picture with a slider and a play button, and those that the script shows."""
from __future__ import annotations

import base64
from dataclasses import dataclass
from typing import Sequence

from companion.pictures import HEIGHT, WIDTH, Colour, Frame, png
from companion.run_page.markup import Markup, data, element, section
from companion.run_page.run import CONSOLE_HERTZ, FRAME_PHI, Run

RATES = (CONSOLE_HERTZ, 20, 5, 1)
MOST_PRINTED = 24  # pictures of the sheet


@dataclass
class Album:
    """The pictures of a run, equal ones once."""
    pictures: list[str]
    of_frame: list[int]  # the picture of each frame
    drawn: list[list[int]]  # how many pixels of each colour a frame has

    @classmethod
    def of(cls, frames: Sequence[Frame], colours: Sequence[Colour]) -> Album:
        places: dict[tuple[bytes, ...], int] = {}
        album = cls([], [], [])
        for frame in frames:
            key = tuple(frame.lines)
            if key not in places:
                places[key] = len(places)
                album.pictures.append('data:image/png;base64,' + base64.b64encode(png(frame.rows, colours, 1)).decode('ascii'))
            album.of_frame.append(places[key])
            album.drawn.append([sum(line.count(digit) for line in (line[2:] for line in frame.lines)) for digit in (b'0', b'1', b'2', b'3')])
        return album

    def picture(self, at: int) -> str:
        return self.pictures[self.of_frame[at]]


def keys_text(keys: dict[int, int]) -> str:
    down = [f'port {port:02X} {byte:02X}' for port, byte in sorted(keys.items()) if byte]
    return 'keys ' + ', '.join(down) if down else 'no keys'


def caption(run: Run, frame: Frame) -> str:
    return f'frame {frame.number}, Φ {frame.phi:,}, tone {frame.tone}, {keys_text(run.key_bytes(frame.number))}'


def in_words(album: Album, at: int, run: Run) -> str:
    """A picture for those who can't see it."""
    pixels = ', '.join(f'{count} of colour {colour}' for colour, count in enumerate(album.drawn[at]) if count)
    return f'Frame {run.frames[at].number}: {WIDTH} by {HEIGHT} pixels, {pixels}.'


def controls(count: int) -> Markup:
    rates = [element('option', f'{rate} a second' + ', as the console' * (rate == CONSOLE_HERTZ), value=rate) for rate in RATES]
    return element('div', element('button', '▶ Play', type='button', id='play', aria_pressed='false'),
                   element('button', '◀', type='button', id='before', aria_label='the frame before'),
                   element('button', '▶', type='button', id='after', aria_label='the next frame'),
                   element('label', 'Frames ', element('select', *rates, id='rate')), class_='controls', hidden=count < 2)


def player(run: Run, album: Album, first: int) -> Markup:
    frame = run.frames[first]
    picture = element('img', src=album.picture(first), alt=in_words(album, first, run), id='picture', width=WIDTH, height=HEIGHT)
    slider = element('label', element('span', 'Frame', class_='hidden'),
                     element('input', type='range', id='frame', min=0, max=len(run.frames) - 1, value=first, step=1,
                             aria_describedby='caption', disabled=len(run.frames) < 2))
    words = element('figcaption', caption(run, frame), id='caption')
    return element('figure', picture, slider, words, controls(len(run.frames)), class_='player')


def sheet(run: Run, album: Album) -> Markup | None:
    """The frames that the script shows, or the last one, each a button that leads to it."""
    asked = [at for at, frame in enumerate(run.frames) if frame.number in run.script.shown] or [len(run.frames) - 1]
    cards = [element('figure', element('button', element('img', src=album.picture(at), alt=in_words(album, at, run), width=WIDTH, height=HEIGHT),
                                       type='button', class_='thumb', data_frame=at, aria_label=f'show frame {run.frames[at].number}'),
                     element('figcaption', caption(run, run.frames[at]))) for at in asked[:MOST_PRINTED]]
    more = element('p', f'And {len(asked) - MOST_PRINTED} more that the script shows.') if len(asked) > MOST_PRINTED else None
    title = 'Frames that the script shows' if run.script.shown else 'The last frame'
    return Markup(element('h3', title) + element('div', *cards, class_='sheet') + (more or ''))


def frames_section(run: Run, colours: Sequence[Colour]) -> Markup:
    if not run.frames:
        told = f'The run ended at Φ {run.phi:,}, before its first frame, which falls at Φ {FRAME_PHI:,}.'
        return section('frames', 'Frames', element('p', told))
    album = Album.of(run.frames, colours)
    asked = next((at for at, frame in enumerate(run.frames) if frame.number in run.script.shown), len(run.frames) - 1)
    values = {'pictures': album.pictures, 'of': album.of_frame, 'captions': [caption(run, frame) for frame in run.frames],
              'words': [in_words(album, at, run) for at in range(len(run.frames))], 'phi': [frame.phi for frame in run.frames]}
    about = (f'{len(run.frames)} frames, of which the script shows {sum(frame.number in run.script.shown for frame in run.frames)}. '
             'The colours are those of this tool: the console only numbers them. A console whose clock is 1.79 MHz has '
             f'{CONSOLE_HERTZ} frames of {FRAME_PHI:,} Φ a second; nothing in the program goes by seconds.')
    last = run.frames[-1].number
    cut = element('p', f'A script has room for {last} of the frames; those behind are not here.') if cut_off(run, last) else None
    return section('frames', 'Frames', element('p', about), cut, player(run, album, asked), sheet(run, album), data('run', values))


def cut_off(run: Run, last: int) -> bool:
    """Whether the run went on behind the last frame that is shown."""
    return run.phi // FRAME_PHI > last and last < run.last_frame
