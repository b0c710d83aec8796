"""A verdict in words: why a cartridge is refused, which reads `agreed` leaves open, and what makes too many points."""
from __future__ import annotations

from collections import defaultdict
from typing import Iterator

from companion.causes import Words
from companion.domain import Lost, Part, Point, Unknown
from companion.names import Names
from companion.reasons import Explained
from companion.search import Search, Verdict

MOST_SHOWN = 8  # addresses of a list


def agreed(search: Search, words: Words, most: int) -> Iterator[str]:
    """The reads at D0 that aren't known to be served, by address."""
    places: dict[int, list[Point]] = defaultdict(list)
    for point in search.faults():
        places[point.at].append(point)
    yield f'No state is refused, and at {counted(len(places), "address", "addresses")} a read at D0 may find no chip that answers:'
    for at, points in list(places.items())[:most]:
        yield words.place(at)
        yield from cause_of_read(search, words, points)
    if len(places) > most:
        yield f'.. and {len(places) - most} more, which `tools/why --most` shows.'
    yield ('What D0 reaches is not bounded by a loop that is not followed turn by turn. Void pages of a 3853 over all addresses that nothing '
           'else holds make `whole` of it too, since then each read is answered (docs/CHECKER.md).')


def cause_of_read(search: Search, words: Words, points: list[Point]) -> Iterator[str]:
    """Why the reads of an instruction may find nobody: where D0 is known, that no chip is there, and else what lost it."""
    values = [search.notes[point][Part.D0] for point in points]
    known = sorted({value for value in values if not isinstance(value, Unknown)})
    if known:
        shown = [f'{value:04X}' for value in known[:MOST_SHOWN]] + ['..'] * (len(known) > MOST_SHOWN)
        yield f'D0 is {", ".join(shown)}: no chip answers there.'
    lost = next((Lost(Part.D0, value) for value in values if isinstance(value, Unknown)), None)
    if lost:
        yield from words.lost(lost)
        yield from words.remedies([lost])


def too_many(search: Search, words: Words, most: int) -> Iterator[str]:
    """How often each address stands, and what multiplies it."""
    places: dict[int, list[Point]] = defaultdict(list)
    for point in search.notes:
        places[point.at].append(point)
    yield f'The points stand at {len(places)} addresses. These have the most:'
    for at, points in sorted(places.items(), key=lambda pair: (-len(pair[1]), pair[0]))[:most]:
        yield f'{len(points):>7}  {words.place(at)}'
        yield f'         {multiplied(search, points)}'
    yield ('Each register in `split` multiplies the points. Let it count less far, clear it where it is not needed any more, or track another '
           'one. A pop that wipes the slots which it frees leaves fewer points (docs/SAFE.md).')
    if search.rules.memory.vectors:
        yield ('Each instruction at whose end an interrupt may be taken gives the routines of interrupts one more return. Let interrupts in at '
               'one place: `EI`, a few instructions, `DI` (docs/SAFE.md).')


def multiplied(search: Search, points: list[Point]) -> str:
    """How many different returns and values of each tracked register some points have."""
    counts = {'returns': len({point.ret for point in points})}
    for place, register in enumerate(search.rules.tracked):
        counts[f'values of r{register}'] = len({point.tracked[place] for point in points})
    shown = [f'{count} {name}' for name, count in sorted(counts.items(), key=lambda pair: -pair[1]) if count > 1]
    return ', '.join(shown) or 'one point alone'


def counted(number: int, one: str, several: str) -> str:
    return f'{number} {one if number == 1 else several}'


def told(search: Search, names: Names, most: int) -> Iterator[str]:
    words = Words(search, names)
    if search.verdict is Verdict.REFUSED:
        yield from Explained(search.refusal, words).lines()
    elif search.verdict is Verdict.AGREED:
        yield from agreed(search, words, most)
    elif search.verdict is Verdict.TOO_MANY:
        yield from too_many(search, words, most)
    else:
        yield 'Every bus step of every run is served: there is nothing to explain.'
