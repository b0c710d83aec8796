"""The kinds of cases with their shares. The number of a case tells its kind."""
from __future__ import annotations

from typing import Callable, NamedTuple

from companion.soaking.anything import anything
from companion.soaking.formats import formats
from companion.soaking.links import links
from companion.soaking.lists import lists, opcodes
from companion.soaking.maps import maps
from companion.soaking.runs import runs
from companion.soaking.sessions import sessions
from companion.soaking.texts import texts
from companion.soaking.traces import traces
from companion.soaking.trials import Trial
from companion.soaking.words import words


class Kind(NamedTuple):
    """What is done in a case of a kind, and how many of a turn of the wheel are of it."""
    share: int
    tried: Callable[[Trial], None]


KINDS = {
    'anything': Kind(123, anything), 'runs': Kind(123, runs), 'texts': Kind(70, texts), 'traces': Kind(50, traces), 'links': Kind(45, links),
    'words': Kind(30, words), 'maps': Kind(24, maps), 'sessions': Kind(20, sessions), 'formats': Kind(10, formats), 'lists': Kind(3, lists),
    'opcodes': Kind(2, opcodes)}
WHEEL = tuple(name for _, name in sorted(((place + 0.5) / kind.share, name) for name, kind in KINDS.items() for place in range(kind.share)))


def kind_of(number: int) -> str:
    return WHEEL[number % len(WHEEL)]
