"""Which lines are explained, and by what."""
from __future__ import annotations

import re
from typing import Callable, Iterable

from companion.explaining.assembly import asm, lone_returns
from companion.explaining.commands import store, too_long, wrong_words
from companion.explaining.descriptions import KINDS, key, sockets, toml, warnings
from companion.explaining.files import Files
from companion.explaining.modules import link, module, plan
from companion.explaining.runs import agreed, fault, not_closed, not_covered, refused, reserved, stopped_at, too_many, unproved, unsafe, unsafe_entry
from companion.explaining.scripts import cases, cert, debug, digits, script
from companion.explaining.traces import out_of_form, rejected
from companion.page_tables import row_of_line

# the first words of the lines that are explained
TOLD = ('error', 'stop', 'agreed', 'refused', 'toomany', 'unproved', 'notclosed', 'unsafe', 'reject')
ADDRESS = '[0-9A-F]{4}'  # as the program writes it
POINT = rf'({ADDRESS}) ({ADDRESS}|----) (\S+)'
NUMBER = r'(\d{1,9})'
WHAT = r'(cart|script|commands|cert|cases|file|plan|trace|(?:source|module) \d{1,9})'
EXPLAINERS: list[tuple[str, Callable[..., list[str]]]] = [
    (rf'error asm (file|source \d{{1,9}}) line {NUMBER} column {NUMBER} cause {NUMBER}', asm), (r'error cart toml', toml),
    (rf'error cart(?: chip {NUMBER})? key (\S+) cause {NUMBER}', key), (rf'error script line {NUMBER} cause {NUMBER}', script),
    (rf'error cert line {NUMBER} cause {NUMBER}', cert), (rf'error cases line {NUMBER} cause {NUMBER}', cases),
    (rf'error debug line {NUMBER} cause {NUMBER}', debug),
    (rf'error plan line {NUMBER} cause {NUMBER}', plan), (rf'error module {NUMBER} line {NUMBER} column {NUMBER} cause {NUMBER}', module),
    (rf'error link module {NUMBER} cause {NUMBER}', link), (rf'error trace line {NUMBER}', out_of_form), (rf'reject line {NUMBER}', rejected),
    (rf'error store {WHAT}', store), (rf'error long {WHAT}', too_long), (r'error hex', digits), (r'error words', wrong_words),
    (rf'error sockets ({"|".join(KINDS)}) need {NUMBER} have {NUMBER}', sockets), (rf'error rack {NUMBER}', lambda *_: []),
    (rf'stop (conflict|undriven|astray) romc (..)((?: socket \d\d? at {ADDRESS}| at {ADDRESS}| reference {ADDRESS})+)', fault),
    (rf'stop reserved (..) at ({ADDRESS})', reserved),
    (rf'refused {POINT} (\d\d?)', refused), (rf'unsafe {POINT} (\d\d?)', unsafe), (r'toomany', too_many), (r'agreed \d{1,5}', agreed),
    (rf'unproved ({ADDRESS}) (\S+) \. (\d\d?)', unproved), (rf'unsafe {NUMBER} (\d\d?)', unsafe_entry), (rf'notclosed {NUMBER} to ({ADDRESS}) (\S+) \.', not_covered),
    (rf'notclosed (start|{ADDRESS} \S+ \S+) to ({ADDRESS}) (\S+) (\S+)', not_closed),
]


def explain(line: str, files: Files) -> list[str]:
    """The explanation of a line, or nothing for one that is neither a refusal nor a stop line at fault."""
    for form, function in EXPLAINERS:
        if match := re.fullmatch(form, line):
            # A line with a cause is explained by its cause, and one without by what docs/PROGRAM.md says of it.
            sentence = '' if 'cause' in form else row_of_line(line)[0]
            return list(filter(None, [sentence[:1].upper() + sentence[1:], *function(files, *match.groups())]))
    return []


class Lines:
    """The lines of a command, as they come: the last one that has an explanation, and the registers behind it."""

    def __init__(self) -> None:
        self.last = ''
        self.stopped: int | None = None

    def hear(self, raw: bytes) -> None:
        words = raw.decode('ascii', 'replace').split()
        if words[:1] and words[0] in TOLD:
            self.last, self.stopped = ' '.join(words), None
        elif self.last.startswith('stop ') and (match := re.match(rb'regs P=([0-9A-F]{4})\b', raw)):
            self.stopped = int(match[1], 16)

    def explained(self, files: Files) -> list[str]:
        told = explain(self.last, files)
        place = stopped_at(files, self.stopped) if told and self.stopped is not None and ' romc ' in self.last else []
        return [*told[:1], *place, *told[1:], *([] if told else lone_returns(files)), *warnings(files)]


def explained(lines: Iterable[bytes], files: Files) -> list[str]:
    """The explanation of the lines of a command."""
    heard = Lines()
    for line in lines:
        heard.hear(line)
    return heard.explained(files)
