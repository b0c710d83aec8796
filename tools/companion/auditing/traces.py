"""A printed trace as a file: its lines that tell of bus steps, or the first of them that is out of form."""
from __future__ import annotations

import re
from dataclasses import dataclass
from functools import lru_cache

from companion.bus import Step
from companion.script import text_lines

MOST_BYTES = 16_777_216
BEGINNING = b'bus '
CODE, LENGTH, BYTE = r'[01][0-9A-F]', '[SL]', '[0-9A-F]{2}'
SOCKET = r'[0-9]|1[0-5]'
LINE = re.compile(rf'bus ({CODE}) ({LENGTH}) (?:({BYTE}) (cpu|-|{SOCKET})|-- fault)'.encode())
# The words behind `bus`, each with its form and what is said of another one.
WORDS = ((CODE, 'A code is two digits from 00 to 1F, with capital letters.'), (LENGTH, 'A step is `S`, short, or `L`, long.'),
         (BYTE + '|--', 'A byte is two digits, with capital letters. A step that is not served has `-- fault` in its place.'),
         (f'cpu|-|{SOCKET}', 'The driver is `cpu`, `-` for nobody, or a socket from 0 to 15 without a zero in front.'))
FOUR_WORDS = 'Four words stand behind `bus`: code, length, byte and driver, as `bus 00 S 2B 0`; or `-- fault` for the last two.'


class Unreadable(Exception):
    """The first line of a trace that is out of form."""

    def __init__(self, line: int):
        super().__init__(f'error trace line {line}')
        self.line = line


@lru_cache(maxsize=1 << 14)
def step_in(line: bytes) -> Step | None:
    """The bus step of a line that begins with `bus `, None where it is out of form."""
    match = LINE.fullmatch(line)
    if not match:
        return None
    code, is_long = int(match[1], 16), match[2] == b'L'
    return Step(code, is_long, None, '') if match[3] is None else Step(code, is_long, int(match[3], 16), match[4].decode())


def line_of(step: Step) -> str:
    """A step as its line."""
    told = '-- fault' if step.byte is None else f'{step.byte:02X} {step.driver}'
    return f'bus {step.code:02X} {"L" if step.is_long else "S"} {told}'


def fault_in(line: str) -> tuple[int, str]:
    """What hinders a line that begins with `bus `, with the column of the word, from 1."""
    column, words = len(BEGINNING) + 1, line.split(' ')[1:]
    for number, (word, (form, said)) in enumerate(zip(words, WORDS)):
        if word == '':
            return column, 'One blank stands between two words, and none at the end.'
        if number == 3 and words[2] == '--':
            form, said = 'fault', 'Behind `--` stands `fault`.'
        if not re.fullmatch(form, word):
            return column, said
        column += len(word) + 1
    return min(column, len(line) + 1), FOUR_WORDS


@dataclass(frozen=True)
class Trace:
    """The steps of a trace with the numbers of their lines, and the number behind its last line."""
    steps: tuple[Step, ...]
    numbers: tuple[int, ...]
    after: int

    @classmethod
    def of(cls, data: bytes) -> Trace:
        """All lines that don't begin with `bus ` are skipped, whatever bytes they have."""
        steps, numbers, lines = [], [], text_lines(data)
        for number, line in enumerate(lines, 1):
            if line.startswith(BEGINNING):
                step = step_in(line)
                if step is None:
                    raise Unreadable(number)
                steps.append(step)
                numbers.append(number)
        return cls(tuple(steps), tuple(numbers), len(lines) + 1)

    def line(self, at: int) -> int:
        """The line of a step by its place, and the one behind the text where there is no such step."""
        return self.numbers[at] if at < len(self.numbers) else self.after
