"""Why a file of the debugger's commands is refused, worked out by docs/FORMATS.md; and why a call's words are, by docs/PROGRAM.md."""
from __future__ import annotations

import re
from typing import Optional, Sequence

from companion.script import lines_of
from companion.soaking.calls import Word

WORD, NUMBER, RANGE, TOTAL = range(1, 5)
MOST_BYTES = 65_536
MOST_STEP, MOST_TOTAL = 1_000_000, 10_000_000
DECIMAL, BYTE, ADDRESS = '[0-9]{1,7}', '[0-9A-Fa-f]{2}', '[0-9A-Fa-f]{4}'


class Bad(Exception):
    def __init__(self, cause: int):
        super().__init__(cause)
        self.cause = cause


Form = tuple[tuple[str, int, int], ...]  # of the words behind a command: the digits, and the least and the most that they may say
COUNTED: Form = ((DECIMAL, 0, MOST_STEP),)
BACK: Form = ((DECIMAL, 1, MOST_STEP),)
FORMS: dict[tuple[str, ...], Form] = {
    ('power',): ((BYTE, 0, 255),), ('keys',): ((BYTE, 0, 255), (BYTE, 0, 255)), ('pulse',): ((DECIMAL, 0, 15),), ('step',): COUNTED,
    ('run',): COUNTED, ('break', 'at'): ((ADDRESS, 0, 65_535),), ('break', 'romc'): ((BYTE, 0, 31),), ('break', 'chip'): ((DECIMAL, 0, 15),),
    ('break', 'apart'): (), ('clear',): (), ('show', 'regs'): (), ('show', 'chips'): (), ('mem',): ((ADDRESS, 0, 65_535), (DECIMAL, 1, 16)),
    ('back', 'run'): BACK, ('back',): BACK, ('stored',): ((ADDRESS, 0, 65_535),)}
GOING = ('step', 'run', 'back')


def form_of(words: list[str]) -> tuple[Form, list[str]]:
    """The form of a line, and the words that it is for."""
    for names, form in FORMS.items():
        given = words[len(names):]
        if tuple(words[:len(names)]) == names and len(given) == len(form):
            return form, given
    raise Bad(WORD)


def asked(line: bytes) -> int:
    """For how many instructions a line asks."""
    text = line.decode('latin-1')
    if not re.fullmatch('[ -~]*', text):
        raise Bad(WORD)
    words = text.split(' ')
    form, given = form_of(words)
    if not all(re.fullmatch(digits, word) for (digits, _, _), word in zip(form, given)):
        raise Bad(NUMBER)
    values = [int(word, 10 if digits == DECIMAL else 16) for (digits, _, _), word in zip(form, given)]
    if not all(least <= value <= most for (_, least, most), value in zip(form, values)):
        raise Bad(RANGE)
    return values[-1] if words[0] in GOING else 0


def commands_refusal(data: bytes) -> Optional[str]:
    if len(data) > MOST_BYTES:
        return 'error long commands'
    total = 0
    for number, line in lines_of(data):
        try:
            total += asked(line)
            if total > MOST_TOTAL:
                raise Bad(TOTAL)
        except Bad as bad:
            return f'error debug line {number} cause {bad.cause}'
    return None


# ---- words

PLAIN = {'play': 2, 'ref': 2, 'debug': 2, 'audit': 3, 'check': 1, 'verify': 2, 'prove': 1, 'confirm': 2, 'migrate': 1, 'asm': 1, 'link': 1,
         'dis': 1, 'gen': 1}
FLAGS = {'play': '--trace', 'check': '--cert', 'prove': '--cases'}
MOST_NUMBER = 4_294_967_295


def plain_words(words: Sequence[Word]) -> Optional[list[str]]:
    """The names of files, or the number, that a call has; None where its words are refused."""
    texts = [word for word in words if isinstance(word, str)]
    if len(texts) < len(words) or not texts or texts[0] not in PLAIN:
        return None
    found, flags, is_plain = [], [], False
    for word in texts[1:]:
        if not is_plain and word == '--':
            is_plain = True
        elif not is_plain and len(word.encode()) > 1 and word.startswith('-'):
            flags.append(word)
        else:
            found.append(word)
    is_right = flags in ([], [FLAGS.get(texts[0])]) and len(found) == PLAIN[texts[0]]
    return found if is_right and (texts[0] != 'gen' or is_number(found[0])) else None


def is_number(word: str) -> bool:
    return re.fullmatch('[0-9]{1,10}', word) is not None and int(word) <= MOST_NUMBER
