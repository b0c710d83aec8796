"""Faults of scripts, of the debugger's commands, of certificates, of lists of cases, and of files of digits."""
from __future__ import annotations

import re
from typing import Sequence

from companion.explaining.files import Files, Sort, sort_of
from companion.page_tables import cause_of, close, forms_of, row_about

HEX = '[0-9A-Fa-f]'
# What stands in a line, and what is meant by it. \1 is a part of the text.
HINTS = [
    ('^\ufeff', 'The file begins with a byte order mark: save it as UTF-8 without one.'), (r'\r', 'There is a carriage return in the line.'),
    (r'\t', 'There is a tab in the line: one blank separates two words, and there is none in front.'),
    (r'\s+$', 'There is a blank after the last word.'), (r'^ +', 'A line begins with its word, without a blank before it.'),
    (r'(?<=\S) *[#;]', 'A comment is a line of its own, and begins with `#`.'), (r'^[;/]', 'A comment begins with `#`.'),
    (r'=|,|:', 'Only blanks separate the words: `steps 100`.'), (r'  +', 'Two words are separated by one blank.'),
    (r'^[a-z]*[A-Z]|\b(KEYS|PULSE)\b', 'The words are written in small letters.'),
    (rf'(0x|\$)({HEX}+)', r'Write the hexadecimal digits and nothing else: `\2`.'),
]
# The same for commands of the debugger alone.
COMMAND_HINTS = [
    (r'^back run$', 'Say by how many instructions at most: `back run 100`.'), (r'^back$', 'Say by how many instructions: `back 1`.'),
    (r'^(run|step) back (\d+)$', r'`back` stands in front: `back \2`, or `back run \2` to a break.'),
    (rf'^(stored|mem|break at) ({HEX}{{1,3}})\b', r'An address has four hexadecimal digits, with zeros in front.'),
]
CERTIFICATE_HINTS = {
    1: 'The file is no certificate, or has lines that end with CR LF.', 4: 'Each point is there once, and the lines ascend.',
    5: 'The file was cut off, or its first line has another number of points.',
}
CASES_HINTS = {
    1: 'The file is no list of cases, or has lines that end with CR LF.',
    3: 'A line has 74 words with one blank between them; the numbers of a list ascend, and stand one right behind another.',
    4: 'Each line is there once, and the lines ascend.', 5: 'The file was cut off, or its first line has another number of entries.',
}


def found_in(text: str, hints: Sequence[tuple[str, str]] = HINTS) -> tuple[re.Match, str] | None:
    """The first thing of some hints in a line."""
    return next(((match, hint) for form, hint in hints if (match := re.search(form, text))), None)


def forms(text: str, section: str) -> list[str]:
    """Which word is likely meant, and the forms of the lines with it."""
    known = forms_of(section)
    words = text.split()
    if not words:
        return []
    meant = close(words[0], [form.split()[0] for form in known])
    fits = [form for form in known if form.split()[0] == meant]
    parts = [(words[0], meant), *((word, close(word, ['keys', 'pulse'])) for word in words[2:3] if meant == 'at')]
    asked = [f'Is `{one}` meant?' for word, one in parts if one and one != word]
    return [*asked, 'The form: ' + ', or '.join(f'`{form}`' for form in fits or known) + '.']


def script(files: Files, line: str, cause: str) -> list[str]:
    shown, text = files.line('script', int(line))
    number = int(cause)
    sentence = cause_of('FORMATS.md', 'Script', f'error script line {line} cause {cause}')
    if odd := files.looks_like('script', Sort.SCRIPT, Sort.NOTHING, Sort.DIGITS):
        return [*shown, sentence, *odd]
    found = found_in(text) if number in (1, 2) else None
    if found:
        shown, text = files.line('script', int(line), len(text[:found[0].start()].encode()) + 1)
    words = text.split()
    rule = row_about('FORMATS.md', words[0], 'meaning') if words and number in (3, 5) else ''
    said = [f'The rule: {rule}.'] if rule else []
    if number == 5:
        return [*shown, sentence, *said, 'A script has one line `frames` or `steps`, and at most one line `power`.']
    if number == 6:
        return [*shown, sentence, 'Add a line that says where the run ends: `frames 60`, or `steps 100`.']
    lone = re.match(rf'power ({HEX})$|at \d+ keys (?:({HEX})\b|{HEX}{HEX} ({HEX})$)', text) if number == 2 else None
    if lone:
        said.append(f'A byte and a port are two digits: `0{lone[1] or lone[2] or lone[3]}`.')
    elif found:
        said.append(found[0].expand(found[1]))
    return [*shown, sentence, *said, *forms(text, 'Script')]


def debug(files: Files, line: str, cause: str) -> list[str]:
    shown, text = files.line('commands', int(line))
    sentence = cause_of('FORMATS.md', 'Debugger', f'error debug line {line} cause {cause}')
    if odd := files.looks_like('commands', Sort.COMMANDS, Sort.NOTHING, Sort.DIGITS):
        return [*shown, sentence, *odd]
    found = found_in(text, [*COMMAND_HINTS, *HINTS]) if int(cause) in (1, 2) else None
    said = [found[0].expand(found[1]).replace('steps 100', 'step 100')] if found else []
    return [*shown, sentence, *said, *forms(text, 'Debugger')]


def cert(files: Files, line: str, cause: str) -> list[str]:
    shown, _ = files.line('cert', int(line))
    hint = files.looks_like('cert', Sort.CERTIFICATE) or [CERTIFICATE_HINTS.get(int(cause), '')]
    return [*shown, cause_of('FORMATS.md', 'Certificate', f'error cert line {line} cause {cause}'), *filter(None, hint)]


def cases(files: Files, line: str, cause: str) -> list[str]:
    shown, _ = files.line('cases', int(line))
    hint = files.looks_like('cases', Sort.CASES) or [CASES_HINTS.get(int(cause), '')]
    return [*shown, cause_of('FORMATS.md', 'List of cases', f'error cases line {line} cause {cause}'), *filter(None, hint)]


def digits(files: Files) -> list[str]:
    """A file of `dis`."""
    data = files.read('file')
    if data is None:
        return []
    sort = sort_of(data)
    if sort in (Sort.ASM_LINES, Sort.BINARY):
        return [sort.value]
    wrong = re.search(rb'[^0-9A-Fa-f \t\r\n]', data)
    if wrong is None:
        return [f'{len(re.findall(rb"[0-9A-Fa-f]", data))} digits: half a byte is left over.']
    before = data[:wrong.start()]
    shown = files.line('file', before.count(b'\n') + 1, wrong.start() - before.rfind(b'\n'))[0]
    return [*shown, 'Such a file has only digits, two for each byte, without 0x, $, commas and comments.']
