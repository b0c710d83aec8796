"""The tables of docs/, from which the companions take the sentences that they say."""
from __future__ import annotations

import difflib
import re
from dataclasses import dataclass, field
from functools import lru_cache
from typing import Iterable

from companion.words import TOP

DOCS = TOP / 'docs'


@dataclass
class Table:
    """A table of a page, with the headings above it."""
    headings: list[str]
    head: list[str]
    rows: list[list[str]] = field(default_factory=list)

    def cell(self, row: list[str], column: str) -> str:
        return row[self.head.index(column)] if column in self.head else ''

    def is_below(self, word: str) -> bool:
        """Whether a heading above it has this word."""
        return any(re.search(rf'\b{word}\b', heading) for heading in self.headings)


def lines_of(page: str) -> list[str]:
    """The lines of a page. One that isn't there has none."""
    try:
        return (DOCS / page).read_text('utf-8').split('\n')
    except OSError:
        return []


@lru_cache(maxsize=None)
def tables(page: str) -> tuple[Table, ...]:
    """The tables of a page of docs/."""
    found: list[Table] = []
    headings, is_inside = [], False
    for line in lines_of(page):
        if line.startswith('|'):
            cells = [cell.strip().replace('\\|', '|') for cell in re.split(r'(?<!\\)\|', line)[1:-1]]
            if not is_inside:
                found.append(Table(list(headings), [cell.lower() for cell in cells]))
            elif not re.fullmatch(r'[\s:|-]*', line):
                found[-1].rows.append(cells)
        is_inside = line.startswith('|')
        if match := re.match(r'(#+) (.*)', line):
            headings = headings[:len(match[1]) - 1] + [match[2]]
    return tuple(found)


def cause_of(page: str, section: str, line: str) -> str:
    """The name and the sentence of the cause with which a refusal ends.

    They are in a table of whole lines, or in one of causes and numbers below that heading.
    """
    number = line.split()[-1]
    sentence, name = row_of_line(re.sub(r'asm source \d+', 'asm file', line))
    if name:
        return f'Cause {number}, {name}: {sentence}'
    for table in tables(page):
        if {'cause', 'number'} <= set(table.head) and table.is_below(section):
            for row in table.rows:
                if table.cell(row, 'number') == number:
                    where = table.cell(row, 'where')
                    return f'Cause {number}, {table.cell(row, "cause")}' + (f': {where}' if where else '') + f' (docs/{page}).'
    return f'Cause {number}: its table is not found in docs/{page}, under "{section}".'


def row_about(page: str, word: str, *columns: str) -> str:
    """The cells of the first row of a page whose first cell has the word in backquotes."""
    for table in tables(page):
        for row in table.rows:
            if set(columns) <= set(table.head) and re.search(rf'`[^`]*\b{re.escape(word)}\b', row[0]):
                return re.sub(r'\[(.*?)\]\(.*?\)', r'\1', '; '.join(table.cell(row, column) for column in columns))
    return ''


def pattern_of(form: str) -> tuple[str, list[str]]:
    """A pattern for the lines of a form, and its marks: words in capitals are what differs from line to line."""
    escaped = re.escape(form).replace(r'\ \.\.', '.*')
    return re.sub(r'\b[A-Z]+\b', '(.+?)', escaped), re.findall(r'\b[A-Z]+\b', escaped)


def row_of_line(line: str) -> tuple[str, str]:
    """What docs/ say of a line, and the name of its cause if the row has one."""
    for page in ('FORMATS.md', 'PROGRAM.md'):
        for table in tables(page):
            for row in table.rows if table.head[0] == 'line' else []:
                form = row[0].strip('`')
                pattern, marks = pattern_of(form)
                match = re.fullmatch(pattern, line)
                if match and not re.search('cause [A-Z]', form):
                    values = dict(reversed([*zip(marks, match.groups())]))
                    plain = re.sub(r' \(\[.*?\]\(.*?\)\)|; KIND.*', '', row[1])
                    return re.sub(r'\b[A-Z]+\b', lambda mark: values.get(mark[0], mark[0]), plain) + f' (docs/{page}).', table.cell(row, 'cause')
    return '', ''


def forms_of(section: str) -> list[str]:
    """The forms of the lines of a file, by the table of lines and meanings below a heading with this word."""
    return [row[0].strip('`') for table in tables('FORMATS.md') for row in table.rows if 'meaning' in table.head and table.is_below(section)]


def row_of_code(code: str) -> str:
    """What the bus does on a code, two hexadecimal digits."""
    for table in tables('MACHINE.md'):
        for row in table.rows if table.head[0] == 'code' else []:
            if code in re.split(r'[,\s]+', row[0]):
                return f'Code {code}: who drives the byte: {row[1]}; what every chip does: {row[2]} (docs/MACHINE.md).'
    return f'The code {code} is not found in docs/MACHINE.md.'


@dataclass(frozen=True)
class Reason:
    """A reason for which the checker refuses a point, by its row in docs/CHECKER.md."""
    number: str
    what: str
    example: str
    help: str


def reason_of(number: str) -> Reason | None:
    for table in tables('CHECKER.md'):
        for row in table.rows if table.head[0] == 'reason' else []:
            if row[0] == number:
                return Reason(number, *(table.cell(row, column) for column in ('what may happen', 'such as', 'what helps')))
    return None


def mnemonics() -> set[str]:
    """All mnemonics and directives of the assembly language."""
    return {word for table in tables('ASSEMBLY.md') if table.head[0] == 'statement'
            for row in table.rows for word in re.findall(r'\b[A-Z][A-Z0-9]+\b', row[0])}


def form_of(mnemonic: str) -> str:
    """The form of a statement with what its operands may be, by docs/ASSEMBLY.md."""
    if mnemonic == 'LR':
        text = ' '.join(lines_of('ASSEMBLY.md'))
        return next((f'The form: {match[0]}' for match in re.finditer(r'`LR` takes [^.]*\.', text)), '')
    for row in (row for table in tables('ASSEMBLY.md') if table.head[0] == 'statement' for row in table.rows):
        forms, operands = row[0].split('; '), row[1].split('; ')
        for at, form in enumerate(forms):
            words = re.match('`([^`]*)`', form)[1].split()
            if mnemonic in words:
                kept = ' '.join(word for word in words if word == mnemonic or not re.fullmatch('[A-Z][A-Z0-9]+', word))
                about = operands[at] if len(operands) == len(forms) else row[1]
                return f'The form: `{kept}`, {about.replace("none", "without operands")}.'
    return ''


def close(word: str, known: Iterable[str], most: int = 1) -> str:
    """The known words that a word is most like, in whatever case."""
    by_lower = {one.lower(): one for one in known}
    return '` or `'.join(by_lower[found] for found in difflib.get_close_matches(word.lower(), by_lower, most, 0.6))
