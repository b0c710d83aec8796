"""Refusals of a command's words, and of files that aren't there or are too long."""
from __future__ import annotations

import os
import re
from pathlib import Path

from companion.explaining.files import COMMANDS, Files
from companion.folders import home_of
from companion.page_tables import close, lines_of, tables
from companion.program import FLAGS


def store(files: Files, what: str) -> list[str]:
    name = files.path(what)
    if not name:
        return ['Name the files to learn more: tools/explain ./channel_f .., or --cart, --script, --commands, --cert, --cases, --file, --plan and --trace.']
    path = Path(name)
    if path.is_dir():
        return [f'{name} is a folder.']
    if path.exists():
        return [f'{name} in {Path.cwd()} is there, and {hindrance(path)}.']
    if what.startswith('source ') and (found := source_elsewhere(files, path)):
        return [f'There is no {name} in {Path.cwd()}, where the program was started. A name starts there and not at the description.', found]
    if what.startswith('module ') and (beside := Path(files.path('plan')).parent / path.name).is_file() and beside != path:
        return [f'There is no {name} in {Path.cwd()}, where the program was started. A name starts there and not at the plan.',
                f'Beside the plan it is there: write `{os.path.relpath(beside)}`.']
    near = close(path.name, os.listdir(path.parent)) if path.parent.is_dir() and os.access(path.parent, os.R_OK) else ''
    return [f'{name} in {Path.cwd()} is not there.', *([f'Is {path.parent / near} meant?'] if near else [])]


def hindrance(path: Path) -> str:
    """Why a file that is there can't be read."""
    try:
        path.open('rb').close()
        return 'can be read by now'
    except OSError as error:
        return f'can not be read: {error.strerror}'


def source_elsewhere(files: Files, path: Path) -> str:
    """Where a source is that isn't found from here: from a folder above the description, or beside it."""
    cart = Path(files.path('cart')).resolve()
    home = home_of(cart)
    if home not in (Path.cwd(), cart.parent):
        return f'It is there from the folder {home}: start the program in that one.'
    beside = cart.parent / path.name
    return f'Beside the description it is there: write `source = "{os.path.relpath(beside)}"`.' if beside.is_file() else ''


def too_long(files: Files, what: str) -> list[str]:
    data = files.read(what)
    limits = [f'{row[0]}: {row[1]} bytes' for table in tables('FORMATS.md') if table.head[0] == 'file' for row in table.rows]
    return ([f'{files.path(what)} has {len(data):,} bytes.'] if data is not None else []) + ['The limits: ' + '; '.join(limits) + '.'] * bool(limits)


def wrong_words(files: Files) -> list[str]:
    text = '\n'.join(lines_of('PROGRAM.md')).split('\n|')[0]
    usage = re.findall(r'^    (\./channel_f .*)$', text, re.M)
    given = [word for word in files.words[1:] if word != '--unproved']
    odd = next((word for word in given if len(word) > 1 and word.startswith('-') and word not in FLAGS), '')
    hints = [f'{odd!r} is no flag: the flags are `--trace`, after `play`, and `--cert`, after `check`.'] if odd else []
    if given and given[0] not in COMMANDS and not odd:
        meant = close(given[0], COMMANDS)
        hints = [f'{given[0]!r} is no command' + (f': is `{meant}` meant?' if meant else '.')]
    elif given[:1] == ['gen'] and len(given) == 2:
        hints = ['N is one to ten decimal digits.']
    return hints + ['Usage:', *(f'    {line}' for line in usage)]
