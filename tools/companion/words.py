"""The command line of a companion: its options and help, errors in words, progress, and how it ends."""
from __future__ import annotations

import argparse
import os
import re
import shlex
import signal
import sys
import textwrap
import threading
import time
from contextlib import contextmanager, nullcontext
from pathlib import Path
from typing import Callable, Iterator, NoReturn

TOP = Path(__file__).resolve().parent.parent.parent
COLUMNS = 80  # of --help
INTERRUPTED = 130  # the exit status after Ctrl-C


class Refused(Exception):
    """What can't be done, in words, and the exit status of a tool that ends by it."""
    status = 1


class Pages(argparse.HelpFormatter):
    """Help within 80 columns: paragraphs are filled, and indented lines stay, the words behind a wide gap below where they don't fit."""

    def __init__(self, prog: str):
        super().__init__(prog, max_help_position=26, width=COLUMNS)

    def _fill_text(self, text: str, width: int, indent: str) -> str:
        return '\n\n'.join('\n'.join(self.block(part)) for part in text.strip('\n').split('\n\n'))

    def block(self, part: str) -> list[str]:
        if not part.startswith(' '):
            return textwrap.wrap(part, COLUMNS, break_on_hyphens=False)
        lines = part.split('\n')
        if all(len(line) <= COLUMNS for line in lines):
            return lines
        return [row for line in lines for row in self.parted(line)]

    def parted(self, line: str) -> list[str]:
        head, gap, about = re.fullmatch(r'( *\S.*?)(?:(   *)(\S.*))?', line).groups()
        if not gap:
            return [head]
        return [head, *textwrap.wrap(about, COLUMNS, initial_indent=' ' * 8, subsequent_indent=' ' * 8, break_on_hyphens=False)]


def parser_of(name: str, page: str, **usage: str) -> argparse.ArgumentParser:
    """A parser whose help is the tool's docstring: its first paragraph above the options, and the others below them."""
    about, _, more = page.partition('\n\n')
    return argparse.ArgumentParser(prog=name, description=about, epilog=more, formatter_class=Pages, **usage)


def add_program(parser: argparse.ArgumentParser) -> None:
    parser.add_argument('--program', metavar='WORDS',
                        help='how the program is called (default: CHANNEL_F_PROGRAM, or ./channel_f of this repository)')


def program_of(text: str | None) -> list[str]:
    """The words that call the program: --program, CHANNEL_F_PROGRAM, or the script `channel_f` of this repository."""
    text = text or os.environ.get('CHANNEL_F_PROGRAM')
    if not text:
        return [str(TOP / 'channel_f')]
    try:
        return [text] if os.path.exists(text) else shlex.split(text)
    except ValueError as error:
        raise Refused(f'{text!r} are no words of a command: {str(error).lower()}') from error


def hexadecimal(text: str, digits: int) -> int:
    match = re.fullmatch(rf'(?:0x|\$)?([0-9A-Fa-f]{{1,{digits}}})', text)
    if not match:
        raise argparse.ArgumentTypeError(f'{text!r} is not one to {digits} hexadecimal digits')
    return int(match[1], 16)


def address_of(text: str) -> int:
    """An address on the command line: one to four hexadecimal digits."""
    return hexadecimal(text, 4)


def addresses_of(text: str) -> range:
    """An address or two with a dash between, the last one included."""
    first, _, last = text.partition('-')
    found = range(address_of(first), address_of(last or first) + 1)
    if not found:
        raise argparse.ArgumentTypeError(f'{text!r} ends before it begins')
    return found


def count_of(least: int, most: int | None = None) -> Callable[[str], int]:
    """A reader of decimal numbers on the command line, from the least to the most."""
    def read(text: str) -> int:
        if not re.fullmatch('[0-9]{1,9}', text) or int(text) < least or most is not None and int(text) > most:
            raise argparse.ArgumentTypeError(f'{text!r} is no number from {least} ' + ('on' if most is None else f'to {most}'))
        return int(text)
    return read


def told_of(error: BaseException) -> str:
    """An error in words, with the file's name where it has one."""
    if isinstance(error, OSError):
        return ': '.join(str(part) for part in (error.filename, error.strerror) if part) or str(error)
    return str(error) or type(error).__name__


def status_of(returncode: int) -> int:
    """The exit status of a process, as a shell tells it: 128 and the number after a signal."""
    return returncode if returncode >= 0 else 128 - returncode


class Progress:
    """Tells on standard error how far a piece of work is, once it has taken two seconds: over one line on a terminal, and else seldom."""
    FIRST = 2.0

    def __init__(self, name: str):
        self.name, self.begun = name, time.monotonic()
        self.terminal = sys.stderr.isatty()
        self.every = 0.2 if self.terminal else 10.0
        self.due = self.begun + self.FIRST
        self.is_shown = False

    def tell(self, text: str) -> None:
        now = time.monotonic()
        if now < self.due:
            return
        self.due = now + self.every
        line = f'{self.name}: {text}'
        print(f'\r\x1b[K{line[:COLUMNS - 1]}' if self.terminal else line, end='' if self.terminal else '\n', file=sys.stderr, flush=True)
        self.is_shown = True

    @contextmanager
    def during(self, text: str) -> Iterator[None]:
        """Tells it once, where what is done in between takes long and tells nothing by itself."""
        timer = threading.Timer(self.FIRST, self.tell, [text])
        timer.daemon = True
        timer.start()
        try:
            yield
        finally:
            timer.cancel()

    def clear(self) -> None:
        """Takes the line from the terminal, before other lines come."""
        if self.terminal and self.is_shown:
            print('\r\x1b[K', end='', file=sys.stderr, flush=True)
            self.is_shown = False


@contextmanager
def waiting(name: str, text: str) -> Iterator[None]:
    """Says on a terminal what is waited for, where a tool calls the program and has nothing to tell meanwhile."""
    progress = Progress(name)
    try:
        with progress.during(text) if progress.terminal else nullcontext():
            yield
    finally:
        progress.clear()


def complain(name: str, text: str) -> None:
    print(f'{name}: {text}', file=sys.stderr, flush=True)


def give_streams() -> None:
    """Has streams also where the caller closed them, and writes every text, whatever the locale."""
    sys.stdin = sys.stdin or open(os.devnull, encoding='utf-8')
    sys.stdout = sys.stdout or open(os.devnull, 'w', encoding='utf-8')
    sys.stderr = sys.stderr or open(os.devnull, 'w', encoding='utf-8')
    for stream in (sys.stdout, sys.stderr):
        stream.reconfigure(errors='backslashreplace')


def run(name: str, main: Callable[[list[str]], int]) -> NoReturn:
    """Ends with the status that main gives: silently where a pipe is closed, and with one line for what can't be done."""
    if hasattr(signal, 'SIGPIPE'):
        signal.signal(signal.SIGPIPE, signal.SIG_DFL)
    try:
        give_streams()
        status = main(sys.argv[1:])
        sys.stdout.flush()
    except KeyboardInterrupt:
        status = INTERRUPTED
    except (Refused, OSError, ValueError, RecursionError, MemoryError) as error:
        complain(name, told_of(error))
        status = error.status if isinstance(error, Refused) else 1
    drop_output()
    sys.exit(status)


def drop_output() -> None:
    """Gives up lines that can't be written, so that the end of Python doesn't try and fail once more."""
    try:
        sys.stdout.flush()
    except OSError:
        os.dup2(os.open(os.devnull, os.O_WRONLY), 1)
