"""Calls of the program channel_f."""
from __future__ import annotations

import os
import subprocess
import tempfile
from contextlib import contextmanager
from dataclasses import dataclass
from pathlib import Path
from typing import IO, Iterator, Sequence

from companion.words import TOP, Refused, program_of, status_of

FLAGS = ('--trace', '--cert', '--cases')
BUILT = TOP / 'crates/channel_f_main/out/channel_f_main'


@dataclass(frozen=True)
class Answer:
    """What the program wrote, and its exit status."""
    output: bytes
    status: int

    @property
    def lines(self) -> list[str]:
        return self.output.decode('ascii', 'replace').splitlines()

    @property
    def last(self) -> str:
        """The last line: that of a refusal, of a stop or of a verdict."""
        return self.lines[-1] if self.lines else ''

    def done(self, called: str = '') -> bytes:
        """What a command wrote that has to end with the status 0."""
        if self.status:
            raise Fault(self, called)
        return self.output


class Fault(Refused):
    """The program refused: its answer, to the words that it was called with."""

    def __init__(self, answer: Answer, called: str = ''):
        about = f'{answer.last}, with the status {answer.status}' + (f'; tools/explain ./channel_f {called} says more' if called else '')
        super().__init__(f'the program refused: {about}')
        self.answer = answer


@dataclass(frozen=True)
class Program:
    """The program, by the words that call it, and the folder in which it is started where that isn't this one."""
    words: tuple[str, ...]
    folder: Path | None = None

    @classmethod
    def of(cls, text: str | None = None) -> Program:
        """By --program, CHANNEL_F_PROGRAM, or the script `channel_f` of this repository."""
        return cls(tuple(program_of(text)))

    @classmethod
    def at_hand(cls, words: Sequence[str] = ()) -> Program | None:
        """A program that answers at once: by the words of a command, or CHANNEL_F_PROGRAM, or the built one; else None.

        The script of this repository isn't asked, since it may build first, and nor is a run without proofs.
        """
        if words and '--unproved' not in words and Path(words[0]).resolve() != TOP / 'channel_f':
            return cls(tuple(words))
        if os.environ.get('CHANNEL_F_PROGRAM'):
            return cls.of()
        return cls((str(BUILT),)) if os.access(BUILT, os.X_OK) else None

    def within(self, folder: Path) -> Program:
        """The same program started in another folder."""
        first = Path(self.words[0])
        called = str(first.absolute()) if len(first.parts) > 1 else self.words[0]
        return Program((called, *self.words[1:]), folder)

    def run(self, command: str, *words: str | Path) -> Answer:
        """The answer to a command, whatever its status. Flags stand in front of the names of files."""
        with self.started(command, *words) as child:
            output = child.stdout.read()
        return Answer(output, status_of(child.returncode))

    def done(self, command: str, *words: str | Path) -> bytes:
        """What a command writes that has to end with the status 0."""
        return self.run(command, *words).done()

    def on_text(self, command: str, text: bytes, *before: str | Path) -> Answer:
        """The answer to a command whose last file has this text."""
        with tempfile.TemporaryDirectory() as folder:
            path = Path(folder) / 'text'
            path.write_bytes(text)
            return self.run(command, *before, path)

    @contextmanager
    def started(self, command: str, *words: str | Path) -> Iterator[subprocess.Popen[bytes]]:
        """The program while it runs, with its lines in a pipe. It is ended where the caller gives up."""
        with subprocess.Popen(self.call(command, *words), stdin=subprocess.DEVNULL, stdout=subprocess.PIPE,
                              cwd=self.folder) as child:
            try:
                yield child
            except BaseException:
                child.terminate()
                raise

    def lines(self, command: str, *words: str | Path) -> Iterator[bytes]:
        """The lines as they come, of a command that may write many."""
        with self.started(command, *words) as child:
            pipe: IO[bytes] = child.stdout
            yield from pipe

    def call(self, command: str, *words: str | Path) -> list[str]:
        """All words of a call, `--` before the first name that begins with a dash."""
        given = [str(word) for word in words]
        first = next((at for at, word in enumerate(given) if word not in FLAGS), len(given))
        marked = ['--'] * any(word.startswith('-') for word in given[first:])
        return [*self.words, command, *given[:first], *marked, *given[first:]]
