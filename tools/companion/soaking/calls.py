"""Calls of the program by one worker, in the folder where it is: what was written, the exit status, and the processor's time."""
from __future__ import annotations

import os
import select
import signal
from dataclasses import dataclass
from pathlib import Path
from typing import Sequence, Union

from companion.words import status_of

Word = Union[str, bytes]
BLOCK = 1 << 16
PATIENCE = 600  # seconds by the clock, after which a call is ended: a busy machine may give it a small part of them
MOST_OUTPUT = 1 << 27  # bytes, after which it is ended too


@dataclass(frozen=True)
class Told:
    """The words of a call, and what came of it."""
    words: tuple[Word, ...]
    output: bytes
    status: int  # as a shell tells it, 128 and the number after a signal
    seconds: float  # of the processor
    errors: bytes = b''  # what came to standard error
    is_ended: bool = False  # by the caller, since it took too long or wrote too much

    @property
    def line(self) -> str:
        """The only line, or the last one."""
        return self.output.rstrip(b'\n').rpartition(b'\n')[2].decode('ascii', 'replace')

    @property
    def command(self) -> str:
        return str(self.words[0]) if self.words else ''


class Caller:
    """Calls the program with nothing in its standard input. Each call begins a process, and nothing else of the kind is kept."""

    def __init__(self, program: Sequence[str], errors: Path):
        self.program = [os.fsencode(word) for word in program]
        self.environment = dict(os.environ)
        self.nothing = os.open(os.devnull, os.O_RDONLY)
        self.errors = os.open(errors, os.O_RDWR | os.O_CREAT | os.O_TRUNC | os.O_APPEND)

    def call(self, *words: Word) -> Told:
        reading, writing = os.pipe()
        places = ((self.nothing, 0), (writing, 1), (self.errors, 2))
        try:
            child = os.posix_spawnp(self.program[0], [*self.program, *map(os.fsencode, words)], self.environment,
                                    file_actions=[(os.POSIX_SPAWN_DUP2, own, other) for own, other in places])
        except BaseException:
            os.close(reading)
            raise
        finally:
            os.close(writing)
        output, is_ended = self.read(reading, child)
        _, ended, used = os.wait4(child, 0)
        return Told(words, output, status_of(os.waitstatus_to_exitcode(ended)), used.ru_utime + used.ru_stime, self.said(), is_ended)

    @staticmethod
    def read(reading: int, child: int) -> tuple[bytes, bool]:
        """All that comes, and whether the child was ended before its end."""
        found, size, is_ended = [], 0, False
        try:
            while True:
                is_there = select.select([reading], [], [], PATIENCE)[0]
                block = os.read(reading, BLOCK) if is_there else b''
                size += len(block)
                if not is_there or size > MOST_OUTPUT:
                    os.kill(child, signal.SIGKILL)
                    is_ended = True
                if not block or is_ended:
                    return b''.join(found), is_ended
                found.append(block)
        finally:
            os.close(reading)

    def said(self) -> bytes:
        """What came to standard error since the last call."""
        if not os.fstat(self.errors).st_size:
            return b''
        os.lseek(self.errors, 0, os.SEEK_SET)
        found = os.read(self.errors, BLOCK)
        os.ftruncate(self.errors, 0)
        return found

    def close(self) -> None:
        os.close(self.nothing)
        os.close(self.errors)
