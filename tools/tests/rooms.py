"""A folder for the files of a test, in which the program is started."""
from __future__ import annotations

import subprocess
import tempfile
import unittest
from pathlib import Path

from tool import PROGRAM

from companion.program import Program


class Room(unittest.TestCase):
    def setUp(self):
        room = tempfile.TemporaryDirectory()
        self.addCleanup(room.cleanup)
        self.room = Path(room.name)
        self.program = Program((str(PROGRAM),)).within(self.room)

    def put(self, name: str, text: str) -> str:
        (self.room / name).write_text(text)
        return name


class Rows(Room):
    """Worked rows: by a name, the words with blanks between them, the files by their names, the status, and what is written."""

    def answered(self, words: str, files: dict[str, str]) -> tuple[int, str]:
        """The answer where the folder has these files alone."""
        for old in self.room.iterdir():
            old.unlink()
        for name, text in files.items():
            self.put(name, text)
        done = subprocess.run([PROGRAM, *words.split()], cwd=self.room, stdin=subprocess.DEVNULL, stdout=subprocess.PIPE, timeout=60)
        return done.returncode, done.stdout.decode()

    def assert_rows(self, rows: dict[str, tuple[str, dict[str, str], int, str]]) -> None:
        for name, (words, files, status, text) in rows.items():
            with self.subTest(name):
                self.assertEqual(self.answered(words, files), (status, text))
