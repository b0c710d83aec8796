"""The built program over a real system: files that fail or change under it, outputs that fail, and words that are no text."""
from __future__ import annotations

import ctypes
import os
import platform
import re
import resource
import subprocess
import tempfile
import threading
import unittest
from pathlib import Path

import tool
from tool import PROGRAM, needs_program

starve = tool.load('starve')

CART = 'format = 1\n[[chip]]\nkind = "3851"\nbase = 0\nports = 4\nrom = "712B90FE"\n'
SOURCED = 'format = 1\n[[chip]]\nkind = "3851"\nbase = 0\nports = 4\nsource = "source"\n'
SCRIPT = 'steps 3\n'
RUN = ('verdict whole\nstop done\nregs P=0001 P1=0000 D0=0000 D1=0000 A=01 IS=00 W=00\n'
       + ''.join(f's{row}0' + ' 00' * 16 + '\n' for row in range(4)) + 'total 3 instructions 36 phi\n').encode()
GOOD = {'cart': CART, 'sourced': SOURCED, 'script': SCRIPT, 'source': ' LIS 1\nLOOP: NOP\n BR LOOP\n', 'cert': '', 'commands': 'step 1\n',
        'digits': '712B', 'plan': 'module source 0000 00FF\n'}
PLAY = ['play', 'cart', 'script']

# The words with one name left open, what the line calls the file, and whether it is the first to be fetched.
PLACES = [
    (['play', '{}', 'script'], 'cart'), (['check', '{}'], 'cart'), (['ref', 'cart', '{}'], 'script'), (['play', 'cart', '{}'], 'script'),
    (['verify', 'cart', '{}'], 'cert'), (['debug', 'cart', '{}'], 'commands'), (['asm', '{}'], 'file'), (['dis', '{}'], 'file'),
    (['link', '{}'], 'plan')]

# Reading at 0, which is no address of a process, fails for everybody.
FAILS_TO_READ = '/proc/self/mem'


class Room(unittest.TestCase):
    """A folder with good files, in which the program is started."""

    def setUp(self):
        room = tempfile.TemporaryDirectory()
        self.addCleanup(room.cleanup)
        self.room = Path(room.name)
        for name, text in GOOD.items():
            Path(self.room, name).write_text(text)

    def run_program(self, words, **options) -> subprocess.CompletedProcess:
        options.setdefault('stdout', subprocess.PIPE)
        return subprocess.run([PROGRAM, *words], cwd=self.room, stderr=subprocess.PIPE, timeout=60, **options)

    def expect(self, words, status: int, told: bytes, **options):
        done = self.run_program(words, **options)
        with self.subTest(words=words):
            self.assertEqual((done.returncode, done.stdout, done.stderr), (status, told, b''))

    def expect_everywhere(self, name: str, status: int, told: str):
        """The same file in the place of each that the program fetches."""
        for words, what in PLACES:
            self.expect([word.format(name) for word in words], status, told.format(what).encode())
        if len(name) <= 64:
            Path(self.room, 'named').write_text(SOURCED.replace('"source"', f'"{name}"'))
            self.expect(['play', 'named', 'script'], status, told.format('source 0').encode())
            Path(self.room, 'named').write_text(f'module {name} 0000 00FF\n')
            self.expect(['link', 'named'], status, told.format('module 0').encode())


class ByteByByte(starve.Watched):
    """A run in which each read and each write moves one byte, as the system may have it."""
    CALLS, NUMBER, SIZE = (0, 1), 15, 12

    def run_slowly(self) -> int:
        registers = (ctypes.c_ulonglong * starve.REGISTERS)()
        asked = None
        while (ended := self.go(24)) is None:
            self.ask(starve.GETREGS, registers)
            if asked is not None:
                registers[self.SIZE], asked = asked, None
            elif registers[self.NUMBER] in self.CALLS and registers[self.SIZE] > 1:
                asked, registers[self.SIZE] = registers[self.SIZE], 1
            else:
                continue
            self.ask(starve.SETREGS, registers)
        return ended


@needs_program
class Files(Room):
    def test_good_files_are_taken(self):
        self.expect(PLAY, 0, RUN)
        self.expect(['play', 'sourced', 'script'], 0, RUN)

    def test_a_missing_file(self):
        self.expect_everywhere('missing', 4, 'error store {}\n')

    def test_a_folder(self):
        Path(self.room, 'folder').mkdir()
        self.expect_everywhere('folder', 4, 'error store {}\n')

    def test_a_way_through_a_file(self):
        self.expect_everywhere('cart/inner', 4, 'error store {}\n')

    def test_a_name_that_is_too_long_or_empty(self):
        for words, what in PLACES:
            for name in ('n' * 300, 'n/' * 3000, ''):
                self.expect([word.format(name) for word in words], 4, f'error store {what}\n'.encode())

    def test_links_in_a_circle(self):
        Path(self.room, 'one').symlink_to('other')
        Path(self.room, 'other').symlink_to('one')
        self.expect_everywhere('one', 4, 'error store {}\n')

    @unittest.skipUnless(os.access(FAILS_TO_READ, os.R_OK), 'there is no file here that opens and fails to read')
    def test_a_file_that_opens_and_fails_to_read(self):
        self.expect_everywhere(FAILS_TO_READ, 4, 'error store {}\n')

    def test_a_file_that_may_not_be_read(self):
        """Root may read every file, so there it is somebody else who starts the program."""
        Path(self.room, 'locked').write_text(CART)
        Path(self.room, 'locked').chmod(0)
        self.room.chmod(0o755)
        somebody = {'user': 65534} if os.geteuid() == 0 else {}
        try:
            self.expect(PLAY, 0, RUN, **somebody)
        except PermissionError:
            self.skipTest('nobody else may start the program here')
        for words, what in PLACES:
            self.expect([word.format('locked') for word in words], 4, f'error store {what}\n'.encode(), **somebody)

    def test_a_file_without_an_end(self):
        self.expect_everywhere('/dev/zero', 2, 'error long {}\n')

    def test_empty_files(self):
        self.expect(['play', '/dev/null', 'script'], 2, b'error cart key format cause 1\n')
        self.expect(['play', 'cart', '/dev/null'], 2, b'error script line 1 cause 6\n')
        self.expect(['verify', 'cart', '/dev/null'], 2, b'error cert line 1 cause 5\n')
        self.expect(['debug', 'cart', '/dev/null'], 0, b'')
        self.expect(['asm', '/dev/null'], 0, b'')
        self.expect(['dis', '/dev/null'], 0, b'ORG $0000\n')

    def fed(self, words, pieces, status: int, told: bytes):
        """What comes where the file `pipe` gives these pieces, each by a write of its own, and then ends."""
        pipe = Path(self.room, 'pipe')
        os.mkfifo(pipe)

        def feed():
            with open(pipe, 'wb', buffering=0) as out:
                for piece in pieces:
                    out.write(piece)

        feeder = threading.Thread(target=feed)
        feeder.start()
        self.expect(words, status, told)
        feeder.join()
        pipe.unlink()

    def test_a_file_that_comes_byte_by_byte(self):
        for words, text in ((['play', 'pipe', 'script'], CART), (['play', 'cart', 'pipe'], SCRIPT)):
            self.fed(words, [byte.to_bytes(1, 'big') for byte in text.encode()], 0, RUN)

    def test_a_file_that_ends_early(self):
        self.fed(['play', 'pipe', 'script'], [CART.encode()[:-4]], 2, b'error cart toml\n')
        self.fed(['play', 'cart', 'pipe'], [b'power 00\n', b'step'], 2, b'error script line 2 cause 1\n')

    def test_a_file_that_shrinks(self):
        """It has its whole text, or a first part of it, at the moment of each read; so either it is taken or its end is missing."""
        shrinking, whole = Path(self.room, 'shrinking'), b'\n' * 60_000 + SCRIPT.encode()
        answers = set()
        for _ in range(30):
            shrinking.write_bytes(whole)
            cutter = threading.Thread(target=os.truncate, args=(shrinking, 5_000))
            with subprocess.Popen([PROGRAM, 'play', 'cart', 'shrinking'], cwd=self.room, stdout=subprocess.PIPE) as process:
                cutter.start()
                told = process.communicate(timeout=60)[0]
            cutter.join()
            refused = re.fullmatch(rb'error script line \d+ cause 6\n', told)
            self.assertIn((process.returncode, told if process.returncode == 0 else bool(refused)), ((0, RUN), (2, True)))
            answers.add(process.returncode)
        self.assertLessEqual(answers, {0, 2})


@needs_program
class Words(Room):
    def test_words_that_are_no_text(self):
        for words in ([b'play', b'c\xff', b'script'], [b'\xfe'], [b'asm', b'\xc3\x28'], [b'asm', b'\xed\xa0\x80']):
            self.expect(words, 10, b'')

    def test_a_name_past_ascii_is_a_name(self):
        Path(self.room, 'r\u00e4der').write_text(CART)
        self.expect(['play', 'r\u00e4der', 'script'], 0, RUN)

    def test_a_file_named_by_a_minus(self):
        Path(self.room, '-').write_text(SCRIPT)
        self.expect(['play', 'cart', '-'], 0, RUN)

    def test_a_source_whose_name_is_no_text(self):
        Path(self.room, 'bad').write_bytes(SOURCED.encode().replace(b'"source"', b'"s\xff"'))
        self.expect(['play', 'bad', 'script'], 2, b'error cart toml\n')
        Path(self.room, 'bad').write_text(SOURCED.replace('"source"', '"r\u00e4der"'))
        self.expect(['play', 'bad', 'script'], 2, b'error cart chip 0 key source cause 4\n')


@needs_program
class Outputs(Room):
    def written(self, words, most: int) -> tuple[int, bytes]:
        """The status, with what stands in a file that takes no more than so many bytes."""
        target = Path(self.room, 'target')
        with open(target, 'wb') as out:
            done = self.run_program(
                words, stdout=out, restore_signals=False,
                preexec_fn=lambda: resource.setrlimit(resource.RLIMIT_FSIZE, (most, most)))
        self.assertEqual(done.stderr, b'')
        return done.returncode, target.read_bytes()

    def test_an_output_that_is_full(self):
        with open('/dev/full', 'wb') as full:
            for words in (PLAY, ['check', 'cart'], ['asm', 'source'], ['link', 'plan'], ['dis', 'digits'], ['play', 'missing', 'script'], ['frob']):
                self.assertEqual(self.run_program(words, stdout=full).returncode, 5, words)

    def test_an_output_that_becomes_full(self):
        for most in range(0, len(RUN), 7):
            self.assertEqual(self.written(PLAY, most), (5, RUN[:most]))
        self.assertEqual(self.written(PLAY, len(RUN)), (0, RUN))

    def test_a_refusal_to_an_output_that_becomes_full(self):
        self.assertEqual(self.written(['play', 'missing', 'script'], 7), (5, b'error s'))

    def test_an_output_that_nobody_reads(self):
        """Whether the signal of a broken pipe is ignored or not."""
        for restored in (False, True):
            reader, writer = os.pipe()
            os.close(reader)
            with open(writer, 'wb') as out:
                self.assertEqual(self.run_program(PLAY, stdout=out, restore_signals=restored).returncode, 5)

    def test_an_output_that_may_not_be_written(self):
        with open('/dev/null', 'rb') as out:
            self.assertEqual(self.run_program(PLAY, stdout=out).returncode, 5)

    def test_an_output_that_is_closed(self):
        """A file that is fetched then has the output's number, and isn't written to."""
        for words in (PLAY, ['play', 'missing', 'script'], ['frob']):
            done = subprocess.run(['/bin/sh', '-c', 'exec "$@" >&-', 'sh', PROGRAM, *words], cwd=self.room, timeout=60, stderr=subprocess.PIPE)
            self.assertEqual((done.returncode, done.stderr), (5, b''))
        for name, text in GOOD.items():
            self.assertEqual(Path(self.room, name).read_text(), text)

    def test_an_output_that_is_read_byte_by_byte(self):
        with subprocess.Popen([PROGRAM, *PLAY], cwd=self.room, stdout=subprocess.PIPE, bufsize=0) as process:
            told = b''.join(iter(lambda: process.stdout.read(1), b''))
        self.assertEqual((process.returncode, told), (0, RUN))

    @unittest.skipUnless(platform.machine() == 'x86_64' and os.path.exists('/proc/self/mem'), 'runs can be watched on Linux on x86-64 alone')
    def test_a_byte_a_call(self):
        """Of the files and of the output."""
        for words, told in ((PLAY, RUN), (['play', 'sourced', 'script'], RUN), (['play', 'missing', 'script'], b'error store cart\n')):
            with tempfile.TemporaryFile() as out:
                status = ByteByByte(PROGRAM, words, self.room, out.fileno()).run_slowly()
                out.seek(0)
                self.assertEqual((status, out.read()), (4 if told.startswith(b'error') else 0, told))

    def test_no_input_is_read_and_no_error_written(self):
        done = subprocess.run(['/bin/sh', '-c', 'exec "$@" <&- 2>&-', 'sh', PROGRAM, *PLAY], cwd=self.room, timeout=60, stdout=subprocess.PIPE)
        self.assertEqual((done.returncode, done.stdout), (0, RUN))
