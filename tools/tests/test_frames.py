from __future__ import annotations

import io
import re
import struct
import subprocess
import sys
import tempfile
import unittest
import zlib
from pathlib import Path
from unittest import mock

import tool
from tool import call, frame, needs_program

BEFORE = 'verdict whole\nout 32 00 20\n'
AFTER = 'stop done\nregs P=0009\n'
# Row 0 begins with 0 1 2 3, and row 1 with 3 3 3 3.
CORNER = ['0123' + '0' * 124, '3333' + '0' * 124] + ['0' * 128] * 62


class Frames(unittest.TestCase):
    def test_plain_picture_stands_behind_its_line(self):
        done = call('frames', '--plain', stdin=BEFORE + frame(rows=CORNER) + AFTER)
        lines = done.text.split('\n')
        self.assertEqual(lines[:3], ['verdict whole', 'frame 20 phi 596600 tone 0', '_jg#'])
        self.assertEqual(lines[34:], ['stop done', 'regs P=0009', ''])
        self.assertEqual((done.returncode, done.told), (0, ''))

    def test_half_blocks_have_the_upper_colour_as_ink_and_the_lower_as_ground(self):
        done = call('frames', '--depth', '24', '--colours', '000000,010101,020202,030303', stdin=frame(rows=CORNER))
        self.assertTrue(done.text.split('\n')[1].startswith(
            '\x1b[38;2;0;0;0;48;2;3;3;3m▀\x1b[38;2;1;1;1;48;2;3;3;3m▀\x1b[38;2;2;2;2;48;2;3;3;3m▀\x1b[38;2;3;3;3;48;2;3;3;3m▀'))

    def test_256_colours_are_the_nearest(self):
        frames = tool.load('frames')
        self.assertEqual([frames.nearest_of_256(c) for c in ((0, 0, 0), (255, 0, 0), (8, 8, 8), (128, 128, 128))], [16, 196, 232, 244])

    def test_narrow_picture_has_64_characters(self):
        line = call('frames', '--narrow', '--depth', '24', stdin=frame()).text.split('\n')[1]
        self.assertEqual(sum(c in ' ▗▖▄▝▐▞▟▘▚▌▙▀▜▛█' for c in line), 64)

    def test_a_narrow_cell_has_the_two_colours_that_most_of_its_pixels_have(self):
        frames = tool.load('frames')
        quarters = frames.Quarters([(n, n, n) for n in range(4)], deep=True)

        def cell(*pixels: int) -> tuple[int, int, str]:
            found = re.fullmatch(r'\x1b\[38;2;(\d);\1;\1;48;2;(\d);\2;\2m(.)', quarters.cell(pixels))
            return int(found[1]), int(found[2]), found[3]

        # The ink, the ground, and where the ink is.  Of colours that as many pixels have, the higher ones are kept.
        self.assertEqual(cell(3, 3, 3, 0), (0, 3, '▗'))
        self.assertEqual(cell(0, 3, 0, 3), (0, 3, '▌'))
        self.assertEqual(cell(1, 1, 0, 3), (3, 1, '▗'))
        self.assertEqual(cell(0, 1, 2, 3), (2, 3, '▛'))
        # One that is as near to the ink as to the ground goes with the ground.
        self.assertEqual(cell(2, 1, 3, 3), (2, 3, '▀'))
        self.assertEqual(cell(1, 1, 2, 3), (3, 1, '▗'))

    def test_no_two_pairs_look_alike_in_plain(self):
        self.assertEqual(len(set(''.join(tool.load('frames').PLAIN))), 16)

    def test_the_painter_goes_by_the_options_and_the_terminal(self):
        frames = tool.load('frames')

        def painted(*words: str, terminal: bool, **environment: str) -> str:
            with mock.patch.dict('os.environ', {'COLUMNS': '200', **environment}, clear=True):
                return frames.painter_of(frames.options_of(list(words)), terminal).text([[0, 3] * 64] * 64)[0].partition('▀')[0]

        plain = painted('--plain', terminal=True)
        self.assertEqual(plain, ' #' * 64)
        self.assertEqual(painted(terminal=False), plain)
        self.assertEqual(painted(terminal=True, NO_COLOR='1'), plain)
        red = ('--colours', 'ff0000,ff0000,ff0000,ff0000')
        self.assertEqual(painted(*red, '--depth', '256', terminal=False, NO_COLOR='1'), '\x1b[38;5;196;48;5;196m')
        self.assertEqual(painted(*red, terminal=True), '\x1b[38;5;196;48;5;196m')
        self.assertEqual(painted(*red, terminal=True, COLORTERM='truecolor'), '\x1b[38;2;255;0;0;48;2;255;0;0m')
        self.assertEqual(painted(*red, '--depth', '256', terminal=True, COLORTERM='truecolor'), '\x1b[38;5;196;48;5;196m')

    def test_a_picture_is_narrow_on_a_narrow_terminal(self):
        frames = tool.load('frames')
        for columns, kind in (('127', frames.Quarters), ('128', frames.Blocks)):
            with mock.patch.dict('os.environ', {'COLUMNS': columns}):
                self.assertIs(type(frames.painter_of(frames.options_of([]), True)), kind)
                self.assertIs(type(frames.painter_of(frames.options_of(['--depth', '24']), False)), frames.Blocks)

    def test_a_film_goes_over_the_picture_before_unless_a_line_came_between(self):
        frames = tool.load('frames')
        out = io.BytesIO()
        show = frames.Show(frames.options_of(['--fps', '1000']), frames.Plain(), True, out)
        up = b'\x1b[33A\r\x1b[K'  # the 32 lines of the picture and that of the frame
        show.run([line.encode() for line in (frame(1) + frame(2) + 'out 1 02 03\n' + frame(3) + AFTER + frame(4)).splitlines(True)])
        before, *pictures = out.getvalue().split(b'frame ')
        self.assertEqual([picture.splitlines()[0] for picture in pictures], [b'%d phi 596600 tone 0' % number for number in (1, 2, 3, 4)])
        self.assertEqual([part.endswith(up) for part in (before, *pictures[:3])], [False, True, True, False])

    def test_writes_are_kept_on_request(self):
        self.assertIn('out 32 00 20\n', call('frames', '--writes', stdin=BEFORE).text)

    def test_refusal_and_empty_input_pass(self):
        self.assertEqual(call('frames', stdin='error words\n').text, 'error words\n')
        self.assertEqual(call('frames').stdout, b'')

    def test_bytes_that_are_no_text_pass(self):
        self.assertEqual(call('frames', stdin=b'\xff\x00\nno line feed').stdout, b'\xff\x00\nno line feed')

    def test_lines_may_end_with_carriage_return_and_line_feed(self):
        with tempfile.TemporaryDirectory() as folder:
            path = Path(folder) / 'run.txt'
            path.write_bytes((frame(7, CORNER) + AFTER).replace('\n', '\r\n').encode())
            self.assertEqual(call('frames', '--plain', path).text.splitlines()[:2], ['frame 7 phi 596600 tone 0', '_jg#'])
            self.assertEqual(call('frames', '--png', folder, path).text, 'frame 7 phi 596600 tone 0\r\n' + AFTER.replace('\n', '\r\n'))
            self.assertTrue((Path(folder) / 'frame-007.png').is_file())

    def test_frame_that_is_cut_off_loses_no_line(self):
        whole = frame()
        for cut in (whole[:40], whole[:1000], whole[:-1][:-130], whole.split('\n')[0] + '\n' + AFTER):
            done = call('frames', '--plain', stdin=cut)
            self.assertEqual(done.text, cut)
            self.assertIn('frame 20 is cut off', done.told)

    def test_frame_in_a_cut_frame_is_drawn(self):
        done = call('frames', '--plain', stdin=frame(1)[:400] + '\n' + frame(2, CORNER))
        self.assertIn('frame 2 phi 596600 tone 0\n_jg#\n', done.text)

    def test_png_holds_the_pixels(self):
        with tempfile.TemporaryDirectory() as folder:
            done = call('frames', '--png', folder, '--scale', 1, '--colours', 'grey', stdin=frame(7, CORNER) + AFTER)
            self.assertEqual(done.text, 'frame 7 phi 596600 tone 0\n' + AFTER)
            data = (Path(folder) / 'frame-007.png').read_bytes()
        self.assertEqual(struct.unpack('>II', data[16:24]), (128, 64))
        self.assertEqual(data[data.index(b'PLTE') + 4:][:12], bytes.fromhex('ffffffaaaaaa555555000000'))
        start = data.index(b'IDAT')
        body = zlib.decompress(data[start + 4:start + 4 + struct.unpack('>I', data[start - 4:start])[0]])
        self.assertEqual((len(body), body[:3], body[33:36]), (64 * 33, b'\x00\x1b\x00', b'\x00\xff\x00'))

    def test_png_has_as_many_dots_a_pixel_as_the_scale(self):
        frames = tool.load('frames')
        rows = [[int(digit) for digit in row] for row in CORNER]
        data = frames.png(rows, frames.colours_of('grey'), 2)
        self.assertEqual(struct.unpack('>II', data[16:24]), (256, 128))
        start = data.index(b'IDAT')
        body = zlib.decompress(data[start + 4:start + 4 + struct.unpack('>I', data[start - 4:start])[0]])
        self.assertEqual([body[at:at + 3] for at in range(0, 4 * 65, 65)], [b'\x00\x05\xaf'] * 2 + [b'\x00\xff\xff'] * 2)
        self.assertEqual(len(body), 128 * 65)

    def test_status_is_that_of_the_command(self):
        done = call('frames', sys.executable, '-c', 'print("error words"); raise SystemExit(3)')
        self.assertEqual((done.text, done.returncode), ('error words\n', 3))

    def test_wrong_words_and_missing_files(self):
        self.assertEqual(call('frames', '--colours', 'pink').returncode, 2)
        self.assertEqual(call('frames', '--scale', '0').returncode, 2)
        done = call('frames', 'no/such/file')
        self.assertEqual((done.returncode, done.told), (1, 'frames: no/such/file: No such file or directory\n'))

    def test_reader_that_goes_away_leaves_no_talk(self):
        run = f'{sys.executable} {tool.TOOLS / "frames"} --plain | head -1'
        done = subprocess.run(['sh', '-c', run], input=(frame() * 200).encode(), capture_output=True)
        self.assertEqual((done.stdout, done.stderr), (b'frame 20 phi 596600 tone 0\n', b''))

    @needs_program
    def test_the_first_frames_of_the_lighthouse(self):
        with tempfile.TemporaryDirectory() as folder:
            script = Path(folder) / 'script.txt'
            script.write_text('show 1\nshow 2\nframes 2\n')
            done = call('frames', '--plain', tool.PROGRAM, 'play', 'cartridges/lighthouse/cart.toml', script)
        self.assertEqual([line.split()[1] for line in done.text.split('\n') if line.startswith('frame ')], ['1', '2'])
        self.assertEqual(done.text.count('\n'), 1 + 2 * 33 + 1 + 6)
        self.assertIn('\nstop done\n', done.text)
        self.assertNotIn('\nout ', done.text)


if __name__ == '__main__':
    unittest.main()
