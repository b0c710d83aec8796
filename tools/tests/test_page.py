"""tools/page: what is on the page of a run, and that nothing of it comes from elsewhere."""
from __future__ import annotations

import base64
import json
import re
import shutil
import subprocess
import sys
import tempfile
import unittest
from html.parser import HTMLParser
from pathlib import Path

import tool
from companion.description import Description
from companion.pictures import colours_of, parts, png
from companion.program import Program
from companion.run_page.markup import data, element, row
from companion.run_page.rack import Fault, Role, followed
from companion.run_page.run import showing
from companion.run_page.timeline import Span, spans
from companion.names import Names
from companion.script import Script
from tool import call, needs_program

needs_toml = unittest.skipUnless(sys.version_info >= (3, 11), 'Python before 3.11 has no reader of TOML')
CHROMIUM = shutil.which('chromium')
PROGRAM = Program((str(tool.PROGRAM),))

PARTED = ('cartridges/parted/cart.toml', 'cartridges/parted/script.txt')
PSU = '[[chip]]\nkind = "3851"\nbase = 0x{:04X}\nports = {}\nrom = "{}"\n'
SMI = '[[chip]]\nkind = "3853"\n{0}_page = 0x{1:02X}\n{0}_pages = 1\n'
# Draws a pixel of colour 1 at a time, one column to the left of the other, in a row and with a tone that the key byte of port 4 chooses.
DRAWING = '''
        LI 255-64
        OUTS 1
LOOP:   CLR
        OUTS 4
        INS 4
        OUTS 5
        DS 0
        LR A,0
        OUTS 4
        CLR
        OUTS 0
        LI $20
        OUTS 0
        BR LOOP
DEAD:   LIS 1           ; </script> & <b>
        POP
'''
NO_END = frozenset('meta img input br'.split())


class Checked(HTMLParser):
    """Reads a page, and notes what is wrong with its elements."""

    def __init__(self, page: str):
        super().__init__()
        self.open: list[str] = []
        self.wrong: list[str] = []
        self.anchors: list[str] = []
        self.links: list[str] = []
        self.text: list[str] = []
        self.feed(page)
        self.close()
        self.wrong += [f'{name} has no end' for name in self.open]
        self.wrong += [f'#{link} leads nowhere' for link in self.links if link not in self.anchors]
        self.wrong += [f'two of #{anchor}' for anchor in set(self.anchors) if self.anchors.count(anchor) > 1]

    def handle_starttag(self, tag: str, attrs: list[tuple[str, str | None]]) -> None:
        given = dict(attrs)
        self.anchors += [given['id']] if 'id' in given else []
        self.links += [given['href'][1:]] if tag == 'a' else []
        if tag == 'img' and not given.get('alt') or tag == 'svg' and 'aria-hidden' not in given and given.get('role') != 'img':
            self.wrong.append(f'{tag} without words')
        if tag == 'button' and not given.get('type'):
            self.wrong.append('button without a type')
        self.open += [tag] * (tag not in NO_END)

    def handle_endtag(self, tag: str) -> None:
        if not self.open or self.open.pop() != tag:
            self.wrong.append(f'</{tag}> ends nothing')

    def handle_data(self, data: str) -> None:
        if self.open and self.open[-1] not in ('script', 'style'):
            self.text.append(data)


def text_of(page: str) -> str:
    return ' '.join(''.join(Checked(page).text).split())


def outside(page: str) -> list[str]:
    """What a page would fetch."""
    found = re.findall(r'(?:src|href|action|data|poster)="((?!#|data:image/png;base64,)[^"]*)"', page)
    return found + re.findall(r'https?:|url\(|@import|<link|<iframe|fetch\(|XMLHttpRequest|import ', page)


@needs_program
@needs_toml
class Page(unittest.TestCase):
    def setUp(self):
        folder = tempfile.TemporaryDirectory()
        self.addCleanup(folder.cleanup)
        self.folder = Path(folder.name)

    def put(self, cart: str, script: str = 'steps 9\n', **files: str) -> None:
        (self.folder / 'cart.toml').write_text('format = 1\n' + cart)
        (self.folder / 'script.txt').write_text(script)
        for name, text in files.items():
            (self.folder / f'{name}.f8').write_text(text)

    def page(self, *words: object, cwd: Path | None = None) -> str:
        done = call('page', *(words or ('cart.toml', 'script.txt')), cwd=cwd or self.folder)
        self.assertEqual((done.returncode, re.sub(r'page: (running|following|the verdict|a list of cases).*\n', '', done.told)), (0, ''))
        self.assertEqual(Checked(done.text).wrong, [])
        self.assertEqual(outside(done.text), [])
        return done.text

    def has(self, page: str, *said: str) -> None:
        """A page has these texts. It is long, so that the one that fails is told alone."""
        for text in said:
            self.assertTrue(text in page, text)

    def matches(self, page: str, form: str) -> None:
        self.assertTrue(re.search(form, page), form)

    def test_a_step_that_is_not_served(self):
        page = self.page(*PARTED, cwd=tool.TOP)
        self.has(text_of(page), 'Verdict: refused', 'refused 0009 ---- . 7', 'the ways from 0008 and 000E meet at 0009 with 0012 and 0014',
                 'Run: astray', 'stop astray romc 02 socket 0 at 0014 reference 0013', '11 instructions, 134 Φ',
                 'drives at its own 0014, and holds 0013 too', "keeps off the bus: doesn't hold 0013",
                 'Copies first parted in step 9, in 0003 copy.f8 line 7: XDC: socket 0 DC0 2800, reference 0000.',
                 'At the stop: socket 0 DC0 0014, apart since step 20, in 000A COPY+1, copy.f8 line 12: XDC.',
                 'The run ended at Φ 134, before its first frame')
        # The last twenty of thirty steps, with their instructions; the one that failed is marked, and the first parting is a row more.
        numbers = [int(number) for number in re.findall(r'<tr(?: class="refused")?><td>(\d+)</td><td>[0-9A-F]{2} (?:short|long)', page)]
        self.assertEqual(numbers, [9, *range(11, 31)])
        self.assertEqual(re.findall(r'<tr class="refused"><td>(\d+)</td><td>02 long</td><td>--</td>', page), ['30'])
        self.has(page, '<code>000A COPY+1, copy.f8 line 12: XDC</code>')
        # In the listing the refused line has its cause.
        self.matches(page, r'<tr class="refused" id="a0009">.*?COPY:   LM.*?refused here.*?Reason 7')
        self.assertFalse('no point reaches it' in page)  # the checker hadn't come to the line behind the loop

    def test_frames_keys_and_writes(self):
        self.put(PSU.format(0, 4, '').replace('rom = ""', 'source = "drawing.f8"'), drawing=DRAWING,
                 script='at 0 keys 04 3F\nat 1 keys 04 60\nat 1 pulse 0\nshow 2\nframes 2\n')
        page = self.page()
        values = json.loads(re.search(r'<script type="application/json" id="run">(.*?)</script>', page)[1])
        self.assertEqual([caption.split(',')[0] for caption in values['captions']], ['frame 1', 'frame 2'])
        self.assertEqual([caption.split(', ')[2:] for caption in values['captions']],
                         [['tone 0', 'keys port 04 3F'], ['tone 1', 'keys port 04 60']])
        # The pictures are those of the program, all of them.
        (self.folder / 'all.txt').write_text('at 0 keys 04 3F\nat 1 keys 04 60\nat 1 pulse 0\nshow 1\nshow 2\nframes 2\n')
        lines = subprocess.run([tool.PROGRAM, 'play', 'cart.toml', 'all.txt'], cwd=self.folder, capture_output=True).stdout.splitlines(True)
        frames = [part for part in parts(lines) if not isinstance(part, bytes)]
        pictures = [base64.b64decode(values['pictures'][at].partition(',')[2]) for at in values['of']]
        self.assertEqual(pictures, [png(frame.rows, colours_of('paper'), 1) for frame in frames])
        self.assertEqual(len(set(pictures)), 2)
        writes = sum(line.startswith(b'out ') for line in lines)
        self.has(text_of(page), '2 frames, of which the script shows 1.', 'tone 1 from Φ', 'key byte 3F from Φ 0 to 29,830',
                 'a pulse at frame 1', f'{writes:,} port writes')
        counted = re.findall(r'<tr><td>\d to \d</td>((?:<td>\d+</td>)+)</tr>', page)
        self.assertEqual(sum(int(number) for counts in counted for number in re.findall(r'\d+', counts)), writes)

    def test_code_that_no_point_reaches_and_what_is_known(self):
        self.put(PSU.format(0, 4, '').replace('rom = ""', 'source = "drawing.f8"'), drawing=DRAWING)
        page = self.page('cart.toml')
        self.has(text_of(page), 'Verdict: whole')
        self.assertFalse('Run:' in text_of(page))
        self.matches(page, r'<tr class="unreached" id="a0011">.*?DEAD:   LIS 1 .*?no point reaches it')
        self.has(page, '&lt;/script&gt; &amp; &lt;b&gt;')
        self.assertEqual(len(re.findall('<strong class="mark">no point reaches it</strong>', page)), 2)
        self.matches(page, r'id="a0002">.*?OUTS 1</code></td><td class="known"><span><b>A=BF</b> D0=0000 ')

    def test_several_points_of_an_address(self):
        self.put('split = [0]\n' + PSU.format(0, 4, '72503094FE90FF'))
        page = self.page('cart.toml')
        self.matches(page, r'id="a0002">.*?<span>A=02 D0=0000 D1=0000 <b>Z0O0I0</b> <b>r0=01/02</b></span> '
                           r'<span class="returns">2 points, return unset<')
        self.matches(page, r'id="a0005">.*?BR \$0005</code></td><td class="known"><span>A=02 <b>r0=00</b> D0=0000 ')

    def test_bytes_without_a_text_have_the_names_that_are_given(self):
        self.put(PSU.format(0, 4, '2800062B90FE1C'))
        (self.folder / 'names').write_text('WAIT 0003\nBACK 0006\n')
        page = self.page('--names', 'names', 'cart.toml')
        self.has(page, *(f'<code>{said}</code>' for said in ('        PI BACK', 'WAIT:   NOP', '        BR WAIT', 'BACK:   POP')))
        self.has(page, '; 1017 bytes FF to 03FF, which nothing gives', '<a href="#a0003">0003 WAIT</a>')

    def test_a_place_that_the_listing_does_not_have_is_no_link(self):
        self.put(PSU.format(0, 4, '290800'))
        self.has(self.page('cart.toml'), 'refused 0800 ---- . 1', '<p>0800</p>')

    def test_what_a_page_of_agreed_says(self):
        page = self.page('cartridges/summed/cart.toml', 'cartridges/summed/script.txt', cwd=tool.TOP)
        self.has(text_of(page), 'Why it is agreed', '0008 NEXT+1, sum.f8 line 9: AM')
        self.matches(page, r'<tr class="unserved" id="a0008">.*?may read where no chip answers')

    def test_a_verdict_whose_causes_are_not_found(self):
        self.put(PSU.format(0, 4, '2B90FE'))
        stub = self.folder / 'stub'
        stub.write_text(f'#!/bin/sh\n[ "$1" = check ] && echo toomany && exit 7\nexec {tool.PROGRAM} "$@"\n')
        stub.chmod(0o755)
        page = self.page('--program', './stub', 'cart.toml')
        self.has(text_of(page), 'Verdict: toomany', 'Why there are too many points', 'The causes are not told here')
        self.has(page, '<code>        BR $0000</code>')

    def test_more_shown_frames_leave_the_lines_of_a_fault(self):
        self.put(PSU.format(0, 4, '2B90FE'), script='frames 2\nshow 700')
        done = call('page', 'cart.toml', 'script.txt', cwd=self.folder)
        self.assertEqual((done.returncode, done.text), (2, ''))
        self.assertIn('error script line 2 cause 3\n', done.told)
        self.assertIn('tools/explain ./channel_f play cart.toml script.txt', done.told)

    def test_refusals_write_nothing(self):
        self.put('kind = 1\n')
        (self.folder / 'good.toml').write_text('format = 1\n' + PSU.format(0, 4, '90FF'))
        for words, hint, status in ((['cart.toml'], 'error cart key ? cause 2', 2), (['no/such/file'], 'error store cart', 4),
                                    (['-o', 'no/such/folder/x', 'good.toml'], 'No such file', 1),
                                    (['-o', './good.toml', 'good.toml'], 'the page is made from it', 1)):
            done = call('page', *words, cwd=self.folder)
            self.assertEqual((done.returncode, done.text), (status, ''))
            self.assertIn(hint, done.told)
        self.assertEqual(sorted(path.name for path in self.folder.iterdir()), ['cart.toml', 'good.toml', 'script.txt'])

    @unittest.skipUnless(CHROMIUM, 'chromium is not there')
    def test_a_browser_runs_it(self):
        self.put(PSU.format(0, 4, '').replace('rom = ""', 'source = "drawing.f8"'), drawing=DRAWING, script='frames 2\n')
        # Somebody goes back to the first frame, and plays.
        clicks = "<script>document.getElementById('before').click();document.getElementById('play').click()</script></body>"
        (self.folder / 'page.html').write_text(self.page().replace('</body>', clicks))
        last = r'<figcaption id="caption">frame 2, '
        # A busy machine may draw too few frames in the browser's own time, so it gets more of it.
        for budget in (2_000, 10_000, 60_000):
            shown = self.in_browser(budget)
            if re.search(last, shown):
                break
        # The page's own JavaScript has been at the slider, at the picture's words, at the button and at the time line.
        self.matches(shown, r'<input type="range"[^>]* aria-valuetext="frame 2, ')
        self.matches(shown, last)
        self.matches(shown, r'<button[^>]* id="play" aria-pressed="false">▶ Play')
        self.matches(shown, r'<line x1="948" x2="948"[^>]* id="now"')

    def in_browser(self, budget: int) -> str:
        """The page as a browser has it after so many milliseconds of its own time."""
        words = [CHROMIUM, '--headless', '--no-sandbox', '--disable-gpu', f'--user-data-dir={self.folder}/browser', '--dump-dom',
                 f'--virtual-time-budget={budget}', f'file://{self.folder}/page.html']
        return subprocess.run(words, capture_output=True, text=True, timeout=120).stdout


@needs_program
@needs_toml
class Faults(unittest.TestCase):
    def fault(self, cart: str, script: str = 'steps 9\n') -> Fault:
        with tempfile.TemporaryDirectory() as folder:
            paths = [str(Path(folder, name)) for name in ('cart.toml', 'script.txt')]
            Path(paths[0]).write_text('format = 1\n' + cart)
            Path(paths[1]).write_text(script)
            description = Description.read(paths[0], PROGRAM)
            stop = next(line for line in PROGRAM.run('play', *paths).lines if line.startswith('stop '))
            power = Script.of(script.encode()).power or 0
            return Fault.of(stop, followed(PROGRAM, *paths, description, power, stop, Names.of(description)), description)

    def roles(self, *given: str) -> list[tuple[Role, str]]:
        return [(part.role, part.words) for part in self.fault(*given).parts()]

    def test_the_parts_of_chips_in_the_worked_faults_of_the_bus_page(self):
        self.assertEqual(self.roles(PSU.format(0, 4, '2B') + PSU.format(0, 8, '2B')), [(Role.WRONG, 'drives at 0000, the reference')] * 2)
        self.assertEqual(self.roles(PSU.format(0, 4, '2A28002C2A00102C16') + SMI.format('ram', 0x28)),
                         [(Role.WRONG, 'drives at its own 0010'), (Role.WRONG, 'drives at 2800, the reference')])
        self.assertEqual(self.roles(PSU.format(0, 4, '29040029'.ljust(8, '0'))), [(Role.QUIET, "keeps off the bus: doesn't hold 0400")])
        self.assertEqual(self.roles(PSU.format(0, 4, '2A00052C16')), [(Role.WRONG, 'drives at its own 0005, and holds 0000 too')])
        self.assertEqual(self.roles(PSU.format(0, 4, '2A04002C2A90002C16') + PSU.format(0x400, 8, '') + SMI.format('rom', 4)),
                         [(Role.QUIET, 'keeps off the bus: holds neither 9000 nor 0400'),
                          (Role.MISSING, 'holds 0400 and should drive, but is at 9000'), (Role.RIGHT, 'drives at 0400, the reference')])
        self.assertEqual(self.roles(PSU.format(0, 4, '1C'), 'power 04\nsteps 9\n'),
                         [(Role.MISSING, 'holds 0000 and should drive, but is at 0404')])

    def test_ports(self):
        read, write = PSU.format(0, 4, 'A6'), PSU.format(0, 4, 'B4') + PSU.format(0x400, 4, '')
        self.assertEqual(self.roles(read + SMI.format('ram', 0x28)), [(Role.QUIET, 'no data port 06')] * 2)
        self.assertEqual(self.roles(write), [(Role.WRONG, 'has port 04: takes')] * 2)

    def test_a_store(self):
        self.assertEqual(self.roles(PSU.format(0, 4, '2A280017') + SMI.format('ram', 0x28) * 2),
                         [(Role.QUIET, 'keeps off the bus: has no RAM at 2800'), *[(Role.WRONG, 'takes at 2800, the reference')] * 2])

    def test_the_first_parting_of_a_long_run_is_kept(self):
        # XDC once, and then a loop of 200 turns of BR before the read that fails.
        fault = self.fault(PSU.format(0, 4, '2A00052C20C81F94FE16'), 'steps 600\n')
        self.assertEqual(fault.rack.first.within, '0003 XDC')


class Parts(unittest.TestCase):
    def test_all_that_is_no_element_is_escaped(self):
        self.assertEqual(element('p', '<b>', element('b', '&'), class_='"', data_x=1, hidden=True, title=None),
                         '<p class="&quot;" data-x="1" hidden>&lt;b&gt;<b>&amp;</b></p>')
        self.assertEqual(row('<', element('td', 1)), '<tr><td>&lt;</td><td>1</td></tr>')
        self.assertEqual(data('x', ['</script>']).count('</script>'), 1)

    def test_spans_begin_at_power_on_and_end_with_the_run(self):
        self.assertEqual(list(spans([(10, 0), (20, 2), (30, 2), (40, 1)], 50)), [Span(0, 20, 0), Span(20, 40, 2), Span(40, 50, 1)])
        self.assertEqual(list(spans([(0, 3)], 50)), [Span(0, 50, 3)])

    def test_a_script_shows_as_many_frames_as_it_has_room_for(self):
        def shown(text: str) -> Script:
            return Script.of(showing(text.encode(), Script.of(text.encode())))

        self.assertEqual(sorted(shown('show 2\nframes 4').shown), [1, 2, 3, 4])
        self.assertEqual(sorted(shown('steps 5\n').shown), list(range(1, 601)))
        full = shown('at 0 keys 00 01\n' * 1000 + 'show 30\nframes 600\n')
        self.assertEqual((sorted(full.shown), full.fault), ([*range(1, 24), 30], None))


if __name__ == '__main__':
    unittest.main()
