"""The whole page, with its styles and its JavaScript in it, so that nothing is fetched from elsewhere."""
from __future__ import annotations

import re
from dataclasses import dataclass, field
from pathlib import Path
from typing import Sequence

from companion.causes import Words
from companion.description import Chip, Description
from companion.names import Names
from companion.pictures import Colour
from companion.run_page.fault import fault_section
from companion.run_page.knowledge import Knowledge
from companion.run_page.listing import Listing, listing
from companion.run_page.markup import Markup, element, row, section, table
from companion.run_page.rack import Fault, Followed
from companion.run_page.run import FRAME_PHI, Run
from companion.run_page.timeline import timeline_section
from companion.run_page.viewer import frames_section
from companion.search import Verdict
from companion.verdict_words import told

HERE = Path(__file__).resolve().parent
MOST_PLACES = 4  # of reads that may find no chip
UNTOLD = ('The causes are not told here: the search for them took too long for a page, or came to another verdict. `tools/why` looks for '
          'them.')

VERDICTS = {
    'whole': 'No run can stop at a bus step.',
    'agreed': 'No run can stop at a bus step, or at none but a read that no chip answers.',
    'refused': 'It could not be shown that no run stops at a bus step: at one place something may go wrong.',
    'toomany': 'It could not be shown that no run stops at a bus step: there is too much to keep apart.',
}
PROVED = {
    'whole': 'A list of cases shows that no run can stop at a bus step:',
    'agreed': 'A list of cases shows that no run can stop at a bus step, or at none but a read that no chip answers:',
    'unproved': 'No list of cases was found that shows more:',
}
STOPS = {
    'done': 'came to its end',
    'conflict': 'stopped at a bus step: several chips answer',
    'undriven': 'stopped at a bus step: no chip answers',
    'astray': 'stopped at a bus step: a chip answers at a wrong address, or does not answer at the right one',
    'reserved': 'stopped at an opcode that belongs to no instruction',
}


@dataclass
class Subject:
    """All that the page is about."""
    cart: str
    description: Description
    names: Names
    knowledge: Knowledge
    script: str = ''
    run: Run | None = None
    found: Followed | None = None
    colours: Sequence[Colour] = field(default_factory=tuple)

    @property
    def title(self) -> str:
        """The name of the cartridge's folder, or of the description itself."""
        path = Path(self.cart).absolute()
        return path.parent.name if path.name == 'cart.toml' and path.parent.name else path.stem

    @property
    def fault(self) -> Fault | None:
        return Fault.of(self.run.stop, self.found, self.description) if self.run and self.found else None


def word_of_stop(run: Run) -> str:
    return run.stop.split(' ')[1]


def lead(subject: Subject) -> Markup:
    """The verdict and the end of the run, each in a box of its own."""
    word, refusal = subject.knowledge.word, subject.knowledge.refusal
    place = element('p', element('a', subject.names.full(refusal.point.at), href='#verdict')) if refusal else None
    boxes = [element('div', element('h2', 'Verdict: ', element('span', word, class_='word')),
                     element('p', VERDICTS.get(word, ''), ' ', element('code', subject.knowledge.verdict)), place, class_=f'box {word}')]
    run = subject.run
    if run is not None:
        stop = word_of_stop(run)
        frames = f'{run.phi / FRAME_PHI:.1f} frames' if run.phi >= FRAME_PHI else 'less than a frame'
        counts = f'{run.instructions:,} instructions, {run.phi:,} Φ, {frames}, {len(run.writes):,} port writes.'
        boxes.append(element('div', element('h2', 'Run: ', element('span', stop, class_='word')),
                             element('p', f'It {STOPS.get(stop, "stopped")}. ', element('code', run.stop)), element('p', counts),
                             class_=f'box {"done" if run.is_done else "fault"}'))
    return element('div', *boxes, class_='boxes')


def paths(subject: Subject) -> Markup:
    sources = [chip.source for chip in subject.description.chips if chip.source]
    rows = [('Description', subject.cart), ('Script', subject.script or 'none was given, so nothing was run'), ('Sources', ', '.join(sources))]
    pairs = [(element('dt', name), element('dd', element('code', text))) for name, text in rows if text]
    return element('dl', *pairs, class_='paths')


def linked(line: str) -> Markup:
    """A line of an explanation. One that is a place leads to the listing; words between accents are code."""
    if match := re.match(r' *([0-9A-F]{4}) ', line):
        return element('p', element('a', ' '.join(line.split()), href=f'#a{match[1]}'), class_='place' if line.startswith(' ') else None)
    return element('p', *(element('code', word) if number % 2 else word for number, word in enumerate(line.strip().split('`'))))


def verdict_section(subject: Subject) -> Markup | None:
    """Why the verdict isn't `whole`."""
    knowledge = subject.knowledge
    if knowledge.word == 'whole':
        return None
    if knowledge.search is None:
        lines = iter([UNTOLD])
    else:
        lines = told(knowledge.search, subject.names, MOST_PLACES)
    word = knowledge.proved.partition(' ')[0]
    proved = element('p', PROVED.get(word, ''), ' ', element('code', f'prove: {knowledge.proved}')) if word in PROVED else None
    title = 'Why there are too many points' if knowledge.word == Verdict.TOO_MANY.value else f'Why it is {knowledge.word}'
    return section('verdict', title, proved, *map(linked, lines))


def power_on(chip: Chip) -> str:
    """What the description says of a chip's power-on."""
    if not chip.kind.has_memory:
        return 'no RAM, no counters'
    said = [f'RAM {chip.fill:02X}'] if chip.fill is not None else []
    said += [f'counters {chip.start:04X}'] if chip.start is not None else []
    return ', '.join(said) or 'by the power-on byte'


def chips_section(subject: Subject) -> Markup:
    heads = ('chip', 'kind', 'socket', 'holds', 'ports', 'interrupts', 'power-on')
    rows = []
    for chip in subject.description.chips:
        holds = ', '.join(f'{holding.word} {space.start:04X} to {space.stop - 1:04X}' for holding, space in chip.spaces)
        ports = f'{chip.ports.start:02X} to {chip.ports.stop - 1:02X}' if chip.ports else ''
        rows.append(row(str(chip.number), chip.kind.value, str(chip.socket), holds or 'nothing', ports,
                        f'vector {chip.vector:04X}' if chip.vectors else 'vector in ports' if chip.interrupt else 'no', power_on(chip)))
    split = ', '.join(f'r{register}' for register in subject.description.split)
    return section('chips', 'Chips', table(heads, rows), element('p', f'Tracked registers: {split or "none"}.'))


def end_section(run: Run) -> Markup:
    """The registers at the end, as the program writes them."""
    about = 'Registers and scratchpad at the end' + ('' if run.is_done else ', which are those before the instruction that was not done')
    return section('registers', 'Registers', element('p', f'{about}.'), element('pre', '\n'.join(run.registers), tabindex=0))


def script_section(subject: Subject) -> Markup:
    text = Path(subject.script).read_bytes().decode('utf-8', 'replace')
    return section('script', 'Script', element('pre', text.rstrip('\n'), tabindex=0))


def notes(subject: Subject) -> dict[int, list[str]]:
    """What the listing says at an address: the causes of a refusal."""
    knowledge = subject.knowledge
    if knowledge.refusal is None or knowledge.search is None:
        return {}
    words = Words(knowledge.search, subject.names)
    sentences = [words.sentence(lost.unknown.cause, lost.part)[0] for lost in knowledge.refusal.lost]
    return {knowledge.refusal.point.at: [f'Reason {int(knowledge.refusal.reason)}.', *sentences]}


def sections(subject: Subject) -> list[Markup]:
    run = subject.run
    stopped = run.stopped_at if run is not None and not run.is_done else None
    found = [fault_section(run, subject.found, subject.fault)] if run is not None and not run.is_done else []
    verdict = verdict_section(subject)
    found += [verdict] * (not subject.knowledge.is_shown)
    if run is not None:
        found += [frames_section(run, subject.colours), timeline_section(run)]
    found += [verdict] * subject.knowledge.is_shown
    found.append(listing(Listing(subject.description, subject.knowledge, subject.names, stopped, notes(subject))))
    found.append(chips_section(subject))
    if run is not None:
        found += [end_section(run), script_section(subject)]
    return [part for part in found if part is not None]


NAMES = {'verdict': 'Verdict', 'fault': 'Fault', 'frames': 'Frames', 'timeline': 'Time line', 'listing': 'Listing', 'chips': 'Chips',
         'registers': 'Registers', 'script': 'Script'}
PLEDGE = ('Drawn by tools/page. The verdict, the stop line, pictures, writes and registers are the words of the program channel_f. '
          'Causes, counters, names and colours are worked out by this tool, and none of that is proved.')


def leading_somewhere(parts: list[Markup]) -> list[Markup]:
    """The sections without links to addresses that the listing doesn't have."""
    there = set(re.findall(r' id="(a[0-9A-F]{4})"', ''.join(parts)))

    def kept(link: re.Match[str]) -> str:
        return link[0] if link[1] in there else link[2]

    return [Markup(re.sub(r'<a href="#(a[0-9A-F]{4})">(.*?)</a>', kept, part)) for part in parts]


def document(subject: Subject) -> str:
    """The page as HTML."""
    parts = leading_somewhere(sections(subject))
    anchors = [re.match(r'<section id="(\w+)"', part)[1] for part in parts]
    stop = f', {word_of_stop(subject.run)}' if subject.run else ''
    menu = element('nav', *(element('a', NAMES[anchor], href=f'#{anchor}') for anchor in anchors), aria_label='sections')
    styles, code = ((HERE / name).read_text('utf-8') for name in ('page.css', 'page.js'))
    head = element('head', element('meta', charset='utf-8'), element('meta', name='viewport', content='width=device-width, initial-scale=1'),
                   element('title', f'{subject.title}: {subject.knowledge.word}{stop}'), element('style', Markup(styles)))
    body = element('body', element('a', 'to the content', href='#main', class_='skip'),
                   element('header', element('h1', subject.title), lead(subject), paths(subject), menu),
                   element('main', *parts, id='main'), element('footer', element('p', PLEDGE)), element('script', Markup(code)))
    return '<!DOCTYPE html>\n' + element('html', head, body, lang='en') + '\n'
