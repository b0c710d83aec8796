"""The pages: every link leads somewhere, lines fit, and what ASSURANCE names as edits and as definitions is there."""
from __future__ import annotations

import os
import re
import subprocess
import unittest
from pathlib import Path
from typing import Iterator

from tool import PROGRAM, TOP, needs_program

PAGES = sorted([*TOP.glob('*.md'), *TOP.glob('docs/*.md'), *TOP.glob('tools/*.md'), *TOP.glob('bench/*.md'),
                *TOP.glob('edits/*.md'), *TOP.glob('crates/*/README.md'), *TOP.glob('cartridges/*/README.md')])
COLUMNS = 140
LINK = re.compile(r'!?\[[^\]]*\]\(([^)\s]+)\)')
EDIT = re.compile(r'(\w+) (`[a-z0-9-]+`(?:, `[a-z0-9-]+`)*)')

# A file of definitions, perhaps behind its crate, and names of some that stand in it.
DEFINITION = re.compile(r'(?:\b([a-z]\w+) )?\b([A-Z]\w+) \(?(`\w+`(?:(?:, | and )`\w+`)*)')


def rows_of(text: str, name: str) -> list[str]:
    """The points of a page that begin with this name, a line each."""
    return [row.replace('\n ', '') for row in re.findall(rf'^- \*\*{name}\.\*\* ((?:.+\n)+?)(?=- |\n)', text, re.M)]


def is_edit(crate: str, name: str) -> bool:
    """Whether a crate has an edit of this name, be it one that the test command tries or not."""
    return any((TOP / place / f'{name}.edit').is_file() for place in (f'crates/{crate}/must-fail', f'edits/{crate}'))


def is_defined(crate: str, file: str, name: str) -> bool:
    """Whether a line of a file of definitions begins with a name. Without a crate the file is that of any crate, if there is one."""
    has_crate = bool(crate) and (TOP / 'crates' / crate).is_dir()
    texts = [path.read_text('utf-8') for path in TOP.glob(f'crates/{crate if has_crate else "*"}/specs/{file}.antt')]
    line = re.compile(rf'^ *(?:(?:abbrev|unfoldable|opaque) )?(?:pub )?(?:(?:data|record) )?{name}\b', re.M)
    return any(map(line.search, texts)) or not (texts or has_crate)


def prose(page: Path) -> Iterator[tuple[int, str]]:
    """The lines of a page, but for those of commands and their output, which are indented or between fences."""
    is_fenced = False
    for number, line in enumerate(page.read_text('utf-8').split('\n'), 1):
        is_fenced ^= line.startswith('```')
        if not line.startswith('    ') and not is_fenced:
            yield number, line


def anchors(page: Path) -> set[str]:
    """The names by which headings are linked: small letters, digits and hyphens, and a number where one comes again."""
    found: list[str] = []
    for _, line in prose(page):
        if re.match('#+ ', line):
            text = re.sub(r'[^\w\- ]', '', line.lstrip('#').strip().lower().replace('`', '')).replace(' ', '-')
            again = sum(re.fullmatch(rf'{re.escape(text)}(-\d+)?', other) is not None for other in found)
            found.append(f'{text}-{again}' if again else text)
    return set(found)


class Pages(unittest.TestCase):
    def test_every_link_leads_somewhere(self) -> None:
        for page in PAGES:
            for number, line in prose(page):
                for target in LINK.findall(line):
                    if re.match(r'\w+:', target):
                        continue
                    path, _, anchor = target.partition('#')
                    other = (page.parent / path).resolve() if path else page
                    place = f'{page.relative_to(TOP)}:{number}: {target}'
                    self.assertTrue(other.exists(), place)
                    self.assertTrue(not anchor or anchor in anchors(other), place)

    def test_every_page_of_docs_is_linked_from_the_readme(self) -> None:
        linked = set(LINK.findall((TOP / 'README.md').read_text('utf-8')))
        self.assertEqual([page.name for page in TOP.glob('docs/*.md') if f'docs/{page.name}' not in linked], [])

    def test_every_cartridge_is_linked_from_the_readme(self) -> None:
        linked = set(LINK.findall((TOP / 'README.md').read_text('utf-8')))
        found = [page.parent.name for page in TOP.glob('cartridges/*/README.md')]
        self.assertEqual([name for name in found if f'cartridges/{name}/README.md' not in linked], [])

    def test_every_tool_has_a_word_in_their_readme(self) -> None:
        text = (TOP / 'tools/README.md').read_text('utf-8')
        tools = [path.name for path in (TOP / 'tools').iterdir() if path.is_file() and os.access(path, os.X_OK)]
        self.assertEqual([name for name in tools if f'`{name}`' not in text], [])

    @needs_program
    def test_the_readme_shows_what_the_program_says(self) -> None:
        text = (TOP / 'README.md').read_text('utf-8')
        for words, lines in ((['play', 'cartridges/parted/cart.toml', 'cartridges/parted/script.txt'], (0, 1, 2, -1)),
                             (['check', 'cartridges/parted/cart.toml'], (0,))):
            told = subprocess.run([PROGRAM, *words], cwd=TOP, capture_output=True, text=True, timeout=60).stdout.splitlines()
            shown = text.partition(f'    ./channel_f --unproved {" ".join(words)}\n')[2].split('\n## ')[0]
            for at in lines:
                self.assertIn(f'\n    {told[at]}\n', shown)

    def test_lines_fit(self) -> None:
        long = [f'{page.relative_to(TOP)}:{number}' for page in PAGES for number, line in prose(page)
                if len(line) > COLUMNS and not line.startswith('|')]
        self.assertEqual(long, [])

    def test_edits_that_the_assurance_names_are_there(self) -> None:
        text = (TOP / 'docs/ASSURANCE.md').read_text('utf-8')
        named = [(crate, edit) for row in rows_of(text, 'Edits') for crate, edits in EDIT.findall(row) for edit in re.findall(r'[a-z0-9-]+', edits)]
        self.assertGreater(len(named), 60)
        self.assertEqual([place for place in named if not is_edit(*place)], [])

    def test_definitions_that_the_assurance_names_are_there(self) -> None:
        text = (TOP / 'docs/ASSURANCE.md').read_text('utf-8')
        rows = [*rows_of(text, 'Definitions'), *re.findall(r'^\|.*', text, re.M)]
        named = [(crate, file, name) for row in rows for crate, file, names in DEFINITION.findall(row) for name in re.findall(r'`(\w+)`', names)]
        self.assertGreater(len(named), 120)
        self.assertEqual([place for place in named if not is_defined(*place)], [])


if __name__ == '__main__':
    unittest.main()
