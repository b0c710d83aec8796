"""tools/edits: which crates it takes, and that each edit of the repository still changes one place of the code."""
from __future__ import annotations

import unittest
from pathlib import Path

from tool import TOP, call, load

edits = load('edits')
EVERY = sorted([*TOP.glob('crates/*/must-fail/*.edit'), *TOP.glob('edits/*/*.edit')])


def crate_of(edit: Path) -> Path:
    """The crate that an edit changes, by its folder or by the one above `must-fail`."""
    name = edit.parent.parent.name if edit.parent.name == 'must-fail' else edit.parent.name
    return TOP / 'crates' / name


def faults_of(edit: Path) -> list[str]:
    """The texts of an edit that don't stand once in their file, where its earlier pairs are done."""
    faults, texts, file, old = [], {}, None, ''
    for line in edit.read_text('utf-8').splitlines():
        word, _, rest = line.partition(': ') if ': ' in line else line.partition(':')
        if word == 'file':
            file = crate_of(edit) / rest
            texts.setdefault(file, file.read_text('utf-8'))
        elif word == 'old':
            old = rest
        elif word == 'new':
            if texts[file].count(old) != 1 or rest == old:
                faults.append(f'{edit.relative_to(TOP)}: {old}')
            texts[file] = texts[file].replace(old, rest)
    return faults


class Edits(unittest.TestCase):
    def test_each_changes_one_place(self):
        self.assertGreater(len(EVERY), 300)
        self.assertEqual([fault for edit in EVERY for fault in faults_of(edit)], [])

    def test_none_stands_twice(self):
        names = [(crate_of(edit).name, edit.name) for edit in EVERY]
        self.assertEqual(len(names), len(set(names)))

    def test_the_list(self):
        done = call('edits', '--list')
        self.assertEqual(done.returncode, 0)
        self.assertIn(f'hex_file: {len(edits.edits_of("hex_file"))}\n', done.text)

    def test_what_is_not_tried(self):
        for words in ([], ['no_crate'], ['hex_file', 'channel_f_main']):
            done = call('edits', *words)
            self.assertEqual((done.returncode, done.text), (2, ''))
            self.assertTrue(done.told.startswith('edits: '), done.told)


if __name__ == '__main__':
    unittest.main()
