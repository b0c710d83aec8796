"""That docs/READING.md names the definitions on the way, and docs/CLAUSES.md and docs/LAYERS.md tell of the crates what their sources say."""
from __future__ import annotations

import tempfile
import unittest
from pathlib import Path
from textwrap import dedent
from unittest import mock

import tool
from companion import pages, words

# A file with each sort of `use`, and a type with a constructor.
ABOVE = '''
use Rattle.low.specs.Parts.{whole, half as part}
use Rattle.low.specs.Sums as Sums
pub use Rattle.low.specs.Signs.{◌≺◌, Plus}

module Above where
  pub first : Nat -> Nat
  first n = whole (part n) -- not third

  second : Text
  second = "whole" ++ Sums.total.more

  data Colour : Type where
    pub Red : Colour

  third : Colour -> Bool
  third c = c ≺ Red Plus
'''
PARTS = '''whole : Nat -> Nat
whole n = n
half : Nat -> Nat
half n = beyond n
beyond : Nat -> Nat
beyond n = n
gone : Nat
gone = 0
'''


class Following(unittest.TestCase):
    """How a definition leads to others."""
    definitions = tool.load('definitions')

    def reached(self, name: str) -> set[str]:
        files = {('top', 'Above'): ABOVE, ('low', 'Parts'): PARTS, ('low', 'Sums'): 'total : Nat\ntotal = 1\n',
                 ('low', 'Signs'): '◌≺◌ : Bool\na ≺ b = a\ndata Sign : Type where\n  Plus : Sign\n'}
        with tempfile.TemporaryDirectory() as folder, mock.patch.object(self.definitions, 'ROOTS', [('top', 'Above', name)]):
            for (crate, module), text in files.items():
                path = Path(folder, 'crates', crate, 'specs', f'{module}.antt')
                path.parent.mkdir(parents=True, exist_ok=True)
                path.write_text(text, 'utf-8')
            return {' '.join(place) for place in self.definitions.Way.of(Path(folder)).found} - {f'top Above {name}'}

    def test_names_that_are_brought_in_and_no_comments(self) -> None:
        self.assertEqual(self.reached('first'), {'low Parts whole', 'low Parts half', 'low Parts beyond'})

    def test_names_behind_that_of_a_file_and_no_strings(self) -> None:
        self.assertEqual(self.reached('second'), {'low Sums total'})

    def test_operators_and_the_types_of_constructors(self) -> None:
        self.assertEqual(self.reached('third'), {'low Signs ◌≺◌', 'low Signs Sign', 'top Above Colour'})

    def test_what_a_file_brings_in_for_others_is_where_it_stands(self) -> None:
        files = {('low', 'Sums'): self.definitions.File(texts={'total': 'total = 1'}),
                 ('mid', 'All'): self.definitions.File(imports={'total': ('low', 'Sums', 'total')}),
                 ('top', 'Above'): self.definitions.File(imports={'total': ('mid', 'All', 'total')}, texts={'first': 'first = total'})}
        way = self.definitions.Way(files)
        with mock.patch.object(self.definitions, 'ROOTS', [('top', 'Above', 'first')]):
            way.follow()
        self.assertEqual(way.found, {('top', 'Above', 'first'), ('low', 'Sums', 'total')})

    def test_cases_of_other_commands_do_not_count(self) -> None:
        text = 'Says : Command -> Prop\nSays (Play c) = whole c\n  half\nSays (Check c) = lone c\n  beyond'
        self.assertEqual(self.definitions.of_play(text), 'Says : Command -> Prop\nSays (Play c) = whole c\n  half')


class Definitions(unittest.TestCase):
    definitions = tool.load('definitions')

    def test_the_page_lists_each_and_no_other(self) -> None:
        done = tool.call('definitions', '--check')
        self.assertEqual((done.returncode, done.told), (0, ''), done.text)

    def test_a_definition_is_listed_with_its_file(self) -> None:
        done = tool.call('definitions')
        rows = {tuple(line.split()[:2]): line.split()[2:] for line in done.text.splitlines()}
        self.assertIn('decided', rows['console_spec', 'Run'])
        self.assertIn('TellsGame', rows['channel_f', 'Commands'])
        self.assertNotIn('TellsDebugging', rows['channel_f', 'Commands'])

    def test_a_row_that_is_wrong_or_missing_is_told(self) -> None:
        way = self.definitions.Way({('probe', 'ProbeState'): self.definitions.File(texts={'new_probe': ''}, headings={'new_probe': ''})},
                                   {('probe', 'ProbeState', 'new_probe'), ('probe', 'declared', 'Probe')})
        page, faults = self.definitions.page_with(way, '| probe ProbeState | the probe | `probe_after` |\n| video Planes | planes | `plane` |')
        self.assertIn('| probe ProbeState | the probe | `new_probe` |\n', page)
        self.assertEqual(faults, ['not on the way: video Planes', 'no row of types: probe Probe'])
        self.assertEqual(self.definitions.page_with(way, '| probe | the probe | `Probe` |')[1], ['no row: probe ProbeState'])
        twice = '| probe ProbeState | the probe | `` |\n| probe ProbeState | again | `` |\n| probe | the probe | `Probe` |'
        self.assertEqual(self.definitions.page_with(way, twice)[1], ['two rows: probe ProbeState'])

    def test_a_row_that_leaves_out_console_is_told(self) -> None:
        files = {('probe', 'ProbeState'): self.definitions.File(), ('video', 'Planes'): self.definitions.File()}
        way = self.definitions.Way(files, {('probe', 'ProbeState', 'new_probe')})
        told = list(self.definitions.source_faults(way, '| probe ProbeState; video Lines | the probe | own | `Probe::new` |'))
        self.assertEqual(told, ['the row of probe ProbeState; video Lines leaves out `console`', 'no row of DEFINITIONS: video Planes',
                                'no such file, in DEFINITIONS: video Lines'])

    def test_other_words_are_refused(self) -> None:
        done = tool.call('definitions', 'play')
        self.assertEqual((done.returncode, done.text), (2, ''))


class Parts(unittest.TestCase):
    """Parts of pages that a tool writes."""
    PAGE = 'by hand\n<!-- t writes what follows: a -->\n\nold\n\n<!-- t wrote what stands above: a -->\nby hand\n'

    def test_a_part_is_written_between_its_marks(self) -> None:
        page = pages.with_part(self.PAGE, 't', 'a', ['new'])
        self.assertEqual(page, self.PAGE.replace('old', 'new'))
        for text in ('no marks', self.PAGE.partition('old')[0]):
            self.assertRaises(words.Refused, pages.with_part, text, 't', 'a', ['new'])

    def test_a_page_that_is_stale_is_told(self) -> None:
        path = words.TOP / 'crates.txt'
        self.assertEqual(list(pages.stale({path: path.read_text('utf-8')}, 't')), [])
        self.assertEqual(list(pages.stale({path: 'other'}, 't')), ["crates.txt isn't as the sources have it: t --write"])


class Crates(unittest.TestCase):
    crates = tool.load('crates')

    def test_the_pages_are_as_the_sources_have_them(self) -> None:
        done = tool.call('crates', '--check')
        self.assertEqual((done.returncode, done.text, done.told), (0, '', ''))

    def test_uses_are_read_from_code_definitions_and_proofs(self) -> None:
        code = dedent('''\
            use probe::{Probe, ProbeState as State};
            #[tactic(auto, using(f8_spec::proofs::TimerCycle::one))]
            fn counters() -> romc_table::Counters {}
            ghost use Rattle.console_spec.specs.Run.{next};
            ''')
        source = self.crates.Source('bus', {'src/bus.rt': code}, {'src/tests.rt': 'use probe::hear;'}, '')
        others = {'probe', 'romc_table', 'f8_spec', 'console_spec', 'video'}
        uses = {crate: use.text() for crate, use in self.crates.own_uses_of(source, others).items()}
        self.assertEqual(uses, {'probe': '`Probe`, `ProbeState`; in tests `hear`', 'romc_table': '`Counters`', 'f8_spec': 'laws',
                                'console_spec': 'definitions'})

    def test_a_use_that_crates_txt_lacks_is_told(self) -> None:
        sources = {name: self.crates.Source(name, code) for name, code in
                   {'probe': {}, 'bus': {'src/bus.rt': 'use probe::Probe;'}, 'video': {}}.items()}
        told = list(self.crates.differing_uses(sources, {'probe': [], 'bus': ['video', 'toml'], 'video': []}))
        self.assertEqual(told, ['bus uses probe, which crates.txt leaves out', 'bus uses nothing of video, which crates.txt has'])

    def test_a_crate_without_a_row_is_told(self) -> None:
        sources = {name: self.crates.Source(name) for name in ('probe', 'video')}
        told = list(self.crates.rows_missing(sources, '| [probe](../crates/probe/README.md) | counters |'))
        self.assertEqual(told, ['docs/LAYERS.md has no row of video'])

    def test_clauses_belong_to_their_call(self) -> None:
        code = dedent('''\
            ghost use Rattle.f8_spec.specs.Words.{wrapped};
            impl Probe {
                pub fn hear(&mut self, at: u16) -> u16
                    requires small { at < 5 }
                    ensures value { result ≡ wrapped at
                        1 }
                    ensures { at ≡ at }
                {
                }
                pub(crate) fn inside(&self)
                    ensures hidden { 1 ≡ 1 }
                {
                }
            }
            ''')
        source = self.crates.Source('probe', {'src/lib.rt': 'mod counters;\npub use counters::Probe;', 'src/counters.rt': code})
        self.assertEqual([call.row('probe') for call in self.crates.public_calls(source)],
                         ['| `Probe::hear` | `small` | `value` unnamed | f8_spec Words |'])


if __name__ == '__main__':
    unittest.main()
