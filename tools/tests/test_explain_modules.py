"""What `explain` says of plans, of modules and of what links them."""
from __future__ import annotations

import re
import tempfile
import unittest
from pathlib import Path

import tool
from explanations import explanation
from tool import call, needs_program

PLAN = '# two\nmodule a 0000 00FF\nmodule b 0100 01FF\n'
# What is at fault in module 0, its line, column and cause, and what is said.
MODULES = [
    (' NOP\n ORG $10', 2, 2, 11, 'A module has no ORG'), ('X: EXPORT X', 1, 4, 11, 'stand first in their line, without a label'),
    (' EXPORT', 1, 8, 11, 'names with commas between'), (' IMPORT LR', 1, 9, 11, '`LR` is a word of the language'),
    (' EXPORTS X', 1, 2, 3, 'is `EXPORT` meant?'), (' extern X', 1, 2, 3, 'is `IMPORT` meant?'), (' PUBLIC X', 1, 2, 3, 'is `EXPORT` meant?'),
    (' IMPORT X\nX: NOP', 2, 1, 4, '`X` was imported in line 1 already'), ('X: NOP\n IMPORT X', 2, 9, 4, '`X` was given in line 1 already'),
    (' IMPORT X,X', 1, 11, 4, '`X` was imported in line 1 too'), ('X: NOP\nX: NOP', 2, 1, 4, 'each label needs a name of its own'),
    (' EXPORT X', 1, 9, 5, 'No line of the module gives `X`.'), ('Dot: POP\n EXPORT DOT', 2, 9, 5, 'Is `Dot` meant? Names keep their case.'),
    (' IMPORT X\n EXPORT X', 2, 9, 5, '`X` is imported, in line 1'), (' PI DOT', 1, 5, 5, 'say `IMPORT DOT`'),
    ('X: NOP\n DCI X+70000', 2, 6, 6, 'at most 65,535 from its name'), (' LI 256', 1, 5, 6, '-128 to 255'),
    (' BR .+300', 1, 5, 7, 'A branch reaches from 128 back'), (' DB 0', 1, 2, 8, 'at most 65,536 bytes'),
    (' IMPORT X\nY: EQU X-X', 2, 8, 12, '`X` is imported, and EQU takes no imports'), ('Y: EQU .', 1, 8, 12, 'the distance of two labels: `SIZE: EQU END-BEGIN`'),
    (' IMPORT X\n DB X*2', 2, 5, 12, '`<(X+1)`'), (' IMPORT X\n BR <X', 2, 5, 12, 'A branch leads to a place'), ('X: LIS X', 1, 8, 12, 'has to be a constant'),
    (' LI 0x20', 1, 6, 11, 'write `$20` for `0x20`')]
PLANS = [
    ('module a 0x0000 00FF', 2, 'four hexadecimal digits and nothing else: `0000` for `0x0000`'), ('module a 0 00FF', 2, '`0000` for `0`'),
    ('module a 0000 $FF', 2, '`00FF` for `$FF`'), ('module a 0400 00FF', 3, 'is the last address, and not a size'),
    ('module ' + 'x' * 65 + ' 0000 00FF', 3, 'has 65 characters, and at most 64'), ('module a  0000 00FF', 1, 'separated by one blank'),
    ('module my file 0000 00FF', 1, 'A name with a blank'), ('modul a 0000 00FF', 1, 'Is `module` meant?'), ('MODULE a 0000 00FF', 1, 'small letters'),
    ('', 5, 'Name a module'), ('steps 5\nframes 6', 1, 'This is a script'), (' NOP\n POP\n BR .', 1, 'This is an assembly text')]


class ExplainModules(unittest.TestCase):
    def test_plans(self) -> None:
        for text, cause, hint in PLANS:
            told = explanation(f'error plan line 1 cause {cause}', plan=text + '\n')
            self.assertIn(hint, told, text)
            self.assertIn(f'Cause {cause}, ', told)
        told = explanation('error plan line 2 cause 1', plan='module a 0000 00FF\nmodule b, 0100 01FF\n')
        self.assertIn('plan, line 2, column 9\n    module b, 0100 01FF\n            ^\nCause 1, Word: ', told)
        self.assertIn('The form: `module FILE AAAA BBBB`.', told)

    def test_modules(self) -> None:
        for text, line, column, cause, hint in MODULES:
            told = explanation(f'error module 0 line {line} column {column} cause {cause}', plan=PLAN, a=text + '\n', b='')
            shown = text.split('\n')[line - 1]
            self.assertIn(f'a, line {line}, column {column}\n    {shown}\n    {" " * (column - 1)}^\nCause {cause}, ', told)
            self.assertIn(hint, told, text)

    def test_a_module_of_another_sort(self) -> None:
        told = explanation('error module 1 line 1 column 1 cause 11', plan=PLAN, a='', b='format = 1\n[[chip]]\n')
        self.assertIn('b, line 1, column 1\n    format = 1\n', told)
        self.assertIn('This is a description', told)

    def link(self, cause: int, number: int = 1, plan: str = PLAN, a: str = '', b: str = '') -> str:
        told = explanation(f'error link module {number} cause {cause}', plan=plan, a=a, b=b)
        self.assertRegex(told, rf'^plan, line {number + 2}\n    module .*\nCause {cause}, \w+: ')
        return told

    def test_names_that_are_there_twice_or_not_at_all(self) -> None:
        told = self.link(1, a=' EXPORT X,Y\n', b='; more\n EXPORT Z,Y\n')
        self.assertIn('b line 2 exports `Y`, and so does a line 1 (module 0).\n', told)
        self.assertNotIn('`Z`', told)
        self.assertIn('a line 2 exports `X`, and so does a line 1 (module 0).', self.link(1, 0, a=' EXPORT X\n EXPORT X\n'))
        self.assertIn('names this file twice', self.link(1, plan=PLAN.replace(' b ', ' a '), a=' EXPORT X\n'))
        self.assertIn('a line 1 imports `Dot`, which no module exports. Is `DOT` meant?', self.link(2, 0, a=' IMPORT Dot ; it\n', b=' EXPORT DOT\n'))
        self.assertIn('`X`, which no module exports. b gives it, and has to export it.', self.link(2, 0, a=' IMPORT X\n', b='X: NOP\n'))
        self.assertIn('Is its module missing in the plan?', self.link(2, 0, a=' IMPORT X\n'))

    def test_rooms(self) -> None:
        self.assertIn('The room from 0100 to 01FF has 256 bytes', self.link(3))
        self.assertIn('Module 0, a, may have 0000 to 0100, and this one 0100 to 01FF.', self.link(4, plan=PLAN.replace('00FF', '0100')))

    def test_values_that_do_not_fit(self) -> None:
        told = self.link(5, a='', b=' IMPORT X\n PI X\n BR X ; far\nY: LI X+1\n LI <X\n BNZ Y\n DB 1,X-Y,Y-Y\n BT 4,$200\n DB <X,X\n')
        self.assertEqual(re.findall(r'^    b line (\d+): (.*)$', told, re.M), [('3', 'BR X'), ('4', 'LI X+1'), ('8', 'BT 4,$200'), ('9', 'DB <X,X')])
        self.assertIn('use JMP or PI', told)
        self.assertIn('take `<` or `>`', told)
        self.assertNotIn('It may be', self.link(5, b=' NOP\n'))

    def test_files_that_are_not_there(self) -> None:
        with tempfile.TemporaryDirectory() as folder:
            (Path(folder) / 'plan').write_text('module dot.f8 0000 00FF\n')
            (Path(folder) / 'dot.f8').write_text(' POP\n')
            done = call('explain', '--plan', f'{folder}/plan', stdin='error store module 0\n', cwd=Path(folder).parent)
            self.assertIn(f'Beside the plan it is there: write `{Path(folder).name}/dot.f8`.', done.told)
            done = call('explain', '--plan', 'no/plan', stdin='error store plan\n', cwd=Path(folder))
            self.assertIn('no/plan in ', done.told)
        told = explanation('error long module 1', plan=PLAN, a='', b='; long\n')
        self.assertIn('b has 7 bytes.', told)
        self.assertIn('also of a module', told)

    @needs_program
    def test_through_the_program(self) -> None:
        with tempfile.TemporaryDirectory() as folder:
            for name, text in (('plan', PLAN), ('a', ' IMPORT X\n PI X\n'), ('b', 'X: POP\n')):
                (Path(folder) / name).write_text(text)
            done = call('explain', tool.PROGRAM, 'link', 'plan', cwd=Path(folder))
        self.assertEqual((done.text, done.returncode), ('error link module 0 cause 2\n', 2))
        self.assertIn('b gives it, and has to export it.', done.told)


if __name__ == '__main__':
    unittest.main()
