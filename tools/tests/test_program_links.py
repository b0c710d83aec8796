"""What the program makes of plans and their modules, to the byte, and what it refuses. Most refusals of a plan are in test_linking."""
from __future__ import annotations

import unittest

from tool import needs_program
from rooms import Rows

# A call into another module, and a branch back; and the module that is called.
START, TICK = ' EXPORT START\n IMPORT TICK\nSTART: PI TICK\n BR START\n', ' EXPORT TICK\nTICK: POP\n'
# Two names that each module has for itself, and one that the second exports.
LOW = 'HERE: DB <HERE,>HERE\n DW HERE\n IMPORT NEXT\n BR NEXT\n'
HIGH = ' EXPORT NEXT,SIZE\nHERE: NOP\nNEXT: LI SIZE\nSIZE: EQU .-HERE\n'
FAR, BRANCH, END = 'module a 0000 03FF\nmodule b 0400 07FF\n', ' IMPORT X\n BR X\n', ' EXPORT X\nX: POP\n'
SHORT = 'module a 0000 0000\nmodule a 0000 0000\nmodule b 0005 {}\n'
LINKED = {
    'a call and a branch back': (
        'link plan', {'plan': FAR, 'a': START, 'b': TICK}, 0, '0000 28040090FC\n0400 1C\nsym START 0\nsym TICK 1024\n'),
    'the other way round, side by side': (
        'link -- plan', {'plan': '# the other way round\n\nmodule b 0400 0400\nmodule a 03fb 03ff', 'a': START, 'b': TICK}, 0,
        '03FB 28040090FC1C\nsym TICK 1024\nsym START 1019\n'),
    'a name of both modules': (
        'link plan', {'plan': 'module a 0120 01FF\nmodule b 0126 0130\n', 'a': LOW, 'b': HIGH}, 0,
        '0120 2001012090022B2003\nsym NEXT 295\nsym SIZE 3\n'),
    'a module at three places': (
        'link plan', {'plan': 'module a 0000 0001\nmodule a 0010 0011\nmodule a 0020 0021\n', 'a': 'X: DW X\n'}, 0,
        '0000 0000\n0010 0010\n0020 0020\n'),
    'a module without a byte at the last address': ('link plan', {'plan': 'module a FFFF FFFF', 'a': ' ; nothing'}, 0, ''),
    'a branch that is just not too far': (
        'link plan', {'plan': 'module a 0000 0001\nmodule b 0080 0080\n', 'a': BRANCH, 'b': END}, 0, '0000 907F\n0080 1C\nsym X 128\n'),
    'a branch to a number': ('link plan', {'plan': 'module a 0400 04FF\n', 'a': ' BR $410\n'}, 0, '0400 900F\n'),
}
REFUSED = {
    'no plan': ('link plan', {}, 4, 'error store plan\n'),
    'half a byte, in the second line': ('link plan', {'plan': '\nmodule a 0000 03F\n'}, 2, 'error plan line 2 cause 2\n'),
    'a module at fault, whose next one is not asked for': (
        'link plan', {'plan': FAR, 'a': ' IMPORT X\n DB X*2\n'}, 2, 'error module 0 line 2 column 5 cause 12\n'),
    'a module that is not there': ('link plan', {'plan': FAR, 'a': START}, 4, 'error store module 1\n'),
    'a second module at fault': ('link plan', {'plan': FAR, 'a': START, 'b': ' ORG 5\n'}, 2, 'error module 1 line 1 column 2 cause 11\n'),
    'a name that nobody exports': ('link plan', {'plan': 'module a 0000 03FF\n', 'a': START}, 2, 'error link module 0 cause 2\n'),
    'a module twice whose name is exported, before one that nobody exports': (
        'link plan', {'plan': 'module b 0000 03FF\nmodule b 0400 07FF\n', 'b': ' EXPORT TICK\n IMPORT NONE\nTICK: POP\n'}, 2,
        'error link module 1 cause 1\n'),
    # each cause over all modules before the next
    'a module too long, before one over another': (
        'link plan', {'plan': SHORT.format('0005'), 'a': ' DB 1\n', 'b': ' DB 1,2\n'}, 2, 'error link module 2 cause 3\n'),
    'a module over another': (
        'link plan', {'plan': SHORT.format('0006'), 'a': ' DB 1\n', 'b': ' DB 1,2\n'}, 2, 'error link module 1 cause 4\n'),
    'a branch that is too far': (
        'link plan', {'plan': 'module a 0000 0001\nmodule b 0081 0081\n', 'a': BRANCH, 'b': END}, 2, 'error link module 0 cause 5\n'),
    'a branch to a number that is too far': (
        'link plan', {'plan': 'module a 0300 03FF\n', 'a': ' BR $410\n'}, 2, 'error link module 0 cause 5\n'),
}


@needs_program
class Links(Rows):
    def test_modules_that_go_together(self):
        self.assert_rows(LINKED)

    def test_refusals(self):
        self.assert_rows(REFUSED)


if __name__ == '__main__':
    unittest.main()
