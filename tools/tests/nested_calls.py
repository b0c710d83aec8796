"""A cartridge with nested calls over a K stack in the scratchpad, whose pointer is r59, as people write them for this console."""
from __future__ import annotations

from pathlib import Path

TEXT = '''
        ORG $0000
START:  LISU 7
        LISL 3
        LI $28              ; the stack begins with r40
        LR S,A
        PI OUTER
        PI INNER
        PI OUTER
DONE:   BR DONE

OUTER:  LR K,P
        PI PUSHK
        PI INNER
        PI LEAF
        PI INNER
        PI POPK
        PK

INNER:  LR K,P
        PI PUSHK
        PI LEAF
        PI POPK
        PK

LEAF:   LR A,0
        INC
        LR 0,A
        POP

PUSHK:  LISU 7
        LISL 3
        LR A,S
        LR IS,A
        LR A,KU
        LR I,A
        LR A,KL
        LR I,A
        LR A,IS
        LISU 7
        LISL 3
        LR S,A
        POP

POPK:   LISU 7
        LISL 3
        LR A,S
        AI $FE
        LR S,A
        LR IS,A
        LR A,I
        LR KU,A
        LR A,S
        LR KL,A
        POP
'''
DESCRIPTION = 'format = 1\nsplit = {split}\n[[chip]]\nkind = "3851"\nbase = 0\nports = 4\nsource = "stack.f8"\n'


def write(folder: Path, split: list[int]) -> Path:
    """The description in a folder, with the registers that it tracks, and its text, whose name starts in that folder."""
    (folder / 'stack.f8').write_text(TEXT)
    (folder / 'cart.toml').write_text(DESCRIPTION.format(split=split))
    return Path('cart.toml')
