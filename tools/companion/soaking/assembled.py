"""What `asm` may answer to a text without ORG, by the compiler of modules and the linker that the tests have.

Without ORG a text is a module at 0000, as far as each has a meaning: what a module is refused for in the first pass, the text is too, at
the same place. Later a value may be too wide, or a branch too far, that a module leaves to the linker; and a value may be further from the
module's base than any address, of which the text alone knows nothing.
"""
from __future__ import annotations

import re
from typing import Optional

from companion.assembly import Image
from companion.soaking.calls import Told
from linked import MODULE_BYTES, Linker, Part, Refused
from modules import FORM, RANGE, SHAPE, TOKEN, TWICE, UNKNOWN, UTF8, BRANCH, Fault, compiled

OF_MODULES = re.compile(rb'\b(?:org|export|import)\b', re.I)
FIRST_PASS = (UTF8, TOKEN, UNKNOWN, TWICE, FORM)
LEFT_TO_LINK = (RANGE, BRANCH)
REFUSAL = re.compile(r'error asm file line (\d+) column (\d+) cause (\d+)')


def fault_of(text: bytes, told: Told) -> str:
    """What of the answer can't be, in words; nothing where it may be, or isn't known."""
    if len(text) > MODULE_BYTES:
        return '' if told.line == 'error long file' else 'the text is too long'
    if OF_MODULES.search(text):
        return ''
    own = place_of(told)
    try:
        linker = Linker([Part('', 0, 0xFFFF, compiled(text), text)])
    except Fault as fault:
        return against_fault(own, fault)
    try:
        linker.link()
    except Refused as refusal:
        return '' if own and own[2] in LEFT_TO_LINK else f'a module of this text is refused: {refusal.line}'
    if own:
        return f'as a module this text has {len(linker.bytes)} bytes, and no fault'
    return '' if Image.of(told.output).bytes == linker.bytes else 'as a module this text has other bytes'


def place_of(told: Told) -> Optional[tuple[int, int, int]]:
    """The line, the column and the cause of a refusal."""
    match = REFUSAL.fullmatch(told.line)
    return tuple(map(int, match.groups())) if match else None


def against_fault(own: Optional[tuple[int, int, int]], fault: Fault) -> str:
    due = fault.line, fault.column, fault.cause
    if fault.cause == SHAPE or fault.is_far or own == due:
        return ''
    is_earlier = own is not None and own[2] in LEFT_TO_LINK and own[:2] < due[:2]
    return '' if fault.cause not in FIRST_PASS and is_earlier else f'as a module this text has its first fault elsewhere: line, column, cause {due}'
