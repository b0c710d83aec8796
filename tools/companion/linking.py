"""Modules as the program links them: the bytes and the names of one, and which line has which address.

As for a text, the program tells this of a copy: in the copy of a module each line has a label more in front, and these labels are exported.
"""
from __future__ import annotations

import tempfile
from pathlib import Path

from companion.assembly import MOST_BYTES, Image, Line, Text, free_prefix
from companion.plans import Planned, planned, shared, shares
from companion.program import Program
from companion.words import Refused


def linked_text(plan: str, path: str, program: Program) -> Text:
    """A module of a plan as it lies there. Modules that don't go together raise Fault, with the program's answer."""
    program.done('link', plan)
    modules = planned(Path(program.folder or '', plan).read_bytes())
    module = next((one for one in modules if Path(one.file) == Path(path)), None)
    if module is None:
        raise Refused(f'the plan {plan} names no module {path}; a name there begins in the folder in which the program is started')
    texts = [Path(program.folder or '', one.file).read_bytes() for one in modules]
    text = texts[module.number]
    lines = [Line(number, part) for number, part in enumerate(text.removesuffix(b'\n').split(b'\n'), 1)]
    prefix = free_prefix(b'\n'.join(texts))
    texts[module.number] = marked(lines, prefix)
    if len(texts[module.number]) > MOST_BYTES:
        raise Refused(f'a module of {len(text):,} bytes is too long for a listing: with a label more for each line it would have '
                      f'{len(texts[module.number]):,}, and {MOST_BYTES:,} are taken')
    image = linked(modules, texts, program)
    place(lines, image, prefix)
    own = {line.label: line.address if line.value is None else line.value for line in lines if line.label}
    imports = [one.name.encode() for one in shared(text) if one.word == 'IMPORT']
    return Text(path, Image({}, own | {name: image.names[name] for name in imports}), lines)


def marked(lines: list[Line], prefix: bytes) -> bytes:
    """The text with a label on a line in front of each line and behind the last, with one more for each EQU, and all of these exported."""
    parts, given = [], []
    for line in lines:
        name = prefix + b'%d' % line.number
        is_equ = line.statement == b'EQU'
        parts += [name + b':', line.text, *[name + b'_: EQU ' + (line.label or b'0')] * is_equ]
        given += [name, *[name + b'_'] * is_equ]
    end = prefix + b'%d' % (len(lines) + 1)
    exports = [b' EXPORT ' + name for name in [*given, end]]
    return b'\n'.join([*parts, end + b':', *exports, b''])


def linked(modules: list[Planned], texts: list[bytes], program: Program) -> Image:
    """What the program makes of the plan with these texts, in a folder of their own."""
    with tempfile.TemporaryDirectory() as folder:
        for module, text in zip(modules, texts):
            (Path(folder) / f'm{module.number}').write_bytes(text)
        (Path(folder) / 'plan').write_text(''.join(f'module m{one.number} {one.first:04X} {one.last:04X}\n' for one in modules))
        return Image.of(program.within(Path(folder)).done('link', 'plan'))


def place(lines: list[Line], image: Image, prefix: bytes) -> None:
    """Gives each line its address, value and bytes: from its own label to that of the next line."""
    for line in lines:
        start, end = (image.names[prefix + b'%d' % number] for number in (line.number, line.number + 1))
        if line.statement == b'EQU':
            line.value = image.names[prefix + b'%d_' % line.number]
        elif not shares(line.text):
            line.address = start
            line.bytes = bytes(image.bytes[address] for address in range(start, end))
