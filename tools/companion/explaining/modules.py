"""Faults of plans, of modules, and of what links them, with the names concerned as far as the texts tell them."""
from __future__ import annotations

import re
from typing import Iterator

from companion.assembly import LABEL, PIECES, RESERVED_WORDS
from companion.explaining.assembly import hints
from companion.explaining.files import Files, Sort
from companion.explaining.scripts import forms, found_in
from companion.page_tables import cause_of, close
from companion.plans import Planned, Shared, lines_in, shared, shares

HEX = '[0-9A-Fa-f]'
TWICE, UNDEFINED, UNKNOWN, RANGE, OUTSIDE, FORM, SHAPE = 4, 5, 3, 6, 8, 11, 12
MOST_LINES = 5  # that are shown of a module
MOST_FILE = 64  # characters
FARTHEST = 65_535
IMPORTS = (-2_147_418_113, 4_294_901_760)  # what the values of imports lie between
BRANCH = re.compile(r'\s*(?:\w+\s*:)?\s*(?:B[TF]\s[^,;]*,|BR7?|B[MPCZ]|BNC|BNZ|BNO)\s*([^;]*)', re.I)
OTHER_SHARES = {'PUBLIC': 'EXPORT', 'GLOBAL': 'EXPORT', 'XDEF': 'EXPORT', 'EXTERN': 'IMPORT', 'XREF': 'IMPORT'}


def plural(names: list[str]) -> str:
    return ' and '.join(f'`{name}`' for name in names)


# ---- plans

def plan(files: Files, line: str, cause: str) -> list[str]:
    shown, text = files.line('plan', int(line))
    sentence = cause_of('FORMATS.md', 'Plan', f'error plan line {line} cause {cause}')
    if odd := files.looks_like('plan', Sort.PLAN, Sort.NOTHING, Sort.DIGITS):
        return [*shown, sentence, *odd]
    found = found_in(text) if cause in '12' else None
    if found:
        shown, text = files.line('plan', int(line), len(text[:found[0].start()].encode()) + 1)
    return [*shown, sentence, *filter(None, [plan_hint(text, int(cause)) or (found[0].expand(found[1]) if found else '')]), *forms(text, 'Plan')]


def plan_hint(text: str, cause: int) -> str:
    """What is likely meant by a line of a plan."""
    words = text.split()
    digits = [word for word in words[2:4] if not re.fullmatch(f'{HEX}{{4}}', word)]
    if cause == 2 and digits:
        bare = re.sub(r'^(0[xX]|\$)', '', digits[0])
        is_short = re.fullmatch(f'{HEX}{{1,4}}', bare)
        return f'An address is four hexadecimal digits and nothing else{f": `{bare:0>4}` for `{digits[0]}`" if is_short else ""}.'
    if cause == 3 and len(words) == 4 and len(words[1]) > MOST_FILE:
        return f'The name has {len(words[1])} characters, and at most {MOST_FILE} are taken.'
    if cause == 3 and len(words) == 4:
        return f'The room ends at {words[3]}, before it begins at {words[2]}. The second number is the last address, and not a size.'
    return {1: 'A name with a blank can not be written in a plan.' if len(words) > 4 else '', 4: 'A plan has at most 64 modules.',
            5: 'Name a module: `module game.f8 0000 03FF`.'}.get(cause, '')


# ---- modules

def module(files: Files, number: str, line: str, column: str, cause: str) -> list[str]:
    """The place of a fault of a module's text, its cause, and what is likely meant."""
    what = f'module {number}'
    shown, text = files.line(what, int(line), int(column))
    code = re.split(r";(?!')", text)[0]
    told = f'error module {number} line {line} column {column} cause {cause}'
    sentence = cause_of('ASSEMBLY.md', 'Faults', told if int(cause) == SHAPE else re.sub(r'module \d+', 'asm file', told))
    if odd := files.looks_like(what, Sort.ASSEMBLY, Sort.NOTHING):
        return [*shown, sentence, *odd]
    own = module_hint(files.read(what) or b'', code, int(line), int(column), int(cause))
    return [*shown, sentence, *([own] if own else hints(files, what, code, int(column), int(cause)))]


def module_hint(data: bytes, code: str, line: int, column: int, cause: int) -> str:
    """What is wrong in a module alone. Of what is wrong in any text, nothing is said here."""
    name = (re.match(r'\w*', code[column - 1:]) or [''])[0]
    if cause == FORM and name.upper() == 'ORG':
        return 'A module has no ORG: its plan says where it begins. What has to lie elsewhere can be a module of its own.'
    if cause == FORM and shares(code.encode()) and name.upper() in RESERVED_WORDS:
        return f'`{name}` is a word of the language and can be no name.'
    if cause == FORM and (name.upper() in ('EXPORT', 'IMPORT') or shares(code.encode())):
        return 'EXPORT and IMPORT stand first in their line, without a label, and behind them names with commas between: `EXPORT START,DRAW`.'
    if cause == UNKNOWN:
        word = OTHER_SHARES.get(name.upper(), close(name.upper(), ['EXPORT', 'IMPORT']))
        return f'Names are given to other modules by EXPORT, and taken from them by IMPORT: is `{word}` meant?' if word else ''
    if cause == OUTSIDE:
        return 'A module has at most 65,536 bytes.'
    hint = {TWICE: twice_hint, UNDEFINED: undefined_hint, RANGE: range_hint, SHAPE: shape_hint}.get(cause)
    return hint(data, code, line, name) if hint else ''


def imported_in(data: bytes) -> dict[str, int]:
    """The imports of a text, with their lines."""
    return {one.name: one.line for one in shared(data) if one.word == 'IMPORT'}


def twice_hint(data: bytes, code: str, line: int, name: str) -> str:
    earlier = [(one.line, 'imported') for one in shared(data) if one.word == 'IMPORT' and one.name == name and one.line <= line]
    given = [(at, 'given') for at, text in enumerate(lines_in(data), 1) if (found := LABEL.match(text)) and found[1].decode() == name and at < line]
    at, how = min([*given, *earlier], default=(0, ''))
    if not shares(code.encode()) and how != 'imported':
        return ''
    where = f'in line {at}' + (' too' if at == line else ' already')
    return f'`{name}` was {how} {where}: a module gives a name or imports it, and each once.' if how else ''


def undefined_hint(data: bytes, code: str, line: int, name: str) -> str:
    if not shares(code.encode()):
        return '' if name in imported_in(data) or name in label_names(data) else f'No line of the module gives `{name}`. If another module does, say `IMPORT {name}`.'
    if name in imported_in(data):
        return f'`{name}` is imported, in line {imported_in(data)[name]}. A module exports only what it gives itself.'
    meant = close(name, label_names(data))
    return f'No line of the module gives `{name}`.' + (f' Is `{meant}` meant? Names keep their case.' if meant else '')


def label_names(data: bytes) -> list[str]:
    return [found[1].decode() for text in lines_in(data) if (found := LABEL.match(text))]


def range_hint(data: bytes, code: str, line: int, name: str) -> str:
    """A number beside a name may be what is too far."""
    numbers = [int(found[1]) for found in re.finditer(r'(?<![\w$%])(\d+)', code)]
    if any(number > FARTHEST for number in numbers) and any(word in label_names(data) or word in imported_in(data) for word in re.findall(r'\w+', code)):
        return 'A value that is not known before linking lies at most 65,535 from its name.'
    return ''


def shape_hint(data: bytes, code: str, line: int, name: str) -> str:
    """Why a placed value can't be had so."""
    statement = (re.match(r'\s*(?:\w+\s*:)?\s*(\w*)', code) or ['', ''])[1].upper()
    used = [found[2].decode() for found in PIECES.finditer(code.encode()) if found[2]]
    imports = [word for word in dict.fromkeys(used) if word in imported_in(data)]
    known = ' Where the module lies is known only when it is linked, and so are its labels and `.`.'
    if statement == 'EQU':
        return (f'{plural(imports)} {"is" if len(imports) == 1 else "are"} imported, and EQU takes no imports: the module that exports a name can give it by EQU.'
                if imports else f'EQU takes constants alone, such as the distance of two labels: `SIZE: EQU END-BEGIN`.{known}')
    if statement in BRANCH_WORDS:
        return 'A branch leads to a place: a label or an import, with a number added or not.'
    if statement in ('DB', 'DW', 'LI', 'NI', 'OI', 'XI', 'AI', 'CI', 'PI', 'JMP', 'DCI'):
        return ('Of a label or an import there are `X`, `X+1`, `X-1`, and as whole operands `<X`, `>X`, `<(X+1)`; and the distance of two labels, `END-BEGIN`.'
                + known)
    return f'This operand has to be a constant.{known}'


BRANCH_WORDS = {'BR', 'BM', 'BNC', 'BNZ', 'BNO', 'BP', 'BC', 'BZ', 'BR7', 'BT', 'BF'}


# ---- linking

def link(files: Files, number: str, cause: str) -> list[str]:
    """What doesn't go together: the line of the plan, the cause, and the names or rooms concerned."""
    sentence = cause_of('FORMATS.md', 'Plan', f'error link module {number} cause {cause}')
    at = next((one for one in files.modules if one.number == int(number)), None)
    if at is None:
        return [sentence]
    shown, _ = files.line('plan', at.line)
    said = {1: exported_twice, 2: missing, 3: room_too_small, 4: rooms_that_meet, 5: out_of_reach}.get(int(cause))
    return [*shown, sentence, *(said(files, at) if said else [])]


def shared_by(files: Files, at: Planned, word: str) -> list[Shared]:
    return [one for one in shared(files.read(f'module {at.number}') or b'') if one.word == word]


def exported_twice(files: Files, at: Planned) -> list[str]:
    before = [(one, module) for module in files.modules[:at.number] for one in shared_by(files, module, 'EXPORT')]
    said = []
    for own in shared_by(files, at, 'EXPORT'):
        said += [f'{at.file} line {own.line} exports `{own.name}`, and so does {module.file} line {one.line} (module {module.number}).'
                 for one, module in before if one.name == own.name]
        before.append((own, at))
    same = any(module.file == at.file for module in files.modules[:at.number])
    return [*said[:MOST_LINES], *['The plan names this file twice.'] * same]


def missing(files: Files, at: Planned) -> list[str]:
    given = [one.name for module in files.modules for one in shared_by(files, module, 'EXPORT')]
    said = []
    for own in shared_by(files, at, 'IMPORT'):
        if own.name not in given:
            meant, homes = close(own.name, given), [module.file for module in files.modules if own.name in label_names(files.read(f'module {module.number}') or b'')]
            said.append(f'{at.file} line {own.line} imports `{own.name}`, which no module exports.' + (f' {homes[0]} gives it, and has to export it.' if homes else
                        f' Is `{meant}` meant? Names keep their case.' if meant else ' Is its module missing in the plan?'))
    return said[:MOST_LINES]


def room_too_small(files: Files, at: Planned) -> list[str]:
    size = at.last - at.first + 1
    return [f'The room from {at.room} has {size:,} byte{"s" * (size > 1)}, and the module needs more. The second number of its line is the last address.']


def rooms_that_meet(files: Files, at: Planned) -> list[str]:
    said = [f'Module {module.number}, {module.file}, may have {module.room}, and this one {at.room}.' for module in files.modules[:at.number] if module.meets(at)]
    return said + ['Give each a room of its own.'] * bool(said)


def out_of_reach(files: Files, at: Planned) -> list[str]:
    data = files.read(f'module {at.number}') or b''
    found = [*suspects(data)]
    lines = [f'    {at.file} line {line}: {text}' for line, text, _ in found]
    said = ['It may be one of these lines:', *lines[:MOST_LINES], *['    ..'] * (len(lines) > MOST_LINES)] if lines else []
    kinds = {kind for _, _, kind in found}
    hints_of = {'branch': 'A branch reaches from 128 back to 127 on. For a place in another module, use JMP or PI.',
                'byte': 'A byte is -128 to 255. Of an address take `<` or `>`, its low and high byte.'}
    return [*said, *(hint for kind, hint in hints_of.items() if kind in kinds),
            f'An import has to lie between {IMPORTS[0]:,} and {IMPORTS[1]:,}, and a half may not be that of a negative value.']


def suspects(data: bytes) -> Iterator[tuple[int, str, str]]:
    """Lines whose values may not fit: branches out of the module, and whole bytes that are placed."""
    own, imports = set(label_names(data)), set(imported_in(data))
    for number, raw in enumerate(lines_in(data), 1):
        text = re.split(r";(?!')", raw.decode('utf-8', 'replace'))[0].rstrip()
        bare = re.sub(r'^\s*\w+\s*:', '', text).strip()
        branch = BRANCH.fullmatch(text)
        if branch and (set(re.findall(r'[A-Za-z_]\w*', branch[1])) & imports or re.fullmatch(r'[$%]?\w+', branch[1].strip()) and branch[1].strip() not in own):
            yield number, bare, 'branch'
        elif re.match(r'(DB|LI|NI|OI|XI|AI|CI)\b', bare, re.I) and any(is_whole_byte(operand, own | imports) for operand in bare.partition(' ')[2].split(',')):
            yield number, bare, 'byte'


def is_whole_byte(operand: str, placed: set[str]) -> bool:
    """Whether an operand may be a placed value as it is, and no half or distance."""
    names = [name for name in re.findall(r'[A-Za-z_]\w*', operand) if name in placed]
    return len(names) == 1 and not re.match(r'\s*\(*\s*[<>]', operand)
