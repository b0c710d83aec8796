"""Faults of assembly texts: what other assemblers write, and what is written here."""
from __future__ import annotations

import re
from typing import Callable, Iterator, Union

from companion.description import PSU_BYTES
from companion.explaining.files import Files, Sort
from companion.page_tables import cause_of, close, form_of, mnemonics

HEX = '[0-9A-Fa-f]'
Hint = Union[str, Callable[[re.Match], str]]


def octal(match: re.Match) -> str:
    return f'There are no octal numbers: write `{int(match[1], 8)}` for `{match[0]}`.' if not re.search('[89]', match[1]) else ''


def register(match: re.Match) -> str:
    """What is written for a register of the scratchpad by its number."""
    number = int(match[1])
    if number < 12:
        return f'A register of the scratchpad is a number alone: write `{match[1]}` for `{match[0]}`.'
    if number < 16:
        name = ('KU', 'KL', 'QU', 'QL')[number - 12]
        return f'r{number} is reached as {name} alone: `LR A,{name}` and `LR {name},A`, or by ISAR.'
    return by_isar(number, match[0])


def by_isar(number: int, written: str) -> str:
    if number > 63:
        return f'The scratchpad has the registers 0 to 63, and {written} is none.'
    return f'A register above 11 is reached by ISAR: `LISU {number >> 3}`, `LISL {number & 7}`, and then `S` in the place of `{written}`.'


def number_too_large(match: re.Match) -> str:
    number = int(match[1])
    if number in (12, 13, 14):
        return ('12, 13 and 14 are named `S`, `I` and `D`, the register that ISAR points to. '
                'The registers r12 to r15 themselves are KU, KL, QU and QL, as in `LR A,KU`.')
    return by_isar(number, match[1])


def set_isar(match: re.Match) -> str:
    number = re.fullmatch(r'\s+(\d+)', match[1] or '')
    digits = f'`LISU {int(number[1]) >> 3}` and `LISL {int(number[1]) & 7}`' if number and int(number[1]) < 64 else '`LISU` and `LISL`'
    return f'ISAR is set by its two octal digits: {digits}; or from A by `LR IS,A`.'


def bytes_of_hex(match: re.Match) -> str:
    digits = ''.join(match[1].split())
    return f'Bytes are given by DB: `DB {",".join("$" + digits[at:at + 2] for at in range(0, len(digits), 2))}`.'


# By causes, what stands at the place of the fault, and what is usually meant by it. \g<0> is the whole text. The first that fits is said.
HINTS: list[tuple[set[int], str, Hint]] = [
    ({2, 5, 11}, rf'0[x]({HEX}+)', r'A hexadecimal number begins with `$`: write `$\1` for `\g<0>`.'),
    ({2, 5, 11}, rf"\b[hx]'({HEX}+)'?", r'A hexadecimal number begins with `$`: write `$\1` for `\g<0>`.'),
    ({2, 5, 11}, r"\bo'([0-9]+)'?", octal), ({2, 5, 11}, r"\bb'([01]+)'?", r'A binary number begins with `%`: write `%\1` for `\g<0>`.'),
    ({2, 5, 11}, r"\bd'(\d+)'?", r'A decimal number has no mark: write `\1` for `\g<0>`.'),
    ({2, 5, 11}, r"\bc'(.)'?", r"A character has quotes and no mark: write `'\1'` for `\g<0>`."),
    ({2, 11}, r'0[b]([01]+)\b', r'A binary number begins with `%`: write `%\1` for `\g<0>`.'),
    ({2, 11}, rf'\b(\d{HEX}*)[h]\b', r'A hexadecimal number begins with `$`: write `$\1` for `\g<0>`.'),
    ({2}, rf'#(\$?{HEX}+)?', r'An operand needs no `#`: LI, NI, AI and so on always take the number itself.'),
    ({2}, r'^\s*\*\s*=\s*(\S+)', r'An address is set by `ORG \1`.'),
    ({2, 11}, r'(\w+)\s*:?\s*=\s*([^;]*\w)', r'A value is given by EQU after a label with a colon: `\1: EQU \2`.'),
    ({2}, r'["“][^"]*"?', r"There are no strings: write each character, as `DB 'H','I'`."),
    ({2}, r"'[^']*'?", r"Each character has quotes of its own: `'A'`."),
    ({2}, r'\$|%', r'Digits follow a `$` or `%` at once. The address of a statement is `.` here.'),
    ({2}, r'[\[\]{}^~!@?\\]|<<|>>', r'There is no such mark. The operators are `+ - * /`, `&`, `|`, `<` (low byte) and `>` (high byte).'),
    ({11}, r'\.(byte|db|dc|ds|word|dw|org|equ|text|ascii|include|res|fill)\b\w*', r'A directive has no dot: the four are ORG, EQU, DB and DW.'),
    ({11}, r'(?<!\w)\.(\w+)', r'There are no local labels: a name begins with a letter or `_`, and each is given once. The address of a statement is `.`.'),
    ({11}, r'\(\s*IS\s*\)\s*\+', r'The register that ISAR points to, with a step up of ISAR, is `I`: write `I` for `\g<0>`.'),
    ({11}, r'\(\s*IS\s*\)\s*-', r'The register that ISAR points to, with a step down of ISAR, is `D`: write `D` for `\g<0>`.'),
    ({11}, r'\(\s*IS\s*\)', r'The register that ISAR points to is `S`: write `S` for `\g<0>`. `I` then steps ISAR up, and `D` down.'),
    ({11}, r'(?<=\s)\*', r'The address of the statement is `.` and not `*`.'),
    ({5, 11}, r'\bDC0\b(,\s*)?', r'The data counter is named `DC`.'), ({5, 11}, r'\bPC0\b(,\s*)?', r'The program counter is named `P0`.'),
    ({5, 11}, r'\bPC1\b(,\s*)?', r'The stack register is named `P`.'), ({5}, r'\br(\d{1,4})\b', register),
    ({6}, r'\b(?:LR|DS|AS|ASD|XS|NS)\b[^;]*?\b(\d{1,4})\b', number_too_large),
    ({6}, r'\b(INS|OUTS)\s+[23]\b', r'INS and OUTS reach the ports 0, 1 and 4 to 15.'),
    ({6}, r'\b(INS|OUTS)\s+\S+', r'Ports above 15 are reached by IN and OUT.'),
    ({6}, r'\bDB\b', r'DB takes bytes, -128 to 255. Words are given by DW, and `<` and `>` take the low and the high byte.'),
    ({11}, r'^\s*(A|J|HU|HL|KU|KL|QU|QL|K|Q|H|S|I|D|IS|P|P0|DC|W)\s*:', r'`\1` is a word of the language and can be no label.'),
    ({3}, r'\bSETISAR(L|U)?\b(\s+\d+)?', lambda match: set_isar(re.match(r'\w+(\s+\d+)?', match[0]))),
    ({3}, rf'\bHEX\s+((?:{HEX}{{2}}\s*)+)', bytes_of_hex),
]
# Words of other assemblers in the place of a mnemonic.
OTHER_WORDS = {
    'BYTE DC FCB DEFB DC.B TEXT ASCII': 'Bytes are given by DB.', 'WORD FDB DEFW': 'Words are given by DW.',
    'INCLUDE INCBIN INCDIR': 'There is no INCLUDE. A second text can be a second chip, or a module, which `link` puts together with others.',
    'EXPORT IMPORT PUBLIC GLOBAL EXTERN XDEF XREF': 'Names are shared by modules alone, by EXPORT and IMPORT. `link` puts them together, as a plan says.',
    'PROCESSOR CPU SEG SUBROUTINE LIST PAGE TITLE END': 'There is nothing like it here: leave the line out.',
    'MAC MACRO ENDM REPEAT REPEND IF ELSE ENDIF EIF': 'There are no macros, repeats or conditions.',
    'RES RMB DEFS ALIGN RORG': 'Room is left by ORG, with the next address.',
    'CALL JSR BSR': 'A call is `PI place` (A is lost).', 'RET RTS': 'The way back is `POP`, or `PK` after `LR K,P`.',
    'JP BRA JR': 'A jump is `JMP place` (A is lost), or `BR place` nearby.',
    'LD LDA MOV MOVE': 'A register is loaded by `LR A,r`, and A with a number by `LI n`.',
    'STA': 'A goes into a register by `LR r,A`, and to the address in DC by `ST`.',
    'ADD SUB AND OR XOR EOR CMP DEC': 'Sums and the like are AS, AI, AM; NS, NI; OI; XS, XI; CI; DS.',
    'SET': 'A value is given by `NAME: EQU value`, once.', 'LISI SETA': 'A small number is loaded by `LIS n`, and any byte by `LI n`.',
}
BRANCH_TOO_FAR = ('A branch reaches from 128 back to 127 on, counted from its second byte.',
                  'For a place farther away, branch over a jump: `BNZ SKIP`, `JMP PLACE`, `SKIP:` in the place of `BZ PLACE` (JMP changes A).')


def asm(files: Files, what: str, line: str, column: str, cause: str) -> list[str]:
    """The place of a fault, its cause, and what is likely meant."""
    shown, text = files.line(what, int(line), int(column))
    code = re.split(r";(?!')", text)[0]
    sentence = cause_of('ASSEMBLY.md', 'Faults', f'error asm file line {line} column {column} cause {cause}')
    odd = files.looks_like(what, Sort.ASSEMBLY, Sort.NOTHING)
    return [*shown, sentence, *(odd or hints(files, what, code, int(column), int(cause)))]


def file_hint(files: Files, what: str, column: int, code: str) -> str:
    """What is wrong with the file as a whole: it begins with a mark, or has no line feeds."""
    data = files.read(what) or b''
    if data.startswith(b'\xef\xbb\xbf') and column == 1 and '\ufeff' in code:
        return 'The file begins with a byte order mark: save it as UTF-8 without one.'
    if code[column - 1:column] == '\r':
        return 'There is a carriage return within the line. Lines end with LF, or with CR and LF: save the file with such ends.'
    return ''


def lone_returns(files: Files) -> Iterator[str]:
    """A carriage return alone ends no line. In a comment it is taken, with all that was meant to be on the lines behind it."""
    names = ['file'] if files.command == 'asm' else [f'module {module.number}' for module in files.modules] or [f'source {n}' for n, table in enumerate(files.description.tables) if 'source' in table]
    for name in names:
        if re.search(rb'\r(?!\n)', files.read(name) or b''):
            yield (f'Warning: {files.path(name)} has carriage returns alone. Lines end with LF: what follows such a return in a comment '
                   'is part of the comment.')


def hints(files: Files, what: str, code: str, column: int, cause: int) -> list[str]:
    """What other assemblers write so, or else what the cause says of the text at the place."""
    if whole := file_hint(files, what, column, code):
        return [whole]
    dot, word = re.match(r'\s*(?:\w+\s*:)?\s*(\.?)([\w.]*)', code.upper()).groups()
    if cause in (2, 3, 11):
        for others, hint in OTHER_WORDS.items():
            if word in others.split():
                return [('A directive has no dot. ' if dot else '') + hint]
    for causes, form, hint in HINTS:
        for match in re.finditer(form, code, re.I):
            if cause in causes and match.start() < column <= match.end() + 1:
                return [said for said in [match.expand(hint) if isinstance(hint, str) else hint(match)] if said]
    return by_cause(files, what, code, column, cause) if code else []


def by_cause(files: Files, what: str, code: str, column: int, cause: int) -> list[str]:
    lines = (files.read(what) or b'').decode('utf-8', 'replace').split('\n')
    labels = {found[1]: number for number, text in reversed([*enumerate(lines, 1)]) if (found := re.match(r'\s*(\w+)\s*:', text))}
    name = (re.match(r'\w*', code[column - 1:]) or [''])[0]
    mnemonic = (re.match(r'\s*(?:\w+\s*:)?\s*(\w*)', code) or ['', ''])[1].upper()
    form = form_of(mnemonic)
    said = {
        1: lambda: ['The file has to be saved as UTF-8. Outside comments, only ASCII is taken.'],
        3: lambda: [unknown(code, name)],
        4: lambda: [f'`{name}` was given in line {labels.get(name)} already: each label needs a name of its own.'],
        5: lambda: [undefined(name, labels)],
        6: lambda: [form],
        7: lambda: [*BRANCH_TOO_FAR],
        8: lambda: [outside(files, what)],
        9: lambda: ['An ORG leads to addresses that have bytes already: `tools/listing` shows the addresses of each line.'],
        11: lambda: [' '.join(filter(None, ['' if name else 'Something is missing here, or too much.', form]))],
    }
    return [hint for hint in said.get(cause, list)() if hint]


def unknown(code: str, name: str) -> str:
    known = mnemonics()
    behind = re.match(rf'\s*{name}\s*(\w*)', code)
    if behind and (behind[1].upper() in known or not behind[1] and not close(name, known)):
        return f'A label has a colon after it: `{name}:`.'
    meant = close(name, known, 3)
    return f'Is `{meant}` meant?' if meant else ''


def undefined(name: str, labels: dict[str, int]) -> str:
    if name in labels:
        return f'`{name}` is given in line {labels[name]}: ORG and EQU use only names of earlier lines.'
    if re.fullmatch(rf'[A-Fa-f]{HEX}*[hH]?', name) and not close(name, labels):
        return f'No line gives `{name}` a value. A hexadecimal number begins with `$`: `${name.rstrip("hH")}`.'
    meant = close(name, labels)
    return f'No line gives `{name}` a value.' + (f' Is `{meant}` meant? Names keep their case.' if meant else '')


def outside(files: Files, what: str) -> str:
    tables = files.description.tables
    number = int(what[7:]) if what.startswith('source ') else len(tables)
    base = tables[number].get('base') if number < len(tables) else None
    if not isinstance(base, int):
        return "A source has only the addresses of its chip's ROM." if what != 'file' else 'Addresses end at FFFF.'
    return (f'Chip {number} holds {base:04X} to {base + PSU_BYTES - 1:04X}. '
            f'A text begins at 0000, unless `ORG ${base:04X}` or a later ORG is before its first byte.')
