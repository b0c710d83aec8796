"""`dis` of bytes beside a listing that is made here, `asm` of what it wrote, and of the same text spelled otherwise."""
from __future__ import annotations

import re
from random import Random
from typing import Iterator

from companion.assembly import Image
from companion.instructions import OPCODES, Operand, signed
from companion.soaking.trials import Trial

BLANKS = ' \t\n\r'
MOST = 60  # bytes, mostly
LAST = 0xFFFF
COMMA = ord(',')
HEXADECIMAL = re.compile(r'\$([0-9A-F]+)')
ODD_DIGITS = ('g', '0x', '$', ';', '-', '.', '\x00', '\x0b', 'é', ' 5', '#')


def texts(trial: Trial) -> None:
    random = trial.random
    data = random_bytes(random)
    if random.random() < 0.12:
        refused_digits(trial, data)
        return
    digits = trial.put('digits.txt', spelled(random, data))
    listed = trial.call('dis', digits)
    trial.same(listed.output, listing(data).encode(), '`dis`')
    text = trial.put('text.f8', listed.output if random.random() < 0.3 else respelled(random, listed.output.decode()))
    assembled = trial.call('asm', text)
    trial.same(assembled.status, 0, 'status of `asm`')
    image = Image.of(assembled.output)
    trial.same(image.bytes, dict(enumerate(data)), '`asm` of what `dis` wrote')


def refused_digits(trial: Trial, data: bytes) -> None:
    """A file of digits with something else in it, or with half a byte."""
    digits = spelled(trial.random, data)
    at, odd = trial.random.randrange(len(digits) + 1), trial.random.choice((*ODD_DIGITS, 'A'))
    text = digits[:at] + odd + digits[at:]
    told = trial.call('dis', trial.put('digits.txt', text))
    plain = re.sub(r'[ \t\n\r]', '', text)
    due = 'error hex' if len(plain) % 2 or re.search('[^0-9A-Fa-f]', plain) else None
    trial.refused_alike(told, due)


def random_bytes(random: Random) -> bytes:
    """Bytes of which opcodes are as likely as any, and now and then many of them."""
    count = random.randrange(MOST) if random.random() < 0.97 else random.randrange(2000)
    return bytes(random.choice((random.randrange(256), random.choice((0x28, 0x2A, 0x90, 0x84, 0x20)))) for _ in range(count))


def spelled(random: Random, data: bytes) -> str:
    """Bytes as digits of either case, with blanks anywhere."""
    digits, share = data.hex(), random.choice((0, 0, 0.05, 0.5))
    return ''.join((digit.upper() if random.random() < 0.5 else digit) + (random.choice(BLANKS) if random.random() < share else '')
                   for digit in digits)


# ---- the listing of docs/ASSEMBLY.md

def listing(data: bytes) -> str:
    return 'ORG $0000\n' + ''.join(f'{line}\n' for line in statements(data))


def statements(data: bytes) -> Iterator[str]:
    at = 0
    while at < len(data):
        opcode = OPCODES[data[at]]
        operand = data[at + 1:at + opcode.size]
        is_none = opcode.is_reserved or len(operand) < opcode.operand.size
        statement = None if is_none else statement_of(at, opcode.code, operand)
        yield from [statement] if statement else (f'DB ${byte:02X}' for byte in data[at:at + opcode.size])
        at += opcode.size


def statement_of(at: int, code: int, operand: bytes) -> str | None:
    """A statement, None for a branch that leads out of all addresses."""
    opcode = OPCODES[code]
    if opcode.operand is not Operand.OFFSET:
        return opcode.name + (f' ${operand.hex().upper()}' if operand else '')
    place = at + 1 + signed(operand[0])
    return f'{opcode.name}{"," if " " in opcode.name else " "}${place:04X}' if 0 <= place <= LAST else None


# ---- the same text otherwise

def respelled(random: Random, text: str) -> str:
    """The same statements with other numbers, cases, blanks, comments and ends of lines."""
    end = random.choice(('\n', '\n', '\r\n'))
    lines = [respelled_line(random, line) for line in text.splitlines()]
    return end.join(lines) + end * (random.random() < 0.8)


def respelled_line(random: Random, line: str) -> str:
    word, _, rest = line.partition(' ')
    rest = HEXADECIMAL.sub(lambda match: number(random, int(match[1], 16)), rest)
    mnemonic = random.choice((word, word.lower(), word.capitalize()))
    gap = random.choice((' ', '  ', '\t', ' \t '))
    comment = random.choice(('', '', '', ' ; LI 5', ';', '; é'))
    return random.choice(('', ' ', '\t', 'L{}: '.format(random.getrandbits(60)))) + mnemonic + (gap + spaced(random, rest) if rest else '') + comment


def spaced(random: Random, operands: str) -> str:
    """Operands with blanks around a comma."""
    return operands.replace(',', random.choice((',', ', ', ' ,', '\t,  ')))


def number(random: Random, value: int) -> str:
    """A number in one of the forms that it may have, or as a sum."""
    forms = [f'${value:X}', f'${value:04x}', str(value), f'%{value:b}', f'({value})', f'{value}+0', f'{value}*1', f'-(-{value})', f'{value + 5}-5',
             f'(${value:x}|{value})&65535']
    if 32 <= value <= 126 and value != COMMA:
        forms.append(f"'{chr(value)}'")
    return random.choice(forms)
