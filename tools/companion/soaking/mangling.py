"""Changes of any file: bytes changed, cut, doubled, moved, put in and taken out, and words and lines likewise."""
from __future__ import annotations

import re
from random import Random
from typing import Callable

# Bytes and words at which readers decide.
BYTES = b'\x00\t\n\r "#\'+,-.0:=[]{}\\_\x7f\x80\xc3\xff'
WORDS = (b'0', b'1', b'-1', b'00', b'16', b'17', b'255', b'256', b'600', b'601', b'1000000', b'1000001', b'9999999', b'10000000', b'65536', b'FFFF',
         b'10000', b'----', b'--', b'.', b'ff', b'GG', b'back', b'run', b'steps', b'at', b'keys', b'true', b'nan', b'inf', b'1e3', b'0x10', b'0b1', b'1_0',
         b'"x"', b"'x'", b'[]', b'{}', b'07:32:00', b'1979-05-27', b'', b'  ')
LINES = (b'', b'#', b'# more', b' ', b'\t', b'steps 5', b'frames 1', b'power 05', b'format = 1', b'format = 2', b'split = [1]', b'[[chip]]', b'[chip]',
         b'chip = []', b'kind = "3861"', b'bus 00 S 2B 0', b'bus 00 S -- fault', b'bus ', b'clear', b'step 1', b'show regs', b' NOP', b'"""', b'a.b = 1')


def place(random: Random, data: bytes) -> int:
    return random.randrange(len(data) + 1)


def stretch(random: Random, data: bytes) -> tuple[int, int]:
    """Where a stretch begins and ends, mostly a short one."""
    first = place(random, data)
    return first, min(len(data), first + random.choice((1, 1, 2, 4, 16, 100)))


def with_byte(random: Random, data: bytes) -> bytes:
    at = place(random, data)
    return data[:at] + bytes([random.choice((random.randrange(256), random.choice(BYTES)))]) + data[at + 1:]


def with_bit(random: Random, data: bytes) -> bytes:
    at = place(random, data)
    return data[:at] + bytes(byte ^ 1 << random.randrange(8) for byte in data[at:at + 1]) + data[at + 1:]


def with_more(random: Random, data: bytes) -> bytes:
    at = place(random, data)
    return data[:at] + bytes(random.choice((random.randrange(256), random.choice(BYTES))) for _ in range(random.choice((1, 1, 3, 20)))) + data[at:]


def cut(random: Random, data: bytes) -> bytes:
    return data[:place(random, data)]


def without(random: Random, data: bytes) -> bytes:
    first, last = stretch(random, data)
    return data[:first] + data[last:]


def doubled(random: Random, data: bytes) -> bytes:
    first, last = stretch(random, data)
    return data[:last] + data[first:]


def moved(random: Random, data: bytes) -> bytes:
    first, last = stretch(random, data)
    rest = data[:first] + data[last:]
    at = place(random, rest)
    return rest[:at] + data[first:last] + rest[at:]


def with_word(random: Random, data: bytes) -> bytes:
    """Another word, or number, in the place of one."""
    words = list(re.finditer(rb'[^\s=",\[\]]+', data))
    if not words:
        return data
    word = random.choice(words)
    return data[:word.start()] + random.choice((*WORDS, random.choice(words)[0])) + data[word.end():]


def with_line(random: Random, data: bytes) -> bytes:
    """A line more, one less, one twice, or two in each other's place."""
    lines = data.split(b'\n')
    at, other = random.randrange(len(lines)), random.randrange(len(lines))
    pick = random.randrange(4)
    if pick == 0:
        lines.insert(at, random.choice(LINES))
    elif pick == 1:
        del lines[at]
    elif pick == 2:
        lines.insert(at, lines[other])
    else:
        lines[at], lines[other] = lines[other], lines[at]
    return b'\n'.join(lines)


def ended(random: Random, data: bytes) -> bytes:
    """Other ends of lines."""
    return random.choice((data.replace(b'\n', b'\r\n'), data.replace(b'\n', b'\r'), data + b'\n', data.rstrip(b'\n'), b'\xef\xbb\xbf' + data))


def replaced(random: Random, data: bytes) -> bytes:
    return random.choice((b'', b'\n', random.randbytes(random.randrange(1, 60)), b'0' * random.randrange(1, 60), data * 2))


CHANGES: tuple[Callable[[Random, bytes], bytes], ...] = (
    with_byte, with_byte, with_bit, with_more, cut, without, doubled, moved, with_word, with_word, with_word, with_line, with_line, with_line, ended)


def mangled(random: Random, data: bytes) -> bytes:
    """A file with one change or some, and seldom another one altogether."""
    if random.random() < 0.02:
        return replaced(random, data)
    for _ in range(random.choice((1, 1, 1, 2, 3))):
        data = random.choice(CHANGES)(random, data)
    return data
