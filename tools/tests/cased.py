"""What `confirm` answers, worked out by other means than the program's: by docs/PROVE.md, over the companions' rules of one state.

    python3 cased.py CART CASES

prints the line that the program has to write, on files that it takes but for the list. A description whose chips have sources needs the
program for their bytes.
"""
from __future__ import annotations

import re
import sys
from enum import Enum, IntEnum
from functools import lru_cache, partial
from pathlib import Path
from typing import FrozenSet, Iterable, Iterator, NamedTuple, Optional, Sequence

sys.path.insert(0, str(Path(__file__).resolve().parent.parent))  # where the package `companion` lies

from companion.description import Description
from companion.domain import FACTS, FLAGS, REGISTERS, STATUS, Known, Part, Point, PowerOn, State, Unknown, digits, start_point, start_state
from companion.effects import H, J, K, POINTED, Q
from companion.instructions import OPCODES
from companion.memory import Memory
from companion.program import Program
from companion.rules import Refusal, Rules

MOST_CASES, MOST_BYTES, MOST_WORDS, MOST_ENTRIES = 4096, 16, 512, 65_536
MOST_TEXT = 67_108_864

Values = Optional[FrozenSet[int]]  # of a part; None where it may have any
A, D0, D1, C, ICB = map(int, (Part.A, Part.D0, Part.D1, Part.C, Part.ICB))
ISAR, LOW = int(Part.ISAR_HIGH), int(Part.ISAR_LOW)  # where an entry has ISAR's numbers, and nothing
FLAGS, STATUS, FACTS = (tuple(map(int, parts)) for parts in (FLAGS, STATUS, FACTS))
NUMBERS = frozenset(range(REGISTERS))
UNKNOWN = tuple(Unknown(PowerOn(part)) for part in Part)
ONE = [frozenset([number]) for number in range(65_536)]
BIT = {False: frozenset([False]), True: frozenset([True])}


class Entry(NamedTuple):
    """An address and a return with the values of each part there. A fact that is stated has the value True; a flag that is either, any."""
    at: int
    ret: int | None
    parts: tuple[Values, ...]
    same: int | None = None  # the register that holds A's byte

    def allows(self, part: int, value: int) -> bool:
        values = self.parts[part]
        return values is None or value in values

    def one(self, part: int) -> int | None:
        """The value of a part that has one alone."""
        values = self.parts[part]
        return next(iter(values)) if values is not None and len(values) == 1 else None

    def changed(self, **changes: Iterable[int] | None) -> Entry:
        """The entry with other values of parts, which are named as in Part, and ISAR besides; None is for any."""
        parts = list(self.parts)
        for name, values in changes.items():
            parts[ISAR if name == 'ISAR' else Part[name]] = None if values is None else frozenset(values)
        return self._replace(parts=tuple(parts))


def set_of(value: Known) -> Values:
    return None if isinstance(value, Unknown) else BIT[value] if isinstance(value, bool) else ONE[value]


START = Entry(start_point(0).at, None, tuple(set_of(value) for value in start_state()))


# ---- what an instruction reads and writes

BY_ISAR = -1  # in place of a register's number: the register to which ISAR points


class Effect(NamedTuple):
    """The parts that an instruction reads, in the order in which cases are made by them, and those that it writes; and the register that
    it copies A to or from. The facts and ICB are told by each step, so they aren't named, but where ICB is read."""
    reads: tuple[int, ...] = ()
    writes: tuple[int, ...] = ()
    copies: int | None = None


def fields() -> Iterator[tuple[int, tuple[int, ...], int, tuple[int, ...]]]:
    """Each field with what is read to know its register, the register, and what is written of ISAR."""
    for field in range(15):
        by_isar = field >= POINTED
        yield field, (ISAR,) * by_isar, BY_ISAR if by_isar else field, (ISAR,) * (field > POINTED)


def chosen(bits: int) -> tuple[int, ...]:
    return tuple(flag for place, flag in enumerate(FLAGS) if bits >> place & 1)


def effects() -> Iterator[tuple[Iterable[int], Effect]]:
    """The table of docs/PROVE.md: opcodes with what their instruction reads and writes, but for XDC."""
    for number in range(4):
        yield [number], Effect((K + number,), (A,), K + number)
        yield [number + 4], Effect((A,), (K + number,), K + number)
    yield [0x08], Effect((), (K, K + 1))
    yield [0x09, 0x0C], Effect((K, K + 1))
    yield [0x0D], Effect((Q, Q + 1))
    yield [0x0F], Effect((Q, Q + 1), (D0, C))
    yield [0x10], Effect((H, H + 1), (D0, C))
    yield [0x0E], Effect((D0,), (Q, Q + 1))
    yield [0x11], Effect((D0,), (H, H + 1))
    yield [0x0A], Effect((ISAR,), (A,))
    yield [0x0B], Effect((A,), (ISAR,))
    yield range(0x60, 0x70), Effect((ISAR,), (ISAR,))
    yield [0x8F], Effect((ISAR,))
    yield [*range(0x12, 0x16), 0x18, 0x1F, *range(0x21, 0x25)], Effect((A,), (A, *FLAGS))
    yield [0x25], Effect((A,), FLAGS)
    yield [0x19], Effect((A, FLAGS[1]), (A, *FLAGS))
    yield [0x1D], Effect((J,), STATUS)
    yield [0x1E], Effect(STATUS, (J,))
    yield [0x20, 0x28, 0x29, *range(0x70, 0x80)], Effect((), (A,))
    yield [0x26, 0xA0, 0xA1, *range(0xA4, 0xB0)], Effect((), (A, *FLAGS))
    yield [0x16], Effect((D0,), (A, D0, C))
    yield [0x17], Effect((D0,), (D0, C))
    yield [0x8E], Effect((D0, A), (D0, C))
    yield range(0x88, 0x8D), Effect((D0, A), (A, *FLAGS, D0, C))
    yield [0x8D], Effect((D0, A), (*FLAGS, D0, C))
    yield [0x2A], Effect((), (D0, C))
    for field, pointer, register, stepped in fields():
        yield [0x30 + field], Effect((*pointer, register), (register, *FLAGS, *stepped))
        yield [0x40 + field], Effect((*pointer, register), (A, *stepped), register)
        yield [0x50 + field], Effect((*pointer, A), (register, *stepped), register)
        yield [high + field for high in (0xC0, 0xD0, 0xE0, 0xF0)], Effect((*pointer, register, A), (A, *FLAGS, *stepped))
    for bits in range(16):
        yield [0x80 + bits, 0x90 + bits] if bits < 8 else [0x90 + bits], Effect(chosen(bits))


XDC = 0x2C
EFFECTS = {opcode: Effect() for opcode in range(256)} | {opcode: effect for opcodes, effect in effects() for opcode in opcodes}


# ---- cases

class Spread(Enum):
    """Which bytes get a value in each case, of those that are read. Where there are too many cases it is the next one."""
    EACH = 'all of them'
    LISTED = 'those that may not be any'
    NONE = 'none'


def pointed(case: Sequence[Known]) -> int:
    """The register to which ISAR points in a case that gives ISAR a number."""
    return case[ISAR] * 8 + case[LOW]


def resolved(place: int, case: Sequence[Known]) -> int:
    return pointed(case) if place == BY_ISAR else place


def plain_case(entry: Entry) -> list[Known]:
    """What each case knows, whatever is read: parts of one value, and c where it is what D0 is."""
    case = [next(iter(values)) if values is not None and len(values) == 1 else unknown for values, unknown in zip(entry.parts, UNKNOWN)]
    number = entry.one(ISAR)
    if number is not None:
        case[ISAR:LOW + 1] = divmod(number, 8)
    if entry.parts[Part.P0]:
        case[C] = case[D0]
    return case


def with_value(case: list[Known], part: int, value: int) -> list[Known]:
    """A case in which a part has this value too. Where p0 holds c goes with D0."""
    found = case.copy()
    found[part] = value
    if part == ISAR:
        found[ISAR:LOW + 1] = divmod(value, 8)
    if part == D0 and found[Part.P0] is True:
        found[C] = value
    return found


def twin(entry: Entry, part: int) -> int | None:
    """The part that has the same byte, as the entry's `same` says."""
    return None if entry.same is None else entry.same if part == A else A if part == entry.same else None


def values_in(entry: Entry, part: int, case: Sequence[Known], spread: Spread) -> Sequence[int] | None:
    """The values of a part that is read in the cases that are made of this one, in their order; None where it stays as it is."""
    own = entry.parts[part]
    if part in STATUS:
        return (False, True) if own is None else None
    if part == ISAR:
        return range(REGISTERS) if own is None else sorted(own)
    if part == D0:
        return None if own is None else sorted(own)
    other = twin(entry, part)
    if other is not None and not isinstance(case[other], Unknown):
        return [case[other]] if entry.allows(part, case[other]) else []
    if spread is Spread.NONE or own is None and spread is Spread.LISTED:
        return None
    return range(256) if own is None else sorted(own)


def spread_cases(entry: Entry, opcode: int, spread: Spread, most: int) -> list[list[Known]] | None:
    """The cases, or None where there are too many behind some part."""
    cases = [plain_case(entry)]
    for place in EFFECTS[opcode].reads:
        more: list[list[Known]] = []
        for case in cases:
            part = resolved(place, case)
            values = values_in(entry, part, case, spread)
            more += [case] if values is None else [with_value(case, part, value) for value in values]
            if len(more) > most:
                return None
        cases = more
    return cases


def cases(entry: Entry, opcode: int | None, most: int = MOST_CASES) -> list[list[Known]]:
    """The cases of an entry under an instruction, in order; one where there is no instruction. Where fewer are taken they say less."""
    found = (spread_cases(entry, opcode, spread, most) for spread in Spread)
    return [plain_case(entry)] if opcode is None else next(cases for cases in found if cases is not None)


# ---- results

class Outcome(NamedTuple):
    """What a case leads to at a point, beside its entry: the values of parts that the case gives, or that are written or told by the step;
    and the register that has A's byte by a copy."""
    opcode: int
    point: Point
    values: tuple[tuple[int, Values], ...]
    written: tuple[int, ...]
    copied: int | None


def outcome(opcode: int, before: Sequence[Known], point: Point, after: State) -> Outcome:
    effect = EFFECTS[opcode]
    given = (*(resolved(place, before) for place in effect.reads), C)  # c may be what D0 is
    written = tuple(resolved(place, before) for place in effect.writes)
    values = {part: one_of(before, part) for part in given if not isinstance(before[part], Unknown)}
    values |= {part: one_of(after, part) for part in (*written, ICB, *FACTS)}
    copied = None if effect.copies is None else resolved(effect.copies, before)
    return Outcome(opcode, point, tuple(values.items()), written, copied)


def one_of(state: Sequence[Known], part: int) -> Values:
    is_lost = part == ISAR and any(isinstance(state[digit], Unknown) for digit in (ISAR, LOW))  # behind LR IS,A
    return None if is_lost else set_of(pointed(state) if part == ISAR else state[part])


def result(entry: Entry, found: Outcome) -> Entry:
    """The entry that a case of an entry leads to."""
    parts = list(entry.parts)
    for part, values in found.values:
        parts[part] = values
    if found.opcode == XDC:
        parts[D0], parts[D1] = entry.parts[D1], entry.parts[D0]
    kept = None if entry.same is None or A in found.written or entry.same in found.written else entry.same
    return Entry(found.point.at, found.point.ret, tuple(parts), kept if found.copied is None else found.copied)


def says_same(lower: Entry, number: int) -> bool:
    """Whether a register holds A's byte wherever an entry stands."""
    return lower.same == number or lower.one(A) is not None and lower.one(A) == lower.one(number)


def covers(upper: Entry, lower: Entry) -> bool:
    """Whether the upper entry stands at the same address and return, and allows at least as much."""
    return ((upper.at, upper.ret) == (lower.at, lower.ret) and (upper.same is None or says_same(lower, upper.same))
            and all(more is None or less is more or less is not None and less <= more for less, more in zip(lower.parts, upper.parts)))


# ---- what is found of a list

class Way(NamedTuple):
    """The reason against a case, or what it leads to in order; and whether it is free of faults."""
    refusal: Refusal | None
    outcomes: Sequence[Outcome] = ()
    is_fault_free: bool = True


def opcode_at(rules: Rules, at: int) -> int | None:
    """The opcode at an address, whatever is behind it; None where no byte stays there, or no instruction has it."""
    opcode = rules.memory.byte(at)
    return None if opcode is None or OPCODES[opcode].is_reserved else opcode


def way(rules: Rules, entry: Entry, case: Sequence[Known]) -> Way:
    """What becomes of a case of an entry."""
    point, state = Point(entry.at, entry.ret, ()), tuple(case)
    found = rules.after(point, state)
    if isinstance(found, Refusal):
        return Way(found)
    opcode = opcode_at(rules, entry.at)
    return Way(None, [outcome(opcode, case, to, after) for to, after in found], rules.is_fault_free(point, state))


class Listed:
    """The entries of a list by their points."""

    def __init__(self, entries: Iterable[Entry]):
        self.found: dict[tuple[int, int | None], list[Entry]] = {}
        for entry in entries:
            self.found.setdefault((entry.at, entry.ret), []).append(entry)

    def covers(self, lower: Entry) -> bool:
        return any(covers(upper, lower) for upper in self.found.get((lower.at, lower.ret), ()))


class Judge:
    """Tells what is found of lists over the chips of a description."""

    def __init__(self, description: Description):
        self.rules = Rules(Memory(description.chips))

    def ways(self, entry: Entry) -> Iterable[Way]:
        """What becomes of the cases of an entry, in their order."""
        for case in cases(entry, opcode_at(self.rules, entry.at)):
            yield way(self.rules, entry, case)

    def answer(self, entries: Sequence[Entry]) -> str:
        listed, is_whole = Listed(entries), True
        if not listed.covers(START):
            return f'notclosed start to {point_text(START)}'
        for line, entry in enumerate(entries, 2):
            for found in self.ways(entry):
                if found.refusal:
                    return f'unsafe {line} {int(found.refusal.reason)}'
                open_one = next((lower for lower in map(partial(result, entry), found.outcomes) if not listed.covers(lower)), None)
                if open_one:
                    return f'notclosed {line} to {point_text(open_one)}'
                is_whole = is_whole and found.is_fault_free
        return f'{"whole" if is_whole else "agreed"} {len(entries)}'


class Remembering(Judge):
    """A judge that works out what becomes of an entry once, for lists that have much in common."""

    def __init__(self, description: Description):
        super().__init__(description)
        self.found: dict[Entry, list[Way]] = {}

    def ways(self, entry: Entry) -> Iterable[Way]:
        if entry not in self.found:
            self.found[entry] = list(super().ways(entry))
        return self.found[entry]


def point_text(entry: Entry) -> str:
    return Point(entry.at, entry.ret, ()).text()


def answer(description: Description, entries: Sequence[Entry]) -> str:
    """The line that `confirm` writes of a list."""
    return Judge(description).answer(entries)


def status_of(line: str) -> int:
    """The status with which the program ends behind a line of `confirm`."""
    return {'whole': 0, 'agreed': 0, 'error': 2}.get(line.split(' ')[0], 7)


def confirmed(judge: Judge, text: bytes) -> tuple[str, int]:
    """The line of `confirm` for the text of a list, and its status."""
    try:
        line = 'error long cases' if len(text) > MOST_TEXT else judge.answer(read_list(text))
    except Unreadable as fault:
        line = str(fault)
    return line, status_of(line)


# ---- the text

class Cause(IntEnum):
    HEADER = 1
    COUNT = 2
    FIELD = 3
    ORDER = 4
    END = 5


class Unreadable(Exception):
    """The first fault of a text that is no list."""

    def __init__(self, line: int, cause: Cause):
        super().__init__(f'error cases line {line} cause {int(cause)}')


class OutOfForm(Exception):
    """The words of a line are out of form."""


HEADER = re.compile(rb'F8CASES 1 ([0-9]{1,7})')
HEX, OCTAL = '[0-9A-Fa-f]', '[0-7]'
FLAG_VALUES = {'0': BIT[False], '1': BIT[True], '-': None}
FACT_VALUES = {'0': None, '1': BIT[True]}
WORDS = 10 + REGISTERS  # of a line


@lru_cache(4096)
def numbers_of(word: str, digit: str, width: int, most: int) -> Values:
    """Numbers of so many digits, ascending and one right behind another; as many dashes are for any."""
    if word == '-' * width:
        return None
    base = 8 if digit == OCTAL else 16
    if not re.fullmatch(f'({digit}{{{width}}}){{1,{most}}}', word):
        raise OutOfForm
    found = [int(word[place:place + width], base) for place in range(0, len(word), width)]
    if any(one >= other for one, other in zip(found, found[1:])):
        raise OutOfForm
    return frozenset(found)


def number_of(word: str, digit: str, width: int) -> int | None:
    values = numbers_of(word, digit, width, 1)
    return None if values is None else next(iter(values))


def characters_of(word: str, values: dict[str, Values], count: int) -> list[Values]:
    if len(word) != count or not set(word) <= set(values):
        raise OutOfForm
    return [values[character] for character in word]


def entry_of(line: bytes) -> Entry:
    """The entry of a line, without its LF."""
    words = line.decode('latin-1').split(' ')
    if len(words) != WORDS:
        raise OutOfForm
    at, ret, own, isar, status, d0, d1, c, facts, same, *registers = words
    parts: list[Values] = [None] * len(Part)
    address = number_of(at, HEX, 4)
    if address is None:
        raise OutOfForm
    parts[:REGISTERS] = [numbers_of(word, HEX, 2, MOST_BYTES) for word in registers]
    parts[A] = numbers_of(own, HEX, 2, MOST_BYTES)
    numbers = numbers_of(isar, OCTAL, 2, REGISTERS)
    parts[ISAR] = None if numbers == NUMBERS else numbers
    parts[STATUS[0]:ICB + 1] = characters_of(status, FLAG_VALUES, len(STATUS))
    parts[D0:C + 1] = [numbers_of(word, HEX, 4, MOST_WORDS) for word in (d0, d1, c)]
    parts[FACTS[0]:] = characters_of(facts, FACT_VALUES, len(FACTS))
    return Entry(address, number_of(ret, HEX, 4), tuple(parts), number_of(same, OCTAL, 2))


def read_entry(number: int, line: bytes, before: tuple[int, bytes] | None) -> Entry:
    """The entry of the line with a number, which comes behind another address and line."""
    try:
        entry = entry_of(line)
    except OutOfForm:
        raise Unreadable(number, Cause.FIELD) from None
    if before is not None and before >= (entry.at, line.upper()):
        raise Unreadable(number, Cause.ORDER)
    return entry


def read_list(text: bytes) -> list[Entry]:
    """The entries of a text. What is none raises Unreadable, with its first fault."""
    *lines, rest = text.split(b'\n')
    if not lines:
        raise Unreadable(1, Cause.END)
    header = HEADER.fullmatch(lines[0])
    if not header:
        raise Unreadable(1, Cause.HEADER)
    if not 1 <= int(header[1]) <= MOST_ENTRIES:
        raise Unreadable(1, Cause.COUNT)
    found: list[Entry] = []
    before = None
    for number in range(2, int(header[1]) + 2):
        if number > len(lines):
            raise Unreadable(number, Cause.END)
        line = lines[number - 1]
        found.append(read_entry(number, line, before))
        before = found[-1].at, line.upper()
    if len(lines) > len(found) + 1 or rest:
        raise Unreadable(len(found) + 2, Cause.END)
    return found


def spelled(values: Values, form: str) -> str:
    """Numbers in a form such as 04X, and as many dashes for any."""
    return '-' * int(form[1]) if values is None else ''.join(format(value, form) for value in sorted(values))


def line_of(entry: Entry) -> str:
    """The line of an entry, without its LF."""
    status = ''.join('-' if (flag := entry.one(part)) is None else str(int(flag)) for part in STATUS)
    facts = ''.join('1' if entry.parts[part] else '0' for part in FACTS)
    same = None if entry.same is None else ONE[entry.same]
    return ' '.join([f'{entry.at:04X}', digits(entry.ret, 4), spelled(entry.parts[A], '02X'), spelled(entry.parts[ISAR], '02o'), status,
                     *(spelled(values, '04X') for values in entry.parts[D0:C + 1]), facts, spelled(same, '02o'),
                     *(spelled(values, '02X') for values in entry.parts[:REGISTERS])])


def text_of(entries: Iterable[Entry]) -> bytes:
    """The text of some entries, each once, in the order that a list has to have."""
    lines = sorted({line_of(entry) for entry in entries})
    return ''.join(f'{line}\n' for line in (f'F8CASES 1 {len(lines)}', *lines)).encode()


def main(words: list[str]) -> int:
    if len(words) != 2:
        print('error words')
        return 1
    line, status = confirmed(Judge(Description.read(words[0], Program.of())), Path(words[1]).read_bytes())
    print(line)
    return status


if __name__ == '__main__':
    sys.exit(main(sys.argv[1:]))
