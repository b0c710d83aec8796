"""Random descriptions for trials of the checker's rules: chips of all kinds, with pages of all sorts, ports, wires, split lists and code.

Most random code is refused at its first instructions.  So a cartridge is mended some rounds long: where the rules refuse a
state, its opcode gives way to another one.
"""
from __future__ import annotations

import json
from dataclasses import dataclass, field
from random import Random
from typing import Iterator

from companion.description import EMPTY_ROM, PULSE, Description, filled
from companion.domain import below, joined, Way
from companion.effects import RULES, Data, PortUse
from companion.instructions import OPCODES, Flow
from companion.memory import Memory
from companion.rules import Refusal, Rules
from migration import migrated_chip

SET_RETURN, EI, IN, OUT, BT_0 = 0x09, 0x1B, 0x26, 0x27, 0x80  # LR P,K sets the return
ROUTINE = b'\x1B\x1C'  # EI; POP
SKIP = (2, 0x1F)  # the displacement of a branch over an INC
DATA_PORTS = (4, 5, 8, 9)  # of chips one behind another
MOST_POINTS = 1500  # that a round of mending goes over
ROM_BYTES = 1024

TESTS, READS = (0x20, 0x24, 0x25, 0x21, 0x22, 0x23), (0x16, 0x88, 0x89, 0x8A, 0x8B, 0x8C, 0x8D)
JUMPS = (0x0C, 0x0D, 0x09, 0x08, 0x1C, 0x0E, 0x11)
BRANCHES = (0x80, 0x81, 0x82, 0x84, 0x87, 0x8F, 0x90, 0x91, 0x92, 0x94, 0x98, 0x9F)
PORTS = (0xA0, 0xA1, 0xA4, 0xA5, 0xB0, 0xB1, 0xB4, 0xB5, 0xB6, 0xBC, 0xA8)
MENDS = (b'', b'', b'\x90\xFF', b'\x2B\x2B', b'\x70\x50', b'\x18\x0A', b'\x2A\x00', b'\x60\x68', b'\x42\x53')  # none of them: a random opcode
PLAIN = tuple(code for code in range(256) if code not in (*range(0x20, 0x2B), *range(0x80, 0xA0)))


@dataclass
class Chip:
    """The keys of a chip, and the bytes of its ROM."""
    keys: dict[str, object]
    rom: bytearray = field(default_factory=bytearray)

    @property
    def is_pio(self) -> bool:
        return self.keys['kind'] == '3861'

    def lines(self, format: int = 1) -> str:
        keys = (migrated_chip(self.keys) if format == 2 else self.keys) | ({} if self.is_pio else {'rom': self.rom.hex()})
        return '[[chip]]\n' + ''.join(f'{key} = {json.dumps(value)}\n' for key, value in keys.items())


def code(random: Random, size: int, pages: list[int]) -> bytearray:
    """Code in which no kind of instruction is rare."""
    found = bytearray()
    while len(found) < size:
        found += random.choice((operand, data, branch, jump, plain, plain, plain))(random, pages)
    return found[:size]


def operand(random: Random, pages: list[int]) -> bytes:
    return bytes([random.choice(TESTS), random.choice((0, 1, 0x7F, 0x80, 0xFF, random.randrange(256)))])


def data(random: Random, pages: list[int]) -> bytes:
    load = bytes([0x2A, random.choice(pages), random.randrange(256)])
    return random.choice((load, load + bytes([random.choice(READS)]), bytes([random.choice((*READS, 0x17, 0x17, 0x2C, 0x8E, 0x0F, 0x10))])))


def branch(random: Random, pages: list[int]) -> bytes:
    return bytes([random.choice(BRANCHES), random.choice((random.randrange(2, 24), random.randrange(2, 24), random.randrange(0xE0, 0x100)))])


def jump(random: Random, pages: list[int]) -> bytes:
    call = bytes([random.choice((0x28, 0x28, 0x29)), random.choice((0, 0, pages[0], random.choice(pages))), random.randrange(256)])
    pair = bytes([0x70 + random.randrange(4), random.choice((4, 6)), 0x20, random.randrange(256), random.choice((5, 7))])
    return random.choice((call, pair, bytes([random.choice(JUMPS)]), bytes([random.choice(PORTS)]),
                          bytes([random.choice((0x26, 0x27)), random.randrange(4, 16)])))


def plain(random: Random, pages: list[int]) -> bytes:
    return bytes([random.choice(PLAIN)])


def psu_of(base: int, ports: int, rom: bytearray, wired: bool = False, vector: int = 0) -> Chip:
    return Chip({'kind': '3851', 'base': base, 'ports': ports, 'interrupt': wired, 'vector': vector}, rom)


def psu(random: Random, base: int, ports: int, wired: bool, pages: list[int]) -> Chip:
    size, vector = random.choice((0, 20, 100, 300, ROM_BYTES)), random.choice(pages) * 256 + random.randrange(256)
    begin = code(random, size, pages)
    rom = begin[:-2] + bytes([0x90, 0xFF]) if size else begin
    if wired and not base:
        rom[:1] = bytes([EI])
        for high in (0, PULSE) if random.random() < 0.8 else ():
            rom = with_routine(rom, (vector & 0xFF7F | high) % ROM_BYTES)
    return psu_of(base, ports, rom, wired, vector % ROM_BYTES if wired and not base else vector)


def with_routine(rom: bytearray, at: int) -> bytearray:
    """The ROM with a routine for interrupts at an address."""
    return (rom[:at].ljust(at, bytes([EMPTY_ROM])) + ROUTINE + rom[at + 2:])[:ROM_BYTES]


def smi(random: Random, wired: bool, pages: list[int]) -> Chip:
    """A 3853 whose runs of pages lie apart."""
    runs = {'rom': (random.choice((0x20, 0x20, 0x0C, 0x03)), random.choice((0, 1, 2))),
            'ram': (random.choice((0x28, 0x28, 0x2C, 0x10, 0x02)), random.choice((0, 1, 1))),
            'void': random.choice(((0x40, 0), (0x40, 1), (0x30, 0xD0), (0x0D, 2)))}
    keys: dict[str, object] = {'kind': '3853', 'interrupt': wired}
    taken: set[int] = set()
    for sort, (first, count) in runs.items():
        run = set(range(first, first + count))
        keys |= {f'{sort}_page': first, f'{sort}_pages': 0 if run & taken else count}
        taken |= run
    return Chip(keys, code(random, 256 * keys['rom_pages'], pages))


def pio(random: Random, first: Chip, ports: int, wired: bool) -> Chip:
    """A 3861. Where it can interrupt, most of the first chips have a routine at both addresses of its vector."""
    vector = random.randrange(ROM_BYTES)
    if wired:
        first.rom[:1] = bytes([EI])
        for high in (0, PULSE) if random.random() < 0.8 else ():
            first.rom = with_routine(first.rom, vector & 0xFF7F | high)
    return Chip({'kind': '3861', 'ports': ports, 'interrupt': wired, 'vector': vector})


def chips(random: Random) -> Iterator[Chip]:
    pages = [0, 1, 2, 3, *random.sample((4, 8, 0x20, 0x28, 0x2C, 0x40, 0xF0), 3)]
    wired, ports = random.random() < 0.4, 4
    first = None
    for base in (0, 0x400, 0x800):
        if not base or random.random() < 0.3:
            chip = psu(random, 0 if random.random() < 0.04 else base, ports, wired and random.random() < 0.5, pages)
            first = first or chip
            yield chip
            ports += 4 if random.random() < 0.95 else 0
    if random.random() < 0.3:
        yield pio(random, first, ports, wired and random.random() < 0.5)
    if random.random() < 0.7:
        yield smi(random, wired and random.random() < 0.3, pages)


def cartridge(seed: int) -> str:
    """The description with a number."""
    random = Random(seed)
    rounds = random.choice((0, 4, 24, 24, 24))
    made = list(chips(random))
    if random.random() < 0.1:
        random.shuffle(made)
    count = random.choice((0, 0, 1, 1, 2, 3, 8))
    split = random.sample(range(16 if random.random() < 0.7 else 64), count)

    format = 2 if any(chip.is_pio for chip in made) else 1

    def text() -> str:
        return f'format = {format}\nsplit = {split}\n' + ''.join(chip.lines(format) for chip in made)

    for _ in range(rounds):
        if not mended(random, made, described(text())):
            break
    return text()


def leads_on(code: int) -> bool:
    """Whether an instruction comes to the next one or to one nearby, whatever the operand."""
    return OPCODES[code].flow in (Flow.NEXT, Flow.BRANCH) and code not in (SET_RETURN, IN, OUT, BT_0)


def every_instruction(seed: int) -> str:
    """A description whose code goes over every instruction that leads on, with registers and operands that are known."""
    random = Random(seed)
    body = bytearray(b'\x28\x00\x03')  # PI to the next address, so that the return is known
    for register in range(16):
        body += bytes([0x20, random.randrange(256), *((0x50 + register,) if register < 12 else (register - 8,))])
    codes = [code for code, rule in RULES.items() if leads_on(code) and (rule.port is not PortUse.IN or code % 16 in DATA_PORTS)]
    for code in random.sample(codes, len(codes)):
        body += bytes([0x60 + random.randrange(3), 0x68 + random.randrange(8), 0x20, random.randrange(256)])
        body += bytes([0x2A, 0, random.randrange(256)]) if RULES[code].data is not Data.NOT else b''
        behind = SKIP if OPCODES[code].flow is Flow.BRANCH else [random.randrange(256) for _ in range(OPCODES[code].operand.size)]
        body += bytes([code, *behind])
    body += b'\x90\xFF'
    parts = [psu_of(base, 4 + base // 256, body[base:base + ROM_BYTES]) for base in range(0, len(body), ROM_BYTES)]
    return f'format = 1\nsplit = [{random.randrange(12)}]\n' + ''.join(part.lines() for part in parts)


def described(text: str) -> Description:
    """A description without a source, with the bytes of its chips."""
    found = Description.of(text.encode())
    return Description(found.path, found.text, found.values, tuple(filled(chip, None) for chip in found.chips))


def mended(random: Random, made: list[Chip], description: Description) -> bool:
    """Puts other opcodes in the place of those that are refused, and says whether there were any."""
    found = list(refused(Rules(Memory(description.chips), description.split)))
    for at in found:
        for chip, known in zip(made, description.chips):
            if at in (addresses := known.rom_addresses):
                place = addresses.index(at)
                chip.rom += bytes([EMPTY_ROM]) * (place + 2 - len(chip.rom))
                chip.rom[place:place + 2] = random.choice(MENDS) or bytes([random.randrange(256), chip.rom[place + 1]])
                del chip.rom[len(addresses):]
    return bool(found)


def refused(rules: Rules) -> set[int]:
    """The addresses of the states that are refused, of those that are found in some steps."""
    point, state = rules.start()
    notes, due, found = {point: state}, [point], set()
    for _ in range(MOST_POINTS):
        if not due:
            break
        point = due.pop()
        ways = rules.after(point, notes[point])
        if isinstance(ways, Refusal):
            found.add(ways.address if ways.address is not None and ways.reason <= 2 else point.at)
            continue
        for after, state in ways:
            old = notes.get(after)
            if old is None or not below(state, old):
                notes[after] = state if old is None else joined(after, Way(point, old), Way(point, state))
                due.append(after)
    return found
