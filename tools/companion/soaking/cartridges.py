"""Random descriptions for the cases. Of those that take long to make each serves for some cases, with other bytes in each."""
from __future__ import annotations

import re
from functools import lru_cache
from random import Random

from companion.soaking.trials import Trial
from random_cartridges import code, cartridge, every_instruction, psu_of
from random_sessions import storing

BLOCK = 128  # cases one behind another that have one description to begin with
ROM = re.compile(r'rom = "([0-9a-fA-F]+)"')
NUMBER = re.compile(r'^(vector|ports|base|rom_page|ram_page|ram_pages) = (\d+)$', re.M)
SPLIT = re.compile(r'^split = \[.*\]$', re.M)
NEAR = 12  # about so far from the beginning of a ROM bytes are changed
ENABLE, RETURN, BRANCH, JUMP = '1B', '1C', '90', '29'
# Instructions that a program may have anywhere: none of them fails, leads away or lets interrupts in.
QUIET = ('70', '71', '7F', '1F', '18', '12', '13', '14', '15', '19', '40', '51', '42', '53', '33', '3C', 'C1', 'D2', 'E3', 'F1', '2B', '0A', '62', '6B',
         '4D', '5E', 'A0', 'A4', 'B0', 'B1', 'B4', 'B5', '20{}', '21{}', '22{}', '23{}', '24{}', '25{}', '8402', '9202', '8F02', '2400', '1E', '04', '05', '16',
         '17', '2A28{}', '2A01{}', '8E', '88')
WAITS = (0x7F, 0xBF, 0x5F, 0x2F, 0x2F, 0x1C, 0x1E, 0xF6, 0x55, 0xFE)  # timers that expire after 1 step to 255
RAM = '[[chip]]\nkind = "3853"\npages = ["ram 28"]\n'


def drawn(trial: Trial) -> str:
    """The description of a case."""
    random, pick = trial.random, trial.random.random()
    if pick < 0.62:
        return changed(random, base(trial.seed, trial.number // BLOCK))
    if pick < 0.76:
        return changed(random, storing(random))
    if pick < 0.88:
        return interrupted(random)
    if pick < 0.97:
        return changed(random, straight(random))
    return changed(random, every_instruction(random.randrange(1 << 32)))


@lru_cache(maxsize=2)
def base(seed: int, block: int) -> str:
    return cartridge(Random(f'cartridge {seed} {block}').randrange(1 << 32))


def changed(random: Random, text: str) -> str:
    """A description with some other bytes in its ROMs, mostly few and near their beginning, and seldom with another number."""
    for _ in range(random.choice((0, 0, 0, 1, 1, 2, 4))):
        text = with_byte(random, text)
    if random.random() < 0.04:
        text = with_number(random, text)
    return with_split(random, text) if random.random() < 0.1 else text


def with_byte(random: Random, text: str) -> str:
    roms = list(ROM.finditer(text))
    if not roms:
        return text
    rom = random.choice(roms[:2])
    at = min(int(random.expovariate(1 / NEAR)), len(rom[1]) // 2 - 1)
    place = rom.start(1) + 2 * max(at, 0)
    return f'{text[:place]}{random.randrange(256):02x}{text[place + 2:]}'


def with_number(random: Random, text: str) -> str:
    places = list(NUMBER.finditer(text))
    if not places:
        return text
    place = random.choice(places)
    other = random.choice((0, 4, 8, 12, 0x20, 0x28, 0x100, 0x180, 1024, 2048, random.randrange(65_536)))
    return f'{text[:place.start(2)]}{other}{text[place.end(2):]}'


def with_split(random: Random, text: str) -> str:
    split = f'split = {sorted(random.sample(range(16), random.randrange(4)))}'
    return SPLIT.sub(split, text, 1) if SPLIT.search(text) else text.replace('\n', f'\n{split}\n', 1)


def quiet(random: Random, count: int) -> str:
    """So many instructions, one behind another."""
    return ''.join(piece.format(f'{random.randrange(256):02X}') for piece in random.choices(QUIET, k=count))


def looped(body: str, to: int = 0) -> str:
    """A body with a branch or a jump behind it, to a place in it."""
    back = len(body) // 2 + 1 - to
    return f'{body}{BRANCH}{256 - back:02X}' if back <= 128 else f'{body}{JUMP}{to:04X}'


def interrupted(random: Random) -> str:
    """A loop that lets interrupts in, of a chip with a timer, and a routine at both addresses of its vector."""
    set_up = f'7{random.choice((3, 3, 3, 1, 0))}{{control}}20{random.choice(WAITS):02X}{{timer}}{ENABLE}'
    of_pio = random.random() < 0.4
    set_up = set_up.format(control='BA' if of_pio else 'B6', timer='BB' if of_pio else 'B7')
    to = random.choice((len(set_up) // 2, len(set_up) // 2 - 1, 0))
    body = looped(set_up + quiet(random, random.randrange(1, 14)), to)
    routines = [quiet(random, random.randrange(0, 5)) + random.choice((ENABLE + RETURN, ENABLE + RETURN, RETURN)) for _ in range(2)]
    rom = (body.ljust(0x200, 'F') + routines[0]).ljust(0x300, 'F') + routines[1]
    keys = f'vector = {0x100 | random.randrange(2) << 7}\ninterrupt = true\n'
    psu = f'[[chip]]\nkind = "3851"\nbase = 0\nports = 4\n{"" if of_pio else keys}rom = "{rom}"\n'
    pio = f'[[chip]]\nkind = "3861"\nports = 8\n{keys}' if of_pio else ''
    chips = [psu, pio, RAM * (random.random() < 0.5)]
    random.shuffle(chips)
    return 'format = 2\n' + ''.join(chips)


def straight(random: Random) -> str:
    """A short program of any instructions, with a branch to its beginning, in a 3851 or in a 3853."""
    rom = bytes.fromhex(looped(quiet(random, random.randrange(1, 20)))) if random.random() < 0.5 else code(random, random.randrange(1, 40), [0, 0x28])
    if random.random() < 0.2:
        return f'format = 2\n[[chip]]\nkind = "3853"\npages = ["rom 00", "ram 28-29", "void 01-27"]\nrom = "{rom.hex()}"\n' + (
            '[[chip]]\nkind = "3861"\nports = 4\n' * (random.random() < 0.7))
    return 'format = 2\n' + psu_of(0, 4, bytearray(rom)).lines(2) + RAM * (random.random() < 0.8)
