"""Random sessions of the debugger, for trials of its steps back: descriptions of loops that store, and commands."""
from __future__ import annotations

from random import Random

from stepped import Fresh


def psu(rom: str, lines: str = '') -> str:
    return f'[[chip]]\nkind = "3851"\nbase = 0\nports = 4\n{lines}rom = "{rom}"\n'


def of(*chips: str) -> str:
    return 'format = 1\n' + ''.join(chips)


RAM = '[[chip]]\nkind = "3853"\nram_page = 0x28\nram_pages = 1\n'
# Loads, stores, moves of counters, ports, and what a test of registers needs. In front stands DCI, and behind a branch to its end.
PIECES = ('2A28{}', '2A28{}', '2A00{}', '17', '17', '17', '16', '2C', '11', '10', '0E', '0F', '7{}', '20{}', 'A4', 'B4', 'A5', '50', '51', '40', '30',
          '88', '8A', '8E', '1F', '24{}', '1B', '27{}', '28{}', '0C')


def storing(random: Random) -> str:
    """A description of a loop that stores, most often in RAM."""
    pieces = ['2A28{}', '7{}', '17', *(random.choice(PIECES) for _ in range(random.randrange(2, 10)))]
    code = ''.join(piece.format({'7{}': f'{random.randrange(16):X}', '27{}': random.choice(('04', '06', '07', '0C')), '28{}': '0000'}
                                           .get(piece, f'{random.randrange(4):02X}')) for piece in pieces)
    back = 256 - (len(code) // 2 + 1 - random.choice((0, 4)))
    return of(psu(f'{code}90{back:02X}', 'interrupt = true\nvector = 0\n' * (random.random() < 0.3)), *[RAM] * (random.random() < 0.9))


def numbered(random: Random) -> int:
    return random.choice((1, 1, 1, 2, 2, 3, 5, 9, 30))


def command(random: Random, fresh: Fresh) -> str:
    """A command; addresses of `stored` are most often those at which something was stored."""
    kind = random.choice(('power', *['keys'] * 3, 'pulse', *['step'] * 6, *['run'] * 4, *['break'] * 4, 'clear', 'show regs', 'show chips', 'mem',
                          *['back'] * 4, *['back run'] * 4, *['stored'] * 3))
    if kind in ('step', 'run'):
        return f'{kind} {random.choice((0, 1, 2, 4, 9, 15, 30))}'
    if kind in ('back', 'back run'):
        return f'{kind} {numbered(random)}'
    if kind == 'break':
        return random.choice((f'break at {random.randrange(20):04X}', f'break romc {random.choice((0, 1, 2, 3, 5, 0xC, 0x1C, 0x1D)):02X}',
                              f'break chip {random.choice((0, 1, 12, 14))}', 'break apart'))
    if kind == 'stored':
        fresh.flush()
        return f'stored {random.choice([*fresh.stored_at(), 0x2800]):04X}'
    return {'power': f'power {random.randrange(256):02X}', 'keys': f'keys {random.choice((0, 1, 4, 5)):02X} {random.randrange(256):02X}',
            'pulse': f'pulse {random.randrange(4)}', 'mem': f'mem {random.choice((0, 0x2800, 0x27F8)):04X} 16'}.get(kind, kind)
