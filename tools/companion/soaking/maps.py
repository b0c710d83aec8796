"""`check` with its certificate, beside `verify` and the companions' search; and certificates with a change, beside another judge."""
from __future__ import annotations

from random import Random
from typing import Optional

from companion.certificates import certificate
from companion.description import Description
from companion.memory import Memory
from companion.rules import Rules
from companion.search import Search, Verdict
from companion.soaking.calls import Told
from companion.soaking.cartridges import drawn
from companion.soaking.certified import verified
from companion.soaking.trials import REFUSALS, Trial
from cased import status_of
from random_cartridges import described

MOST_STEPS = 150  # of a search, which is given up behind them
MOST_POINTS = 60  # of a certificate that is changed
FACTS, SCRATCHPAD = 9, 10  # their places among the fields


class GivenUp(Exception):
    """A search has taken too many steps."""


class Ticks:
    def __init__(self, most: int):
        self.left = most

    def __call__(self) -> None:
        self.left -= 1
        if self.left < 0:
            raise GivenUp


def maps(trial: Trial) -> None:
    text = drawn(trial)
    cart = trial.put('cart.toml', text)
    told = trial.call('check', cart)
    if told.status in REFUSALS:
        return
    given = trial.call('check', '--cert', cart)
    description = described(text)
    is_shown = certificate_of(trial, cart, told, given)
    due = searched(description)
    if due is not None:
        trial.same(told.line, due[0], '`check`')
        trial.same(given.output, due[1].encode(), '`check --cert`')
    if is_shown and given.output.count(b'\n') <= MOST_POINTS:
        changed(trial, cart, description, given.output)


def certificate_of(trial: Trial, cart: str, told: Told, given: Told) -> bool:
    """Whether there is a certificate, which `verify` finds to be what `check` said."""
    trial.same(given.status, told.status, 'status of `check --cert`')
    if told.status:
        trial.same(given.output, told.output, '`check --cert`')
        return False
    found = trial.call('verify', cart, trial.put('cart.cert', given.output))
    trial.same((found.line, found.status), (told.line, 0), '`verify`')
    return True


def searched(description: Description) -> Optional[tuple[str, str]]:
    """What `check` writes, and what with `--cert`, by the companions' search where it is a short one."""
    search = Search(Rules(Memory(description.chips), description.split))
    try:
        search.run(Ticks(MOST_STEPS))
    except GivenUp:
        return None
    line = search.line()
    return line, certificate(search.notes) if search.verdict in (Verdict.WHOLE, Verdict.AGREED) else f'{line}\n'


# ---- changes

def changed(trial: Trial, cart: str, description: Description, text: bytes) -> None:
    data = other(trial.random, text.decode()).encode()
    told = trial.call('verify', cart, trial.put('changed.cert', data))
    due = verified(description, data)
    trial.same((told.line, told.status), (due, status_of(due)), '`verify` of a changed certificate')


def other(random: Random, text: str) -> str:
    """A certificate with a field changed, mostly so that it says less; or with a line less, or two in another order."""
    head, *lines = text.splitlines()
    place, pick = random.randrange(len(lines)), random.random()
    if pick < 0.1:
        del lines[place]
        head = f'F8CERT 1 {len(lines)}' if random.random() < 0.9 else head
    elif pick < 0.15:
        lines[place], lines[place - 1] = lines[place - 1], lines[place]
    else:
        lines[place] = with_field(random, lines[place])
    return ''.join(f'{line}\n' for line in (head, *lines))


def with_field(random: Random, line: str) -> str:
    words = line.split(' ')
    at = random.choice((0, 1, 2, 3, 4, 5, 6, 7, 8, FACTS, FACTS, SCRATCHPAD, SCRATCHPAD, SCRATCHPAD))
    words[at] = with_piece(random, words[at]) if at == SCRATCHPAD else with_character(random, words[at], at)
    return ' '.join(words)


def with_piece(random: Random, registers: str) -> str:
    """The scratchpad with one byte lost or changed; mostly one that is known."""
    known = [at for at in range(0, len(registers), 2) if registers[at] != '-']
    at = random.choice(known) if known and random.random() < 0.8 else random.randrange(0, len(registers), 2)
    return registers[:at] + random.choice(('--', '--', f'{random.randrange(256):02X}', f'{random.randrange(256):02x}')) + registers[at + 2:]


def with_character(random: Random, word: str, at: int) -> str:
    if at == FACTS or random.random() < 0.4:
        place = random.randrange(len(word))
        return word[:place] + random.choice('01' if at == FACTS else '0123456789ABCDEFabcdef-,.') + word[place + 1:]
    return '-' * len(word)
