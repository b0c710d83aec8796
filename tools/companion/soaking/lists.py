"""`prove` with its list of cases, beside `check` and `confirm`; a certificate as a list; and lists with a change, beside another judge."""
from __future__ import annotations

from functools import lru_cache
from random import Random

from case_lists import changed, list_of_opcodes
from cased import Entry, Remembering, line_of, read_list, status_of, text_of
from companion.soaking.calls import Told
from companion.soaking.cartridges import drawn
from companion.soaking.runs import promised
from companion.soaking.scripts import end, events, text_of as script_text
from companion.soaking.trials import REFUSALS, Trial
from random_cartridges import described

MOST_ENTRIES = 16  # of a list that is changed and judged anew
MOST_POINTS = 2000  # of a certificate that is written as a list
BLOCK = 1 << 14  # cases that have one list of opcodes to begin with
RANKS = {'whole': 2, 'agreed': 1}
ANY_ISAR = '--'
NO_ENTRY = 'error cases line 1 cause 2'


def lists(trial: Trial) -> None:
    text = drawn(trial)
    cart = trial.put('cart.toml', text)
    checked = trial.call('check', cart)
    if checked.status in REFUSALS:
        return
    told = trial.call('prove', cart)
    trial.agree(rank(told) >= rank(checked), f'`prove` said {told.line!r} where `check` said {checked.line!r}')
    given = trial.call('prove', '--cases', cart)
    trial.same(given.status, told.status, 'status of `prove --cases`')
    if told.status:
        trial.same(given.output, told.output, '`prove --cases`')
    else:
        confirm(trial, cart, told, given)
        played(trial, cart, told)
    if not checked.status:
        as_list(trial, cart, checked)


def rank(told: Told) -> int:
    return RANKS.get(told.line.split()[0], 0)


def confirm(trial: Trial, cart: str, told: Told, given: Told) -> None:
    found = trial.call('confirm', cart, trial.put('cart.cases', given.output))
    trial.same((found.line, found.status), (told.line, 0), '`confirm`')
    if given.output.count(b'\n') <= MOST_ENTRIES:
        judge = Remembering(described(trial.files[cart].decode()))
        changed_list(trial, cart, judge, read_list(given.output))


def played(trial: Trial, cart: str, told: Told) -> None:
    """A run does what the list promises of all of them."""
    found = trial.call('play', cart, trial.put('script.txt', script_text([*events(trial.random), end(trial.random)])))
    if found.status not in REFUSALS:
        promised(trial, f'verdict {told.line.split()[0]}', found)


def changed_list(trial: Trial, cart: str, judge: Remembering, entries: list[Entry]) -> None:
    """A list with one change. The judge has seen the other entries, where it is kept."""
    by_line = {line_of(entry): entry for entry in changed(trial.random, entries)}
    lines = sorted(by_line)
    data = ''.join(f'{line}\n' for line in (f'F8CASES 1 {len(lines)}', *lines)).encode()
    told = trial.call('confirm', cart, trial.put('changed.cases', data))
    due = judge.answer([by_line[line] for line in lines]) if lines else NO_ENTRY
    trial.same((told.line, told.status), (due, status_of(due)), '`confirm` of a changed list')


# ---- certificates as lists

def as_list(trial: Trial, cart: str, checked: Told) -> None:
    """The states of a certificate as entries, which show what it shows."""
    given = trial.call('check', '--cert', cart).output.decode()
    if given.count('\n') > MOST_POINTS:
        return
    told = trial.call('confirm', cart, trial.put('map.cases', list_of(given)))
    trial.same((told.line.split()[0], told.status), (checked.line.split()[0], 0), '`confirm` of the certificate as a list')


def list_of(certificate: str) -> bytes:
    """A list with the states of a certificate, as far as two of them differ but by what is tracked."""
    entries = sorted(set(map(entry_line, certificate.splitlines()[1:])))
    return ''.join(f'{line}\n' for line in (f'F8CASES 1 {len(entries)}', *entries)).encode()


def entry_line(line: str) -> str:
    at, back, _, a, isar, status, d0, d1, c, facts, scratchpad = line.split(' ')
    registers = (scratchpad[place:place + 2] for place in range(0, len(scratchpad), 2))
    return ' '.join([at, back, a, isar_numbers(isar), status, d0, d1, c, facts, '--', *registers])


def isar_numbers(digits: str) -> str:
    """All numbers that two octal digits allow, of which each may be lost."""
    highs, lows = (digit if digit != '-' else '01234567' for digit in digits)
    return ANY_ISAR if digits == '--' else ''.join(high + low for high in highs for low in lows)


# ---- lists over all opcodes

@lru_cache(maxsize=1)
def of_opcodes(seed: int, block: int) -> tuple[str, list[Entry], Remembering]:
    cart, entries = list_of_opcodes(Random(f'opcodes {seed} {block}').randrange(1 << 32))
    entries = read_list(text_of(entries))
    judge = Remembering(described(cart))
    judge.answer(entries)
    return cart, entries, judge


def opcodes(trial: Trial) -> None:
    """A list that has an entry at each of a third of the opcodes, with changes."""
    cart, entries, judge = of_opcodes(trial.seed, trial.number // BLOCK)
    for _ in range(trial.random.choice((0, 0, 1, 2))):
        entries = read_list(text_of(changed(trial.random, entries)))
    changed_list(trial, trial.put('cart.toml', cart), judge, entries)
