"""`migrate` beside a migration that was written apart; and the same cartridge in another format, or with a source in place of its bytes."""
from __future__ import annotations

from companion.description import tomllib
from companion.soaking.cartridges import ROM, drawn
from companion.soaking.trials import REFUSALS, Trial
from migration import migrated
from random_cartridges import described

BYTES_A_LINE = 8


def formats(trial: Trial) -> None:
    text = drawn(trial)
    cart = trial.put('cart.toml', text)
    if trial.random.random() < 0.5:
        told = trial.call('migrate', cart)
        if told.status in REFUSALS:
            return
        trial.same(tomllib.loads(told.output.decode()), migrated(tomllib.loads(text)), '`migrate`')
        same_cartridge(trial, cart, trial.put('new.toml', told.output))
    elif trial.call('check', cart).status not in REFUSALS:
        same_cartridge(trial, cart, trial.put('sourced.toml', sourced(trial, text)))


def same_cartridge(trial: Trial, cart: str, other: str) -> None:
    """Two descriptions have the same certificate, or the same reason against them."""
    trial.same(trial.call('check', '--cert', other).output, trial.call('check', '--cert', cart).output, f'`check --cert {other}`')


def sourced(trial: Trial, text: str) -> str:
    """A description with the bytes of one of its ROMs in a text of its own, where they lie in one piece."""
    chips = [chip for chip in described(text).chips if chip.digits and len(chip.rom) == 1]
    if not chips:
        return text
    chip = trial.random.choice(chips)
    data, first = bytes.fromhex(chip.digits), chip.rom[0].start
    rows = (data[at:at + BYTES_A_LINE] for at in range(0, len(data), BYTES_A_LINE))
    lines = [f' ORG ${first:04X}', *(' DB ' + ','.join(f'${byte:02X}' for byte in row) for row in rows)]
    trial.put('text.f8', ''.join(f'{line}\n' for line in lines))
    at = [match for match in ROM.finditer(text)]
    place = next((match for match in at if match[1].lower() == chip.digits.lower()), None)
    return text if place is None else f'{text[:place.start()]}source = "text.f8"{text[place.end():]}'
