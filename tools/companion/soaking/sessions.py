"""`debug` beside fresh sessions that never went further, and beside `play`."""
from __future__ import annotations

from dataclasses import dataclass
from random import Random

from companion.program import Answer
from companion.soaking.cartridges import drawn
from companion.soaking.modelled import Modelled
from companion.soaking.traces import short_script
from companion.soaking.scripts import text_of
from companion.soaking.trials import REFUSALS, Trial
from companion.script import Script
from random_cartridges import described
from random_sessions import command, storing
from stepped import Fresh

COMMANDS = 9
SHORT = 0.6  # of the cases, in which a session is compared with a run alone


@dataclass
class Sessions:
    """The program as fresh sessions call it, by the calls of a case."""
    trial: Trial

    def on_text(self, called: str, text: bytes, *before: str) -> Answer:
        told = self.trial.called(called, *before, self.trial.put('fresh.txt', text))
        return Answer(told.output, told.status)


def sessions(trial: Trial) -> None:
    if trial.random.random() < SHORT:
        beside_play(trial)
    else:
        beside_fresh_ones(trial)


def beside_fresh_ones(trial: Trial) -> None:
    """A session that goes on and back prints what fresh ones print that go on alone."""
    text = storing(trial.random) if trial.random.random() < 0.6 else drawn(trial)
    cart = trial.put('cart.toml', text)
    if trial.call('debug', cart, trial.put('none.txt', '')).status in REFUSALS:
        return
    fresh, commands = Fresh(Sessions(trial), cart, described(text)), []
    for _ in range(COMMANDS):
        commands.append(command(trial.random, fresh))
        fresh.give(commands[-1])
    fresh.flush()
    told = trial.call('debug', cart, trial.put('commands.txt', text_of(commands, trial.random)))
    trial.same(told.output.decode(), ''.join(f'{line}\n' for line in fresh.printed), '`debug` beside fresh sessions')


def beside_play(trial: Trial) -> None:
    """A session with the keys of a script has the registers of its run, also where it went on in pieces and came back."""
    text, lines = drawn(trial), short_script(trial)
    cart = trial.put('cart.toml', text)
    told = trial.call('debug', cart, trial.put('commands.txt', text_of(commands_of(trial.random, lines), trial.random)))
    if told.status in REFUSALS:
        return
    due = Modelled(described(text), Script.of(text_of(lines).encode())).run().decode()
    _, _, behind = due.rpartition('\nstop ')
    registers = behind.partition('\n')[2]
    if not registers.endswith(' 0 phi\n'):  # where reset itself is not served power-on clocks count
        trial.agree(told.output.decode().endswith(registers), f'`debug` has other registers than the run: {told.output[-500:]!r} for {registers!r}')


def commands_of(random: Random, lines: list[str]) -> list[str]:
    """The commands for the lines of a short script: its keys come before the first instruction."""
    words = [line.split() for line in lines]
    power = [f'power {line[1]}' for line in words if line[0] == 'power'] or ['power 00']
    keys = [f'keys {line[3]} {line[4]}' for line in words if line[0] == 'at']
    return [*power, *keys, *steps_of(random, int(words[-1][1]), keys), 'show regs']


def steps_of(random: Random, count: int, keys: list[str]) -> list[str]:
    """So many instructions: at once, in two pieces, or with some that are taken back, and the keys with them where all are."""
    first = random.randrange(count + 1)
    on = [f'step {first}', 'break apart', f'run {count - first}', 'clear']
    return random.choice(([f'step {count}'], [f'run {count}'], [f'step {first}', f'step {count - first}'],
                          [*on, f'step {count}', 'back 1000000', *keys, f'step {count}']))
