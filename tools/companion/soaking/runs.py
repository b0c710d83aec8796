"""`play` beside `ref`: the same lines up to a step that isn't served, and none such where the verdict promises it."""
from __future__ import annotations

import re

from companion.soaking.calls import Told
from companion.soaking.cartridges import drawn
from companion.soaking.scripts import end, events, text_of
from companion.soaking.trials import REFUSALS, Trial

FAULT, RESERVED = 3, 8  # statuses
STOP = re.compile(rb'^stop .*$', re.M)
TOTAL = re.compile(rb'total (\d+) instructions (\d+) phi\n\Z')
AT_D0 = re.compile(rb'^stop undriven romc (?:02|06|09) ', re.M)
VERDICTS = 0.1  # of the cases, in which `check` is asked too
SOCKETS = ('error sockets', 'error rack')


def runs(trial: Trial) -> None:
    cart, lines = trial.put('cart.toml', drawn(trial)), events(trial.random)
    script = trial.put('script.txt', text_of([*lines, end(trial.random)], trial.random))
    played = trial.call('play', cart, script)
    if played.status in REFUSALS:
        if not played.line.startswith(SOCKETS):
            trial.same(trial.call('ref', cart, script).output, played.output, 'refusal by `ref`')
        return
    verdict, _, told = played.output.partition(b'\n')
    promised(trial, verdict.decode(), played)
    if trial.random.random() < VERDICTS:
        checked(trial, cart, verdict.decode())
    if played.status == FAULT:
        referred_up_to(trial, cart, lines, told)
        return
    referred = trial.call('ref', cart, script)
    trial.same(referred.output, told, '`ref`')
    trial.same(referred.status, played.status, 'status of `ref`')


def promised(trial: Trial, verdict: str, played: Told) -> None:
    """What docs/CHECKER.md says of the runs of a cartridge by its verdict."""
    if verdict == 'verdict none' or not played.status:
        return
    may_stop = verdict == 'verdict agreed' and played.status == FAULT and AT_D0.search(played.output)
    trial.agree(bool(may_stop), f'a run with `{verdict}` ended with the status {played.status}')


def checked(trial: Trial, cart: str, verdict: str) -> None:
    word = trial.call('check', cart).line.split()[0]
    trial.same(verdict, f'verdict {word if word in ("whole", "agreed") else "none"}', 'verdict of `play`')


def referred_up_to(trial: Trial, cart: str, lines: list[str], told: bytes) -> None:
    """`ref` up to the instruction that wasn't served, of which a run has nothing but the stop line."""
    instructions, phi = TOTAL.search(told).groups()
    if phi == b'0':  # reset itself wasn't served, and without chips it is
        return
    script = trial.put('short.txt', text_of([*lines, f'steps {int(instructions)}']))
    trial.same(trial.call('ref', cart, script).output, STOP.sub(b'stop done', told, count=1), '`ref` up to the stop')
