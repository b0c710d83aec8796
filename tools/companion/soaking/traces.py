"""`play --trace` beside a model of chips and processor, and `audit` of what it wrote, whole and with a change, beside another auditor."""
from __future__ import annotations

from audited import altered, answer
from companion.script import Script
from companion.soaking.cartridges import drawn
from companion.soaking.modelled import Modelled
from companion.soaking.scripts import PORTS, events, text_of
from companion.soaking.trials import REFUSALS, Trial
from random_cartridges import described

STEPS = b'bus '
LONG = 0.03  # of the cases, whose runs show a frame
PLAIN = 0.2  # of the cases, in which a run without its steps is asked for too
MOST_STEPS, MANY = 80, 400  # instructions, mostly and now and then


def short_script(trial: Trial) -> list[str]:
    """The lines of a script that shows no frame and whose run ends before the first."""
    random = trial.random
    lines = [f'power {random.randrange(256):02X}'] * (random.random() < 0.5)
    lines += [f'at 0 keys {random.choice(PORTS):02X} {random.randrange(256):02X}' for _ in range(random.choice((0, 1, 2)))]
    return [*lines, f'steps {random.randrange(MANY if random.random() < 0.1 else MOST_STEPS)}']


def long_script(trial: Trial) -> list[str]:
    """The lines of a script whose run shows frames, with keys and pulses between them. The model takes long for it."""
    return [*events(trial.random), 'show 1', 'frames 2' if trial.random.random() < 0.3 else 'frames 1']


def traces(trial: Trial) -> None:
    text, lines = drawn(trial), long_script(trial) if trial.random.random() < LONG else short_script(trial)
    cart, script = trial.put('cart.toml', text), trial.put('script.txt', text_of(lines))
    played = trial.call('play', '--trace', cart, script)
    if played.status in REFUSALS:
        return
    told = played.output.partition(b'\n')[2]
    model = Modelled(described(text), Script.of(trial.files[script]))
    trial.same(told, model.run(), '`play --trace`')
    if trial.random.random() < PLAIN:
        without = b''.join(line for line in played.output.splitlines(True) if not line.startswith(STEPS))
        trial.same(trial.call('play', cart, script).output, without, '`play` without `--trace`')
    trace = trial.put('trace.txt', played.output if trial.random.random() < 0.5 else steps_alone(played.output))
    accepted = trial.call('audit', cart, script, trace)
    trial.same((accepted.line, accepted.status), (f'accept {model.count}', 0), '`audit` of the trace')
    changed(trial, cart, script, trial.files[trace])


def steps_alone(told: bytes) -> bytes:
    return b''.join(line for line in told.splitlines(True) if line.startswith(STEPS))


def changed(trial: Trial, cart: str, script: str, trace: bytes) -> None:
    """The trace with one change in it. The other auditor tells where it can't be."""
    what, lines = altered(trial.random, trace.splitlines())
    data = b''.join(line + b'\n' for line in lines)
    told = trial.call('audit', cart, script, trial.put('changed.txt', data))
    due = answer(described(trial.files[cart].decode()), trial.files[script], data)
    trial.same((told.line, told.status), due, f'`audit` with {what}')
