"""Any command on files of which one is mangled: an answer of the table, the same one twice, and the refusal that other readers give."""
from __future__ import annotations

from typing import Callable, Optional

from cased import Unreadable as BadList, read_list
from companion.auditing.traces import Trace, Unreadable as BadTrace
from companion.description import Description
from companion.script import MOST_BYTES as MOST_SCRIPT, Script
from companion.soaking import assembled, certified, described
from companion.soaking.assembled import OF_MODULES
from companion.soaking.cartridges import drawn
from companion.soaking.commanded import commands_refusal
from companion.soaking.lists import list_of
from companion.soaking.mangling import mangled
from companion.soaking.scripts import end, events, text_of
from companion.soaking.texts import random_bytes, respelled, spelled, listing
from companion.soaking.trials import REFUSALS, Trial
from linked import MODULE_BYTES, PLAN_BYTES, printed
from random_modules import Modules

MOST_STEPS = 60  # of most runs
LONG = 0.004  # of the cases, in which the file is made too long
LIMITS = {'cart': 65_536, 'script': MOST_SCRIPT, 'commands': 65_536, 'plan': PLAN_BYTES, 'file': MODULE_BYTES, 'digits': MODULE_BYTES}
FILES = {'play': ('cart', 'script'), 'ref': ('cart', 'script'), 'debug': ('cart', 'commands'), 'audit': ('cart', 'script', 'trace'),
         'check': ('cart',), 'verify': ('cart', 'cert'), 'prove': ('cart',), 'confirm': ('cart', 'cases'), 'migrate': ('cart',),
         'asm': ('file',), 'dis': ('digits',), 'link': ('plan', 'module')}
OFTEN = ('play', 'ref', 'debug', 'debug', 'audit', 'check', 'verify', 'verify', 'confirm', 'migrate', 'migrate', 'asm', 'asm', 'dis', 'link')
RACKED = ('play', 'debug', 'audit')
SESSION = ('keys 04 30', 'pulse 0', 'step 9', 'run 9', 'break at 0004', 'break romc 05', 'break chip 0', 'break apart', 'clear', 'show regs', 'show chips',
           'mem 2800 4', 'back 3', 'back run 9', 'stored 2800', 'power 5A')


class Unsure(Exception):
    """Nothing is said of a refusal here."""


def anything(trial: Trial) -> None:
    command = trial.random.choice(OFTEN)
    if command == 'link':
        modules(trial)
        return
    files = made(trial, command)
    which = trial.random.choice(FILES[command])
    files[which] = too_long(which, files[which]) if which in LIMITS and trial.random.random() < LONG else mangled(trial.random, files[which])
    names = [trial.put(f'{what}.{"toml" if what == "cart" else "txt"}', files[what]) for what in FILES[command]]
    told = trial.call(command, *names)
    trial.again(told)
    if command == 'asm':
        trial.same(assembled.fault_of(files['file'], told), '', '`asm`')
        return
    try:
        due = refusal_of(command, files)
    except (Unsure, described.Unsure):
        return
    trial.same(told.line if told.status in REFUSALS else None, due, f'refusal by `{command}`')


def too_long(what: str, data: bytes) -> bytes:
    """A file with one byte too many, or just not."""
    filled = data.rstrip(b'\n') + b'\n' if data else b''
    return filled.ljust(LIMITS[what] + 1, b'\n')


def modules(trial: Trial) -> None:
    """A plan with its modules, one of the files mangled, beside the linker that was written apart."""
    files = dict(Modules(trial.random.randrange(1 << 48)).files)
    name = trial.random.choice(sorted(files))
    files[name] = mangled(trial.random, files[name])
    for each, data in files.items():
        trial.put(each, data)
    told = trial.call('link', 'plan')
    trial.again(told)
    lines, status = printed('plan', files)
    trial.same((told.output, told.status), (''.join(f'{line}\n' for line in lines).encode(), status), '`link`')


# ---- files in order, before one is mangled

def made(trial: Trial, command: str) -> dict[str, bytes]:
    found: dict[str, bytes] = {}
    for what in FILES[command]:
        found[what] = MAKERS[what](trial, found)
    return found


def cart(trial: Trial, files: dict[str, bytes]) -> bytes:
    return drawn(trial).encode()


def script(trial: Trial, files: dict[str, bytes]) -> bytes:
    last = f'steps {trial.random.randrange(MOST_STEPS)}' if trial.random.random() < 0.8 else end(trial.random)
    return text_of([*events(trial.random), last], trial.random).encode()


def commands(trial: Trial, files: dict[str, bytes]) -> bytes:
    return text_of(trial.random.choices(SESSION, k=trial.random.randrange(1, 12)), trial.random).encode()


def written(*call: str) -> Callable[[Trial, dict[str, bytes]], bytes]:
    """What the program itself writes on the files so far."""
    def make(trial: Trial, files: dict[str, bytes]) -> bytes:
        return trial.called(*call, *(trial.put(f'own.{what}', data) for what, data in files.items())).output
    return make


def map_as_list(trial: Trial, files: dict[str, bytes]) -> bytes:
    """A certificate as a list of cases, which is sooner there than one of `prove`; the reason against the cartridge where there is none."""
    given = written('check', '--cert')(trial, files)
    return list_of(given.decode()) if given.startswith(b'F8CERT') else given


def asm_text(trial: Trial, files: dict[str, bytes]) -> bytes:
    """A listing that is spelled anew, mostly without its ORG; or a module, mostly without its lines that are for others."""
    is_plain = trial.random.random() < 0.8
    if trial.random.random() < 0.5:
        listed = listing(random_bytes(trial.random))
        return respelled(trial.random, listed.partition('\n')[2] if is_plain else listed).encode()
    given = Modules(trial.random.randrange(1 << 48)).files
    text = given[trial.random.choice([name for name in sorted(given) if name != 'plan'])]
    return b'\n'.join(line for line in text.split(b'\n') if not (is_plain and OF_MODULES.search(line)))


def digits(trial: Trial, files: dict[str, bytes]) -> bytes:
    return spelled(trial.random, random_bytes(trial.random)).encode()


MAKERS: dict[str, Callable[[Trial, dict[str, bytes]], bytes]] = {
    'cart': cart, 'script': script, 'commands': commands, 'trace': written('play', '--trace'), 'cert': written('check', '--cert'),
    'cases': map_as_list, 'file': asm_text, 'digits': digits}


# ---- refusals by other readers

def refusal_of(command: str, files: dict[str, bytes]) -> Optional[str]:
    """The line of refusal that is due, None where the files are in order."""
    if (line := READERS['digits' if 'digits' in files else 'cart'](files)):
        return line
    if 'cart' not in files:
        return None
    if command != 'migrate' and any(described.sources_of(Description.of(files['cart']).values)):
        raise Unsure
    for what in FILES[command][1:]:
        if (line := READERS[what](files)):
            return line
    return described.rack_refusal(files['cart']) if command in RACKED else None


def of_script(files: dict[str, bytes]) -> Optional[str]:
    if len(files['script']) > MOST_SCRIPT:
        return 'error long script'
    fault = Script.of(files['script']).fault
    return f'error script line {fault.line} cause {fault.cause.value}' if fault else None


def of_trace(files: dict[str, bytes]) -> Optional[str]:
    try:
        Trace.of(files['trace'])
    except BadTrace as fault:
        return str(fault)
    return None


def of_cert(files: dict[str, bytes]) -> Optional[str]:
    try:
        certified.read_map(files['cert'], Description.of(files['cart']).split)
    except certified.Unreadable as fault:
        return str(fault)
    return None


def of_cases(files: dict[str, bytes]) -> Optional[str]:
    try:
        read_list(files['cases'])
    except BadList as fault:
        return str(fault)
    return None


def of_digits(files: dict[str, bytes]) -> Optional[str]:
    if len(files['digits']) > LIMITS['digits']:
        return 'error long file'
    plain = files['digits'].translate(None, b' \t\n\r')
    return 'error hex' if len(plain) % 2 or plain.strip(b'0123456789abcdefABCDEF') else None


READERS: dict[str, Callable[[dict[str, bytes]], Optional[str]]] = {
    'cart': lambda files: described.refusal_of(files['cart']), 'script': of_script, 'commands': lambda files: commands_refusal(files['commands']),
    'trace': of_trace, 'cert': of_cert, 'cases': of_cases, 'digits': of_digits}
