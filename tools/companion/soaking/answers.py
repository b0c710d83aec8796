"""The table of answers of docs/PROGRAM.md and docs/FORMATS.md: for each command the statuses it may end with, and what it writes with each."""
from __future__ import annotations

import re
from typing import Pattern, Sequence

from companion.soaking.calls import PATIENCE, Told

SOME_SECONDS = 10.0  # of the processor, in which every call is done
SEARCH_SECONDS = 60.0  # the same where a search may run out
SLOW = ('prove',)
BYTE, WORD, CODE, COUNT = '[0-9A-F]{2}', '[0-9A-F]{4}', '[01][0-9A-F]', '(?:0|[1-9][0-9]*)'
SOCKET = '(?:[0-9]|1[0-5])'
RETURN, REASON = f'(?:{WORD}|----)', '(?:[1-9]|1[0-2])'
TRACKED = rf'(?:\.|(?:{BYTE}|--)(?:,(?:{BYTE}|--)){{0,7}})'
POINT = f'{WORD} {RETURN} {TRACKED}'
KEYS = 'kind|base|ports|vector|rom_pages?|ram_pages?|void_pages?|pages|interrupt|fill|start|rom|source'

REFUSALS = {
    'cart': rf'error (?:long cart|cart toml|cart key (?:format|split|chip|\?) cause [1-6]|cart chip {COUNT} key (?:{KEYS}|\?) cause [1-8])',
    'source': f'error (?:long source {COUNT}|asm source {COUNT} line {COUNT} column {COUNT} cause (?:[1-9]|11))',
    'script': f'error (?:long script|script line {COUNT} cause [1-6])',
    'commands': f'error (?:long commands|debug line {COUNT} cause [1-4])',
    'cert': f'error (?:long cert|cert line {COUNT} cause [1-6])',
    'cases': f'error (?:long cases|cases line {COUNT} cause [1-5])',
    'trace': f'error (?:long trace|trace line {COUNT})',
    'file': f'error (?:long file|asm file line {COUNT} column {COUNT} cause (?:[1-9]|11))',
    'digits': 'error (?:long file|hex)',
    'plan': f'error (?:long plan|plan line {COUNT} cause [1-5]|link module {COUNT} cause [1-5])',
    'module': f'error (?:long module {COUNT}|module {COUNT} line {COUNT} column {COUNT} cause (?:[1-8]|11|12))',
    'rack': f'error (?:sockets (?:3851|3853|3861) need {COUNT} have {COUNT}|rack {COUNT})',
}
STORES = {'source': f'source {COUNT}', 'module': f'module {COUNT}', 'digits': 'file'}
FILES = {
    'play': ('cart', 'source', 'script', 'rack'), 'ref': ('cart', 'source', 'script'), 'debug': ('cart', 'source', 'commands', 'rack'),
    'audit': ('cart', 'source', 'script', 'trace', 'rack'), 'check': ('cart', 'source'), 'verify': ('cart', 'source', 'cert'),
    'prove': ('cart', 'source'), 'confirm': ('cart', 'source', 'cases'), 'migrate': ('cart',), 'asm': ('file',), 'link': ('plan', 'module'),
    'dis': ('digits',), 'gen': ('rack',)}

# ---- what is written where nothing is refused

CONFLICT = f'conflict romc {CODE}(?: socket {SOCKET} at {WORD}){{2,}}'
FAULT = f'stop (?:{CONFLICT}|undriven romc {CODE} at {WORD}|astray romc {CODE} socket {SOCKET} at {WORD} reference {WORD})\n'
RESERVED = f'stop reserved {BYTE} at {WORD}\n'
TOTAL = f'total {COUNT} instructions {COUNT} phi\n'
REGS = (f'regs P={WORD} P1={WORD} D0={WORD} D1={WORD} A={BYTE} IS=[0-7]{{2}} W={BYTE}\n'
        + ''.join(f's{row}0(?: {BYTE}){{16}}\n' for row in range(4)) + TOTAL)
OUT, FRAME = f'out {COUNT} {BYTE} {BYTE}\n', f'frame {COUNT} phi {COUNT} tone [0-3]\n(?:[0-3] [0-3]{{128}}\n){{64}}'
STEP = f'bus {CODE} [SL] (?:{BYTE} (?:cpu|-|{SOCKET})|-- fault)\n'
VERDICT = 'verdict (?:whole|agreed|none)\n'
ENDS = {0: 'stop done\n', 3: FAULT, 8: RESERVED}
SHOWN = f'(?:whole|agreed) {COUNT}\n'
ROWS = f'(?:{WORD} (?:{BYTE}){{1,16}}\n)*(?:sym [A-Za-z_][A-Za-z0-9_]* -?{COUNT}\n)*'
COUNTERS = f'PC0={WORD} PC1={WORD} DC0={WORD}'
CHIPS = f'(?:chip {SOCKET} 38(?:51 {COUNTERS}|53 {COUNTERS} DC1={WORD}|61)\n)*probe {COUNTERS} DC1={WORD}\n'
STOP = f'(?:{FAULT}|{RESERVED})'
SESSION = (f'(?:ready\n|{STOP}|ran {COUNT}\n(?:break\n|{STOP})?|{REGS}|{CHIPS}|mem {WORD}(?: (?:{BYTE}|--)){{1,16}}\n|at {COUNT}\n(?:break\n)?'
           f'|stored (?:{COUNT}|none)\n)*')
NUMBERS = f'(?:{WORD})+|----'
BYTES = f'(?:(?:{BYTE})+|--)'
CERT_LINE = f'{POINT} (?:{BYTE}|--) [0-7-]{{2}} [01-]{{5}}(?: {RETURN}){{3}} [01]{{4}} (?:{BYTE}|--){{64}}\n'
CASES_LINE = (f'{WORD} {RETURN} {BYTES} (?:(?:[0-7]{{2}})+|--) [01-]{{5}}(?: (?:{NUMBERS})){{3}} [01]{{4}} (?:[0-7]{{2}}|--)(?: {BYTES}){{64}}\n')
STATEMENT = "[A-Z][A-Z0-9]*(?: [A-Z0-9$,]+)?\n"
GENERATED = f'gen {COUNT}\n{VERDICT}{{stop}}{TOTAL}writes {COUNT} sum {COUNT}\nscratch {COUNT}\n'


def run_form(stop: str, before: str = '', more: str = '') -> str:
    return f'{before}(?:{OUT}|{FRAME}{more})*{stop}{REGS}'


WRITTEN: dict[str, dict[int, str]] = {
    'play': {status: run_form(stop, VERDICT) for status, stop in ENDS.items()},
    'play --trace': {status: run_form(stop, VERDICT, f'|{STEP}') for status, stop in ENDS.items()},
    'ref': {status: run_form(ENDS[status]) for status in (0, 8)},
    'debug': {0: SESSION},
    'audit': {0: f'accept {COUNT}\n', 7: f'reject line {COUNT}\n'},
    'check': {0: SHOWN, 7: f'refused {POINT} {REASON}\n|toomany\n'},
    'check --cert': {0: f'F8CERT 1 {COUNT}\n(?:{CERT_LINE})+', 7: f'refused {POINT} {REASON}\n|toomany\n'},
    'verify': {0: SHOWN, 7: f'notclosed (?:start|{POINT}) to {POINT}\n|unsafe {POINT} {REASON}\n'},
    'prove': {0: SHOWN, 7: rf'unproved {WORD} {RETURN} \. (?:0|{REASON})' + '\n'},
    'prove --cases': {0: f'F8CASES 1 {COUNT}\n(?:{CASES_LINE})+', 7: rf'unproved {WORD} {RETURN} \. (?:0|{REASON})' + '\n'},
    'confirm': {0: SHOWN, 7: rf'notclosed (?:start|{COUNT}) to {WORD} {RETURN} \.' + f'\n|unsafe {COUNT} {REASON}\n'},
    'migrate': {0: '(?s:.*)'},
    'asm': {0: ROWS}, 'link': {0: ROWS},
    'dis': {0: rf'ORG \$0000' + f'\n(?:{STATEMENT})*'},
    'gen': {status: GENERATED.format(stop=stop) for status, stop in ENDS.items()},
}


def forms_of(command: str) -> dict[int, Pattern[bytes]]:
    """By each status what a command may write with it, whatever its words."""
    files = FILES[command.split()[0]]
    stores = '|'.join(STORES.get(what, what) for what in files if what != 'rack')
    refusals = {1: 'error words\n', 2: f'(?:{"|".join(REFUSALS[what] for what in files)})\n'} | ({4: f'error store (?:{stores})\n'} if stores else {})
    return {status: re.compile(form.encode()) for status, form in {**WRITTEN[command], **refusals}.items()}


FORMS = {command: forms_of(command) for command in WRITTEN}
NO_COMMAND = {1: re.compile(b'error words\n')}
FLAGS = {'play': '--trace', 'check': '--cert', 'prove': '--cases'}


def form_name(words: Sequence[str | bytes]) -> str:
    """The command of a call, with its flag where it is there."""
    command = str(words[0]) if words else ''
    before = words[:words.index('--')] if '--' in words else words
    return f'{command} {FLAGS[command]}' if FLAGS.get(command) in before[1:] else command


def fault_in(told: Told) -> str:
    """What of an answer isn't in the table, in words; nothing where all of it is."""
    limit = SEARCH_SECONDS if told.command in SLOW else SOME_SECONDS
    if told.is_ended:
        return f'it was ended after {PATIENCE} seconds, or since it wrote too much'
    if told.seconds > limit:
        return f'it took {told.seconds:.1f} seconds of the processor'
    if told.errors:
        return f'it wrote to standard error: {told.errors[:200]!r}'
    form = FORMS.get(form_name(told.words), NO_COMMAND).get(told.status)
    if form is None:
        return f'it ended with the status {told.status}'
    return '' if form.fullmatch(told.output) else f'what it wrote is not of the status {told.status}'
