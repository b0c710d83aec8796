"""The words of the prompt: what each command does, and what is said of it."""
from __future__ import annotations

import re
from dataclasses import dataclass
from pathlib import Path
from typing import Callable, Iterator

from companion.calls import CALLS, Reach, Sort
from companion.debugging.places import Places
from companion.debugging.replay import MOST_STEP, SHOW_CHIPS, asked
from companion.debugging.session import Arrival, Session
from companion.debugging.stops import Break, Watch, Watched
from companion.instructions import ADDRESSES, decoded
from companion.processor import FRAME, KU, letters
from companion.script import Script
from companion.words import Refused

RUN = 100_000  # instructions, where a run has no number
LISTED = 12
MOST_LISTED = 1_000
MOST_HISTORY = 1_000
MOST_MEMORY = 256
LINE_OF_MEMORY = 16


class Quit(Exception):
    """The session is over."""


@dataclass(frozen=True)
class Command:
    """A command of the prompt: its words as the help has them, what it does, and how."""
    words: str
    about: str
    do: Callable[[Prompt, list[str]], Iterator[str]]

    @property
    def name(self) -> str:
        return self.words.split()[0]


def number(words: list[str], default: int, most: int, at: int = 0) -> int:
    """A decimal number among the words of a command."""
    if len(words) <= at:
        return default
    if not re.fullmatch('[0-9]{1,9}', words[at]) or not 1 <= int(words[at]) <= most:
        raise Refused(f'{words[at]} is no number from 1 to {most:,}')
    return int(words[at])


def hexadecimal(text: str, most: int) -> int:
    if not re.fullmatch(r'(?:\$|0x)?[0-9A-Fa-f]{1,2}', text) or int(re.sub(r'^(\$|0x)', '', text), 16) > most:
        raise Refused(f'{text} is no number of one or two hexadecimal digits up to {most:02X}')
    return int(re.sub(r'^(\$|0x)', '', text), 16)


class Prompt:
    """A session with its breaks and watches, and the names of its cartridge."""

    def __init__(self, session: Session, places: Places, reach: Reach):
        self.session, self.places, self.reach = session, places, reach
        self.breaks: list[Break] = []
        self.watches: list[Watch] = []
        self.listed: int | None = None

    def carry_out(self, line: str) -> Iterator[str]:
        """What a line of words prints. What can't be done raises Refused."""
        words = line.split()
        if not words or words[0].startswith('#'):
            return iter(())
        command = command_of(words[0])
        if command.name != 'list':
            self.listed = None
        return command.do(self, words[1:])

    # ---- where the session stands

    def here(self) -> Iterator[str]:
        """The place, and the registers that people look at most."""
        state = self.session.state
        yield self.places.told(state.address)
        counters = ' '.join(f'{name}={value:04X}' for name, value in state.counters.items() if name != 'P')
        yield (f'A={state.a:02X} W={letters(state.status)} IS={state.isar:02o} {counters}, {state.instructions:,} instructions, '
               f'frame {state.phi // FRAME}')

    def arrived(self, arrival: Arrival) -> Iterator[str]:
        yield f'{arrival.count:,} done' + (f': {arrival.why}' if arrival.why else '')
        if self.session.stop:
            yield self.session.stop
            yield 'The session has stopped here: `chips` shows the counters, `back` and `power` lead away.'
        yield from self.here()

    # ---- commands

    def step(self, words: list[str]) -> Iterator[str]:
        yield from self.arrived(self.session.go(number(words, 1, MOST_STEP)))

    def run(self, words: list[str]) -> Iterator[str]:
        yield from self.arrived(self.session.go(number(words, RUN, MOST_STEP), self.breaks, self.watches))

    def until(self, words: list[str]) -> Iterator[str]:
        if words[:1] == ['frame']:
            arrival = self.session.go_to(number(words, 1, 600, 1), self.breaks, self.watches)
        else:
            arrival = self.session.go(RUN, [*self.breaks, self.break_at(self.one(words))], self.watches)
        yield from self.arrived(arrival)
        if words[0] != 'frame' and not arrival.why and not arrival.stop:
            yield f'{words[0]} was not reached; the same once more goes on'

    def over(self, words: list[str]) -> Iterator[str]:
        instruction = decoded(self.places.memory, self.session.state.address)
        if instruction is None or instruction.opcode.flow not in CALLS:
            yield from self.step([])
        else:
            yield from self.arrived(self.session.go(RUN, [*self.breaks, self.break_at(f'{instruction.next:04X}')], self.watches))

    def back(self, words: list[str]) -> Iterator[str]:
        if words[:1] == ['run']:
            arrival = self.session.back_run(number(words, RUN, MOST_STEP, 1), self.breaks)
            yield f'{arrival.count:,} back: {arrival.why or "no break before"}'
        else:
            yield f'{self.session.back(number(words, 1, MOST_STEP)):,} back'
        yield from self.here()

    def stored(self, words: list[str]) -> Iterator[str]:
        address = self.places.address(self.one(words), self.session.state)
        found = self.session.stored(address)
        if found is None:
            yield f'no instruction stored at {address:04X}'
        else:
            yield f'{address:04X} was stored by instruction {found[0]:,} of {self.session.state.instructions:,}'
            yield self.places.told(found[1])

    def one(self, words: list[str]) -> str:
        if len(words) != 1:
            raise Refused('one place is wanted here: a label, an address, or FILE:LINE')
        return words[0]

    def break_at(self, place: str) -> Break:
        address = self.places.address(place, self.session.state)
        return Break(f'at {address:04X}', self.places.name(address))

    def break_of(self, words: list[str]) -> Break:
        if words[:1] == ['at'] and len(words) == 2 or len(words) == 1 and words[0] not in ('romc', 'chip', 'apart'):
            return self.break_at(words[-1])
        if words == ['apart']:
            return Break('apart')
        if words[:1] == ['romc'] and len(words) == 2:
            return Break(f'romc {hexadecimal(words[1], 0x1F):02X}')
        if words[:1] == ['chip'] and len(words) == 2 and re.fullmatch('[0-9]{1,2}', words[1]) and int(words[1]) < 16:
            return Break(f'chip {int(words[1])}')
        raise Refused('a break is `break PLACE`, `break romc RR`, `break chip SOCKET` or `break apart`')

    def add_break(self, words: list[str]) -> Iterator[str]:
        if words:
            self.breaks += [one for one in [self.break_of(words)] if one not in self.breaks]
        yield from self.stops()

    def add_watch(self, words: list[str]) -> Iterator[str]:
        if words:
            self.watches += [one for one in [self.watch_of(words)] if one not in self.watches]
        yield from self.stops()

    def watch_of(self, words: list[str]) -> Watch:
        text = words[0]
        if len(words) == 2 and text.lower() == 'port':
            port = hexadecimal(words[1], 0xFF)
            return Watch(Watched.PORT, f'port {port:02X}', port, self.places.byte)
        if len(words) == 2 and text.lower() in ('ram', 'mem'):
            address = self.places.address(words[1], self.session.state)
            return Watch(Watched.MEMORY, f'{address:04X}', address)
        if len(words) == 1 and re.fullmatch('[rR][0-9]{1,2}', text) and int(text[1:]) < 64:
            return Watch(Watched.SCRATCHPAD, f'r{int(text[1:])}', int(text[1:]))
        if len(words) == 1 and text.upper() in ('A', 'W', 'IS'):
            return Watch(Watched.REGISTER, text.upper())
        if len(words) == 1 and text.upper() in ('P1', 'D0', 'D1'):
            return Watch(Watched.COUNTER, text.upper())
        raise Refused('a watch is one of A, W, IS, P1, D0, D1, r0 to r63, `ram PLACE`, `port PP`')

    def stops(self) -> Iterator[str]:
        """The breaks and watches with their numbers."""
        told = [*(one.told() for one in self.breaks), *(f'watch {one.name}' for one in self.watches)]
        yield from (f'{at}  {text}' for at, text in enumerate(told, 1))
        if not told:
            yield 'no break and no watch'

    def clear(self, words: list[str]) -> Iterator[str]:
        if not words:
            self.breaks, self.watches = [], []
        else:
            both = [*self.breaks, *self.watches]
            gone = both[number(words, 1, len(both)) - 1] if both else None
            self.breaks = [one for one in self.breaks if one is not gone]
            self.watches = [one for one in self.watches if one is not gone]
        yield from self.stops()

    def keys(self, words: list[str]) -> Iterator[str]:
        if len(words) != 2:
            raise Refused('`keys PP HH` gives the port PP the key byte HH')
        self.session.give(f'keys {hexadecimal(words[0], 255):02X} {hexadecimal(words[1], 255):02X}')
        yield from self.here()

    def pulse(self, words: list[str]) -> Iterator[str]:
        if len(words) != 1 or not re.fullmatch('[0-9]{1,2}', words[0]) or int(words[0]) > 15:
            raise Refused('`pulse C` brings a pulse to the chip C, 0 to 15 in the order of the description')
        self.session.give(f'pulse {int(words[0])}')
        yield from self.here()

    def power(self, words: list[str]) -> Iterator[str]:
        self.session.begin(hexadecimal(words[0], 255) if words else self.session.power)
        yield from self.here()

    def script(self, words: list[str]) -> Iterator[str]:
        if len(words) != 1:
            raise Refused('`script FILE` takes the power-on byte and the events of a script')
        script = Script.of(Path(words[0]).read_bytes())
        if script.fault:
            raise Refused(f'{words[0]}, {script.fault.told()}')
        self.session.take(script)
        yield f'{len(script.events)} event' + 's' * (len(script.events) != 1)
        yield from self.here()

    def registers(self, words: list[str]) -> Iterator[str]:
        yield from self.session.state.lines

    def chips(self, words: list[str]) -> Iterator[str]:
        """The counters, and which of them aren't the probe's."""
        lines = self.session.replay([SHOW_CHIPS])[0]
        known = dict(re.findall(r'(\w+)=(\w{4})', lines[-1]))
        for line in lines:
            apart = [name for name, value in re.findall(r'(\w+)=(\w{4})', line) if known[name] != value]
            yield line + (f'  apart: {" ".join(apart)}' if apart else '')

    def memory(self, words: list[str]) -> Iterator[str]:
        address = self.places.address(words[0], self.session.state) if words else self.session.state.counters['D0']
        count = number(words, LINE_OF_MEMORY, MOST_MEMORY, 1)
        asked_for = [f'mem {(address + at) % ADDRESSES:04X} {min(LINE_OF_MEMORY, count - at)}' for at in range(0, count, LINE_OF_MEMORY)]
        yield from (line for lines in self.session.replay(asked_for) for line in lines)

    def list(self, words: list[str]) -> Iterator[str]:
        """The lines around a place; without one those around here, and then those that follow."""
        here = self.session.state.address
        if words:
            start = self.places.address(words[0], self.session.state)
        else:
            start = self.places.before(here, 3) if self.listed is None else self.listed
        marked = {int(one.words.split()[1], 16) for one in self.breaks if one.words.startswith('at ')}
        found = list(self.places.listing(start, number(words, LISTED, MOST_LISTED, 1) + 1))
        if not found:
            raise Refused(f'{start:04X} lies in no ROM')
        self.listed = found[-1][0]
        for at, text in found[:-1] or found:
            yield f'{"*" if at in marked else " "}{">" if at == here else " "} {text}'

    def where(self, words: list[str]) -> Iterator[str]:
        """The place, the returns that registers hold, and by which calls one gets here."""
        state = self.session.state
        yield self.places.told(state.address)
        k = int.from_bytes(state.scratchpad[KU:KU + 2], 'big')
        for name, address in (('the stack register', state.counters['P1']), ('K', k)):
            before = self.reach.before(address)
            behind = f', behind {self.places.told(before.address)}' if before else ''
            yield f'{name}: {self.places.names.full(address)}{behind}'
        ways = self.reach.way_to(state.address, state.counters['P1'])
        yield from ['one way to here:'] * bool(ways)
        yield from (f'    {self.places.told(way.origin)}' + ', and back' * (way.sort is Sort.BACK) for way in ways)

    def history(self, words: list[str]) -> Iterator[str]:
        count = number(words, LISTED, MOST_HISTORY)
        addresses = self.session.addresses(count)
        first = self.session.state.instructions - len(addresses) + 1
        for at, address in enumerate(addresses, first):
            yield f'{at:>8}  {self.places.told(address)}'
        if not addresses:
            yield 'no instruction was done yet'

    def commands(self, words: list[str]) -> Iterator[str]:
        """The commands so far, as `debug` takes them."""
        found = [*self.session.past(), *['step 1'] * bool(self.session.stop)]
        if words:
            with open(words[0], 'x', encoding='ascii') as file:
                file.writelines(line + '\n' for line in found)
            yield f'{len(found)} commands written, with {asked(found):,} instructions'
        else:
            yield from found

    def help(self, words: list[str]) -> Iterator[str]:
        shown = [command_of(words[0])] if words else COMMANDS
        yield from (f'{command.words:<24}{command.about}' for command in shown)
        if not words:
            yield 'PLACE: a label, LABEL+3, FILE:LINE, P1, D0, or hexadecimal digits ($ADD where ADD is a label too). Beginnings of words do.'

    def quit(self, words: list[str]) -> Iterator[str]:
        raise Quit


COMMANDS = [
    Command('step [N]', 'does N instructions, one without a number; breaks and watches are passed over', Prompt.step),
    Command('over', 'does an instruction, and a PI or PK with all up to the address behind it', Prompt.over),
    Command('run [N]', f'goes on to a break, a watch or a stop, N instructions at most ({RUN:,})', Prompt.run),
    Command('until PLACE', 'goes on to a place; `until frame F` to the end of an instruction at which the frame F falls', Prompt.until),
    Command('back [N]', 'goes back N instructions; `back run [N]` to the last break before, by N at most', Prompt.back),
    Command('stored PLACE', 'the last instruction that stored there', Prompt.stored),
    Command('break [PLACE]', 'a break; `break romc RR`, `break chip SOCKET` and `break apart` too; all breaks without a word', Prompt.add_break),
    Command('watch [WHAT]', 'stops behind a change: of A W IS P1 D0 D1, r0 to r63, `ram PLACE`; or a write, of `port PP`', Prompt.add_watch),
    Command('clear [NUMBER]', 'takes away a break or watch, or all', Prompt.clear),
    Command('keys PP HH', 'the key byte of a port', Prompt.keys),
    Command('pulse C', 'a pulse to a chip, in the order of the description', Prompt.pulse),
    Command('power [HH]', 'begins anew from power-on', Prompt.power),
    Command('script FILE', 'begins anew with the power-on byte and the events of a script', Prompt.script),
    Command('regs', 'registers and scratchpad', Prompt.registers),
    Command('chips', 'the counters of each chip and of the probe', Prompt.chips),
    Command('mem [PLACE [N]]', 'N bytes from a place on, else 16 from D0 on', Prompt.memory),
    Command('list [PLACE [N]]', 'instructions from a place on, else around here, and then those that follow', Prompt.list),
    Command('where', 'this place, the returns in the stack register and K, and by which calls one gets here', Prompt.where),
    Command('history [N]', 'the last instructions that were done', Prompt.history),
    Command('commands [FILE]', 'the commands so far as `debug` takes them, into a file where it is named', Prompt.commands),
    Command('help [WORD]', 'these lines', Prompt.help),
    Command('quit', 'the end', Prompt.quit)]
ALIASES = {'s': 'step', 'r': 'run', 'c': 'run', 'continue': 'run', 'b': 'break', 'w': 'watch', 'l': 'list', 'h': 'help', 'p': 'regs',
           'next': 'over', 'n': 'over', 'breaks': 'break', 'watches': 'watch', 'exit': 'quit', '?': 'help'}


def command_of(word: str) -> Command:
    """A command by its name or the beginning of one."""
    name = ALIASES.get(word.lower(), word.lower())
    found = [command for command in COMMANDS if command.name == name] or [command for command in COMMANDS if command.name.startswith(name)]
    if len(found) != 1:
        raise Refused(f'{word} is no command, `help` has all' if not found else
                      f'{word} may be {" or ".join(command.name for command in found)}')
    return found[0]
