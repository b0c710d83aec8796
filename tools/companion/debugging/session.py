"""Where a session stands, and how it goes on and back: by replays of `debug` from power-on."""
from __future__ import annotations

from dataclasses import dataclass, field
from typing import Callable, Iterator

from companion.debugging.replay import (MOST_BYTES, MOST_INSTRUCTIONS, MOST_STEP, SHOW_REGS, Ran, Returned, State, asked, carry_out, steps,
                                        text_of)
from companion.debugging.stops import Break, Sample, Watch
from companion.processor import FRAME
from companion.program import Program
from companion.script import Event, Script
from companion.words import Refused

LEAST_PHI, MOST_PHI = 4, 46  # of an instruction, with an interrupt at its end
SAMPLES = 128  # in a search for the instruction at which a frame falls


@dataclass(frozen=True)
class Move:
    """Something that changed the machine: instructions, or what came from outside between two of them."""
    count: int = 0  # of instructions
    command: str = ''
    is_scripted: bool = False  # it comes by itself at its frame

    def commands(self) -> list[str]:
        return [self.command] if self.command else steps(self.count)


@dataclass(frozen=True)
class Arrival:
    """How a run ended: behind how many instructions, in which state, and by what."""
    count: int
    state: State | None = None
    why: str = ''
    stop: str = ''


def command_of(event: Event) -> str:
    """The event as a command of the debugger."""
    return event.line().split(' ', 2)[2]


@dataclass
class Session:
    """The moves since power-on, and the state behind them."""
    program: Program
    cart: str
    power: int = 0
    moves: list[Move] = field(default_factory=list)
    events: list[Event] = field(default_factory=list)  # of a script, by their frames
    stop: str = ''
    state: State | None = None
    tell: Callable[[str], None] = lambda text: None

    def begin(self, power: int) -> None:
        """Power-on and reset; what comes at frame 0 comes with it."""
        self.power, self.moves, self.stop = power, [], ''
        self.moves = self.scripted(0)
        self.look()

    def scripted(self, frame: int) -> list[Move]:
        """What comes at a frame by the script."""
        return [Move(command=command_of(event), is_scripted=True) for event in self.events if event.frame == frame]

    def take(self, script: Script) -> None:
        """A script's power-on byte, and its events from frame 0 on."""
        self.events = sorted(script.events, key=lambda event: event.frame)
        self.begin(script.power or 0)

    def past(self, moves: list[Move] | None = None) -> list[str]:
        """The commands that lead here, or that carry out some of the moves."""
        found, pending = [f'power {self.power:02X}'], 0
        for move in [*(self.moves if moves is None else moves), Move()]:
            if move.count:
                pending += move.count
                continue
            found += steps(pending)
            pending = 0
            found += [move.command] if move.command else []
        return found

    def replay(self, commands: list[str], past: list[str] | None = None) -> list[list[str]]:
        """What commands print behind the past. An instruction that stopped the session is tried again."""
        before = [*self.past(), *['step 1'] * bool(self.stop)] if past is None else past
        return carry_out(self.program, self.cart, [*before, *commands])[len(before):]

    def look(self) -> None:
        """Asks for the state, and whether reset was served."""
        lines = self.replay([SHOW_REGS, 'step 0'])
        self.state = State.of(lines[0])
        self.stop = self.stop or Ran.of(lines[1]).stop

    def due(self) -> Event | None:
        """The next event of the script."""
        return next((event for event in self.events if event.frame * FRAME > self.state.phi), None)

    def go(self, count: int, breaks: list[Break] = (), watches: list[Watch] = ()) -> Arrival:
        """Goes on for so many instructions, unless a break, a watch or a stop ends it. The script's events come at their frames."""
        done, arrival = 0, Arrival(0)
        while done < count and not self.stop:
            part = self.before_event(count - done)
            arrival = self.search(part or count - done, breaks, watches)
            done += arrival.count
            self.stop, self.state = arrival.stop, arrival.state
            self.moves += [Move(arrival.count)] * (arrival.count > 0)
            if part is not None and arrival.count == part:
                self.let_events_come()
            if arrival.why:
                break
        return Arrival(done, self.state, arrival.why, self.stop)

    def give(self, command: str) -> None:
        """Keys or a pulse between two instructions."""
        if self.stop:
            raise Refused('the session has stopped, and nothing reaches its chips any more')
        self.moves.append(Move(command=command))

    def let_events_come(self) -> None:
        self.moves += self.scripted(self.state.phi // FRAME)

    def before_event(self, count: int) -> int | None:
        """How many instructions there are up to the next frame at which the script has something, where it is within reach."""
        event = self.due()
        return None if event is None else self.count_to(event.frame, count)

    def count_to(self, frame: int, limit: int) -> int | None:
        """How many instructions there are up to a frame, if not more than the limit."""
        needed = frame * FRAME - self.state.phi
        least, most = max(needed // MOST_PHI, 1), -(-needed // LEAST_PHI)
        if least > limit:
            return None
        while most > least:
            self.tell(f'frame {frame} falls {least:,} to {most:,} instructions from here: looking closer')
            least, most = self.narrowed(least, most, frame * FRAME)
        return most if most <= limit else None

    def go_to(self, frame: int, breaks: list[Break], watches: list[Watch]) -> Arrival:
        """Goes on to the instruction at whose end a frame falls."""
        done, arrival = 0, Arrival(0)
        while self.state.phi < frame * FRAME and not self.stop:
            event = self.due()
            count = self.count_to(min(frame, event.frame) if event else frame, MOST_STEP)
            arrival = self.go(MOST_STEP if count is None else count, breaks, watches)
            done += arrival.count
            if arrival.why:
                break
        return Arrival(done, self.state, arrival.why, self.stop)

    def narrowed(self, least: int, most: int, phi: int) -> tuple[int, int]:
        """A closer range for the first count of instructions behind which the clocks are at phi or further."""
        stride = max((most - least) // SAMPLES, 1)
        counts = [*range(least, most, stride), most]
        commands, at = [], 0
        for count in counts:
            commands += [*steps(count - at), SHOW_REGS]
            at = count
        states = [State.of(lines) for lines in self.replay(commands) if len(lines) == 6]
        begun = self.state.instructions
        if states[-1].phi < phi:
            return most, most  # the session stops before
        first = next(at for at, state in enumerate(states) if state.phi >= phi)
        return (counts[first - 1] + 1 if first else least), states[first].instructions - begun

    def search(self, count: int, breaks: list[Break], watches: list[Watch]) -> Arrival:
        """How far a run comes: each break is tried by itself, no further than the first so far; then the instructions are watched."""
        best = Arrival(count)
        for one in breaks:
            *_, ended, shown = self.replay([*one.commands, f'run {best.count}', SHOW_REGS])
            ran = Ran.of(ended)
            if ran.is_break:
                best = Arrival(ran.count, State.of(shown), one.told())
        return self.watched(best, watches) if watches else self.reached(best)

    def reached(self, arrival: Arrival) -> Arrival:
        """The state there, or behind fewer instructions, where the session stops before."""
        if arrival.why:
            return arrival
        *ended, shown = self.replay([*steps(arrival.count), SHOW_REGS])
        ran = [Ran.of(lines) for lines in ended]
        return Arrival(sum(one.count for one in ran), State.of(shown), stop=next((one.stop for one in ran if one.stop), ''))

    def watched(self, limit: Arrival, watches: list[Watch]) -> Arrival:
        """The first instruction behind which a watch is met, in portions for which a file of commands has room."""
        done = 0
        while done < limit.count:
            portion = list(self.portion(limit.count - done, done, watches))
            for before, after in zip(portion, portion[1:]):
                if not after.ran:
                    return self.reached(limit)
                done += 1
                told = [watch.told(before, after) for watch in watches if watch.is_met(before, after)]
                if told:
                    return Arrival(done, after.state, ', '.join(told))
            self.tell(f'{done:,} instructions watched')
        return self.reached(limit)

    def portion(self, count: int, done: int, watches: list[Watch]) -> Iterator[Sample]:
        """Samples between the instructions from a place on, as many as there is room for."""
        past = [*self.past(), *steps(done)]
        probes = list(dict.fromkeys([SHOW_REGS, *(probe for watch in watches for probe in watch.probes)]))
        room = (MOST_BYTES - len(text_of([*past, *probes]))) // len(text_of(['step 1', *probes]))
        if room < 1:
            raise Refused('the commands so far leave no room for a watch: begin anew with `power`')
        commands = [*probes, *['step 1', *probes] * min(room, count)]
        return samples(commands, self.replay(commands, past), probes)

    def back(self, count: int) -> int:
        """Goes back as the program does: the last instructions are left out, with what came from outside behind the earlier ones, but for
        what a script has there. Returns how many instructions there were."""
        count = min(count, self.state.instructions)
        earlier, behind = self.kept(count)
        commands = [f'back {max(count, 1)}', *(move.command for move in behind)]
        if asked([*self.past(), *commands]) < MOST_INSTRUCTIONS:
            *_, shown, ended = self.replay([*commands, SHOW_REGS, 'step 0'])
        else:
            shown, ended = self.replay([SHOW_REGS, 'step 0'], self.past([*earlier, *behind]))
        self.moves = [*earlier, *behind]
        self.state, self.stop = State.of(shown), Ran.of(ended).stop
        return count

    def kept(self, count: int) -> tuple[list[Move], list[Move]]:
        """The moves up to the last instruction that stays, where so many are left out, and those of the script behind it."""
        earlier, _ = self.parted(count)
        behind: list[Move] = []
        while earlier and not earlier[-1].count:
            behind.insert(0, earlier.pop())
        return earlier, [move for move in behind if move.is_scripted]

    def back_run(self, count: int, breaks: list[Break]) -> Arrival:
        """Goes back to the last instruction before that met a break, by so many at most. Each break is looked for by itself, no further
        back than the last one that was found."""
        here = self.state.instructions
        best, why = max(here - count, 0), ''
        for one in breaks if here > best else ():
            found = Returned.of(self.replay([*one.commands, f'back run {here - best}'])[-1])
            if found.is_break and (found.at > best or not why):
                best, why = found.at, one.told()
        return Arrival(self.back(here - best), self.state, why)

    def stored(self, address: int) -> tuple[int, int] | None:
        """The last instruction that stored at an address: its number and its own address."""
        word = self.replay([f'stored {address:04X}'])[0][0].split()[1]
        if word == 'none':
            return None
        earlier, _ = self.parted(self.state.instructions - int(word) + 1)
        return int(word), State.of(self.replay([SHOW_REGS], self.past(earlier))[0]).address

    def parted(self, count: int) -> tuple[list[Move], list[Move]]:
        """The moves before the last instructions, and those from there on."""
        earlier, later, left = list(self.moves), [], count
        while left and earlier:
            move = earlier.pop()
            part = min(move.count, left)
            earlier += [Move(move.count - part)] * (move.count > part)
            later.insert(0, Move(part) if move.count else move)
            left -= part
        return earlier, later

    def addresses(self, count: int) -> list[int]:
        """The addresses of the last instructions that were done."""
        earlier, later = self.parted(count)
        commands: list[str] = []
        for move in later:
            commands += [SHOW_REGS, 'step 1'] * move.count if move.count else move.commands()
        lines = self.replay(commands, self.past(earlier))
        return [State.of(told).address for command, told in zip(commands, lines) if command == SHOW_REGS]


def samples(commands: list[str], lines: list[list[str]], probes: list[str]) -> Iterator[Sample]:
    """The samples that a list of commands gives: the first one before any instruction, and then one behind each."""
    ran, state, memory = 0, None, {}
    for command, told in zip(commands, lines):
        if command == 'step 1':
            ran = Ran.of(told).count
        elif command == SHOW_REGS:
            state, memory = State.of(told), {}
        else:
            memory[command] = told[0].split()[-1]
        if command == probes[-1]:
            yield Sample(state, memory, ran)
