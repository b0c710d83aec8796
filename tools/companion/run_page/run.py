"""A run of the program as the page shows it: its frames, port writes, stop line and registers."""
from __future__ import annotations

import re
import tempfile
from dataclasses import dataclass, field
from pathlib import Path
from typing import Iterable, Iterator, NamedTuple

from companion.explaining.files import Files
from companion.explaining.lines import Lines
from companion.pictures import Frame, parts
from companion.program import Answer, Fault, Program
from companion.script import MOST_FRAMES, MOST_LINES, End, Event, EventKind, Script
from companion.words import Progress, Refused, status_of

FRAME_PHI = 29_830
CONSOLE_HERTZ = 60  # frames a second of a console whose clock is 1.79 MHz
OUT = re.compile(rb'out (\d+) ([0-9A-F]{2}) ([0-9A-F]{2})\s*')
TOTAL = re.compile(r'total (\d+) instructions (\d+) phi')


class Write(NamedTuple):
    """A byte that a port took, with the clocks at the end of its instruction."""
    phi: int
    port: int
    byte: int


@dataclass
class Run:
    """The lines of a run, by their sorts."""
    script: Script
    stop: str = ''
    status: int = 0
    frames: list[Frame] = field(default_factory=list)
    writes: list[Write] = field(default_factory=list)
    registers: list[str] = field(default_factory=list)  # the lines regs and s00 to s30
    instructions: int = 0
    phi: int = 0
    explanation: list[str] = field(default_factory=list)  # of the stop line

    def take(self, part: bytes | Frame) -> None:
        if isinstance(part, Frame):
            self.frames += [part] * part.whole()
        elif match := OUT.fullmatch(part):
            self.writes.append(Write(int(match[1]), int(match[2], 16), int(match[3], 16)))
        else:
            self.take_line(part.decode('ascii', 'replace').strip())

    def take_line(self, line: str) -> None:
        word = line.partition(' ')[0]
        if word == 'stop':
            self.stop = line
        elif match := TOTAL.fullmatch(line):
            self.instructions, self.phi = int(match[1]), int(match[2])
        elif word == 'regs' or re.fullmatch('s[0-3]0', word):
            self.registers.append(line)

    @property
    def last_frame(self) -> int:
        """The frame at which the script ends the run, or the last that a script can show."""
        return self.script.count if self.script.end is End.FRAMES else MOST_FRAMES

    def events(self, kind: EventKind) -> list[Event]:
        """What the script brought to the run, by frames."""
        return sorted((event for event in self.script.events if event.kind is kind and event.frame * FRAME_PHI <= self.phi),
                      key=lambda event: event.frame)

    def key_bytes(self, frame: int) -> dict[int, int]:
        """The key bytes that were given before a frame, by their ports."""
        return {event.place: event.byte for event in self.events(EventKind.KEYS) if event.frame < frame}

    @property
    def is_done(self) -> bool:
        return self.stop == 'stop done'

    @property
    def is_bus_fault(self) -> bool:
        return ' romc ' in self.stop

    @property
    def stopped_at(self) -> int | None:
        """The address of the instruction that wasn't done, or of the next one at the end."""
        match = re.match(r'regs P=([0-9A-F]{4})', ' '.join(self.registers))
        return int(match[1], 16) if match else None


def showing(data: bytes, script: Script) -> bytes:
    """A script with each frame shown, the first ones where it hasn't room for all. Faults keep their lines in front of what is added."""
    last = script.count if script.end is End.FRAMES else MOST_FRAMES
    new = [frame for frame in range(1, last + 1) if frame not in script.shown]
    room = MOST_LINES - len(script.events) - len(script.shown)
    end = b'\n' if data and not data.endswith(b'\n') else b''
    return data + end + b''.join(b'show %d\n' % frame for frame in new[:max(room, 0)])


def heard(lines: Iterable[bytes], told: Lines, progress: Progress) -> Iterator[bytes]:
    """The lines of a run, which the explanation hears too."""
    for line in lines:
        if line.startswith(b'frame '):
            progress.tell(f'running: {line.decode("ascii", "replace").strip()}')
        told.hear(line)
        yield line


def lines_of(program: Program, cart: str, script: str | Path, run: Run, told: Lines) -> bytes:
    """Takes the lines of a run. What is given back is the line of a refusal, if it is one."""
    progress, refusal = Progress('page'), b''
    with progress.during('running'), program.started('play', cart, script) as child:
        for part in parts(heard(child.stdout, told, progress)):
            if isinstance(part, bytes) and part.startswith(b'error '):
                refusal = part
            run.take(part)
    progress.clear()
    run.status = status_of(child.returncode)
    return refusal


def played(program: Program, cart: str, path: str, names: Iterable[str] = ()) -> Run:
    """The run of a script with its frames shown. What the program refuses raises Fault, with its line about the script itself."""
    data = Path(path).read_bytes()
    script = Script.of(data)
    with tempfile.TemporaryDirectory() as folder:
        more = Path(folder) / 'script.txt'
        more.write_bytes(showing(data, script))
        for words in (more, path):
            run, told = Run(script), Lines()
            refusal = lines_of(program, cart, words, run, told)
            if not refusal:
                break
    if refusal:
        raise Fault(Answer(refusal, run.status))
    if not run.stop:
        raise Refused(f'the program ended with the status {run.status}, and without a line stop')
    run.explanation = told.explained(Files.of([*program.words, 'play', cart, path], list(names)))
    return run
