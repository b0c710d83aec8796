"""What the measurements have alike: the program, programs built beside copies of the crates, runs with their processor time, and
descriptions of 3851s."""
from __future__ import annotations

import argparse
import os
import shutil
import statistics
import subprocess
import sys
from dataclasses import dataclass
from pathlib import Path
from typing import Callable, Sequence

TOP = Path(__file__).resolve().parent.parent
sys.path.insert(0, str(TOP / 'tools'))  # where the package `companion` lies; the measurements have from here what they need of it

from companion.crate_list import all_below, crates_listed  # noqa: E402
from companion.words import Refused, count_of, parser_of, run, status_of, waiting  # noqa: E402

__all__ = ['COUNTED', 'Cost', 'INTERRUPTED', 'INTERRUPTED_POINTS', 'MOST_POINTS', 'NAME', 'OwnProgram', 'Refused', 'Run', 'TOP', 'add_program', 'built', 'cost_of', 'count_of',
           'described', 'files', 'median_of_five', 'parser_of', 'psu', 'run', 'run_of']

NAME = 'bench'  # what errors begin with
CRATE = TOP / 'crates/channel_f_main'
PSU_BYTES = 1024
# How much of what a command wrote is told where it isn't what it should be.
TOLD = 2000
# Two loops, one in the other, with 510 instructions behind them: r1 counts 127 times what r0 counts 254 times.
COUNTED = bytes.fromhex('207F5120FE503094FE3194F8') + b'\x2B' * 509 + b'\x90\xFF'
# LIS 1, OUTS 6, EI, and a loop of 250 NOPs and a JMP that lets interrupts in; behind it EI and POP at both addresses of the vector 0100. Each
# of 251 instructions is followed with each of 250 returns and with none, and four behind the vector with each: with the first three 64,004.
INTERRUPTED = (bytes.fromhex('71B61B') + b'\x2B' * 250 + bytes.fromhex('290003' '1B1C')).ljust(0x180, b'\xFF') + bytes.fromhex('1B1C')
INTERRUPTED_POINTS = 64_004
# So many points has COUNTED with r0 and r1 tracked, and a certificate has no more.
MOST_POINTS = 65_536


# ---- runs

@dataclass(frozen=True)
class Run:
    """A run of a program: its processor time in seconds, the most memory of it in MB, what it wrote, and its exit status."""
    seconds: float
    memory: float
    output: str
    status: int


def run_of(words: Sequence[str], is_right: Callable[[Run], bool], keeps: bool = True) -> Run:
    """A run that has to be right. What it writes is given up where it isn't kept."""
    with subprocess.Popen(words, stdout=subprocess.PIPE if keeps else subprocess.DEVNULL, text=True) as child:
        output = child.stdout.read() if keeps else ''
        _, status, usage = os.wait4(child.pid, 0)
        child.returncode = os.waitstatus_to_exitcode(status)
    made = Run(usage.ru_utime + usage.ru_stime, usage.ru_maxrss / 1024, output, status_of(child.returncode))
    if not is_right(made):
        raise Refused(f'the run of {words} tells "{output[:TOLD]}"' + (f' and ends with {made.status}' if made.status else ''))
    return made


def median_of_five(measure: Callable[[], float]) -> float:
    return statistics.median(measure() for _ in range(5))


@dataclass(frozen=True)
class Cost:
    """What five runs took: the median of their seconds of processor time, and the most memory of any, in MB."""
    seconds: float
    memory: float

    def __str__(self) -> str:
        return f'{self.seconds:.3f} seconds of processor time (median of 5), {self.memory:.0f} MB'


def cost_of(words: Sequence[str], is_right: Callable[[Run], bool]) -> Cost:
    runs = [run_of(words, is_right) for _ in range(5)]
    return Cost(statistics.median(made.seconds for made in runs), max(made.memory for made in runs))


# ---- descriptions

def psu(place: int, code: bytes = b'', lines: str = '') -> str:
    """The table of a 3851 with these bytes and lines: the first one lies at 0000, and each further one behind the one before."""
    return f'[[chip]]\nkind = "3851"\nbase = {PSU_BYTES * place}\nports = {4 + 4 * place}\n{lines}rom = "{code.hex().upper()}"\n'


def described(code: bytes, chips: int = 1, lines: str = '', tracked: Sequence[int] = ()) -> str:
    """The description of so many 3851s or more that hold the bytes, and FF behind them. The lines are those of the first."""
    places = range(max(chips, -(-len(code) // PSU_BYTES)))
    tables = [psu(place, code[PSU_BYTES * place:PSU_BYTES * (place + 1)], '' if place else lines) for place in places]
    return f'format = 1\nsplit = {list(tracked)}\n' + ''.join(tables)


def files(folder: Path, cart: str, script: str) -> list[str]:
    """Writes a description and a script; returns their paths."""
    paths = [folder / name for name in ('cart.toml', 'script.txt')]
    for path, text in zip(paths, (cart, script)):
        path.write_text(text)
    return [os.fspath(path) for path in paths]


# ---- programs

def first_run(crate: Path, words: Sequence[str], output: str) -> str:
    """Proves, compiles and links the program of a crate by a first run, which has to write this; returns its path."""
    with waiting(NAME, f'rt builds {crate.name}'):
        done = subprocess.run(['rt', 'run', '--', *words], cwd=crate, capture_output=True, text=True)
    if done.stdout != output:
        raise Refused(f'the program does not run:\n{done.stdout[-TOLD:]}{done.stderr[-TOLD:]}')
    return os.fspath(crate / 'out' / crate.name)


def add_program(parser: argparse.ArgumentParser) -> None:
    parser.add_argument('--program', metavar='PATH', type=Path, help='a built program to measure (default: `rt run` builds it)')


def built(program: Path | None, folder: Path) -> str:
    """The path of the program: the given one, or that of this repository, which is built first."""
    if program is not None:
        return os.fspath(program.absolute())
    cart, _ = files(folder, described(b'\x90\xFF'), '')
    return first_run(CRATE, ['check', cart], 'whole 1\n')


@dataclass(frozen=True)
class OwnProgram:
    """A program that stands on crates of the repository: its name, the crates that it names, and its text."""
    name: str
    uses: Sequence[str]
    text: str

    def write(self, top: Path) -> Path:
        """Writes it beside copies of the crates that it stands on; returns the folder of its crate."""
        listed = crates_listed(TOP)
        needed = all_below(listed, self.uses)
        for crate in needed:
            shutil.copytree(TOP / 'crates' / crate, top / 'crates' / crate)
        kept = {name: uses for name, uses in listed.items() if name in needed}
        lines = [f'{name}: {" ".join(uses)}'.rstrip() for name, uses in [*kept.items(), (self.name, self.uses)]]
        (top / 'crates.txt').write_text('\n'.join(lines) + '\n')
        shutil.copy(TOP / 'HANDLES', top)
        crate = top / 'crates' / self.name
        (crate / 'src').mkdir(parents=True)
        (crate / 'src/main.rt').write_text(self.text.lstrip())
        return crate

    def build(self, top: Path, words: Sequence[str], output: str) -> str:
        """Writes it and builds it by a first run, which has to write this; returns its path."""
        return first_run(self.write(top), words, output)
