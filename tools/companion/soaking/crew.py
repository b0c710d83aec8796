"""Processes that try cases, each in a folder of its own, and what they found."""
from __future__ import annotations

import os
import resource
import shlex
import shutil
import signal
import traceback
from collections import Counter
from concurrent.futures import FIRST_COMPLETED, Future, ProcessPoolExecutor, wait
from concurrent.futures.process import BrokenProcessPool
from dataclasses import dataclass, field
from itertools import groupby, islice
from multiprocessing import get_context
from pathlib import Path
from random import Random
from typing import Callable, Iterable, Iterator, Sequence

from companion.soaking.calls import Caller, Word
from companion.soaking.cartridges import BLOCK
from companion.soaking.kinds import KINDS, kind_of
from companion.soaking.trials import Differs, Lost, Outcome, Trial
from companion.words import Refused

AHEAD = 3  # pieces of work for each process that are given out before they are asked for
MOST_KEPT = 200  # cases whose files are kept
CALLS = 'calls'  # the file with the calls of a case


@dataclass(frozen=True)
class Finding:
    """A case that was lost or that differed: what came of it, the call, and the folder with its files."""
    number: int
    kind: str
    outcome: Outcome
    what: str
    call: str
    folder: str


@dataclass
class Tally:
    """How many cases of each kind ended how, and those that are to be told."""
    counts: dict[str, Counter[Outcome]] = field(default_factory=dict)
    seconds: Counter[str] = field(default_factory=Counter)  # of the processor, this one's and the program's
    findings: list[Finding] = field(default_factory=list)

    def add(self, other: Tally) -> None:
        for kind, counts in other.counts.items():
            self.counts.setdefault(kind, Counter()).update(counts)
        self.seconds.update(other.seconds)
        self.findings += other.findings

    @property
    def done(self) -> int:
        return sum(counts.total() for counts in self.counts.values())


@dataclass(frozen=True)
class Plan:
    """What every process has to know."""
    program: tuple[str, ...]
    folder: Path  # in which each makes one of its own
    keep: Path
    seed: int


class Worker:
    """One process: its calls, and its folder, which is the one where it is."""

    def __init__(self, plan: Plan):
        self.plan = plan
        folder = plan.folder / str(os.getpid())
        folder.mkdir()
        os.chdir(folder)
        self.caller = Caller(plan.program, plan.folder / f'{os.getpid()}.errors')

    def tally(self, numbers: Iterable[int]) -> Tally:
        found = Tally()
        for number in numbers:
            kind, begun = kind_of(number), processor_time()
            outcome, finding = self.tried(number, kind)
            found.counts.setdefault(kind, Counter())[outcome] += 1
            found.findings += [finding] if finding else []
            found.seconds[kind] += processor_time() - begun
        return found

    def tried(self, number: int, kind: str) -> tuple[Outcome, Finding | None]:
        trial = Trial(self.plan.seed, number, self.caller, Random(f'{self.plan.seed} {number}'))
        outcome, what = ended(trial, KINDS[kind].tried)
        finding = self.kept(trial, kind, outcome, what) if outcome.is_found else None
        trial.take_away()
        return outcome, finding

    def kept(self, trial: Trial, kind: str, outcome: Outcome, what: str) -> Finding:
        """A case with its files in a folder of its own, if not too many are there."""
        folder = self.plan.keep / f'{kind}-{trial.seed}-{trial.number}'
        self.plan.keep.mkdir(parents=True, exist_ok=True)
        is_kept = len(os.listdir(self.plan.keep)) < MOST_KEPT
        if is_kept:
            shutil.rmtree(folder, ignore_errors=True)
            folder.mkdir()
            for name, data in trial.files.items():
                (folder / name).write_bytes(data)
            lines = [f'# {kind}, seed {trial.seed}, case {trial.number}: {outcome.value}', *(f'# {line}' for line in what.splitlines())]
            (folder / CALLS).write_text('\n'.join([*lines, *(told_call(self.plan.program, call) for call in trial.calls)]) + '\n')
        call = told_call(self.plan.program, trial.calls[-1]) if trial.calls else ''
        return Finding(trial.number, kind, outcome, what, call, str(folder) if is_kept else '')


def ended(trial: Trial, tried: Callable[[Trial], None]) -> tuple[Outcome, str]:
    """How a case ended, and what there is to say of it. What this tool itself can't do is a case lost, too."""
    try:
        tried(trial)
    except Differs as found:
        return Outcome.DIFFERED, str(found)
    except Lost as found:
        return Outcome.LOST, str(found)
    except Exception:  # whatever hinders a model, the other cases are tried
        return Outcome.LOST, f'the model failed: {traceback.format_exc().strip()}'
    return (Outcome.REFUSED if trial.is_refused else Outcome.AGREED), ''


def told_call(program: Sequence[str], call: Sequence[Word]) -> str:
    return shlex.join([*program, *(word if isinstance(word, str) else word.decode('latin-1') for word in call)])


def processor_time() -> float:
    return sum(used.ru_utime + used.ru_stime for used in map(resource.getrusage, (resource.RUSAGE_SELF, resource.RUSAGE_CHILDREN)))


# ---- the processes

WORKER: list[Worker] = []  # of this process


def begin(plan: Plan) -> None:
    signal.signal(signal.SIGINT, signal.SIG_IGN)  # the first process ends the others
    WORKER.append(Worker(plan))


def work(numbers: Sequence[int]) -> Tally:
    return WORKER[0].tally(numbers)


def pieces(numbers: Iterable[int]) -> Iterator[list[int]]:
    """The numbers of cases in pieces that go to one process, since they begin with the same description."""
    return (list(group) for _, group in groupby(numbers, key=lambda number: number // BLOCK))


def soak(plan: Plan, numbers: Iterable[int], jobs: int, tell: Callable[[Tally], None], found: Tally) -> None:
    """Tries all cases, some pieces of which are under way at a time, and adds what comes of them to what was found."""
    left = pieces(numbers)
    with ProcessPoolExecutor(jobs, get_context('fork'), initializer=begin, initargs=(plan,)) as pool:
        due: set[Future[Tally]] = {pool.submit(work, piece) for piece in islice(left, AHEAD * jobs)}
        try:
            while due:
                done, due = wait(due, timeout=1, return_when=FIRST_COMPLETED)
                for piece_done in done:
                    found.add(piece_done.result())
                    due |= {pool.submit(work, piece) for piece in islice(left, 1)}
                tell(found)
        except BrokenProcessPool as error:
            raise Refused('a process of this tool was ended by something else') from error
        finally:
            pool.shutdown(cancel_futures=True)
