"""What was found, as a table of the kinds of cases, and a line or two for each case that is to be told."""
from __future__ import annotations

from typing import Iterator

from companion.soaking.crew import Tally
from companion.soaking.kinds import KINDS
from companion.soaking.trials import Outcome

COLUMNS = ('kind', 'cases', 'agreed', 'refused', 'lost', 'differed')
MOST_TOLD = 400  # characters of what is told of a case


def table(found: Tally) -> Iterator[str]:
    rows = [COLUMNS, *(row(kind, found) for kind in KINDS if kind in found.counts)]
    rows.append(('all', *(f'{sum(int(cells[at].replace(",", "")) for cells in rows[1:]):,}' for at in range(1, len(COLUMNS)))))
    widths = [max(len(cells[at]) for cells in rows) for at in range(len(COLUMNS))]
    for cells in rows:
        yield '  '.join([f'{cells[0]:<{widths[0]}}', *(f'{cell:>{width}}' for cell, width in zip(cells[1:], widths[1:]))])


def row(kind: str, found: Tally) -> tuple[str, ...]:
    counts = found.counts[kind]
    return kind, f'{counts.total():,}', *(f'{counts[outcome]:,}' for outcome in Outcome)


def findings(found: Tally, seed: int) -> Iterator[str]:
    """Each case with its seed, its number, what came of it, and the call that shows it."""
    for finding in sorted(found.findings, key=lambda finding: finding.number):
        yield ''
        yield f'{finding.kind}, seed {seed}, case {finding.number}: {finding.outcome.value}'
        yield f'    {finding.what.splitlines()[-1][:MOST_TOLD]}' if finding.what else '    nothing is known of it'
        yield f'    cd {finding.folder} && {finding.call}' if finding.folder else f'    {finding.call}'


def times(found: Tally) -> str:
    """How long a case of each kind takes, on average."""
    told = (f'{kind} {1000 * seconds / found.counts[kind].total():.1f}' for kind, seconds in found.seconds.items())
    return 'milliseconds of the processor for a case: ' + ', '.join(told)
