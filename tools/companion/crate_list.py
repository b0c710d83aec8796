"""The crates of crates.txt and what each stands on."""
from __future__ import annotations

from pathlib import Path
from typing import Iterable, Mapping

from companion.words import TOP


def crates_listed(top: Path = TOP) -> dict[str, list[str]]:
    """The crates of crates.txt in their order, each with those that it names, also those of the toolchain."""
    rows = [line.partition('#')[0].partition(':') for line in (top / 'crates.txt').read_text('utf-8').splitlines()]
    return {name.strip(): uses.split() for name, _, uses in rows if name.strip()}


def all_below(listed: Mapping[str, Iterable[str]], names: Iterable[str]) -> list[str]:
    """Those of the names that are crates of the list, and all that they stand on, lowest first."""
    found: list[str] = []

    def take(name: str) -> None:
        if name in listed and name not in found:
            for use in listed[name]:
                take(use)
            found.append(name)

    for name in names:
        take(name)
    return found
