"""Where the names of a description's sources begin: in the folder in which the program is started."""
from __future__ import annotations

from pathlib import Path

from companion.description import Description


def home_of(cart: str | Path) -> Path:
    """The folder in which the program has to be started: this one, or the nearest above the description that has all its sources."""
    here, path = Path.cwd(), Path(cart).resolve()
    try:
        sources = [chip.source for chip in Description.of(path.read_bytes()).chips if chip.source is not None]
    except OSError:
        return here
    folders = [here, *path.parents]
    return next((folder for folder in folders if all((folder / source).is_file() for source in sources)), here)
