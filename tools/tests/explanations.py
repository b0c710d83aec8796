"""What `explain` says of a line, where the files that it is about have given texts."""
from __future__ import annotations

import os
import tempfile
from pathlib import Path

import tool  # noqa: F401 (it says where the package `companion` lies)
from companion.explaining.files import NAMES, Files
from companion.explaining.lines import explain


def explanation(line: str, **files: str) -> str:
    """The explanation. Files with the names of explain's options are named to it, and others lie beside them."""
    here = os.getcwd()
    with tempfile.TemporaryDirectory() as folder:
        for name, text in files.items():
            (Path(folder) / name).write_bytes(text.encode())
        os.chdir(folder)
        try:
            told = explain(line, Files(names={name: name for name in files if name in NAMES}))
        finally:
            os.chdir(here)
    return ''.join(line + '\n' for line in told)
