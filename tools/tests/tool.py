"""What the tests of all tools have alike: how a tool is called, where the program is, and a frame to draw."""
from __future__ import annotations

import importlib.machinery
import importlib.util
import os
import subprocess
import sys
import unittest
from pathlib import Path
from types import ModuleType

TOOLS = Path(__file__).resolve().parent.parent
TOP = TOOLS.parent
sys.path.insert(0, str(TOOLS))  # where the package `companion` lies
PROGRAM = Path(os.environ.get('CHANNEL_F_PROGRAM') or TOP / 'crates/channel_f_main/out/channel_f_main').absolute()

HAS_PROGRAM = os.access(PROGRAM, os.X_OK)

try:
    import tomllib
except ImportError:  # before Python 3.11
    tomllib = None

needs_toml = unittest.skipUnless(tomllib, 'Python before 3.11 has no reader of TOML')
needs_program = unittest.skipUnless(HAS_PROGRAM, 'the program is not built')
if not HAS_PROGRAM:
    print(f'tools/tests: {PROGRAM} is not there, so the tests that need the program are skipped', file=sys.stderr)


def load(name: str, folder: Path = TOOLS) -> ModuleType:
    """A tool as a module, so that its functions can be called."""
    loader = importlib.machinery.SourceFileLoader(name, str(folder / name))
    module = importlib.util.module_from_spec(importlib.util.spec_from_loader(name, loader))
    sys.modules[name] = module
    loader.exec_module(module)
    return module


def plain() -> dict[str, str]:
    """The environment without what changes how a tool looks, or writes."""
    return {key: value for key, value in os.environ.items() if key not in ('NO_COLOR', 'COLORTERM', 'COLUMNS', 'PYTHONUNBUFFERED')}


def call(name: str, *words: object, stdin: bytes | str = b'', cwd: Path = TOP, **environment: str) -> subprocess.CompletedProcess:
    """Runs a tool from the top of the repository, on the program of the tests."""
    given = stdin if isinstance(stdin, bytes) else stdin.encode()
    done = subprocess.run([sys.executable, TOOLS / name, *map(str, words)], input=given, cwd=cwd, capture_output=True,
                          timeout=60, env={**plain(), 'CHANNEL_F_PROGRAM': str(PROGRAM), **environment})
    done.text, done.told = done.stdout.decode('utf-8', 'replace'), done.stderr.decode('utf-8', 'replace')
    return done


def frame(number: int = 20, rows: list[str] | None = None) -> str:
    """The lines of a frame, of 64 rows of digits; without rows all pixels are 0."""
    lines = [f'0 {row}' for row in rows or ['0' * 128] * 64]
    return f'frame {number} phi 596600 tone 0\n' + ''.join(line + '\n' for line in lines)
