"""A long trial of the program: random files, and for each answer another way to it. The models of the tests are used, so they can be imported."""
from __future__ import annotations

import sys

from companion.words import TOP

sys.path.append(str(TOP / 'tools/tests'))  # where the models lie
